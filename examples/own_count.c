/*
 * Each subject has its own count of calls: a chatty scanner makes all of its own, and the player still has all of its own. On the sheet of Case P, whose three
 * subjects are here a desk, a scanner and a player. examples/own_count.out is what it prints. It is compiled as visit.c is:
 *
 *     cc -std=c99 examples/own_count.c $(pkg-config --cflags --libs pilgonca) -o own_count && ./own_count examples/case-p.sheet
 */
#include "pilgonca.h"

#include <inttypes.h>
#include <stdio.h>
#include <stdlib.h>

/* What the numbers of the sheet stand for. */
enum { DESK, SCANNER, PLAYER };             /* subjects */
enum { READ, MARK };                        /* methods: read answers with a number, mark takes one */
enum { LOG = 1, READER = 2, WHOLE = 4 };    /* types: a class; read alone; the owner's */
enum { CALLS = 7, CALLER = 0, RECORD = 4 }; /* the index of their count; in a call's record the caller's byte, and how many bytes there are */

static struct pilgonca_state state;
static int64_t values[PILGONCA_VALUES];
static const int64_t none;

static void load(const char *name)
{
    static uint8_t text[PILGONCA_INPUT_BYTES];
    FILE *file = fopen(name, "rb");
    size_t length, at, refusal;

    if (file == NULL) {
        perror(name);
        exit(1);
    }
    length = fread(text, 1, sizeof text, file);
    fclose(file);
    refusal = pilgonca_load(text, length, PILGONCA_STATE_OF(&state), &at);
    if (refusal != PILGONCA_OK) {
        fprintf(stderr, "%s: refused with %zu at byte %zu: %s\n", name, refusal, at, pilgonca_refusal_text(refusal));
        exit(1);
    }
}

/* What has to be accepted; its first value is a cell. */
static int64_t cell_of(size_t refusal)
{
    if (refusal != PILGONCA_OK) {
        fprintf(stderr, "refused with %zu: %s\n", refusal, pilgonca_refusal_text(refusal));
        exit(1);
    }
    return values[1];
}

static int64_t lend(int64_t cell, int64_t receiver)
{
    return cell_of(pilgonca_move(PILGONCA_STATE_OF(&state), DESK, cell, receiver, READER, values));
}

static void told(const char *what, size_t refusal)
{
    printf("%s: ", what);
    if (refusal != PILGONCA_OK) printf("refused with %zu: %s\n", refusal, pilgonca_refusal_text(refusal));
    else if (values[0] == 2) printf("call %" PRId64 "\n", values[1]);
    else printf("the number %" PRId64 "\n", values[1]);
}

static size_t read_by(int64_t subject, int64_t cell)
{
    return pilgonca_call(PILGONCA_STATE_OF(&state), subject, cell, READ, &none, 0, values);
}

/* Nothing but the calls themselves says how many a subject has made. */
static size_t made_by(uint8_t subject)
{
    size_t made = 0;

    for (size_t which = 0; which < state.counts[CALLS]; which++) made += state.calls[RECORD * which + CALLER] == subject;
    return made;
}

static void counted(void)
{
    printf("  calls made: desk %zu, scanner %zu, player %zu; at most %d each\n", made_by(DESK), made_by(SCANNER), made_by(PLAYER), PILGONCA_CALLS_EACH);
}

int main(int argc, char **argv)
{
    int64_t whole, scanners, players;
    size_t accepted = 0, refusal;

    if (argc != 2) {
        fprintf(stderr, "usage: own_count SHEET\n");
        return 2;
    }
    load(argv[1]);
    whole = cell_of(pilgonca_new(PILGONCA_STATE_OF(&state), DESK, LOG, WHOLE, values));
    scanners = lend(whole, SCANNER);
    players = lend(whole, PLAYER);

    refusal = pilgonca_call(PILGONCA_STATE_OF(&state), SCANNER, scanners, MARK, &none, 1, values);
    told("the scanner calls mark, which it may not", refusal);
    while ((refusal = read_by(SCANNER, scanners)) == PILGONCA_OK) accepted++;
    printf("the scanner reads as often as it can: %zu times, then refused with %zu: %s\n", accepted, refusal, pilgonca_refusal_text(refusal));
    counted();
    told("the desk answers the scanner's first call", pilgonca_answer(PILGONCA_STATE_OF(&state), DESK, 0, 1, 12, values));
    told("the scanner reads, and an answer has given nothing back", read_by(SCANNER, scanners));
    told("the player reads", read_by(PLAYER, players));
    told("the desk answers the player", pilgonca_answer(PILGONCA_STATE_OF(&state), DESK, values[1], 1, 13, values));
    counted();
    for (accepted = 0; (refusal = read_by(PLAYER, players)) == PILGONCA_OK;) accepted++;
    printf("the player reads as often as it can: %zu times more, then refused with %zu\n", accepted, refusal);
    told("the desk, whose log they read, reads it too", read_by(DESK, whole));
    counted();
    return 0;
}
