/*
 * Four arguments in one call, on the sheet of examples/route.sheet: a route module hands start, end, speed and log over together, and the firmware tells
 * the keeper of the recorder which cells they became. examples/route.out is what it prints. It is compiled as visit.c is:
 *
 *     cc -std=c99 examples/route.c $(pkg-config --cflags --libs pilgonca) -o route && ./route examples/route.sheet
 */
#include "pilgonca.h"

#include <inttypes.h>
#include <stdio.h>
#include <stdlib.h>

/* What the numbers of the sheet stand for. */
enum { KEEPER, ROUTE };          /* subjects */
enum { READ, MARK, RECORD };     /* methods: record takes start, end, speed and log */
enum { POINT = 1, LOG, RECORDER = 5, LENT = 6 }; /* types: three classes, and a recorder as others see it */
enum { START, END, SPEED, BOOK }; /* the arguments of record */

static struct pilgonca_state state;
static int64_t values[PILGONCA_VALUES];

static void load(const char *name)
{
    static uint8_t text[PILGONCA_INPUT_BYTES];
    FILE *file = fopen(name, "rb");
    size_t length, at, refusal;

    if (file == NULL) {
        perror(name);
        exit(1);
    }
    length = fread(text, 1, sizeof text, file);
    fclose(file);
    refusal = pilgonca_load(text, length, PILGONCA_STATE_OF(&state), &at);
    if (refusal != PILGONCA_OK) {
        fprintf(stderr, "%s: refused with %zu at byte %zu: %s\n", name, refusal, at, pilgonca_refusal_text(refusal));
        exit(1);
    }
}

/* What has to be accepted; its first value is a cell. */
static int64_t cell_of(size_t refusal)
{
    if (refusal != PILGONCA_OK) {
        fprintf(stderr, "refused with %zu: %s\n", refusal, pilgonca_refusal_text(refusal));
        exit(1);
    }
    return values[1];
}

static int64_t make(int64_t subject, int64_t class_)
{
    return cell_of(pilgonca_new(PILGONCA_STATE_OF(&state), subject, class_, class_, values));
}

/* A call, and what the references among its arguments became: cells from the count before on. */
static void call(const char *what, int64_t subject, int64_t cell, int64_t method, const int64_t *arguments, size_t how_many)
{
    size_t next = state.counts[5];
    size_t refusal = pilgonca_call(PILGONCA_STATE_OF(&state), subject, cell, method, arguments, how_many, values);

    if (refusal != PILGONCA_OK) {
        printf("%s: refused with %zu: %s\n", what, refusal, pilgonca_refusal_text(refusal));
        return;
    }
    printf("%s: call %" PRId64 ", adapters %" PRId64 "\n", what, values[1], values[2]);
    for (; next < state.counts[5]; next++) {
        const uint8_t *record = state.cells + 3 * next;
        printf("  cell %zu: subject %d holds it, type %d, place %d\n", next, record[0], record[1], record[2]);
    }
}

int main(int argc, char **argv)
{
    int64_t given[PILGONCA_ARGUMENTS + 1] = {0};
    int64_t recorder, lent, log, first;
    const int64_t mark = 12;

    if (argc != 2) {
        fprintf(stderr, "usage: route SHEET\n");
        return 2;
    }
    load(argv[1]);
    given[START] = make(ROUTE, POINT);
    given[END] = make(ROUTE, POINT);
    given[BOOK] = log = make(ROUTE, LOG);
    given[SPEED] = 5;
    recorder = make(KEEPER, RECORDER);
    lent = cell_of(pilgonca_move(PILGONCA_STATE_OF(&state), KEEPER, recorder, ROUTE, LENT, values));

    first = (int64_t)state.counts[5];
    call("the route module records start, end, speed and log", ROUTE, lent, RECORD, given, PILGONCA_ARGUMENTS);
    call("the keeper marks the log, its third new cell", KEEPER, first + 2, MARK, &mark, 1);
    call("the keeper reads the log, which it got to mark alone", KEEPER, first + 2, READ, given, 0);
    call("three arguments", ROUTE, lent, RECORD, given, PILGONCA_ARGUMENTS - 1);
    call("five arguments", ROUTE, lent, RECORD, given, PILGONCA_ARGUMENTS + 1);
    given[SPEED] = INT64_C(2147483648);
    call("a speed of more than 32 bits", ROUTE, lent, RECORD, given, PILGONCA_ARGUMENTS);
    given[SPEED] = 5;
    given[BOOK] = given[START];
    call("a point where the log is due", ROUTE, lent, RECORD, given, PILGONCA_ARGUMENTS);
    given[BOOK] = log;
    call("the route module records once more", ROUTE, lent, RECORD, given, PILGONCA_ARGUMENTS);
    return 0;
}
