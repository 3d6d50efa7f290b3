/*
 * A state in a file, as docs/GUIDE.md ("A saved state") has its bytes; desk and the Rust package read and write the same. It is compiled as visit.c is:
 *
 *     cc -std=c99 examples/saved.c $(pkg-config --cflags --libs pilgonca) -o saved
 *     ./saved examples/case-p.sheet visit.state    puts the requests of examples/optional.script to the sheet, and saves the state
 *     ./saved visit.state                          reads it, and says what it has
 */
#include "pilgonca.h"

#include <stdio.h>
#include <string.h>

enum { HEAD = 26, SUM = 4, PARTS = 5 };
enum { OLDEST = 1, OLDEST_CALLS = 256 }; /* the oldest version that is read: its bytes stand in the same places, and it has at most so many calls */
enum { SUBJECTS = 0, CALLS = 7 };        /* their index among the counts */

static const uint8_t MARK[] = { 'P', 'I', 'L', 'G', 'O', 'N', 'C', 'A' };
static const size_t MOST[PILGONCA_STATE_COUNTS] = {
    PILGONCA_SUBJECTS, PILGONCA_METHODS, PILGONCA_CATEGORIES, PILGONCA_SHEET_TYPES, PILGONCA_TYPES, PILGONCA_CELLS, PILGONCA_PLACES, PILGONCA_CALLS
};

static struct pilgonca_state visit;
static uint8_t file[PILGONCA_INPUT_BYTES]; /* room for every saved state, and for every sheet */

/* The counted records of an array, and how many bytes they have. */
struct part {
    uint8_t *bytes;
    size_t length;
};

/* The parts in the order of the file. Category 0 has no links, so those of category 1 come first. */
static void parts_of(struct pilgonca_state *state, struct part parts[PARTS])
{
    const size_t *counts = state->counts;

    parts[0] = (struct part){ state->types, 128 * counts[4] };
    parts[1] = (struct part){ state->links + 3, 3 * counts[2] };
    parts[2] = (struct part){ state->cells, 3 * counts[5] };
    parts[3] = (struct part){ state->places, 3 * counts[6] };
    parts[4] = (struct part){ state->calls, 4 * counts[7] };
}

/* The most calls of one subject. A call has four bytes, and the caller is the first; one that is no subject is another reason for 2 (H11). */
static size_t most_made(const struct pilgonca_state *state)
{
    size_t made[256] = {0}, most = 0;

    for (size_t which = 0; which < state->counts[CALLS]; which++) made[state->calls[4 * which]]++;
    for (size_t subject = 0; subject < state->counts[SUBJECTS]; subject++) {
        if (made[subject] > most) most = made[subject];
    }
    return most;
}

static uint32_t checksum(const uint8_t *bytes, size_t length)
{
    uint32_t rest = 0xffffffff;

    for (size_t at = 0; at < length; at++) {
        rest ^= bytes[at];
        for (int bit = 0; bit < 8; bit++) rest = (rest >> 1) ^ ((rest & 1) != 0 ? 0xedb88320 : 0);
    }
    return rest ^ 0xffffffff;
}

/* A number with its lowest byte first. */
static void put(uint8_t *bytes, size_t how_many, uint32_t number)
{
    for (size_t at = 0; at < how_many; at++) bytes[at] = (uint8_t)(number >> 8 * at);
}

static uint32_t got(const uint8_t *bytes, size_t how_many)
{
    uint32_t number = 0;

    for (size_t at = how_many; at > 0; at--) number = number << 8 | bytes[at - 1];
    return number;
}

/* The bytes of a state that the core gave, and how many they are. */
static size_t save(struct pilgonca_state *state, uint8_t *bytes)
{
    struct part parts[PARTS];
    size_t length = HEAD;

    memcpy(bytes, MARK, sizeof MARK);
    put(bytes + 8, 2, PILGONCA_STATE_VERSION);
    for (size_t which = 0; which < PILGONCA_STATE_COUNTS; which++) put(bytes + 10 + 2 * which, 2, (uint32_t)state->counts[which]);
    parts_of(state, parts);
    for (size_t which = 0; which < PARTS; which++) {
        memcpy(bytes + length, parts[which].bytes, parts[which].length);
        length += parts[which].length;
    }
    put(bytes + length, SUM, checksum(bytes, length));
    return length + SUM;
}

/* The state of a file; NULL, or why it is none, and then the state is not to be used. */
static const char *restore(struct pilgonca_state *state, const uint8_t *bytes, size_t length)
{
    const int64_t no_methods = 0;
    struct part parts[PARTS];
    size_t due = HEAD, offered;
    uint32_t version;

    if (length < sizeof MARK || memcmp(bytes, MARK, sizeof MARK) != 0) return "no saved state";
    if (length < HEAD + SUM) return "cut short";
    version = got(bytes + 8, 2);
    if (version != OLDEST && version != PILGONCA_STATE_VERSION) return "of another version";
    memset(state, 0, sizeof *state);
    for (size_t which = 0; which < PILGONCA_STATE_COUNTS; which++) {
        state->counts[which] = got(bytes + 10 + 2 * which, 2);
        if (state->counts[which] > MOST[which]) return "a count is above its limit";
    }
    if (version == OLDEST && state->counts[CALLS] > OLDEST_CALLS) return "a count is above its limit";
    parts_of(state, parts);
    for (size_t which = 0; which < PARTS; which++) due += parts[which].length;
    if (length != due + SUM) return length < due + SUM ? "cut short" : "too long";
    if (got(bytes + due, SUM) != checksum(bytes, due)) return "damaged";
    for (size_t which = 0, at = HEAD; which < PARTS; at += parts[which++].length) memcpy(parts[which].bytes, bytes + at, parts[which].length);
    /* what a file holds is handed in: the core says whether it is sound. Of version 1 it may be whole, and hold more calls of a subject than it makes now */
    if (pilgonca_offers(PILGONCA_STATE_OF(state), 0, &no_methods, 0, &offered) != PILGONCA_OK)
        return most_made(state) > PILGONCA_CALLS_EACH ? "refused by the core: a subject has made too many calls" : "refused by the core";
    return NULL;
}

/* All of a file; more than there is room for is too long for what it shall be. */
static size_t read_file(const char *name)
{
    FILE *from = fopen(name, "rb");
    size_t length;

    if (from == NULL) return 0;
    length = fread(file, 1, sizeof file, from);
    fclose(from);
    return length;
}

static int write_file(const char *name, size_t length)
{
    FILE *to = fopen(name, "wb");

    if (to == NULL) return 0;
    return (fwrite(file, 1, length, to) == length) & (fclose(to) == 0);
}

/* The requests of examples/optional.script: whether all are accepted. */
static int served(void)
{
    const int64_t page = 7, none = 0;
    int64_t values[PILGONCA_VALUES];

    return pilgonca_new(PILGONCA_STATE_OF(&visit), 0, 1, 4, values) == PILGONCA_OK
        && pilgonca_move(PILGONCA_STATE_OF(&visit), 0, 0, 2, 3, values) == PILGONCA_OK
        && pilgonca_move(PILGONCA_STATE_OF(&visit), 2, 1, 2, 5, values) == PILGONCA_OK
        && pilgonca_call(PILGONCA_STATE_OF(&visit), 2, 2, 1, &page, 1, values) == PILGONCA_OK
        && pilgonca_call(PILGONCA_STATE_OF(&visit), 0, 0, 0, &none, 0, values) == PILGONCA_OK
        && pilgonca_answer(PILGONCA_STATE_OF(&visit), 0, 1, 1, 12, values) == PILGONCA_OK;
}

int main(int argc, char **argv)
{
    const char *why = NULL;
    size_t at;

    if (argc == 3) {
        if (pilgonca_load(file, read_file(argv[1]), PILGONCA_STATE_OF(&visit), &at) != PILGONCA_OK) why = "no sheet";
        else if (!served()) why = "another sheet than Case P's";
        else if (!write_file(argv[2], save(&visit, file))) why = "cannot be written";
    } else if (argc == 2) {
        why = restore(&visit, file, read_file(argv[1]));
        if (why == NULL) printf("cells %zu, places %zu, calls %zu\n", visit.counts[5], visit.counts[6], visit.counts[7]);
    } else {
        why = "usage: saved SHEET STATE, or saved STATE";
    }
    if (why != NULL) fprintf(stderr, "%s\n", why);
    return why != NULL;
}
