/*
 * A visit log through its week, on the sheet of Case P. examples/visit.out is what it prints. From the root of the repository:
 *
 *     tools/install /tmp/pilgonca && export PKG_CONFIG_PATH=/tmp/pilgonca/lib/pkgconfig
 *     cc -std=c99 examples/visit.c $(pkg-config --cflags --libs pilgonca) -o visit && ./visit examples/case-p.sheet
 */
#include "pilgonca.h"

#include <inttypes.h>
#include <stdio.h>
#include <stdlib.h>

/* What the numbers of the sheet stand for. */
enum { DESK, TOUR, SHOP }; /* subjects */
enum { READ, MARK };       /* methods */
enum { LOG = 1, READER = 2, FORWARDER = 3, WHOLE = 4, MARKER = 5 }; /* types: a class; read; read, and mark is optional; the owner's; mark */

/* The program is the firmware: it keeps the state and lends it to every call, and it says which subject asks. */
static struct pilgonca_state visit;
static int64_t values[PILGONCA_VALUES];

static void load(const char *name)
{
    static uint8_t text[PILGONCA_INPUT_BYTES];
    FILE *file = fopen(name, "rb");
    size_t length, at, refusal;

    if (file == NULL) {
        perror(name);
        exit(1);
    }
    length = fread(text, 1, sizeof text, file);
    fclose(file);
    refusal = pilgonca_load(text, length, PILGONCA_STATE_OF(&visit), &at);
    if (refusal != PILGONCA_OK) {
        fprintf(stderr, "%s: refused with %zu at byte %zu: %s\n", name, refusal, at, pilgonca_refusal_text(refusal));
        exit(1);
    }
    printf("the sheet is loaded: %zu subjects, %zu methods, %zu types\n", visit.counts[0], visit.counts[1], visit.counts[3]);
}

/* Prints what a request came to, and gives its first value: the number of a cell or a call. */
static int64_t came_to(const char *what, size_t refusal, const char *first, const char *second)
{
    printf("%s: ", what);
    if (refusal != PILGONCA_OK) {
        printf("refused with %zu: %s\n", refusal, pilgonca_refusal_text(refusal));
        return -1;
    }
    if (values[0] > 0) printf("%s %" PRId64, first, values[1]);
    if (values[0] > 1) printf(", %s %" PRId64, second, values[2]);
    puts(values[0] == 0 ? "done" : "");
    return values[1];
}

static int64_t make(const char *what, int64_t subject, int64_t class_, int64_t type)
{
    return came_to(what, pilgonca_new(PILGONCA_STATE_OF(&visit), subject, class_, type, values), "cell", "place");
}

static int64_t lend(const char *what, int64_t subject, int64_t cell, int64_t receiver, int64_t type)
{
    return came_to(what, pilgonca_move(PILGONCA_STATE_OF(&visit), subject, cell, receiver, type, values), "cell", "place");
}

static int64_t call(const char *what, int64_t subject, int64_t cell, int64_t method, const int64_t *arguments, size_t how_many)
{
    return came_to(what, pilgonca_call(PILGONCA_STATE_OF(&visit), subject, cell, method, arguments, how_many, values), "call", "adapters");
}

static void answer(const char *what, int64_t subject, int64_t called, size_t given, int64_t value)
{
    came_to(what, pilgonca_answer(PILGONCA_STATE_OF(&visit), subject, called, given, value, values), "the number", "");
}

static void ask(const char *what, int64_t cell, int64_t method)
{
    size_t offered = 0;
    size_t refusal = pilgonca_offers(PILGONCA_STATE_OF(&visit), cell, &method, 1, &offered);

    printf("%s: %s\n", what, refusal != PILGONCA_OK ? "refused" : offered ? "yes" : "no");
}

int main(int argc, char **argv)
{
    const int64_t page = 5, next = 6;
    int64_t whole, lent, passed, direct, back, called;

    if (argc != 2) {
        fprintf(stderr, "usage: visit SHEET\n");
        return 2;
    }
    load(argv[1]);
    whole = make("Monday, the desk makes a log and holds it whole", DESK, LOG, WHOLE);
    lent = lend("Tuesday, it lends the log to the tour, to read", DESK, whole, TOUR, READER);
    called = call("Tuesday, the tour reads", TOUR, lent, READ, &page, 0);
    answer("Tuesday, the desk answers", DESK, called, 1, 12);
    passed = lend("Wednesday, the tour passes it on as a forwarder: an adapter without mark", TOUR, lent, SHOP, FORWARDER);
    ask("Wednesday, can a mark come of what the shop holds", passed, MARK);
    lend("Thursday, the shop hands it to itself as a marker, and meets the adapter", SHOP, passed, SHOP, MARKER);
    called = call("Thursday, the shop reads", SHOP, passed, READ, &page, 0);
    answer("Thursday, the desk answers", DESK, called, 1, 13);
    direct = lend("Friday, the desk itself lends it to the shop as a forwarder", DESK, whole, SHOP, FORWARDER);
    direct = lend("Friday, the shop hands that to itself as a marker", SHOP, direct, SHOP, MARKER);
    called = call("Friday, the shop marks page 5", SHOP, direct, MARK, &page, 1);
    answer("Friday, the desk answers", DESK, called, 0, 0);
    lend("Saturday, the shop tries to have it whole", SHOP, passed, SHOP, WHOLE);
    back = lend("Saturday, the shop gives it back to the desk", SHOP, passed, DESK, WHOLE);
    called = call("Sunday, the desk marks page 6", DESK, back, MARK, &next, 1);
    answer("Sunday, the desk answers itself", DESK, called, 0, 0);
    return 0;
}
