/*
 * Marks of a log against the arrivals of a door counter: how many go together within a tolerance, and how many are left on each side. examples/doors.out is
 * what it prints. It is compiled as visit.c is, and takes no file:
 *
 *     cc -std=c99 examples/doors.c $(pkg-config --cflags --libs pilgonca) -o doors && ./doors
 */
#include "pilgonca.h"

#include <inttypes.h>
#include <stdio.h>

#define LENGTH(list) (sizeof (list) / sizeof *(list))

/* Milliseconds by one clock, in their order; two marks of one moment are two. */
static const uint64_t marks[] = {1000, 8000, 61000, 61000, 95000};
static const uint64_t arrivals[] = {1200, 9500, 60400, 120000};
/* Two logs that were put one behind the other and not sorted. */
static const uint64_t unsorted[] = {8000, 61000, 1000};

static size_t counts[PILGONCA_DOOR_COUNTS];

static void hold(const uint64_t *list, size_t length, uint64_t within)
{
    size_t refusal = pilgonca_doors(list, length, arrivals, LENGTH(arrivals), within, counts);

    printf("%zu marks, %zu arrivals, within %" PRIu64 " ms: ", length, LENGTH(arrivals), within);
    if (refusal != PILGONCA_OK) {
        printf("refused with %zu: %s\n", refusal, pilgonca_refusal_text(refusal));
        return;
    }
    printf("pairs %zu, unpaired marks %zu, unpaired arrivals %zu\n", counts[0], counts[1], counts[2]);
}

int main(void)
{
    hold(marks, LENGTH(marks), 0);
    hold(marks, LENGTH(marks), 500);
    hold(marks, LENGTH(marks), 1500);
    hold(marks, LENGTH(marks), PILGONCA_TOLERANCE);
    hold(unsorted, LENGTH(unsorted), 1500);
    hold(marks, LENGTH(marks), PILGONCA_TOLERANCE + 1);
    printf("the counts are still %zu, %zu and %zu\n", counts[0], counts[1], counts[2]);
    return 0;
}
