/*
 * Every tiny sheet: the text of all of them, taken apart behind each `end=sheet`, and each piece read. examples/tiny.out is what it prints. It is compiled
 * as visit.c is, and takes no sheet:
 *
 *     cc -std=c99 examples/tiny.c $(pkg-config --cflags --libs pilgonca) -o tiny && ./tiny
 */
#include "pilgonca.h"

#include <stdio.h>
#include <string.h>

static uint8_t text[PILGONCA_TINY_BYTES];
static struct pilgonca_table table;

/* The length of the first sheet of a text: up to and with the LF of its `end=sheet` line. Where there is none it is all of the text. */
static size_t first_sheet(const uint8_t *from, size_t length)
{
    static const char end[] = "end=sheet\n";
    size_t size = sizeof end - 1, at = 0;

    while (at < length) {
        const uint8_t *feed = memchr(from + at, '\n', length - at);
        size_t next = feed == NULL ? length : (size_t)(feed - from) + 1;

        if (next - at == size && memcmp(from + at, end, size) == 0) return next;
        at = next;
    }
    return length;
}

int main(void)
{
    size_t length, at = 0, wrong, sheets = 0, refusal;

    refusal = pilgonca_tiny(text, sizeof text - 1, &length);
    printf("a buffer of %zu bytes: refused with %zu: %s\n", sizeof text - 1, refusal, pilgonca_refusal_text(refusal));
    refusal = pilgonca_tiny(text, sizeof text, &length);
    if (refusal != PILGONCA_OK) {
        fprintf(stderr, "refused with %zu: %s\n", refusal, pilgonca_refusal_text(refusal));
        return 1;
    }
    printf("a buffer of %zu bytes: %zu are written\n", sizeof text, length);
    while (at < length) {
        size_t size = first_sheet(text + at, length - at);

        refusal = pilgonca_read(text + at, size, PILGONCA_TABLE_OF(&table), &wrong);
        if (refusal != PILGONCA_OK) {
            fprintf(stderr, "sheet %zu is refused with %zu at byte %zu: %s\n", sheets, refusal, wrong, pilgonca_refusal_text(refusal));
            return 1;
        }
        sheets++;
        at += size;
    }
    printf("%zu sheets, and each is accepted\n", sheets);
    return 0;
}
