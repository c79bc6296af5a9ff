/*
 * Reads one string literal, all of standard input, at the setting 0, and prints its value's length. tools/linear.py counts its instructions.
 */
#include "valdrabus.h"

#include <stdio.h>

#define ROOM 524288

/* Not cleared: no instruction but those of reading is spent on them. */
static uint8_t text[ROOM];
static uint8_t out[ROOM];

int main(void)
{
    size_t len = fread(text, 1, ROOM, stdin);
    uint32_t how;
    size_t first, second, place;
    uint32_t number;

    if (len == ROOM) {
        fprintf(stderr, "linear.c: the literal is too long\n");
        return 1;
    }
    number = valdrabus_as_str_in(VALDRABUS_KIND_STRING, 0, 0, (uint32_t)len, text, len, 0, out, ROOM, &how, &first, &second, &place);
    if (number != VALDRABUS_OK) {
        fprintf(stderr, "linear.c: refused by %u, place %zu\n", (unsigned)number, place);
        return 1;
    }
    printf("%zu\n", second - first);
    return 0;
}
