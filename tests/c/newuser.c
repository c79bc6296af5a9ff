/*
 * A first program: reads the strings of a dump's row, and tells why one of them cannot be read.
 *
 *     cc newuser.c $(pkg-config --cflags --libs valdrabus)
 */
#include <stdio.h>
#include <valdrabus.h>

/* A row of a MySQL dump, in which \' is a quote: the setting is 1. Where a backslash is a backslash, as in PostgreSQL's dumps, it is 0. */
static const char row[] = "('Bob\\'s balm', '50' ' ml', 'a 'cm' tape')";
enum { SETTING = 1 };

/* No value is longer than its text, so a buffer of the row's length has room for each. */
static uint8_t room[sizeof row];

/* A literal is the bytes start to end of the row, end not included. */
static void show(uint32_t start, uint32_t end)
{
    uint32_t how, number;
    size_t first, second, place;
    number = valdrabus_as_str_in(VALDRABUS_KIND_STRING, 0, start, end, (const uint8_t *)row, sizeof row - 1, SETTING,
                                 room, sizeof room, &how, &first, &second, &place);
    if (number != VALDRABUS_OK) {
        /* A string that cannot be read tells the place where it broke, counted from its own start. */
        printf("refused: %s, at byte %u of the row\n", valdrabus_message(number), (unsigned)(start + place));
        return;
    }
    /* A value that stands in the row as it is, is shown there; any other has been written into the buffer. The bytes are UTF-8, and no NUL ends them. */
    printf("%.*s\n", (int)(second - first), (how == VALDRABUS_BORROWED ? row : (const char *)room) + first);
}

int main(void)
{
    if (valdrabus_version() != VALDRABUS_VERSION)
        return 2; /* header and library do not fit */
    show(1, 14);
    show(16, 26);
    show(28, 41);
    return 0;
}
