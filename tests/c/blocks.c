/*
 * Reads blocks of string literals, and compares the number, every number of the answer slice and every byte of the buffer, past their lengths too, with what the
 * table of request T-03 says (but for the settings above 1, which a later request brings), and with single calls. Prints one line; ends with status 1 at the first
 * difference, having said where it stands.
 */
#define _DEFAULT_SOURCE /* for mmap without a file */

#include "valdrabus.h"

#include "check.h"

#include <string.h>
#include <sys/mman.h>

/* More than any row has. */
#define MOST_NUMBERS 24
#define MOST_BYTES 24

/* The longest buffer that is taken. */
#define LONGEST 4294967295u

/* A row of the request's table. Lengths count numbers; told has as many as items, and none on 15. */
struct row {
    const char *shows;
    size_t items_len;
    uint32_t items[16];
    const char *source;
    size_t answers_len;
    size_t room;
    uint32_t number;
    uint32_t told[16];
    const char *written;
};

static const struct row rows[] = {
    {"1: nothing asked", 0, {0}, "", 0, 0, 0, {0}, ""},
    {"2: past no items too the answers stay", 0, {0}, "", 2, 3, 0, {0}, ""},
    {"3: borrowed, a place in the source", 4, {4, 0, 0, 4}, "'ab'", 4, 0, 0, {0, 1, 1, 2}, ""},
    {"4: borrowed further on", 4, {4, 0, 3, 7}, "xyz'ab'", 7, 2, 0, {0, 1, 4, 2}, ""},
    {"5: written", 4, {4, 0, 0, 8}, "'ab' 'c'", 4, 5, 0, {0, 2, 0, 3}, "abc"},
    {"6: a written start is in the buffer", 8, {4, 0, 0, 7, 4, 0, 7, 14}, "'a' 'b'E'\\x63'", 8, 5, 0, {0, 2, 0, 2, 0, 2, 2, 1}, "abc"},
    {"7: the same literal twice", 8, {4, 0, 0, 7, 4, 0, 0, 7}, "'a' 'b'", 8, 4, 0, {0, 2, 0, 2, 0, 2, 2, 2}, "abab"},
    {"8: a borrowed answer needs no room", 12, {4, 0, 0, 7, 4, 0, 1, 2, 4, 0, 4, 7}, "'a' 'b'", 12, 2, 0, {0, 2, 0, 2, 6, 0, 0, 0, 0, 1, 5, 1}, "ab"},
    {"9: 9 takes no room and stops nothing", 8, {4, 0, 0, 11, 4, 0, 0, 7}, "'a' 'b' 'c'", 8, 2, 0, {9, 0, 0, 3, 0, 2, 0, 2}, "ab"},
    {"10: the length in 9 is the item's own", 12, {4, 0, 0, 7, 4, 0, 0, 11, 4, 0, 0, 7}, "'a' 'b' 'c'", 12, 4, 0, {0, 2, 0, 2, 9, 0, 0, 3, 0, 2, 2, 2}, "abab"},
    {"11: an empty text stands where the room begins", 8, {4, 0, 0, 7, 4, 0, 7, 12}, "'a' 'b''' ''", 8, 2, 0, {0, 2, 0, 2, 0, 2, 2, 0}, "ab"},
    {"12: an empty text in no room", 4, {4, 0, 0, 5}, "'' ''", 4, 0, 0, {0, 2, 0, 0}, ""},
    {"13: a byte that is too little stays", 8, {4, 0, 0, 7, 4, 0, 0, 7}, "'a' 'b'", 8, 3, 0, {0, 2, 0, 2, 9, 0, 0, 2}, "ab"},
    {"14: a lone quote, its place from the text's start", 4, {4, 0, 2, 7}, "xx'a'b'", 4, 0, 0, {6, 0, 2, 0}, ""},
    {"15: bytes that become no UTF-8", 4, {4, 0, 0, 11}, "E'\\xC3' 'b'", 4, 4, 0, {6, 0, 6, 0}, ""},
    {"16: the empty text", 4, {4, 0, 0, 0}, "'a'", 4, 0, 0, {6, 0, 0, 0}, ""},
    {"17: on 1 the fields are zero", 4, {8, 0, 0, 3}, "'a'", 4, 0, 0, {1, 0, 0, 0}, ""},
    {"18: 1 stops nothing", 8, {14, 0, 0, 3, 4, 0, 0, 3}, "'a'", 8, 0, 0, {1, 0, 0, 0, 0, 1, 1, 1}, ""},
    {"19: the string question for every kind", 4, {12, 0, 0, 4}, "B'0'", 4, 9, 0, {1, 0, 0, 0}, ""},
    {"20: on 3 the fields are zero", 4, {4, 0, 3, 0}, "'a'", 4, 0, 0, {3, 0, 0, 0}, ""},
    {"21: an end past the source", 4, {4, 0, 0, 4294967295u}, "'a'", 4, 0, 0, {3, 0, 0, 0}, ""},
    {"22: a start past it too", 4, {4, 0, 4294967295u, 4294967295u}, "'a'", 4, 0, 0, {3, 0, 0, 0}, ""},
    {"23: the end cuts a character", 4, {4, 0, 0, 2}, "'\xC3\xA9'", 4, 0, 0, {3, 0, 0, 0}, ""},
    {"24: on 4 the fields are zero", 4, {4, 0, 0, 3}, "'\xFF'", 4, 0, 0, {4, 0, 0, 0}, ""},
    {"25: 4 stops nothing", 8, {4, 0, 0, 3, 4, 0, 3, 6}, "'\xFF''a'", 8, 0, 0, {4, 0, 0, 0, 0, 1, 4, 1}, ""},
    {"26: an unknown kind", 4, {0, 0, 0, 3}, "'a'", 4, 0, 0, {10, 0, 0, 0}, ""},
    {"27: the first that is too high", 4, {15, 0, 0, 3}, "'a'", 4, 0, 0, {10, 0, 0, 0}, ""},
    {"28: the last", 4, {4294967295u, 0, 0, 3}, "'a'", 4, 0, 0, {10, 0, 0, 0}, ""},
    {"29: an unknown setting", 4, {4, 8, 0, 3}, "'a'", 4, 0, 0, {10, 0, 0, 0}, ""},
    {"30: 10 ahead of 1", 4, {8, 8, 0, 3}, "'a'", 4, 0, 0, {10, 0, 0, 0}, ""},
    {"31: 10 ahead of 3", 4, {0, 0, 3, 0}, "'a'", 4, 0, 0, {10, 0, 0, 0}, ""},
    {"32: 1 ahead of 3", 4, {8, 0, 3, 0}, "'a'", 4, 0, 0, {1, 0, 0, 0}, ""},
    {"33: a setting for each item", 8, {4, 0, 0, 4, 4, 1, 0, 4}, "'\\n'", 8, 1, 0, {0, 1, 1, 2, 0, 2, 0, 1}, "\n"},
    {"34: the setting 2", 8, {4, 2, 0, 15, 4, 0, 0, 15}, "E'\\uD83D\\uDE00'", 8, 4, 0, {10, 0, 0, 0, 6, 0, 2, 0}, ""},
    {"35: the setting 4", 8, {4, 4, 0, 7, 4, 4, 8, 15}, "'a' 'b' 'a'\n'b'", 8, 4, 0, {10, 0, 0, 0, 10, 0, 0, 0}, ""},
    {"36: the setting 7", 4, {4, 7, 0, 3}, "'a'", 4, 0, 0, {10, 0, 0, 0}, ""},
    {"37: no quoting of Oracle's", 4, {4, 0, 0, 6}, "q'[a]'", 4, 0, 0, {6, 0, 0, 0}, ""},
    {"38: all of it, in a longer slice", 16, {4, 0, 0, 3, 4, 0, 0, 7, 0, 0, 0, 0, 4, 0, 4, 7}, "'a' 'b'", 17, 9, 0, {0, 1, 1, 1, 0, 2, 0, 2, 10, 0, 0, 0, 0, 1, 5, 1}, "ab"},
    {"39: five numbers are not in fours", 5, {4, 0, 0, 7, 4}, "'a' 'b'", 5, 4, 15, {0}, ""},
    {"40: three numbers are not", 3, {4, 0, 0}, "'a'", 4, 4, 15, {0}, ""},
    {"41: an answer slice of three numbers", 4, {4, 0, 0, 7}, "'a' 'b'", 3, 4, 15, {0}, ""},
    {"42: 15 before any item", 8, {0, 9, 0, 7, 4, 0, 0, 7}, "'a' 'b'", 7, 4, 15, {0}, ""},
    {"a place behind a written item", 8, {4, 0, 0, 7, 4, 0, 8, 13}, "'a' 'b','c'd'", 8, 2, 0, {0, 2, 0, 2, 6, 0, 2, 0}, "ab"},
    {"the place by each item's setting", 8, {4, 0, 0, 7, 4, 1, 0, 7}, "'a\\''b'", 8, 4, 0, {0, 2, 0, 4, 6, 0, 4, 0}, "a\\'b"},
    {"a place in the third segment", 8, {4, 0, 1, 16, 4, 0, 1, 8}, " 'a' 'b' E'\\400'", 8, 0, 0, {6, 0, 10, 0, 9, 0, 0, 2}, ""},
    {"the header's example", 8, {4, 0, 0, 4, 4, 0, 5, 11}, "'it','a''b'", 8, 9, 0, {0, 1, 1, 2, 0, 2, 0, 3}, "a'b"},
};

#define ROWS (sizeof rows / sizeof rows[0])

/* The two slices that a call is lent, with what stands behind them. */
struct slices {
    uint32_t answers[MOST_NUMBERS];
    uint8_t out[MOST_BYTES];
};

/* Filled by place, so that what is moved shows as well as what is changed. No call leaves such a number. */
static struct slices lend(void)
{
    struct slices lent;
    size_t at;

    for (at = 0; at < MOST_NUMBERS; at++)
        lent.answers[at] = 0xABCD0000u + (uint32_t)at;
    for (at = 0; at < MOST_BYTES; at++)
        lent.out[at] = (uint8_t)(LENT + at);
    return lent;
}

static int same(const struct slices *one, const struct slices *other)
{
    return memcmp(one->answers, other->answers, sizeof one->answers) == 0 && memcmp(one->out, other->out, sizeof one->out) == 0;
}

static uint32_t block(const struct row *row, size_t answers_len, size_t room, struct slices *lent)
{
    return valdrabus_read_block(row->items, row->items_len, bytes(row->source), strlen(row->source), lent->answers, answers_len, lent->out, room);
}

/* Whether a row is told as it is stated, and nothing else is changed. */
static int as_stated(const struct row *row)
{
    struct slices told = lend(), due = lend();

    if (row->number == VALDRABUS_OK)
        memcpy(due.answers, row->told, row->items_len * sizeof row->told[0]);
    memcpy(due.out, row->written, strlen(row->written));
    return block(row, row->answers_len, row->room, &told) == row->number && same(&told, &due);
}

/* One item by a single call, behind so many bytes that are used; how many it takes. */
static size_t single(const struct row *row, size_t at, size_t used, size_t room, struct slices *due)
{
    const uint32_t *item = row->items + at;
    uint32_t *four = due->answers + at;
    uint32_t how;
    size_t first, second, place;

    four[0] = valdrabus_as_str_in(item[0], 0, item[2], item[3], bytes(row->source), strlen(row->source), item[1], due->out + used, room - used, &how, &first, &second, &place);
    four[1] = how;
    four[2] = (uint32_t)(how == VALDRABUS_BORROWED ? first : how == VALDRABUS_WRITTEN ? used : place);
    four[3] = (uint32_t)(how != VALDRABUS_NONE || four[0] == VALDRABUS_NO_ROOM ? second - first : 0);
    return how == VALDRABUS_WRITTEN ? second : 0;
}

/* Whether a row's items get the answers of single calls with the room that is left. */
static int as_singles(const struct row *row, size_t answers_len, size_t room)
{
    struct slices told = lend(), due = lend();
    size_t at, used = 0;

    for (at = 0; at < row->items_len; at += 4)
        used += single(row, at, used, room, &due);
    return block(row, answers_len, room, &told) == VALDRABUS_OK && same(&told, &due);
}

static void stated_rows(void)
{
    size_t at;

    for (at = 0; at < ROWS; at++)
        CHECK_ROW(as_stated(&rows[at]), rows[at].shows);
}

/* Every row in buffers empty, short, exact and long, with answer slices exact and longer. */
static void rows_in_every_room(void)
{
    size_t at, room, more;

    for (at = 0; at < ROWS; at++)
        for (room = 0; rows[at].number == VALDRABUS_OK && room <= MOST_BYTES; room++)
            for (more = 0; more <= 5; more++)
                CHECK_ROW(as_singles(&rows[at], rows[at].items_len + more, room), rows[at].shows);
}

/* 15 for all lengths but those in fours with as many answers or more; and then nothing is changed. */
static void lengths(void)
{
    struct row row = {"lengths", 0, {4, 0, 0, 7, 4, 0, 0, 7, 4, 0, 0, 7, 4, 0, 0, 7}, "'a' 'b'", 0, 0, 0, {0}, ""};
    struct slices untouched = lend();

    for (row.items_len = 0; row.items_len <= 16; row.items_len++)
        for (row.answers_len = 0; row.answers_len <= 17; row.answers_len++) {
            struct slices told = lend();
            if (row.items_len % 4 == 0 && row.items_len <= row.answers_len)
                CHECK(as_singles(&row, row.answers_len, 5));
            else
                CHECK(block(&row, row.answers_len, 5, &told) == VALDRABUS_BAD_BLOCK && same(&told, &untouched));
        }
}

/* A buffer of zeros that takes no memory before it is written; NULL where the machine gives none. */
static uint8_t *mapped(size_t len)
{
    void *at = mmap(NULL, len, PROT_READ | PROT_WRITE, MAP_PRIVATE | MAP_ANONYMOUS | MAP_NORESERVE, -1, 0);
    return at == MAP_FAILED ? NULL : at;
}

/* Whether a text stands at the start of a page, and zeros behind it. */
static int page_holds(const uint8_t *page, const char *text)
{
    static const uint8_t zeros[4096];
    size_t len = strlen(text);
    return memcmp(page, text, len) == 0 && memcmp(page + len, zeros, sizeof zeros - len) == 0;
}

/* Rows 43 to 45: the longest buffer that is taken, and one byte more. Its first and its last page are looked at; all others would take long. */
static void longest_buffers(uint8_t *out)
{
    static const uint32_t item[] = {4, 0, 0, 7}, written[] = {0, 2, 0, 2};
    const uint8_t *source = bytes("'a' 'b'"), *last_page = out + LONGEST - 4095;
    struct slices told = lend(), due = lend();
    size_t over = (size_t)LONGEST + 1;

    CHECK(valdrabus_read_block(item, 4, source, 7, told.answers, 4, out, over) == VALDRABUS_BAD_BLOCK && same(&told, &due));
    CHECK(valdrabus_read_block(item, 0, source, 0, told.answers, 0, out, over) == VALDRABUS_BAD_BLOCK && same(&told, &due));
    CHECK(page_holds(out, "") && page_holds(last_page, ""));
    memcpy(due.answers, written, sizeof written);
    CHECK(valdrabus_read_block(item, 4, source, 7, told.answers, 4, out, LONGEST) == VALDRABUS_OK && same(&told, &due));
    CHECK(page_holds(out, "ab") && page_holds(last_page, ""));
}

int main(void)
{
    uint8_t *out = mapped((size_t)LONGEST + 1);

    stated_rows();
    rows_in_every_room();
    lengths();
    if (out != NULL)
        longest_buffers(out);
    printf("%u checks of the block call hold%s\n", checks, out != NULL ? "" : "; no buffer of 4 GiB is to be had here, so none was lent");
    return 0;
}
