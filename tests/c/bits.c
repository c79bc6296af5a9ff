/*
 * Calls the two functions of valdrabus.h that pack a bit string and write packed bytes back, and compares what they answer, the lent numbers and every byte of
 * the buffer with what the tables of request T-07 say. Prints one line; ends with status 1 at the first difference, having said where it stands.
 */
#include "valdrabus.h"

#include "check.h"

#include <string.h>

#define ROOM 64
#define BINARY VALDRABUS_KIND_BINARY_BITS
#define HEX VALDRABUS_KIND_HEX_BITS
/* What a lent number holds before a call, so that one which is not written shows. */
#define UNWRITTEN 77

/* What a call is lent, and what it left. The writer is lent its length as second. */
struct call {
    uint32_t number;
    uint64_t bits;
    uint32_t how;
    size_t first;
    size_t second;
    uint8_t out[ROOM];
};

static struct call lent(void)
{
    struct call call = {UNWRITTEN, UNWRITTEN, UNWRITTEN, UNWRITTEN, UNWRITTEN, {0}};
    memset(call.out, LENT, ROOM);
    return call;
}

/* Whether the buffer holds some bytes at its start, and what was lent behind them. */
static int holds(const struct call *call, const char *text, size_t len)
{
    size_t at;
    if (memcmp(call->out, text, len) != 0)
        return 0;
    for (at = len; at < ROOM; at++)
        if (call->out[at] != LENT)
            return 0;
    return 1;
}

static struct call packed_of(uint32_t kind, uint32_t synthetic, uint32_t start, uint32_t end, const char *source, size_t len, size_t room)
{
    struct call c = lent();
    c.number = valdrabus_as_packed_bits(kind, synthetic, start, end, bytes(source), len, c.out, room, &c.bits, &c.how, &c.first, &c.second);
    return c;
}

static struct call packed(uint32_t kind, const char *source, size_t room)
{
    size_t len = strlen(source);
    return packed_of(kind, 0, 0, (uint32_t)len, source, len, room);
}

static int is_packed(struct call c, const char *text, size_t len, uint64_t bits)
{
    return c.number == VALDRABUS_OK && c.bits == bits && c.how == VALDRABUS_WRITTEN && c.first == 0 && c.second == len && holds(&c, text, len);
}

static int is_refused(struct call c, uint32_t number, size_t first, size_t second)
{
    return c.number == number && c.bits == 0 && c.how == VALDRABUS_NONE && c.first == first && c.second == second && holds(&c, "", 0);
}

/* A literal of a kind, its packed bytes and how many bits they hold. */
struct row {
    const char *text;
    uint32_t kind;
    const char *bytes;
    size_t len;
    uint64_t bits;
};

/* Each in a buffer just as long and in a longer one, and in none that is shorter. */
static void packing(void)
{
    static const struct row rows[] = {
        {"B''", BINARY, "", 0, 0},
        {"X''", HEX, "", 0, 0},
        {"B'' ''", BINARY, "", 0, 0},
        {"B'0'", BINARY, "\0", 1, 1},
        {"B'1'", BINARY, "\x80", 1, 1},
        {"B'01'", BINARY, "\x40", 1, 2},
        {"B'1000001'", BINARY, "\x82", 1, 7},
        {"B'1111111'", BINARY, "\xFE", 1, 7},
        {"B'10000000'", BINARY, "\x80", 1, 8},
        {"B'100000001'", BINARY, "\x80\x80", 2, 9},
        {"X'F'", HEX, "\xF0", 1, 4},
        {"X'1F'", HEX, "\x1F", 1, 8},
        {"X'1fA'", HEX, "\x1F\xA0", 2, 12},
        {"X'DEADBEEF'", HEX, "\xDE\xAD\xBE\xEF", 4, 32},
        /* the kind decides, not the letter */
        {"B'1'", HEX, "\x10", 1, 4},
        {"X'1'", BINARY, "\x80", 1, 1},
        {"b'1'", BINARY, "\x80", 1, 1},
        /* segments run on */
        {"B'1' '1'", BINARY, "\xC0", 1, 2},
        {"X'1' '2'", HEX, "\x12", 1, 8},
        {"B'1111' '1111' '1'", BINARY, "\xFF\x80", 2, 9},
        {"B'1' ", BINARY, "\x80", 1, 1},
    };
    size_t at;

    for (at = 0; at < sizeof rows / sizeof rows[0]; at++) {
        const struct row *row = &rows[at];
        CHECK_ROW(is_packed(packed(row->kind, row->text, ROOM), row->bytes, row->len, row->bits), row->text);
        CHECK_ROW(is_packed(packed(row->kind, row->text, row->len), row->bytes, row->len, row->bits), row->text);
        CHECK_ROW(row->len <= strlen(row->text) / 2, row->text);
        if (row->len != 0)
            CHECK_ROW(is_refused(packed(row->kind, row->text, row->len - 1), VALDRABUS_NO_ROOM, 0, row->len), row->text);
    }
    CHECK(is_packed(packed_of(BINARY, 0, 1, 5, "aB'1'b", 6, ROOM), "\x80", 1, 1));
}

/* 7 and what comes before it, as the bits question refuses the same literal. */
static int refuses(uint32_t kind, uint32_t synthetic, uint32_t start, uint32_t end, const char *source, size_t len, uint32_t number, size_t first, size_t second)
{
    struct call c = lent();
    c.number = valdrabus_as_bit_text(kind, synthetic, start, end, bytes(source), len, c.out, 0, &c.how, &c.first, &c.second);
    c.bits = 0;
    return is_refused(c, number, first, second) && is_refused(packed_of(kind, synthetic, start, end, source, len, ROOM), number, first, second)
        && is_refused(packed_of(kind, synthetic, start, end, source, len, 0), number, first, second);
}

static void refused_packing(void)
{
    static const char *const texts[] = {"", "B", "B'1", "'1'", "B'2'", "B'1''1'", "B'1' B'1'", "B'1' \"1\"", "B'1'x"};
    size_t at;

    for (at = 0; at < sizeof texts / sizeof texts[0]; at++)
        CHECK_ROW(refuses(BINARY, 0, 0, (uint32_t)strlen(texts[at]), texts[at], strlen(texts[at]), VALDRABUS_INVALID_BIT_STRING, 0, strlen(texts[at])), texts[at]);
    CHECK(refuses(BINARY, 0, 0, 4, "X'F'", 4, VALDRABUS_INVALID_BIT_STRING, 0, 4));
    CHECK(refuses(VALDRABUS_KIND_STRING, 0, 0, 4, "B'1'", 4, VALDRABUS_WRONG_KIND, VALDRABUS_EXPECTED_BIT_STRING, VALDRABUS_KIND_STRING));
    CHECK(refuses(VALDRABUS_KIND_STRING, 1, 0, 4, "B'1'", 4, VALDRABUS_WRONG_KIND, VALDRABUS_EXPECTED_BIT_STRING, VALDRABUS_KIND_STRING));
    CHECK(refuses(BINARY, 1, 0, 4, "B'1'", 4, VALDRABUS_MISSING_SOURCE, 0, 4));
    CHECK(refuses(BINARY, 0, 4, 0, "B'1'", 4, VALDRABUS_INVALID_SOURCE_RANGE, 4, 0));
    CHECK(refuses(BINARY, 0, 0, 5, "B'1'", 4, VALDRABUS_INVALID_SOURCE_RANGE, 0, 5));
    CHECK(refuses(BINARY, 0, 0, 4, "B'\xFF'", 4, VALDRABUS_NOT_UTF8, 0, 4));
    CHECK(refuses(0, 0, 0, 4, "B'1'", 4, VALDRABUS_BAD_NUMBER, 0, 0));
    CHECK(refuses(15, 0, 0, 4, "B'1'", 4, VALDRABUS_BAD_NUMBER, 0, 0));
    CHECK(refuses(BINARY, 2, 4, 0, "B'1'", 4, VALDRABUS_BAD_NUMBER, 0, 0));
}

static struct call written_in(const uint8_t *from, size_t len, uint64_t bits, uint32_t kind, size_t room)
{
    struct call c = lent();
    c.number = valdrabus_write_bit_literal(from, len, bits, kind, c.out, room, &c.second);
    return c;
}

static int is_written(struct call c, const char *text)
{
    return c.number == VALDRABUS_OK && c.second == strlen(text) && holds(&c, text, strlen(text));
}

static int is_unwritten(struct call c, uint32_t number, size_t needed)
{
    return c.number == number && c.second == needed && holds(&c, "", 0);
}

/* Whether packed bytes are written as a text, in a buffer just as long and in a longer one, and in none that is shorter; and come back when it is packed. */
static int writes(const struct row *row)
{
    const uint8_t *from = bytes(row->bytes);
    size_t needed = strlen(row->text);
    return is_written(written_in(from, row->len, row->bits, row->kind, needed), row->text)
        && is_written(written_in(from, row->len, row->bits, row->kind, ROOM), row->text)
        && is_unwritten(written_in(from, row->len, row->bits, row->kind, needed - 1), VALDRABUS_NO_ROOM, needed)
        && is_unwritten(written_in(from, row->len, row->bits, row->kind, 0), VALDRABUS_NO_ROOM, needed)
        && is_packed(packed(row->kind, row->text, ROOM), row->bytes, row->len, row->bits);
}

static void writing(void)
{
    static const struct row rows[] = {
        {"B''", BINARY, "", 0, 0},
        {"X''", HEX, "", 0, 0},
        {"B'1'", BINARY, "\x80", 1, 1},
        {"B'0'", BINARY, "\0", 1, 1},
        {"B'1000001'", BINARY, "\x82", 1, 7},
        {"X'8'", HEX, "\x80", 1, 4},
        {"X'F'", HEX, "\xF0", 1, 4},
        {"X'AB'", HEX, "\xAB", 1, 8},
        {"B'10101011'", BINARY, "\xAB", 1, 8},
        {"X'ABC'", HEX, "\xAB\xC0", 2, 12},
        {"B'101010111100'", BINARY, "\xAB\xC0", 2, 12},
        {"B'111111111'", BINARY, "\xFF\x80", 2, 9},
        {"X'FFFE'", HEX, "\xFF\xFE", 2, 16},
    };
    size_t at;

    for (at = 0; at < sizeof rows / sizeof rows[0]; at++)
        CHECK_ROW(writes(&rows[at]), rows[at].text);
}

/* As many packed bytes as the writer takes, and one more. They are zero, and as they are not const, they take no room in the program's file. */
#define LIMIT 268435456
static uint8_t zeros[LIMIT + 1];

/* Bytes that hold no such count, by each of the three reasons; and 10, 12, 16, 9 in this order. */
static void refused_writing(void)
{
    static const struct row rows[] = {
        {"a byte too many", BINARY, "\x80", 1, 0},
        {"a zero byte too many", BINARY, "\0", 1, 0},
        {"a byte too few", BINARY, "", 0, 1},
        {"the second byte missing", BINARY, "\x80", 1, 9},
        {"the second byte too many", BINARY, "\x80\0", 2, 8},
        {"one bit for X", HEX, "\x80", 1, 1},
        {"five bits for X", HEX, "\x80", 1, 5},
        {"ten bits for X", HEX, "\x80\0", 2, 10},
        {"the last bit set, unused", BINARY, "\x81", 1, 7},
        {"the fifth bit set, unused", HEX, "\xF8", 1, 4},
        {"all bits set, one used", BINARY, "\xFF", 1, 1},
        {"as many bits as there can be", BINARY, "", 0, UINT64_MAX},
        {"as many for X", HEX, "", 0, UINT64_MAX - 3},
        {"a count of more than 32 bits", BINARY, "", 0, (uint64_t)UINT32_MAX + 1},
        {"a count past the limit, without bytes", BINARY, "", 0, (uint64_t)LIMIT * 8 + 1},
    };
    size_t at;

    for (at = 0; at < sizeof rows / sizeof rows[0]; at++) {
        CHECK_ROW(is_unwritten(written_in(bytes(rows[at].bytes), rows[at].len, rows[at].bits, rows[at].kind, ROOM), VALDRABUS_BAD_BITS, 0), rows[at].text);
        CHECK_ROW(is_unwritten(written_in(bytes(rows[at].bytes), rows[at].len, rows[at].bits, rows[at].kind, 0), VALDRABUS_BAD_BITS, 0), rows[at].text);
    }
    CHECK(is_unwritten(written_in(zeros, LIMIT, (uint64_t)LIMIT * 8, BINARY, 0), VALDRABUS_NO_ROOM, 2147483651u));
    CHECK(is_unwritten(written_in(zeros, LIMIT, (uint64_t)LIMIT * 8, HEX, ROOM), VALDRABUS_NO_ROOM, 536870915));
    CHECK(is_unwritten(written_in(zeros, LIMIT + 1, (uint64_t)LIMIT * 8 + 8, BINARY, ROOM), VALDRABUS_OVER_LIMIT, 0));
    CHECK(is_unwritten(written_in(zeros, LIMIT + 1, 0, HEX, 0), VALDRABUS_OVER_LIMIT, 0));
    CHECK(is_unwritten(written_in(zeros, LIMIT + 1, 0, 0, 0), VALDRABUS_BAD_NUMBER, 0));
    CHECK(is_unwritten(written_in(bytes("\x81"), 1, 7, VALDRABUS_KIND_INTERVAL, ROOM), VALDRABUS_BAD_NUMBER, 0));
    CHECK(is_unwritten(written_in(bytes("\x80"), 1, 1, VALDRABUS_KIND_MONEY, ROOM), VALDRABUS_BAD_NUMBER, 0));
    CHECK(is_unwritten(written_in(bytes("\x80"), 1, 1, UINT32_MAX, ROOM), VALDRABUS_BAD_NUMBER, 0));
}

int main(void)
{
    packing();
    refused_packing();
    writing();
    refused_writing();
    printf("%u checks of packed bits hold\n", checks);
    return 0;
}
