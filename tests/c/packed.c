/*
 * Packs every bit literal of up to 15 binary and four hex digits, each also with the other letter, in lower case and, if it is short, in two segments, and writes
 * what comes out; writes every two bytes or fewer with every count up to 17 and either letter, and packs what comes out; asks with counts far off and at the
 * limit. What is due is worked out from numbers: a literal's digits are one number, and its packed bytes that number moved to the top of 32 bits. Prints how many
 * there are; ends with status 1 at the first difference, having said where it stands.
 */
#include "valdrabus.h"

#include "check.h"

#include <limits.h>
#include <string.h>

#define BINARY VALDRABUS_KIND_BINARY_BITS
#define HEX VALDRABUS_KIND_HEX_BITS
/* The buffer, longer than any text or packed answer. */
#define ROOM 32
#define LIMIT 268435456u
/* What a lent number holds before a call, so that one which is not written shows. */
#define UNWRITTEN 0xA5A5A5A5u
#define UPPER "0123456789ABCDEF"
#define LOWER "0123456789abcdef"
/* No cut. */
#define WHOLE UINT_MAX

/* So many bits, as a number whose first bit is the highest; and the kind of their literal. */
struct bits {
    uint32_t kind;
    unsigned count;
    uint32_t number;
};

struct told {
    uint32_t number, how;
    uint64_t bits;
    size_t first, second;
    uint8_t out[ROOM];
};

static unsigned per_digit(uint32_t kind)
{
    return kind == HEX ? 4 : 1;
}

static size_t packed_length(unsigned count)
{
    return count / 8 + (count % 8 != 0);
}

static uint8_t packed_byte(struct bits given, size_t at)
{
    return (uint8_t)(given.number << (32 - given.count) >> (24 - 8 * at));
}

/* The digits in one segment, or in two, of which the first has as many as `cut` says. */
static size_t put_digits(char *to, struct bits given, const char *figures, unsigned cut)
{
    unsigned per = per_digit(given.kind), digits = given.count / per;
    size_t at = 0;

    for (unsigned n = 0; n <= digits; n++) {
        if (n == cut) {
            memcpy(to + at, "' '", 3);
            at += 3;
        }
        if (n < digits)
            to[at++] = figures[given.number >> per * (digits - 1 - n) & ((1u << per) - 1)];
    }
    return at;
}

static void put_literal(char *to, struct bits given, char letter, const char *figures, unsigned cut)
{
    size_t at = 2;

    to[0] = letter;
    to[1] = '\'';
    at += put_digits(to + at, given, figures, cut);
    to[at] = '\'';
    to[at + 1] = 0;
}

static struct told lent(void)
{
    struct told told = {UNWRITTEN, UNWRITTEN, UNWRITTEN, UNWRITTEN, UNWRITTEN, {0}};

    memset(told.out, LENT, sizeof told.out);
    return told;
}

static struct told packs(const char *text, uint32_t kind, size_t room)
{
    struct told told = lent();
    size_t len = strlen(text);

    told.number = valdrabus_as_packed_bits(kind, 0, 0, (uint32_t)len, bytes(text), len, told.out, room, &told.bits, &told.how, &told.first, &told.second);
    return told;
}

static struct told writes(const uint8_t *from, size_t len, uint64_t count, uint32_t kind, size_t room)
{
    struct told told = lent();

    told.number = valdrabus_write_bit_literal(from, len, count, kind, told.out, room, &told.second);
    return told;
}

static int is_lent(const struct told *told, size_t from)
{
    while (from < ROOM && told->out[from] == LENT)
        from++;
    return from == ROOM;
}

/* The packed bytes of these bits, and not a byte more. */
static int is_packed(const struct told *told, struct bits due)
{
    size_t len = packed_length(due.count);

    for (size_t at = 0; at < len; at++)
        if (told->out[at] != packed_byte(due, at))
            return 0;
    return told->number == VALDRABUS_OK && told->how == VALDRABUS_WRITTEN && told->bits == due.count && told->first == 0 && told->second == len &&
           is_lent(told, len);
}

static int has_no_room(const struct told *told, size_t needed)
{
    return told->number == VALDRABUS_NO_ROOM && told->second == needed && is_lent(told, 0);
}

static int is_text(const struct told *told, const char *due)
{
    size_t len = strlen(due);

    return told->number == VALDRABUS_OK && told->second == len && memcmp(told->out, due, len) == 0 && is_lent(told, len);
}

static int is_refused(const struct told *told, uint32_t number)
{
    return told->number == number && told->second == 0 && is_lent(told, 0);
}

/* A text is packed into a buffer just as long and into a longer one, and not into one a byte short. */
static void check_packed(const char *text, struct bits due)
{
    size_t len = packed_length(due.count);
    struct told told = packs(text, due.kind, len);

    CHECK_ROW(is_packed(&told, due), text);
    told = packs(text, due.kind, ROOM);
    CHECK_ROW(is_packed(&told, due), text);
    if (len == 0)
        return;
    told = packs(text, due.kind, len - 1);
    CHECK_ROW(has_no_room(&told, len) && told.how == VALDRABUS_NONE && told.bits == 0 && told.first == 0, text);
}

/* Bytes are written as a literal into a buffer just as long and into a longer one, and not into one a byte short. */
static void check_written(const uint8_t *from, size_t len, struct bits given, const char *due)
{
    struct told told = writes(from, len, given.count, given.kind, strlen(due));

    CHECK_ROW(is_text(&told, due), due);
    told = writes(from, len, given.count, given.kind, ROOM);
    CHECK_ROW(is_text(&told, due), due);
    told = writes(from, len, given.count, given.kind, strlen(due) - 1);
    CHECK_ROW(has_no_room(&told, strlen(due)), due);
}

/* The letter of a kind, and the other one, which decides nothing. */
static char letter_of(uint32_t kind)
{
    return kind == HEX ? 'X' : 'B';
}

static char other_letter(uint32_t kind)
{
    return kind == HEX ? 'B' : 'X';
}

/* How many texts of one literal are packed; what its own text packs to is written as that text again. */
static unsigned one_literal(struct bits given)
{
    unsigned digits = given.count / per_digit(given.kind), texts = 3;
    char text[ROOM];
    struct told told;

    put_literal(text, given, other_letter(given.kind), UPPER, WHOLE);
    check_packed(text, given);
    put_literal(text, given, letter_of(given.kind) | 0x20, LOWER, WHOLE);
    check_packed(text, given);
    for (unsigned cut = 0; given.count <= 12 && cut <= digits; cut++, texts++) {
        put_literal(text, given, letter_of(given.kind), UPPER, cut);
        check_packed(text, given);
    }
    put_literal(text, given, letter_of(given.kind), UPPER, WHOLE);
    check_packed(text, given);
    told = packs(text, given.kind, ROOM);
    check_written(told.out, told.second, given, text);
    return texts;
}

static void literals(uint32_t kind, unsigned most)
{
    unsigned count = 0, texts = 0;

    for (unsigned digits = 0; digits <= most; digits++)
        for (uint32_t number = 0; number >> digits * per_digit(kind) == 0; number++, count++)
            texts += one_literal((struct bits){kind, digits * per_digit(kind), number});
    printf("%u literals of up to %u %s digits, in %u texts, packed and written back\n", count, most, kind == HEX ? "hex" : "binary", texts);
}

/* 1 if the bytes, which are one number too, hold just so many bits: then they are written, and packed again. */
static unsigned one_reverse(const uint8_t *from, size_t len, uint32_t number, unsigned count, uint32_t kind)
{
    unsigned unused = (unsigned)(8 * len) - count;
    struct bits given = {kind, count, 0};
    char text[ROOM];
    struct told told;

    if (packed_length(count) != len || count % per_digit(kind) != 0 || (number & ((1u << unused) - 1)) != 0) {
        told = writes(from, len, count, kind, ROOM);
        CHECK(is_refused(&told, VALDRABUS_BAD_BITS));
        told = writes(from, len, count, kind, 0);
        CHECK(is_refused(&told, VALDRABUS_BAD_BITS));
        return 0;
    }
    given.number = number >> unused;
    put_literal(text, given, letter_of(kind), UPPER, WHOLE);
    check_written(from, len, given, text);
    check_packed(text, given);
    return 1;
}

static void reverses(uint32_t kind)
{
    unsigned count = 0, written = 0;

    for (size_t len = 0; len <= 2; len++)
        for (uint32_t number = 0; number >> 8 * len == 0; number++) {
            uint8_t from[2] = {(uint8_t)(len == 2 ? number >> 8 : number), (uint8_t)number};

            for (unsigned bits = 0; bits <= 17; bits++, count++)
                written += one_reverse(from, len, number, bits, kind);
        }
    printf("%u of up to two bytes with up to 17 bits for %c: %u written and packed again, %u refused\n", count, letter_of(kind), written, count - written);
}

/* Counts far off: cut down to fewer bits, or rounded up by a sum that wraps, many would go with these bytes. */
static void far_counts(void)
{
    static const uint8_t zeros[2];

    for (unsigned at = 0; at < 56 * 16 * 3 * 2; at++) {
        unsigned shift = 8 + at / 6 / 16, more = at / 6 % 16;
        struct told up = writes(zeros, at / 2 % 3, ((uint64_t)1 << shift) + more, at % 2 == 0 ? BINARY : HEX, ROOM);
        struct told down = writes(zeros, at / 2 % 3, UINT64_MAX - more, at % 2 == 0 ? BINARY : HEX, ROOM);

        CHECK(is_refused(&up, VALDRABUS_BAD_BITS) && is_refused(&down, VALDRABUS_BAD_BITS));
    }
}

/* At the limit a literal is only measured, since 2 GiB of buffer need not be there; past it no count is looked at. Of the zeros the last byte at most is read. */
static void limit(void)
{
    static const uint64_t counts[] = {0, 1, 2147483644, 2147483648, 2147483649, 2147483656, 4294967296, UINT64_MAX};
    uint8_t *zeros = calloc((size_t)LIMIT + 1, 1);
    struct told told;

    CHECK(zeros != NULL);
    told = writes(zeros, LIMIT, 2147483648, BINARY, 0);
    CHECK(has_no_room(&told, 2147483651));
    told = writes(zeros, LIMIT, 2147483648, HEX, ROOM);
    CHECK(has_no_room(&told, 536870915));
    told = writes(zeros, LIMIT, 2147483641, BINARY, ROOM);
    CHECK(has_no_room(&told, 2147483644));
    told = writes(zeros, LIMIT, 2147483646, HEX, ROOM);
    CHECK(is_refused(&told, VALDRABUS_BAD_BITS));
    told = writes(zeros, LIMIT, 2147483640, BINARY, ROOM);
    CHECK(is_refused(&told, VALDRABUS_BAD_BITS));
    told = writes(zeros, LIMIT, 2147483649, BINARY, ROOM);
    CHECK(is_refused(&told, VALDRABUS_BAD_BITS));
    for (size_t at = 0; at < 2 * sizeof counts / sizeof *counts; at++) {
        told = writes(zeros, (size_t)LIMIT + 1, counts[at / 2], at % 2 == 0 ? BINARY : HEX, at % 4 < 2 ? 0 : ROOM);
        CHECK(is_refused(&told, VALDRABUS_OVER_LIMIT));
    }
    free(zeros);
}

int main(void)
{
    literals(BINARY, 15);
    literals(HEX, 4);
    reverses(BINARY);
    reverses(HEX);
    far_counts();
    limit();
    printf("%u checks of all short bit strings hold\n", checks);
    return 0;
}
