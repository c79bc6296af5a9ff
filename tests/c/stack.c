/*
 * How many bytes of stack calls take on x86-64, measured: each is made on a stack that was painted before, and the lowest byte is looked for that is paint no
 * longer. A function that does nothing, called from the same place, tells where a call's own bytes begin: it leaves its return address. Prints a line for each
 * text, the call's name and its bytes; tools/stack.py holds them to what it reads off the archive.
 */
#define _XOPEN_SOURCE 600
#include "valdrabus.h"

#include "check.h"

#include <string.h>
#include <ucontext.h>

#define PAINT 0xA7
#define RETURN_ADDRESS 8

static uint8_t stack[65536], out[1024];
static size_t paint_left;
static ucontext_t here, there;
static int idle;

static const char *text;
static uint32_t len, kind, how, year, month, day, number, items[4], answers[4];
static size_t first, second, place;
static uint64_t bits;
static volatile uint32_t told;

static uint32_t nothing(void)
{
    return 0;
}

/* The call, or nothing in its place: by a pointer that the compiler cannot follow, so that both are given the same in the same way. */
#define CALL(call, ...)                                                                                              \
    do {                                                                                                             \
        __typeof__(call) *volatile chosen = idle ? (__typeof__(call) *)(void (*)(void))nothing : call;               \
        told = chosen(__VA_ARGS__);                                                                                  \
    } while (0)

static void as_str_in(void)
{
    CALL(valdrabus_as_str_in, kind, 0, 0, len, bytes(text), len, 0, out, sizeof out, &how, &first, &second, &place);
}

static void as_decimal_text(void)
{
    CALL(valdrabus_as_decimal_text, kind, 0, 0, len, bytes(text), len, out, sizeof out, &how, &first, &second);
}

static void as_date(void)
{
    CALL(valdrabus_as_date, kind, 0, 0, len, bytes(text), len, &year, &month, &day, &number, &first, &second);
}

static void as_temporal_text(void)
{
    CALL(valdrabus_as_temporal_text, kind, 0, 0, len, bytes(text), len, out, sizeof out, &how, &first, &second, &place);
}

static void as_packed_bits(void)
{
    CALL(valdrabus_as_packed_bits, kind, 0, 0, len, bytes(text), len, out, sizeof out, &bits, &how, &first, &second);
}

/* The last byte of each such text is 40 hex: its last four bits are unused. */
static void write_bit_literal(void)
{
    CALL(valdrabus_write_bit_literal, bytes(text), len, 8 * (uint64_t)len - 4, kind, out, sizeof out, &first);
}

static void read_block(void)
{
    items[0] = kind;
    items[3] = len;
    CALL(valdrabus_read_block, items, 4, bytes(text), len, answers, 4, out, sizeof out);
}

static void write_literal(void)
{
    CALL(valdrabus_write_literal, bytes(text), len, 0, out, sizeof out, &first);
}

static void write_unicode(void)
{
    CALL(valdrabus_write_unicode, bytes(text), len, out, sizeof out, &first);
}

static void embeds_nul(void)
{
    CALL(valdrabus_string_literal_embeds_nul, bytes(text), len);
}

/* Texts that go deep: joined ones that are read quickly, by digits and behind a space that is not ASCII, and that are refused, so that they are read by units, of
   which one has eight digits; no ASCII; numbers that are printed; joined bit strings, one refused in its second segment. */
#define QUICK "E'\\303\\251'\xE3\x80\x80'a'"
#define REFUSED "E'\\U0001F600' 'a' E'\\400'"
#define FLAGS "some more than sixty-four bytes, so that they are written by blocks where it is done so @"
#define MIXED "\xC3\xA9'\x01\\\xF0\x9F\x98\x80"
static const struct row {
    const char *name;
    void (*ask)(void);
    uint32_t kind;
    const char *text;
} rows[] = {
    {"as_str_in", as_str_in, VALDRABUS_KIND_STRING, QUICK},
    {"as_str_in", as_str_in, VALDRABUS_KIND_STRING, REFUSED},
    {"read_block", read_block, VALDRABUS_KIND_STRING, QUICK},
    {"as_temporal_text", as_temporal_text, VALDRABUS_KIND_DATE, "DATE " QUICK},
    {"as_date", as_date, VALDRABUS_KIND_DATE, "DATE " QUICK},
    {"as_date", as_date, VALDRABUS_KIND_DATE, "DATE " REFUSED},
    {"as_decimal_text", as_decimal_text, VALDRABUS_KIND_DECIMAL, "0x-80000000000000000000000000000000"},
    {"as_decimal_text", as_decimal_text, VALDRABUS_KIND_DECIMAL, "-0b101_0"},
    {"as_decimal_text", as_decimal_text, VALDRABUS_KIND_DECIMAL, "1_234" MIXED},
    {"as_packed_bits", as_packed_bits, VALDRABUS_KIND_BINARY_BITS, "B'1' \xE3\x80\x80'0101010101' '1'"},
    {"as_packed_bits", as_packed_bits, VALDRABUS_KIND_HEX_BITS, "X'1' \xE3\x80\x80'0123456789abcdef' '1'"},
    {"as_packed_bits", as_packed_bits, VALDRABUS_KIND_BINARY_BITS, "B'1' \xE3\x80\x80'2'"},
    {"write_bit_literal", write_bit_literal, VALDRABUS_KIND_BINARY_BITS, FLAGS},
    {"write_bit_literal", write_bit_literal, VALDRABUS_KIND_HEX_BITS, FLAGS},
    {"write_literal", write_literal, 0, MIXED},
    {"write_unicode", write_unicode, 0, MIXED},
    {"string_literal_embeds_nul", embeds_nul, 0, "'a text of more than thirty-two bytes'"},
};

static const struct row *row;

static void ask_painted(void)
{
    row->ask();
    for (paint_left = 0; paint_left < sizeof stack && stack[paint_left] == PAINT; paint_left++)
        ;
}

/* The bytes of paint that are left below what a call, or nothing in its place, has used. */
static size_t left(int idles)
{
    idle = idles;
    memset(stack, PAINT, sizeof stack);
    CHECK(getcontext(&there) == 0);
    there.uc_stack.ss_sp = stack;
    there.uc_stack.ss_size = sizeof stack;
    there.uc_link = &here;
    makecontext(&there, ask_painted, 0);
    CHECK(swapcontext(&here, &there) == 0);
    return paint_left;
}

int main(void)
{
    for (row = rows; row < rows + sizeof rows / sizeof *rows; row++) {
        text = row->text;
        len = (uint32_t)strlen(text);
        kind = row->kind;
        /* The first call of what the C library lends, as memcpy, may have to find it first, on the same stack. */
        left(0);
        printf("valdrabus_%s %zu\n", row->name, left(1) - left(0) + RETURN_ADDRESS);
    }
    return 0;
}
