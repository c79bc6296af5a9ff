/*
 * What a new user's program leans on beside the answers: the version, the sentence for each number, a buffer of the text's length, and NULL wherever a length of 0
 * says that there is nothing.
 * Each function that takes a slice is lent NULL for it, alone and with the others, and must answer what an empty slice gives, every lent number written. Prints
 * one line; ends with status 1 at the first difference, having said where it stands.
 */
#include "valdrabus.h"

#include "check.h"

#include <string.h>

/* What a lent number holds before a call, so that one which is not written shows. */
#define UNWRITTEN 77

#define STRING VALDRABUS_KIND_STRING
#define ROOM 8

/* What calls are lent, and what the last left. */
static uint32_t how, year, month, day, number;
static size_t first, second, place;
static int64_t value;
static uint64_t bits;
static uint8_t out[ROOM];

static void lend(void)
{
    how = year = month = day = number = UNWRITTEN;
    first = second = place = UNWRITTEN;
    value = UNWRITTEN;
    bits = UNWRITTEN;
    memset(out, LENT, ROOM);
}

static int buffer_is_lent(void)
{
    size_t at;
    for (at = 0; at < ROOM; at++)
        if (out[at] != LENT)
            return 0;
    return 1;
}

static int says(uint32_t due_how, size_t due_first, size_t due_second)
{
    return how == due_how && first == due_first && second == due_second && buffer_is_lent();
}

static void versions(void)
{
    char text[32];
    CHECK(VALDRABUS_VERSION == 200);
    CHECK(valdrabus_version() == VALDRABUS_VERSION);
    sprintf(text, "%d.%d.%d", VALDRABUS_VERSION_MAJOR, VALDRABUS_VERSION_MINOR, VALDRABUS_VERSION_PATCH);
    CHECK(strcmp(text, VALDRABUS_VERSION_TEXT) == 0);
#if VALDRABUS_VERSION < 200
    CHECK(!"the preprocessor compares versions");
#endif
}

/* Every number up to 16 but 13, which none gives, has a sentence of its own. */
static void messages(void)
{
    const char *unknown = valdrabus_message(13);
    uint32_t one, other;
    CHECK(strcmp(unknown, "unknown number") == 0);
    CHECK(strcmp(valdrabus_message(17), unknown) == 0);
    CHECK(strcmp(valdrabus_message(UINT32_MAX), unknown) == 0);
    CHECK(strcmp(valdrabus_message(VALDRABUS_OK), "answered") == 0);
    CHECK(strcmp(valdrabus_message(VALDRABUS_INVALID_STRING), "the text is not a readable string") == 0);
    for (one = 0; one <= 16; one++) {
        CHECK(strlen(valdrabus_message(one)) >= strlen("answered"));
        CHECK((strcmp(valdrabus_message(one), unknown) == 0) == (one == 13));
        for (other = 0; other < one; other++)
            CHECK(strcmp(valdrabus_message(one), valdrabus_message(other)) != 0);
    }
}

/* The questions on texts, by a source of nothing, and with no buffer for what is written or borrowed. */
static void texts(void)
{
    const uint8_t *joined = bytes("'a' 'b'");
    lend();
    CHECK(valdrabus_as_str_in(STRING, 0, 0, 0, NULL, 0, 0, out, ROOM, &how, &first, &second, &place) == VALDRABUS_INVALID_STRING);
    CHECK(says(VALDRABUS_NONE, 0, 0) && place == 0);
    lend();
    CHECK(valdrabus_as_str_in(STRING, 0, 0, 0, NULL, 0, 1, NULL, 0, &how, &first, &second, &place) == VALDRABUS_INVALID_STRING);
    CHECK(says(VALDRABUS_NONE, 0, 0) && place == 0);
    lend();
    CHECK(valdrabus_as_str_in(STRING, 0, 0, 1, NULL, 0, 0, NULL, 0, &how, &first, &second, &place) == VALDRABUS_INVALID_SOURCE_RANGE);
    CHECK(says(VALDRABUS_NONE, 0, 1) && place == 0);
    lend();
    CHECK(valdrabus_as_str_in(STRING, 0, 0, 7, joined, 7, 0, NULL, 0, &how, &first, &second, &place) == VALDRABUS_NO_ROOM);
    CHECK(says(VALDRABUS_NONE, 0, 2) && place == 0);
    lend();
    CHECK(valdrabus_as_str_in(STRING, 0, 0, 3, joined, 7, 0, NULL, 0, &how, &first, &second, &place) == VALDRABUS_OK);
    CHECK(says(VALDRABUS_BORROWED, 1, 2) && place == 0);
    /* An empty text is written into no buffer. */
    lend();
    CHECK(valdrabus_as_str_in(STRING, 0, 0, 5, bytes("'' ''"), 5, 0, NULL, 0, &how, &first, &second, &place) == VALDRABUS_OK);
    CHECK(says(VALDRABUS_WRITTEN, 0, 0) && place == 0);
    lend();
    CHECK(valdrabus_as_temporal_text(VALDRABUS_KIND_DATE, 0, 0, 0, NULL, 0, NULL, 0, &how, &first, &second, &place) == VALDRABUS_INVALID_STRING);
    CHECK(says(VALDRABUS_NONE, 0, 0) && place == 0);
    lend();
    CHECK(valdrabus_as_temporal_text(VALDRABUS_KIND_TIME, 0, 0, 7, joined, 7, NULL, 0, &how, &first, &second, &place) == VALDRABUS_NO_ROOM);
    CHECK(says(VALDRABUS_NONE, 0, 2) && place == 0);
}

/* The questions whose signatures are alike, each with what an empty source gives, and a literal whose value is written, with its length. */
static void numbers_and_bits(void)
{
    typedef uint32_t question(uint32_t, uint32_t, uint32_t, uint32_t, const uint8_t *, size_t, uint8_t *, size_t, uint32_t *, size_t *, size_t *);
    static const struct {
        question *ask;
        uint32_t kind;
        uint32_t number;
        uint32_t how;
        const char *literal;
        size_t needed;
    } rows[] = {
        {valdrabus_as_decimal_text, VALDRABUS_KIND_DECIMAL, VALDRABUS_OK, VALDRABUS_BORROWED, NULL, 0},
        {valdrabus_as_decimal_text, VALDRABUS_KIND_INTEGER, VALDRABUS_OK, VALDRABUS_BORROWED, "0x1F", 2},
        {valdrabus_as_bit_text, VALDRABUS_KIND_BINARY_BITS, VALDRABUS_INVALID_BIT_STRING, VALDRABUS_NONE, "B'1' '0'", 2},
        {valdrabus_as_bit_text, VALDRABUS_KIND_HEX_BITS, VALDRABUS_INVALID_BIT_STRING, VALDRABUS_NONE, "X'F' 'A'", 2},
    };
    size_t row;
    for (row = 0; row < sizeof rows / sizeof rows[0]; row++) {
        lend();
        CHECK(rows[row].ask(rows[row].kind, 0, 0, 0, NULL, 0, NULL, 0, &how, &first, &second) == rows[row].number);
        CHECK(says(rows[row].how, 0, 0));
        lend();
        CHECK(rows[row].ask(rows[row].kind, 0, 0, 0, NULL, 0, out, ROOM, &how, &first, &second) == rows[row].number);
        CHECK(says(rows[row].how, 0, 0));
        if (rows[row].literal != NULL) {
            size_t len = strlen(rows[row].literal);
            lend();
            CHECK(rows[row].ask(rows[row].kind, 0, 0, (uint32_t)len, bytes(rows[row].literal), len, NULL, 0, &how, &first, &second) == VALDRABUS_NO_ROOM);
            CHECK(says(VALDRABUS_NONE, 0, rows[row].needed));
        }
    }
}

/* The questions that write nothing. */
static void parts_and_values(void)
{
    lend();
    CHECK(valdrabus_source_text(STRING, 0, 0, 0, NULL, 0, &how, &first, &second) == VALDRABUS_OK && says(VALDRABUS_BORROWED, 0, 0));
    lend();
    CHECK(valdrabus_source_text(STRING, 0, 1, 2, NULL, 0, &how, &first, &second) == VALDRABUS_INVALID_SOURCE_RANGE && says(VALDRABUS_NONE, 1, 2));
    lend();
    CHECK(valdrabus_as_money_text(VALDRABUS_KIND_MONEY, 0, 0, 0, NULL, 0, &how, &first, &second) == VALDRABUS_INVALID_MONEY && says(VALDRABUS_NONE, 0, 0));
    lend();
    CHECK(valdrabus_charset_introducer(STRING, 0, 0, 0, NULL, 0, &how, &first, &second) == VALDRABUS_OK && says(VALDRABUS_NONE, 0, 0));
    lend();
    CHECK(valdrabus_as_i64(VALDRABUS_KIND_INTEGER, 0, 0, 0, NULL, 0, &value, &first, &second) == VALDRABUS_INVALID_INTEGER);
    CHECK(value == 0 && says(UNWRITTEN, 0, 0));
    lend();
    CHECK(valdrabus_as_date(VALDRABUS_KIND_DATE, 0, 0, 0, NULL, 0, &year, &month, &day, &number, &first, &second) == VALDRABUS_INVALID_STRING);
    CHECK(year == 0 && month == 0 && day == 0 && number == 0 && says(UNWRITTEN, 0, 0));
}

/* A block of nothing, and one whose items have nothing to read or nowhere to be written. */
static void blocks(void)
{
    uint32_t items[] = {STRING, 0, 0, 7}, empty[] = {STRING, 0, 0, 0}, answers[4];
    CHECK(valdrabus_read_block(NULL, 0, NULL, 0, NULL, 0, NULL, 0) == VALDRABUS_OK);
    CHECK(valdrabus_read_block(items, 4, NULL, 0, NULL, 0, NULL, 0) == VALDRABUS_BAD_BLOCK);
    memset(answers, LENT, sizeof answers);
    CHECK(valdrabus_read_block(empty, 4, NULL, 0, answers, 4, NULL, 0) == VALDRABUS_OK);
    CHECK(answers[0] == VALDRABUS_INVALID_STRING && answers[1] == VALDRABUS_NONE && answers[2] == 0 && answers[3] == 0);
    memset(answers, LENT, sizeof answers);
    CHECK(valdrabus_read_block(items, 4, bytes("'a' 'b'"), 7, answers, 4, NULL, 0) == VALDRABUS_OK);
    CHECK(answers[0] == VALDRABUS_NO_ROOM && answers[1] == VALDRABUS_NONE && answers[2] == 0 && answers[3] == 2);
    lend();
    CHECK(valdrabus_read_block(NULL, 0, bytes("'a' 'b'"), 7, NULL, 0, out, ROOM) == VALDRABUS_OK && buffer_is_lent());
}

/* No string or temporal text is refused for want of room by a buffer that is two bytes shorter than its text; the first of these needs all of it. */
static void room(void)
{
    static const char *const literals[] = {
        "'a\\'", "'a''b'", "\"a\"\"b\"", "N'a''b'", "_utf8'a''b'", "E'\\x41\\n'", "E'\\u00e9'", "U&'\\0041'", "U&'!0041'UESCAPE'!'", "$$a$$", "'a' 'b'", "'' ''",
        "''", "'a' E'\\x41' 'b'", "DATE 'a' 'b'", "DATE'''a'", "x",
    };
    uint8_t enough[32];
    uint32_t setting;
    size_t row;
    CHECK(valdrabus_as_str_in(STRING, 0, 0, 4, bytes(literals[0]), 4, 1, out, 2, &how, &first, &second, &place) == VALDRABUS_OK);
    CHECK(how == VALDRABUS_WRITTEN && second == 2);
    CHECK(valdrabus_as_str_in(STRING, 0, 0, 4, bytes(literals[0]), 4, 1, out, 1, &how, &first, &second, &place) == VALDRABUS_NO_ROOM);
    for (row = 0; row < sizeof literals / sizeof literals[0]; row++) {
        const uint8_t *text = bytes(literals[row]);
        size_t len = strlen(literals[row]), less = len < 2 ? 0 : len - 2;
        for (setting = 0; setting <= 1; setting++)
            CHECK(valdrabus_as_str_in(STRING, 0, 0, (uint32_t)len, text, len, setting, enough, less, &how, &first, &second, &place) != VALDRABUS_NO_ROOM);
        CHECK(valdrabus_as_temporal_text(VALDRABUS_KIND_DATE, 0, 0, (uint32_t)len, text, len, enough, less, &how, &first, &second, &place) != VALDRABUS_NO_ROOM);
    }
}

/* The writers spell no value as an empty literal, and tell its length where there is no room. */
static void writers(void)
{
    lend();
    CHECK(valdrabus_write_literal(NULL, 0, 0, NULL, 0, &first) == VALDRABUS_NO_ROOM && first == 2);
    CHECK(valdrabus_write_literal(NULL, 0, 1, out, ROOM, &first) == VALDRABUS_OK && first == 2 && memcmp(out, "''", 2) == 0);
    CHECK(valdrabus_write_literal(bytes("a"), 1, 0, NULL, 0, &first) == VALDRABUS_NO_ROOM && first == 3);
    CHECK(valdrabus_write_parts(NULL, 0, 4, 0, NULL, 0, &first) == VALDRABUS_NO_ROOM && first == 2);
    CHECK(valdrabus_write_parts(NULL, 0, 4, 0, out, ROOM, &first) == VALDRABUS_OK && first == 2 && memcmp(out, "''", 2) == 0);
    CHECK(valdrabus_write_escape(NULL, 0, NULL, 0, &first) == VALDRABUS_NO_ROOM && first == 3);
    CHECK(valdrabus_write_escape(NULL, 0, out, ROOM, &first) == VALDRABUS_OK && first == 3 && memcmp(out, "E''", 3) == 0);
    CHECK(valdrabus_write_unicode(NULL, 0, NULL, 0, &first) == VALDRABUS_NO_ROOM && first == 4);
    CHECK(valdrabus_write_unicode(NULL, 0, out, ROOM, &first) == VALDRABUS_OK && first == 4 && memcmp(out, "U&''", 4) == 0);
}

/* No bits, read and written. */
static void packed(void)
{
    lend();
    CHECK(valdrabus_as_packed_bits(VALDRABUS_KIND_BINARY_BITS, 0, 0, 0, NULL, 0, NULL, 0, &bits, &how, &first, &second) == VALDRABUS_INVALID_BIT_STRING);
    CHECK(bits == 0 && says(VALDRABUS_NONE, 0, 0));
    lend();
    CHECK(valdrabus_as_packed_bits(VALDRABUS_KIND_BINARY_BITS, 0, 0, 3, bytes("B''"), 3, NULL, 0, &bits, &how, &first, &second) == VALDRABUS_OK);
    CHECK(bits == 0 && says(VALDRABUS_WRITTEN, 0, 0));
    lend();
    CHECK(valdrabus_as_packed_bits(VALDRABUS_KIND_HEX_BITS, 0, 0, 5, bytes("X'FF'"), 5, NULL, 0, &bits, &how, &first, &second) == VALDRABUS_NO_ROOM);
    CHECK(bits == 0 && says(VALDRABUS_NONE, 0, 1));
    lend();
    CHECK(valdrabus_write_bit_literal(NULL, 0, 0, VALDRABUS_KIND_HEX_BITS, NULL, 0, &first) == VALDRABUS_NO_ROOM && first == 3);
    CHECK(valdrabus_write_bit_literal(NULL, 0, 0, VALDRABUS_KIND_BINARY_BITS, out, ROOM, &first) == VALDRABUS_OK && first == 3 && memcmp(out, "B''", 3) == 0);
    CHECK(valdrabus_write_bit_literal(NULL, 0, 1, VALDRABUS_KIND_BINARY_BITS, out, ROOM, &first) == VALDRABUS_BAD_BITS && first == 0);
}

static void helpers(void)
{
    lend();
    CHECK(valdrabus_split_radix_prefix(NULL, 0, &first) == 10 && first == 0);
    CHECK(!valdrabus_uescape_argument_is_legal(NULL, 0));
    CHECK(valdrabus_postgres_escape_string_is_valid(NULL, 0));
    CHECK(valdrabus_unicode_escape_string_is_valid(NULL, 0));
    CHECK(!valdrabus_string_literal_embeds_nul(NULL, 0));
    CHECK(!valdrabus_is_unicode_ident(NULL, 0));
    lend();
    CHECK(valdrabus_materialize_unicode_ident(NULL, 0, NULL, 0, &how, &first, &second) == VALDRABUS_INVALID_STRING && says(VALDRABUS_NONE, 0, 0));
    lend();
    CHECK(valdrabus_materialize_unicode_ident(bytes("U&\"\\0061\""), 9, NULL, 0, &how, &first, &second) == VALDRABUS_NO_ROOM && says(VALDRABUS_NONE, 0, 1));
}

int main(void)
{
    versions();
    messages();
    texts();
    numbers_and_bits();
    parts_and_values();
    blocks();
    room();
    writers();
    packed();
    helpers();
    printf("version, messages, room, and NULL with the length 0: all %u checks hold\n", checks);
    return 0;
}
