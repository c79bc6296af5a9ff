/*
 * Calls each function of valdrabus.h but the block's and those of packed bits, which blocks.c and bits.c call, and compares what it answers, the lent numbers and
 * every byte of the buffer with what document 01's examples, the tables of its reading and those of requests T-01, T-04, T-05 and T-06 say. Prints one line; ends
 * with status 1 at the first difference, having said where it stands.
 */
#include "valdrabus.h"

#include "check.h"

#include <string.h>

#define ROOM 64

/* What a call is lent, and what it left. */
struct call {
    uint32_t number;
    uint32_t how;
    size_t first;
    size_t second;
    size_t place;
    uint8_t out[ROOM];
};

/* Numbers that no call leaves, and a buffer in which a changed byte shows. Most calls are lent no place: theirs stays 0. */
static struct call lent(void)
{
    struct call call = {77, 77, 77, 77, 0, {0}};
    memset(call.out, LENT, ROOM);
    return call;
}

/* The same for a call that is lent a place too, by a number that none leaves either. */
static struct call lent_place(void)
{
    struct call call = lent();
    call.place = SIZE_MAX - 77;
    return call;
}

/* Whether the buffer holds a text at its start, and what was lent behind it. */
static int holds(const struct call *call, const char *text)
{
    size_t at = strlen(text);
    if (memcmp(call->out, text, at) != 0)
        return 0;
    for (; at < ROOM; at++)
        if (call->out[at] != LENT)
            return 0;
    return 1;
}

static int says(const struct call *call, uint32_t number, uint32_t how, size_t first, size_t second, size_t place)
{
    return call->number == number && call->how == how && call->first == first && call->second == second && call->place == place;
}

/* Each of these holds of a call that was asked of a literal that is all of its source. */

static int borrowed(struct call call, size_t first, size_t second)
{
    return says(&call, VALDRABUS_OK, VALDRABUS_BORROWED, first, second, 0) && holds(&call, "");
}

static int written(struct call call, const char *text)
{
    return says(&call, VALDRABUS_OK, VALDRABUS_WRITTEN, 0, strlen(text), 0) && holds(&call, text);
}

static int refused(struct call call, uint32_t number, size_t first, size_t second)
{
    return says(&call, number, VALDRABUS_NONE, first, second, 0) && holds(&call, "");
}

/* A string, or a temporal text, that cannot be read: its span, and the place where reading stops. */
static int broken(struct call call, size_t first, size_t second, size_t place)
{
    return says(&call, VALDRABUS_INVALID_STRING, VALDRABUS_NONE, first, second, place) && holds(&call, "");
}

/* The questions whose signatures are alike. */
typedef uint32_t text_question(uint32_t, uint32_t, uint32_t, uint32_t, const uint8_t *, size_t, uint8_t *, size_t, uint32_t *, size_t *, size_t *);
typedef uint32_t part_question(uint32_t, uint32_t, uint32_t, uint32_t, const uint8_t *, size_t, uint32_t *, size_t *, size_t *);

static struct call string_in(uint32_t kind, const char *source, size_t len, uint32_t setting, size_t room)
{
    struct call c = lent_place();
    c.number = valdrabus_as_str_in(kind, 0, 0, (uint32_t)len, bytes(source), len, setting, c.out, room, &c.how, &c.first, &c.second, &c.place);
    return c;
}

static struct call string(const char *source, uint32_t setting)
{
    return string_in(VALDRABUS_KIND_STRING, source, strlen(source), setting, ROOM);
}

/* A string in a source that may hold more than it. */
static struct call string_of(uint32_t synthetic, uint32_t start, uint32_t end, const char *source)
{
    struct call c = lent_place();
    c.number = valdrabus_as_str_in(VALDRABUS_KIND_STRING, synthetic, start, end, bytes(source), strlen(source), 0, c.out, ROOM, &c.how, &c.first, &c.second, &c.place);
    return c;
}

static struct call temporal_of(uint32_t kind, uint32_t synthetic, uint32_t start, uint32_t end, const char *source, size_t room)
{
    struct call c = lent_place();
    c.number = valdrabus_as_temporal_text(kind, synthetic, start, end, bytes(source), strlen(source), c.out, room, &c.how, &c.first, &c.second, &c.place);
    return c;
}

static struct call temporal(uint32_t kind, const char *source)
{
    return temporal_of(kind, 0, 0, (uint32_t)strlen(source), source, ROOM);
}

static struct call text_in(text_question *ask, uint32_t kind, const char *source, size_t room)
{
    struct call c = lent();
    size_t len = strlen(source);
    c.number = ask(kind, 0, 0, (uint32_t)len, bytes(source), len, c.out, room, &c.how, &c.first, &c.second);
    return c;
}

static struct call part_of(part_question *ask, uint32_t kind, uint32_t synthetic, uint32_t start, uint32_t end, const char *source)
{
    struct call c = lent();
    c.number = ask(kind, synthetic, start, end, bytes(source), strlen(source), &c.how, &c.first, &c.second);
    return c;
}

static struct call part(part_question *ask, uint32_t kind, const char *source)
{
    return part_of(ask, kind, 0, 0, (uint32_t)strlen(source), source);
}

static void strings(void)
{
    CHECK(written(string("'a' 'b' ", 0), "ab"));
    CHECK(broken(string("'a' ", 0), 0, 4, 0));
    CHECK(broken(string("'a' E'c'", 0), 0, 8, 2));
    CHECK(written(string("'x' 'a' E'c'", 0), "xac"));
    CHECK(written(string("'a\\'", 1), "a\\"));
    CHECK(borrowed(string("'a\\'", 0), 1, 3));
    CHECK(broken(string("E'\\400'", 0), 0, 7, 2));
    CHECK(written(string("E'\\477'", 0), "?"));
    CHECK(written(string("E'\\xC3\\xA9'", 0), "\xC3\xA9"));
    CHECK(broken(string("$a$a$", 0), 0, 5, 0));
    CHECK(borrowed(string("$$a$$b$$", 0), 2, 6));
    CHECK(broken(string_in(VALDRABUS_KIND_STRING, "E'a\0'", 5, 0, ROOM), 0, 5, 0));
    CHECK(refused(string("'\xFF'", 0), VALDRABUS_NOT_UTF8, 0, 3));
    CHECK(broken(string("", 0), 0, 0, 0));
    CHECK(refused(string_in(VALDRABUS_KIND_STRING, "'ab' 'c'", 8, 0, 2), VALDRABUS_NO_ROOM, 0, 3));
    CHECK(written(string_in(VALDRABUS_KIND_STRING, "'ab' 'c'", 8, 0, 3), "abc"));
    CHECK(borrowed(string_in(VALDRABUS_KIND_STRING, "'abc'", 5, 0, 0), 1, 4));
    CHECK(refused(string_in(VALDRABUS_KIND_INTEGER, "'a'", 3, 0, ROOM), VALDRABUS_WRONG_KIND, VALDRABUS_EXPECTED_STRING, VALDRABUS_KIND_INTEGER));
    CHECK(refused(string_in(0, "'a'", 3, 0, ROOM), VALDRABUS_BAD_NUMBER, 0, 0));
    CHECK(refused(string_in(15, "'a'", 3, 0, ROOM), VALDRABUS_BAD_NUMBER, 0, 0));
    CHECK(refused(string("'a'", 2), VALDRABUS_BAD_NUMBER, 0, 0));
}

/* Facts of request T-04, by their numbers in its table. */
static void places(void)
{
    CHECK(broken(string("'a'b'", 0), 0, 5, 2));                                             /* 1 */
    CHECK(broken(string("'\xC3\xA9'b'", 0), 0, 6, 3));                                      /* 6 */
    CHECK(broken(string("'a\\''b'", 1), 0, 7, 4));                                          /* 10 */
    CHECK(broken(string("U&'a'b'", 0), 0, 7, 0));                                           /* 20 */
    CHECK(broken(string_in(VALDRABUS_KIND_STRING, "'a\0'", 4, 0, ROOM), 0, 4, 0));          /* 22 */
    CHECK(broken(string_in(VALDRABUS_KIND_STRING, "'a'b\0'", 6, 0, ROOM), 0, 6, 0));        /* 23 */
    CHECK(broken(string("E'\\xC3'", 0), 0, 7, 6));                                          /* 33 */
    CHECK(broken(string("E'\\xC3a'", 0), 0, 8, 6));                                         /* 34 */
    CHECK(broken(string("U&'\\D83D\\0041'", 0), 0, 14, 3));                                /* 50 */
    CHECK(broken(string("U&'\xC3\xA9" "0041\xC3\xA9x'UESCAPE'\xC3\xA9'", 0), 0, 24, 9));     /* 54 */
    CHECK(broken(string("'a' 'b' E'\\400'", 0), 0, 15, 10));                                /* 58 */
    CHECK(broken(string_in(VALDRABUS_KIND_STRING, "'a' '\0' x", 9, 0, ROOM), 0, 9, 4));     /* 62 */
    CHECK(broken(temporal(VALDRABUS_KIND_DATE, "DATE 'a'b'"), 0, 10, 7));                   /* 66 */
    CHECK(broken(temporal(VALDRABUS_KIND_DATE, "DATE"), 0, 4, 0));                          /* 67 */
    CHECK(broken(temporal(VALDRABUS_KIND_DATE, "DATE 'a' 'b"), 0, 11, 9));                  /* 71 */
    CHECK(broken(string_of(0, 2, 7, "xx'a'b'"), 2, 7, 2));                                  /* 72 */
    CHECK(broken(temporal_of(VALDRABUS_KIND_TIME, 0, 2, 12, "xxDATE 'a'b'yy", 0), 2, 12, 7));
    CHECK(broken(string_in(VALDRABUS_KIND_STRING, "'a' 'b'c'", 9, 0, 0), 0, 9, 7));         /* 77 */
}

/* Every call writes the place: 0 for an answer, and for each number but 6. */
static void no_places(void)
{
    CHECK(borrowed(temporal(VALDRABUS_KIND_DATE, "DATE 'a'"), 6, 7));
    CHECK(written(temporal(VALDRABUS_KIND_DATE, "DATE 'a' 'b'"), "ab"));
    CHECK(refused(string_in(VALDRABUS_KIND_DATE, "'a'b'", 5, 0, ROOM), VALDRABUS_WRONG_KIND, VALDRABUS_EXPECTED_STRING, VALDRABUS_KIND_DATE));
    CHECK(refused(temporal(VALDRABUS_KIND_STRING, "'a'b'"), VALDRABUS_WRONG_KIND, VALDRABUS_EXPECTED_TEMPORAL, VALDRABUS_KIND_STRING));
    CHECK(refused(string_of(1, 0, 5, "'a'b'"), VALDRABUS_MISSING_SOURCE, 0, 5));
    CHECK(refused(temporal_of(VALDRABUS_KIND_DATE, 1, 0, 5, "'a'b'", ROOM), VALDRABUS_MISSING_SOURCE, 0, 5));
    CHECK(refused(string_of(0, 0, 9, "'a'b'"), VALDRABUS_INVALID_SOURCE_RANGE, 0, 9));
    CHECK(refused(temporal_of(VALDRABUS_KIND_DATE, 0, 3, 2, "'a'b'", ROOM), VALDRABUS_INVALID_SOURCE_RANGE, 3, 2));
    CHECK(refused(string("'a'\xFF'", 0), VALDRABUS_NOT_UTF8, 0, 5));
    CHECK(refused(temporal(VALDRABUS_KIND_DATE, "'a'\xFF'"), VALDRABUS_NOT_UTF8, 0, 5));
    CHECK(refused(string_in(VALDRABUS_KIND_STRING, "'a' 'b'", 7, 0, 1), VALDRABUS_NO_ROOM, 0, 2));
    CHECK(refused(temporal_of(VALDRABUS_KIND_DATE, 0, 0, 7, "'a' 'b'", 1), VALDRABUS_NO_ROOM, 0, 2));
    CHECK(refused(string("'a'b'", 2), VALDRABUS_BAD_NUMBER, 0, 0));
    CHECK(refused(string_of(2, 0, 5, "'a'b'"), VALDRABUS_BAD_NUMBER, 0, 0));
    CHECK(refused(temporal(15, "'a'b'"), VALDRABUS_BAD_NUMBER, 0, 0));
}

static void other_texts(void)
{
    text_question *decimal = valdrabus_as_decimal_text, *bits = valdrabus_as_bit_text;

    CHECK(written(text_in(decimal, VALDRABUS_KIND_INTEGER, "0x1F", ROOM), "31"));
    CHECK(written(text_in(decimal, VALDRABUS_KIND_DECIMAL, "1_000.5", ROOM), "1000.5"));
    CHECK(borrowed(text_in(decimal, VALDRABUS_KIND_FLOAT, "1.5e3", 0), 0, 5));
    CHECK(written(text_in(decimal, VALDRABUS_KIND_INTEGER, "0x-80000000000000000000000000000000", 40), "-170141183460469231731687303715884105728"));
    CHECK(refused(text_in(decimal, VALDRABUS_KIND_INTEGER, "0x-80000000000000000000000000000000", 39), VALDRABUS_NO_ROOM, 0, 40));
    CHECK(written(text_in(decimal, VALDRABUS_KIND_INTEGER, "0xA", 2), "10"));
    CHECK(refused(text_in(decimal, VALDRABUS_KIND_INTEGER, "0xA", 1), VALDRABUS_NO_ROOM, 0, 2));
    CHECK(refused(text_in(decimal, VALDRABUS_KIND_INTEGER, "-0x-80000000000000000000000000000000", ROOM), VALDRABUS_INVALID_INTEGER, 0, 36));
    CHECK(refused(text_in(decimal, VALDRABUS_KIND_INTEGER, "0x1F", 1), VALDRABUS_NO_ROOM, 0, 2));
    CHECK(refused(text_in(decimal, VALDRABUS_KIND_MONEY, "1", ROOM), VALDRABUS_WRONG_KIND, VALDRABUS_EXPECTED_DECIMAL_TEXT, VALDRABUS_KIND_MONEY));

    CHECK(written(text_in(bits, VALDRABUS_KIND_BINARY_BITS, "B'01' ", ROOM), "01"));
    CHECK(borrowed(text_in(bits, VALDRABUS_KIND_HEX_BITS, "B'aF'", ROOM), 2, 4));
    CHECK(refused(text_in(bits, VALDRABUS_KIND_BINARY_BITS, "B'2'", ROOM), VALDRABUS_INVALID_BIT_STRING, 0, 4));
    CHECK(refused(text_in(bits, VALDRABUS_KIND_NULL, "B'0'", ROOM), VALDRABUS_WRONG_KIND, VALDRABUS_EXPECTED_BIT_STRING, VALDRABUS_KIND_NULL));

    CHECK(borrowed(temporal(VALDRABUS_KIND_DATE, "DATE $$a$$b$$"), 7, 8));
    CHECK(borrowed(temporal(VALDRABUS_KIND_TIME, "DATE'\\n'"), 5, 7));
    CHECK(written(temporal(VALDRABUS_KIND_TIMESTAMP, "DATE E'\\n'"), "\n"));
    CHECK(broken(temporal(VALDRABUS_KIND_INTERVAL, "\"a\""), 0, 3, 0));
    CHECK(refused(temporal(VALDRABUS_KIND_TRUE, "'a'"), VALDRABUS_WRONG_KIND, VALDRABUS_EXPECTED_TEMPORAL, VALDRABUS_KIND_TRUE));
}

static void parts(void)
{
    part_question *text = valdrabus_source_text, *money = valdrabus_as_money_text, *charset = valdrabus_charset_introducer;

    CHECK(borrowed(part(text, VALDRABUS_KIND_NULL, "NULL"), 0, 4));
    CHECK(borrowed(part_of(text, VALDRABUS_KIND_STRING, 0, 2, 5, "x 'a' y"), 2, 5));
    CHECK(refused(part_of(text, VALDRABUS_KIND_STRING, 1, 7, 5, "'a'"), VALDRABUS_MISSING_SOURCE, 7, 5));
    CHECK(refused(part_of(text, VALDRABUS_KIND_STRING, 0, 1, 2, "\xC3\xA9"), VALDRABUS_INVALID_SOURCE_RANGE, 1, 2));
    CHECK(refused(part_of(text, VALDRABUS_KIND_STRING, 0, 2, 1, "'a'"), VALDRABUS_INVALID_SOURCE_RANGE, 2, 1));
    CHECK(refused(part_of(text, VALDRABUS_KIND_STRING, 0, 0, 4, "'a'"), VALDRABUS_INVALID_SOURCE_RANGE, 0, 4));
    CHECK(refused(part_of(text, VALDRABUS_KIND_STRING, 2, 0, 3, "'a'"), VALDRABUS_BAD_NUMBER, 0, 0));

    CHECK(borrowed(part(money, VALDRABUS_KIND_MONEY, "$12.50"), 1, 6));
    CHECK(refused(part(money, VALDRABUS_KIND_MONEY, "12.50"), VALDRABUS_INVALID_MONEY, 0, 5));
    CHECK(refused(part(money, VALDRABUS_KIND_FALSE, "$1"), VALDRABUS_WRONG_KIND, VALDRABUS_EXPECTED_MONEY, VALDRABUS_KIND_FALSE));

    CHECK(borrowed(part(charset, VALDRABUS_KIND_STRING, "_utf8mb4'x'"), 1, 8));
    CHECK(refused(part(charset, VALDRABUS_KIND_STRING, "'x'"), VALDRABUS_OK, 0, 0));
    CHECK(refused(part(charset, VALDRABUS_KIND_STRING, "_a'\xFF'"), VALDRABUS_NOT_UTF8, 0, 5));
}

/* The number that an integer's reading gives, and the value beside it. */
static uint32_t integer(const char *source, int64_t *value, size_t *first, size_t *second)
{
    size_t len = strlen(source);
    *value = *first = *second = 77;
    return valdrabus_as_i64(VALDRABUS_KIND_INTEGER, 0, 0, (uint32_t)len, bytes(source), len, value, first, second);
}

static void values(void)
{
    int64_t value;
    uint32_t truth = 77;
    size_t first, second;

    CHECK(integer("-9223372036854775808", &value, &first, &second) == VALDRABUS_OK && value == INT64_MIN && first == 0 && second == 0);
    CHECK(integer("-0x8000000000000000", &value, &first, &second) == VALDRABUS_INVALID_INTEGER && value == 0 && first == 0 && second == 19);
    CHECK(integer("0x-5", &value, &first, &second) == VALDRABUS_OK && value == -5);
    CHECK(integer("1_0", &value, &first, &second) == VALDRABUS_OK && value == 10);

    CHECK(valdrabus_as_bool(VALDRABUS_KIND_TRUE, &truth, &first, &second) == VALDRABUS_OK && truth == 1);
    CHECK(valdrabus_as_bool(VALDRABUS_KIND_FALSE, &truth, &first, &second) == VALDRABUS_OK && truth == 0);
    truth = 77;
    CHECK(valdrabus_as_bool(VALDRABUS_KIND_NULL, &truth, &first, &second) == VALDRABUS_WRONG_KIND && truth == 0);
    CHECK(first == VALDRABUS_EXPECTED_BOOLEAN && second == VALDRABUS_KIND_NULL);
    CHECK(valdrabus_as_null(VALDRABUS_KIND_NULL, &first, &second) == VALDRABUS_OK && first == 0 && second == 0);
    CHECK(valdrabus_as_null(VALDRABUS_KIND_STRING, &first, &second) == VALDRABUS_WRONG_KIND);
    CHECK(first == VALDRABUS_EXPECTED_NULL && second == VALDRABUS_KIND_STRING);
    CHECK(valdrabus_as_null(99, &first, &second) == VALDRABUS_BAD_NUMBER && first == 0 && second == 0);
    CHECK(valdrabus_is_null(VALDRABUS_KIND_NULL) && !valdrabus_is_null(VALDRABUS_KIND_STRING) && !valdrabus_is_null(99));
}

/* What a date is lent, and what the call left. */
struct dated {
    uint32_t returned;
    uint32_t year, month, day, number;
    size_t first, second;
};

static struct dated date_of(uint32_t kind, uint32_t synthetic, uint32_t start, uint32_t end, const char *source, size_t len)
{
    struct dated d = {77, 77, 77, 77, 77, 77, 77};
    d.returned = valdrabus_as_date(kind, synthetic, start, end, bytes(source), len, &d.year, &d.month, &d.day, &d.number, &d.first, &d.second);
    return d;
}

static struct dated date(const char *source)
{
    size_t len = strlen(source);
    return date_of(VALDRABUS_KIND_DATE, 0, 0, (uint32_t)len, source, len);
}

static int is_on(struct dated d, uint32_t year, uint32_t month, uint32_t day, uint32_t number)
{
    return d.returned == VALDRABUS_OK && d.year == year && d.month == month && d.day == day && d.number == number
        && d.first == 0 && d.second == 0;
}

static int is_none(struct dated d, uint32_t number, size_t first, size_t second)
{
    return d.returned == number && d.year == 0 && d.month == 0 && d.day == 0 && d.number == 0
        && d.first == first && d.second == second;
}

/* Whether a date is refused by 6, which is lent no place, and the temporal question with an empty buffer by the same, with its place. */
static int is_unreadable(uint32_t start, uint32_t end, const char *source, size_t len, size_t place)
{
    struct call c = lent_place();
    c.number = valdrabus_as_temporal_text(VALDRABUS_KIND_DATE, 0, start, end, bytes(source), len, c.out, 0, &c.how, &c.first, &c.second, &c.place);
    return is_none(date_of(VALDRABUS_KIND_DATE, 0, start, end, source, len), VALDRABUS_INVALID_STRING, start, end) && broken(c, start, end, place);
}

/* Whether a number gives a day, which of a number that is no day's is 0, 0, 0. */
static int gives(uint32_t number, uint32_t returned, uint32_t year, uint32_t month, uint32_t day)
{
    uint32_t y = 77, m = 77, d = 77;
    return valdrabus_date_of_day(number, &y, &m, &d) == returned && y == year && m == month && d == day;
}

/* A literal with its day. */
struct day {
    const char *text;
    uint32_t year, month, day, number;
};

/* Facts of request T-05: days, by their literals and by their numbers. */
static void dates(void)
{
    static const struct day rows[] = {
        {"'0001-01-01'", 1, 1, 1, 1},
        {"'0001-12-31'", 1, 12, 31, 365},
        {"'0002-01-01'", 2, 1, 1, 366},
        {"'0004-02-29'", 4, 2, 29, 1155},
        {"'0100-12-31'", 100, 12, 31, 36524},
        {"'0400-02-29'", 400, 2, 29, 145791},
        {"'0400-12-31'", 400, 12, 31, 146097},
        {"'1582-10-10'", 1582, 10, 10, 577731},
        {"'1900-03-01'", 1900, 3, 1, 693655},
        {"'1970-01-01'", 1970, 1, 1, 719163},
        {"'2000-02-29'", 2000, 2, 29, 730179},
        {"'2024-02-29'", 2024, 2, 29, 738945},
        {"'2024-12-31'", 2024, 12, 31, 739251},
        {"'2025-01-01'", 2025, 1, 1, 739252},
        {"'9999-12-31'", 9999, 12, 31, 3652059},
        {"DATE '2024-01-02'", 2024, 1, 2, 738887},
        {"TIMESTAMP '2024-01-02' DAY", 2024, 1, 2, 738887},
        {"E'2024\\x2d01-02'", 2024, 1, 2, 738887},
        {"E'\\062024-01-02'", 2024, 1, 2, 738887},
        {"DATE $$2024-01-02$$", 2024, 1, 2, 738887},
        {"$$2024-01-02$$x$$", 2024, 1, 2, 738887},
        {"DATE '2024-' '01-02'", 2024, 1, 2, 738887},
        {"'2024' '-01-' E'\\x30\\x32'", 2024, 1, 2, 738887},
        {"'2024-01-02' ''", 2024, 1, 2, 738887},
    };
    size_t at;

    for (at = 0; at < sizeof rows / sizeof rows[0]; at++) {
        CHECK_ROW(is_on(date(rows[at].text), rows[at].year, rows[at].month, rows[at].day, rows[at].number), rows[at].text);
        CHECK_ROW(gives(rows[at].number, VALDRABUS_OK, rows[at].year, rows[at].month, rows[at].day), rows[at].text);
    }
    CHECK(is_on(date_of(VALDRABUS_KIND_DATE, 0, 1, 13, "a'2024-01-02'b", 14), 2024, 1, 2, 738887));
    CHECK(gives(0, VALDRABUS_INVALID_DATE, 0, 0, 0));
    CHECK(gives(3652060, VALDRABUS_INVALID_DATE, 0, 0, 0));
    CHECK(gives(UINT32_MAX, VALDRABUS_INVALID_DATE, 0, 0, 0));
}

/* The same: values that are no date, and each refusal before. */
static void no_dates(void)
{
    static const char *const values[] = {
        "''", "'x'", "'0000-01-01'", "'0100-02-29'", "'1500-02-29'", "'1900-02-29'", "'2023-02-29'", "'2024-00-01'", "'2024-13-01'", "'2024-01-00'",
        "'2024-01-32'", "'2024-04-31'", "'2024-01-0'", "'2024-01-021'", "'2024-01-02 '", "'10000-01-01'", "'2024-1-002'", "'2024/01/02'", "'+024-01-02'",
        "'\xD9\xA2\xD9\xA0\xD9\xA2\xD9\xA4-1'", "'2024\\x2d01-02'", "U&'2024\\002d01-02'", "'2024-''01-02'",
    };
    const char *day = "'2024-01-02'";
    uint32_t kind;
    size_t at;

    for (at = 0; at < sizeof values / sizeof values[0]; at++)
        CHECK_ROW(is_none(date(values[at]), VALDRABUS_INVALID_DATE, 0, strlen(values[at])), values[at]);
    CHECK(is_none(date_of(VALDRABUS_KIND_DATE, 0, 1, 4, "a'x'", 4), VALDRABUS_INVALID_DATE, 1, 4));

    CHECK(is_unreadable(0, 0, "", 0, 0));
    CHECK(is_unreadable(0, 17, "DATE \"2024-01-02\"", 17, 0));
    CHECK(is_unreadable(0, 14, "''2024-01-02''", 14, 1));
    CHECK(is_unreadable(0, 22, "'2024-01-02' 'x' E'\\0'", 22, 19));
    CHECK(is_unreadable(0, 17, "E'2024-01-02\\xC3'", 17, 16));
    CHECK(is_unreadable(0, 13, "'2024-01-02\0'", 13, 0));
    CHECK(is_unreadable(2, 12, "xxDATE 'a'b'yy", 14, 7));

    CHECK(is_none(date("'2024-01-0\xFF"), VALDRABUS_NOT_UTF8, 0, 11));
    CHECK(is_none(date("'\xFF'"), VALDRABUS_NOT_UTF8, 0, 3));
    CHECK(is_none(date_of(VALDRABUS_KIND_DATE, 0, 12, 0, day, 12), VALDRABUS_INVALID_SOURCE_RANGE, 12, 0));
    CHECK(is_none(date_of(VALDRABUS_KIND_DATE, 0, 0, 13, day, 12), VALDRABUS_INVALID_SOURCE_RANGE, 0, 13));
    CHECK(is_none(date_of(VALDRABUS_KIND_DATE, 1, 12, 0, day, 12), VALDRABUS_MISSING_SOURCE, 12, 0));
    for (kind = VALDRABUS_KIND_INTEGER; kind <= VALDRABUS_KIND_MONEY; kind++)
        if (kind != VALDRABUS_KIND_DATE)
            CHECK(is_none(date_of(kind, 1, 12, 0, day, 12), VALDRABUS_WRONG_KIND, VALDRABUS_EXPECTED_DATE, kind));
    CHECK(is_none(date_of(0, 1, 12, 0, day, 12), VALDRABUS_BAD_NUMBER, 0, 0));
    CHECK(is_none(date_of(15, 0, 0, 12, day, 12), VALDRABUS_BAD_NUMBER, 0, 0));
    CHECK(is_none(date_of(VALDRABUS_KIND_DATE, 2, 12, 0, day, 12), VALDRABUS_BAD_NUMBER, 0, 0));
    CHECK(is_none(date_of(VALDRABUS_KIND_TIME, 2, 12, 0, day, 12), VALDRABUS_BAD_NUMBER, 0, 0));
}

static int view(uint32_t how, size_t first, size_t second, uint32_t shown, size_t start, size_t end)
{
    size_t from = 77, until = 77;
    return valdrabus_view(how, first, second, 10, 4, &from, &until) == shown && from == start && until == end;
}

static void views(void)
{
    CHECK(view(VALDRABUS_BORROWED, 3, 10, VALDRABUS_BORROWED, 3, 10));
    CHECK(view(VALDRABUS_WRITTEN, 0, 4, VALDRABUS_WRITTEN, 0, 4));
    CHECK(view(VALDRABUS_BORROWED, 3, 11, VALDRABUS_NONE, 0, 0));
    CHECK(view(VALDRABUS_WRITTEN, 0, 5, VALDRABUS_NONE, 0, 0));
    CHECK(view(VALDRABUS_WRITTEN, 1, 2, VALDRABUS_WRITTEN, 1, 2));
    CHECK(view(VALDRABUS_WRITTEN, 3, 5, VALDRABUS_NONE, 0, 0));
    CHECK(view(VALDRABUS_WRITTEN, 3, 2, VALDRABUS_NONE, 0, 0));
    CHECK(view(VALDRABUS_BORROWED, 10, 10, VALDRABUS_BORROWED, 10, 10));
    CHECK(view(VALDRABUS_BORROWED, 10, 9, VALDRABUS_NONE, 0, 0));
    CHECK(view(VALDRABUS_NONE, 0, 3, VALDRABUS_NONE, 0, 0));
}

static void writer(void)
{
    struct call c = lent();

    c.number = valdrabus_write_literal(bytes("a'b"), 3, 0, c.out, ROOM, &c.second);
    CHECK(c.number == VALDRABUS_OK && c.second == 6 && holds(&c, "'a''b'"));
    c = lent();
    c.number = valdrabus_write_literal(bytes("a\\\0"), 3, 1, c.out, ROOM, &c.second);
    CHECK(c.number == VALDRABUS_OK && c.second == 7 && holds(&c, "'a\\\\\\0'"));
    c = lent();
    c.number = valdrabus_write_parts(bytes("abcde"), 5, 4, 0, c.out, ROOM, &c.second);
    CHECK(c.number == VALDRABUS_OK && c.second == 10 && holds(&c, "'abcd'\n'e'"));
    c = lent();
    c.number = valdrabus_write_parts(bytes("abcde\\"), 6, 4, 1, c.out, ROOM, &c.second);
    CHECK(c.number == VALDRABUS_OK && c.second == 12 && holds(&c, "'abcd'\n'e\\\\'"));
    c = lent();
    CHECK(valdrabus_write_parts(bytes("abcde"), 5, 4, 0, c.out, 9, &c.second) == VALDRABUS_NO_ROOM && c.second == 10 && holds(&c, ""));
    CHECK(written(string("'abcd'\n'e'", 0), "abcde"));
    CHECK(written(string("'abcd' 'e'", 0), "abcde"));

    c = lent();
    CHECK(valdrabus_write_literal(bytes("abc"), 3, 0, c.out, 4, &c.second) == VALDRABUS_NO_ROOM && c.second == 5 && holds(&c, ""));
    CHECK(valdrabus_write_literal(bytes("\0"), 1, 0, c.out, ROOM, &c.second) == VALDRABUS_HOLDS_NUL && c.second == 0 && holds(&c, ""));
    CHECK(valdrabus_write_literal(bytes("\xFF"), 1, 0, c.out, ROOM, &c.second) == VALDRABUS_NOT_UTF8 && c.second == 0 && holds(&c, ""));
    CHECK(valdrabus_write_parts(bytes("a"), 1, 3, 0, c.out, ROOM, &c.second) == VALDRABUS_OVER_LIMIT && c.second == 0 && holds(&c, ""));
    CHECK(valdrabus_write_parts(bytes("a"), 1, 3, 2, c.out, ROOM, &c.second) == VALDRABUS_BAD_NUMBER && c.second == 0 && holds(&c, ""));
}

/* The writers that take no setting. */
typedef uint32_t form_writer(const uint8_t *, size_t, uint8_t *, size_t, size_t *);

static struct call formed(form_writer *write, const char *value, size_t len, size_t room)
{
    struct call c = lent();
    c.number = write(bytes(value), len, c.out, room, &c.second);
    return c;
}

static int form_refused(form_writer *write, const char *value, size_t len, size_t room, uint32_t number, size_t needed)
{
    struct call c = formed(write, value, len, room);
    return c.number == number && c.second == needed && holds(&c, "");
}

/* Whether a value is written as a text, in a buffer just as long and in a longer one, and in none that is shorter. */
static int writes(form_writer *write, const char *value, const char *text)
{
    size_t len = strlen(value), needed = strlen(text);
    struct call exact = formed(write, value, len, needed), longer = formed(write, value, len, ROOM);
    return exact.number == VALDRABUS_OK && exact.second == needed && holds(&exact, text)
        && longer.number == VALDRABUS_OK && longer.second == needed && holds(&longer, text)
        && form_refused(write, value, len, needed - 1, VALDRABUS_NO_ROOM, needed)
        && form_refused(write, value, len, 0, VALDRABUS_NO_ROOM, needed);
}

/* Whether both validators take a text, and it is read as a value at both settings: a part of it where nothing was escaped, else written. */
static int reads_back(const char *text, size_t opening, const char *value)
{
    const uint8_t *from = bytes(text);
    size_t len = strlen(text);
    int plain = len == opening + strlen(value) + 1;
    uint32_t setting;

    if (!valdrabus_postgres_escape_string_is_valid(from, len) || !valdrabus_unicode_escape_string_is_valid(from, len))
        return 0;
    for (setting = 0; setting < 2; setting++)
        if (!(plain ? borrowed(string(text, setting), opening, len - 1) : written(string(text, setting), value)))
            return 0;
    return 1;
}

/* A value with its two spellings. */
struct spelled {
    const char *value, *escape, *unicode;
};

static void spellings(void)
{
    static const struct spelled rows[] = {
        {"", "E''", "U&''"},
        {"a", "E'a'", "U&'a'"},
        {"a'b", "E'a''b'", "U&'a''b'"},
        {"\\'", "E'\\\\'''", "U&'\\\\'''"},
        {"\"", "E'\"'", "U&'\"'"},
        {"\001" "1", "E'\\0011'", "U&'\\00011'"},
        {"\x08\t\n\f\r", "E'\\b\\t\\n\\f\\r'", "U&'\\0008\\0009\\000A\\000C\\000D'"},
        {"\x0B\x1F", "E'\\013\\037'", "U&'\\000B\\001F'"},
        {" ~\x7F", "E' ~\x7F'", "U&' ~\\007F'"},
        {"\xC3\xA9" "A", "E'\xC3\xA9" "A'", "U&'\\00E9A'"},
        {"\xEF\xBF\xBF", "E'\xEF\xBF\xBF'", "U&'\\FFFF'"},
        {"\xF0\x90\x80\x8A", "E'\xF0\x90\x80\x8A'", "U&'\\+01000A'"},
        {"\xF4\x8F\xBF\xBF", "E'\xF4\x8F\xBF\xBF'", "U&'\\+10FFFF'"},
        {"5 \xC2\xB5g\n", "E'5 \xC2\xB5g\\n'", "U&'5 \\00B5g\\000A'"},
    };
    size_t at;

    for (at = 0; at < sizeof rows / sizeof rows[0]; at++) {
        CHECK_ROW(writes(valdrabus_write_escape, rows[at].value, rows[at].escape), rows[at].escape);
        CHECK_ROW(reads_back(rows[at].escape, 2, rows[at].value), rows[at].escape);
        CHECK_ROW(writes(valdrabus_write_unicode, rows[at].value, rows[at].unicode), rows[at].unicode);
        CHECK_ROW(reads_back(rows[at].unicode, 3, rows[at].value), rows[at].unicode);
    }
}

/* One byte more than a writer takes. It is refused before a byte of it is read; as it is not const, it takes no room in the program's file either. */
static uint8_t too_long[268435457];

static void refused_spellings(void)
{
    form_writer *const writers[] = {valdrabus_write_escape, valdrabus_write_unicode};
    size_t at;

    for (at = 0; at < 2; at++) {
        CHECK(form_refused(writers[at], "\0", 1, ROOM, VALDRABUS_HOLDS_NUL, 0));
        CHECK(form_refused(writers[at], "a\0b", 3, 0, VALDRABUS_HOLDS_NUL, 0));
        CHECK(form_refused(writers[at], "\xFF\0", 2, ROOM, VALDRABUS_NOT_UTF8, 0));
        CHECK(form_refused(writers[at], "\xC3", 1, 0, VALDRABUS_NOT_UTF8, 0));
        CHECK(form_refused(writers[at], "\xED\xA0\x80", 3, ROOM, VALDRABUS_NOT_UTF8, 0));
        CHECK(form_refused(writers[at], (const char *)too_long, sizeof too_long, ROOM, VALDRABUS_OVER_LIMIT, 0));
    }
}

static struct call identifier(const char *text, size_t room)
{
    struct call c = lent();
    c.number = valdrabus_materialize_unicode_ident(bytes(text), strlen(text), c.out, room, &c.how, &c.first, &c.second);
    return c;
}

static void helpers(void)
{
    size_t start = 77;

    CHECK(valdrabus_split_radix_prefix(bytes("0x1F"), 4, &start) == 16 && start == 2);
    CHECK(valdrabus_split_radix_prefix(bytes("-0x1"), 4, &start) == 10 && start == 0);
    CHECK(valdrabus_uescape_argument_is_legal(bytes("'!'"), 3) && !valdrabus_uescape_argument_is_legal(bytes("'+'"), 3));
    CHECK(valdrabus_postgres_escape_string_is_valid(bytes("E'a\0'"), 5) && !valdrabus_postgres_escape_string_is_valid(bytes("E'\\0'"), 5));
    CHECK(valdrabus_unicode_escape_string_is_valid(bytes("U&''"), 4) && !valdrabus_unicode_escape_string_is_valid(bytes("U&'\\'"), 5));
    CHECK(valdrabus_string_literal_embeds_nul(bytes("a\0"), 2) && !valdrabus_string_literal_embeds_nul(bytes("a"), 1));
    CHECK(valdrabus_is_unicode_ident(bytes("U&\"x"), 4) && !valdrabus_is_unicode_ident(bytes("U&'x'"), 5));

    CHECK(borrowed(identifier("U&\"a'b\"", 0), 3, 6));
    CHECK(written(identifier("U&\"!0041\" UESCAPE '!'", ROOM), "A"));
    CHECK(refused(identifier("U&\"\\0041\"", 0), VALDRABUS_NO_ROOM, 0, 1));
    CHECK(refused(identifier("\"a\"", ROOM), VALDRABUS_INVALID_STRING, 0, 0));
    CHECK(refused(identifier("U&\"\xFF\"", ROOM), VALDRABUS_NOT_UTF8, 0, 0));
}

int main(void)
{
    strings();
    places();
    no_places();
    other_texts();
    parts();
    values();
    dates();
    no_dates();
    views();
    writer();
    spellings();
    refused_spellings();
    helpers();
    printf("%u checks of the C functions hold\n", checks);
    return 0;
}
