/*
 * valdrabus: reads the literals of SQL dumps, dates as days and bit strings as packed bytes too, and writes values as literals: plain, E'..' and U&'..', and
 * packed bytes as B'..' and X'..'.
 *
 * Link libvaldrabus.a (made by `tools/archive`, for x86-64 or Arm), or what `tools/install` puts beside it. No function allocates, keeps a pointer, or has any state.
 *
 * WHAT THE CALLER OWES, and no more:
 *   - a pointer with a length is valid for that many bytes, for reading, and for writing where it is not const; with the length 0 it is any pointer, NULL too;
 *   - the same of a block's items and answers, whose lengths count 32-bit numbers and not bytes; these pointers are aligned, with the length 0 too, as NULL is;
 *   - a pointer to a number (how, first, second, place, value, year, bits, len ..) is valid for writing and aligned, and so never NULL;
 *   - what is written through (the buffer, each lent number, a block's answers) overlaps nothing else that is given.
 * Everything else is tested: every kind, span, source, setting and buffer gets an answer or a number.
 *
 * A LITERAL is given by four numbers: its kind's code (VALDRABUS_KIND_..), 1 if it stands in no source and else 0 (synthetic), and where its text begins and ends
 * in the source, in bytes. Time zones and interval data decide nothing, so they are not asked for.
 *
 * A SETTING is 1 where MySQL's backslash escapes hold in strings without a prefix, else 0.
 *
 * NUMBERS. A function that can refuse returns a number:
 *    0  answered
 *    1  the kind does not fit the question         first: what was expected (VALDRABUS_EXPECTED_..), second: the kind's code
 *    2  the literal stands in no source            first, second: its span
 *    3  start > end, end past the source, or either place cuts a character       first, second: its span
 *       (the place is below the source's length and its byte is 80 to BF hex; place 0 too, so a text that begins so is 3 and never 4)
 *    4  the text (for a writer: the value) is not UTF-8                          first, second: its span; 0 and 0 without a literal
 *    5  not a readable integer                     first, second: its span
 *    6  not a readable string                      first, second: its span; 0 and 0 without a literal       place: where reading stops
 *    7  not a readable bit string                  first, second: its span
 *    8  not a money text                           first, second: its span
 *    9  would be written, and the buffer, in a block what is left of it, is shorter       first: 0, second: the length needed
 *   10  a number that is given, to a call or in a block's item, names nothing: an unknown kind, for a bit string's writer one that is neither 12 nor 13, or a mark
 *       or setting that is neither 0 nor 1       first, second: 0
 *   11  a writer's value holds NUL, which a plain literal does not spell with the setting 0, and E'..' and U&'..' at neither setting
 *   12  a writer's value has more than 268435456 bytes, for a bit string's its packed bytes, or the part size is below 4
 *   14  a date literal's value is no date         first, second: its span; valdrabus_date_of_day, whose number is no day's, has no span
 *   15  a block as a whole: its items are not in fours, its answers have fewer numbers than its items, or the buffer has more than 4294967295 bytes
 *   16  packed bytes that are none of that many bits: the byte count is not the bit count rounded up to bytes, an unused bit is set, or an X'..' is asked of a
 *       count that is no multiple of four
 * 10 is tested before all others; then 1, 2, 3, 4, then 5 to 8, then 9 or 14. The plain writers test 10, 12, 4, 11, 9; the writers of E'..' and U&'..', which
 * take no number that could name nothing, 12, 4, 11, 9; a bit string's writer 10, 12, 16, 9. Of a block 15 is tested before any item is looked at, and of each item 10, 1, 3, 4, 6, 9.
 *
 * WHAT STAYS UNCHANGED. A refusal, by any number but 0, and a borrowed answer change no byte of the buffer. A written answer fills the buffer's start, in a block
 * the start of what is left; the rest is unchanged. The lent numbers (how, first, second, place ..) are written by every call, with 0 where nothing else is said: so place is 0
 * for every answer and for every number but 6. A block's answers are written for its items: past them, and on 15, they are as they were lent.
 *
 * HOW a text is answered:
 *   VALDRABUS_NONE      no text: a refusal, or no charset's name
 *   VALDRABUS_BORROWED  the bytes first to second (second not included) of the source
 *   VALDRABUS_WRITTEN   the bytes first (which is 0) to second of the buffer
 * A block tells its texts by start and length instead.
 *
 * ROOM. A buffer as long as the text, end - start, is never too short, which is proved: the value of a string or a temporal text is at most its text less two bytes, a
 * bit string's digits less three, an identifier's text less four; packed bits take half of the text's bytes. Only a number may need more: 40 bytes, or the text's length
 * where that is more.
 *
 * THE PLACE of a 6 says where the text broke, so that nobody has to hunt for the byte. valdrabus_as_str_in and valdrabus_as_temporal_text are lent a number
 * for it, and a block tells it in the start field of its answer; identifiers have none, and neither has any other number. valdrabus_as_date is lent none:
 * where it gives 6, valdrabus_as_temporal_text gives 6 for the same literal with any buffer, an empty one too, and tells the place. It counts bytes from the
 * literal's text's start: the byte in the source is start + place. That byte always begins a character and lies inside the text; for an empty text the place
 * is 0. Reading from the left stops:
 *   - at a lone quote;
 *   - at an escape that cannot be read, at its first byte; of a broken pair of halves, at the first half's;
 *   - in E'..' whose bytes become no UTF-8, at the escape or raw character that broke it, or at the closing quote where a sequence is left unfinished;
 *   - at the segment's start, where it holds a raw NUL or is of no spelling; in text that is not joined that is 0;
 *   - in joined text in the first segment that cannot be read, or at the start of what is no segment.
 * For 'a'b' it is 2, for E'ab\400' 4, for 'a' 'b' E'\400' 10, and for DATE 'a'b' 7. A temporal text without a quoted token has the place 0.
 */
#ifndef VALDRABUS_H
#define VALDRABUS_H

#include <stdbool.h>
#include <stddef.h>
#include <stdint.h>

/* THE VERSION of this header; as one number 200, which grows with every version. */
#define VALDRABUS_VERSION_MAJOR 0
#define VALDRABUS_VERSION_MINOR 2
#define VALDRABUS_VERSION_PATCH 0
#define VALDRABUS_VERSION (VALDRABUS_VERSION_MAJOR * 10000 + VALDRABUS_VERSION_MINOR * 100 + VALDRABUS_VERSION_PATCH)
#define VALDRABUS_VERSION_TEXT "0.2.0"

#ifdef __cplusplus
extern "C" {
#endif

/* The version of the library that is linked. Where it is not VALDRABUS_VERSION, header and library are of two versions, which no linker tells. */
uint32_t valdrabus_version(void);

enum {
    VALDRABUS_KIND_INTEGER = 1,
    VALDRABUS_KIND_FLOAT = 2,
    VALDRABUS_KIND_DECIMAL = 3,
    VALDRABUS_KIND_STRING = 4,
    VALDRABUS_KIND_TRUE = 5,
    VALDRABUS_KIND_FALSE = 6,
    VALDRABUS_KIND_NULL = 7,
    VALDRABUS_KIND_DATE = 8,
    VALDRABUS_KIND_TIME = 9,
    VALDRABUS_KIND_TIMESTAMP = 10,
    VALDRABUS_KIND_INTERVAL = 11,
    VALDRABUS_KIND_BINARY_BITS = 12,
    VALDRABUS_KIND_HEX_BITS = 13,
    VALDRABUS_KIND_MONEY = 14
};

enum {
    VALDRABUS_EXPECTED_INTEGER = 1,
    VALDRABUS_EXPECTED_DECIMAL_TEXT = 2,
    VALDRABUS_EXPECTED_STRING = 3,
    VALDRABUS_EXPECTED_BOOLEAN = 4,
    VALDRABUS_EXPECTED_NULL = 5,
    VALDRABUS_EXPECTED_TEMPORAL = 6,
    VALDRABUS_EXPECTED_BIT_STRING = 7,
    VALDRABUS_EXPECTED_MONEY = 8,
    VALDRABUS_EXPECTED_DATE = 9
};

enum {
    VALDRABUS_OK = 0,
    VALDRABUS_WRONG_KIND = 1,
    VALDRABUS_MISSING_SOURCE = 2,
    VALDRABUS_INVALID_SOURCE_RANGE = 3,
    VALDRABUS_NOT_UTF8 = 4,
    VALDRABUS_INVALID_INTEGER = 5,
    VALDRABUS_INVALID_STRING = 6,
    VALDRABUS_INVALID_BIT_STRING = 7,
    VALDRABUS_INVALID_MONEY = 8,
    VALDRABUS_NO_ROOM = 9,
    VALDRABUS_BAD_NUMBER = 10,
    VALDRABUS_HOLDS_NUL = 11,
    VALDRABUS_OVER_LIMIT = 12,
    VALDRABUS_INVALID_DATE = 14,
    VALDRABUS_BAD_BLOCK = 15,
    VALDRABUS_BAD_BITS = 16
};

enum {
    VALDRABUS_NONE = 0,
    VALDRABUS_BORROWED = 1,
    VALDRABUS_WRITTEN = 2
};

/* What a call's number says, as a sentence without span, place and length, which the call tells; never NULL. It is defined here, so that the library holds proved
   code alone: a Rattle function has no text of its own to lend. */
static inline const char *valdrabus_message(uint32_t number)
{
    switch (number) {
    case VALDRABUS_OK:
        return "answered";
    case VALDRABUS_WRONG_KIND:
        return "the kind does not fit the question";
    case VALDRABUS_MISSING_SOURCE:
        return "the literal stands in no source";
    case VALDRABUS_INVALID_SOURCE_RANGE:
        return "the span is no range of whole characters in the source";
    case VALDRABUS_NOT_UTF8:
        return "the text or value is not UTF-8";
    case VALDRABUS_INVALID_INTEGER:
        return "the text is not a readable integer";
    case VALDRABUS_INVALID_STRING:
        return "the text is not a readable string";
    case VALDRABUS_INVALID_BIT_STRING:
        return "the text is not a readable bit string";
    case VALDRABUS_INVALID_MONEY:
        return "the text is not a money text";
    case VALDRABUS_NO_ROOM:
        return "the room is too short";
    case VALDRABUS_BAD_NUMBER:
        return "a kind, mark or setting that is given names nothing";
    case VALDRABUS_HOLDS_NUL:
        return "the value holds a NUL: only plain literals with backslash escapes spell it";
    case VALDRABUS_OVER_LIMIT:
        return "the value is too long to be written, or the part size too small";
    case VALDRABUS_INVALID_DATE:
        return "the text or number is not a date, yyyy-mm-dd from 0001-01-01 to 9999-12-31";
    case VALDRABUS_BAD_BLOCK:
        return "the block's items are not in fours, it has fewer answers than items, or its buffer is too long";
    case VALDRABUS_BAD_BITS:
        return "the bytes are no packed bits of that count, or X'..' cannot spell it";
    default:
        return "unknown number";
    }
}

/* TEXTS: a part of the source, or written into the buffer. */

/* What a string literal means at a setting. A buffer of end - start bytes always has room. 1, 2, 3, 4, 6, 9, 10. */
uint32_t valdrabus_as_str_in(uint32_t kind, uint32_t synthetic, uint32_t start, uint32_t end, const uint8_t *source, size_t source_len,
                             uint32_t setting, uint8_t *out, size_t out_len, uint32_t *how, size_t *first, size_t *second, size_t *place);

/* A number's decimal text (integer, float, decimal). 1, 2, 3, 4, 5, 9, 10. A buffer of 40 bytes holds every radix value; without a radix prefix the text is no longer
   than the literal's. */
uint32_t valdrabus_as_decimal_text(uint32_t kind, uint32_t synthetic, uint32_t start, uint32_t end, const uint8_t *source, size_t source_len,
                                   uint8_t *out, size_t out_len, uint32_t *how, size_t *first, size_t *second);

/* A bit string's digits, binary or hex by the kind and not by the letter before the mark. 1, 2, 3, 4, 7, 9, 10. */
uint32_t valdrabus_as_bit_text(uint32_t kind, uint32_t synthetic, uint32_t start, uint32_t end, const uint8_t *source, size_t source_len,
                               uint8_t *out, size_t out_len, uint32_t *how, size_t *first, size_t *second);

/* What the quoted token of a date, time, timestamp or interval means, at the setting 0. 1, 2, 3, 4, 6, 9, 10. */
uint32_t valdrabus_as_temporal_text(uint32_t kind, uint32_t synthetic, uint32_t start, uint32_t end, const uint8_t *source, size_t source_len,
                                    uint8_t *out, size_t out_len, uint32_t *how, size_t *first, size_t *second, size_t *place);

/* A BLOCK of string literals in one call: a grid that shows hundreds of rows asks for all of them at once.

   items    four numbers for each literal: kind, setting, start, end. There is no mark, so each stands in the source.
   answers  four numbers for each literal, in the same order: number, how, start, length. With VALDRABUS_BORROWED the text is length bytes of the source from start on, with
            VALDRABUS_WRITTEN of the buffer, start being counted from the beginning of the whole buffer. With the number 9 length is what this literal alone needs. With the number 6
            start is the place, counted from this literal's text's start: the byte in the source is the item's start + it. Where nothing else is said a field is 0: on every refusal
            all but the number, 9's length and 6's start.

   Each literal gets the answer of valdrabus_as_str_in with the room that those before it left: 1, 3, 4, 6, 9, 10. Written texts stand one behind the other. A borrowed or refused
   one takes no room, and no refusal ends the block: behind a 9 a shorter one may still be written. The call itself gives 0, or 15 with neither answers nor buffer changed.

   A buffer as long as the items' spans together, up to 4294967295 bytes, always has room: no value is longer than its text less two bytes.

   For the source 'it','a''b' (11 bytes) and a buffer of 64, this answers 0 1 1 2 and 0 2 0 3, and the buffer begins with a'b:

       uint32_t items[] = {VALDRABUS_KIND_STRING, 0, 0, 4, VALDRABUS_KIND_STRING, 0, 5, 11}, answers[8];
       valdrabus_read_block(items, 8, source, 11, answers, 8, out, 64); */
uint32_t valdrabus_read_block(const uint32_t *items, size_t items_len, const uint8_t *source, size_t source_len,
                              uint32_t *answers, size_t answers_len, uint8_t *out, size_t out_len);

/* PARTS of the source: never written. */

/* A literal's text, of any kind. 2, 3, 4, 10. */
uint32_t valdrabus_source_text(uint32_t kind, uint32_t synthetic, uint32_t start, uint32_t end, const uint8_t *source, size_t source_len,
                               uint32_t *how, size_t *first, size_t *second);

/* A money literal's text behind its $. 1, 2, 3, 4, 8, 10. */
uint32_t valdrabus_as_money_text(uint32_t kind, uint32_t synthetic, uint32_t start, uint32_t end, const uint8_t *source, size_t source_len,
                                 uint32_t *how, size_t *first, size_t *second);

/* The name of a string literal's character set; with the number 0 and how 0 it names none. 1, 2, 3, 4, 10. */
uint32_t valdrabus_charset_introducer(uint32_t kind, uint32_t synthetic, uint32_t start, uint32_t end, const uint8_t *source, size_t source_len,
                                      uint32_t *how, size_t *first, size_t *second);

/* VALUES */

/* An integer literal's value; 0 on a refusal. 1, 2, 3, 4, 5, 10. */
uint32_t valdrabus_as_i64(uint32_t kind, uint32_t synthetic, uint32_t start, uint32_t end, const uint8_t *source, size_t source_len,
                          int64_t *value, size_t *first, size_t *second);

/* A boolean literal's value, 1 or 0; 0 on a refusal. It reads no source, so it asks for the kind alone. 1, 10. */
uint32_t valdrabus_as_bool(uint32_t kind, uint32_t *value, size_t *first, size_t *second);

/* That a literal is NULL. 1, 10. */
uint32_t valdrabus_as_null(uint32_t kind, size_t *first, size_t *second);

/* Whether a literal is NULL; false for a code that names no kind. */
bool valdrabus_is_null(uint32_t kind);

/* DATES: days of the Gregorian calendar, before 1582 too as in ISO 8601, from 0001-01-01 to 9999-12-31. Each has a number: 0001-01-01 is 1, each next day has
   one more, 9999-12-31 is 3652059. So a later day has a larger number; days since 1970-01-01 are number - 719163. */

/* The day of a date literal: year, month, day and the day's number; all four 0 on a refusal. Its value is what valdrabus_as_temporal_text gives where there
   is room, and has to be exactly ten bytes, yyyy-mm-dd. It is read to its end before it is tested, so 6 comes before 14. 1 (time, timestamp, interval too),
   2, 3, 4, 6, 10, 14. */
uint32_t valdrabus_as_date(uint32_t kind, uint32_t synthetic, uint32_t start, uint32_t end, const uint8_t *source, size_t source_len,
                           uint32_t *year, uint32_t *month, uint32_t *day, uint32_t *number, size_t *first, size_t *second);

/* The day that has a number; all three 0 on a refusal, which is of 0 and of what is past 3652059. 14. */
uint32_t valdrabus_date_of_day(uint32_t number, uint32_t *year, uint32_t *month, uint32_t *day);

/* PACKED BITS: a bit string's bits eight to a byte, the first bit the top one (80 hex) of the first byte, the unused low bits of the last byte zero. A binary
   digit is one bit, a hex digit four: B'1000001' is the byte 82 hex and 7 bits, X'1FA' the bytes 1F A0 hex and 12. */

/* A bit string's packed bytes, always written: how is VALDRABUS_WRITTEN, first is 0, second their count. bits: how many bits they hold; 0 on a refusal. The
   digits are those that valdrabus_as_bit_text gives, of all segments in one run, and how many bits each is goes by the kind and not by the letter before the mark.
   With 9 second counts packed bytes; a digit is half a byte at the most, so half of the literal's bytes are room enough. 1, 2, 3, 4, 7, 9, 10. */
uint32_t valdrabus_as_packed_bits(uint32_t kind, uint32_t synthetic, uint32_t start, uint32_t end, const uint8_t *source, size_t source_len,
                                  uint8_t *out, size_t out_len, uint64_t *bits, uint32_t *how, size_t *first, size_t *second);

/* The reverse: packed bytes and how many bits they hold as B'..', for the kind VALDRABUS_KIND_BINARY_BITS, or as X'..', for VALDRABUS_KIND_HEX_BITS, its digits
   in upper case. len: the text's length, also the length needed with 9, else 0; it is a byte for each digit and three more, so a buffer of no bytes
   (out_len 0) asks for the length alone. Read with the same kind, the text gives the bytes and the count back. 9, 10, 12, 16. */
uint32_t valdrabus_write_bit_literal(const uint8_t *bytes, size_t bytes_len, uint64_t bits, uint32_t kind, uint8_t *out, size_t out_len, size_t *len);

/* THE VIEW of an answer by how, first and second, for a source and a buffer of these lengths: it returns which of the two it shows (VALDRABUS_NONE, _BORROWED, _WRITTEN) and the
   range in it, an empty one that fits included. A range that does not fit, or a refusal, shows an empty part: VALDRABUS_NONE, 0, 0. */
uint32_t valdrabus_view(uint32_t how, size_t first, size_t second, size_t source_len, size_t out_len, size_t *from, size_t *until);

/* THE WRITERS. len: the text's length, also the length needed with 9, else 0. Every text has two bytes or more, so a buffer of no bytes (out_len 0) asks for the length alone. */

/* A value as one plain literal at a setting. 4, 9, 10, 11, 12. */
uint32_t valdrabus_write_literal(const uint8_t *value, size_t value_len, uint32_t setting, uint8_t *out, size_t out_len, size_t *len);

/* The same in parts of at most part_size bytes of the value, one line feed between each two, as PostgreSQL wants it. So the text spans lines: into a list of one literal a line the value goes
   as E'..' or U&'..', which hold no line feed, or whole, if it holds none. 4, 9, 10, 11, 12. */
uint32_t valdrabus_write_parts(const uint8_t *value, size_t value_len, size_t part_size, uint32_t setting, uint8_t *out, size_t out_len, size_t *len);

/* A value as E'..', which reads back as the value at either setting. Backslash and quote are doubled; the codes 08, 09, 0A, 0C and 0D are \b, \t, \n, \f and \r, the others below 20 hex a
   backslash and three octal digits; all else, 7F hex too, stands as it is. So the text has no byte below 20 hex; for n bytes of the value it has at most 4 n + 3. 4, 9, 11, 12. */
uint32_t valdrabus_write_escape(const uint8_t *value, size_t value_len, uint8_t *out, size_t out_len, size_t *len);

/* A value as U&'..', which reads back as the value at either setting. Backslash and quote are doubled; a character outside 20 to 7E hex is a backslash and four hex digits, above FFFF
   a backslash, + and six, in upper case. So the text has bytes 20 to 7E hex alone; for n bytes of the value it has at most 5 n + 4. 4, 9, 11, 12. */
uint32_t valdrabus_write_unicode(const uint8_t *value, size_t value_len, uint8_t *out, size_t out_len, size_t *len);

/* HELPERS, on bare text */

/* The base that a number's first two bytes choose, 2, 8, 10 or 16; start: where the digits begin. It looks at no sign. */
uint32_t valdrabus_split_radix_prefix(const uint8_t *text, size_t text_len, size_t *start);

/* Whether a quoted argument holds a legal UESCAPE character and nothing else; false for what is not UTF-8. */
bool valdrabus_uescape_argument_is_legal(const uint8_t *text, size_t text_len);

/* Whether the body of E'..', from the first mark to the last, has only good escapes and no lone mark. A raw NUL is no fault, except straight after a backslash. So it can differ
   from reading: E'a' 'b' is false, a raw NUL true. True for text outside this spelling (no closing mark too), false for what is not UTF-8. */
bool valdrabus_postgres_escape_string_is_valid(const uint8_t *text, size_t text_len);

/* Whether the body of U&'..' has only good escapes by its escape character. A raw NUL outside an escape is no fault. True for text outside this spelling (joined, or with a bad UESCAPE clause),
   false for what is not UTF-8. */
bool valdrabus_unicode_escape_string_is_valid(const uint8_t *text, size_t text_len);

/* Whether a text holds a raw NUL. */
bool valdrabus_string_literal_embeds_nul(const uint8_t *text, size_t text_len);

/* Whether a text begins as a U& identifier. */
bool valdrabus_is_unicode_ident(const uint8_t *text, size_t text_len);

/* An identifier's text, a part of the given text or written into the buffer. 4, 6, 9. */
uint32_t valdrabus_materialize_unicode_ident(const uint8_t *text, size_t text_len, uint8_t *out, size_t out_len, uint32_t *how, size_t *first, size_t *second);

#ifdef __cplusplus
}
#endif

#endif
