/*
 * Asks every text 'yyyy-mm-dd' of the years 0000 to 9999, the months 00 to 13 and the days 00 to 32 for its day, and the number of each day for its date.
 * Prints a line for each day, its ten bytes and its number, and at the end how many texts are none. tools/oracle/days.py holds the lines to another calendar.
 */
#include "valdrabus.h"

#include "check.h"

#include <string.h>

#define YEARS 10000
#define MONTHS 14
#define DAYS 33
#define LAST_NUMBER 3652059
/* What a lent number holds before a call, so that one which is not written shows. */
#define UNWRITTEN 0xA5A5A5A5u

struct day {
    uint32_t number, year, month, day, day_number;
    size_t first, second;
};

static struct day as_date(const char *text)
{
    struct day told = {0, UNWRITTEN, UNWRITTEN, UNWRITTEN, UNWRITTEN, UNWRITTEN, UNWRITTEN};
    size_t len = strlen(text);

    told.number = valdrabus_as_date(VALDRABUS_KIND_DATE, 0, 0, (uint32_t)len, bytes(text), len, &told.year, &told.month, &told.day, &told.day_number,
                                    &told.first, &told.second);
    return told;
}

static struct day date_of_day(uint32_t number)
{
    struct day told = {0, UNWRITTEN, UNWRITTEN, UNWRITTEN, number, 0, 0};

    told.number = valdrabus_date_of_day(number, &told.year, &told.month, &told.day);
    return told;
}

static void put_digits(char *to, int count, unsigned number)
{
    for (; count > 0; number /= 10)
        to[--count] = (char)('0' + number % 10);
}

static int is_on(struct day told, unsigned year, unsigned month, unsigned day)
{
    return told.number == VALDRABUS_OK && told.year == year && told.month == month && told.day == day;
}

/* 14 with the span, and 0 in every other number. */
static int is_no_day(struct day told, size_t len)
{
    return told.number == VALDRABUS_INVALID_DATE && told.first == 0 && told.second == len && told.year == 0 && told.month == 0 && told.day == 0 &&
           told.day_number == 0;
}

/* 1 if the text is a day, whose number gives it back. */
static unsigned ask(const char *text, unsigned year, unsigned month, unsigned day)
{
    struct day told = as_date(text);

    if (told.number != VALDRABUS_OK) {
        CHECK_ROW(is_no_day(told, 12), text);
        return 0;
    }
    CHECK_ROW(is_on(told, year, month, day) && told.first == 0 && told.second == 0, text);
    CHECK_ROW(is_on(date_of_day(told.day_number), year, month, day), text);
    printf("%.10s %u\n", text + 1, (unsigned)told.day_number);
    return 1;
}

static void ask_number_of_none(uint32_t number)
{
    struct day told = date_of_day(number);

    CHECK(told.number == VALDRABUS_INVALID_DATE && told.year == 0 && told.month == 0 && told.day == 0);
}

int main(void)
{
    char text[] = "'0000-00-00'";
    unsigned none = 0;

    for (unsigned at = 0; at < YEARS * MONTHS * DAYS; at++) {
        unsigned year = at / DAYS / MONTHS, month = at / DAYS % MONTHS, day = at % DAYS;

        put_digits(text + 1, 4, year);
        put_digits(text + 6, 2, month);
        put_digits(text + 9, 2, day);
        none += 1 - ask(text, year, month, day);
    }
    ask_number_of_none(0);
    ask_number_of_none(LAST_NUMBER + 1);
    ask_number_of_none(UINT32_MAX);
    printf("%u none\n", none);
    return 0;
}
