/*
 * What the tests in C share: checks that count themselves and end the program at the first that does not hold, having said where it stands.
 */
#ifndef CHECK_H
#define CHECK_H

#include <stdint.h>
#include <stdio.h>
#include <stdlib.h>

/* What a buffer holds before a call, so that a changed byte shows. */
#define LENT 0xA5

static unsigned checks;

static void check(const char *file, int line, int holds, const char *what)
{
    checks++;
    if (!holds) {
        fprintf(stderr, "%s, line %d: %s\n", file, line, what);
        exit(1);
    }
}

#define CHECK(test) check(__FILE__, __LINE__, (test) != 0, #test)

/* The same of a table's row, by its name. */
#define CHECK_ROW(test, name) check(__FILE__, __LINE__, (test) != 0, name)

static const uint8_t *bytes(const char *text)
{
    return (const uint8_t *)text;
}

#endif
