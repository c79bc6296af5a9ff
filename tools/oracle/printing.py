#!/usr/bin/env python3
"""Decimal text of a literal: document 01's sentences on numbers, which request T-06 leaves as they are, read once more on Python's own numbers.

    tools/oracle/printing.py

Every row of vectors/printing.tsv is held to them, and so are the rows of decimal text of oracle.tsv, clarified.tsv and places.tsv; and the vectors to what they
have to hold: the numbers at the ends of each printed length, 1 to 40, each in a buffer just as long, one byte short, of no bytes and longer. Needs no Rust. Exits
1 if a row differs or an end is missing.
"""
import re
import sys

import dates
from places import replay

FILES = 'printing', 'oracle', 'clarified', 'places'
NUMBERS = 1, 2, 3  # the kinds' codes: integer, float, decimal
EXPECTED = 2
LIMIT = 2 ** 127
RADIX = re.compile(rb'(?P<sign>[+-]?)0(?P<mark>[xXoObB])(?P<body>.*)', re.DOTALL)
BASE = {b'x': (16, rb'[0-9A-Fa-f]'), b'o': (8, rb'[0-7]'), b'b': (2, rb'[01]')}
MISPLACED = re.compile(rb'(?<![0-9])_|_(?![0-9])')


def fits(value):
    return -LIMIT <= value < LIMIT


def number(found):
    """The number of a radix literal, None if it is none: it has to fit before the first sign is taken, and after it."""
    base, digit = BASE[found['mark'].lower()]
    if not re.fullmatch(rb'[+-]?%b+(_%b+)*' % (digit, digit), found['body']):
        return None
    value = int(found['body'], base)
    taken = -value if found['sign'] == b'-' else value
    return taken if fits(value) and fits(taken) else None


def decimal_text(start, end, text):
    """base ten is not printed: its text, less the separators"""
    if found := RADIX.fullmatch(text):
        value = number(found)
        return f'r 5 {start} {end}' if value is None else f'w {str(value).encode().hex().upper()}'
    if MISPLACED.search(text):
        return f'r 5 {start} {end}'
    return f'w {text.replace(b"_", b"").hex().upper()}' if b'_' in text else f'b {start} {end}'


def due(question, kind, start, end, source):
    """1, 2, 3 and 4 as on any literal, in this order"""
    if kind not in NUMBERS:
        return f'r 1 {EXPECTED} {kind}'
    if question.endswith('/synthetic'):
        return f'r 2 {start} {end}'
    if not dates.is_in(source, start, end):
        return f'r 3 {start} {end}'
    text = source[start:end]
    return decimal_text(start, end, text) if replay.is_utf8(text) else f'r 4 {start} {end}'


def ends():
    """the numbers at the ends of each printed length, by their texts; a minus is one byte more"""
    for digits in range(1, 40):
        greatest = min(10 ** digits - 1, LIMIT - 1)
        yield from (f'{10 ** (digits - 1)}' if digits > 1 else '0', f'{greatest}', f'-{10 ** (digits - 1)}', f'-{LIMIT if digits == 39 else greatest}')


def rooms(text):
    """what a row says of the four buffers, but for how much longer the last is"""
    return {0, -1, -len(text), 'longer'}


def rows():
    """(name, row) of decimal text"""
    for file in FILES:
        for identity, question, *columns in replay.lines(file):
            if question.removesuffix('/synthetic') == 'decimal':
                yield f'{file} {identity}', question, *columns[:7]


def main():
    count, wrong, lent = 0, 0, {}
    for name, question, kind, _, start, end, source, room, answer in rows():
        said = due(question, int(kind), int(start), int(end), replay.unhex(source))
        count += 1
        if said != answer:
            wrong += 1
            print(f'{name}: {answer} is told, due is {said}')
        elif RADIX.fullmatch(replay.unhex(source)) and answer.startswith('w '):
            lent.setdefault(replay.unhex(answer[2:]).decode(), set()).add('longer' if int(room) > 0 else int(room))
    missing = [text for text in ends() if not rooms(text) <= lent.get(text, set())]
    for text in missing:
        print(f'{text} is not printed into each of the four buffers')
    print(f'{count} rows of decimal text, {wrong} different; {len(list(ends()))} ends of the lengths 1 to {max(map(len, ends()))}, {len(missing)} missing')
    return 1 if wrong or missing else 0


if __name__ == '__main__':
    sys.exit(main())
