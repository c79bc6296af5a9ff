#!/usr/bin/env python3
"""Chooses the rows of vectors/printing.tsv: radix numbers as decimal text, those of every printed length among them, and what is refused beside them.

    tools/oracle/radix.py

Most rows begin with a number: Python writes its literal in base 16, 8 or 2, and its answer in base ten. Part 1, the table of request T-06's page, stays as it
stands in the file. A row that an earlier part has already is left out. Needs no Rust. printing.py reads the literals back.
"""
import os
import sys

sys.dont_write_bytecode = True
sys.path.append(os.path.join(os.path.dirname(os.path.abspath(__file__)), '..'))
import replay  # noqa: E402

FILE = replay.ROOT / 'vectors/printing.tsv'
HEAD = '''# Radix numbers as decimal text: the facts of request T-06, row by row, and further ones. Parts 2 to 7 are made by tools/oracle/radix.py; docs/VECTORS.md says how to read a row.
# id	question	kind	setting	start	end	source	room	answer	says
'''
LIMIT = 2 ** 127  # the least number is its negative, the greatest one less than it
LONG = 3  # bytes that a long buffer has more than is needed
DIGITS = {'0x': 'X', '0o': 'o', '0b': 'b'}


def spelled(number, prefix='0x', before=False):
    """a number's literal; a minus stands before the prefix, or behind it"""
    digits, minus = format(abs(number), DIGITS[prefix]), '-' if number < 0 else ''
    return minus + prefix + digits if before else prefix + minus + digits


def row(text, room, answer, says, kind=1):
    return ['decimal', str(kind), '0', '0', str(len(text)), text.encode().hex().upper(), str(room), answer, says]


def written(text, number, says, room=0):
    return row(text, room, f'w {str(number).encode().hex().upper()}', says)


def refused(text, number, says, room='.'):
    return row(text, room, f'r {number} 0 {len(text)}', says)


def ends():
    """(the number at an end of a printed length, what it is) of the lengths 1 to 40; a minus is one of the bytes"""
    for n in range(1, 40):
        least, greatest = 10 ** (n - 1) if n > 1 else 0, min(10 ** n, LIMIT) - 1
        yield least, f'the least of {n}'
        yield greatest, f'the greatest of {n}'
        yield -max(least, 1), f'the nearest to 0 of {n + 1}'
        yield -(greatest + 1 if n == 39 else greatest), f'the furthest from 0 of {n + 1}'


def lengths():
    """each end in a buffer just as long, one byte short, of no bytes, and longer"""
    for number, says in ends():
        text, needed = spelled(number), len(str(number))
        yield written(text, number, says)
        yield written(text, number, f'{says}, a byte short', -1)
        yield written(text, number, f'{says}, no room', -needed)
        yield written(text, number, f'{says}, a longer buffer', LONG)


def bases():
    """each end in the other two bases, and with its minus at the other place; the least number has no other place"""
    for number, says in ends():
        yield written(spelled(number, '0b'), number, says)
        if number != -LIMIT:
            yield written(spelled(number, before=True), number, says)
        yield written(spelled(number, '0o', before=number != -LIMIT), number, says)


def digits():
    """digits at their places, and groups of nine"""
    for n in (9, 18, 27, 36):
        for number in (10 ** n - 1, 10 ** n, 10 ** n + 1):
            yield written(spelled(number), number, f'around 10^{n}')
            yield written(spelled(-number), -number, f'around -10^{n}')
    for n in range(38):
        yield written(spelled(10 ** 38 + 10 ** n), 10 ** 38 + 10 ** n, f'a one with {n} digits behind it')
    for n in range(1, 40):
        number = int('1234567890' * 4) // 10 ** (40 - n)
        yield written(spelled(number), number, f'{n} digits, no two neighbours alike')
        yield written(spelled(-number), -number, f'{n} digits, no two neighbours alike')
    for n in range(0, 36, 9):
        group = 999_999_999 * 10 ** n
        for number in (10 ** 37 + group, 10 ** 38 - 1 - group):
            yield written(spelled(number), number, f'nines or zeros in a group of nine, {n} digits behind it')


def halves():
    """both halves by their own ends and those of their halves"""
    lows = [0, 1, 2 ** 32 - 1, 2 ** 32, 2 ** 63 - 1, 2 ** 63, 2 ** 64 - 1]
    for high in (0, 1, 2, 10 ** 9 - 1, 10 ** 9, 2 ** 32 - 1, 2 ** 32, 2 ** 63 - 1):
        for low in lows:
            number, says = high * 2 ** 64 + low, f'halves {high} and {low}'
            yield written(spelled(number), number, says)
            yield written(spelled(-number), -number, f'{says}, negated')


def limits():
    """the numbers at the limits, and just outside, where 5 comes before 9"""
    for prefix in DIGITS:
        for number in (LIMIT - 2, LIMIT - 1, 1 - LIMIT, 2 - LIMIT):
            yield written(spelled(number, prefix), number, 'by a limit')
            yield written(spelled(number, prefix, before=True), number, 'by a limit')
        yield written(spelled(-LIMIT, prefix), -LIMIT, 'the least')
        yield written('+' + spelled(-LIMIT, prefix), -LIMIT, 'the least, a plus before it')
        yield written('-' + spelled(1 - LIMIT, prefix), LIMIT - 1, 'the greatest, by two signs')
        for number in (LIMIT, LIMIT + 1, 2 ** 128 - 1, 2 ** 128, 2 ** 128 + 1, 2 ** 192, -LIMIT - 1, -2 ** 128, -2 ** 128 - 1):
            yield refused(spelled(number, prefix), 5, 'outside')
            yield refused(spelled(number, prefix), 5, 'outside, no room', 0)
        for number in (-LIMIT, -LIMIT - 1, -2 ** 128):
            yield refused(spelled(number, prefix, before=True), 5, 'outside before the minus is taken')
        yield refused('-' + spelled(-LIMIT, prefix), 5, 'the least, negated')
        yield refused('-' + spelled(-LIMIT, prefix), 5, 'the least, negated, no room', 0)


def spellings():
    """other texts of a number, texts of none, base ten, kinds, spans"""
    for text, number in [('0X1f', 31), ('0xaBcDeF', 11259375), ('0O17', 15), ('0B101', 5), ('0x1_0', 16), ('0b1_0_1', 5), ('-0o1_7', -15), ('0x-1_0', -16),
                         ('0x' + '0' * 60 + 'A', 10), ('0b-' + '0' * 130 + '1', -1), ('0o' + '0' * 50, 0), ('0x-0', 0), ('-0b0', 0), ('+0xA', 10), ('0x+A', 10),
                         ('-0x-A', 10), ('+0x-A', -10), ('-0x+A', -10), ('-0x-0', 0)]:
        yield written(text, number, 'another spelling')
        yield written(text, number, 'another spelling, a byte short', -1)
    for text in ['0x', '-0x', '0x-', '0x+', '0x_1', '0x1_', '0x1__0', '0x-_1', '0xG', '0b2', '0o8', '0x--1', '0x+-1', '0x 1', ' 0x1_', '0x1.0', '0x1\0']:
        yield refused(text, 5, 'no number')
        yield refused(text, 5, 'no number, no room', 0)
    for text in ['17', '-17', '9' * 50, '--0x1', ' 0x1', '00x1', '1.5e3']:
        yield row(text, '.', f'b 0 {len(text)}', 'base ten is not printed')
        yield row(text, 0, f'b 0 {len(text)}', 'base ten is not printed')
    for text in ['-1_7', '9_' * 45 + '9', '1_0.2_5']:
        value = text.replace('_', '')
        for room in (0, -1, -len(value), LONG):
            yield row(text, room, f'w {value.encode().hex().upper()}', 'base ten less its separators')
    for kind in range(1, 15):
        text = '0x1F'
        for room in (0, -2):
            yield row(text, room, 'w 3331', 'a number', kind) if kind < 4 else row(text, max(room, 0), f'r 1 2 {kind}', 'no number', kind)
    yield ['decimal/synthetic', '1', '0', '0', '4', '30783146', '0', 'r 2 0 4', 'no source']
    yield ['decimal', '1', '0', '0', '5', '30783146', '0', 'r 3 0 5', 'a span past the source']
    yield ['decimal', '1', '0', '0', '3', '3078FF', '0', 'r 4 0 3', '4 before 5']
    yield ['decimal', '1', '0', '2', '5', '2D5F3078415F', '-1', 'w 3130', 'inside a source']


def parts():
    """the parts of the file, the first as it stands"""
    yield [columns[1:] for columns in replay.lines('printing') if columns[0].startswith('1.')]
    for part in (lengths, bases, digits, halves, limits, spellings):
        yield part()


def main():
    met, lines = set(), []
    for number, rows in enumerate(parts(), 1):
        new = []
        for columns in rows:
            asked = tuple(columns[:7])
            if number == 1 or asked not in met:
                met.add(asked)
                new.append(columns)
        lines += ['\t'.join([f'{number}.{n}', *columns]) for n, columns in enumerate(new, 1)]
        print(f'part {number}: {len(new)} rows')
    FILE.write_text(HEAD + '\n'.join(lines) + '\n')


if __name__ == '__main__':
    main()
