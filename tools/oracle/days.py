#!/usr/bin/env python3
"""Holds the days that tests/c/days.c prints, and how many texts are none, to Python's datetime.

    tools/oracle/days.py PROGRAM

PROGRAM is days.c, linked with the archive. Exits 1 if it fails, or if a line differs.
"""
import datetime
import subprocess
import sys

LAST = datetime.date.max.toordinal()
# the texts of days.c: years 0000 to 9999, months 00 to 13, days 00 to 32
TEXTS = 10_000 * 14 * 33


def due():
    """the lines, one for each day from 0001-01-01 on, and the last"""
    day_of = datetime.date.fromordinal
    for number in range(1, LAST + 1):
        yield b'%b %d\n' % (day_of(number).isoformat().encode(), number)
    yield b'%d none\n' % (TEXTS - LAST)


def main():
    line = b''
    program = subprocess.Popen([sys.argv[1]], stdout=subprocess.PIPE)
    for line, said in zip(due(), program.stdout):
        if line != said:
            program.kill()
            sys.exit(f'days.c prints {said}, due is {line}')
    rest = program.stdout.read(1)
    if program.wait() != 0 or rest or not line.endswith(b'none\n'):
        sys.exit('days.c fails, or prints more or fewer lines than are due')
    print(f'{LAST:,} days both ways as in Python\'s calendar, {TEXTS - LAST:,} texts of ten bytes are none')


if __name__ == '__main__':
    main()
