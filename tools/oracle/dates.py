#!/usr/bin/env python3
"""The day of a date literal and of a number: request T-05's sentences read once more. Which days there are, and their numbers, Python's datetime says; where
a temporal text breaks, places.py.

    tools/oracle/dates.py

Every row of vectors/dates.tsv is held to them. Needs no Rust. Exits 1 if a row differs.
"""
import datetime
import re
import sys

import places
from places import replay

DATE = 8  # the kind's code, and the family that 1 says was expected
EXPECTED = 9
DAY = re.compile(rb'([0-9]{4})-([0-9]{2})-([0-9]{2})')


def unit_meant(unit):
    """the bytes of a unit of a U& body: an escape that is doubled, or stands before digits; a pair of halves; a doubled mark; any other character"""
    hexes = re.findall('[0-9A-Fa-f]{4,6}', unit[0])
    if len(unit[0]) < 4:
        return unit[0][0].encode()
    return ''.join(chr(int(h, 16)) for h in hexes).encode('utf-16', 'surrogatepass').decode('utf-16').encode()


def meant_by_one(text):
    """the bytes that one segment, or a text read as one, stands for; it is accepted"""
    if found := places.STANDARD.fullmatch(text):
        return found['body'].replace(found['mark'] * 2, found['mark']).encode()
    if found := places.ESCAPE.fullmatch(text):
        return b''.join(map(places.expansion, places.E_UNIT.finditer(found['body'])))
    if found := places.UNICODE.fullmatch(text):
        return b''.join(map(unit_meant, places.unicode_unit(found['escape'] or '\\').finditer(found['body'])))
    delimiter = places.DOLLAR.fullmatch(text)['delimiter']
    return text[len(delimiter):-len(delimiter)].encode()


def segments(text):
    """the text of each segment of joined ones; of any other text, itself"""
    first = places.SEGMENT[0].match(text)
    if not first or not places.MARK_NEXT.match(text, first.end()):
        return [text]
    return [found[0] for found in places.SEGMENT[0].finditer(text)]


def value(text):
    """what a temporal text means, the setting off; it is accepted"""
    text = text.decode()
    return b''.join(map(meant_by_one, segments(text[slice(*places.token(text))])))


def day_in(data):
    """The day that ten bytes spell, None if they spell none. Year 0 is none of datetime's either."""
    found = DAY.fullmatch(data)
    try:
        return found and datetime.date(*map(int, found.groups()))
    except ValueError:
        return None


def told(day):
    return f'd {day.year} {day.month} {day.day} {day.toordinal()}'


def cuts(source, place):
    """whether a place inside a source stands before a byte that begins no character"""
    return place < len(source) and 0x80 <= source[place] <= 0xBF


def is_in(source, start, end):
    return start <= end <= len(source) and not cuts(source, start) and not cuts(source, end)


def day_of_text(span, text):
    """6 before 14: the whole text is read first"""
    place = places.temporal_place(text)
    if place is not None:
        return f'r 6 {span} {place}'
    day = day_in(value(text))
    return told(day) if day else f'r 14 {span}'


def day_of_literal(kind, synthetic, start, end, source):
    """1, 2, 3 and 4 as on any literal, in this order"""
    if kind != DATE:
        return f'r 1 {EXPECTED} {kind}'
    span = f'{start} {end}'
    if synthetic:
        return f'r 2 {span}'
    if not is_in(source, start, end):
        return f'r 3 {span}'
    text = source[start:end]
    return day_of_text(span, text) if replay.is_utf8(text) else f'r 4 {span}'


def day_of_number(number):
    """14 has nothing with it: there is no literal"""
    return told(datetime.date.fromordinal(number)) if 1 <= number <= datetime.date.max.toordinal() else 'r 14'


def due(question, kind, start, end, source):
    if question == 'day':
        return day_of_number(start)
    return day_of_literal(kind, question.endswith('/synthetic'), start, end, source)


def main():
    rows = list(replay.lines('dates'))
    wrong = 0
    for identity, question, kind, _, start, end, source, _, answer, _ in rows:
        said = due(question, int(kind), int(start), int(end), replay.unhex(source))
        if said != answer:
            wrong += 1
            print(f'{identity}: {answer} is told, due is {said}')
    print(f'dates.tsv: {len(rows)} rows, {wrong} different')
    return 1 if wrong else 0


if __name__ == '__main__':
    sys.exit(main())
