#!/usr/bin/env python3
"""What a string's text means at a setting, None where it is refused: document 01's sentences on reading, read once more, on characters and by patterns. Where a
text is refused, places.py says; what E, U& and dollar strings mean, dates.py.

    tools/oracle/readings.py

Every row of a string question that is answered or refused by its text is held to them, of every file of vectors/. Needs no Rust. Exits 1 if a row differs.
"""
import re
import sys

import dates
import places
from places import replay

# what stands for another character behind a backslash, the setting on; % and _ keep the backslash, and any other character is itself
MYSQL = {'0': '\0', 'b': '\b', 'n': '\n', 'r': '\r', 't': '\t', 'Z': '\x1A', '%': '\\%', '_': '\\_'}


def standard_meant(mark, body, on):
    """a body between marks: a doubled mark is one; the setting on, a backslash and a character are one too"""
    if not on:
        return body.replace(mark * 2, mark)
    return re.sub(rf'\\(.)|{mark}{mark}', lambda unit: MYSQL.get(unit[1], unit[1]) if unit[1] else mark, body, flags=re.DOTALL)


def meant_by_one(text, on):
    found = places.STANDARD.fullmatch(text)
    return standard_meant(found['mark'], found['body'], on).encode() if found else dates.meant_by_one(text)


def segments(text, on):
    """the text of each segment of joined ones; of any other text, itself"""
    first = places.SEGMENT[on].match(text)
    if not first or not places.MARK_NEXT.match(text, first.end()):
        return [text]
    return [found[0] for found in places.SEGMENT[on].finditer(text)]


def reading(text, on):
    """the bytes that a text stands for, None if it is refused"""
    if not replay.is_utf8(text) or places.place(text, on) is not None:
        return None
    return b''.join(meant_by_one(segment, on) for segment in segments(text.decode(), int(on)))


def held():
    """(name, the bytes told, the bytes due) of every row of a string question; without them where it is refused"""
    for _, row in replay.all_rows():
        if row.question == 'string' and row.number in (0, 6):
            yield row.name, row.value if row.number == 0 else None, reading(row.source[row.start:row.end], row.setting)


def main():
    rows = list(held())
    wrong = [(name, says, due) for name, says, due in rows if says != due]
    for name, says, due in wrong:
        print(f'{name}: {says} is told, due is {due}')
    print(f'{len(rows)} strings held to their sentences, {sum(due is None for _, _, due in rows)} of them refused, {len(wrong)} different')
    return 1 if wrong or not rows else 0


if __name__ == '__main__':
    sys.exit(main())
