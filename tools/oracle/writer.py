#!/usr/bin/env python3
"""Whether the writers' rows are what the sentences on them say, document 01's and request T-02's on the plain writer and request T-01's on E and U&, read once
more: on characters, where the definitions go by bytes.

    tools/oracle/writer.py

Every row of the writers that `replay` asks is held to them, of clarified.tsv, rfc3629.tsv, examples.tsv, forms.tsv and parts.tsv. Needs no Rust. Exits 1 if a
row differs.
"""
import os
import sys

sys.dont_write_bytecode = True
sys.path.append(os.path.join(os.path.dirname(os.path.abspath(__file__)), '..'))
import replay  # noqa: E402

# the letters of an E string that mean a code, by PostgreSQL's table of C-style escapes
LETTERS = {'\x08': 'b', '\x0C': 'f', '\x0A': 'n', '\x0D': 'r', '\x09': 't'}


def literal(part, setting):
    """Doubles '. Setting on: doubles backslash, NUL becomes \\0."""
    spelled = {"'": "''", '\\': '\\\\', '\0': '\\0'} if setting else {"'": "''"}
    return "'" + ''.join(spelled.get(c, c) for c in part) + "'"


def in_parts(value, size):
    """fills each part with as many whole characters as fit that many value bytes"""
    parts = ['']
    for c in value:
        if len((parts[-1] + c).encode()) > size:
            parts.append('')
        parts[-1] += c
    return parts


def plain(value, setting, size):
    """one LF between parts; a size of None is no part size"""
    return '\n'.join(literal(part, setting) for part in ([value] if size is None else in_parts(value, size)))


def escaped(c):
    """E: backslash and quote doubled, codes 08, 0C, 0A, 0D, 09 by their letters, other codes below 20 hex as three octal digits"""
    if c in "\\'":
        return c + c
    if c in LETTERS:
        return '\\' + LETTERS[c]
    return f'\\{ord(c):03o}' if ord(c) < 0x20 else c


def by_number(c):
    """U&: backslash doubled, quote doubled, everything outside 20 to 7E hex by four upper-case hex digits up to FFFF, above that by + and six"""
    if c in "\\'":
        return c + c
    if 0x20 <= ord(c) <= 0x7E:
        return c
    return f'\\{ord(c):04X}' if ord(c) <= 0xFFFF else f'\\+{ord(c):06X}'


def formed(value, number):
    """a value as an E literal, number 1, or as a U& literal, number 2"""
    opening, spelled = {1: ("E'", escaped), 2: ("U&'", by_number)}[number]
    return opening + ''.join(map(spelled, value)) + "'"


def answer(value, room, over, bars_nul, made):
    """Writing tests 12, 4, 11, 9. The answer is in the words of docs/VECTORS.md; `made` makes the text of a value."""
    if len(value) > 268_435_456 or over:
        return 'r 12'
    if not replay.is_utf8(value):
        return 'r 4'
    if bars_nul and b'\0' in value:
        return 'r 11'
    text = made(value.decode()).encode()
    return f'w {text.hex()}' if len(text) <= room else f'r 9 {len(text)}'


def due(row):
    """A plain literal holds a NUL with the setting on, and may have a part size; E and U& have neither setting nor parts."""
    if row.question == 'form':
        return answer(row.source, row.room, False, True, lambda value: formed(value, row.kind))
    size = row.start if row.kind else None
    return answer(row.source, row.room, size is not None and size < 4, not row.setting, lambda value: plain(value, row.setting, size))


def main():
    rows = [row for _, row in replay.all_rows() if row.question in ('writer', 'form')]
    wrong = 0
    for row in rows:
        said = due(row)
        if replay.due(row.source, said) != (row.number, row.letter, row.values, row.value):
            wrong += 1
            print(f'{row.name}: due is {said}')
    print(f'{len(rows)} rows of the writers held to their sentences, {wrong} different')
    return 1 if wrong else 0


if __name__ == '__main__':
    sys.exit(main())
