#!/usr/bin/env python3
"""Turns the tables of the page of clarifications into vectors/clarified.tsv, and asks the Rust about every row that it can be asked.

    tools/oracle/clarify.py

The page is no part of this repository: VALDRABUS_CLARIFICATIONS, by default ../shared/docs/clarifications.md beside it. Between the parts of a value it has
document 01's space; the rows have what request T-02 puts there. Where a 6 breaks neither the page nor the Rust says: the rows have request T-04's place, by
places.py.
"""
import os
import re
import sys

from oracle import ROOT, ask
from places import placed

PAGE = os.environ.get('VALDRABUS_CLARIFICATIONS', os.path.join(ROOT, '..', 'shared', 'docs', 'clarifications.md'))
ASKED = {'string': ('string', 4), 'charset': ('charset', 4), 'i64': ('i64', 1), 'decimal': ('decimal', 1), 'bits': ('bits', 12), 'money': ('money', 14),
         'temporal': ('temporal', 8), 'source_text': ('source', 4), 'E validator': ('evalid', 0), 'U& validator': ('uvalid', 0),
         'UESCAPE legal': ('uescape', 0), 'identifier': ('ident', 0), 'is ident': ('isident', 0), 'embeds NUL': ('nul', 0), 'radix prefix': ('radix', 0)}
FAMILY = {'i64': 1, 'decimal': 2, 'string': 3, 'temporal': 6, 'bits': 7, 'money': 8, 'charset': 3}
BARE = ('evalid', 'uvalid', 'uescape', 'ident', 'isident', 'nul', 'radix')


def unshown(text):
    """The bytes that a text of the page stands for."""
    names = {'NUL': 0, 'LF': 10, 'VT': 11}
    out = b''
    for piece in re.findall(r'<U\+[0-9A-F]+>|<[0-9A-F]{2}>|<[A-Z]+>|\\x[0-9A-F]{2}|.', text, re.S):
        if piece.startswith('<U+'):
            out += chr(int(piece[3:-1], 16)).encode()
        elif len(piece) > 1 and piece[0] == '<':
            out += bytes([names[piece[1:-1]] if piece[1:-1] in names else int(piece[1:-1], 16)])
        elif len(piece) == 4 and piece[0] == '\\':
            out += bytes([int(piece[2:], 16)])
        else:
            out += piece.encode()
    return out


def cells(line):
    """The cells of a table's line; a bar inside backquotes is none."""
    found = re.findall(r'(?:`[^`]*`|[^|`])+', line.strip().strip('|'))
    return [c.strip() for c in found]


def within(cell):
    return re.search(r'`([^`]*)`', cell)[1]


def answer_of(cell, question, kind, start, end, data):
    cell = cell.replace('(01)', '').strip()
    if m := re.match(r'\*\*(\d+)\*\*(?:, (\d+) needed)?$', cell):
        if question == 'writer':
            return f'r {m[1]}' + (f' {m[2]}' if m[2] else '')
        if m[1] == '1':
            return f'r 1 {FAMILY[question]} {kind}'
        return f'r {m[1]}' + ('' if question in BARE else f' {start} {end}')
    if m := re.match(r'b \[(\d+), (\d+)\) (.*)$', cell):
        shown = b'' if m[3] == '(empty)' else unshown(within(m[3]))
        assert data[int(m[1]):int(m[2])] == shown, cell
        return f'b {m[1]} {m[2]}'
    if m := re.match(r'w (\d+) (.*)$', cell):
        # a backslash and x41 in an answer are what they look like; the page shows no other byte so in one
        made = b'' if m[2] == '(empty)' else unshown(within(m[2]).replace('\\x', '<5C>x'))
        assert len(made) == int(m[1]), cell
        return f'w {made.hex().upper() or "-"}'
    if m := re.match(r'i (-?\d+)$', cell):
        return cell
    if cell.startswith('n ('):
        return 'n'
    if m := re.match(r'base (\d+), remainder from (\d+)$', cell):
        return f'p {m[1]} {m[2]}'
    assert cell in ('yes', 'no'), cell
    return cell


def parted(cell):
    """What the writer answers, "The writer now puts one LF" between parts. No value of the page has a quote mark on both sides of a space."""
    return cell.replace("' '", "'<LF>'")


def hexed(cell):
    return b'' if cell == '-' else bytes.fromhex(cell)


def record(cell):
    if m := re.match(r'(\d+), (\d+), (\d+), (\d+) ?(`[^`]*`)?$', cell):
        text = unshown(m[5][1:-1]) if m[5] else b''
        assert len(text) == int(m[4])
        return (bytes(int(m[i]) for i in range(1, 5)) + text).ljust(64, b'\0')
    m = re.match(r'(\d+) bytes: ([0-9A-F]+)\.\.(?: ending in ([0-9A-F]+))?$', cell)
    head, tail, size = bytes.fromhex(m[2]), bytes.fromhex(m[3] or ''), int(m[1])
    return head + bytes(size - len(head) - len(tail)) + tail


def main():
    rows, checked, part, header, count = [], [], None, None, 0
    with open(PAGE) as f:
        lines = f.read().split('\n')
    for line in lines:
        if m := re.match(r'### ([CF]\d+) ', line):
            part, header, count = m[1], None, 0
        if not line.startswith('|') or part is None:
            header = None if not line.startswith('|') else header
            continue
        if header is None:
            header = cells(line)
            continue
        if set(line) <= set('|-'):
            continue
        row = cells(line)
        count += 1
        name = f'{part}.{count}'
        if header == ['record', 'line']:
            rows.append([name, 'record', '.', '.', '.', '.', record(row[0]).hex().upper(), '.', within(row[1])])
            continue
        data = hexed(row[1])
        if row[0] != '(empty)' and '`' in row[0]:
            assert unshown(within(row[0])) == data or b'\\x' in data, row
        if header[2] == 'span':
            start, end = row[2].split(', ')
            question, kind, setting = 'source', 4, 0
            answer = answer_of(row[3], question, kind, start, end, data)
        elif header[0] == 'value':
            setting = int(row[2] == 'on')
            rows.append([name, 'writer', '.', str(setting), row[3], '.', row[1], row[4], answer_of(parted(row[5]), 'writer', 0, 0, 0, data)])
            continue
        else:
            m = re.match(r'(.*?)(?: kind (\d+))?( \*\*on\*\*)?$', row[2])
            question, kind = ASKED[m[1]]
            kind, setting = int(m[2] or kind), int(bool(m[3]))
            start, end = 0, len(data)
            answer = placed((question, kind, setting, start, end, data), answer_of(row[3], question, kind, start, end, data))
        room = '0' if answer[0] == 'w' else '.'
        rows.append([name, question, str(kind), str(setting), str(start), str(end), data.hex().upper() or '-', room, answer])
        if '(01)' not in row[3]:
            checked.append((rows[-1], (question, kind, setting, start, end, data)))
    for (row, request), told in zip(checked, ask([c[1] for c in checked])):
        assert row[-1] == placed(request, told), (row, told)

    # F1 and C34 have no table
    family = ['-0x-8' + '0' * 31, '-0X-008' + '0' * 31, '-0o-2' + '0' * 42, '-0b-1' + '0' * 127, '-0x-8000_' + '0' * 28]
    for i, text in enumerate(family, 1):
        rows.append([f'F1.{i}', 'decimal', '1', '0', '0', str(len(text)), text.encode().hex().upper(), '.', f'r 5 0 {len(text)}'])
    small = [('string', 4, 'r 2 7 5'), ('source', 4, 'r 2 7 5'), ('i64', 1, 'r 2 7 5'), ('decimal', 2, 'r 2 7 5'), ('bits', 13, 'r 2 7 5'), ('money', 14, 'r 2 7 5'),
             ('temporal', 9, 'r 2 7 5'), ('charset', 4, 'r 2 7 5'), ('i64', 4, 'r 1 1 4'), ('string', 1, 'r 1 3 1'), ('bool', 5, 'yes'), ('bool', 6, 'no'),
             ('bool', 7, 'r 1 4 7'), ('null', 7, 'yes'), ('null', 5, 'r 1 5 5')]
    for i, (question, kind, answer) in enumerate(small, 1):
        rows.append([f'C34.{i}', question + '/synthetic', str(kind), '0', '7', '5', '276127', '.', answer])
    with open(os.path.join(ROOT, 'vectors', 'clarified.tsv'), 'w') as f:
        f.write('# How document 01 is read, row by row. Made by tools/oracle/clarify.py; docs/VECTORS.md says how to read a row.\n')
        f.write('# id\tquestion\tkind\tsetting\tstart\tend\tsource\troom\tanswer\n')
        f.writelines('\t'.join(row) + '\n' for row in rows)
    print(f'{len(rows)} rows, {len(checked)} of them asked of the Rust, which gives the same answers')


if __name__ == '__main__':
    main()
