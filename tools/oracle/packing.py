#!/usr/bin/env python3
"""A bit string's packed bytes, and bytes as a bit literal: request T-07's sentences read once more, on texts of the characters 0 and 1.

    tools/oracle/packing.py

Every row of vectors/packing.tsv is held to them, and every row of packed bits, bit literals and bits that `replay` asks, of every file: packing reads what the
bits question reads. Needs no Rust. Exits 1 if a row differs.
"""
import re
import sys

import dates
import places
from places import replay

# A kind's digits, and the bits of one. The order of bits is that of bit-vec's BitVec::from_bytes. PostgreSQL 15's bit_send has the same bytes behind a count of
# four: of B'1000001' 00000007 82, of X'1FA' 0000000C 1FA0.
DIGIT = {12: '[01]', 13: '[0-9A-Fa-f]'}
BITS = {12: 1, 13: 4}
LETTER = {12: 'B', 13: 'X'}
EXPECTED = 7
LIMIT = 268_435_456
# "B or X segment, then only ' segments; digits by the kind's radix, not the letter"; a mark behind a mark would be a doubled one
SEGMENTS = {kind: places.pattern(f"[BbXx]'{digit}*'(?!')(?:{places.GAP}'{digit}*'(?!'))*{places.GAP}") for kind, digit in DIGIT.items()}


def shown(data):
    return data.hex().upper() or '-'


def digits_in(kind, text):
    """the digits of all segments, None if the text is no bit string"""
    return re.sub(f"[^{DIGIT[kind][1:-1]}]", '', text[1:]) if SEGMENTS[kind].fullmatch(text) else None


def packed(bits):
    """The first bit is the top bit of the first byte; unused low bits of the last byte are zero."""
    return bytes(int(bits[at:at + 8].ljust(8, '0'), 2) for at in range(0, len(bits), 8))


def pack_text(kind, span, text):
    digits = digits_in(kind, text.decode())
    if digits is None:
        return f'r 7 {span}'
    bits = ''.join(format(int(digit, 16), '04b')[-BITS[kind]:] for digit in digits)
    return f'w {shown(packed(bits))} {len(bits)}'


def pack(kind, synthetic, start, end, source):
    """1, 2, 3 and 4 as on any literal, in this order"""
    if kind not in DIGIT:
        return f'r 1 {EXPECTED} {kind}'
    span = f'{start} {end}'
    if synthetic:
        return f'r 2 {span}'
    if not dates.is_in(source, start, end):
        return f'r 3 {span}'
    text = source[start:end]
    return pack_text(kind, span, text) if replay.is_utf8(text) else f'r 4 {span}'


def is_bad(kind, count, bits):
    """whether the byte count isn't the bit count rounded up to bytes, X has a wrong count, or an unused bit is set"""
    return not count <= len(bits) < count + 8 or count % BITS[kind] != 0 or '1' in bits[count:]


def unpack(kind, count, data, room):
    """12, then 16, then 9; digits are written in upper case"""
    if len(data) > LIMIT:
        return 'r 12'
    bits = ''.join(format(byte, '08b') for byte in data)
    if is_bad(kind, count, bits):
        return 'r 16'
    digits = ''.join(format(int(bits[at:at + BITS[kind]], 2), 'X') for at in range(0, count, BITS[kind]))
    text = f"{LETTER[kind]}'{digits}'".encode()
    return f'w {shown(text)}' if len(text) <= room else f'r 9 {len(text)}'


def bits_text(kind, synthetic, start, end, source):
    """the bits question: borrowed where the text is one segment, else the digits"""
    said = pack(kind, synthetic, start, end, source)
    if said.startswith('r'):
        return said
    text = source[start:end].decode()
    digits = digits_in(kind, text)
    return f'b {start + 2} {end - 1}' if len(text) == len(digits) + 3 else f'w {shown(digits.encode())}'


def due(question, kind, start, end, source, room):
    """an answer in the words of docs/VECTORS.md; of a literal's question as if there were room"""
    if question == 'unpack':
        return unpack(kind, start, source, room)
    asked, _, synthetic = question.partition('/')
    return {'pack': pack, 'bits': bits_text}[asked](kind, bool(synthetic), start, end, source)


def in_room(said, room):
    """9 with the length needed, where an answer is longer than the buffer"""
    needed = replay.due(b'', said)[2][0] if said.startswith('w') else 0
    return said if needed <= room else f'r 9 {needed}'


def wrong_vectors():
    """the rows of packing.tsv that differ, with what is due"""
    for identity, question, kind, _, start, end, source, room, answer, _ in replay.lines('packing'):
        said = due(question, int(kind), int(start), int(end), replay.unhex(source), 0 if room == '.' else int(room))
        if said != answer:
            yield f'packing {identity}: {answer} is told, due is {said}'


def wrong_asked(rows):
    """the rows that differ as they are asked"""
    for row in rows:
        start, end = (row.start + (row.end << 32), 0) if row.question == 'unpack' else (row.start, row.end)
        said = in_room(due(row.question + '/synthetic' * row.synthetic, row.kind, start, end, row.source, row.room), row.room)
        if replay.due(row.source, said) != (row.number, row.letter, row.values, row.value):
            yield f'{row.name}: due is {said}'


def main():
    vectors = list(replay.lines('packing'))
    asked = [row for _, row in replay.packing_asked()] + replay.bits_rows()
    wrong = [*wrong_vectors(), *wrong_asked(asked)]
    for line in wrong:
        print(line)
    print(f'packing.tsv: {len(vectors)} rows; {len(asked)} rows of bits, packed bits and bit literals as they are asked; {len(wrong)} different')
    return 1 if wrong else 0


if __name__ == '__main__':
    sys.exit(main())
