#!/usr/bin/env python3
"""Chooses the rows of vectors/packing.tsv: bit strings as packed bytes, bytes as bit literals, and what is refused beside them.

    tools/oracle/bitstrings.py

Most rows begin with a number and a count of bits: Python writes its digits in base 2 or 16, and its bytes. Parts 1 to 4, the tables of request T-07's page, stay
as they stand in the file. A row that an earlier part has already is left out. Needs no Rust. packing.py goes by the digits, one by one.
"""
import os
import sys

sys.dont_write_bytecode = True
sys.path.append(os.path.join(os.path.dirname(os.path.abspath(__file__)), '..'))
import replay  # noqa: E402

FILE = replay.ROOT / 'vectors/packing.tsv'
HEAD = '''# Bit strings as packed bytes, and back: the decisions, premises and facts of request T-07, row by row, and further ones. Parts 5 to 14 are made by tools/oracle/bitstrings.py; docs/VECTORS.md says how to read a row.
# id	question	kind	setting	start	end	source	room	answer	says
'''
TABLES = 4  # the parts that stay
LONG = 3  # bytes that a long buffer has more than is needed
OPEN = 40  # the buffer of the reverse where it refuses: longer than what 26 bits would need
BINARY, HEX = 12, 13
LETTER = {BINARY: 'B', HEX: 'X'}
PER_DIGIT = {BINARY: 1, HEX: 4}
BASE = {BINARY: 'b', HEX: 'X'}
WHITE = '\t\n\x0B\x0C\r \x85\xA0\u1680\u2000\u2001\u2002\u2003\u2004\u2005\u2006\u2007\u2008\u2009\u200A\u2028\u2029\u202F\u205F\u3000'
NOT_WHITE = ['\0', '\x08', '\x0E', '\x1F', '\u180E', '\u200B', '\u2060', '\uFEFF', '--', '/**/', '\\', '+', ',', '||', 'a', 'é']


def shown(data):
    return data.hex().upper() or '-'


def digits_of(kind, count, number):
    """a number's digits, as many as a count of bits makes"""
    return format(number, f'0{count // PER_DIGIT[kind]}{BASE[kind]}') if count else ''


def bytes_of(count, number):
    """a number's bytes, the unused bits zero"""
    unused = -count % 8
    return (number << unused).to_bytes((count + unused) // 8, 'big')


def literal(kind, digits, letter=None):
    return f"{letter or LETTER[kind]}'{digits}'"


def row(question, kind, start, end, data, room, answer, says):
    return [question, str(kind), '0', str(start), str(end), shown(data), str(room), answer, says]


def packs(text, kind, count, number, says, room=0):
    """a text that is packed; the room is counted from what is needed"""
    data = text.encode()
    return row('pack', kind, 0, len(data), data, room, f'w {shown(bytes_of(count, number))} {count}', says)


def refused(text, kind, says, room='.'):
    data = text.encode()
    return row('pack', kind, 0, len(data), data, room, f'r 7 0 {len(data)}', says)


def writes(kind, count, number, says, room=None):
    """a number's bytes as a literal; the room is the buffer's length, where none is named just as long as is needed"""
    text = literal(kind, digits_of(kind, count, number)).encode()
    lent = len(text) if room is None else room
    return row('unpack', kind, count, 0, bytes_of(count, number), lent, f'w {shown(text)}' if len(text) <= lent else f'r 9 {len(text)}', says)


def bad(kind, count, data, says, room=OPEN):
    return row('unpack', kind, count, 0, data, room, 'r 16', says)


def rooms(needed):
    """just as long, one byte short, none, longer: counted from what is needed"""
    return (0, -1, -needed, LONG) if needed else (0, LONG)


def patterns(count):
    """(number, what its bits are) of so many bits"""
    ones = 2 ** count - 1
    named = {0: 'zeros', ones: 'ones', 1 << count >> 1: 'the first bit', min(1, ones): 'the last bit', ones // 3: 'every other bit', ones - ones // 3: 'every other bit'}
    return [(number, named[number]) for number in sorted(named)]


def counts():
    """(kind, count) of up to 17 binary digits, and of up to five hex digits"""
    yield from ((BINARY, count) for count in range(18))
    yield from ((HEX, 4 * digits) for digits in range(6))


def lengths():
    """every length, each in one of the four buffers in turn; the last of each length in all"""
    turn = 0
    for kind, count in counts():
        for number, says in patterns(count):
            lent = rooms(-(-count // 8))
            text, turn = literal(kind, digits_of(kind, count, number)), turn + 1
            for room in lent if number == 2 ** count - 1 else lent[turn % len(lent):][:1]:
                yield packs(text, kind, count, number, f'{count} bits, {says}', room)


def places():
    """a bit at each place, none at each place; every hex digit in either case"""
    for at in range(17):
        for number, says in ((1 << at, 'a one'), (2 ** 17 - 1 - (1 << at), 'a zero')):
            yield packs(literal(BINARY, digits_of(BINARY, 17, number)), BINARY, 17, number, f'{says} with {at} digits behind it')
    for at in range(20):
        yield packs(literal(HEX, digits_of(HEX, 20, 1 << at)), HEX, 20, 1 << at, f'a one with {at} bits behind it')
    for digit in '0123456789ABCDEFabcdef':
        number = int(digit, 16)
        yield packs(literal(HEX, digit), HEX, 4, number, 'a digit alone')
        yield packs(literal(HEX, '5' + digit), HEX, 8, 5 * 16 + number, 'a digit at the bottom')
        yield packs(literal(HEX, digit + digit.swapcase() + digit), HEX, 12, number * 0x111, 'a digit in either case')


def split(digits, *cuts):
    """the digits in parts that end at the cuts"""
    ends = (0, *cuts, len(digits))
    return [digits[start:end] for start, end in zip(ends, ends[1:])]


def joined():
    """segments run on, whatever white space stands between them and behind; either letter in either case"""
    for kind, count, number in ((BINARY, 9, 0b101100111), (BINARY, 17, 0b10110011100011111), (HEX, 20, 0x1FA07), (HEX, 12, 0xBED)):
        digits = digits_of(kind, count, number)
        for cut in range(len(digits) + 1):
            for gap in (' ', '\n\t'):
                yield packs(literal(kind, f"'{gap}'".join(split(digits, cut))), kind, count, number, f'two segments, {cut} digits in the first')
        for cut in range(len(digits)):
            parts = split(digits, cut, cut, cut + 1)
            yield packs(literal(kind, "' '".join(parts)) + ' ', kind, count, number, f'four segments, the second empty, {cut} digits before it')
        yield packs(literal(kind, "' '".join(digits)), kind, count, number, 'a segment for each digit')
        yield packs(literal(kind, "' '".join(['', *digits, ''])), kind, count, number, 'empty segments at both ends')
        yield packs(literal(kind, "' '".join(digits)), kind, count, number, 'a segment for each digit, a byte short', -1)
        for letter in 'BbXx':
            yield packs(literal(kind, digits, letter), kind, count, number, 'the kind decides, not the letter')
            yield packs(literal(kind, "' '".join(split(digits, 3)), letter), kind, count, number, 'the kind decides, in each segment')
    for gap in [*WHITE, ' \n ', '\r\n', '\u3000\t\x85']:
        code = ' '.join(f'{ord(c):X}' for c in gap)
        yield packs(f"B'1'{gap}'01'", BINARY, 3, 0b101, f'white space {code} between')
        yield packs(f"X'a'{gap}", HEX, 4, 0xA, f'white space {code} behind')
    for text in NOT_WHITE:
        yield refused(f"B'1'{text}'1'", BINARY, 'no white space between')
        yield refused(f"B'1' '1'{text}", BINARY, 'no white space behind')


def no_digits():
    """a byte that is no digit, at each place; texts that are no bit string; 7 before 9"""
    for kind, digits, others in ((BINARY, '101', '/2379AaFf '), (HEX, 'A0f', '/:@G`gZz ')):
        for other in [*others, '_', '-', '+', '.', '"', '\\', "''", '\0', '\x7F', 'é', '\uFF11', '\u0661', '\U0001D7CF']:
            for at in range(3):
                yield refused(literal(kind, digits[:at] + other + digits[at:]), kind, f'{other.encode().hex().upper()} is no digit')
            yield refused(literal(kind, digits) + f" '{other}'", kind, f'{other.encode().hex().upper()} is no digit, later', 0)
    for text in ["B", "B'", "B''1", "'", "''", "B1", "1", "0b1", "0x1", " B'1'", "\nB'1'", "BB'1'", "B '1'", 'B"1"', "N'1'", "E'1'", "U&'1'", "_b'1'", "$$1$$", "O'1'", "B'1'x", "B'1' x", "B'1'1",
                 "B'1' 1", "B'1';", "B'1' '1", "B'1''", "B'''", "B''''", "B'' ''''", "B'1' ''' ", "B'1' X'1'", "B'1' E'1'", "B'1' N'1'", "B'1' U&'1'", "B'1' _b'1'", "B'1' \"\"", 'B\'1\' "1" \'1\'',
                 "B'1' B'1' '1'", "B'1' '1' B'1'", "B'1'\\'", "B'\\'1'", "B`1`", "B\u20181\u2019", "\uFEFFB'1'", "X'1' '1' U&"]:
        for kind in (BINARY, HEX):
            yield refused(text, kind, 'no bit string', 0 if kind == HEX else '.')


def order():
    """every kind; 1 before 2 before 3 before 4 before 7 before 9"""
    good, text = b"B'1'", b"B'\xFF'"
    for kind in range(1, 15):
        if kind in LETTER:
            yield packs(good.decode(), kind, PER_DIGIT[kind], 1, 'a bit string', LONG)
            yield row('pack/synthetic', kind, 0, 4, good, 0, 'r 2 0 4', 'no source')
            yield row('pack/synthetic', kind, 5, 3, good, '.', 'r 2 5 3', '2 before 3')
            yield row('pack/synthetic', kind, 0, 4, text, '.', 'r 2 0 4', '2 before 4')
            yield row('pack', kind, 0, 5, text, '.', 'r 3 0 5', '3 before 4')
            yield row('pack', kind, 0, 5, good, 0, 'r 3 0 5', '3 before 9')
            for place, data in enumerate((b"\xFFB'1'", b"B\xFF'1'", b"B'\xFF'", b"B'1'\xFF", b"B'1'\xE3\x80", b"B'\xED\xA0\x80'", b"B'\xC0\xB1'", b"B'1' \xFF'1'")):
                yield row('pack', kind, 0, len(data), data, place % 2, f'r 4 0 {len(data)}', 'no UTF-8')
            yield refused("B'\0'", kind, '7 before 9', 0)
        else:
            yield row('pack', kind, 0, 4, good, 0, f'r 1 7 {kind}', 'another kind')
            yield row('pack/synthetic', kind, 0, 4, good, '.', f'r 1 7 {kind}', '1 before 2')
            yield row('pack', kind, 5, 4, good, '.', f'r 1 7 {kind}', '1 before 3')
            yield row('pack', kind, 0, 4, text, '.', f'r 1 7 {kind}', '1 before 4')


def spans():
    """every span over a short source, and far ones; a literal among other bytes"""
    source = "éX'1'".encode()
    for start in range(len(source) + 2):
        for end in range(len(source) + 2):
            cuts = start > end or end > len(source) or 1 in (start, end)
            if (start, end) == (2, 6):
                yield row('pack', HEX, start, end, source, 0, 'w 10 4', 'just the literal')
            else:
                yield row('pack', HEX, start, end, source, '.', f'r {3 if cuts else 7} {start} {end}', 'no span' if cuts else 'another text')
    for start, end in ((0, 2 ** 32 - 1), (2 ** 32 - 1, 0), (2 ** 32 - 1, 2 ** 32 - 1), (2 ** 32 - 4, 2 ** 32 - 1), (2, 2 ** 32 - 2)):
        yield row('pack', HEX, start, end, source, '.', f'r 3 {start} {end}', 'far outside')
    for before, behind in (("'", "'"), ("B'0' ", " '1'"), ("'0' ", "'1'"), ('é', 'é'), ('\\', '\\'), ('0', '0'), ('B', " '"), ('\0', '\0')):
        for kind, text, count, number in ((BINARY, "B'011'", 3, 3), (HEX, "x'0' 'b'", 8, 11)):
            source, start = (before + text + behind).encode(), len(before.encode())
            yield row('pack', kind, start, start + len(text), source, 0, f'w {shown(bytes_of(count, number))} {count}', 'bytes around it')


def long():
    """many digits, in one segment and in many, packed and written"""
    for kind, count in ((BINARY, 63), (BINARY, 64), (BINARY, 65), (BINARY, 127), (BINARY, 193), (BINARY, 196), (HEX, 60), (HEX, 64), (HEX, 68), (HEX, 256), (HEX, 780), (HEX, 784)):
        number = 7 ** 300 % 2 ** count
        digits = digits_of(kind, count, number)
        yield packs(literal(kind, digits), kind, count, number, f'{len(digits)} digits')
        yield packs(literal(kind, "' '".join(digits[at:at + 7] for at in range(0, len(digits), 7))), kind, count, number, f'{len(digits)} digits in sevens')
        yield writes(kind, count, number, f'{len(digits)} digits')
        yield writes(kind, count, number, f'{len(digits)} digits, a byte short', len(digits) + 2)
    for kind, count in ((BINARY, 257), (BINARY, 800), (HEX, 1592)):
        number = 7 ** 600 % 2 ** count
        yield packs(literal(kind, digits_of(kind, count, number)), kind, count, number, f'{count} bits', 1)


def given(count, size):
    """(number, what its bits are) of so many bytes, each number once"""
    ones, named = 256 ** size - 1, {}
    if size == -(-count // 8):
        named = {ones >> -count % 8 << -count % 8: 'the bits of the count', ones >> max(-count % 8 - 1, 0) << max(-count % 8 - 1, 0): 'one bit more'}
    return ({0: 'zeros', ones: 'ones', min(1, ones): 'the low bit', (ones + 1) >> 1: 'the top bit'} | named if size else {0: 'no bytes'}).items()


def every_count():
    """every count from 0 to 26 with up to three bytes: of zeros, of ones, the top bit, the low bit; and with just the bits of the count set, or one more"""
    for kind in LETTER:
        for count in range(27):
            fits = count % PER_DIGIT[kind] == 0
            for size in range(4):
                for number, says in given(count, size):
                    data, unused = number.to_bytes(size, 'big'), 8 * size - count
                    if fits and 0 <= unused < 8 and number % 2 ** unused == 0:
                        yield writes(kind, count, number >> unused, f'{says}, {count} of {8 * size}', OPEN)
                    else:
                        yield bad(kind, count, data, f'{says}, {count} of {8 * size}')


def huge():
    """counts that would fit if they were cut down, or rounded up by a sum that wraps"""
    ends = {2 ** n + more for n in (8, 16, 31, 32, 33, 35, 61, 62, 63) for more in (-8, -4, -1, 0, 1, 4, 8)} | {2 ** 64 - less for less in range(1, 18)}
    for count in sorted(ends):
        for kind, data in ((BINARY, b''), (HEX, b''), (BINARY, b'\x80')):
            yield bad(kind, count, data, 'a count far off')
    for n in (8, 16, 32, 35, 36, 63):
        for more in range(4, 28, 4):
            yield bad(HEX, 2 ** n + more, bytes(-(-more // 8)), f'{more} past 2^{n}')
            yield bad(BINARY, 2 ** n + more, bytes(-(-more // 8)), f'{more} past 2^{n}', 0)
    for size in (4, 5, 24, 25, 98, 99):
        for count in (8 * size - 8, 8 * size + 1, 8 * size + 4, 8 * size + 8):
            yield bad(BINARY, count, bytes(size), f'{count} bits of {size} bytes')
            yield bad(HEX, count, bytes(size), f'{count} bits of {size} bytes')
    for unused in range(1, 8):
        for at in range(unused):
            yield bad(BINARY, 32 - unused, bytes([255, 255, 255, 1 << at]), f'unused bit {at} is set')
            yield bad(HEX, 32 - unused, bytes([255, 255, 255, 1 << at]), f'unused bit {at} is set', 0)


def written():
    """every digit, every bit; every length in the four buffers; 16 before 9"""
    for digit in range(16):
        yield writes(HEX, 8, digit * 16 + (15 - digit), 'digits in upper case')
        yield writes(HEX, 4, digit, 'a digit alone')
    for at in range(17):
        yield writes(BINARY, 17, 1 << at, f'a one with {at} bits behind it')
    for kind, count in [*((BINARY, count) for count in range(27)), *((HEX, count) for count in range(0, 27, 4))]:
        number = 0b10110011100011111010100100 >> 26 - count
        needed = 3 + count // PER_DIGIT[kind]
        for room in rooms(needed):
            yield writes(kind, count, number, f'{count} bits', needed + room)
    for data in (b'\xFF', b'\xC3\xA9', b'\xED\xA0\x80', b"'\\\0", b'\0\0\0'):
        count, number = 8 * len(data), int.from_bytes(data, 'big')
        yield writes(BINARY, count, number, 'any bytes')
        yield writes(HEX, count, number, 'any bytes')
    for room in (0, 1, 9):
        yield bad(BINARY, 7, b'\x81', '16 before 9', room)
        yield bad(BINARY, 9, b'\x80', '16 before 9', room)
        yield bad(HEX, 6, b'\x80', '16 before 9', room)


def parts():
    """the parts of the file, those of the tables as they stand"""
    for number in range(1, TABLES + 1):
        yield [columns[1:] for columns in replay.lines('packing') if columns[0].startswith(f'{number}.')]
    for part in (lengths, places, joined, no_digits, order, spans, long, every_count, huge, written):
        yield part()


def main():
    met, lines = set(), []
    for number, rows in enumerate(parts(), 1):
        new = []
        for columns in rows:
            asked = tuple(columns[:7])
            if number <= TABLES or asked not in met:
                met.add(asked)
                new.append(columns)
        lines += ['\t'.join([f'{number}.{n}', *columns]) for n, columns in enumerate(new, 1)]
        print(f'part {number}: {len(new)} rows')
    FILE.write_text(HEAD + '\n'.join(lines) + '\n')


if __name__ == '__main__':
    main()
