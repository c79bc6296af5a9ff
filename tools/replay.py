#!/usr/bin/env python3
"""The rows that the program `replay` asks again, from vectors/.

    tools/replay.py            writes crates/replay/stdin, the rows, and crates/replay/stdout, what the program has to say of them
    tools/replay.py --check    exits 1 if the two files are not what the vectors say

A row is a head of 48 bytes, then the text with its padding, the value and the name. Numbers have their lowest byte first. The head:

    0       the question, see QUESTIONS; 0 ends a stratum, which the name names; 255 fills a block of 65,536 bytes, which holds whole rows
    1       the kind's code; of the writer 1 if a part size is given; of a form 1 for E, 2 for U&
    2, 3    the setting; 1 for a synthetic literal
    4-11    start and end, four bytes each; of the writer the start is the part size, of a day its number; of bytes that are written as a bit literal both are
            the bit count
    12, 13  how many bytes of padding stand before the source; 1 if it is asked with its padding too
    14      how long the buffer is in the first asking
    15, 16  what is due: a letter for the case, the number
    18-27   places of the row, two bytes each: where the source begins and ends, the padding ends and the value begins, the value ends and the name begins, the row ends
    28-47   what is due: four values, of eight bytes and three times of four; the third is the place of a 6; of a day they are year, month, day and number; of
            packed bits the second is the bit count

Of a block of literals in one call the value is the items, the answer slice as it is lent and the answer slice as it is due, all by numbers of four bytes, and the
bytes that are written:

    4-9     places of the row, two bytes each: where the items end, the slice as lent ends, the slice as due ends
    28-47   what is due: that no number of the answer slice differs, told as the place behind the last that is compared, and 0 three times
"""
import pathlib
import re
import struct
import sys

ROOT = pathlib.Path(__file__).resolve().parent.parent
# the first eight and the last two lend a buffer
QUESTIONS = ('string plain decimal bits temporal ident writer form money source charset i64 bool null evalid uvalid uescape nul isident radix block '
             'date day pack unpack').split()
LENDS = set(QUESTIONS[:8] + QUESTIONS[-2:])
SPANNED = set('string plain decimal bits temporal money source charset i64 date pack'.split())
# of a bit string by its kind: the letter, bits per digit, and the digits' form
RADIX = {12: ('B', 1, 'b'), 13: ('X', 4, 'X')}
# how the texts of the two forms begin, in the order of their numbers
OPENING = {'escape': "E'", 'unicode': "U&'"}
LONG = 200  # the buffer of the first asking; no value is as long
NUMBERS = 128  # as many numbers of an answer slice are compared; none is as long
OTHER = 0xA5A5A5A5  # an answer slice is lent full of this number and those behind it
HEAD = 48
BLOCK = 65536
# Bytes that would change an answer if they were read. The first byte behind a text never is 80 to BF, so a place that cut no character still cuts none.
BEFORE = ["'", 'E', '\\', '"a', '$$', 'é', "U&'", '-', '0x', '_a', '\n', "'b' "]
BEHIND = ["'", '"', " 'c'", '$$', '0', ' UESCAPE \'!\'', '\\', 'é', '\u3000"', '_1', "''"]


def around(index):
    """what stands around a source, by the row's place among the others"""
    return BEFORE[index % len(BEFORE)].encode(), BEHIND[index // len(BEFORE) % len(BEHIND)].encode()


def unhex(text):
    return b'' if text == '-' else bytes.fromhex(text)


class Row:
    """One question with its answer, in the words of docs/VECTORS.md."""

    def __init__(self, name, question, kind, setting, start, end, source, answer, room=LONG):
        self.name, self.setting, self.source, self.room = name, int(setting), source, room
        self.question, self.synthetic = question.removesuffix('/synthetic'), question.endswith('/synthetic')
        if self.question == 'writer':
            self.kind, self.start, self.end = int(start != 'none'), 0 if start == 'none' else int(start), 0
        elif self.question == 'unpack':
            self.kind, (self.end, self.start) = int(kind), divmod(int(start), 2 ** 32)
        else:
            self.kind, self.start, self.end = int(kind), int(start), int(end)
        self.number, self.letter, self.values, self.value = due(self.source, answer)

    def padding(self, index):
        """What stands around the source. A span that ends past its source has nothing behind it, where it would end inside; one that padding would carry past 32 bits has none."""
        before, behind = around(index)
        if max(self.start, self.end) + len(before) >= 2 ** 32:
            return b'', b''
        return before, b'' if self.question in SPANNED and self.end > len(self.source) else behind

    def is_padded(self, index):
        """whether it is asked with its padding too; a bare text has no span that could move"""
        return self.question in SPANNED and self.padding(index)[0] != b''

    def askings(self, index):
        """alone; padded; with an exact buffer; with a short one"""
        lends = self.question in LENDS
        return 1 + self.is_padded(index) + lends + (lends and self.letter == 'w' and self.values[0] > 0)

    def packed(self, index):
        before, behind = self.padding(index)
        assert len(self.value) < LONG, self.name
        parts = [before, self.source, behind, self.value, self.name.encode()]
        places = [HEAD + sum(map(len, parts[:n])) for n in (1, 2, 3, 4, 5)]
        head = struct.pack('<4B2I5Bx5HQ3I', QUESTIONS.index(self.question) + 1, self.kind, self.setting, self.synthetic, self.start, self.end, len(before),
                           self.is_padded(index), self.room, ord(self.letter), self.number, *places, *self.values)
        return head + b''.join(parts)


class Call:
    """One call on a block of literals with what is due, in the words of docs/VECTORS.md."""
    question = 'block'

    def __init__(self, name, items, source, answers, room, number, fours, written):
        self.name, self.items, self.source, self.answers, self.room = name, items, source, answers, room
        self.number, self.fours, self.written = number, fours, written

    def is_listed(self):
        """whether its buffer can be written down, byte by byte"""
        return self.room < 2 ** 32 - 1

    def lent(self):
        """the answer slice before the call"""
        return [OTHER + place for place in range(self.answers)]

    def due(self):
        """the answer slice behind the call"""
        return self.fours + self.lent()[len(self.fours):]

    def in_padding(self, index):
        """The same call with padding around the source; none where a span would pass 32 bits. Where a span ends past the source nothing stands behind it."""
        before, behind = around(index)
        ends = self.items[3::4]
        if not self.items or max(self.items[2::4] + ends, default=0) + len(before) >= 2 ** 32:
            return None
        items = [n + len(before) * (place % 4 >= 2) for place, n in enumerate(self.items)]
        fours = [n + len(before) * (place % 4 == 2 and self.fours[place - 1] == 1) for place, n in enumerate(self.fours)]
        source = before + self.source + (b'' if max(ends, default=0) > len(self.source) else behind)
        return Call(f'{self.name}, padded', items, source, self.answers, self.room, self.number, fours, self.written)

    def askings(self, index):
        """alone: a row says how long its buffer is, and the call in padding is a row of its own"""
        return 1

    def packed(self, index):
        assert max(self.answers, len(self.items)) < NUMBERS and self.room < LONG, self.name
        numbers = [struct.pack(f'<{len(given)}I', *given) for given in (self.items, self.lent(), self.due())]
        parts = [b'', self.source, b'', b''.join(numbers) + self.written, self.name.encode()]
        places = [HEAD + sum(map(len, parts[:n])) for n in (1, 2, 3, 4, 5)]
        inner = [places[2] + sum(map(len, numbers[:n])) for n in (1, 2, 3)]
        head = struct.pack('<B3x3H4x3Bx5HQ12x', QUESTIONS.index(self.question) + 1, *inner, self.room, ord('c'), self.number, *places, NUMBERS)
        return head + b''.join(parts)


def ending(stratum):
    """the row that ends a stratum"""
    name = stratum.encode()
    return struct.pack('<24x2H20x', HEAD, HEAD + len(name)) + name


def due(source, answer):
    """(number, letter, four values, the bytes shown) of an answer"""
    case, *values = answer.split()
    if case == 'b':
        start, end = map(int, values)
        return 0, 'b', (start, end, 0, 0), source[start:end]
    if case == 'w':
        value = unhex(values[0])
        return 0, 'w', four([len(value), *values[1:]]), value
    if case == 'r':
        return int(values[0]), 'r', four(values[1:]), b''
    if case in ('yes', 'no'):
        return 0, 'y', (int(case == 'yes'), 0, 0, 0), b''
    if case == 'i':
        value = int(values[0])
        return 0, 'i', (-1 - value, 1, 0, 0) if value < 0 else (value, 0, 0, 0), b''
    return 0, case, four(values), b''


def four(values):
    """four numbers, 0 where none is told"""
    return (*map(int, values), 0, 0, 0, 0)[:4]


def lines(name):
    for line in (ROOT / f'vectors/{name}.tsv').read_text().split('\n'):
        if line and not line.startswith('#'):
            yield line.split('\t')


def lent_long(question, room, answer):
    """(the buffer's length in the first asking, what is due in it): long, but of the writer"""
    return int(room) if question == 'writer' else LONG, answer


def lent_told(question, room, answer):
    """the same, the buffer as long as the row says: 9 is due where it is too short"""
    if room == '.':
        return LONG, answer
    if question == 'unpack':
        return int(room), answer
    needed = len(unhex(answer.split()[1])) if answer.startswith('w ') else 0
    own = needed + int(room)
    return own, answer if needed <= own else f'r 9 {needed}'


def listed(name, lent=lent_long):
    """(stratum, row) of a file with these columns; the records are no question's, and `litrec` answers them"""
    for identity, question, kind, setting, start, end, source, room, answer, *_ in lines(name):
        if question == 'record':
            continue
        own, due_then = lent(question, room, answer)
        yield f'{name}, {question.removesuffix("/synthetic")}', Row(f'{name} {identity}', question, kind, setting, start, end, unhex(source), due_then, own)


def spelled(text):
    """bytes of a readable text: ‹0A› is the byte 0A"""
    return b''.join(bytes.fromhex(part[1:-1]) if part.startswith('‹') else part.encode() for part in re.split(r'(‹[0-9A-F]{2}›)', text))


def stated(answer, text, bare):
    """an answer in the words of the other files: the value of a borrowed one stands in the text just once; a refusal but 1 gets its span"""
    case, _, value = answer.partition(' ')
    data = spelled(value)
    if case == 'b':
        assert text.count(data) == 1, (answer, text)
        return f'b {text.index(data)} {text.index(data) + len(data)}'
    if case == 'w':
        return f'w {data.hex() or "-"}'
    if case == 'r' and not bare and not value.startswith('1 '):
        number, *place = value.split()
        return ' '.join(['r', number, '0', str(len(text)), *place])
    return answer


def readable(file):
    """the rows of a file that is written by hand; for the writer the kind's column has the part size"""
    for section, name, question, kind, setting, text, answer in lines(file):
        data, written = spelled(text), question == 'writer'
        start, end = (kind, 0) if written else (0, len(data))
        yield f'{file}, {section}', Row(f'{section}, {name}', question, kind, setting, start, end, data, stated(answer, data, written or kind == '0'))


def is_utf8(data):
    try:
        data.decode('utf-8', 'strict')
        return True
    except UnicodeDecodeError:
        return False


# behind the bytes of a sequence that is not whole one of these makes it so: A0 where 80 would be overlong, 80 where A0 would be half of a pair or too high
RESTS = [bytes.fromhex(rest) for rest in ('', '80', '8080', 'A080', '808080', 'A08080')]


def goes_on(data):
    """whether UTF-8 can go on behind these bytes"""
    return any(is_utf8(data + rest) for rest in RESTS)


def breaks_at(data):
    """which byte can be none of an E string's expansion, a zero or one behind which no UTF-8 goes on; the length, where a sequence is unfinished"""
    return next((n for n, byte in enumerate(data) if byte == 0 or not goes_on(data[:n + 1])), len(data))


def refused_text(data):
    """why a text that is no UTF-8 is refused: 3 if its first place cuts a character"""
    return f'r {3 if 0x80 <= data[0] <= 0xBF else 4} 0 {len(data)}'


def sequence_asked(data, legal):
    """(stratum, question, kind, start, end, text, answer) of all that is asked of one sequence; a raw NUL is UTF-8, and no string's"""
    size, clean = len(data), legal and 0 not in data
    quoted, ident = b"'" + data + b"'", b'U&"' + data + b'"'
    escaped = b"E'" + ''.join(f'\\x{b:02X}' for b in data).encode() + b"'"
    yield 'between quote marks', 'string', 4, 0, size + 2, quoted, f'b 1 {size + 1}' if clean else f'r 6 0 {size + 2} 0' if legal else f'r 4 0 {size + 2}'
    yield 'whole sources', 'source', 4, 0, size, data, f'b 0 {size}' if legal else refused_text(data)
    yield 'E strings', 'string', 4, 0, len(escaped), escaped, f'w {data.hex()}' if clean else f'r 6 0 {len(escaped)} {2 + 4 * breaks_at(data)}'
    yield 'E strings, validated', 'evalid', 0, 0, 0, escaped, 'yes' if clean else 'no'
    yield 'identifiers', 'ident', 0, 0, 0, ident, f'b 3 {size + 3}' if legal else 'r 4'
    yield 'written', 'writer', 0, 'none', 0, data, f'w {quoted.hex()}' if clean else f'r {11 if legal else 4}'
    for place in range(1, size if legal else 1):
        if 0x80 <= data[place] <= 0xBF:
            yield 'cut at the end', 'source', 4, 0, place, data, f'r 3 0 {place}'
            yield 'cut at the start', 'source', 4, place, size, data, f'r 3 {place} {size}'


def sequences():
    """the sequences of rfc3629.tsv, stratum by stratum"""
    strata = {}
    for name, hexes, verdict in lines('rfc3629'):
        data = bytes.fromhex(hexes)
        legal = is_utf8(data)
        assert verdict == ('legal' if legal else 'not'), name
        for stratum, question, kind, start, end, text, answer in sequence_asked(data, legal):
            full = f'rfc3629, {stratum}'
            strata.setdefault(full, []).append(Row(f'{full}, {name}', question, kind, 0, start, end, text, answer))
    return [(stratum, row) for stratum, rows in strata.items() for row in rows]


def forms():
    """(id, form, value, room, answer) of forms.tsv"""
    for identity, form, value, room, answer in lines('forms'):
        yield identity, form, unhex(value), int(room), answer


def written_forms():
    """(id, form, value, text) of what forms.tsv says is written, each once"""
    met = set()
    for identity, form, value, _, answer in forms():
        case, _, text = answer.partition(' ')
        if case == 'w' and (value, text) not in met:
            met.add((value, text))
            yield identity, form, value, unhex(text)


def read_back(opening, value, text):
    """what a written text means as a string: borrowed where nothing in it was spelled otherwise"""
    start, end = len(opening), len(text) - 1
    return f'b {start} {end}' if text[start:end] == value else f'w {value.hex()}'


def forms_asked():
    """(stratum, row) of forms.tsv: each row; each written text read back at both settings, and both validators asked of it"""
    for number, form in enumerate(OPENING, 1):
        for identity, own, value, room, answer in forms():
            if own == form:
                yield f'forms, {form}', Row(f'forms {identity}, {form}', 'form', number, 0, 0, 0, value, answer, room)
    for identity, form, value, text in written_forms():
        for setting in (0, 1):
            yield 'forms, read back', Row(f'forms {identity}, {form}, setting {setting}', 'string', 4, setting, 0, len(text), text, read_back(OPENING[form], value, text))
    for question in ('evalid', 'uvalid'):
        for identity, form, _, text in written_forms():
            yield f'forms, {question}', Row(f'forms {identity}, {form}, {question}', question, 0, 0, 0, 0, text, 'yes')


def written_parts():
    """(id, setting, value, text) of what parts.tsv says is written, each once"""
    met = set()
    for identity, question, _, setting, _, _, value, _, answer in lines('parts'):
        case, _, text = answer.partition(' ')
        if question == 'writer' and case == 'w' and (setting, text) not in met:
            met.add((setting, text))
            yield identity, setting, unhex(value), unhex(text)


def parts_asked():
    """(stratum, row) of parts.tsv: each row; each written text read back at its setting"""
    yield from listed('parts')
    for identity, setting, value, text in written_parts():
        yield 'parts, read back', Row(f'parts {identity}, read back', 'string', 4, setting, 0, len(text), text, read_back("'", value, text))


def bits_rows():
    """the rows of bits in the files of document 01"""
    files = [*listed('oracle'), *listed('clarified'), *readable('manuals'), *readable('examples'), *listed('places')]
    return [row for _, row in files if row.question == 'bits']


def packed_bits(kind, digits):
    """digits as packed bytes, in the words of docs/VECTORS.md"""
    count = len(digits) * RADIX[kind][1]
    number = int(digits or b'0', 16 if kind == 13 else 2) << -count % 8
    return f'w {number.to_bytes(-(-count // 8), "big").hex() or "-"} {count}'


def bit_literal(kind, data, count):
    """the literal of bytes and a bit count, None if it has no such digits"""
    letter, per, form = RADIX[kind]
    number = int.from_bytes(data, 'big') >> -count % 8
    return f"{letter}'{format(number, f'0{count // per}{form}') if count else ''}'".encode() if count % per == 0 else None


def written_bits():
    """(id, kind, bytes, count, text) of what packing.tsv says is written as a literal, each once"""
    met = set()
    for identity, question, kind, _, count, _, source, _, answer, _ in lines('packing'):
        if question == 'unpack' and answer.startswith('w ') and answer not in met:
            met.add(answer)
            yield identity, int(kind), unhex(source), int(count), unhex(answer[2:])


def bits_packed():
    """(id, bytes, count) of what packing.tsv says is packed, each once"""
    met = set()
    for identity, question, *_, answer, _ in lines('packing'):
        if question == 'pack' and answer.startswith('w ') and answer not in met:
            met.add(answer)
            yield identity, unhex(answer.split()[1]), int(answer.split()[2])


def packed_back():
    """(id, kind, bytes, count, text) of each packed answer written as either literal, as far as it can be"""
    for identity, data, count in bits_packed():
        for kind in RADIX:
            text = bit_literal(kind, data, count)
            if text and len(text) < LONG:
                yield identity, kind, data, count, text


def packing_asked():
    """(stratum, row) of packing.tsv: each row; each literal that is written packed again, and what is packed written; the digits of all rows of bits packed"""
    yield from sorted(listed('packing', lent_told), key=lambda r: QUESTIONS.index(r[1].question))
    for identity, kind, data, count, text in written_bits():
        yield 'packing, packed again', Row(f'packing {identity}, packed again', 'pack', kind, 0, 0, len(text), text, f'w {data.hex() or "-"} {count}')
    for identity, kind, data, count, text in packed_back():
        yield 'packing, written', Row(f'packing {identity}, written', 'unpack', kind, 0, count, 0, data, f'w {text.hex()}')
    for row in bits_rows():
        answer = packed_bits(row.kind, row.value) if row.letter in 'bw' else f'r {row.number} {row.values[0]} {row.values[1]}'
        yield 'packing, bits of other files', Row(f'{row.name}, packed', 'pack' + '/synthetic' * row.synthetic, row.kind, 0, row.start, row.end, row.source, answer)


def numbers(column):
    """numbers in fours, a comma between"""
    return [] if column == '-' else [int(n) for n in column.replace(',', '').split()]


def in_fours(given):
    return list(zip(*[iter(given)] * 4))


def calls():
    """the rows of blocks.tsv"""
    for identity, items, source, answers, room, number, fours, written, _ in lines('blocks'):
        yield Call(f'blocks {identity}', numbers(items), unhex(source), int(answers), int(room), int(number), numbers(fours), unhex(written))


def listed_calls():
    """those whose buffer can be written down"""
    return [call for call in calls() if call.is_listed()]


def blocks_asked():
    """(stratum, row) of blocks.tsv: each row; each with padding around its source, as far as its spans allow"""
    for call in listed_calls():
        yield 'blocks', call
    for index, call in enumerate(listed_calls()):
        padded = call.in_padding(index)
        if padded:
            yield 'blocks, padded', padded


def all_rows():
    yield from sorted(listed('oracle'), key=lambda r: QUESTIONS.index(r[1].question))
    yield from sorted(listed('clarified'), key=lambda r: QUESTIONS.index(r[1].question))
    yield from readable('manuals')
    yield from sequences()
    yield from readable('examples')
    yield from forms_asked()
    yield from parts_asked()
    yield from sorted(listed('places'), key=lambda r: QUESTIONS.index(r[1].question))
    yield from blocks_asked()
    yield from sorted(listed('dates'), key=lambda r: QUESTIONS.index(r[1].question))
    yield from listed('printing', lent_told)
    yield from packing_asked()


def in_blocks(rows):
    """the rows in blocks, none of which cuts a row"""
    made, room = [], BLOCK
    for row in rows:
        if room < len(row):
            made.append(b'\xFF' + bytes(room - 1) if room else b'')
            room = BLOCK
        made.append(row)
        room -= len(row)
    return b''.join(made)


def made():
    """(stdin, stdout)"""
    strata, rows = {}, []
    for index, (stratum, row) in enumerate(all_rows()):
        if stratum not in strata:
            rows += [ending(last) for last in list(strata)[-1:]]
            strata[stratum] = [0, 0]
        strata[stratum][0] += 1
        strata[stratum][1] += row.askings(index)
        rows.append(row.packed(index))
    rows.append(ending(list(strata)[-1]))
    said = ''.join(f'{name}: {count} rows, {askings} askings, 0 different\n' for name, (count, askings) in strata.items())
    return in_blocks(rows), said.encode()


def main():
    folder = ROOT / 'crates/replay'
    files = dict(zip((folder / 'stdin', folder / 'stdout'), made()))
    if sys.argv[1:] == ['--check']:
        wrong = [str(path.relative_to(ROOT)) for path, data in files.items() if not path.exists() or path.read_bytes() != data]
        if wrong:
            sys.exit(f'not what vectors/ says, run tools/replay.py: {", ".join(wrong)}')
        return
    for path, data in files.items():
        path.write_bytes(data)
    counts = re.findall(r'(\d+) rows, (\d+) askings', files[folder / 'stdout'].decode())
    print(f'{sum(int(rows) for rows, _ in counts)} rows, {sum(int(askings) for _, askings in counts)} askings, {len(files[folder / "stdin"])} bytes')


if __name__ == '__main__':
    main()
