#!/usr/bin/env python3
"""Where reading a string stops: request T-04's sentences, and document 01's on reading, read once more: on characters and by patterns, where the definitions go
by bytes and steps. What is UTF-8, Python's strict decoder says.

    tools/oracle/places.py

Every row of a string or temporal question that `replay` asks is held to them, of every file of vectors/: a 6 has its place, and what is answered, or has no
room, is refused nowhere; so is each item of blocks.tsv that is read. Needs no Rust. Exits 1 if a row differs.
"""
import os
import re
import sys

sys.dont_write_bytecode = True
sys.path.append(os.path.join(os.path.dirname(os.path.abspath(__file__)), '..'))
import replay  # noqa: E402

# the questions whose 6 carries a place
PLACED = ('string', 'plain', 'temporal')
# inside brackets of a pattern: white space is Unicode White_Space; the characters of a tag, and those that it may begin with; hex digits
WHITE = '\t-\r \x85\xA0\u1680\u2000-\u200A\u2028\u2029\u202F\u205F\u3000'
FIRST = 'A-Za-z_\x80-\U0010FFFF'
TAG = FIRST + '0-9'
HEX = '0-9A-Fa-f'
GAP = f'[{WHITE}]*'
DELIMITER = rf'(?P<delimiter>\$(?:[{FIRST}][{TAG}]*)?\$)'


def pattern(text):
    return re.compile(text, re.DOTALL)


def units(mark, hides):
    """What may stand before a mark that isn't doubled; a backslash hides the character behind it."""
    return rf'(?:[^{mark}\\]|\\.|{mark}{mark})*' if hides else f'(?:[^{mark}]|{mark}{mark})*'


def closed(mark, hides):
    """a body, and the next mark of its own that isn't doubled"""
    return units(mark, hides) + f'{mark}(?!{mark})'


def segment_pattern(on):
    """A quote mark, or E, N, B, X or U& before ', or _, a name and either mark. A backslash hides in E always, in others when the setting is on."""
    single, double = closed("'", on), closed('"', on)
    return pattern(rf"""[Ee]'{closed("'", True)}|(?:[NnBbXx]|[Uu]&|_[A-Za-z0-9_]+)?'{single}|(?:_[A-Za-z0-9_]+)?"{double}""")


SEGMENT = [segment_pattern(False), segment_pattern(True)]
# a mark past white space
MARK_NEXT = pattern(f'{GAP}[\'"]')
SPACE = pattern(GAP)
# the spellings; what stands before the body is its opening
STANDARD = pattern(r"""(?P<opening>(?:[Nn](?=')|_[A-Za-z0-9_]+)?(?P<mark>['"]))(?P<body>.*)(?P=mark)""")
ESCAPE = pattern("(?P<opening>[Ee]')(?P<body>.*)'")
CLAUSE = GAP + ''.join(f'[{c}{c.lower()}]' for c in 'UESCAPE') + GAP + f"'(?P<escape>[^{HEX}+'\"{WHITE}])'"
UNICODE = pattern(f"(?P<opening>[Uu]&')(?P<body>{units(chr(39), False)})'(?:{CLAUSE}|{GAP})")
DOLLAR = pattern(DELIMITER + '.*(?P=delimiter)')
# the units of an E body: x without a digit, and any other character behind a backslash, is itself
E_UNIT = pattern(rf"''|[^'\\]|\\(?:(?P<octal>[0-7]{{1,3}})|x(?P<hex>[{HEX}]{{1,2}})|u(?P<four>[{HEX}]{{4}})|U(?P<eight>[{HEX}]{{8}})|(?P<self>[^0-7uU]))")
E_LETTERS = {'b': '\b', 'f': '\f', 'n': '\n', 'r': '\r', 't': '\t'}
# temporal: what opens a token, a preceding E only where no tag byte stands before it; a dollar token to its first close
TOKEN = pattern(rf"\$|(?:(?<![{TAG}])[Ee])?'")
DOLLAR_TOKEN = pattern(DELIMITER + '.*?(?P=delimiter)')


def size(text):
    """Places count bytes."""
    return len(text.encode())


def is_scalar(number):
    """a Unicode scalar, and not zero"""
    return 0 < number < 0xD800 or 0xDFFF < number <= 0x10FFFF


def stop(unit, is_good, body):
    """The character of a body at which reading from the left stops, since no unit begins there or one that is not good; None if it goes through."""
    at = 0
    while at < len(body):
        found = unit.match(body, at)
        if not found or not is_good(found):
            return at
        at = found.end()
    return None


def expansion(unit):
    """The bytes that a unit of an E body stands for; none, where it is refused."""
    if unit['octal'] or unit['hex']:
        byte = int(unit['octal'], 8) % 256 if unit['octal'] else int(unit['hex'], 16)
        return bytes([byte] if byte else [])
    if unit['four'] or unit['eight']:
        number = int(unit['four'] or unit['eight'], 16)
        return chr(number).encode() if is_scalar(number) else b''
    return (E_LETTERS.get(unit['self'], unit['self']) if unit['self'] else unit[0][0]).encode()


def escape_stop(body):
    """A bad escape, a lone quote, the unit whose bytes broke UTF-8, or the body's end if a sequence is unfinished, whichever comes first."""
    made = bytearray()

    def is_good(unit):
        made.extend(expansion(unit))
        return expansion(unit) and replay.goes_on(made)
    at = stop(E_UNIT, is_good, body)
    return len(body) if at is None and not replay.is_utf8(made) else at


def unicode_unit(escape):
    """Doubled it is itself; a high half by four digits and a low half by four next; four digits, or + and six."""
    e, half = re.escape(escape), f'[{HEX}]{{2}}'
    return pattern(rf"''|[^'{e}]|{e}(?:{e}|[Dd][89ABab]{half}{e}[Dd][C-Fc-f]{half}|(?P<four>[{HEX}]{{4}})|\+(?P<six>[{HEX}]{{6}}))")


def unicode_stop(escape, body):
    return stop(unicode_unit(escape), lambda unit: is_scalar(int(unit['four'] or unit['six'] or '1', 16)), body)


def standard_stop(mark, on, body):
    """The lone mark. A backslash at the body's end, which hides nothing, stays."""
    end = pattern(units(mark, on)).match(body).end()
    return None if body[end:] in ('', '\\') else end


def spelled_stop(text, on):
    """(its spelling, where in the body reading stops) of a text read as one. A dollar string stops nowhere; without any spelling a text stops at its start."""
    if found := STANDARD.fullmatch(text):
        return found, standard_stop(found['mark'], on, found['body'])
    if found := ESCAPE.fullmatch(text):
        return found, escape_stop(found['body'])
    if found := UNICODE.fullmatch(text):
        return found, unicode_stop(found['escape'] or '\\', found['body'])
    return None, None if DOLLAR.fullmatch(text) else 0


def place_in_one(text, on):
    """One segment, or a text read as one. A raw NUL gives its start, and so does no spelling."""
    if '\0' in text:
        return 0
    found, at = spelled_stop(text, on)
    return at if at is None or not found else size(found['opening'] + found['body'][:at])


def place_in_joined(text, on):
    """The segments from the left: the first refused one counts, its start added; a remainder that is no segment gives its own start."""
    start = 0
    while start < len(text):
        segment = SEGMENT[on].match(text, start)
        inside = place_in_one(segment[0], on) if segment else 0
        if inside is not None:
            return size(text[:start]) + inside
        start = SPACE.match(text, segment.end()).end()
    return None


def place_in(text, on):
    """Joined if what follows the first segment, past white space, begins with a mark; otherwise the whole text is read as one."""
    first = SEGMENT[on].match(text)
    return place_in_joined(text, on) if first and MARK_NEXT.match(text, first.end()) else place_in_one(text, on)


def place(text, setting):
    """where reading a string's text, which is UTF-8, stops; None if it is accepted"""
    return place_in(text.decode(), int(setting))


def token(text):
    """(start, end) of a temporal text's token, None if it has none: to the last quote; if $ precedes any quote only a dollar token is tried"""
    opened = TOKEN.search(text)
    if not opened:
        return None
    if opened[0] != '$':
        return opened.start(), text.rindex("'") + 1
    closed_token = DOLLAR_TOKEN.match(text, opened.start())
    return closed_token and closed_token.span()


def temporal_place(text):
    """The token's start is added; 0 with no token. The setting is off."""
    text = text.decode()
    found = token(text)
    if not found:
        return 0
    inside = place_in(text[slice(*found)], 0)
    return None if inside is None else size(text[:found[0]]) + inside


def place_of(question, setting, text):
    return temporal_place(text) if question == 'temporal' else place(text, setting if question == 'string' else 0)


def placed(request, answer):
    """An answer of the Rust, which knows no places, with its place: request is (question, kind, setting, start, end, source)."""
    question, _, setting, start, end, source = request
    if question not in PLACED or not answer.startswith('r 6'):
        return answer
    due = place_of(question, setting, source[int(start):int(end)])
    assert due is not None, request
    return f'{answer} {due}'


def told(number, value):
    """the place that is told beside a number: none if it is answered, or has no room"""
    return value if number == 6 else None


def rows_held():
    """(name, the place told, the place due) of every row that is read; 1 to 4 are tested before"""
    for _, row in replay.all_rows():
        if row.question in PLACED and row.number in (0, 6, 9):
            yield row.name, told(row.number, row.values[2]), place_of(row.question, row.setting, row.source[row.start:row.end])


def items_held():
    """the same of every item of a block"""
    for call in replay.calls():
        for (_, setting, start, end), (number, _, first, _) in zip(replay.in_fours(call.items), replay.in_fours(call.fours)):
            if number in (0, 6, 9):
                yield f'{call.name}, {start} to {end}', told(number, first), place(call.source[start:end], setting)


def main():
    held = [*rows_held(), *items_held()]
    wrong = [(name, says, due) for name, says, due in held if says != due]
    for name, says, due in wrong:
        print(f'{name}: {says} is told, due is {due}')
    print(f'{len(held)} texts held to their sentences, {sum(due is not None for _, _, due in held)} of them refused at a place, {len(wrong)} different')
    return 1 if wrong else 0


if __name__ == '__main__':
    sys.exit(main())
