"""What `keys`, the host's and Rattle's, has to print for a list's rows; tools/lists.py, tools/same_keys and tools/decoded.py have it from here.

A row's answer is its key; 3 or 4, the number that refuses it; or (6, the place where reading stops). What it means at the other setting,
tools/oracle/readings.py says.
"""
import pathlib
import re
import sys

sys.dont_write_bytecode = True
sys.path.append(str(pathlib.Path(__file__).resolve().parent / 'oracle'))
from readings import reading  # noqa: E402

# How many characters, or bytes, of a refused row are shown on each side of its place.
SHOWN = 40
REFUSALS = {3: b'0..%d is no range of whole characters in the source (number 3)', 4: b'the text at 0..%d is not UTF-8 (number 4)'}


def shown(value):
    """A key, or a literal: control characters and the opening mark by their numbers."""
    return re.sub('[\0-\x1f\x7f-\x9f‹]', lambda found: f'‹{ord(found[0]):02X}›', value.decode()).encode()


def shown_bytes(data):
    """What is not UTF-8: all but visible ASCII by its number."""
    return re.sub(rb'[^ -~]', lambda found: '‹%02X›'.encode() % found[0][0], data)


def pointed(before, behind, show):
    """What stands around a place, and a mark under it."""
    left, right = ('…'.encode() if len(part) > SHOWN else b'' for part in (before, behind))
    before, behind = left + show(before[-SHOWN:]), show(behind[:SHOWN]) + right
    return [b' ' * 8 + before + behind, b' ' * (8 + len(before.decode())) + b'^']


def unreadable(text, place):
    """A row that is no readable string."""
    why = b'refused: the text at 0..%d is not a readable string: reading stops at its byte %d (number 6)' % (len(text), place)
    return [why, *pointed(text[:place].decode(), text[place:].decode(), lambda part: shown(part.encode()))]


def broken(text, number):
    """A row that is not UTF-8; the mark stands under the character that is none."""
    try:
        text.decode()
    except UnicodeDecodeError as error:
        return [b'refused: ' + REFUSALS[number] % len(text), *pointed(text[:error.start], text[error.start:], shown_bytes)]
    raise ValueError(f'{text!r} is UTF-8')


def turned(text, answer, backslash):
    """Behind a row that means something else at the other setting: what it means there."""
    key, other = (answer if isinstance(answer, bytes) else None), reading(text, not backslash)
    if key == other:
        return []
    return [b'        with backslash %s: %s' % (b'off' if backslash else b'on', b'refused' if other is None else shown(other))]


def answered(text, answer):
    if isinstance(answer, bytes):
        return [shown(answer) + b'\t' + shown(text)]
    return unreadable(text, answer[1]) if isinstance(answer, tuple) else broken(text, answer)


def row(at, text, answer, backslash):
    """The lines of a row, and whether it depends on the setting."""
    first, *more = answered(text, answer)
    behind = turned(text, answer, backslash)
    return [b'%6d  ' % at + first, *more, *behind], bool(behind)


def doubled(places):
    """The lines of the products that stand in several rows: places has the lines of each key, in the order of their first."""
    return [b'doubled: %s, on lines %s' % (shown(key), b', '.join(b'%d' % at for at in lines)) for key, lines in places.items() if len(lines) > 1]


def counts(keys, places, refused):
    """The last line, as far as `block` prints it too: rows with a key, their places, refused rows."""
    again = [len(lines) for lines in places.values() if len(lines) > 1]
    return b'rows with a key: %d; different products: %d; doubled products: %d, in %d rows; refused rows: %d' % (keys, len(places), len(again), sum(again), refused)


def depending(rows):
    """What `keys` has behind that."""
    return b'; rows that depend on the setting: %d' % rows
