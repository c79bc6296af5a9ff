#!/usr/bin/env python3
"""Whether the rows of blocks.tsv are what request T-03's sentences say, read once more: what each item's text means is the Rust's answer, where it breaks is
places.py's, and the rest follows from the room still left.

    tools/oracle/blocks.py

Each text is asked alone, which the Rust can be where the rest of the source is no UTF-8; where the whole source is UTF-8 the item is asked in it too, and that
answer must be the same. Exits 1 if a row or an answer differs. Where literal.rs is not at hand (see oracle.py) it says so and exits 0.
"""
import os
import sys

sys.dont_write_bytecode = True
sys.path.append(os.path.join(os.path.dirname(os.path.abspath(__file__)), '..'))
import oracle  # noqa: E402
import places  # noqa: E402
import replay  # noqa: E402

STRING = 4  # the kind's code


def is_known(kind, setting):
    """10 for an unknown kind code or a setting other than 0 or 1"""
    return 1 <= kind <= 14 and setting in (0, 1)


def cuts(source, place):
    """a place cuts a character when it is below the source length and its byte is 80 to BF hex"""
    return place < len(source) and 0x80 <= source[place] <= 0xBF


def barred(source, kind, setting, start, end):
    """the number of the first test that an item fails before its text is read, 0 if none: 10 ahead of 1, then 3 and 4"""
    if not is_known(kind, setting):
        return 10
    if kind != STRING:
        return 1
    if start > end or end > len(source) or cuts(source, start) or cuts(source, end):
        return 3
    return 0 if replay.is_utf8(source[start:end]) else 4


def asked_alone(source, item):
    """what the Rust is asked of an item's text alone"""
    _, setting, start, end = item
    return 'string', STRING, setting, 0, end - start, source[start:end]


def asked_in_place(source, item):
    kind, setting, start, end = item
    return 'string', kind, setting, start, end, source


def answers_to(requests):
    """request -> (number, letter, values, bytes) of the Rust's answer, a 6 with its place by request T-04's sentences"""
    requests = sorted(set(requests))
    return {request: replay.due(request[-1], places.placed(request, answer)) for request, answer in zip(requests, oracle.ask(requests))}


class Items:
    """The single question of every item of every row, without a buffer."""

    def __init__(self, calls):
        asked = [(call.source, item) for call in calls for item in replay.in_fours(call.items)]
        self.rust = answers_to([asked_alone(*i) for i in asked if not barred(i[0], *i[1])] + [asked_in_place(*i) for i in asked if self.fits(*i)])
        self.differ = [(source, item) for source, item in asked if self.fits(source, item) and self.in_place(source, item) != self.answer(source, item)]

    @staticmethod
    def fits(source, item):
        """whether the Rust can be asked about an item in its source"""
        return replay.is_utf8(source) and is_known(*item[:2])

    def answer(self, source, item):
        """('r', number, place), ('b', start, length) or ('w', bytes)"""
        number = barred(source, *item)
        return ('r', number, 0) if number else self.shown(self.rust[asked_alone(source, item)], item[2])

    def in_place(self, source, item):
        return self.shown(self.rust[asked_in_place(source, item)], 0)

    @staticmethod
    def shown(answer, moved):
        number, letter, (first, second, place, _), value = answer
        return {'b': ('b', first + moved, second - first), 'w': ('w', value), 'r': ('r', number, place)}[letter]


def is_bad(call):
    """15 first if the input isn't in fours, the answer slice is shorter, or the output buffer is longer than 4,294,967,295 bytes"""
    return len(call.items) % 4 != 0 or call.answers < len(call.items) or call.room > 4_294_967_295


def four_of(answer, used, room):
    """the four of an item's answer where so many bytes of the room are used, and the bytes that it writes"""
    case, *values = answer
    if case == 'b':
        return (0, 1, *values), b''
    if case == 'r':
        number, place = values
        return (number, 0, place, 0), b''
    value, = values
    return ((0, 2, used, len(value)), value) if len(value) <= room - used else ((9, 0, 0, len(value)), b'')


def due(call, items):
    """(number, fours, bytes written): each item gets the answer of a single call with the room still left; a refused item takes no room and stops nothing"""
    if is_bad(call):
        return 15, [], b''
    fours, written = [], b''
    for item in replay.in_fours(call.items):
        four, more = four_of(items.answer(call.source, item), len(written), call.room)
        fours += four
        written += more
    return 0, fours, written


def main():
    if not oracle.at_hand():
        print('literal.rs is not at hand: blocks.tsv is held to nothing')
        return 0
    calls = list(replay.calls())
    items = Items(calls)
    wrong = [(call, due(call, items)) for call in calls if due(call, items) != (call.number, call.fours, call.written)]
    for call, said in wrong:
        print(f'{call.name}: due is {said}')
    for source, item in items.differ:
        print(f'{item} of {source}: the Rust says {items.in_place(source, item)}')
    print(f'{len(calls)} rows of blocks.tsv held to their sentences by {len(items.rust)} answers of the Rust, {len(wrong) + len(items.differ)} different')
    return 1 if wrong or items.differ else 0


if __name__ == '__main__':
    sys.exit(main())
