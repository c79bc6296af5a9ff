#!/usr/bin/env python3
"""Chooses texts with a seed, asks the Rust about them, and writes vectors/oracle.tsv.

    tools/oracle/choose.py [SEED]

Then tools/oracle/tables.py turns the rows into antt. How many rows each stratum has stands in STRATA. Of more texts than are needed
a stratum keeps so many that at most 55 in a hundred are refused. Where a 6 breaks, which the Rust does not say, places.py does. See docs/VECTORS.md for
the columns.
"""
import os
import random
import re
import sys

from oracle import ROOT, ask
from places import placed
from texts import Texts

# question, kinds, rows, texts
STRATA = [
    ('string', [4], 130, lambda t: t.single()),
    ('string', [4], 110, lambda t: t.double()),
    ('string', [4], 190, lambda t: t.escaped()),
    ('string', [4], 70, lambda t: t.national()),
    ('string', [4], 90, lambda t: t.charset()),
    ('string', [4], 120, lambda t: t.unicode('\'', 4, 0)),
    ('string', [4], 120, lambda t: t.unicode('\'', 3, 1)),
    ('string', [4], 90, lambda t: t.dollar()),
    ('string', [4], 240, lambda t: t.joined()),
    ('string', [4], 140, lambda t: t.damaged(t.any())),
    ('plain', [4], 20, lambda t: t.any()),
    ('i64', [1], 110, lambda t: t.number(63)),
    ('i64', [1], 20, lambda t: t.damaged(t.number(63))),
    ('decimal', [1, 2, 3], 110, lambda t: t.decimal()),
    ('decimal', [1, 2, 3], 30, lambda t: t.damaged(t.decimal())),
    ('bits', [12], 65, lambda t: t.bits()),
    ('bits', [13], 65, lambda t: t.bits()),
    ('bits', [12, 13], 25, lambda t: t.damaged(t.bits())),
    ('money', [14], 30, lambda t: t.money()),
    ('temporal', [8, 9, 10, 11], 140, lambda t: t.temporal()),
    ('temporal', [8, 9, 10, 11], 40, lambda t: t.damaged(t.temporal())),
    ('charset', [4], 55, lambda t: t.introduced()),
    ('charset', [4], 15, lambda t: t.damaged(t.introduced())),
    ('source', list(range(1, 15)), 20, lambda t: t.any()),
    ('ident', [0], 55, lambda t: t.unicode('"', 4, 0)),
    ('ident', [0], 55, lambda t: t.unicode('"', 3, 1)),
    ('ident', [0], 25, lambda t: t.damaged(t.unicode('"', 3, 0.4))),
    ('isident', [0], 25, lambda t: t.damaged(t.unicode(t.one('\'"'), 1, 0))),
    ('evalid', [0], 70, lambda t: t.escaped()),
    ('evalid', [0], 25, lambda t: t.damaged(t.one([t.escaped, t.joined])())),
    ('uvalid', [0], 70, lambda t: t.unicode('\'', 3, 0.5)),
    ('uvalid', [0], 25, lambda t: t.damaged(t.one([t.unicode, t.joined])())),
    ('uescape', [0], 65, lambda t: t.argument()),
    ('nul', [0], 20, lambda t: t.damaged(t.any())),
    ('radix', [0], 35, lambda t: t.prefix()),
]
LITERAL = ['string', 'plain', 'decimal', 'bits', 'temporal', 'money', 'source', 'charset', 'i64', 'bool', 'null']
PADDED = ['', '', 'x', '= ', 'é', '\'', '1', '\0', '\u3000', '$$', '\\']


def left_out(text):
    """The family left out of equality: a minus, then a radix value of exactly -2^127."""
    m = re.fullmatch(r'-0([xXoObB])-([0-9a-fA-F_]+)', text)
    if not m:
        return False
    try:
        return int(m[2].replace('_', ''), {'x': 16, 'o': 8, 'b': 2}[m[1].lower()]) == 2 ** 127
    except ValueError:
        return False


def written(answer):
    return [] if answer[2:] == '-' else bytes.fromhex(answer[2:])


def main():
    seed = int(sys.argv[1]) if len(sys.argv) > 1 else 20260
    rng = random.Random(seed)
    texts = Texts(rng)
    rows, seen = [], set()

    def add(requests, most, most_refused):
        answers = ask(requests)
        kept, refused = 0, 0
        for request, answer in zip(requests, answers):
            bad = answer[0] == 'r' or answer == 'no'
            if kept == most or bad and refused == most_refused:
                continue
            kept, refused = kept + 1, refused + bad
            room = '.'
            if answer[0] == 'w':
                room = rng.choice([0, 0, 1, 5, -1]) if written(answer) else rng.choice([0, 2])
            rows.append((*request, room, placed(request, answer)))
        return kept

    for question, kinds, count, make in STRATA:
        requests = []
        for _ in range(40 * count):
            if len(requests) >= 10 * count:
                break
            text = make(texts)
            size = len(text.encode())
            key = (question, text)
            if size > (56 if rng.random() < 0.04 else 22) or key in seen or left_out(text):
                continue
            seen.add(key)
            before, behind = (rng.choice(PADDED), rng.choice(PADDED)) if question in LITERAL and rng.random() < 0.25 else ('', '')
            source, start = (before + text + behind).encode(), len(before.encode())
            settings = [rng.choice([0, 1])] if rng.random() < 0.7 else [0, 1]
            for setting in settings if question == 'string' else [0]:
                requests.append((question, rng.choice(kinds), setting, start, start + size, source))
        kept = add(requests, count, count * 55 // 100)
        assert kept == count, (question, kept, count)

    # wrong kinds, each question with each kind that it refuses; true, false and null; spans
    requests = [(q, k, 0, 0, 2, b'\'\'') for q in LITERAL if q not in ('plain', 'source') for k in range(1, 15)]
    requests = [r for r in requests if r[0] in ('bool', 'null') or r[1] not in dict((s[0], s[1] if s[0] != 'bits' else [12, 13]) for s in STRATA)[r[0]]]
    add(requests, len(requests), len(requests))
    spans = []
    for source in ['', 'a', 'é', '\'a\'', 'aé\'b\'😀', '\u3000']:
        data = source.encode()
        for start in range(len(data) + 2):
            for end in range(len(data) + 2):
                spans.append((rng.choice(['source', 'string', 'charset']), 4, 0, start, end, data))
    rng.shuffle(spans)
    spans = spans[:60] + [('source', 4, 0, 4294967295, 4294967295, b'a'), ('string', 4, 1, 0, 4294967295, b'\'\'')]
    add(spans, len(spans), len(spans))

    path = os.path.join(ROOT, 'vectors', 'oracle.tsv')
    with open(path, 'w') as f:
        f.write(f'# The Rust\'s own answers. Made by tools/oracle/choose.py with seed {seed}; docs/VECTORS.md says how to read a row.\n')
        f.write('# id\tquestion\tkind\tsetting\tstart\tend\tsource\troom\tanswer\n')
        for i, (question, kind, setting, start, end, source, room, answer) in enumerate(rows, 1):
            f.write(f'{i}\t{question}\t{kind}\t{setting}\t{start}\t{end}\t{source.hex().upper() or "-"}\t{room}\t{answer}\n')
    refused = sum(r[-1][0] == 'r' or r[-1] == 'no' for r in rows)
    strings = sum(r[0] in ('string', 'plain') for r in rows)
    print(f'{len(rows)} rows, {strings} of strings, {refused} refused or no')


if __name__ == '__main__':
    main()
