#!/usr/bin/env python3
"""Whether the Rust gives what the rows that it has not made state: vectors/manuals.tsv, examples.tsv, parts.tsv, places.tsv and printing.tsv, and the written
texts of forms.tsv and parts.tsv, read back.

    tools/oracle/stated.py

The writers' rows are left out, since the Rust has no writer, texts that are no UTF-8, which no &str holds, literals without a source, and the family of
numbers that document 01 leaves out of equality. The Rust is lent no buffer: each row is asked as if there were room. Where a 6 breaks it does not say: that is
places.py's. Exits 1 if an answer differs. Where literal.rs is not at hand (see oracle.py) it says so and exits 0.
"""
import itertools
import os
import sys

sys.dont_write_bytecode = True
sys.path.append(os.path.join(os.path.dirname(os.path.abspath(__file__)), '..'))
import choose  # noqa: E402
import oracle  # noqa: E402
import places  # noqa: E402
import replay  # noqa: E402


def can_be_asked(row):
    return row.question not in ('writer', 'form') and replay.is_utf8(row.source) and not row.synthetic and not choose.left_out(row.source.decode())


def main():
    if not oracle.at_hand():
        print('literal.rs is not at hand: nothing is asked')
        return 0
    stated = itertools.chain(replay.readable('manuals'), replay.readable('examples'), replay.forms_asked(), replay.parts_asked(), replay.listed('places'),
                             replay.listed('printing'))
    rows = [row for _, row in stated if can_be_asked(row)]
    requests = [(row.question, row.kind, row.setting, row.start, row.end, row.source) for row in rows]
    said = [places.placed(request, answer) for request, answer in zip(requests, oracle.ask(requests))]
    wrong = [(row, answer) for row, answer in zip(rows, said) if replay.due(row.source, answer) != (row.number, row.letter, row.values, row.value)]
    for row, answer in wrong:
        print(f'{row.name}: the Rust says {answer}')
    print(f'{len(rows)} rows of manuals.tsv, examples.tsv, forms.tsv, parts.tsv, places.tsv and printing.tsv asked of the Rust, {len(wrong)} different')
    return 1 if wrong else 0


if __name__ == '__main__':
    sys.exit(main())
