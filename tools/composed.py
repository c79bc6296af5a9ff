#!/usr/bin/env python3
"""Makes host/examples/keys/composed.rs, the tables by which the host's `keys` tells that two keys are one text, composed or decomposed.

    tools/composed.py           writes it, by the Unicode version that this Python knows
    tools/composed.py --check   status 1 if the file is another; where it names another Unicode version, that is said, and nothing is compared
"""
import pathlib
import re
import sys
import unicodedata

TABLES = pathlib.Path(__file__).resolve().parent.parent / 'host/examples/keys/composed.rs'
WIDTH = 120
HEADER = '''\
// Do not edit: made by tools/composed.py. Unicode {version}.

//! Unicode's canonical decompositions, but for Hangul, which is arithmetic, and combining classes.
'''
ONE_STEP = '''
/// A character, and what it is decomposed to in one step: one character, with 0 behind it, or two. Sorted.
#[rustfmt::skip]
pub static ONE_STEP: [(u32, u32, u32); {count}] = [
{rows}
];
'''
CLASSES = '''
/// The first and the last of characters that follow each other, and the combining class of all of them, which is not 0. Sorted.
#[rustfmt::skip]
pub static CLASSES: [(u32, u32, u8); {count}] = [
{rows}
];
'''


def one_step():
    """Each character that is decomposed, with one or two characters. A decomposition that begins with a tag, as <compat>, is none of equals."""
    for number in range(0x110000):
        parts = unicodedata.decomposition(chr(number)).split()
        if parts and not parts[0].startswith('<'):
            yield (number, *(int(part, 16) for part in parts), *([0] * (2 - len(parts))))


def classes():
    """Runs of characters of one combining class."""
    runs = []
    for number in range(0x110000):
        found = unicodedata.combining(chr(number))
        if not found:
            continue
        if runs and runs[-1][1:] == (number - 1, found):
            runs[-1] = (runs[-1][0], number, found)
        else:
            runs.append((number, number, found))
    return runs


def in_lines(entries):
    """As many entries on a line as it holds."""
    lines = ['   ']
    for entry in entries:
        if len(lines[-1]) + 1 + len(entry) > WIDTH:
            lines.append('   ')
        lines[-1] += ' ' + entry
    return '\n'.join(lines)


def text():
    steps = [f'(0x{number:X}, 0x{first:X}, 0x{second:X}),' for number, first, second in one_step()]
    runs = [f'(0x{first:X}, 0x{last:X}, {found}),' for first, last, found in classes()]
    return (HEADER.format(version=unicodedata.unidata_version) + ONE_STEP.format(count=len(steps), rows=in_lines(steps))
            + CLASSES.format(count=len(runs), rows=in_lines(runs)))


def check():
    kept = TABLES.read_text(encoding='ascii')
    named = re.search(r'Unicode ([0-9.]+)\.\n', kept)
    if not named:
        print(f'{TABLES.name} names no Unicode version')
        return 1
    if named[1] != unicodedata.unidata_version:
        print(f'{TABLES.name} is of Unicode {named[1]}, and this Python knows {unicodedata.unidata_version}: not compared')
        return 0
    same = kept == text()
    print(f'{TABLES.name} is what tools/composed.py makes' if same else f'{TABLES.name} differs from what tools/composed.py makes')
    return 0 if same else 1


def main(words):
    if words == ['--check']:
        return check()
    if words:
        print(__doc__, file=sys.stderr)
        return 2
    TABLES.write_text(text(), encoding='ascii')
    return 0


if __name__ == '__main__':
    sys.exit(main(sys.argv[1:]))
