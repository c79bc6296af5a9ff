#!/usr/bin/env python3
"""The records that the program `litrec` is run on, and the lines that are due.

    tools/records.py            writes crates/litrec/stdin and crates/litrec/stdout
    tools/records.py --check    exits 1 if the two files are not what this script says

Each row of RECORDS is a record of 64 bytes with its line, by document 01: its example, its starred examples, a record for each question and each
thing that makes one bad. The input has them first in this order; then again and again, each time begun one record later, so that it fills more than
two blocks of 256 records and other neighbours meet where a block ends; last a record that is cut short.
"""
import pathlib
import sys

FOLDER = pathlib.Path(__file__).resolve().parent.parent / 'crates' / 'litrec'
PASSES = 25
# question, kind, setting, the text's length if it is not its own, the text and what stands behind it, the line
RECORDS = [
    (1, 4, 0, None, b"'ab' 'c'", '0 w 3 616263'),
    (3, 1, 0, None, b'0x1F', '0 w 2 3331'),
    (2, 4, 0, None, b'', '1 - 0 -'),
    (1, 4, 0, None, b"''", '0 b 0 -'),
    (1, 4, 0, None, b"'' ''", '0 w 0 -'),
    (1, 4, 0, None, b"E'\\xC3\\xA9'", '0 w 2 C3A9'),
    (1, 4, 1, None, b"'a\\'", '0 w 2 615C'),
    (2, 1, 0, None, b'-9223372036854775808', '0 i -9223372036854775808 -'),
    (2, 1, 0, None, b'-0x8000000000000000', '5 - 0 -'),
    (2, 1, 0, None, b'0x-5', '0 i -5 -'),
    (4, 12, 0, None, b"B'01' ", '0 w 2 3031'),
    (5, 14, 0, None, b'$12.50', '0 b 5 31322E3530'),
    (6, 8, 0, None, b'DATE $$a$$b$$', '0 b 1 61'),
    (7, 4, 0, None, b"_utf8mb4'a'", '0 b 7 757466386D6234'),
    (7, 4, 0, None, b"'a'", '0 n 0 -'),
    (1, 4, 0, None, b"\x80'", '3 - 0 -'),
    (1, 4, 0, None, b"'\xff'", '4 - 0 -'),
    (8, 4, 0, None, b"''", '10 - 0 -'),
    (1, 15, 0, None, b"''", '10 - 0 -'),
    (1, 4, 2, None, b"''", '10 - 0 -'),
    (1, 4, 0, 2, b"'a'", '10 - 0 -'),
    (1, 4, 0, None, b'$a$a$', '6 - 0 -'),
    (1, 4, 0, None, b"'" + b'x' * 58 + b"'", '0 b 58 ' + '78' * 58),
]


def record(question, kind, setting, length, text, _):
    return (bytes([question, kind, setting, len(text) if length is None else length]) + text).ljust(64, b'\0')


def made():
    """(stdin, stdout)"""
    rows = [row for first in range(PASSES) for row in RECORDS[first % len(RECORDS):] + RECORDS[:first % len(RECORDS)]]
    assert 2 * 256 < len(rows)
    return b''.join(record(*row) for row in rows) + record(1, 4, 0, None, b"'ab'", '')[:40], ''.join(row[-1] + '\n' for row in rows) + '10 - 0 -\n'


def main():
    files = dict(zip((FOLDER / 'stdin', FOLDER / 'stdout'), (data if isinstance(data, bytes) else data.encode() for data in made())))
    if sys.argv[1:] == ['--check']:
        wrong = [path.name for path, data in files.items() if not path.exists() or path.read_bytes() != data]
        if wrong:
            sys.exit(f'not what tools/records.py says, run it: {", ".join(wrong)} of crates/litrec')
        return
    for path, data in files.items():
        path.write_bytes(data)
    print(f'{len(files[FOLDER / "stdin"])} bytes, {files[FOLDER / "stdout"].count(10)} lines')


if __name__ == '__main__':
    main()
