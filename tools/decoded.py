#!/usr/bin/env python3
"""Makes a list of the vectors' strings, at both settings, has Rattle's compiled program `keys` decode it, and compares each line with the row's answer; where
that is a refusal, also the place where reading stops, and the mark that points it out; and what it says of the other setting.

    tools/decoded.py [HOST]

The list is target/lists/vectors.txt. A row of the vectors is in it where its literal's text can be a line of a list, and means there what it means in its
source: a text that is refused by its place in a larger source is left out, and so is one that is refused for want of room. HOST is the host's own `keys`:
where it is given, it must print the same for the list, byte for byte, but for keys that look alike. Status 1 if a row differs, or none is asked.
"""
import collections
import pathlib
import subprocess
import sys

sys.dont_write_bytecode = True
import printed  # noqa: E402

ROOT = pathlib.Path(__file__).resolve().parent.parent
LIST = ROOT / 'target/lists/vectors.txt'
# What is asked of a row of the vectors: its text and setting, and its answer.
Asked = collections.namedtuple('Asked', 'identity text setting answer')
# Lines of a list end with LF or CR; in a line these alone are blanks.
ENDS, BLANKS = (b'\n', b'\r'), b' \t\f'


def vectors():
    for name in ('oracle', 'clarified', 'places'):
        for line in (ROOT / f'vectors/{name}.tsv').read_text().splitlines():
            if not line.startswith('#'):
                yield line.split('\t')


def answer_of(answer, source):
    """A row's key, or why it has none, as tools/printed.py takes it."""
    case, *values = answer.split()
    if case == 'r':
        return (6, int(values[3])) if values[0] == '6' else int(values[0])
    if case == 'b':
        return source[int(values[0]):int(values[1])]
    return b'' if values[0] == '-' else bytes.fromhex(values[0])


def is_row(text):
    """Whether a text can be a line, and is a row then: no blanks alone, no comment, no setting."""
    return text.strip(BLANKS) and not any(end in text for end in ENDS) and not text.lstrip(BLANKS).startswith(b'--')


def asked():
    for identity, question, kind, setting, start, end, source, _, answer, *_ in vectors():
        if (question, kind) != ('string', '4') or source == '-' or answer.startswith('r 9'):
            continue
        source, start, end = bytes.fromhex(source), int(start), int(end)
        # By 3 a text can be refused for what stands around it, or for not being there.
        if is_row(source[start:end]) and (not answer.startswith('r 3') or (start, end) == (0, len(source))):
            text = source[start:end]
            yield Asked(identity, text, setting, answer_of(answer, source))


def lines(rows):
    """The list's lines, each with its row; a setting has none."""
    for setting, name in (('0', b'off'), ('1', b'on')):
        yield b'-- backslash ' + name, None
        yield from ((row.text, row) for row in rows if row.setting == setting)


def linked():
    """Rattle's `keys`, with its words and its status. What is said while it is made is not the program's."""
    return subprocess.run([ROOT / 'tools/program', 'keys'], check=True, stdout=subprocess.PIPE, text=True).stdout.strip()


def keys(command):
    with LIST.open('rb') as list_:
        return subprocess.run([command], stdin=list_, capture_output=True)


def without_alike(out):
    """What the host's prints, but for the lines on keys that look alike: Rattle's has none."""
    return b''.join(line for line in out.splitlines(True) if not line.startswith(b'look alike: '))


def status_due(rows):
    """3 where a key stands in several rows, else 1 where one is refused."""
    found = [row.answer for row in rows if isinstance(row.answer, bytes)]
    return 3 if len(set(found)) < len(found) else int(len(found) < len(rows))


def main(host=None):
    if host and not pathlib.Path(host).is_file():
        sys.exit(f'there is no {host}: the host\'s keys cannot be run')
    rows = list(asked())
    listed = list(lines(rows))
    LIST.parent.mkdir(parents=True, exist_ok=True)
    LIST.write_bytes(b''.join(text + b'\n' for text, _ in listed))
    run = keys(linked())
    if run.returncode != status_due(rows) or run.stderr:
        sys.exit(f'keys ended with status {run.returncode}: {run.stderr.decode()}')
    said = iter(run.stdout.split(b'\n'))
    different = depending = 0
    for at, (text, row) in enumerate(listed, 1):
        if row:
            due, depends = printed.row(at, text, row.answer, row.setting == '1')
            # As many lines as are due: what is shown holds no line feed.
            line = [next(said, b'') for _ in due]
            depending += depends
            if line != due:
                different += 1
                print(f'{row.identity}: {text!r}: {due!r} is due, keys printed {line!r}')
    print(f'{len(rows)} rows asked, {depending} of them depend on the setting, {different} different')
    same = not host or without_alike(keys(pathlib.Path(host).resolve()).stdout) == run.stdout
    if host:
        print('the host\'s keys prints the same' if same else 'the host\'s keys prints something else')
    return 0 if rows and not different and same else 1


if __name__ == '__main__':
    sys.exit(main(*sys.argv[1:2]))
