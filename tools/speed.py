#!/usr/bin/env python3
"""Ours beside the Rust original: the figures of docs/PERFORMANCE.md, and docs/speed.svg, their picture.

    tools/speed.py                      times both sides on the machine that this runs on; writes its column and its line of the page, and the picture
    tools/speed.py --print              prints all times and the instructions; page and picture stay as they are
    tools/speed.py --picture            writes the picture from the page, and times nothing
    tools/speed.py --picture --check    exits 1 if the picture is another than the page's

Timing needs cargo, the archive (as tools/archive finds it) and the Rust's source (VALDRABUS_RUST_SRC, see tools/oracle/oracle.py). Times are those of `bench`,
the best of its rounds. What the page has of the other machine stays. Instructions are counted by valgrind's callgrind: a case is run once and eleven times, and
a tenth of the difference is what one run costs, so that start and end of the program do not count. The picture has no other source than the page, so that it
cannot show what the page does not say; GROUPS has the rows of both.
"""
import math
import os
import platform
import re
import subprocess
import sys
import textwrap
from xml.sax.saxutils import escape

ROOT = os.path.dirname(os.path.dirname(os.path.abspath(__file__)))
HOST = os.path.join(ROOT, 'host')
PAGE = os.path.join(ROOT, 'docs', 'PERFORMANCE.md')
PICTURE = os.path.join(ROOT, 'docs', 'speed.svg')
TARGET = os.path.join(ROOT, 'target', 'host')
BENCH = os.path.join(TARGET, 'release', 'bench')
MACHINES = {'x86_64': 'x86-64', 'aarch64': 'Arm'}
BEGIN = '<!-- figures, written by tools/speed.py -->\n'
END = '<!-- figures end -->\n'
NONE = '–'
# the columns of bench's table: times, and their ratios to ours
SIDES = ['ours', 'rust', 'rust-str']
OURS, RATIO, RATIO_STR = 3, 5, 7
# what the names of its cases of bit strings begin with
BITS, PACKED, UNPACKED = 'bit text: ', 'packed bits: ', 'write bits: '
# the same of its table of blocks; where the Rust cannot be compared, there is a dash
BLOCK_SIDES = ['block', 'singles', 'rust']
BLOCK, SINGLES, BLOCK_RUST, BLOCK_RATIO = 3, 4, 6, 7


# What the page's rows are

def several(name, case, *members):
    """A row of several cases, whose members stand behind its colon; `case` has the place of a member in bench's name."""
    return f'{name}: {", ".join(members)}', [case.format(member) for member in members]


def bits(digits):
    return f'{digits}: text, packed, written', [begin + digits for begin in (BITS, PACKED, UNPACKED)]


def written(values):
    return several(values, 'write {}: ' + values, 'plain', 'E', 'U&')


EVERY = ['8', '20', '50', '200']
# group -> rows, each with bench's cases
GROUPS = {
    'Lists': [
        ('ward list: single calls, one block', ['ward list', 'ward list in a block']),
        ('wholesale list: single calls, one block, blocks of 40, plain rows',
         ['wholesale list', 'wholesale list in a block', 'wholesale list in blocks of 40', 'plain rows in a block']),
        several('its rows in one block', '{} items in a block', '1,000', '10,000', '100,000'),
    ],
    'Strings of 64 KiB': [
        several('name', '{} name, 64 KiB', 'plain', 'multi-byte'),
        several('half of it escapes', '{} escapes, 64 KiB', 'E', 'MySQL', 'U&'),
        several('E, one escape in bytes', 'E, one in {} bytes', *EVERY),
        several('MySQL, one escape in bytes', 'MySQL, one in {} bytes', *EVERY),
        several('one doubled mark in bytes', 'doubled marks, one in {} bytes', *EVERY),
    ],
    'Shorter strings': [
        ('name joined from 100 parts', ['name joined from 100 parts']),
        ('refused strings', ['refused strings']),
    ],
    'Numbers': [
        ('radix decimals', ['radix decimals']),
        several('i64', 'i64, {}', 'any length', 'hex'),
        several('i64 of digits', 'i64, digits: {}', '1', '3', '6', '9', '12', '15', '18', '19'),
    ],
    'Dates': [
        ('date literal: text, day, any day, day of a number', ['temporal text', 'date', 'date, any day', 'day of a number']),
    ],
    'Bit strings': [bits('8 binary digits'), bits('32 hex digits'), bits('4096 binary digits, joined'), bits('4096 hex digits, joined')],
    'Written values': [
        written('names'),
        written('ASCII name, 64 KiB'),
        written('multi-byte name, 64 KiB'),
        written('control characters'),
        written('control characters, 64 KiB'),
    ],
}
ROWS = [row for rows in GROUPS.values() for row in rows]


# The page

def split(page):
    """What stands before the figures, they, and what stands behind them, the marks with their own sides."""
    if page.count(BEGIN) != 1 or page.count(END) != 1:
        sys.exit(f'{PAGE} has not just one place for the figures: {BEGIN.strip()} .. {END.strip()}')
    before, rest = page.split(BEGIN)
    part, behind = rest.split(END)
    return before + BEGIN, part, END + behind


def rows(table):
    """The cells of a table's rows, the head left out, up to the first line that is none."""
    lines = table.strip().split('\n\n')[0].splitlines()[2:]
    return [line.strip('| ').split(' | ') for line in lines]


def ratios(part):
    """machine -> case -> ratio. Exits where a row has not a figure for each case; a row that the page has not yet has none."""
    table = {name: cells for name, *cells in rows(part)}
    found = {machine: {} for machine in MACHINES.values()}
    for name, cases in ROWS:
        for known, cell in zip(found.values(), table.get(name, [NONE] * len(found)), strict=True):
            figures = [NONE] * len(cases) if cell == NONE else cell.split(', ')
            if len(figures) != len(cases):
                sys.exit(f'{PAGE}: {name} has {len(cases)} cases and not just as many figures: {cell}')
            known |= {case: figure for case, figure in zip(cases, figures) if figure != NONE}
    return found


def cell(figures):
    return NONE if set(figures) == {NONE} else ', '.join(figures)


def table_of(found):
    text = '| case | ' + ' | '.join(found) + ' |\n|---|' + '---|' * len(found) + '\n'
    for group, rows in GROUPS.items():
        text += f'| **{group}** |' + ' |' * len(found) + '\n'
        for name, cases in rows:
            text += f'| {name} | ' + ' | '.join(cell([known.get(case, NONE) for case in cases]) for known in found.values()) + ' |\n'
    return text


def lines(part):
    """machine -> what its line says, unwrapped"""
    return {machine: ' '.join(text.split()) for machine, text in re.findall(r'^- \*\*(.+?)\*\*: (.*(?:\n  .*)*)', part, re.M)}


def line_of(machine, text):
    return textwrap.fill(f'- **{machine}**: {text}', 120, subsequent_indent='  ', break_long_words=False, break_on_hyphens=False) + '\n'


def part_of(found, said):
    return '\n' + table_of(found) + '\n' + ''.join(line_of(machine, said[machine]) for machine in MACHINES.values() if machine in said) + '\n'


def read(path):
    try:
        with open(path) as f:
            return f.read()
    except FileNotFoundError:
        return ''


def write(path, text):
    with open(path, 'w') as f:
        f.write(text)


# The figures

def output(*command):
    return subprocess.run(command, check=True, capture_output=True, text=True, cwd=HOST).stdout


def instructions(case, times, side):
    command = ['valgrind', '--tool=callgrind', '--callgrind-out-file=/dev/null', BENCH, '--count', case, str(times), side]
    run = subprocess.run(command, check=True, capture_output=True, text=True)
    return int(re.search(r'Collected : (\d+)', run.stderr)[1])


def counted(case, literals, sides):
    return [(instructions(case, 11, side) - instructions(case, 1, side)) / 10 / literals for side in sides]


def beside(first, others):
    """The cells of a row: the first side's count, and each other's with its ratio to the first."""
    return ' | '.join([f'{first:,.0f}'] + [f'{other:,.0f} | {other / first:.2f}' for other in others])


def facts(text):
    return {name.strip(): value.strip() for name, value in (line.split(':', 1) for line in text.splitlines() if ':' in line)}


def model():
    """What processor this is. On Arm /proc/cpuinfo has its numbers alone."""
    if platform.machine() == 'x86_64':
        known = facts(read('/proc/cpuinfo'))
        return f'{known["model name"]} (family {known["cpu family"]}, model {known["model"]}), {os.cpu_count()} cores'
    known = facts(output('env', 'LC_ALL=C', 'lscpu'))
    return f'{known["Vendor ID"]} {known["Model name"]} ({known["Architecture"]}), {os.cpu_count()} cores'


def conditions():
    return f'{model()}, {" ".join(output("rustc", "--version").split()[:2])}'


def measured(table, blocks):
    """case -> the Rust's time, with from_utf8, divided by ours"""
    found = {row[0]: row[RATIO] for row in table} | {row[0]: row[BLOCK_RATIO] for row in blocks if row[BLOCK_RATIO] != NONE}
    if unknown := found.keys() - {case for _, cases in ROWS for case in cases}:
        sys.exit(f'GROUPS does not know {", ".join(sorted(unknown))}')
    return found


def behind_str(table):
    """In how many cases the Rust takes less if it has a str already, and the two where by most."""
    found = sorted((float(row[RATIO_STR]), row[0]) for row in table if float(row[RATIO_STR]) < 1)
    least = '; '.join(f'{name} ({ratio:.2f})' for ratio, name in found[:2])
    return f'Where the Rust has a `str` already, {len(found)} of {len(table)} cases are below 1' + (f', least {least}.' if found else '.')


def of_dates(times):
    return f'A date takes {times["date"] / times["temporal text"]:.2f} times what its text takes.'


def of_bits(times):
    names = [name.removeprefix(PACKED) for name in times if name.startswith(PACKED)]
    taken = ', '.join(f'{times[PACKED + name] / times[BITS + name]:.2f}' for name in names)
    return f'Packing takes {taken} times what the digits take, row by row.'


def of_blocks(blocks):
    taken = [(float(row[BLOCK]) / float(row[SINGLES]), row[0]) for row in blocks]
    (least, quickest), (most, _) = min(taken), max(taken)
    return f'A block takes {least:.2f} ({quickest}) to {most:.2f} times what single calls take.'


def told(table, blocks):
    """What a machine's line says behind its conditions: of the Rust without from_utf8, and of ours beside ours."""
    times = {row[0]: float(row[OURS]) for row in table}
    said = [behind_str(table)]
    said += [of_dates(times)] if 'date' in times else []
    said += [of_bits(times)] if any(name.startswith(PACKED) for name in times) else []
    return ' '.join(said + [of_blocks(blocks)])


def in_instructions(table, sides, at):
    """The same cases in instructions; `at` is the column that has a dash where the last side cannot be asked."""
    head = ['case', sides[0]] + [cell for side in sides[1:] for cell in (side, 'ratio')]
    text = '\nInstructions:\n\n| ' + ' | '.join(head) + ' |\n' + '|---' * len(head) + '|\n'
    for row in table:
        compared = row[at] != NONE
        first, *others = counted(row[0], int(row[1]), sides if compared else sides[:-1])
        text += f'| {row[0]} | {beside(first, others)} |' + ('\n' if compared else f' {NONE} | {NONE} |\n')
    return text


def printed(times, blocks):
    text = f'{conditions()}\n\nNanoseconds for one literal:\n\n{times}' + in_instructions(rows(times), SIDES, OURS)
    return text + f'\nNanoseconds for one item of a block:\n\n{blocks}' + in_instructions(rows(blocks), BLOCK_SIDES, BLOCK_RUST)


def build():
    archive = subprocess.run([os.path.join(ROOT, 'tools', 'archive')], check=True, stdout=subprocess.PIPE, text=True).stdout.strip()
    known = os.environ | {'CARGO_TARGET_DIR': TARGET, 'VALDRABUS_ARCHIVE': archive}
    subprocess.run(['cargo', 'build', '--quiet', '--release', '-p', 'bench'], check=True, cwd=HOST, env=known)
    if not output(BENCH, '--cases').startswith('ward'):
        sys.exit('the Rust original is not at hand: nothing is timed')


def with_column(page, machine, found, said):
    """The page with one machine's figures and line anew."""
    before, part, behind = split(page)
    return before + part_of(ratios(part) | {machine: found}, lines(part) | {machine: said}) + behind


# The picture: two columns of bars to both sides of the line at 1, on a scale of doublings. It has a background of its own, so that it reads on any page.

TITLE = 'The Rust original\'s time divided by ours'
WIDTH, MARGIN, COLUMN = 960, 20, 448
TOP, ROW, HEADING = 78, 13, 25
# within a column: where names end, the scale begins and ends, and the two machines' figures end
NAMES, LOW_AT, HIGH_AT, FIGURES = 200, 208, 368, [406, 446]
LOW, HIGH, TICKS = 0.25, 24, [0.5, 1, 2, 4, 8, 16]
STYLE = '''
text { font: 11px sans-serif; fill: #1f2328 }
.title { font-size: 16px; font-weight: bold }
.group { font-size: 12px; font-weight: bold }
.quiet { fill: #59636e }
.small { font-size: 10px; fill: #59636e }
.end { text-anchor: end }
.middle { text-anchor: middle }
.card { fill: #ffffff; stroke: #d1d9e0 }
.tick { stroke: #e4e8ec }
.one { stroke: #1f2328 }
.less { fill: #3b7dc4 }
.more, .slow { fill: #c8561a }
.arm { fill: #1f2328; stroke: #ffffff }
@media (prefers-color-scheme: dark) {
text { fill: #e6edf3 }
.quiet, .small { fill: #9da7b3 }
.card { fill: #0d1117; stroke: #3d444d }
.tick { stroke: #262c36 }
.one { stroke: #e6edf3 }
.less { fill: #4d94e0 }
.more, .slow { fill: #f0883e }
.arm { fill: #e6edf3; stroke: #0d1117 }
}
'''


def place(ratio):
    """Where a ratio stands on a column's scale; one beyond its ends stands at the end."""
    share = math.log2(min(max(ratio, LOW), HIGH) / LOW) / math.log2(HIGH / LOW)
    return LOW_AT + share * (HIGH_AT - LOW_AT)


def text_at(x, y, text, names=''):
    return f'<text x="{x:.1f}" y="{y:.1f}"' + (f' class="{names}"' if names else '') + f'>{escape(text)}</text>\n'


def line_at(x, top, bottom, name):
    return f'<line x1="{x:.1f}" y1="{top:.1f}" x2="{x:.1f}" y2="{bottom:.1f}" class="{name}"/>\n'


def bar(x, y, ratio):
    ends = sorted((x + place(1), x + place(ratio)))
    return f'<rect x="{ends[0]:.1f}" y="{y - 8:.1f}" width="{max(ends[1] - ends[0], 0.8):.1f}" height="8" class="{"less" if ratio >= 1 else "more"}"/>\n'


def dot(x, y, ratio):
    return f'<circle cx="{x + place(ratio):.1f}" cy="{y - 4:.1f}" r="3" class="arm"/>\n'


def figure_at(x, y, figure):
    name = ' quiet' if figure == NONE else ' slow' if float(figure) < 1 else ''
    return text_at(x, y, figure, 'end' + name)


def drawn_case(x, y, figures):
    """A case's bar and dot, and both figures at its end."""
    first, second = figures
    text = bar(x, y, float(first)) if first != NONE else ''
    text += dot(x, y, float(second)) if second != NONE else ''
    return text + ''.join(figure_at(x + at, y, figure) for at, figure in zip(FIGURES, figures))


def drawn_row(x, y, name, cases, found):
    """A row's name, and below each other its cases."""
    family, _, members = name.partition(': ')
    text = text_at(x, y, family)
    for at, (case, member) in enumerate(zip(cases, members.split(', '))):
        below = y + at * ROW
        text += text_at(x + NAMES, below, member, 'end quiet') if member else ''
        text += drawn_case(x, below, [known.get(case, NONE) for known in found.values()])
    return text


def height(groups):
    return sum(HEADING + ROW * sum(len(cases) for _, cases in GROUPS[group]) for group in groups)


def halves():
    """The groups of both columns, in their order, so that the longer column is as short as it can be."""
    names = list(GROUPS)
    return min(((names[:at], names[at:]) for at in range(1, len(names))), key=lambda both: max(map(height, both)))


def drawn_scale(x, bottom):
    text = ''
    for tick in TICKS:
        text += line_at(x + place(tick), TOP + 6, bottom, 'one' if tick == 1 else 'tick')
        text += text_at(x + place(tick), TOP, f'{tick:g}', 'small middle')
    return text + ''.join(text_at(x + at, TOP, machine, 'small end') for at, machine in zip(FIGURES, MACHINES.values()))


def drawn_column(x, groups, found):
    text, y = drawn_scale(x, TOP + height(groups) + 6), TOP
    for group in groups:
        y += HEADING
        text += text_at(x, y - 4, group, 'group')
        for name, cases in GROUPS[group]:
            text += drawn_row(x, y + ROW - 3, name, cases, found)
            y += ROW * len(cases)
    return text


def legend(x, y):
    """What a bar and a dot are."""
    text = f'<rect x="{x}" y="{y - 8}" width="20" height="8" class="less"/>\n' + text_at(x + 27, y, 'x86-64, ours takes less time')
    text += f'<rect x="{x}" y="{y + 8}" width="20" height="8" class="more"/>\n' + text_at(x + 27, y + 16, 'x86-64, ours takes more')
    return text + f'<circle cx="{x + 10}" cy="{y + 28}" r="3" class="arm"/>\n' + text_at(x + 27, y + 32, 'Arm')


def caption(said):
    """The machines, as the first sentence of each line of the page has them, and what holds of both."""
    machines = [f'{machine}: {text.split(". ")[0].rstrip(".")}.' for machine, text in said.items()]
    both = ('One process, release builds, best of 40 rounds. The Rust begins with from_utf8, since ours has bytes and tests them. '
            'Written values, packed bits and days stand beside plain Rust of the bench. A dash: not timed there.')
    return [wrapped for line in machines + [both] for wrapped in textwrap.wrap(line, 84)]


def frame(bottom):
    """The picture's head: its size, what it is called, and the background."""
    text = f'<svg xmlns="http://www.w3.org/2000/svg" viewBox="0 0 {WIDTH} {bottom}" width="{WIDTH}" height="{bottom}" role="img">\n'
    text += f'<title>{TITLE}, case by case</title>\n<style>{STYLE}</style>\n'
    text += f'<rect x="0.5" y="0.5" width="{WIDTH - 1}" height="{bottom - 1}" rx="6" class="card"/>\n' + text_at(MARGIN, 30, TITLE, 'title')
    return text + text_at(MARGIN, 48, 'Right of the line at 1 ours takes less time, left of it more. The scale goes by doublings.', 'quiet')


def picture(part):
    """Legend and caption stand below the second column, which is the shorter one."""
    found, both, under = ratios(part), halves(), caption(lines(part))
    left, right = MARGIN, WIDTH - MARGIN - COLUMN
    legend_at = TOP + height(both[1]) + 34
    caption_at = legend_at + 54
    bottom = max(TOP + height(both[0]) + 6, caption_at + 14 * (len(under) - 1)) + MARGIN
    text = frame(bottom) + drawn_column(left, both[0], found) + drawn_column(right, both[1], found) + legend(right, legend_at)
    return text + ''.join(text_at(right, caption_at + 14 * at, line, 'small') for at, line in enumerate(under)) + '</svg>\n'


def draw(check):
    part = split(read(PAGE))[1]
    if not part.startswith('\n' + table_of(ratios(part))):
        sys.exit('the table of docs/PERFORMANCE has other rows than GROUPS, or is written otherwise')
    made = picture(part)
    if not check:
        write(PICTURE, made)
    elif read(PICTURE) != made:
        sys.exit('docs/speed.svg is not the picture of docs/PERFORMANCE: tools/speed.py --picture writes it')
    else:
        print(f'speed: the picture has {sum(len(cases) for _, cases in ROWS)} cases, as docs/PERFORMANCE says')


# The command line

def time_all(printing):
    machine = MACHINES.get(platform.machine()) or sys.exit(f'neither {" nor ".join(MACHINES)}: nothing is timed')
    build()
    times, blocks = output(BENCH), output(BENCH, '--blocks')
    if printing:
        return print(printed(times, blocks))
    table, in_blocks = rows(times), rows(blocks)
    write(PAGE, with_column(read(PAGE), machine, measured(table, in_blocks), f'{conditions()}. {told(table, in_blocks)}'))
    draw(check=False)


def main():
    words = sys.argv[1:]
    if words in ([], ['--print']):
        time_all(printing=bool(words))
    elif words in (['--picture'], ['--picture', '--check']):
        draw(check='--check' in words)
    else:
        sys.exit(__doc__)


if __name__ == '__main__':
    main()
