#!/usr/bin/env python3
"""Makes the sample lists host/lists/ward.txt and wholesale.txt, and beside each, in .doubles, which products stand in it twice; and the ward list with its keys as what the crate `keys` is run on.

    tools/lists.py SEED          writes them; the same seed gives the same bytes
    tools/lists.py --check       makes them again by the seed that the ward list names; status 1 if a file differs
    tools/lists.py --keys NAME   what `keys`, the host's and Rattle's, has to print for a list, by the same seed

Each row spells a product that is chosen before it is spelled. So which key each row has, and which rows are doubled, is known here with nothing decoded; only
what a row with a backslash means at the other setting is read, by tools/printed.py.
"""
import pathlib
import sys

sys.dont_write_bytecode = True
import printed  # noqa: E402

ROOT = pathlib.Path(__file__).parent.parent
LISTS, KEYS = ROOT / 'host' / 'lists', ROOT / 'crates' / 'keys'

SUBSTANCES = ('Aciclovir Allopurinol Amlodipine Amoxicillin Atorvastatin Azithromycin Bisoprolol Budesonide Candesartan Cetirizine Ciprofloxacin Citalopram '
              'Clopidogrel Diclofenac Digoxin Doxycycline Enalapril Fluconazole Furosemide Gabapentin Ibuprofen Lamotrigine Loratadine Losartan Metformin '
              'Metoprolol Mirtazapine Montelukast Omeprazole Pantoprazole Paracetamol Prednisolone Pregabalin Quetiapine Ramipril Risperidone Salbutamol '
              'Sertraline Simvastatin Torasemide Tramadol Valsartan Warfarin').split()
FOREIGN = ('Säurehemmer', 'Kühlsalbe', 'Hustenlöser', 'Nasenöl', 'Crème solaire', 'Bétadine', 'Gélules', 'Żel kojący', 'Syrop na kaszel ł', 'Αλοιφή', 'Ασπιρίνη', 'Аспирин',
           'Мазь', '阿莫西林', '布洛芬', 'イブプロフェン', '인슐린', 'Fieber 🌡', 'Pflaster 🩹')
OWNERS = ("Bob's balm", "St John's wort", "Child's syrup", "Nurse's gel", "Hawker's tea", "Miller's salt")
DEVICES = ('Syringe', 'Cannula', 'Needle', 'Catheter')
STRENGTHS = ('5 mg', '10 mg', '20 mg', '25 µg', '40 mg', '50 mg', '75 µg', '100 mg', '200 mg', '250 mg', '400 mg', '500 mg', '1 g', '2%', '0.1%')
FORMS = ('', ' tab', ' caps', ' drops', ' gel', ' supp', ' inj')
PACKS = ('', ' N10', ' N20', ' N50', ' x30', ' x100')
LONG = ('film-coated tablets, pack of', 'prolonged-release capsules, pack of', 'powder for oral suspension, bottle of', 'solution for injection in pre-filled syringes, box of',
        'Retardtabletten für Säuglinge und Kleinkinder, Packung à')
GAPS = (' ', ' ', ' ', '  ', '\t', '\u00a0', '\u3000')


class Chance:
    """Numbers by a seed, the same in every version of Python."""

    def __init__(self, seed):
        self.state = seed

    def below(self, limit):
        self.state = (self.state * 6364136223846793005 + 1442695040888963407) % 2**64
        return (self.state >> 33) % limit

    def of(self, choices):
        return choices[self.below(len(choices))]

    def weighed(self, weights):
        at = self.below(sum(weights.values()))
        for choice, weight in weights.items():
            at -= weight
            if at < 0:
                return choice

    def shuffled(self, items):
        items = list(items)
        for last in range(len(items) - 1, 0, -1):
            other = self.below(last + 1)
            items[last], items[other] = items[other], items[last]
        return items


# Products

def plain_name(chance):
    return chance.of(SUBSTANCES) + ' ' + chance.of([s for s in STRENGTHS if s.isascii()]) + chance.of(FORMS) + chance.of(PACKS)


def foreign_name(chance):
    return chance.of(FOREIGN) + ' ' + chance.of(STRENGTHS) + chance.of(PACKS)


def micro_name(chance):
    return chance.of(SUBSTANCES) + ' ' + chance.of(('25', '50', '75', '88', '100', '112')) + ' µg' + chance.of(FORMS) + chance.of(PACKS)


def owner_name(chance):
    return chance.of(OWNERS) + ' ' + chance.of(STRENGTHS) + chance.of(PACKS)


def device_name(chance):
    """A size with a backslash in it, or a mark for inches."""
    size = f'{1 + chance.below(60)}'
    return chance.of(DEVICES) + ' ' + chance.of((f'{size}\\{1 + chance.below(90)} mm', f'{size}" G{14 + chance.below(16)}')) + chance.of(PACKS)


def long_name(chance):
    return chance.of(SUBSTANCES) + ' and ' + chance.of(SUBSTANCES).lower() + ' ' + chance.of(STRENGTHS) + ' ' + chance.of(LONG) + f' {10 + chance.below(90)}'


NAMES = {plain_name: 72, foreign_name: 10, micro_name: 6, owner_name: 4, device_name: 3, long_name: 5}


def fits(name):
    """Most names of a dump are short; the long ones are those that arrive in parts."""
    return 8 <= len(name.encode()) <= 30 or len(name.encode()) > 50


def products(chance, count):
    found = {}
    while len(found) < count:
        name = chance.weighed(NAMES)(chance)
        if fits(name):
            found[name] = None
    return list(found)


# Spellings with the setting off

def quoted(name, chance):
    return "'" + name.replace("'", "''") + "'"


def marked(name, chance):
    return '"' + name.replace('"', '""') + '"'


def national(name, chance):
    return chance.of('Nn') + quoted(name, chance)


def introduced(name, chance):
    return chance.of(('_utf8mb4', '_utf8')) + quoted(name, chance)


def by_bytes(form):
    return lambda character: ''.join(form.format(byte) for byte in character.encode())


def by_scalar(short, long):
    return lambda character: (short if ord(character) < 0x10000 else long).format(ord(character))


E_ESCAPES = (by_bytes('\\x{:02x}'), by_bytes('\\x{:02X}'), by_bytes('\\{:03o}'), by_scalar('\\u{:04x}', '\\U{:08X}'), by_scalar('\\U{:08x}', '\\U{:08x}'))


def escaped(name, chance):
    """An E string: what must be escaped is, and so are some characters that need not be."""
    def one(character):
        if character == "'":
            return chance.of(("''", "\\'"))
        if character == '\\':
            return '\\\\'
        if chance.below(3 if ord(character) > 127 else 12) == 0:
            return chance.of(E_ESCAPES)(character)
        return character
    return chance.of('Ee') + "'" + ''.join(map(one, name)) + "'"


def halves(character, escape):
    above = ord(character) - 0x10000
    return f'{escape}{0xD800 + (above >> 10):04X}{escape}{0xDC00 + above % 0x400:04X}'


def unicode_body(name, chance, escape):
    def one(character):
        if character == "'":
            return "''"
        if character == escape:
            return escape * 2
        if chance.below(2 if ord(character) > 127 else 12):
            return character
        if ord(character) < 0x10000:
            return chance.of((f'{escape}{ord(character):04x}', f'{escape}{ord(character):04X}', f'{escape}+{ord(character):06x}'))
        return chance.of((halves(character, escape), f'{escape}+{ord(character):06X}'))
    return chance.of('Uu') + "&'" + ''.join(map(one, name)) + "'"


def unicode(name, chance):
    if chance.below(3):
        return unicode_body(name, chance, '\\')
    escape = chance.of('!#^~')
    return unicode_body(name, chance, escape) + chance.of((f" UESCAPE '{escape}'", f"uescape'{escape}'"))


def joinable_unicode(name, chance):
    return unicode_body(name, chance, '\\')


def dollar(name, chance):
    tag = chance.of(('', '', 'p', 'Name', '_1'))
    return f'${tag}${name}${tag}$'


def cut(name, chance):
    """Two to four parts, none of them empty."""
    places = sorted({1 + chance.below(len(name) - 1) for _ in range(1 + chance.below(3))})
    return [name[start:end] for start, end in zip([0] + places, places + [len(name)])]


def joined_by(first, second, later):
    """Parts with white space between. The second has to begin with a mark; from the third on any prefix is taken."""
    def joined(name, chance):
        spell = [first, second] + [later] * 9
        parts = [chance.of(spell[at])(part, chance) for at, part in enumerate(cut(name, chance))]
        text = parts[0]
        for part in parts[1:]:
            text += chance.of(GAPS) + part
        return text + chance.of(('', '', '', ' '))
    return joined


joined = joined_by((quoted, quoted, quoted, escaped, national, joinable_unicode), (quoted, quoted, quoted, marked), (quoted, quoted, escaped, national, joinable_unicode))


# Spellings with the setting on

def backslashed_by(mark):
    def backslashed(name, chance):
        def one(character):
            if character == mark:
                return chance.of((mark * 2, '\\' + mark))
            if character == '\\':
                return '\\\\'
            if character in '\'"':
                return chance.of((character, '\\' + character))
            return character
        return mark + ''.join(map(one, name)) + mark
    return backslashed


backslashed, backslashed_marked = backslashed_by("'"), backslashed_by('"')


def stray(name, chance):
    """A backslash before a character that it does not change."""
    return ''.join('\\' + c if c in '123456789' and chance.below(2) else c for c in backslashed(name, chance))


def backslashed_prefixed(name, chance):
    return chance.of(('_utf8mb4', '_utf8', 'N')) + backslashed(name, chance)


joined_backslashed = joined_by((backslashed, backslashed_prefixed), (backslashed, backslashed_marked), (backslashed, backslashed_marked, backslashed_prefixed))

OFF, ON = {}, {}
OFF['wholesale'] = {quoted: 160, joined: 8, escaped: 10, unicode: 8, dollar: 6, national: 3, introduced: 1, marked: 4}
ON['wholesale'] = {backslashed: 80, joined_backslashed: 6, backslashed_marked: 6, backslashed_prefixed: 5, stray: 3}
OFF['ward'] = {quoted: 10, joined: 4, escaped: 4, unicode: 4, dollar: 2, national: 1, marked: 1}
ON['ward'] = {backslashed: 5, joined_backslashed: 2, backslashed_marked: 2, backslashed_prefixed: 1, stray: 1}

# name: rows, of them with the setting on, doubled products, of them tripled
SIZES = {'ward': (40, 12, 4, 0), 'wholesale': (4000, 1000, 46, 4)}
# One literal that stands at both settings, and means two products.
TWIN = "'Lancet 1\\30 mm'"
TWINS = {False: ('Lancet 1\\30 mm', TWIN), True: ('Lancet 130 mm', TWIN)}


class List:
    """A list's rows, each a product and its spelling: those with the setting off, then those with the setting on."""

    def __init__(self, name, seed):
        self.name, self.seed, self.chance = name, seed, Chance(seed + len(name))
        rows, on, doubled, tripled = SIZES[name]
        chosen = products(self.chance, rows - doubled - tripled - len(TWINS))
        again = self.chance.shuffled(chosen)[:doubled]
        mixed = self.chance.shuffled(chosen + again + again[:tripled])
        self.used = set()
        self.parts = {backslash: [self.spelled(product, backslash) for product in part] + [TWINS[backslash]]
                      for backslash, part in ((False, mixed[on - 1:]), (True, mixed[:on - 1]))}

    def spelled(self, product, backslash):
        """A literal that stands nowhere else in the list; a long name comes in parts."""
        weights = (ON if backslash else OFF)[self.name]
        while True:
            spelling = self.chance.weighed(weights)
            if len(product) > 50:
                spelling = joined_backslashed if backslash else joined
            text = spelling(product, self.chance)
            if text not in self.used:
                self.used.add(text)
                return product, text

    def text(self):
        lines = [f'-- A {self.name} list as dumps have it, one string literal a line. Made by tools/lists.py with seed {self.seed}.', '-- backslash off']
        lines += [text for _, text in self.parts[False]] + ['-- backslash on'] + [text for _, text in self.parts[True]]
        return ''.join(line + '\n' for line in lines)

    def rows(self):
        """Each row's line, counted from 1, its product, its literal and its setting."""
        for backslash, first in ((False, 3), (True, 4 + len(self.parts[False]))):
            for at, (product, text) in enumerate(self.parts[backslash], first):
                yield at, product.encode(), text.encode(), backslash

    def places(self):
        places = {}
        for line, product, _, _ in self.rows():
            places.setdefault(product, []).append(line)
        return places

    def doubles(self):
        places = self.places()
        return printed.doubled(places) + [printed.counts(sum(map(len, places.values())), places, 0)]

    def keys(self):
        rows = [printed.row(line, text, product, backslash) for line, product, text, backslash in self.rows()]
        *doubled, counts = self.doubles()
        return [line for lines, _ in rows for line in lines] + doubled + [counts + printed.depending(sum(depends for _, depends in rows))]

    def files(self):
        text = self.text().encode()
        own = {LISTS / f'{self.name}.txt': text, LISTS / f'{self.name}.doubles': whole(self.doubles())}
        return own | {KEYS / 'stdin': text, KEYS / 'stdout': whole(self.keys())} if self.name == 'ward' else own


def whole(lines):
    return b''.join(line + b'\n' for line in lines)


def seed_said():
    return int((LISTS / 'ward.txt').read_text(encoding='utf-8').split('\n')[0].split()[-1].rstrip('.'))


def main(words):
    if words == ['--check']:
        wrong = [path.name for name in SIZES for path, text in List(name, seed_said()).files().items() if path.read_bytes() != text]
        print(f'differ from what tools/lists.py makes: {" ".join(wrong)}' if wrong else 'the lists are what tools/lists.py makes')
        return 1 if wrong else 0
    if len(words) == 2 and words[0] == '--keys' and words[1] in SIZES:
        sys.stdout.buffer.write(whole(List(words[1], seed_said()).keys()))
        return 0
    if len(words) != 1 or not words[0].isdigit():
        print(__doc__, file=sys.stderr)
        return 2
    for name in SIZES:
        for path, text in List(name, int(words[0])).files().items():
            path.write_bytes(text)
    return 0


if __name__ == '__main__':
    sys.exit(main(sys.argv[1:]))
