"""Texts to ask about, by a seeded generator: each family's grammar with its corners, and damaged copies. All are UTF-8."""

# every end of White_Space's ten ranges, and characters beside them that are none
SPACES = ['\t', '\r', '\n', ' ', '\x0b', '\x0c', '\x85', '\xa0', '\u1680', '\u2000', '\u200a', '\u2028', '\u2029', '\u202f', '\u205f', '\u3000']
NO_SPACES = ['\x08', '\x0e', '\x1c', '\x1f', '\x84', '\xa1', '\u180e', '\u200b', '\u2060', '\u3001', '\ufeff', '\0']
WIDE = ['é', 'ß', '\x80', '\u07ff', '\u0800', '\ud7ff', '\ue000', '\uffff', '\U00010000', '😀', '\U0010ffff', '９', 'ſ', 'K']
PLAIN = list('abcXYZeEnNuU0189fFgGxo_%+-!$&;,.()#|/') + [' ', '\t', '\n', '\x01', '\x7f']
CODES = [0x0, 0x1, 0x27, 0x41, 0x5C, 0x7F, 0x80, 0x7FF, 0x800, 0xD7FF, 0xD800, 0xDBFF, 0xDC00, 0xDFFF, 0xE000, 0xFFFF, 0x10000, 0x1F600, 0x10FFFF, 0x110000]
BYTES = [[0xC3, 0xA9], [0xE2, 0x82, 0xAC], [0xF0, 0x9F, 0x98, 0x80], [0xC0, 0x80], [0xC1, 0xBF], [0xE0, 0x9F, 0xBF], [0xE0, 0xA0, 0x80], [0xED, 0x9F, 0xBF],
         [0xED, 0xA0, 0x80], [0xF0, 0x8F, 0xBF, 0xBF], [0xF0, 0x90, 0x80, 0x80], [0xF4, 0x8F, 0xBF, 0xBF], [0xF4, 0x90, 0x80, 0x80], [0xF5, 0x80, 0x80, 0x80],
         [0x80], [0xC3], [0xE2, 0x82], [0xFF], [0xF0, 0x9F, 0x98], [0xC3, 0x41], [0xC3, 0xC3, 0xA9]]


class Texts:
    def __init__(self, rng):
        self.rng = rng

    def one(self, of):
        return self.rng.choice(of)

    def odds(self, p):
        return self.rng.random() < p

    def many(self, low, high, make):
        return ''.join(make() for _ in range(self.rng.randint(low, high)))

    def case(self, text):
        return ''.join(self.one([c.upper(), c.lower()]) for c in text)

    def hexes(self, value, width):
        return self.case(f'{value:0{width}x}')

    def plain(self):
        if self.odds(0.12):
            return self.one(WIDE)
        return self.one(SPACES) if self.odds(0.06) else self.one(PLAIN)

    def gap(self):
        if self.odds(0.06):
            return self.one(NO_SPACES)
        return self.many(0, 2, lambda: ' ' if self.odds(0.4) else self.one(SPACES))

    # one unit of a standard body with its mark
    def standard_unit(self, mark):
        r = self.rng.random()
        if r < 0.14:
            return mark * 2
        if r < 0.40:
            return '\\' + self.one(list('0bnrtZ%_zNBRTf\'"\\x8') + ['é', '😀', mark, mark * 2, ''])
        if r < 0.48:
            return '\'' if mark == '"' else '"'
        if r < 0.50:
            return '\0'
        if r < 0.525:
            return mark
        return self.plain()

    def standard_body(self, mark, most=6):
        return self.many(0, most, lambda: self.standard_unit(mark))

    def escape_unit(self):
        r = self.rng.random()
        if r < 0.10:
            return '\'\''
        if r < 0.22:
            return '\\' + self.one(list('bfnrtvxXuU\'"\\a89NZ%_') + ['é', '😀', '\u3000', ''])
        if r < 0.36:
            value = self.one([0, 1, 7, 0o12, 0o101, 0o177, 0o303, 0o251, 0o377, 0o400, 0o401, 0o477, 0o777])
            text = f'{value:o}'
            return '\\' + (text if self.odds(0.5) else text.rjust(3, '0')) + self.one(['', '', '0', '8', 'g'])
        if r < 0.48:
            value = self.one([0, 1, 4, 0x41, 0x7f, 0xc3, 0xa9, 0xff])
            return '\\x' + self.hexes(value, self.one([1, 2])) + self.one(['', '', '4', 'g', 'f'])
        if r < 0.60:
            return self.bytewise(self.one(BYTES))
        if r < 0.78:
            width = self.one([4, 8])
            text = self.hexes(self.one(CODES) % 16 ** width, width)
            if self.odds(0.12):
                text = self.one([text[:-1], text[:-1] + 'g', text[:2], ''])
            return '\\' + {4: 'u', 8: 'U'}[width] + text
        if r < 0.80:
            return self.one(['\0', '\\\0'])
        if r < 0.82:
            return '\''
        if r < 0.86:
            return '"'
        return self.plain()

    def bytewise(self, bytes_):
        return ''.join('\\x' + self.hexes(b, 2) if self.odds(0.6) else f'\\{b:03o}' for b in bytes_)

    def escape_body(self, most=4):
        return self.many(0, most, self.escape_unit)

    def unicode_unit(self, mark, escape):
        r = self.rng.random()
        if r < 0.08:
            return mark * 2
        if r < 0.16:
            return escape * 2
        if r < 0.38:
            return escape + self.hexes(self.one([c for c in CODES if c < 0x10000]), 4) + self.one(['', '', '1', 'g'])
        if r < 0.54:
            return escape + '+' + self.hexes(self.one(CODES), 6) + self.one(['', '', '1', 'g'])
        if r < 0.66:
            high, low = self.one([0xD800, 0xD83D, 0xDBFF]), self.one([0xDC00, 0xDE00, 0xDFFF, 0xD800, 0xE000, 0x41])
            between = self.one(['', '', '', '', ' ', escape])
            second = escape + self.one(['', '', '', '', '+00']) + self.hexes(low, 4)
            return escape + self.hexes(high, 4) + between + second
        if r < 0.71:
            return escape + self.one(['', 'x', '004', '+0041', '004g', '+00004', '00', 'n', '+'])
        if r < 0.73:
            return self.one(['\0', '\\', '!'])
        if r < 0.75:
            return mark
        if r < 0.80:
            return '\'' if mark == '"' else '"'
        return self.plain()

    def uescape_argument(self, escape):
        r = self.rng.random()
        if r < 0.86:
            return f'\'{escape}\''
        return self.one([f'"{escape}"', escape, f'\'{escape}', '\'\'', '\'\'\'\'', f'\'{escape}{escape}\'', f'\'{escape}\' ', ''])

    def escape_character(self):
        if self.odds(0.8):
            return self.one(['!', '\\', '_', 'x', 'g', '$', 'é', '😀', '\u200b', '&'])
        return self.one(['a', 'F', '9', '+', '\'', '"', ' ', '\u3000', '\x85', '\0', 'ab', '９'])

    def clause(self, escape):
        word = self.case('uescape') if self.odds(0.92) else self.one(['uescap', 'escape', 'UEſCAPE', 'UESCAPEE', 'UESCAPé'])
        return self.gap() + word + self.gap() + self.uescape_argument(escape)

    def unicode(self, mark='\'', most=4, clause=0.5):
        start = self.one(['U&', 'u&']) + mark
        if self.odds(clause):
            escape = self.escape_character()
            return start + self.many(0, most, lambda: self.unicode_unit(mark, escape)) + mark + self.clause(escape)
        return start + self.many(0, most, lambda: self.unicode_unit(mark, '\\')) + mark + (self.gap() if self.odds(0.15) else '')

    def single(self, most=6):
        return '\'' + self.standard_body('\'', most) + '\''

    def double(self, most=6):
        return '"' + self.standard_body('"', most) + '"'

    def escaped(self, most=4):
        return self.one('Ee') + '\'' + self.escape_body(most) + '\''

    def national(self, most=5):
        return self.one('Nn') + '\'' + self.standard_body('\'', most) + '\''

    def charset(self, most=5):
        mark = self.one('\'\'"')
        name = self.one(['utf8mb4', 'latin1', 'a', '_', '0', 'B_2', 'Utf8', 'binary', 'z9', 'A', 'Z'])
        if self.odds(0.1):
            name = self.one(['', 'é', 'a ', 'a-b', 'a$', 'ａ'])
        return '_' + name + mark + self.standard_body(mark, most) + (mark if self.odds(0.95) else '')

    def dollar(self):
        tag = self.one(['', '', '', 'a', 'A', '_', 'é', 'ab1', 'tag', '\u3000', 'z_9', 'Z'])
        if self.odds(0.1):
            tag = self.one(['1', 'a b', '-', 'a-', '9a'])
        close = tag if self.odds(0.9) else self.one(['a', '', 'A', tag + '1'])
        inner = lambda: self.one(['$', '$$', '$' + tag + '$', '\'', '"', '\\n', '\\', 'x', 'é']) if self.odds(0.4) else self.plain()
        return '$' + tag + '$' + self.many(0, 5, inner) + '$' + close + '$' + self.one([''] * 12 + [' ', 'x'])

    def bit(self, most=6):
        return self.one('BbXx') + '\'' + self.many(0, most, lambda: self.bit_digit()) + '\''

    def bit_digit(self):
        if self.odds(0.05):
            return self.one(['g', 'G', '\'\'', '"', '\\', ' ', '_', '\0', 'é', '２'])
        return self.one('01') if self.odds(0.8) else self.one('23456789abcdefABCDEF')

    def segment(self, first):
        r = self.rng.random()
        if first:
            return self.one([self.single, self.single, self.double, self.escaped, self.national, self.charset, lambda most: self.unicode('\'', most, 0.06)])(3)
        if r < 0.78:
            return self.one([self.single, self.single, self.double])(3)
        return self.one([self.escaped, self.national, self.charset, lambda most: self.unicode('\'', most, 0.06), self.bit,
                         lambda most: self.dollar()])(2)

    def joined(self):
        text = self.segment(True)
        for i in range(self.rng.randint(1, 3)):
            text += self.gap() or self.one(['', ' ', '\n'])
            # a prefix is legal from the third segment on
            text += self.single(3) if i == 0 and self.odds(0.75) else self.segment(False)
        return text + self.one(['', '', '', ' ', '\n', '\u3000', 'x'])

    def damaged(self, text):
        for _ in range(self.one([1, 1, 1, 2])):
            i = self.rng.randint(0, len(text))
            new = self.one(['\'', '"', '\\', '\0', ' ', '$', '_', 'E', 'a', '0', '\u3000', 'é'])
            r = self.rng.random()
            if r < 0.35 and text:
                text = text[:i - 1] + text[i:] if i else text[1:]
            elif r < 0.70:
                text = text[:i] + new + text[i:]
            elif r < 0.90 and text:
                text = text[:i] + new + text[i + 1:]
            else:
                text = text[:i]
        return text

    # numbers
    def digits(self, base, low, high):
        text = ''
        for i in range(self.rng.randint(low, high)):
            if text and self.odds(0.12):
                text += '_'
            text += self.case('0123456789abcdef'[self.rng.randint(0, base - 1)])
        return text

    def edge(self, base, bits):
        value = 2 ** bits + self.one([-2, -1, 0, 1])
        digits = ''
        while value:
            digits = '0123456789abcdef'[value % base] + digits
            value //= base
        if self.odds(0.3):
            digits = self.one(['0', '00']) + digits
        if self.odds(0.3):
            digits = digits[:-3] + '_' + digits[-3:]
        return self.case(digits)

    def sign(self):
        return self.one(['', '', '', '', '-', '-', '+'])

    def number(self, bits):
        base = self.one([10, 10, 16, 16, 8, 2])
        prefix = {10: '', 16: '0x', 8: '0o', 2: '0b'}[base]
        prefix = self.case(prefix)
        second = self.one(['', '', '', '', '-', '+', '--', '_']) if base != 10 else ''
        long = base == 2 and self.odds(0.8)
        body = self.digits(base, 0, 9) if self.odds(0.6) or long else self.edge(base, bits)
        return self.sign() + prefix + second + body

    def decimal(self):
        r = self.rng.random()
        if r < 0.5:
            return self.number(127)
        if r < 0.8:
            return self.sign() + self.digits(10, 0, 6) + self.one(['', '.', '._', '_.']) + self.digits(10, 0, 4) + \
                self.one(['', '', 'e', 'E-', 'e+', '_e']) + self.digits(10, 0, 3)
        return self.many(0, 6, lambda: self.one(list('0123456789abxoXBO_+-.eE ') + ['é', '\0']))

    def bits(self):
        r = self.rng.random()
        if r < 0.55:
            return self.bit()
        text = self.bit()
        for _ in range(self.rng.randint(0, 2)):
            text += self.gap() or self.one([' ', '\n', ''])
            text += '\'' + self.many(0, 3, self.bit_digit) + '\'' if self.odds(0.9) else self.one([self.bit, self.double, self.escaped])(2)
        return text + self.one(['', '', ' ', '\u2028', 'x'])

    def money(self):
        return self.one(['$', '$', '$', '$$', '', ' $', '€']) + self.many(0, 5, lambda: self.one(list('0123456789.,_-$') + [' ', 'é', '\0', '\'']))

    def temporal(self):
        lead = self.one(['', 'DATE ', 'DATE', 'date\n', 'TIME ', 'TIMESTAMP ', 'INTERVAL ', 'INTERVAL(3) ', 'TIMESTAMP WITH TIME ZONE ', '\u3000', 'é', '(', '_', '0', '\0', '"'])
        value = self.one([
            lambda: '\'' + self.one(['2001-02-03', '12:30', '1-2', '90', '\\n', '\'\'', 'x"y', '$$', '']) + '\'',
            lambda: self.single(4), lambda: self.escaped(3), self.joined, self.dollar, lambda: self.one(['$', '$a$', '$1$', '$$']) + self.single(2),
            lambda: self.one(['N', 'U&', '_x', 'B', 'X', 'EE', 'aE', '_e', '1e', ' e', ')E']) + self.single(3), lambda: self.double(3)])()
        return lead + value + self.one(['', '', '', ' DAY', ' YEAR TO MONTH', ' ', '\'', ' $$', ' \'x\'', 'é', '\0'])

    def introduced(self):
        return self.charset(2) if self.odds(0.7) else self.one([self.single, self.national, self.escaped])(2)

    def prefix(self):
        return self.one(['0x', '0X', '0o', '0O', '0b', '0B', '0', '00x', '-0x', '', '1x', '0z', '0_', 'x', '0é', ' 0x']) + self.digits(16, 0, 4)

    def argument(self):
        r = self.rng.random()
        if r < 0.3:
            return '\'' + self.one(SPACES + NO_SPACES + WIDE) + '\''
        if r < 0.6:
            return '\'' + chr(self.rng.randint(0, 0x7f)) + '\''
        return self.uescape_argument(self.escape_character())

    def any(self):
        return self.one([self.single, self.double, self.escaped, self.national, self.charset, self.unicode, self.dollar, self.joined, self.bits,
                         self.money, self.temporal, self.decimal])()
