"""Random valid trees of Extended JSON v2, in either form or mixed, and their JSON text.

A node is Raw (a number, boolean or null, as it is written), a str (a text's characters), a list of nodes, or an
Object: a list of [key, node], in the order in which they are written.
"""
import base64
import re

import doubles
from grammar import DOUBLES, TAKEN


class Raw(str):
    """What is written unchanged."""


class Object(list):
    """The pairs of an object."""


CHARACTERS = tuple(
    'abcxyzABZ0159 .,:;-+/\\"\'{}[]$é❤ßΩ中\u2028\ufeff\ud7ff\ue000\uffff😀\U0010ffff\0\x01\x1f\x7f\b\f\n\r\t')
KEYS = ('a', 'b', 'c', 'aa', 'ab', 'a\0', '', ' ', 'z', 'é', '❤', '\uffff', '😀', '$', '$a', '$scope', '$ref',
        '$id', '$regex', '$options', '$type', '$OID', '$oid ', 'oid', 'base64', 'subType', 't', 'i', 'pattern',
        'options', '"', '\\', '\n', 'x' * 40)
WRAPPER_TEXTS = ('$oid', '$date', '$numberLong', '1', '00', '1970-01-01T00:00:00Z', 'null', 'true', '{}')
BORDERS = tuple(base + near for base in (0, 2**31, -2**31, 2**32, 2**53, 10**15, 2**63 - 2, -2**63 + 1)
                for near in (-1, 0, 1))
# Milliseconds near the borders of years, of the epoch and of i64.
DATES = tuple(base + near for base in (
    0, -62167219200000, -377705116800000, 253402300800000, 951782400000, 951868800000, 4107542400000, -2208988800000,
    1709164800000, 1704067200000, 2**63 - 3, -2**63 + 2) for near in (-2, -1, 0, 1, 2))
YEARS = (0, 1, 4, 99, 100, 400, 1582, 1600, 1700, 1900, 1969, 1970, 1971, 1972, 2000, 2001, 2023, 2024, 2038,
         2100, 9998, 9999)
MONTH_DAYS = (31, 28, 31, 30, 31, 30, 31, 31, 30, 31, 30, 31)
HEXADECIMAL = '0123456789abcdefABCDEF'
ESCAPED = re.compile(r'["\\\x00-\x1f]')
SHORT_ESCAPES = {'"': '"', '\\': '\\', '/': '/', '\b': 'b', '\f': 'f', '\n': 'n', '\r': 'r', '\t': 't'}


class Generator:
    """Makes valid nodes from a source of random numbers."""

    def __init__(self, random):
        self.random = random.random

    def below(self, count):
        """A number from 0 to count - 1."""
        return int(self.random() * count)

    def one_of(self, choices):
        return choices[self.below(len(choices))]

    def chance(self, share):
        return self.random() < share

    def node(self, room):
        """A valid node, which holds fewer nodes the less room there is."""
        if room > 1 and self.chance(0.55):
            return self.one_of((self.array, self.document, self.document, self.code))(room)
        return self.one_of(SCALARS)(self)

    def array(self, room):
        count = self.below(min(room, 5) + 1)
        return [self.node(room // max(count, 1) - 1) for _ in range(count)]

    def document(self, room):
        """A document; some have more than sixteen keys, where its index begins."""
        many = self.chance(0.08)
        count = 13 + self.below(8) if many else self.below(min(room, 5) + 1)
        keys = {}
        while len(keys) < count:
            keys[self.key()] = None
        return Object([key, self.node(1 if many else room // count - 1)] for key in keys)

    def key(self):
        """A key that is no wrapper key."""
        return self.one_of(KEYS) if self.chance(0.6) else 'k' + self.characters(3)

    def code(self, room=0):
        """Code, and its scope, whose own keys are free."""
        pairs = [['$code', self.text()]]
        if room:
            scope = self.document(room - 1) if self.chance(0.9) else Raw('null')
            if type(scope) is Object and self.chance(0.3):
                scope.append([self.one_of(('$oid', '$date', '$code', '$uuid', '$undefined')), self.node(1)])
            pairs.append(['$scope', scope])
        return self.shuffled(pairs)

    def shuffled(self, pairs):
        if len(pairs) > 1 and self.chance(0.5):
            pairs.reverse()
        return Object(pairs)

    def characters(self, most):
        return ''.join([self.one_of(CHARACTERS) for _ in range(self.below(most + 1))])

    def text(self):
        return self.one_of(WRAPPER_TEXTS) if self.chance(0.1) else self.characters(6)

    def digits(self, count, base='0123456789'):
        return ''.join([self.one_of(base) for _ in range(count)])

    def whole(self, bits):
        """A number of so many bits with its sign, often at a border."""
        if self.chance(0.4):
            border = self.one_of(BORDERS)
            if -2**(bits - 1) <= border < 2**(bits - 1):
                return border
        size = self.below(bits)
        number = int(self.random() * 2**size)
        return -number if self.chance(0.4) else number

    def int_text(self, bits):
        number = self.whole(bits)
        sign = '-' if number < 0 else '+' if self.chance(0.15) else ''
        zeros = '0' * self.below(30) if self.chance(0.1) else ''
        return sign + zeros + str(abs(number))

    def number(self):
        if 'doubles' in TAKEN and self.chance(0.5):
            return Raw(self.decimal_number())
        return Raw(self.whole(32 if self.chance(0.5) else 64))

    def word(self):
        return Raw(self.one_of(('null', 'true', 'false')))

    def int32(self):
        return Object([['$numberInt', self.int_text(32)]])

    def int64(self):
        return Object([['$numberLong', self.int_text(64)]])

    def decimal_number(self):
        """A JSON number with a point or an exponent, or -0, which is a finite double's text in some spelling."""
        kind = self.below(6)
        if kind < 2:
            return doubles.text_of(self.finite_pattern())
        if kind == 2:
            return f'{self.whole(40)}.{self.digits(1 + self.below(20))}'
        if kind == 3:
            return f'{self.whole(64)}{self.one_of("eE")}{self.below(280) - 320}'
        if kind == 4:
            return f'{self.one_of(("", "-"))}{1 + self.below(9)}{self.digits(19 + self.below(200))}'
        return self.one_of(('-0', '0.0', '-0.0', '1.0', '0e5', '-0e-9', '5e-324', '2.4703282292062327e-324',
                            '1.7976931348623157e308', '9223372036854775808', '-9223372036854775809', '1e22', '1e23'))

    def finite_pattern(self):
        if self.chance(0.5):
            return doubles.pattern_of(round(self.random() * 10**self.below(9), self.below(7)) * self.one_of((1, -1)))
        return self.below(doubles.INFINITY) + self.below(2) * doubles.SIGN

    def double(self):
        if 'doubles' in TAKEN and self.chance(0.7):
            written = self.decimal_number()
            return Object([['$numberDouble', ('+' if written[0] != '-' and self.chance(0.1) else '') + written]])
        return Object([['$numberDouble', self.one_of(tuple(sorted(DOUBLES)))]])

    def constant(self):
        key, written = self.one_of((('$minKey', '1'), ('$maxKey', '1'), ('$undefined', 'true')))
        return Object([[key, Raw(written)]])

    def symbol(self):
        return Object([['$symbol', self.text()]])

    def regular_expression(self):
        options = self.characters(4) if self.chance(0.3) else self.digits(self.below(6), 'imxlsu')
        return Object([['$regularExpression', self.shuffled([['pattern', self.text()], ['options', options]])]])

    def timestamp(self):
        parts = [['t', self.u32()], ['i', self.u32()]]
        return Object([['$timestamp', self.shuffled(parts)]])

    def u32(self):
        return Raw(self.one_of((0, 1, 2**31 - 1, 2**31, 2**32 - 1, int(self.random() * 2**32))))

    def object_id(self):
        return Object([['$oid', self.digits(24, HEXADECIMAL)]])

    def db_pointer(self):
        return Object([['$dbPointer', self.shuffled([['$ref', self.text()], ['$id', self.object_id()]])]])

    def binary(self):
        size = self.below(8) if self.chance(0.9) else self.below(100)
        data = bytes(self.below(256) for _ in range(size))
        subtype = '0' + self.digits(1) if self.chance(0.5) else self.digits(2, HEXADECIMAL)
        parts = [['base64', base64.b64encode(data).decode()], ['subType', subtype]]
        return Object([['$binary', self.shuffled(parts)]])

    def uuid(self):
        groups = (self.digits(size, HEXADECIMAL) for size in (8, 4, 4, 4, 12))
        return Object([['$uuid', '-'.join(groups)]])

    def date(self):
        """A date as a number, as an int text and as a text of RFC 3339."""
        if self.chance(0.5):
            return Object([['$date', self.rfc3339()]])
        number = str(self.one_of(DATES) if self.chance(0.5) else self.whole(self.one_of((45, 49, 64))))
        return Object([['$date', Raw(number) if self.chance(0.4) else Object([['$numberLong', number]])]])

    def rfc3339(self):
        year = self.one_of(YEARS) if self.chance(0.6) else self.below(10000)
        month = self.below(12)
        days = MONTH_DAYS[month]
        if month == 1 and year % 4 == 0 and (year % 100 != 0 or year % 400 == 0):
            days = 29
        day = self.one_of((1, days, 1 + self.below(days)))
        hour, minute, second = (self.one_of((0, last, self.below(last + 1))) for last in (23, 59, 59))
        fraction = ''
        if self.chance(0.5):
            fraction = '.' + self.digits(self.below(4), '09') + self.digits(1 + self.below(9))
        zone = self.one_of(('Z', 'z', '-00:00', f'{self.one_of("+-")}{self.below(24):02}:{self.below(60):02}'))
        separator = 't' if self.chance(0.1) else 'T'
        return f'{year:04}-{month + 1:02}-{day:02}{separator}{hour:02}:{minute:02}:{second:02}{fraction}{zone}'

    def decimal(self):
        text = self.special() if self.chance(0.1) else self.finite()
        return Object([['$numberDecimal', text]])

    def special(self):
        word = self.one_of(('nan', 'snan', 'infinity', 'inf', 'NaN', 'Infinity'))
        if self.chance(0.3):
            word = ''.join(letter.upper() if self.chance(0.5) else letter for letter in word)
        return self.one_of(('', '-', '+')) + word

    def finite(self):
        """A coefficient of at most 34 digits and an exponent in range, their value spelt in some other way."""
        size = 1 + self.below(34) if self.chance(0.7) else self.one_of((1, 33, 34))
        coefficient = self.digits(size, self.one_of(('0123456789', '0', '9', '01', '05')))
        exponent = self.one_of((self.below(60) - 40, -6176 + self.below(40), 6111 - self.below(40),
                                self.below(12288) - 6176))
        if self.chance(0.2):
            # zeros that the coefficient has no room for, or leading ones that count nothing
            zeros = self.below(40)
            coefficient, exponent = coefficient + '0' * zeros, exponent - zeros
        if self.chance(0.1):
            coefficient = '0' * self.below(40) + coefficient
        if self.chance(0.5):
            after = min(self.below(len(coefficient) + 1), len(coefficient))
            place = len(coefficient) - after
            coefficient, exponent = coefficient[:place] + '.' + coefficient[place:], exponent + after
        sign = self.one_of(('', '', '-', '+'))
        if exponent == 0 and self.chance(0.8):
            return sign + coefficient
        plus = '+' if exponent >= 0 and self.chance(0.3) else ''
        return f'{sign}{coefficient}{self.one_of("eE")}{plus}{exponent}'


SCALARS = tuple(getattr(Generator, name) for name in (
    'word number number text int32 int64 double constant symbol regular_expression timestamp object_id db_pointer'
    ' binary uuid date date decimal decimal code').split())


def render(node, escape=None, space=None):
    """The JSON text of a node. `escape` spells a text's characters, `space` gives white space between tokens."""
    parts = []
    write(node, parts.append, escape or plainly, space)
    return ''.join(parts)


def write(node, put, escape, space):
    """Puts the parts of a node's text."""
    if space:
        put(space())
    if type(node) is Raw:
        put(node)
    elif type(node) is str:
        put(quoted(node, escape))
    elif type(node) is Object:
        between = '{'
        for key, inner in node:
            put(between)
            write(key, put, escape, space)
            put(':')
            write(inner, put, escape, space)
            between = ','
        put('}' if node else '{}')
    else:
        between = '['
        for inner in node:
            put(between)
            write(inner, put, escape, space)
            between = ','
        put(']' if node else '[]')
    if space:
        put(space())


def quoted(text, escape):
    return f'"{escape(text)}"'


def plainly(text):
    """The text with the escapes that it needs alone."""
    return ESCAPED.sub(lambda found: escaped(found.group()), text)


def escaped(character):
    """A character as its short escape, or by its number."""
    short = SHORT_ESCAPES.get(character)
    return '\\' + short if short else units(character)


def units(character):
    """A character as one or two `\\u` escapes."""
    encoded = character.encode('utf-16-be')
    return ''.join(f'\\u{encoded[at]:02x}{encoded[at + 1]:02X}' for at in range(0, len(encoded), 2))
