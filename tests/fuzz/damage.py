"""One damage to a valid tree, or to its text. Most results are still JSON text, and some changes have no effect."""
import re

from generator import CHARACTERS, KEYS, Generator, Object, Raw, SHORT_ESCAPES, escaped, plainly, render, units
from grammar import WRAPPER_KEYS

WRAPPERS = tuple(sorted(WRAPPER_KEYS))
DIGITS = re.compile(r'[0-9]+')
# Near the borders of months, hours, minutes, i32, u32, i64, u64 and of decimals' exponents.
NUMBERS = tuple(str(border + near) for border in (
    0, 1, 12, 23, 28, 30, 31, 59, 99, 2**31, 2**32, 2**63, 2**64, 6111, 6144, 6176, 6177, 32767, 32768)
    for near in (-1, 0, 1) if border + near >= 0)
RAWS = tuple(Raw(written) for written in (
    'null true false 0 1 -0 -1 1.0 1.5 1e0 1E2 -0.0 1e-400 1e308 1e309 2147483648 -2147483649 4294967296'
    ' 9223372036854775807 9223372036854775808 -9223372036854775808 -9223372036854775809'
    ' 18446744073709551615 18446744073709551616 01 +1 1. .5 -').split())
ODD_BYTES = b'{}[]",:\\0159-+.eEntf$ \t\n\r\0\x0b\x7f\x80\xbf\xc0\xc3\xe2\xed\xf4\xff'
# A byte, or some that belong together: a byte order mark, other blanks, a surrogate, an overlong NUL, escapes.
BYTES = tuple(bytes((byte,)) for byte in ODD_BYTES) + (
    b'\xef\xbb\xbf', b'\xc2\xa0', b'\xe2\x80\xa8', b'\xed\xa0\x80', b'\xc0\x80', b'//', b'\\u',
    b'\\ud800', b'\\u0000')
FULL_WIDTH = {ord(digit): chr(0xFF10 + int(digit)) for digit in '0123456789'}
LONG = ('0' * 33, '9' * 34, '1' + '0' * 40, '0.' + '0' * 32767, '0.' + '0' * 32768,
        '1' + '0' * 32800 + 'E-32767')


class Damage(Generator):
    """A random tree of the root `self.root`, and one damage to it."""

    def __init__(self, random):
        super().__init__(random)
        # The root is in a list, so that it has a place as each other node has.
        self.top = [self.node(1 + self.below(12))]

    def damaged(self):
        """The name of the damage, and the bytes of the text."""
        damage = self.one_of(TREE_DAMAGES) if self.chance(0.75) else None
        if damage:
            damage(self)
            return damage.__name__, self.spelt().encode()
        damage = self.one_of(TEXT_DAMAGES)
        return damage.__name__, damage(self, self.spelt().encode())

    def spelt(self):
        """The text of the tree, now and then with white space and with escapes that it need not have."""
        space = self.space if self.chance(0.1) else None
        return render(self.top[0], self.escape if self.chance(0.1) else plainly, space)

    def space(self):
        return self.one_of(('', '', '', ' ', '\n', '\t', '\r', '  ', '\r\n'))

    def escape(self, text):
        return ''.join([self.spelling(character) for character in text])

    def spelling(self, character):
        if self.chance(0.6):
            return plainly(character)
        return self.one_of((escaped, units))(character) if character in SHORT_ESCAPES else units(character)

    def places(self):
        """Each place of a node, as (list, index): in an object the index is that of the pair."""
        found = [(self.top, 0)]
        for parent, at in found:
            node = held(parent, at)
            if isinstance(node, list):
                found.extend((node, inner) for inner in range(len(node)))
        return found

    def place(self, *kinds):
        """A place whose node is of one of these types, or any place where there is none."""
        places = self.places()
        return self.one_of([place for place in places if type(held(*place)) in kinds] or places)

    def object(self):
        """An object with a key, which the tree is wrapped into where it has none."""
        objects = [node for place in self.places() if type(node := held(*place)) is Object and node]
        if objects:
            return self.one_of(objects)
        self.top[0] = Object([['a', self.top[0]]])
        return self.top[0]

    # Damages to the tree.

    def nothing(self):
        """The tree as it is."""

    def rename_key(self):
        pair = self.one_of(self.object())
        key = pair[0]
        others = (self.one_of(WRAPPERS), self.one_of(KEYS), key[1:], key[:-1], key.upper(), key.lower(), '$' + key,
                  key + ' ', key + '\0', key.swapcase())
        pair[0] = self.one_of(others)

    def extra_key(self):
        pairs = self.object()
        key = self.one_of((self.one_of(WRAPPERS), self.one_of(KEYS), self.one_of(KEYS), '$scope', '$id'))
        pairs.insert(self.below(len(pairs) + 1), [key, self.any_node()])

    def drop_key(self):
        pairs = self.object()
        del pairs[self.below(len(pairs))]

    def double_key(self):
        pairs = self.object()
        key, node = self.one_of(pairs)
        double = node if self.chance(0.3) else self.any_node()
        pairs.insert(self.below(len(pairs) + 1), [key, double])

    def reorder_keys(self):
        pairs = self.object()
        for last in range(len(pairs) - 1, 0, -1):
            other = self.below(last + 1)
            pairs[last], pairs[other] = pairs[other], pairs[last]

    def any_node(self):
        if self.chance(0.5):
            return self.node(1)
        return self.one_of((self.one_of(RAWS), self.text(), [], Object()))

    def change_type(self):
        place = self.place(Raw, str, list, Object)
        node = held(*place)
        put(place, self.one_of((
            self.any_node(), self.one_of(RAWS), [node], Object([[self.one_of(KEYS), node]]),
            Object([[self.one_of(WRAPPERS), node]]),
            Raw(node) if type(node) is str else str(render(node)))))

    def change_number(self):
        number = self.one_of(RAWS) if self.chance(0.6) else Raw(self.pushed(str(self.whole(66))))
        put(self.place(Raw), number)

    def push_number(self):
        """A number in a text moved past a border."""
        place = self.place(str)
        node = held(*place)
        if isinstance(node, str):
            put(place, type(node)(self.pushed(node)))

    def pushed(self, text):
        runs = list(DIGITS.finditer(text))
        if not runs:
            return text + self.one_of(NUMBERS)
        run = self.one_of(runs)
        number, width = run.group(), len(run.group())
        other = self.one_of((
            self.one_of(NUMBERS), self.one_of(NUMBERS).rjust(width, '0'),
            str(int(number[:40]) + 1).rjust(width, '0'), str(abs(int(number[:40]) - 1)).rjust(width, '0'),
            number + '0', '0' + number, '-' + number, '+' + number, number + '.0', number + 'e1', '',
            self.one_of(LONG) if self.chance(0.02) else '9' * 35))
        return text[:run.start()] + other + text[run.end():]

    def change_text(self):
        """A character of a text dropped, doubled, put in, exchanged, or its case changed."""
        place = self.place(str)
        node = held(*place)
        if type(node) is not str:
            return
        at = self.below(len(node) + 1)
        before, here, after = node[:at], node[at:at + 1], node[at + 1:]
        put(place, self.one_of((
            before + after, before + here + here + after, before + self.one_of(CHARACTERS) + here + after,
            before + self.one_of(CHARACTERS) + after, before + here.swapcase() + after, before, here + after,
            node.swapcase(), node + '\n', ' ' + node, node[::-1])))

    def respell(self):
        """A text in a spelling of some other grammar: of UUIDs, base64, dates, numbers, doubles."""
        place = self.place(str)
        node = held(*place)
        if type(node) is str:
            put(place, self.one_of((
                node.replace('-', ''), '{' + node + '}', 'urn:uuid:' + node,
                node.rstrip('='), node + '=', node.replace('+', '-').replace('/', '_'),
                node.replace('T', ' '), node.replace('.', ','), node.replace('Z', ''),
                node.upper(), node.lower(), node.translate(FULL_WIDTH),
                '0x' + node, node + 'L', node.lstrip('+-0'), ' ' + node, node + ' ',
                'NAN', 'inf', '1e5', '0', '1.5')))

    def exchange(self):
        """Two nodes in each other's place, or one node in the place of another."""
        first, second = self.one_of(self.places()), self.one_of(self.places())
        one, other = held(*first), held(*second)
        # (so that no node comes to hold itself)
        if contains(one, other) or contains(other, one):
            return
        put(first, other)
        if self.chance(0.5):
            put(second, one)

    def fault_inside(self):
        """A text of an object id that is wrong, somewhere."""
        wrong = self.one_of(
            ('', 'zz', '53e3', '0' * 12, '0' * 23, '0' * 25, '0' * 23 + 'g', 'é' * 12, '0' * 24 + ' '))
        fault = Object([['$oid', wrong]])
        if self.chance(0.3):
            fault = Object([['$dbPointer', self.shuffled([['$ref', self.text()], ['$id', fault]])]])
        put(self.one_of(self.places()), fault)

    def deepen(self):
        """A node deep inside lists, documents or scopes: most often near the 127 levels that are read."""
        place = self.one_of(self.places())
        levels = 120 + self.below(12) if self.chance(0.6) else 1 + self.below(8)
        wrap = self.one_of((lambda node: [node], lambda node: Object([['a', node]]), self.in_scope))
        # (a scope and its code are two levels)
        for _ in range(levels // 2 if wrap == self.in_scope else levels):
            put(place, wrap(held(*place)))

    def in_scope(self, node):
        return Object([['$code', 'f'], ['$scope', Object([['$oid', node]])]])

    def widen(self):
        """A list or a document much longer than most."""
        place = self.place(list, Object)
        node = held(*place)
        count = 1 + self.below(60)
        if type(node) is list:
            node.extend(self.node(1) for _ in range(count))
        else:
            put(place, Object([[f'k{number}', self.node(1)] for number in range(count)]))

    # Damages to the text.

    def flip_byte(self, data):
        at = self.below(len(data))
        flipped = data[at] ^ 1 << self.below(8) if self.chance(0.5) else self.below(256)
        return data[:at] + bytes((flipped,)) + data[at + 1:]

    def drop_byte(self, data):
        at = self.below(len(data))
        return data[:at] + data[at + 1:]

    def double_byte(self, data):
        at = self.below(len(data))
        return data[:at + 1] + data[at:]

    def put_in_bytes(self, data):
        at = self.below(len(data) + 1)
        return data[:at] + self.one_of(BYTES) + data[at:]

    def cut(self, data):
        at = self.below(len(data))
        return data[:at] if self.chance(0.6) else data[at:]

    def go_on(self, data):
        """Something after the text."""
        return data + self.one_of(
            (b'\n', b' \t\r\n', b'\0', b'}', b']', b',', b' {}', data, b'\xef\xbb\xbf', b'1', b'\x0b'))

    def move_slice(self, data):
        first, second = sorted((self.below(len(data) + 1), self.below(len(data) + 1)))
        at = self.below(len(data) + 1)
        rest = data[:first] + data[second:] if self.chance(0.5) else data
        return rest[:at] + data[first:second] + rest[at:]


def held(parent, at):
    """The node at a place."""
    return parent[at][1] if type(parent) is Object else parent[at]


def put(place, node):
    """Puts a node into a place."""
    parent, at = place
    if type(parent) is Object:
        parent[at][1] = node
    else:
        parent[at] = node


def contains(node, wanted):
    """Whether a node is this very one, or holds it."""
    return node is wanted or isinstance(node, list) and any(
        contains(held(node, at), wanted) for at in range(len(node)))


def weighted(**weights):
    """The calls of these names, each as often as its weight."""
    return tuple(getattr(Damage, name) for name, weight in weights.items() for _ in range(weight))


TREE_DAMAGES = weighted(
    nothing=3, rename_key=4, extra_key=4, drop_key=3, double_key=3, reorder_keys=3, change_type=4, change_number=3,
    push_number=6, change_text=6, respell=2, exchange=3, fault_inside=4, deepen=2, widen=1)
TEXT_DAMAGES = weighted(flip_byte=3, drop_byte=2, double_byte=2, put_in_bytes=3, cut=1, go_on=1, move_slice=2)
DAMAGES = tuple(dict.fromkeys(damage.__name__ for damage in TREE_DAMAGES + TEXT_DAMAGES))
