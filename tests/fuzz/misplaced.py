"""Random JSON with one value that is not Extended JSON, at a known path."""
import re
from dataclasses import dataclass

# Characters of a path and of a message, and of a quoted value.
MOST, MOST_OF_VALUE = 300, 60
NUMBERS = ('1.5', '-0', '1e5', '0.0', '-2.25e-7', '9223372036854775808', '18446744073709551616')
WRAPPERS = ('$minKey', '$maxKey', '$undefined', '$symbol', '$numberInt', '$numberLong', '$numberDecimal', '$oid')
KEYS = ('a', 'A', 'b', 'name', 'Name', '', ' ', 'a b', '0', '256', '\u00e9', 'k' * 90, '\u2028', '\x1b[31m', 'q"q', 'b\\s')
NESTED = '{"a":[[[{"a":0}]]]}'
GOOD = ('0', '7', '-12', 'null', 'true', '"x"', '"1.5"', '[]', '{}', '{"a":{"A":0}}', '[[1],2]', '{"$numberInt":"5"}', NESTED)
# It is before the wrong value while a text is made.
MARK = '\ue000'
LETTERS = {'"': '\\"', '\\': '\\\\'}


@dataclass
class Fault:
    """A text, the path to its one wrong value, that value as it is in the text, and the bytes before it."""
    text: bytes
    path: list
    value: str
    offset: int
    widest: int
    replaced: bool
    is_beside_nested: bool

    def told(self):
        """A pattern of what is reported."""
        path = shown('.'.join(map(str, self.path)))
        value = self.value[:MOST_OF_VALUE] + '..' * (len(self.value) > MOST_OF_VALUE)
        at = f' at {path}' if path else ''
        head = re.escape(f'not Extended JSON{at} ('.encode())
        return head + rb'(?:(?!; found ).)+' + re.escape(f'; found {shown(value)})'.encode())

    def kinds(self, deep, wide, replaced, cut, beside):
        found = [deep] * (len(self.path) >= 4) + [wide] * (self.widest > 256) + [beside] * self.is_beside_nested
        return found + [replaced] * self.replaced + [cut] * (len(self.value) > MOST_OF_VALUE)


def shown(words):
    """Words as they are reported: a part, what steers a terminal or breaks a line by its escape."""
    cut = words[:MOST] + '..' * (len(words) > MOST)
    return ''.join(f'\\u{ord(it):04x}' if it in '\u2028\u2029' or ord(it) < 32 or 127 <= ord(it) < 160 else it for it in cut)


def fault_of(generator, newline):
    """A random text with one wrong value."""
    return Maker(generator, newline).fault()


class Maker:
    def __init__(self, generator, newline):
        self.generator, self.newline = generator, newline
        self.widest, self.replaced, self.is_beside_nested = 0, False, False

    def fault(self):
        text, path, value = self.wrong()
        for _ in range(self.generator.choice((0, 1, 1, 2, 3, 4, 5, 8))):
            text, word = self.list_of(text) if self.generator.random() < 0.5 else self.object_of(text)
            path.insert(0, word)
        offset = len(text[:text.index(MARK)].encode())
        found = self.widest, self.replaced, self.is_beside_nested
        return Fault(text.replace(MARK, '').encode(), path, value, offset, *found)

    def blank(self):
        return self.generator.choice(('', '\t', '\n') if self.newline else ('', '', '', '', ' ', '\t', '  '))

    def good(self):
        """A value that is Extended JSON, now and then a longer one."""
        if self.generator.random() < 0.8:
            return self.generator.choice(GOOD)
        return '[' + f',{self.blank()}'.join(self.generator.choices(GOOD, k=self.generator.randrange(9))) + ']'

    def wrong(self):
        """A value that is not, the path in it, and what is wrong."""
        if self.generator.random() < 0.5:
            number = self.generator.choice(NUMBERS)
            return MARK + number, [], number
        key, value = self.generator.choice(WRAPPERS), self.not_of_wrapper()
        return f'{{{self.blank()}{self.spelt(key)}{self.blank()}:{self.blank()}{MARK}{value}{self.blank()}}}', [key], value

    def not_of_wrapper(self):
        """A value that no wrapper has."""
        members = f',{self.blank()}'.join(self.generator.choices(GOOD, k=self.generator.randrange(12)))
        return f'[{members}]' if self.generator.random() < 0.7 else f'{{"z":{self.blank()}[{members}]}}'

    def list_of(self, text):
        """The text among others, and its index."""
        is_wide = self.generator.random() < 0.15
        count = self.generator.randrange(257, 700) if is_wide else self.generator.randrange(1, 5)
        at = self.generator.randrange(count)
        self.widest = max(self.widest, count)
        members = [text if it == at else self.good() for it in range(count)]
        self.is_beside_nested |= NESTED in members
        return '[' + ','.join(f'{self.blank()}{it}{self.blank()}' for it in members) + ']', at

    def object_of(self, text):
        """The text as the last value of its key, among other members, and the key."""
        keys = self.generator.sample(KEYS, self.generator.randrange(1, 5))
        key = self.generator.choice(keys)
        members = [(it, text if it == key else self.good()) for it in keys]
        self.is_beside_nested |= NESTED in dict(members).values()
        if self.generator.random() < 0.2:
            self.replaced = True
            other = self.generator.choice((self.good(), self.wrong()[0].replace(MARK, '')))
            members.insert(self.generator.randrange(keys.index(key) + 1), (key, other))
        return '{' + ','.join(f'{self.blank()}{self.spelt(it)}{self.blank()}:{self.blank()}{inner}{self.blank()}'
                              for it, inner in members) + '}', key

    def spelt(self, key):
        """The key as a string of JSON, some characters by their escapes."""
        return '"' + ''.join(f'\\u{ord(it):04x}' if ord(it) < 32 or self.generator.random() < 0.1 else LETTERS.get(it, it)
                             for it in key) + '"'
