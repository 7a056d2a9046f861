"""BSON 1.1 (bsonspec.org): what bytes mean, or their first fault; and the bytes that a document is written as.

A value is a pair of its kind and its content, as in grammar.py, but that a double is its pattern of 64 bits, a decimal
its 16 bytes, an object id its 12, and that the pairs of a document keep their order, a key that came twice at its
first place with its last value. The keys of an array are dropped.

Of the faults the first from the left counts; a length is held to its part once that is read, and a text ends before its
bytes are looked at. If duplicate keys are rejected, a key that came before in its document or scope is a fault as soon as
it is read, before its value.
"""
import struct

import doubles
import forms

DEEPEST = 100
MOST = 2**31 - 1


class Fault(Exception):
    """What is wrong, and the number of bytes before its place."""

    def __init__(self, name, place):
        super().__init__(name, place)
        self.name = name
        self.place = place


class Reader:
    """Reads a document from the front of bytes, which accepts duplicate keys or rejects them."""

    def __init__(self, data, once):
        self.data = data
        self.once = once
        self.at = 0

    def take(self, count):
        if len(self.data) - self.at < count:
            raise Fault('Short', self.at)
        self.at += count
        return self.data[self.at - count:self.at]

    def number(self, form):
        return struct.unpack(form, self.take(struct.calcsize(form)))[0]

    def length(self):
        place = self.at
        length = self.number('<I')
        if length > MOST:
            raise Fault('Length', place)
        return length

    def text_of(self, data, place):
        try:
            return data.decode('utf-8')
        except UnicodeDecodeError:
            raise Fault('Utf8', place) from None

    def name(self):
        place, end = self.at, self.data.find(b'\0', self.at)
        if end < 0:
            raise Fault('Short', place)
        self.at = end + 1
        return self.text_of(self.data[place:end], place)

    def text(self):
        place = self.at
        length = self.length()
        if length == 0:
            raise Fault('Length', place)
        begin = self.at
        inside = self.take(length - 1)
        end = self.at
        if self.take(1) != b'\0':
            raise Fault('End', end)
        return self.text_of(inside, begin)

    def elements(self, levels, once):
        """The keys and values of a document, in their order."""
        if levels == 0:
            raise Fault('Depth', self.at)
        place = self.at
        length = self.length()
        found, keys = [], set()
        while True:
            tag_place = self.at
            tag = self.take(1)[0]
            if tag == 0:
                break
            if tag not in KINDS:
                raise Fault('Tag', tag_place)
            key_place = self.at
            key = self.name()
            if once and key in keys:
                raise Fault('DuplicateKey', key_place)
            keys.add(key)
            kind, content = KINDS[tag]
            found.append((key, (kind, content(self, levels - 1))))
        if self.at - place != length:
            raise Fault('Length', place)
        return found

    def pairs(self, levels):
        return list(dict(self.elements(levels, self.once)).items())

    def items(self, levels):
        return [value for _, value in self.elements(levels, False)]

    def binary(self, _):
        length = self.length()
        subtype = self.take(1)[0]
        if subtype == 2:
            place = self.at
            inner = self.length()
            if inner != length - 4:
                raise Fault('Length', place)
            length = inner
        return subtype, self.take(length)

    def boolean(self, _):
        place = self.at
        truth = self.take(1)[0]
        if truth > 1:
            raise Fault('Boolean', place)
        return truth == 1

    def scoped(self, levels):
        place = self.at
        length = self.length()
        code = self.text()
        scope = self.pairs(levels)
        if self.at - place != length:
            raise Fault('Length', place)
        return code, scope

    def timestamp(self, _):
        increment = self.number('<I')
        return self.number('<I'), increment


def number(form):
    return lambda reader, _: reader.number(form)


def data(count):
    return lambda reader, _: reader.take(count)


def text(reader, _):
    return reader.text()


def nothing(_reader, _levels):
    return None


KINDS = {
    0x01: ('Double', number('<Q')),
    0x02: ('String', text),
    0x03: ('Document', Reader.pairs),
    0x04: ('Array', Reader.items),
    0x05: ('Binary', Reader.binary),
    0x06: ('Undefined', nothing),
    0x07: ('ObjectId', data(12)),
    0x08: ('Boolean', Reader.boolean),
    0x09: ('DateTime', number('<q')),
    0x0A: ('Null', nothing),
    0x0B: ('RegularExpression', lambda reader, _: (reader.name(), reader.name())),
    0x0C: ('DbPointer', lambda reader, _: (reader.text(), reader.take(12))),
    0x0D: ('JavaScriptCode', text),
    0x0E: ('Symbol', text),
    0x0F: ('JavaScriptCodeWithScope', Reader.scoped),
    0x10: ('Int32', number('<i')),
    0x11: ('Timestamp', Reader.timestamp),
    0x12: ('Int64', number('<q')),
    0x13: ('Decimal128', data(16)),
    0x7F: ('MaxKey', nothing),
    0xFF: ('MinKey', nothing),
}
TAGS = {kind: bytes([tag]) for tag, (kind, _) in KINDS.items()}


def meaning(given, levels=DEEPEST, once=False):
    """The document that all of the bytes are, or a Fault."""
    reader = Reader(given, once)
    pairs = reader.pairs(levels)
    if reader.at < len(given):
        raise Fault('Trailing', reader.at)
    return 'Document', pairs


# ---- writing

def sized(inside, length_of=len):
    return struct.pack('<I', length_of(inside)) + inside


def written_text(content):
    return sized(content.encode() + b'\0')


def name(content):
    return content.encode() + b'\0'


def document(pairs):
    inside = b''.join(TAGS[value[0]] + name(key) + written(value) for key, value in pairs) + b'\0'
    return sized(inside, lambda it: len(it) + 4)


def binary(content):
    subtype, inside = content
    if subtype == 2:
        inside = sized(inside)
    return struct.pack('<IB', len(inside), subtype) + inside


def scoped(content):
    return sized(written_text(content[0]) + document(content[1]), lambda it: len(it) + 4)


WRITERS = {
    'Double': lambda pattern: struct.pack('<Q', pattern),
    'String': written_text,
    'Document': document,
    'Array': lambda items: document([(str(at), item) for at, item in enumerate(items)]),
    'Binary': binary,
    'ObjectId': bytes,
    'Boolean': lambda truth: bytes([truth]),
    'DateTime': lambda millis: struct.pack('<q', millis),
    'RegularExpression': lambda regex: name(regex[0]) + name(regex[1]),
    'DbPointer': lambda pointer: written_text(pointer[0]) + pointer[1],
    'JavaScriptCode': written_text,
    'Symbol': written_text,
    'JavaScriptCodeWithScope': scoped,
    'Int32': lambda value: struct.pack('<i', value),
    'Timestamp': lambda stamp: struct.pack('<II', stamp[1], stamp[0]),
    'Int64': lambda value: struct.pack('<q', value),
    'Decimal128': bytes,
}


def written(value):
    """The bytes of a value after its name; those of a document are the whole."""
    kind, content = value
    return WRITERS[kind](content) if kind in WRITERS else b''


# ---- what a reader is shown

class HasNoText(Exception):
    """A double in it is a NaN of a pattern that grammar.py has no text for."""


DOUBLE_TEXTS = {pattern: its_text for its_text, pattern in forms.DOUBLES.items()}


def shown(value):
    """The text that a user is shown."""
    return forms.shown(of_texts(value))


def in_order(value, is_relaxed, is_mongodb):
    """The text in a form and a layout (forms.py), in which each document has its keys in its own order."""
    return forms.in_order(of_texts(value), is_relaxed, is_mongodb)


def of_texts(value):
    """The value as grammar.py has it."""
    kind, content = value
    if kind == 'Double':
        return kind, double(content)
    if kind == 'Document':
        return kind, [(key, of_texts(inner)) for key, inner in content]
    if kind == 'Array':
        return kind, [of_texts(inner) for inner in content]
    if kind == 'JavaScriptCodeWithScope':
        return kind, (content[0], [(key, of_texts(inner)) for key, inner in content[1]])
    if kind == 'ObjectId':
        return kind, content.hex()
    if kind == 'DbPointer':
        return kind, (content[0], content[1].hex())
    if kind == 'Decimal128':
        return kind, decimal(content)
    return value


def double(pattern):
    """The text of a double of 64 bits (IEEE 754)."""
    if pattern in DOUBLE_TEXTS:
        return DOUBLE_TEXTS[pattern]
    if pattern >> 52 & 0x7FF == 0x7FF:
        raise HasNoText
    return doubles.text_of(pattern)


def decimal(content):
    """The decimal of 16 bytes (IEEE 754-2008 decimal128, binary integer significand) as decimal128.py has it."""
    bits = int.from_bytes(content, 'little')
    sign = '-' if bits >> 127 else ''
    if bits >> 122 & 0b11111 == 0b11111:
        return ('NaN',)
    if bits >> 122 & 0b11111 == 0b11110:
        return 'Infinity', sign
    if bits >> 125 & 0b11 == 0b11:
        # The significand would be at least 2^113, which is more than 34 digits: it counts as 0.
        return 'Finite', sign, 0, (bits >> 111 & 0x3FFF) - 6176
    significand = bits & (1 << 113) - 1
    return 'Finite', sign, significand if significand < 10**34 else 0, (bits >> 113 & 0x3FFF) - 6176
