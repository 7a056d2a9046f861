"""Random BSON bytes: documents, most of them in a form that no writer gives, and each damaged in one place.

Kinds, keys, lengths and depths are drawn so that each rule of the grammar is met; the strings are judged afterwards, so
nothing here has to know which of them are documents.
"""
import struct

import bson_bytes

KEYS = ('a', 'b', 'c', '', '0', '1', '$oid', 'key', 'é', '€', '𝄞', 'a.b', 'x' * 30)
TEXTS = ('', 'a', 'text', '\0', 'a\0b', 'ß', '€ 5', '𝄞', '\U0010ffff', '"\\\n', 'y' * 40)
NUMBERS = (0, 1, 2, 0x7F, 0x80, 0xFF, 2**31 - 1, 2**31, 2**32 - 1, 2**63 - 1, 2**63, 2**64 - 1)
DOUBLES = (0, 1 << 63, 0x7FF << 52, 0xFFF << 52, 0x7FF8 << 48, 0xFFF8 << 48)
DECIMALS = ('00000000000000000000000000004030', '01000000000000000000000000004030', '000000000000000000000000000000f8',
            '0000000000000000000000000000007c', 'ffffffff638e8d37c087adbe09edff5f', '000000008064aa9be0a2d9ea15f00000',
            'ffffffffffffffffffffffffffffff6f', '0100000000000000000000000000fe5f')
OPTIONS = ('', 'i', 'im', 'ilmsux', 'xi')
SUBTYPES = (0, 1, 2, 2, 2, 3, 4, 5, 9, 10, 128, 255)
BYTES = (0, 1, 2, 4, 5, 0x0F, 0x10, 0x14, 0x7E, 0x7F, 0x80, 0xC3, 0xFF)
LENGTHS = (0, 1, 3, 4, 5, 13, 14, 0x7FFFFFFF, 0x80000000, 0xFFFFFFFF)


class Maker:
    """Makes one document. `lengths` has the place of each length field in what is written."""

    def __init__(self, random):
        self.random = random

    def document(self, levels):
        """Bytes and the places of their lengths."""
        parts = [self.element(levels) for _ in range(self.random.choice((0, 1, 2, 3, 5, 8)))]
        return counted(joined(*parts, plain(b'\0')))

    def wrapped(self, count):
        """A document inside so many others."""
        made = self.document(0)
        for _ in range(count):
            kind, key = self.random.choice(('Document', 'Array')), self.random.choice(('', 'a'))
            made = counted(joined(plain(bson_bytes.TAGS[kind] + key.encode() + b'\0'), made, plain(b'\0')))
        return made

    def element(self, levels):
        kind = self.random.choice(SCALARS if levels == 0 else KINDS)
        key = self.random.choice(KEYS)
        return joined(plain(bson_bytes.TAGS[kind] + key.encode() + b'\0'), self.value(kind, levels))

    def value(self, kind, levels):
        if kind in ('Document', 'Array'):
            return self.document(levels - 1)
        if kind == 'JavaScriptCodeWithScope':
            return counted(joined(self.text(), self.document(levels - 1)))
        if kind in ('String', 'JavaScriptCode', 'Symbol'):
            return self.text()
        if kind == 'DbPointer':
            return joined(self.text(), plain(self.random.randbytes(12)))
        if kind == 'Binary':
            return self.binary()
        return plain(self.of_one_size(kind))

    def text(self):
        inside = ''.join(self.random.choices(TEXTS, k=self.random.choice((0, 1, 1, 2)))).encode() + b'\0'
        return struct.pack('<I', len(inside)) + inside, [0]

    def binary(self):
        subtype, inside = self.random.choice(SUBTYPES), self.random.randbytes(self.random.choice((0, 1, 4, 16, 20)))
        if subtype == 2:
            return struct.pack('<IBI', len(inside) + 4, 2, len(inside)) + inside, [0, 5]
        return struct.pack('<IB', len(inside), subtype) + inside, [0]

    def of_one_size(self, kind):
        if kind == 'Boolean':
            return bytes([self.random.getrandbits(1)])
        if kind in ('Int32', 'Timestamp'):
            return b''.join(self.number(32) for _ in range(1 if kind == 'Int32' else 2))
        if kind in ('Int64', 'DateTime'):
            return self.number(64)
        if kind == 'Double':
            return struct.pack('<Q', self.random.choice((self.random.choice(DOUBLES), self.random.getrandbits(64))))
        if kind == 'Decimal128':
            return self.random.choice((bytes.fromhex(self.random.choice(DECIMALS)), self.random.randbytes(16)))
        if kind == 'RegularExpression':
            pattern = self.random.choice(TEXTS).replace('\0', '.')
            return pattern.encode() + b'\0' + self.random.choice(OPTIONS).encode() + b'\0'
        return self.random.randbytes(12) if kind == 'ObjectId' else b''

    def number(self, bits):
        chosen = self.random.choice((self.random.choice(NUMBERS), self.random.getrandbits(bits),
                                     self.random.getrandbits(40)))
        return (chosen % 2**bits).to_bytes(bits // 8, 'little')


NESTING = ('Document', 'Array', 'JavaScriptCodeWithScope')
SCALARS = tuple(kind for kind in bson_bytes.TAGS if kind not in NESTING)
KINDS = SCALARS + 2 * NESTING


def plain(data):
    return data, []


def joined(*parts):
    """The parts concatenated, with the places of their lengths."""
    data, lengths = b'', []
    for inside, places in parts:
        lengths += [len(data) + place for place in places]
        data += inside
    return data, lengths


def counted(part):
    """The part after its length, which counts itself."""
    return joined((struct.pack('<I', len(part[0]) + 4), [0]), part)


# ---- one damage

def bit(random, data, _):
    at = random.randrange(len(data))
    return data[:at] + bytes([data[at] ^ 1 << random.randrange(8)]) + data[at + 1:]


def byte(random, data, _):
    at = random.randrange(len(data))
    return data[:at] + bytes([random.choice((random.choice(BYTES), random.randrange(256)))]) + data[at + 1:]


def length(random, data, lengths):
    at = random.choice(lengths)
    old = int.from_bytes(data[at:at + 4], 'little')
    new = random.choice((old - 1, old + 1, old - 4, old + 4, random.choice(LENGTHS), random.randrange(2 * old + 8)))
    return data[:at] + (new % 2**32).to_bytes(4, 'little') + data[at + 4:]


def put_in(random, data, _):
    at = random.randrange(len(data) + 1)
    return data[:at] + bytes([random.choice(BYTES)]) + data[at:]


def taken_out(random, data, _):
    at = random.randrange(len(data))
    return data[:at] + data[at + 1:]


def behind(random, data, _):
    return data + bytes(random.choices(BYTES, k=random.choice((1, 2, 5))))


DAMAGES = (bit, byte, byte, length, length, put_in, taken_out, behind)
# Of so many documents one is cut at each place, and another one nests about as deep as is allowed.
CUT, DEEP = 16, 64


def strings(random):
    """Byte strings without an end: documents, each followed by its damages."""
    number = 0
    while True:
        number += 1
        maker = Maker(random)
        if number % DEEP == 1:
            made, lengths = maker.wrapped(random.randrange(97, 103))
        else:
            made, lengths = maker.document(random.choice((0, 1, 1, 2, 3)))
        yield made
        for damage in DAMAGES:
            yield damage(random, made, lengths)
        if number % CUT == 0:
            yield from (made[:at] for at in range(len(made)))
