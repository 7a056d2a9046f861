"""Random documents in canonical bytes, by kind and content as tests/fuzz/bson_bytes.py has them.

No key begins with a dollar sign, so that each document has texts of its own; keys are in any order, each once. Dates are
of any 64 bits, doubles of any that has a text, decimals in their canonical patterns, options of a regular expression
ascend.
"""
import struct

import bson_bytes
import decimal128

KEYS = ("a", "b", "c", "_id", "", "0", "10", "9", "key", "é", "€", "𝄞", "a.b", "z" * 20)
TEXTS = ("", "a", "text", "ß", "€ 5", "𝄞", "\U0010ffff", '"\\/', "\n\t\r\b\f", "\x01\x1f", "\x7f", "\u2028", "y" * 40)
INTS = (0, 1, -1, 2**31 - 1, -2**31)
LONGS = (*INTS, 2**31, 2**53 + 1, 2**63 - 1, -2**63)
DATES = (0, 1, -1, 1590972160292, 1000, 253402300799999, 253402300800000, -62135596800000, -62135596800001, 2**63 - 1, -2**63)
DOUBLES = (0, 1 << 63, 0x7FF << 52, 0xFFF << 52, 0x7FF8 << 48, 1, (1 << 52) - 1, 1 << 52, (0x7FF << 52) - 1)
NUMBERS = (0.1, 1.5, 5.0, -2.5, 100.0, 1e15, 1e16, 1e17, 123456789.125, 1e100, 1e-5, 1e-7, 1 / 3, 2.0**53, 9007199254740993.0)
DECIMALS = ("0", "1", "-1", "0.001", "1E+3", "-0", "0E-6176", "9.99E+6144", "1E-6176", "123.456", "1E+6111", "Infinity", "-Infinity",
            "NaN", "12345678901234567890123456789012.34", "0.0000001", "1E-7")
OPTIONS = ("", "i", "im", "imsx", "ilmsux")
SUBTYPES = (0, 1, 2, 3, 4, 5, 6, 7, 0x80, 0xFE)


def decimal_of(text):
    """The 16 bytes of a decimal's canonical pattern (IEEE 754-2008 decimal128, binary integer significand)."""
    found = decimal128.parse(text)
    if found[0] == "NaN":
        return (0x7C << 120).to_bytes(16, "little")
    sign = (found[1] == "-") << 127
    if found[0] == "Infinity":
        return (sign | 0x78 << 120).to_bytes(16, "little")
    return (sign | found[3] + 6176 << 113 | found[2]).to_bytes(16, "little")


PATTERNS = [decimal_of(it) for it in DECIMALS]


class Maker:
    def __init__(self, random):
        self.random = random

    def document(self, levels=3):
        keys = self.random.sample(KEYS, self.random.choice((0, 1, 2, 3, 5)) if levels < 3 else self.random.randrange(1, 6))
        return "Document", [(key, self.value(levels - 1)) for key in keys]

    def value(self, levels):
        kind = self.random.choice(KINDS if levels > 0 else SCALARS)
        return self.document(levels) if kind == "Document" else (kind, self.content(kind, levels))

    def content(self, kind, levels):
        if kind == "Array":
            return [self.value(levels - 1) for _ in range(self.random.choice((0, 1, 2, 11)))]
        if kind == "JavaScriptCodeWithScope":
            return self.text(), self.document(levels)[1]
        return CONTENTS[kind](self) if kind in CONTENTS else None

    def text(self):
        return "".join(self.random.choices(TEXTS, k=self.random.choice((0, 1, 1, 2))))

    def number(self, some, bits):
        chosen = self.random.choice((self.random.choice(some), self.random.getrandbits(bits), self.random.getrandbits(bits // 2)))
        return (chosen + 2**(bits - 1)) % 2**bits - 2**(bits - 1)

    def double(self):
        kind = self.random.randrange(4)
        if kind == 0:
            return self.random.choice(DOUBLES)
        number = self.random.choice(NUMBERS) if kind == 1 else round(self.random.uniform(-1e6, 1e6), self.random.randrange(8))
        pattern = int.from_bytes(struct.pack(">d", number), "big") if kind < 3 else self.random.getrandbits(64)
        return pattern if pattern >> 52 & 0x7FF != 0x7FF else 1 << 62

    def binary(self):
        subtype = self.random.choice(SUBTYPES)
        # (a UUID has 16 bytes)
        return subtype, self.random.randbytes(16 if subtype in (3, 4) else self.random.choice((0, 1, 2, 3, 16, 20)))

    def date(self):
        return self.number(DATES, 64) if self.random.randrange(3) else self.random.randrange(-10**12, 3 * 10**12)


CONTENTS = {
    "Double": Maker.double, "String": Maker.text, "Binary": Maker.binary, "ObjectId": lambda it: it.random.randbytes(12),
    "Boolean": lambda it: it.random.random() < 0.5, "DateTime": Maker.date,
    "RegularExpression": lambda it: (it.text(), it.random.choice(OPTIONS)),
    "DbPointer": lambda it: (it.text(), it.random.randbytes(12)), "JavaScriptCode": Maker.text, "Symbol": Maker.text,
    "Int32": lambda it: it.number(INTS, 32), "Timestamp": lambda it: (it.random.getrandbits(32), it.random.getrandbits(32)),
    "Int64": lambda it: it.number(LONGS, 64), "Decimal128": lambda it: it.random.choice(PATTERNS),
}
SCALARS = tuple(kind for kind in bson_bytes.TAGS if kind not in ("Document", "Array", "JavaScriptCodeWithScope"))
KINDS = (*SCALARS, *("Document", "Array", "JavaScriptCodeWithScope") * 2)
