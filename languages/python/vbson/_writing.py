"""The writer of plain values as the bytes of documents, which the library then checks."""
import datetime
import decimal
import re
import uuid

from . import _foreign, scalars
from ._options import of_size
from ._reading import DOUBLE, LENGTH, LONG, STAMP
from .errors import (INVALID_STRING, TOO_LONG, ZERO_IN_KEY, ZERO_IN_REGEX, Error, IntegerTooLarge, InvalidString, NotEncodable,
                     UnsupportedType, of_status)
from .values import Binary, Code, DatetimeMS, DBPointer, Int64, MaxKey, MinKey, ObjectId, Regex, Symbol, Timestamp, Undefined


def _sized(inside, more):
    """Returns the bytes after their length, which counts so many more."""
    if len(inside) + more > 0x7FFFFFFF:
        raise of_status(TOO_LONG)
    return LENGTH.pack(len(inside) + more) + inside


def _utf8(text):
    try:
        return text.encode()
    except UnicodeEncodeError:
        raise NotEncodable("a string has a lone surrogate", code=INVALID_STRING) from None


def _text(text):
    return _sized(_utf8(text) + b"\0", 0)


def _name(text, status):
    if not isinstance(text, str):
        raise UnsupportedType(f"a key is str, and not {type(text).__name__}")
    if "\0" in text:
        raise of_status(status)
    return _utf8(text) + b"\0"


def unsupported(value):
    """Returns the error of a value whose type has no rule."""
    kind = type(value)
    is_of_bson = kind.__module__.partition(".")[0] == "bson"
    hint = 'types="bson" writes the types of PyMongo' if is_of_bson else "default= converts values of other types"
    return UnsupportedType(f"BSON has no type for {kind.__name__}; {hint}")


class Writer:
    """Writes values, and those of other types by a function that returns a value to write instead."""

    def __init__(self, default=None):
        self.default = default

    def content(self, value):
        """Returns the tag and the bytes of a value."""
        write = _WRITERS.get(type(value)) or next((_WRITERS[it] for it in type(value).__mro__ if it in _WRITERS), None)
        if write is not None:
            return write(self, value)
        found = _foreign.converted(value)
        if found is _foreign.NOTHING:
            if self.default is None:
                raise unsupported(value)
            found = self.default(value)
        return self.content(found)

    def pairs(self, pairs):
        """Returns the bytes of a document of keys with their values."""
        parts, key = [], None
        try:
            for key, value in pairs:
                tag, content = self.content(value)
                parts += tag, _name(key, ZERO_IN_KEY), content
        except Error as error:
            error.path.insert(0, key)
            raise
        return _sized(b"".join(parts) + b"\0", 4)

    def array(self, values):
        """Returns the tag and the bytes of an array."""
        parts, index = [], 0
        try:
            for index, value in enumerate(values):
                tag, content = self.content(value)
                parts += tag, b"%d\0" % index, content
        except Error as error:
            error.path.insert(0, index)
            raise
        return b"\x04", _sized(b"".join(parts) + b"\0", 4)

    def code(self, value):
        """Returns the tag and the bytes of code, with its scope or without."""
        if value.scope is None:
            return b"\x0d", _text(value)
        return b"\x0f", _sized(_text(value) + self.pairs(value.scope.items()), 4)


def _int(_, value):
    return (b"\x10", LENGTH.pack(value)) if -2**31 <= value < 2**31 else _int64(_, value)


def _int64(_, value):
    if not -2**63 <= value < 2**63:
        raise IntegerTooLarge("an int is of at most 64 bits")
    return b"\x12", LONG.pack(value)


def _stamp(_, value):
    if not (0 <= value.time < 2**32 and 0 <= value.increment < 2**32):
        raise IntegerTooLarge("both numbers of a timestamp have at most 32 bits")
    return b"\x11", STAMP.pack(value.increment, value.time)


def _binary(data, subtype):
    if not 0 <= subtype < 256:
        raise NotEncodable("a subtype is a number below 256", code=INVALID_STRING)
    inside = _sized(bytes(data), 0) if subtype == 2 else bytes(data)
    return b"\x05", _sized(bytes([subtype]) + inside, -1)


def _date(_, value):
    # (NaT of pandas is a datetime, which is not equal to itself)
    return (b"\x09", LONG.pack(scalars.date_time(value))) if value == value else (b"\x0a", b"")


def exact_decimal(value):
    """Returns the 16 bytes of a decimal.Decimal."""
    try:
        return scalars.decimal128(value)
    except InvalidString:
        raise InvalidString("a decimal would be rounded") from None


def _id(value):
    return of_size(value.binary, 12, "an object id")


def _regex(pattern, options):
    return b"\x0b", _name(pattern, ZERO_IN_REGEX) + _name(options, ZERO_IN_REGEX)


_OPTIONS = ((re.IGNORECASE, "i"), (re.LOCALE, "l"), (re.MULTILINE, "m"), (re.DOTALL, "s"), (re.VERBOSE, "x"))


def _pattern(_, value):
    pattern = value.pattern if isinstance(value.pattern, str) else value.pattern.decode()
    return _regex(pattern, "".join(letter for flag, letter in _OPTIONS if value.flags & flag))


# Of each type, the tag and the bytes of its value, by the writer that writes what is inside.
_WRITERS = {
    float: lambda _, it: (b"\x01", DOUBLE.pack(it)), str: lambda _, it: (b"\x02", _text(it)),
    dict: lambda writer, it: (b"\x03", writer.pairs(it.items())), list: Writer.array, tuple: Writer.array,
    bytes: lambda _, it: _binary(it, 0), bytearray: lambda _, it: _binary(it, 0), memoryview: lambda _, it: _binary(it, 0),
    Binary: lambda _, it: _binary(it, it.subtype), uuid.UUID: lambda _, it: _binary(it.bytes, 4), Undefined: lambda _, it: (b"\x06", b""),
    ObjectId: lambda _, it: (b"\x07", _id(it)), bool: lambda _, it: (b"\x08", bytes([it])), datetime.datetime: _date,
    DatetimeMS: lambda _, it: (b"\x09", _int64(_, it)[1]), type(None): lambda _, it: (b"\x0a", b""),
    Regex: lambda _, it: _regex(it.pattern, it.options), re.Pattern: _pattern, Code: Writer.code,
    DBPointer: lambda _, it: (b"\x0c", _text(it.namespace) + _id(it.id)), Symbol: lambda _, it: (b"\x0e", _text(it)),
    int: _int, Timestamp: _stamp, Int64: _int64, decimal.Decimal: lambda _, it: (b"\x13", exact_decimal(it)),
    MaxKey: lambda _, it: (b"\x7f", b""), MinKey: lambda _, it: (b"\xff", b""),
}
