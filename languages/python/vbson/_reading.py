"""The reader of documents that the library has written or checked, as plain values."""
import functools
import struct
import uuid

from . import scalars
from .values import Binary, Code, DatetimeMS, DBPointer, Int64, MaxKey, MinKey, ObjectId, Regex, Symbol, Timestamp, Undefined


def object_id(binary):
    """Returns the object id of 12 bytes, without the checks of the constructor."""
    made = object.__new__(ObjectId)
    made.__dict__["binary"] = binary
    return made


LENGTH, LONG, DOUBLE, STAMP = struct.Struct("<i"), struct.Struct("<q"), struct.Struct("<d"), struct.Struct("<II")


def _fixed(packing, made=None):
    """The reader of a value of one size."""
    unpack, size = packing.unpack_from, packing.size
    if made is None:
        return lambda data, at: (unpack(data, at)[0], at + size)
    return lambda data, at: (made(*unpack(data, at)), at + size)


def _constant(value):
    return lambda data, at: (value, at)


def _read_text(data, at, made=None):
    end = at + 3 + LENGTH.unpack_from(data, at)[0]
    text = data[at + 4:end].decode()
    return (made(text) if made else text), end + 1


def _read_name(data, at):
    end = data.index(0, at)
    return data[at:end].decode(), end + 1


def read_document(data, at):
    found, at = {}, at + 4
    while True:
        kind = data[at]
        if kind == 0:
            return found, at + 1
        end = data.index(0, at)
        found[data[at + 1:end].decode()], at = READERS[kind](data, end + 1)


def _read_array(data, at):
    found, at = [], at + 4
    while True:
        kind = data[at]
        if kind == 0:
            return found, at + 1
        value, at = READERS[kind](data, data.index(0, at) + 1)
        found.append(value)


def _read_binary(data, at):
    size, subtype = LENGTH.unpack_from(data, at)[0], data[at + 4]
    end = at + 5 + size
    inside = data[at + 5 + (4 if subtype == 2 else 0):end]
    if subtype == 0:
        return inside, end
    return (uuid.UUID(bytes=inside) if subtype == 4 and len(inside) == 16 else Binary(inside, subtype)), end


def _read_date(data, at):
    millis = LONG.unpack_from(data, at)[0]
    try:
        return scalars.datetime_of(millis), at + 8
    except OverflowError:
        return DatetimeMS(millis), at + 8


def _read_regex(data, at):
    pattern, at = _read_name(data, at)
    options, at = _read_name(data, at)
    return Regex(pattern, options), at


def _read_pointer(data, at):
    namespace, at = _read_text(data, at)
    return DBPointer(namespace, object_id(data[at:at + 12])), at + 12


def _read_scoped(data, at):
    code, at = _read_text(data, at + 4)
    scope, at = read_document(data, at)
    return Code(code, scope), at


READERS = {
    0x01: _fixed(DOUBLE), 0x02: _read_text, 0x03: read_document, 0x04: _read_array, 0x05: _read_binary,
    0x06: _constant(Undefined()), 0x07: lambda data, at: (object_id(data[at:at + 12]), at + 12),
    0x08: lambda data, at: (data[at] == 1, at + 1), 0x09: _read_date, 0x0A: _constant(None), 0x0B: _read_regex,
    0x0C: _read_pointer, 0x0D: functools.partial(_read_text, made=Code), 0x0E: functools.partial(_read_text, made=Symbol),
    0x0F: _read_scoped, 0x10: _fixed(LENGTH), 0x11: _fixed(STAMP, lambda increment, time: Timestamp(time, increment)),
    0x12: _fixed(LONG, Int64), 0x13: lambda data, at: (scalars.decimal_of(data[at:at + 16]), at + 16),
    0x7F: _constant(MaxKey()), 0xFF: _constant(MinKey()),
}
