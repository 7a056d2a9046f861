"""The path to a value, as a list of keys and indexes: from the library's array, and in the bytes of a document."""
import math
import re
import struct

_DOUBLE = struct.Struct("<d")
_SIZES = {0x01: 8, 0x06: 0, 0x07: 12, 0x08: 1, 0x09: 8, 0x0A: 0, 0x10: 4, 0x11: 8, 0x12: 8, 0x13: 16, 0x7F: 0, 0xFF: 0}
# How many bytes a value has in addition to the number at its start.
_SIZES_AFTER_LENGTH = {0x02: 4, 0x03: 0, 0x04: 0, 0x05: 5, 0x0C: 16, 0x0D: 4, 0x0E: 4, 0x0F: 0}
_STRING, _DOCUMENT, _ARRAY, _SCOPED = 0x02, 0x03, 0x04, 0x0F


def joined(path):
    """Returns the keys and indexes, joined by points, as the library writes a path."""
    return ".".join(_shown(str(it)) for it in path)


def _shown(key):
    """Returns a key as the library writes it in a path."""
    return re.sub("[\0-\x1f\x7f-\x9f\u2028\u2029]", lambda it: f"\\u{ord(it[0]):04x}", key)


def of_array(data):
    """Returns the path of an array of the library: strings are keys, and integers of 64 bits indexes."""
    return [data[start + 4:end - 1].decode() if tag == _STRING else int.from_bytes(data[start:end], "little")
            for _, tag, start, end in elements(data, 0, True)]


def _value_end(data, tag, at):
    """Returns where the value of this tag ends; after the data if it can't be followed or is cut off."""
    end = len(data) + 1
    if tag in _SIZES:
        return at + _SIZES[tag]
    if tag == 0x0B:
        options = data.find(0, at) + 1
        return (data.find(0, options) + 1 or end) if options else end
    length = int.from_bytes(data[at:at + 4], "little", signed=True)
    return at + length + _SIZES_AFTER_LENGTH[tag] if tag in _SIZES_AFTER_LENGTH and 0 <= length < end - at else end


def elements(data, at, is_array):
    """Yields the key or index, the tag, and where the value begins and ends, of each element that can be followed."""
    at, index = at + 4, 0
    while at < len(data) and data[at] != 0:
        zero = data.find(0, at + 1)
        if zero < 0:
            return
        end = _value_end(data, data[at], zero + 1)
        yield index if is_array else data[at + 1:zero].decode(errors="replace"), data[at], zero + 1, end
        at, index = end, index + 1


def inside_of(data, tag, at):
    """Returns where the document inside a value begins, and the keys on the way to it; None if there is no document."""
    if tag in (_DOCUMENT, _ARRAY):
        return at, []
    if tag == _SCOPED:
        return at + 8 + max(0, int.from_bytes(data[at + 4:at + 8], "little", signed=True)), ["$scope"]
    return None


def at_offset(data, offset):
    """Returns the path to the innermost value whose bytes, with its key, contain an offset."""
    path, inside, is_array = [], (0, []), False
    while inside is not None and inside[0] + 4 <= offset:
        found = next((it for it in elements(data, inside[0], is_array) if it[3] > offset), None)
        path += inside[1]
        if found is None:
            break
        key, tag, start, _ = found
        path.append(key)
        inside, is_array = inside_of(data, tag, start), tag == _ARRAY
    return path


def of_finite_double(data, at=0, is_array=False):
    """Returns the path to the first finite double other than zero; None if there is none."""
    for key, tag, start, end in elements(data, at, is_array):
        if tag == 0x01 and end <= len(data):
            number = _DOUBLE.unpack_from(data, start)[0]
            if math.isfinite(number) and number != 0:
                return [key]
        inside = inside_of(data, tag, start)
        found = of_finite_double(data, inside[0], tag == _ARRAY) if inside else None
        if found is not None:
            return [key, *inside[1], *found]
    return None
