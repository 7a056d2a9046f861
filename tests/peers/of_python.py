"""What the package bson of PyMongo (Debian's python3-bson) makes of documents, and what documents are made of for it."""
import datetime
import struct

from bson import codec_options
from bson.binary import Binary, UuidRepresentation
from bson.code import Code
from bson.codec_options import CodecOptions
from bson.dbref import DBRef
from bson.decimal128 import Decimal128
from bson.int64 import Int64
from bson.max_key import MaxKey
from bson.min_key import MinKey
from bson.objectid import ObjectId
from bson.regex import Regex
from bson.timestamp import Timestamp

EPOCH = datetime.datetime(1970, 1, 1, tzinfo=datetime.timezone.utc)
YEARS = range(-62135596800000, 253402300800000)
UNSPECIFIED = UuidRepresentation.UNSPECIFIED
OPTIONS = CodecOptions(tz_aware=True, uuid_representation=UNSPECIFIED)
# (before this option a value of subtype 3 became one of 4)
HAS_VERSION_4 = hasattr(codec_options, "DatetimeConversion")


def has_far_date(value):
    """Whether a date in it is outside the years 1 to 9999, of which it has no datetime."""
    kind, content = value
    if kind == "DateTime":
        return content not in YEARS
    inside = {"Array": lambda: content, "Document": lambda: [it for _, it in content],
              "JavaScriptCodeWithScope": lambda: [it for _, it in content[1]]}
    return any(has_far_date(it) for it in inside[kind]()) if kind in inside else False


def made_of(value):
    """The value of Python for a value, by kind."""
    kind, content = value
    return MADE[kind](content)


def dict_of(pairs):
    return {key: made_of(value) for key, value in pairs}


def date_of(millis):
    return EPOCH + datetime.timedelta(milliseconds=millis)


MADE = {
    "Double": lambda it: struct.unpack(">d", it.to_bytes(8, "big"))[0], "String": str, "Document": dict_of,
    "Array": lambda it: [made_of(x) for x in it], "Binary": lambda it: it[1] if it[0] == 0 else Binary(it[1], it[0]),
    "Undefined": lambda _: None, "ObjectId": ObjectId, "Boolean": bool, "DateTime": date_of, "Null": lambda _: None,
    "RegularExpression": lambda it: Regex(*it), "DbPointer": lambda it: DBRef(it[0], ObjectId(it[1])), "JavaScriptCode": Code,
    "Symbol": str, "JavaScriptCodeWithScope": lambda it: Code(it[0], dict_of(it[1])), "Int32": int,
    "Timestamp": lambda it: Timestamp(*it), "Int64": Int64, "Decimal128": Decimal128.from_bid, "MaxKey": lambda _: MaxKey(),
    "MinKey": lambda _: MinKey(),
}


def of_its_writer(value, is_top=True):
    """The value that its writer makes of what is read: what the types of Python do not distinguish."""
    kind, content = value
    if kind == "Document":
        pairs = [(key, of_its_writer(it, False)) for key, it in content]
        return kind, sorted(pairs, key=lambda it: it[0] != "_id") if is_top else pairs
    if kind == "Array":
        return kind, [of_its_writer(it, False) for it in content]
    if kind == "JavaScriptCodeWithScope":
        return kind, (content[0], [(key, of_its_writer(it, False)) for key, it in content[1]])
    if kind == "DbPointer":
        return "Document", [("$ref", ("String", content[0])), ("$id", ("ObjectId", content[1]))]
    return {"Undefined": ("Null", None), "Symbol": ("String", content)}.get(kind, value)


def with_uuids(value):
    """What comes back where UUIDs of the standard representation are asked for: with an old version, of subtype 3 too."""
    kind, content = value
    if kind == "Document":
        return kind, [(key, with_uuids(it)) for key, it in content]
    if kind == "Array":
        return kind, [with_uuids(it) for it in content]
    if kind == "JavaScriptCodeWithScope":
        return kind, (content[0], [(key, with_uuids(it)) for key, it in content[1]])
    return (kind, (4, content[1])) if kind == "Binary" and content[0] == 3 and not HAS_VERSION_4 else value


def alike(found, wanted):
    """Whether two values of Python are the same, in their types, the order of keys and the bits of doubles."""
    if type(found) is not type(wanted):
        return False
    if isinstance(found, dict):
        return list(found) == list(wanted) and all(alike(found[key], wanted[key]) for key in found)
    if isinstance(found, list):
        return len(found) == len(wanted) and all(map(alike, found, wanted))
    if isinstance(found, float):
        return struct.pack("<d", found) == struct.pack("<d", wanted)
    if isinstance(found, Code):
        return str(found) == str(wanted) and alike(found.scope, wanted.scope)
    if isinstance(found, Decimal128):
        return found.bid == wanted.bid
    return found == wanted
