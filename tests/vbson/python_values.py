"""`vbson.loads` and `vbson.dumps`, by plain values, and by those of bson where that package is there. The last line is
'N passed, M failed'."""
import datetime
import decimal
import pickle
import re
import struct
import sys
import uuid

import vbson
from python_check import end, fields, raises, want
from vbson import _calls, _types
from vbson.values import Binary, Code, DBPointer, DatetimeMS, Int64, MaxKey, MinKey, ObjectId, Regex, Symbol, Timestamp, Undefined

UTC = datetime.timezone.utc
ID = bytes.fromhex("53e37d08776f724e42000000")
TEXTS = (
    ('{"$numberInt":"5"}', 5), ('{"$numberLong":"5"}', Int64(5)), ('{"$numberDouble":"1.5"}', 1.5), ('"a\\u0000é"', "a\0é"),
    ("null", None), ("true", True), ("false", False), ("[]", []), ("{}", {}), ('[{"$numberInt":"1"},"a"]', [1, "a"]),
    ('{"b":{"$numberInt":"1"},"a":{"d":null,"c":[]}}', {"b": 1, "a": {"d": None, "c": []}}),
    ('{"$binary":{"base64":"AQI=","subType":"00"}}', b"\1\2"), ('{"$binary":{"base64":"AQI=","subType":"02"}}', Binary(b"\1\2", 2)),
    ('{"$binary":{"base64":"AQI=","subType":"80"}}', Binary(b"\1\2", 128)),
    ('{"$binary":{"base64":"AAAAAAAAAAAAAAAAAAAAAQ==","subType":"04"}}', uuid.UUID(int=1)),
    ('{"$binary":{"base64":"AA==","subType":"04"}}', Binary(b"\0", 4)), ('{"$undefined":true}', Undefined()),
    ('{"$oid":"53e37d08776f724e42000000"}', ObjectId(ID)), ('{"$date":{"$numberLong":"-1"}}', datetime.datetime(1969, 12, 31, 23, 59, 59, 999000, UTC)),
    ('{"$date":{"$numberLong":"253402300800000"}}', DatetimeMS(253402300800000)),
    ('{"$regularExpression":{"pattern":"a(","options":"im"}}', Regex("a(", "im")),
    ('{"$dbPointer":{"$ref":"n","$id":{"$oid":"53e37d08776f724e42000000"}}}', DBPointer("n", ObjectId(ID))),
    ('{"$code":"f"}', Code("f")), ('{"$code":"f","$scope":{"x":{"$numberInt":"1"}}}', Code("f", {"x": 1})), ('{"$symbol":"s"}', Symbol("s")),
    ('{"$timestamp":{"t":4294967295,"i":2}}', Timestamp(4294967295, 2)), ('{"$numberDecimal":"19.90"}', decimal.Decimal("19.90")),
    ('{"$numberDecimal":"-0E-6176"}', decimal.Decimal("-0E-6176")), ('{"$minKey":1}', MinKey()), ('{"$maxKey":1}', MaxKey()),
    ('{"$ref":"n","$id":{"$numberInt":"1"}}', {"$ref": "n", "$id": 1}),
)


def try_plain():
    for text, value in TEXTS:
        found = vbson.loads(text, types="plain")
        want(f"{text} there", found, value)
        want(f"{text} and back", vbson.dumps(value, types="plain"), text)
        want(f"{text} in a list", vbson.dumps(vbson.loads(f"[{text}]", types="plain"), types="plain"), f"[{text}]")
        want(f"{text} pickled", pickle.loads(pickle.dumps(found)), value)
    want("Decimal keeps its zeros", str(vbson.loads('{"$numberDecimal":"19.90"}', types="plain")), "19.90")
    want("a negative zero", struct.pack("<d", vbson.loads('{"$numberDouble":"-0.0"}', types="plain")), struct.pack("<d", -0.0))
    for text, value in (("1.5", 1.5), ("1.0", 1.0), ("1e16", 1e16), ("-0.0", -0.0), ("5e-324", 5e-324),
                        ("1.7976931348623157e308", sys.float_info.max)):
        want(f"{text} there, relaxed", repr(vbson.loads(text, types="plain")), repr(value))
        want(f"{text} and back, relaxed", vbson.dumps(value, "relaxed", types="plain"), text)
    want("an infinity, relaxed", vbson.dumps([float("-inf")], "relaxed", types="plain"), '[{"$numberDouble":"-Infinity"}]')
    want("a scope", vbson.loads('{"$code":"f","$scope":{"x":{"$numberInt":"1"}}}', types="plain").scope, {"x": 1})
    want("an id's text", str(ObjectId(ID)), ID.hex())
    for value, text in (((1, (2,)), "[1,[2]]"), (bytearray(b"a"), '{"$binary":{"base64":"YQ==","subType":"00"}}'), (2**31, "2147483648"),
                        (memoryview(b"a"), '{"$binary":{"base64":"YQ==","subType":"00"}}'), (Int64(1), "1"),
                        (re.compile("a", re.I | re.X), '{"$regularExpression":{"pattern":"a","options":"ix"}}')):
        want(f"{value!r} in the relaxed form", vbson.dumps(value, "relaxed", types="plain"), text)
    for value, error in ((object(), vbson.UnsupportedType), ({1: 2}, vbson.UnsupportedType), ([datetime.time()], vbson.UnsupportedType),
                         (2**63, vbson.IntegerTooLarge), (-2**63 - 1, vbson.IntegerTooLarge), ({"a\0": 1}, vbson.NotEncodable), (Regex("\0"), vbson.NotEncodable),
                         (datetime.datetime(2020, 1, 1), vbson.NotRepresentable), (decimal.Decimal("1E+7000"), vbson.InvalidString),
                         ("\ud800", vbson.NotEncodable)):
        raises(f"{value!r}", error, vbson.dumps, value, types="plain")


def try_both(types):
    """What holds of either types."""
    text = '{"_id":{"$numberInt":"1"},"b":{"$numberDouble":"1.5"},"a":[{"d":true,"c":null}]}'
    value = {"_id": 1, "b": 1.5, "a": [{"d": True, "c": None}]}
    want("a document", vbson.loads(text, types=types), value)
    want("its keys", list(vbson.loads('{"b":1,"a":2,"_id":3,"b":4}', types=types).items()), [("b", 4), ("a", 2), ("_id", 3)])
    want("its keys sorted", list(vbson.loads('{"b":1,"a":2}', types, keep_order=False)), ["a", "b"])
    want("its text", vbson.dumps(value, types=types), text)
    want("its text with an id behind", vbson.dumps({"b": 1, "_id": 2}, "relaxed", types=types), '{"b":1,"_id":2}')
    want("its text sorted", vbson.dumps({"b": 1, "a": 2}, vbson.RELAXED, types, keep_order=False), '{"a":2,"b":1}')
    want("bytes and a relaxed text", vbson.loads(b'{"n": 5, "at": {"$date": "1970-01-01T00:00:00Z"}}', types=types),
         {"n": 5, "at": datetime.datetime(1970, 1, 1, tzinfo=UTC)})
    want("a relaxed text with doubles", vbson.dumps(value, "relaxed", types=types), '{"_id":1,"b":1.5,"a":[{"d":true,"c":null}]}')
    want("that text again", vbson.loads(vbson.dumps(value, "relaxed", types=types), types=types), value)
    want("a UUID", vbson.loads('{"$uuid":"00000000-0000-0000-0000-000000000001"}', types=types), uuid.UUID(int=1))
    want("a UUID's text", vbson.dumps(uuid.UUID(int=1), types=types), '{"$binary":{"base64":"AAAAAAAAAAAAAAAAAAAAAQ==","subType":"04"}}')
    want("a decimal's text", vbson.dumps(decimal.Decimal("0.10"), types=types), '{"$numberDecimal":"0.10"}')
    want("a number alone", (vbson.loads("5", types=types), vbson.dumps(5, "relaxed", types=types)), (5, "5"))
    for given in ("", "[1", '1,"w":2', '5}, {"v":6', "1 2", "nul"):
        raises(f"no text {given!r}", vbson.NotJson, vbson.loads, given, types=types)
    raises("no Extended JSON", vbson.NotExtendedJson, vbson.loads, '[{"$numberInt":"x"}]', types=types)
    raises("a double", vbson.NotExtendedJson, vbson.loads, "[1.5]", types, doubles=False)
    raises("a double's text", vbson.NotRepresentable, vbson.dumps, [1.5], "relaxed", types, doubles=False)
    raises("an id", vbson.BadObjectId, vbson.loads, '{"$oid":"5"}', types=types)
    raises("a 0 byte in a key", vbson.NotEncodable, vbson.loads, '{"a\\u0000":1}', types=types)
    raises("a 0 byte in a key there", vbson.NotEncodable, vbson.dumps, {"a\0": 1}, types=types)
    raises("no value", vbson.UnsupportedType, vbson.dumps, object(), types=types)
    raises("not representable", TypeError, vbson.loads, 5, types=types)
    values, refused = vbson.loads_lines('{"b":1,"a":[{"$ref":"x","$id":1}]}\n[1]\n{"$oid":"5"}\n\n{"b":1.5}\n', types=types)
    want("values of lines", values, [vbson.loads('{"b":1,"a":[{"$ref":"x","$id":1}]}', types=types), {"b": 1.5}])
    want("the keys of lines", [*map(list, values)], [["b", "a"], ["b"]])
    want("lines of no values", [(number, type(it)) for number, it in refused], [(2, vbson.NotADocument), (3, vbson.BadObjectId)])
    want("no lines", vbson.loads_lines("", types=types), ([], []))
    for given in ('"~"', '["~"]', '{"~":"~"}', '"\\u007e"', '{"\\u007e":1,"~":2}', '{"a":{"~":1}}'):
        want(f"{given} there and back", vbson.dumps(vbson.loads(given, types=types), "relaxed", types=types),
             '{"~":2}' if ":2" in given else given.replace("\\u007e", "~"))
    for given in ('1,"~":2', '1,"\\u007e":2', '5},{"~":6', '[1],"a":[2]', '{"a":1},"a":2', '1,', '1}', "\ufeff1"):
        raises(f"no text {given!r}", vbson.NotJson, vbson.loads, given, types=types)
    raises("no form", ValueError, vbson.dumps, 5, "show", types=types)
    raises("no form by number", ValueError, vbson.dumps, 5, 3, types=types)
    raises("a long int", vbson.IntegerTooLarge, vbson.dumps, [2**64], types=types)
    raises("no truth value", TypeError, vbson.loads, "{}", types, doubles=1)
    deep = "[" * 126 + "]" * 126
    raises("nested 127 deep", vbson.NotJson, vbson.loads, f"[{deep}]", types=types)
    nested = []
    for _ in range(98):
        nested = [nested]
    want("nested 99 deep", vbson.dumps(nested, types=types), "[" * 99 + "]" * 99)
    raises("nested 100 deep", vbson.NotADocument, vbson.dumps, [nested], types=types)
    want("nested 126 deep", type(vbson.loads(deep, types=types)), list)


def try_bson():
    from bson import Binary as TheirBinary, Code as TheirCode, DBRef, Decimal128, Int64 as TheirInt64, MinKey as TheirMinKey
    from bson import ObjectId as TheirId, Regex as TheirRegex, Timestamp as TheirTimestamp
    try_both("bson")
    try_damaged("bson")
    for text, value in (('{"$oid":"53e37d08776f724e42000000"}', TheirId(ID)), ('{"$numberLong":"5"}', TheirInt64(5)),
                        ('{"$numberDecimal":"19.90"}', Decimal128("19.90")), ('{"$binary":{"base64":"AQI=","subType":"80"}}', TheirBinary(b"\1\2", 128)),
                        ('{"$regularExpression":{"pattern":"a(","options":"im"}}', TheirRegex("a(", "im")),
                        ('{"$timestamp":{"t":1,"i":2}}', TheirTimestamp(1, 2)), ('{"$code":"f","$scope":{"x":null}}', TheirCode("f", {"x": None})),
                        ('{"$minKey":1}', TheirMinKey()), ('{"$ref":"n","$id":{"$numberInt":"1"}}', DBRef("n", 1)),
                        ('[{"$ref":"n","$id":{"$numberInt":"1"}}]', [DBRef("n", 1)])):
        want(f"{text} there, bson", vbson.loads(text, "bson"), value)
        want(f"{text} and back, bson", vbson.dumps(value, types="bson"), text)
    import bson
    from bson import json_util
    moments = [datetime.datetime.fromtimestamp(millis / 1000, UTC) for millis in (0, 500, 5, 120, 123, 1000, 253402300799000, -1)]
    value = {"at": moments, "stamp": TheirTimestamp(1, 2), "regex": TheirRegex("a(", "im"), "id": TheirId(ID), "n": [5, TheirInt64(5), 1.5, True, None],
             "code": TheirCode("f", {"x": "y"}), "bytes": TheirBinary(b"\1\2", 128), "price": Decimal128("19.90"), "min": TheirMinKey()}
    for form, options in (("canonical", json_util.CANONICAL_JSON_OPTIONS), ("relaxed", json_util.RELAXED_JSON_OPTIONS)):
        wanted = json_util.dumps(value, json_options=options, separators=(",", ":"))
        want(f"the {form} form of json_util", vbson.dumps(value, form, "bson"), wanted)
        want(f"the {form} form of json_util from bytes", vbson.decode(bson.encode(value), form), wanted)
        want(f"the {form} form of json_util from text", vbson.convert(wanted, form), wanted)
        want(f"the {form} form with another layout", vbson.dumps(value, form, "bson", mongodb_layout=False) == wanted, False)
    zone = datetime.timezone(datetime.timedelta(hours=-5, minutes=-30))
    for moment in (datetime.datetime(2020, 1, 1), datetime.datetime(1969, 12, 31, 23, 59, 59, 999999), datetime.datetime(1, 1, 1, 0, 0, 0, 1),
                   datetime.datetime(9999, 12, 31, 23, 59, 59, 999999, UTC), datetime.datetime(1960, 2, 29, 1, 2, 3, 4567, zone)):
        want(f"{moment!r} alone", vbson.dumps(moment, types="bson"), vbson.dumps([moment], types="bson")[1:-1])
        want(f"{moment!r} as bson has it", bson.decode(vbson.encode('{"v":%s}' % vbson.dumps(moment, types="bson")))["v"], bson.decode(bson.encode({"v": moment}))["v"])
    raises("a UUID of one byte", vbson.NoValue, vbson.loads, '{"$binary":{"base64":"AA==","subType":"04"}}', "bson")
    text = '{"a":[1,{"b":{"$binary":{"base64":"AA==","subType":"04"}}}]}'
    want("its path", fields(vbson.loads, text, "bson")[::2][:2], (vbson.NoValue, ["a", 1, "b"]))
    want("its path in lines", fields(vbson.loads_lines, '{}\n' + text, "bson")[2], [1, "a", 1, "b"])
    dump = vbson.encode("{}") * 3 + vbson.encode(text)
    want("its path in a dump", fields(vbson.loads_documents, dump, "bson")[2], [3, "a", 1, "b"])
    want("its path in a stream", fields(lambda: [*vbson.iter_documents([dump[:12], dump[12:]], "bson")])[2], [3, "a", 1, "b"])


def try_damaged(types):
    """What the compiled module reads of damaged bytes: whatever it is, it stays in them, and whole ones are read as without."""
    if _calls.extension is None:
        return
    kinds, seen = _types.types_of(types), 0
    for text, _ in TEXTS:
        document = vbson.encode(f'{{"a":{text},"b":[{text}]}}')
        for given in (document, vbson.encode(f'{{"v":{text}}}'), vbson.encode(f'{{"v":{{"a":1,"$ref":"b","c":[{text}]}}}}')):
            want(f"{given.hex()} as without", outcome(_calls.extension.value_of, given, kinds._made), outcome(kinds._only, given))
        whole = [document[:at] for at in range(len(document))]
        whole += [document[:at // 8] + bytes([document[at // 8] ^ 1 << at % 8]) + document[at // 8 + 1:] for at in range(8 * len(document))]
        for given in whole:
            outcome(_calls.extension.value_of, given, kinds._made)
            outcome(_calls.extension.documents_of, 0, given, kinds._made)
            outcome(_calls.extension.documents_of, _calls.ADDRESSES["is_document"], given, kinds._made)
            seen += 1
    want("damaged bytes", seen > 10000, True)


def outcome(call, *arguments):
    try:
        return repr(call(*arguments))
    except Exception as error:
        return type(error).__name__


def has_bson():
    try:
        import bson.codec_options
    except ImportError:
        return False
    return True


try_plain()
try_both("plain")
try_damaged("plain")
for name in ("other", "Bson", 5, None):
    raises(f"no types {name!r}", ValueError, vbson.loads, "5", types=name)
if has_bson():
    try_bson()
else:
    raises("types of bson", ModuleNotFoundError, vbson.loads, "5", types="bson")
want("the types by default", vbson.loads('{"$minKey":1}'), MinKey())
want("an id's repr", (repr(ObjectId(ID)), ObjectId(ID.hex()), eval(repr(ObjectId(ID)))), (f"ObjectId('{ID.hex()}')", ObjectId(ID), ObjectId(ID)))
raises("an id of one byte", ValueError, ObjectId, b"1")
raises("an id of 23 digits", vbson.InvalidString, ObjectId, "0" * 23)
end()
