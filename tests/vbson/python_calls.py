"""Each call of the package vbson on texts, bytes and scalars. The last line is 'N passed, M failed'."""
import ctypes
import datetime
import decimal
import struct
import tempfile
import threading
import typing

import signatures
import vbson
from python_check import end, raises, refusal, want

SORTED, SPECIFIED = {"keep_order": False}, vbson.SPECIFIED

def sip13(data):
    """SipHash-1-3 under the key 0 (Aumasson and Bernstein)."""
    mask = 2**64 - 1
    v = [0x736F6D6570736575, 0x646F72616E646F6D, 0x6C7967656E657261, 0x7465646279746573]

    def turn(it, by):
        return (it << by | it >> 64 - by) & mask

    def step():
        a, b, c, d = v
        a, c = a + b & mask, c + d & mask
        b, d = turn(b, 13) ^ a, turn(d, 16) ^ c
        a, c = turn(a, 32) + d & mask, c + b & mask
        b, d = turn(b, 17) ^ c, turn(d, 21) ^ a
        v[:] = a, b, turn(c, 32), d

    last = (len(data) & 255) << 56
    whole = len(data) // 8 * 8
    words = [*struct.unpack(f"<{whole // 8}Q", data[:whole]), last | int.from_bytes(data[whole:], "little")]
    for word in words:
        v[3] ^= word
        step()
        v[0] ^= word
    v[2] ^= 255
    for _ in range(3):
        step()
    return v[0] ^ v[1] ^ v[2] ^ v[3]


def try_texts():
    want("canonical", vbson.convert('{"b":2147483648,"a":-5}', **SORTED),
         '{"a":{"$numberInt":"-5"},"b":{"$numberLong":"2147483648"}}')
    want("relaxed", vbson.convert(b'{"$numberLong":"5"}', vbson.RELAXED), "5")
    want("shown", vbson.convert('{"$code":""}', vbson.SHOW), "")
    want("U+0000", vbson.convert('"a\\u0000b"', vbson.SHOW), '"a\0b"')
    want("other scripts", vbson.convert('"\u00e9\U0001f600"', vbson.RELAXED), '"\u00e9\U0001f600"')
    want("a bytearray", vbson.convert(bytearray(b"[1]"), vbson.RELAXED), "[1]")
    raises("not representable", vbson.NotJson, vbson.convert, "")
    raises("a lone surrogate", vbson.NotJson, vbson.convert, '"\ud800"')
    for name, mode in (("canonical", vbson.CANONICAL), ("relaxed", vbson.RELAXED), ("show", vbson.SHOW)):
        want(f"the mode {name}", vbson.convert("[5]", name), vbson.convert("[5]", mode))
    for it in (5, None, {"a": 1}, ["{}"], 1.5, object()):
        for call in (vbson.convert, vbson.hash_of, vbson.decimal128, vbson.object_id, vbson.date_time):
            raises(f"{call.__name__} of {it}", TypeError, call, it)
        raises(f"the same as {it}", TypeError, vbson.same, "{}", it)
    for mode in (3, -1, 2**32, "", "Canonical", "0"):
        raises(f"no mode {mode}", ValueError, vbson.convert, "{}", mode)
    for mode in (True, False, 1.0, None, b"show"):
        raises(f"no mode {mode!r}", TypeError, vbson.convert, "{}", mode)
    try:
        vbson.convert({"a": 1})
    except TypeError as it:
        want("the words for a dict", str(it), "a text is str or bytes, and not dict")
    raises("a bad id", vbson.BadObjectId, vbson.convert, '{"$oid":"5"}')
    raises("a double", vbson.NotExtendedJson, vbson.convert, "1.5", **SPECIFIED)
    want("same", vbson.same('{"a":1,"b":2}', '{"b":2,"a":1}'), True)
    want("different", vbson.same("[1,2]", "[2,1]"), False)
    # (where the output means another value, as the docs say, and beside it where not)
    for text, mode, is_same in (('{"$numberDecimal":"-NaN"}', "canonical", False), ('{"$numberDecimal":"sNaN"}', "relaxed", False),
                                ('{"$numberDecimal":"NaN"}', "canonical", True), ('{"$numberLong":"5"}', "relaxed", False),
                                ('{"$numberLong":"5"}', "canonical", True), ('{"$numberLong":"2147483648"}', "relaxed", True),
                                ('{"$numberDouble":"-NaN"}', "relaxed", True), ('{"$numberDecimal":"0E+7000"}', "relaxed", True)):
        want(f"{text} and its {mode} form", vbson.same(text, vbson.convert(text, mode)), is_same)
    raises("the first error", vbson.NotJson, vbson.same, "", '{"$oid":"5"}')


def try_doubles():
    canonical, relaxed = '{"a":{"$numberDouble":"100.0"},"b":{"$numberDouble":"1.5"}}', '{"a":100.0,"b":1.5}'
    for mode, written in (("canonical", canonical), ("relaxed", relaxed)):
        want(f"doubles in the {mode} form", vbson.convert('{"b":1.5,"a":1e2}', mode, **SORTED), written)
        want(f"none in the {mode} form", vbson.convert("[5]", mode, doubles=False), vbson.convert("[5]", mode))
        raises(f"a double in the {mode} form", vbson.NotExtendedJson, vbson.convert, "1.5", mode, doubles=False)
    for text in ("12.5", "1.0", "-0.0", "0.0", "5e-324", "1e16", "1.7976931348623157e308"):
        wrapped = f'{{"$numberDouble":"{text}"}}'
        want(f"{text} in the relaxed form", vbson.convert(wrapped, "relaxed"), text)
        want(f"{text} in the canonical form", vbson.convert(text, "canonical"), wrapped)
    for text in ("NaN", "-NaN", "Infinity", "-Infinity"):
        wrapped = f'{{"$numberDouble":"{text}"}}'
        want(f"{text} in the relaxed form", vbson.convert(wrapped, "relaxed"), wrapped)
    want("a zero without", vbson.convert('{"$numberDouble":"-0.0"}', "relaxed", doubles=False), '{"$numberDouble":"-0.0"}')
    raises("a double that is not finite", vbson.NotExtendedJson, vbson.convert, '{"$numberDouble":"1e400"}')
    for it in (1, 0, None, "yes", 2):
        raises(f"doubles {it!r}", TypeError, vbson.convert, "{}", doubles=it)
        raises(f"doubles {it!r} explained", TypeError, vbson.explain, "{}", doubles=it)


def try_order():
    text, twice = '{"b":{"d":1,"c":2},"a":3}', '{"b":1,"a":1.5,"b":2}'
    want("keys in order", vbson.convert(text, "relaxed"), text)
    want("keys sorted", vbson.convert(text, "relaxed", keep_order=False), '{"a":3,"b":{"c":2,"d":1}}')
    want("keys in order shown", vbson.convert('{"b":1,"a":2}', "show", doubles=False), '{ "b": 1, "a": 2 }')
    want("a key twice", vbson.convert(twice, "relaxed"), '{"b":2,"a":1.5}')
    raises("a double in order", vbson.NotExtendedJson, vbson.convert, twice, "relaxed", doubles=False)
    want("lines in order", vbson.convert_lines('{"b":1,"a":2}\n[1.5]\n', "relaxed", doubles=False)[0], b'{"b":1,"a":2}\n')
    document = vbson.encode(twice)
    want("bytes in order", document.hex(), "170000001062000200000001610000000000" + "0000f83f00")
    want("bytes sorted", vbson.encode('{"b":null,"a":null}', **SORTED).hex(), "0b0000000a61000a620000")
    want("decoded in order", vbson.decode(document, "relaxed"), '{"b":2,"a":1.5}')
    want("decoded and sorted", vbson.decode(document, "relaxed", **SORTED), '{"a":1.5,"b":2}')
    for it in (1, 0, None, "yes"):
        raises(f"keep_order {it!r}", TypeError, vbson.convert, "{}", keep_order=it)
        raises(f"keep_order {it!r} of bytes", TypeError, vbson.decode, document, keep_order=it)
        raises(f"keep_order {it!r} of lines", TypeError, vbson.convert_lines, b"", keep_order=it)
        raises(f"keep_order {it!r} to bytes", TypeError, vbson.encode, "{}", keep_order=it)


def try_layout():
    date, stamp = '{"at":{"$date":{"$numberLong":"500"}}}', '{"$timestamp":{"t":1,"i":2}}'
    other_date, other_stamp = '{"at":{"$date":"1970-01-01T00:00:00.5Z"}}', '{"$timestamp":{"i":2,"t":1}}'
    relaxed, without = '{"at":{"$date":"1970-01-01T00:00:00.500Z"}}', {"mongodb_layout": False}
    want("a date", (vbson.convert(date, "relaxed"), vbson.convert(date, "canonical")), (relaxed, date))
    want("a date of the specification", vbson.convert(date, "relaxed", **without), other_date)
    want("a date with sorted keys", vbson.convert(date, "relaxed", **SORTED), relaxed)
    for mode in ("canonical", "relaxed"):
        want(f"a timestamp in the {mode} form", vbson.convert(other_stamp, mode), stamp)
        want(f"a timestamp of the specification in the {mode} form", vbson.convert(stamp, mode, **without), other_stamp)
        want(f"a timestamp with sorted keys in the {mode} form", vbson.convert(stamp, mode, **SORTED), other_stamp)
    block = f"{date}\n{stamp}\n"
    want("lines", vbson.convert_lines(block, "relaxed"), (f"{relaxed}\n{stamp}\n".encode(), []))
    want("lines of the specification", vbson.convert_lines(block, "relaxed", **without), (f"{other_date}\n{other_stamp}\n".encode(), []))
    document = vbson.encode(f'{{"b":{stamp},"a":{date}}}')
    laid_out, other = f'{{"b":{stamp},"a":{relaxed}}}', f'{{"b":{other_stamp},"a":{other_date}}}'
    want("bytes have no layout", vbson.encode(laid_out, **without), document)
    want("a document", (vbson.decode(document, "relaxed"), vbson.decode(document, "relaxed", **without)), (laid_out, other))
    want("a dump", vbson.decode_documents(document * 2, "relaxed"), (2 * f"{laid_out}\n".encode(), []))
    want("a dump of the specification", vbson.decode_documents(document, "relaxed", **without), (f"{other}\n".encode(), []))
    value = vbson.loads(laid_out)
    want("a value", (vbson.dumps(value, "relaxed"), vbson.dumps(value, "relaxed", **without)), (laid_out, other))
    want("shown", vbson.convert(stamp, "show"), vbson.convert(stamp, "show", **without))
    want("the same", (vbson.same(laid_out, other), vbson.hash_of(laid_out, **without) == vbson.hash_of(other)), (True, True))
    for call, given in ((vbson.hash_of, date), (vbson.is_canonical_text, date), (vbson.explain, date), (vbson.hash_of_document, document),
                        (vbson.is_document, document), (vbson.explain_document, document), (vbson.encode, date), (vbson.loads, date)):
        want(f"{call.__name__} with no layout", call(given, **without), call(given, mongodb_layout=True))


def try_struct():
    """The struct of the options, whose size and fields no keyword can make wrong."""
    calls, library, document = vbson._calls, ctypes.CDLL(vbson._calls.path()), vbson.encode("{}")

    def statuses(*fields):
        options, found = calls.Options(*fields), []
        for call, given in ((library.vbson_convert_nonnull, b"{}"), (library.vbson_decode_nonnull, document)):
            out = calls.empty()
            found.append(call(ctypes.c_uint32(vbson.RELAXED), ctypes.byref(options), given, ctypes.c_size_t(len(given)), ctypes.byref(out)))
            if found[-1] == vbson.OK:
                calls.taken(out)
        return found

    want("its size", ctypes.sizeof(calls.Options), 32)
    for fields in ((32, 0, 0, 0, 0, 0), (32, 0, 0, 0, 0, 1), (32, 1, 1, 0, 0, 1)):
        want(f"the options {fields}", statuses(*fields), [vbson.OK] * 2)
    for fields in ((32, 0, 0, 0, 0, 2), (32, 0, 0, 0, 0, 2**32 - 1), (24, 0, 0, 0, 0, 0), (24, 1, 1, 0, 0, 1), (28, 0, 0, 0, 0, 0), (40, 0, 0, 0, 0, 0)):
        want(f"no options {fields}", statuses(*fields), [vbson.INVALID_ARGUMENT] * 2)


def try_hashes():
    want("no words", vbson.hash_of("null"), sip13(b""))
    want("an Int32", vbson.hash_of("5"), sip13(struct.pack("<i", 5)))
    want("a text", vbson.hash_of('"abc"'), sip13(b"abc\xff"))
    pairs = struct.pack("<Q", 2) + b"a\xff" + struct.pack("<i", 1) + b"b\xff" + struct.pack("<Q", 1) + b"\1"
    want("a document", vbson.hash_of('{"b":[true],"a":1}'), sip13(pairs))
    raises("a hash of nothing", vbson.NotJson, vbson.hash_of, "")


def try_canonical():
    one, other = '{"a":{"$numberDouble":"1.5"},"b":[null]}', '{"b":[null],"a":1.5}'
    for text in (one, other, one + "\n", "null", " null", '{"a":1,"a":2}', "1.5", "", "{", b"\xff"):
        for doubles in (True, False):
            try:
                wanted = vbson.convert(text, doubles=doubles, keep_order=False) == text
            except vbson.Error:
                wanted = False
            want(f"canonical {text!r}", vbson.is_canonical_text(text, doubles=doubles, v1=True, keep_order=False), wanted)
    want("canonical bytes", vbson.is_canonical_text(memoryview(one.encode())), True)
    raises("a number", TypeError, vbson.is_canonical_text, 5)
    raises("doubles that are no bool", TypeError, lambda it: vbson.is_canonical_text("1", doubles=it), 1)


def try_reading():
    """The options of what only reads, on texts and on documents."""
    price, other = '{"a":1,"price":12.5}', '{"price":{"$numberDouble":"12.50"},"a":1}'
    twice, v1 = '{"a":[{"b":1,"b":2}]}', '{"$binary":"AQI=","$type":"00"}'
    v2 = '{"$binary":{"base64":"AQI=","subType":"00"}}'
    want("prices", (vbson.same(price, other), vbson.same(price, "{}", doubles=True)), (True, False))
    want("the hash of a price", vbson.hash_of("12.5", doubles=True), sip13(struct.pack("<d", 12.5)))
    raises("a price without doubles", vbson.NotExtendedJson, vbson.same, price, other, doubles=False)
    raises("the hash of a price without doubles", vbson.NotExtendedJson, vbson.hash_of, price, doubles=False)
    words = "not Extended JSON at a.0.b (duplicate key)"
    wanted = words, ["a", 0, "b"], "duplicate key", vbson.NotExtendedJson
    strict = {"reject_duplicate_keys": True}
    want("duplicate key", refusal(lambda it: vbson.same("1", it, **strict), twice), wanted)
    want("the hash of a duplicate key", refusal(lambda it: vbson.hash_of(it, **strict), twice), wanted)
    want("a duplicate key explained", (vbson.explain(twice), vbson.explain(twice, **strict)), ("", words))
    want("the last value", vbson.same(twice, '{"a":[{"b":2}]}'), True)
    want("v1", (vbson.same(v1, v2, v1=True), vbson.hash_of(v1, v1=True) == vbson.hash_of(v2)), (True, True))
    raises("v1 without its option", vbson.NotExtendedJson, vbson.same, v2, v1)
    want("v1 explained", (vbson.explain(v1, v1=True), vbson.explain(v1) != ""), ("", True))
    wanted = "not JSON at column 9 (expected a comma or a closing bracket)", "not JSON at column 2 (expected a value)"
    want("an error after a word", (vbson.explain("[NaN, 1 2]", v1=True), vbson.explain("[NaN, 1 2]")), wanted)
    for call in (vbson.hash_of, vbson.explain, lambda it, **options: vbson.same(it, it, **options)):
        for name in ("doubles", "reject_duplicate_keys", "v1"):
            raises(f"{name} that is no bool", TypeError, lambda it: call("1", **{it: 1}), name)
    document, turned = vbson.encode(price, **SORTED), vbson.encode(other)
    want("documents", (document != turned, vbson.same_documents(document, turned)), (True, True))
    want("other documents", vbson.same_documents(document, vbson.encode("{}")), False)
    want("the hash of a document", vbson.hash_of_document(memoryview(turned)), vbson.hash_of(price, doubles=True))
    doubled = b"\x13\0\0\0\x10b\0\5\0\0\0\x10b\0\6\0\0\0\0"
    want("the last value of a document", vbson.same_documents(doubled, vbson.encode('{"b":6}')), True)
    wanted = "not a document at byte 12 (duplicate key)", ["b"], "duplicate key", vbson.NotADocument
    want("a duplicate key of a document", refusal(lambda it: vbson.hash_of_document(it, **strict), doubled), wanted)
    want("the first of two documents", refusal(lambda it: vbson.same_documents(it, b"", **strict), doubled), wanted)
    want("the second of two", refusal(lambda it: vbson.same_documents(document, it, **strict), doubled), wanted)
    damaged, wanted = document[:8], refusal(vbson.decode, document[:8])
    want("a damaged document", refusal(lambda it: vbson.same_documents(doubled, it), damaged), wanted)
    want("the hash of a damaged document", refusal(lambda it: vbson.hash_of_document(it, **strict), damaged), wanted)
    raises("a text for a document", TypeError, vbson.same_documents, document, "{}")


def try_machine():
    """Without /proc the processor is not known, and is trusted; with it the instructions are looked for."""
    want("no /proc", vbson._calls.has_needed_instructions("/proc/none"), True)
    with tempfile.NamedTemporaryFile("w") as file:
        for flags, has_both in (("sse4_2 popcnt", True), ("sse4_2", False), ("popcnt", False), ("", False)):
            file.seek(0)
            file.truncate()
            file.write(f"processor : 0\nflags : fpu {flags}\n")
            file.flush()
            want(f"a processor with {flags}", vbson._calls.has_needed_instructions(file.name), has_both)


def try_lines():
    want("lines", vbson.convert_lines("[ 1 ]\n\n{}", "relaxed"), (b"[1]\n{}\n", []))
    want("no lines", vbson.convert_lines(b""), (b"", []))
    text, refused = vbson.convert_lines(b'[1]\n{"a":[1.5]}\n[\n{"$oid":"5"}\n[2]\n', vbson.RELAXED, **SPECIFIED)
    want("lines that are left", text, b"[1]\n[2]\n")
    want("lines that are refused", [number for number, _ in refused], [2, 3, 4])
    for _, error in refused:
        line = {vbson.NotExtendedJson: '{"a":[1.5]}', vbson.NotJson: "[", vbson.BadObjectId: '{"$oid":"5"}'}[type(error)]
        want(f"{line} among lines", (str(error), error.path, error.reason, type(error)), refusal(vbson.convert, line, **SPECIFIED))
    want("lines of doubles", vbson.convert_lines("[1.5]\n", "relaxed"), (b"[1.5]\n", []))
    raises("lines in no mode", ValueError, vbson.convert_lines, b"", 3)
    raises("lines of a list", TypeError, vbson.convert_lines, ["1"])


def try_blocks():
    five, bad = vbson.encode('{"n": 5}'), bytes([9, 0, 0, 0, 8, 97, 0, 2, 0])
    text, refused = vbson.decode_documents(five + bad + five, "relaxed")
    want("documents that are left", text, b'{"n":5}\n{"n":5}\n')
    want("documents that are refused", [it[:2] for it in refused], [(2, 12)])
    error = refused[0][2]
    want("one among documents", (str(error), error.path, error.reason, type(error)), refusal(vbson.decode, bad))
    text, refused = vbson.decode_documents(five + b"\6\0\0\0", vbson.SHOW)
    want("a block that ends early", (text, [it[:2] for it in refused]), (b'{ "n": 5 }\n', [(2, 12)]))
    want("no documents", vbson.decode_documents(b""), (b"", []))
    double = vbson.encode('{"b":1.5,"a":2}')
    want("documents with doubles", vbson.decode_documents(double, "relaxed"), (b'{"b":1.5,"a":2}\n', []))
    error = vbson.decode_documents(double, **SPECIFIED)[1][0][2]
    want("a double among documents", (str(error), error.path, error.reason, type(error)), refusal(vbson.decode, double, **SPECIFIED))
    raises("documents in no mode", ValueError, vbson.decode_documents, b"", 3)
    raises("documents of a text", TypeError, vbson.decode_documents, "")
    given, refused = vbson.encode_lines('{"n": 5}\n[1]\n\n{"a":[1.5]}\n{"a\\u0000":1}\n{"n": 5}', **SPECIFIED)
    want("lines that are encoded", given, five + five)
    want("lines that are not encoded", [it[0] for it in refused], [2, 4, 5])
    for (_, error), line in zip(refused, ("[1]", '{"a":[1.5]}', '{"a\\u0000":1}')):
        want(f"{line} among encoded lines", (str(error), error.path, error.reason, type(error)), refusal(vbson.encode, line, **SPECIFIED))
    want("lines that are encoded in order", vbson.encode_lines('{"b":1.5,"a":2}'), (double, []))
    raises("encoded lines of a list", TypeError, vbson.encode_lines, ["1"])


def try_documents():
    five = bytes.fromhex("0c000000106e000500000000")
    double = bytes.fromhex("10000000016100000000000000f83f00")
    want("decoded", vbson.decode(five), '{"n":{"$numberInt":"5"}}')
    for mode, text in (("relaxed", '{"n":5}'), (vbson.RELAXED, '{"n":5}'), ("show", '{ "n": 5 }')):
        want(f"decoded, {mode}", vbson.decode(bytearray(five), mode), text)
    want("encoded", vbson.encode('{"n": 5}'), five)
    want("encoded bytes", vbson.encode(b'{"n": 5}'), five)
    want("keys ascend", vbson.encode('{"b":null,"a":null}', **SORTED), bytes.fromhex("0b0000000a61000a620000"))
    want("a document", vbson.is_document(memoryview(five)), True)
    want("not a document", [vbson.is_document(five[:n]) for n in range(12)], [False] * 12)
    want("a double", vbson.decode(double, doubles=True), '{"a":{"$numberDouble":"1.5"}}')
    want("a double, relaxed", vbson.decode(double, "relaxed", doubles=True), '{"a":1.5}')
    want("a double shown", vbson.decode(double, "show"), '{ "a": Double(0x3ff8000000000000) }')
    want("a double there", vbson.encode('{"a":1.5}', doubles=True), double)
    raises("a double without", vbson.NotRepresentable, vbson.decode, double, doubles=False)
    raises("a double there without", vbson.NotExtendedJson, vbson.encode, '{"a":1.5}', doubles=False)
    want("no double there", refusal(vbson.encode, '{"a":1.5}', doubles=False)[1:3], (["a"], "not a 64-bit integer; found 1.5"))
    for given, offset, path, why in ((b"", 0, [], "ends too early"), (five + b"\0", 12, [], "trailing bytes after the document"),
                                     (bytes.fromhex("090000000861000200"), 7, ["a"], "a boolean is neither 0 nor 1")):
        words = f"not a document at byte {offset} ({why})"
        want(f"{given.hex()} explained", vbson.explain_document(given), words)
        want(f"{given.hex()} decoded", refusal(vbson.decode, given), (words, path, why, vbson.NotADocument))
    want("nothing to explain", vbson.explain_document(five), "")
    want("another value", refusal(vbson.encode, "[1]"), ("not a document", [], "not a document", vbson.NotADocument))
    want("a 0 byte", refusal(vbson.encode, '{"a\\u0000":1}')[::3], ("a key has a 0 byte in it", vbson.NotEncodable))
    raises("an id", vbson.BadObjectId, vbson.encode, '{"a":{"$oid":"5"}}')
    for it in ("{}", 5, None, [12], 1.5):
        for call in (vbson.decode, vbson.is_document, vbson.explain_document):
            raises(f"{call.__name__} of {it!r}", TypeError, call, it)
    raises("encode of a dict", TypeError, vbson.encode, {"a": 1})
    raises("no mode", ValueError, vbson.decode, five, 3)
    raises("no truth value", TypeError, vbson.decode, five, doubles=1)


# A value of each of the 21 types.
EACH_KIND = """{"a": {"$numberDouble": "1.5"}, "b": "\u00e9", "c": {"x": 1}, "d": [1, null], "e": {"$binary": {"base64": "AAE=", "subType": "80"}},
    "f": {"$undefined": true}, "g": {"$oid": "0102030405060708090a0b0c"}, "h": true, "i": {"$date": {"$numberLong": "-1"}}, "j": null,
    "k": {"$regularExpression": {"pattern": "a", "options": "i"}}, "m": {"$code": "f"}, "n": {"$symbol": "s"},
    "l": {"$dbPointer": {"$ref": "n", "$id": {"$oid": "0102030405060708090a0b0c"}}}, "o": {"$code": "f", "$scope": {"x": 1}},
    "p": {"$numberInt": "5"}, "q": {"$timestamp": {"t": 1, "i": 2}}, "r": {"$numberLong": "5"}, "s": {"$numberDecimal": "1.5"},
    "t": {"$maxKey": 1}, "u": {"$minKey": 1}}"""


def try_raw_documents():
    text = '{"n":5,"big":{"$numberLong":"7"},"text":"\u00e9","at":{"a":null,"b":[1,{"c":true}]},"key":{"$binary":{"base64":"AAE=","subType":"05"}}}'
    given = vbson.encode(text)
    raw, plain = vbson.RawDocument(memoryview(given)), vbson.loads_documents(given)[0]
    want("the values of a raw document", {key: raw[key] for key in raw if key != "at"}, {key: plain[key] for key in plain if key != "at"})
    want("a document inside", ({**raw["at"]}, len(raw["at"]), raw["at"] == plain["at"]), (plain["at"], 2, True))
    want("its bytes", (raw.raw, vbson.decode(raw["at"].raw)), (given, vbson.dumps(plain["at"], "canonical")))
    want("an absent key", (raw.get("absent"), "n" in raw, "a" in raw), (None, True, False))
    raises("an absent key", KeyError, raw.__getitem__, "N")
    for key in ("", "\ud800", "n\0", 5, None, b"n"):
        want(f"the key {key!r}", (raw.get(key), key in raw), (None, False))
        raises(f"the key {key!r}", KeyError, raw.__getitem__, key)
    want("a document of no keys", ({**vbson.RawDocument(bytes([5, 0, 0, 0, 0]))}, len(vbson.RawDocument(bytes([5, 0, 0, 0, 0])))), ({}, 0))
    kinds = vbson.encode(EACH_KIND)
    want("each kind", dict(vbson.RawDocument(kinds).items()), vbson.loads_documents(kinds)[0])
    want("each kind by its key", {key: vbson.RawDocument(kinds)[key] for key in "abcdefghijklmnopqrstu"}, vbson.loads_documents(kinds)[0])
    for size in range(len(given)):
        raises(f"{size} bytes of a document", vbson.NotADocument, vbson.RawDocument, given[:size])
    for it in ("{}", 5, None, [12], {"a": 1}):
        raises(f"a raw document of {it!r}", TypeError, vbson.RawDocument, it)
    twice = bytes.fromhex("1700000010610001000000106100020000000862000100")
    raw = vbson.RawDocument(twice)
    want("a key that is duplicated", (raw["a"], [*raw], len(raw), {**raw}), (2, ["a", "b"], 2, {"a": 2, "b": True}))
    want("no raw document", refusal(vbson.RawDocument, given[:-1])[3], vbson.NotADocument)


def try_small_values():
    want("a decimal", vbson.decimal128("5"), bytes([5, *[0] * 13, 0x40, 0x30]))
    want("a decimal's text", vbson.decimal128_text(vbson.decimal128("19.90")), "19.90")
    want("any pattern has a text", vbson.decimal128_text(b"\xff" * 16), "NaN")
    raises("no decimal", vbson.InvalidString, vbson.decimal128, "1.2.3")
    raises("15 bytes", ValueError, vbson.decimal128_text, b"\0" * 15)
    want("an object id", vbson.object_id("53E37d08776f724e42000000").hex(), "53e37d08776f724e42000000")
    want("an object id's text", vbson.object_id_text(b"\0\xff" * 6), "00ff" * 6)
    raises("no object id", vbson.InvalidString, vbson.object_id, "53e3")
    want("a moment", vbson.date_time("2020-06-01T00:42:40.292Z"), 1590972160292)
    want("a moment's text", vbson.date_time_text(-1), "1969-12-31T23:59:59.999Z")
    raises("no moment", vbson.InvalidString, vbson.date_time, "2020")
    raises("a moment of no text", vbson.NotRepresentable, vbson.date_time_text, 2**62)
    raises("a moment past 64 bits", vbson.NotRepresentable, vbson.date_time_text, 2**63)
    for it in (True, 1.0, "5", None):
        raises(f"no moment {it!r}", TypeError, vbson.date_time_text, it)
        raises(f"no datetime {it!r}", TypeError, vbson.datetime_of, it)
    for it in ("0" * 16, 16, None):
        raises(f"no bytes {it!r}", TypeError, vbson.decimal128_text, it)
        raises(f"no bytes {it!r} of an object id", TypeError, vbson.object_id_text, it)


def try_decimals():
    with decimal.localcontext() as context:
        # (no context rounds what goes in or comes out)
        context.prec = 2
        for text in ("19.90", "-0E-6176", "9.999999999999999999999999999999999E+6144", "0E+6111", "1E-6176", "Infinity", "-Infinity",
                     "1234567890123456789012345678901234", "-1E+3", "0.000001"):
            value = decimal.Decimal(text)
            want(f"{text} there", vbson.decimal128(value), vbson.decimal128(text))
            want(f"{text} and back", vbson.decimal_of(vbson.decimal128(value)).as_tuple(), value.as_tuple())
        want("NaN", vbson.decimal_of(vbson.decimal128("NaN")).is_nan(), True)
        for text in ("12345678901234567890123456789012345", "1E+6145", "1E-6177", "NaN123"):
            raises(f"the decimal {text}", vbson.InvalidString, vbson.decimal128, decimal.Decimal(text))


def try_datetimes():
    zone = datetime.timezone(datetime.timedelta(hours=5, minutes=30))
    utc = datetime.timezone.utc
    for moment, millis in ((datetime.datetime(2020, 6, 1, 0, 42, 40, 292000, utc), 1590972160292),
                           (datetime.datetime(1970, 1, 1, 5, 30, tzinfo=zone), 0),
                           (datetime.datetime(1969, 12, 31, 23, 59, 59, 999000, utc), -1),
                           (datetime.datetime(1, 1, 1, tzinfo=utc), -62135596800000),
                           (datetime.datetime(9999, 12, 31, 23, 59, 59, 999000, utc), 253402300799999)):
        want(f"{moment} there", vbson.date_time(moment), millis)
        want(f"{moment} and back", vbson.datetime_of(millis), moment)
        want(f"{moment} in UTC", vbson.datetime_of(millis).utcoffset(), datetime.timedelta(0))
        want(f"{moment} by its text", vbson.date_time(vbson.date_time_text(millis)), millis)
    raises("no time zone", vbson.NotRepresentable, vbson.date_time, datetime.datetime(2020, 1, 1))
    raises("a microsecond", vbson.NotRepresentable, vbson.date_time, datetime.datetime(2020, 1, 1, 0, 0, 0, 1, utc))
    raises("a date", TypeError, vbson.date_time, datetime.date(2020, 1, 1))
    for millis in (-62135596800001, 253402300800000, 2**63, -2**80):
        raises(f"no datetime at {millis}", OverflowError, vbson.datetime_of, millis)


def try_types():
    for name in vbson.__all__:
        call = getattr(vbson, name)
        if not isinstance(call, (int, type, dict)):
            count = call.__code__.co_argcount + bool(call.__code__.co_flags & 8)
            want(f"the types of {name}", len(typing.get_type_hints(call)), count + 1)


def try_threads():
    faults = []

    def rounds(i):
        for n in range(500):
            if vbson.convert(f"[{i}, {n}]", vbson.RELAXED) != f"[{i},{n}]":
                faults.append((i, n))

    threads = [threading.Thread(target=rounds, args=(i,)) for i in range(8)]
    for it in threads:
        it.start()
    for it in threads:
        it.join()
    want("eight threads", faults, [])


want("version", vbson.version(), signatures.version())
try_texts()
try_doubles()
try_order()
try_layout()
try_struct()
try_hashes()
try_canonical()
try_reading()
try_machine()
try_lines()
try_blocks()
try_documents()
try_raw_documents()
try_small_values()
try_decimals()
try_datetimes()
try_types()
try_threads()
end()
