"""The errors of the package vbson: messages, paths, places and the options of its calls. The last line is 'N passed, M failed'."""
import pickle
import struct

import vbson
from python_check import end, fields, raises, refusal, want
from vbson import _calls, _paths

STRICT = {"doubles": False}


def try_places():
    number = "not a 64-bit integer; found 1.5"
    date = "`$date` must be an RFC 3339 string, an integer or a `$numberLong`"
    digits = 'an object id has 24 digits, but "53e3" has 4'
    no_digit = "the character '%s' at %d in \"%s\" is no hexadecimal digit"
    blank, letter = no_digit % (" ", 1, "5 (xy)"), no_digit % ("z", 0, "zz (a)")
    early, quotes = "unexpected end of input", "keys and strings must be in double quotes"
    both = vbson.NotExtendedJson, vbson.BadObjectId
    # (a path and a message are cut off after 300 characters)
    long, cut = "a" * 1000, "a" * 300 + ".."
    for text, words, path, why, error in (
            ("[1, 2", f"not JSON at column 5 ({early})", [], early, vbson.NotJson),
            ("{'a':1}", f"not JSON at column 2 ({quotes})", [], quotes, vbson.NotJson),
            ("", f"not JSON at column 1 ({early})", [], early, vbson.NotJson),
            ("[1e400]", "not JSON at column 2 (number out of range)", [], "number out of range", vbson.NotJson),
            ('{"a (":[{"b)":1.5}]}', f"not Extended JSON at a (.0.b) ({number})", ["a (", 0, "b)"], number, both[0]),
            ("1.5", f"not Extended JSON ({number})", [], number, both[0]),
            ('{"a (":{"$date":" (a)"}}', f'not Extended JSON at a (.$date ({date}; found " (a)")', ["a (", "$date"], f'{date}; found " (a)"', both[0]),
            ('{"":1.5}', f"not Extended JSON ({number})", [""], number, both[0]),
            ('{"\u00e9":1.5}', f"not Extended JSON at \u00e9 ({number})", ["\u00e9"], number, both[0]),
            ('{"a":{"$oid":"53e3"}}', f"bad object id at a.$oid ({digits})", ["a", "$oid"], digits, both[1]),
            ('{"$oid":"5 (xy)"}', f"bad object id at $oid ({blank})", ["$oid"], blank, both[1]),
            ('[{"$dbPointer":{"$ref":"a","$id":{"$oid":"zz (a)"}}}]', f"bad object id at 0.$dbPointer ({letter})",
             [0, "$dbPointer"], letter, both[1]),
            ('{"a\\u0007\\u2028":1.5}', f"not Extended JSON at a\\u0007\\u2028 ({number})", ["a\a\u2028"], number, both[0]),
            ('{"%s":{"$oid":"zz (a)"}}' % long, f"bad object id at {cut} ({letter})", [long, "$oid"], letter, both[1]),
            ('{"a) at b.0 (c": {"1": [{"": 1.5}]}}', f"not Extended JSON at a) at b.0 (c.1.0. ({number})", ["a) at b.0 (c", "1", 0, ""], number, both[0]),
            ('{"$oid":"%s"}' % long, f"bad object id at $oid ({digits[:33]}{cut[:267]}..)", ["$oid"], f"{digits[:33]}{cut[:267]}..", both[1])):
        wanted = words, path, why, error
        want(f"{text} explained", vbson.explain(text, **STRICT), words)
        want(f"{text} converted", refusal(vbson.convert, text, **STRICT), wanted)
        want(f"{text} beside another", refusal(vbson.same, text, "!", **STRICT), wanted)
        want(f"{text} behind another", refusal(vbson.same, "1", text, **STRICT), wanted)
        want(f"the hash of {text}", refusal(vbson.hash_of, text, **STRICT), wanted)
    want("nothing to explain", (vbson.explain("{}"), vbson.explain("1.5")), ("", ""))
    want("the path with doubles", refusal(vbson.convert, '[1.5,{"$numberInt":""}]')[1], [1, "$numberInt"])
    want("no path", refusal(vbson.object_id, "53e3"), ("invalid string", [], "invalid string", vbson.InvalidString))
    try:
        vbson.convert("[1.5]", doubles=False)
    except vbson.Error as it:
        copied = pickle.loads(pickle.dumps(it))
        want("an error that was pickled", (str(copied), copied.path, copied.reason, copied.code), (str(it), [0], number, vbson.NOT_EXTENDED_JSON))
        want("the class of an error that was pickled", type(copied), vbson.NotExtendedJson)


def try_reads():
    """A text that is accepted is read once, and one that is refused twice. (Calls by _vbson are not seen here.)"""
    if _calls.extension is not None:
        return
    calls = []

    class Counted:
        def __getattr__(self, name):
            calls.append(name)
            return getattr(library, name)

    library, _calls.library = _calls.library, Counted()
    try:
        vbson.convert("[1]")
        want("reads of what is accepted", len(calls), 1)
        refusal(vbson.convert, "[1")
        want("reads of what is refused", len(calls), 3)
    finally:
        _calls.library = library


def try_texts():
    """An error has the line, the column and the offset, and one of Extended JSON the path as the input has it."""
    json, extended = (vbson.NotJson, vbson.NOT_JSON), (vbson.NotExtendedJson, vbson.NOT_EXTENDED_JSON)
    for text, wanted in (("[1, 2", (*json, [], 1, 5, 4)), ('{"a": [1,\n 2}', (*json, [], 2, 3, 12)), ('["\u00e9", x]', (*json, [], 1, 8, 7)),
                         ("[\n[\n\u00e9]]", (*json, [], 3, 1, 4)), ('{"a.b":{"0":[{"c":1.5}]}}', (*extended, ["a.b", "0", 0, "c"], 1, 19, 18)),
                         ('{"a":{"b":1},"a.b":1.5}', (*extended, ["a.b"], 1, 20, 19)), ('[[],[],{"":[1.5]}]', (*extended, [2, "", 0], 1, 13, 12)),
                         ('{"a":1,"b":{"$oid":"5"}}', (vbson.BadObjectId, vbson.BAD_OBJECT_ID, ["b", "$oid"], 1, 20, 19)),
                         ('["\u00e9",\n "\u00e9", 1.5]', (*extended, [2], 2, 8, 14))):
        want(f"{text} and its fields", fields(vbson.convert, text, **STRICT), wanted)
    for text, options, wanted in (('{"a":{"b":1,\n"b":2,"b":3}}', {"reject_duplicate_keys": True}, (*extended, ["a", "b"], 2, 5, 17)),
                                  ('[{"$binary":"AQI=","$type":"00"},\n{"$numberInt":"x"}]', {"v1": True}, (*extended, [1, "$numberInt"], 2, 15, 48)),
                                  ('{"a":{"$binary":"AQI=","$type":"000"}}', {"v1": True}, (*extended, ["a", "$binary"], None, None, None))):
        want(f"{text} under options", fields(vbson.convert, text, **options), wanted)
    for text, wanted in (('{"a":1,\n"b":\n  1e400,\n"c": 5\n}\n', (3, 3, 15)), ("[1,\n\n", (2, 1, 4)), ("[1]\n\n x", (3, 2, 6)), ('["a\nb",\n1]', (1, 2, 1)),
                         ('[\n1,\n"\\x"\n]', (3, 1, 5)), ("[\n\n1,\n\u00e9\n", (4, 1, 6)), ("", (1, 1, 0))):
        want(f"the place in {text!r}", fields(vbson.loads, text)[3:], wanted)
    block = b'\xef\xbb\xbf[1]\n\n{"a":\n{"a.b":[1,1.5]}\n[1'
    wanted = [(3, False, [], 3), (4, False, ["a.b", 1], 4), (5, False, [], 5)]
    found = [(number, False, it.path, it.line) for number, it in vbson.convert_lines(block, **STRICT)[1]]
    want("errors of lines", found, wanted)
    marked = vbson.convert_lines(b'\xef\xbb\xbf[x]\n{"a":x}')[1]
    want("places after a byte order mark", [(it.line, it.column, it.offset) for _, it in marked], [(1, 2, 4), (2, 6, 12)])
    marked = vbson.convert_lines(b'[}\n\xef\xbb\xbf[1]\n\n[\n[1]')[1]
    want("byte order marks after a rejected line", [(number, it.offset) for number, it in marked], [(1, 1), (2, 3), (4, 11)])
    places = [(it.offset, it.column) for _, it in vbson.encode_lines(block, **STRICT)[1] if it.offset is not None]
    want("offsets in a block", [at - block.rfind(b"\n", 0, at) for at, _ in places], [column for _, column in places])


def try_documents():
    """An error of bytes has the offset, and the path to the value that has no text or is cut off."""
    document = vbson.encode('{"x":[1,{"d":{"$code":"f","$scope":{"p":1.5}}}],"s":"abc"}')
    double = vbson.NotRepresentable, vbson.NOT_REPRESENTABLE, ["x", 1, "d", "$scope", "p"], None, None, None
    want("a double", fields(vbson.decode, document, **STRICT), double)
    want("a double's message", refusal(vbson.decode, document, **STRICT)[::2], ("not representable at x.1.d.$scope.p (a finite double)", "a finite double"))
    damaged = document.replace(struct.pack("<d", 1.5), b"\0" * 8).replace(b"abc", b"a\xff\xff")
    found = fields(vbson.decode, damaged)
    want("damaged bytes", found[:3], (vbson.NotADocument, vbson.NOT_A_DOCUMENT, ["s"]))
    want("their offset", damaged[found[5]:found[5] + 2] in (b"\xff\xff", b"a\xff", b"\4\0"), True)
    for length in range(5, len(document)):
        given = length.to_bytes(4, "little") + document[4:length]
        path = fields(vbson.decode, given)[2]
        want(f"the path in {length} bytes", (path or ["x"])[0] in ("x", "s"), True)
    number, start, error = vbson.decode_documents(vbson.encode("{}") + document, "relaxed", **STRICT)[1][0]
    want("a double among documents", (number, start, error.path), (2, 5, double[2]))
    for name, path, offset in (("x", ["x"], 6), ("1", ["x", 1], 20), ("d", ["x", 1, "d"], 28), ("s", ["s"], len(document) - 4), ("the end", [], len(document))):
        want(f"the path to {name}", _paths.at_offset(document, offset), path)


def try_options():
    """Each call accepts the same options, and says what it can't do."""
    document = vbson.encode("{}")
    calls = [(it, "{}") for it in (vbson.convert, vbson.explain, vbson.hash_of, vbson.encode, vbson.loads, vbson.convert_lines, vbson.encode_lines,
                                   vbson.loads_lines, lambda given, **options: vbson.same(given, given, **options))]
    calls += [(it, document) for it in (vbson.decode, vbson.decode_documents, vbson.is_document, vbson.explain_document, vbson.hash_of_document, vbson.loads_documents)]
    for call, given in calls:
        want(f"{call.__name__} with its defaults", call(given, doubles=True, keep_order=True, reject_duplicate_keys=False, v1=False, mongodb_layout=True), call(given))
        want(f"{call.__name__} with another layout", call(given, mongodb_layout=False), call(given))
        raises(f"{call.__name__} with another option", TypeError, call, given, sorted=True)
        for name in vbson.Options.__annotations__:
            raises(f"{call.__name__} with {name} that is no bool", TypeError, call, given, **{name: 1})
    older, newer = '{"a":{"$binary":"AQI=","$type":"00"}}', '{"a":{"$binary":{"base64":"AQI=","subType":"00"}}}'
    for call in (vbson.convert, vbson.encode, vbson.loads, vbson.hash_of, vbson.convert_lines, vbson.encode_lines, vbson.loads_lines):
        want(f"{call.__name__} of v1", call(older, v1=True), call(newer))
        want(f"{call.__name__} of v1 and no duplicate key", call(older, v1=True, reject_duplicate_keys=True), call(newer))
        want(f"{call.__name__} of a word", call('{"a":-Infinity}', v1=True), call('{"a":{"$numberDouble":"-Infinity"}}'))
    for call in (vbson.convert, vbson.encode, vbson.loads, vbson.hash_of):
        raises(f"{call.__name__} of v1 without its option", vbson.NotExtendedJson, call, older)
    for call in (vbson.decode, vbson.decode_documents):
        raises(f"{call.__name__} of v1", ValueError, call, document, v1=True)
    twice = '{"a":[{"b":1,"b":2}]}'
    for call in (vbson.convert_lines, vbson.encode_lines, vbson.loads_lines):
        made, refused = call(f"{{}}\n{twice}\n", reject_duplicate_keys=True)
        want(f"{call.__name__} without duplicate keys", made, call("{}\n")[0])
        want(f"{call.__name__} with a duplicate key", [(it, error.path, error.reason) for it, error in refused], [(2, ["a", 0, "b"], "duplicate key")])
        want(f"{call.__name__} with the last value", call(twice), call('{"a":[{"b":2}]}'))
    for call in (vbson.convert, vbson.encode, vbson.loads, vbson.hash_of):
        found = fields(call, '{"a":[{"b":1,"b":2}]}', reject_duplicate_keys=True)
        want(f"{call.__name__} with a duplicate key", found[:3], (vbson.NotExtendedJson, vbson.NOT_EXTENDED_JSON, ["a", 0, "b"]))
        want(f"{call.__name__} without one", call('{"a":[{"b":1}]}', reject_duplicate_keys=True), call('{"a":[{"b":1}]}'))
    doubled = b"\x13\0\0\0\x10b\0\5\0\0\0\x10b\0\6\0\0\0\0"
    for call in (vbson.decode, vbson.hash_of_document):
        want(f"{call.__name__} with a duplicate key", refusal(call, doubled, reject_duplicate_keys=True)[:3], ("not a document at byte 12 (duplicate key)", ["b"], "duplicate key"))
    strict = {"reject_duplicate_keys": True}
    for mode in ("canonical", "relaxed", "show"):
        made, refused = vbson.decode_documents(doubled + document, mode, **strict)
        want(f"a duplicate key among documents, {mode}", (made, [(*it[:2], it[2].path, it[2].reason) for it in refused]), (b"{}\n", [(1, 0, ["b"], "duplicate key")]))
        want(f"the last value among documents, {mode}", len(vbson.decode_documents(doubled + document, mode)[1]), 0)
    want("is_document with a duplicate key", (vbson.is_document(doubled), vbson.is_document(doubled, **strict)), (True, False))
    want("a duplicate key explained", (vbson.explain_document(doubled), vbson.explain_document(doubled, **strict)), ("", "not a document at byte 12 (duplicate key)"))
    want("no duplicate key explained", vbson.explain_document(document, **strict), "")
    want("the specification's options", vbson.convert('{"b":1,"a":2}', "relaxed", **vbson.SPECIFIED), '{"a":2,"b":1}')


try_places()
try_reads()
try_texts()
try_documents()
try_options()
end()
