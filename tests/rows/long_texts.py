"""Rows on texts of more than 4096 bytes, of which bson_cli writes a list or an object part by part as it reads them.

The parts are the texts of the other rows that are accepted, so that what is written of the whole follows from their
answers; or the whole is refused at its end, where all before it was written.
"""
from dataclasses import dataclass

FORMS = ("canonical", "relaxed")
# What more brackets open may nest too deep within a list.
MOST_BRACKETS = 100
MANY = 200_000
# An odd number, so that its multiples are distinct modulo a power of two.
STEP = 0x9E3779B1
LONG = b'"' + b"x" * 5000 + b'"'
NOT_JSON = (1, b"", b"bson_cli: not JSON\n")
BAD_ID = (1, b"", b"bson_cli: bad object id\n")
NOT_EXTENDED = (1, b"", b"bson_cli: not Extended JSON\n")


@dataclass
class LongText:
    """A text for bson_cli in a form, and its status, standard output and standard error."""

    name: str
    form: str
    text: bytes
    wanted: tuple


def parts_of(found, form):
    """The texts of the rows that are accepted in the form, each with what is written of it."""
    cases = [row.on_cli() for row in found]
    cases = [case for case in cases if case and case[0] == form and case[2][0] == 0]
    return [(text, output.removesuffix(b"\n")) for _, text, (_, output, _) in cases
            if text.count(b"[") + text.count(b"{") <= MOST_BRACKETS]


def done(output):
    return 0, output + b"\n", b""


def listed(texts):
    return b"[" + b",".join(texts) + b"]"


def keyed(pairs):
    return b"{" + b",".join(b'"%s":%s' % pair for pair in pairs) + b"}"


def nested(levels):
    return b"[" * levels + b"]" * levels


def accepted(parts):
    """A name, a text, and what is written of it."""
    given, written = [text for text, _ in parts], [output for _, output in parts]
    keys = [b"key%05d" % number for number in range(len(parts))]
    pairs, outputs = list(zip(keys, given)), list(zip(keys, written))
    spaced = b" [\n" + b" ,\r\n\t".join(given) + b" ]\n"
    yield "a list", listed(given), listed(written)
    yield "a list with blanks", spaced, listed(written)
    yield "a list of lists", listed([listed(given)] * 3), listed([listed(written)] * 3)
    yield "a list under a key", keyed([(b"a", listed(given))]), keyed([(b"a", listed(written))])
    yield "keys ascend", keyed(pairs), keyed(outputs)
    yield "keys descend", keyed(pairs[::-1]), keyed(outputs)
    yield "keys in another order", keyed(pairs[1::2] + pairs[::2]), keyed(outputs)
    yield from out_of_order(pairs, outputs)
    yield "a late key is the first again", keyed([*pairs, (keys[0], LONG)]), keyed([(keys[0], LONG), *outputs[1:]])
    yield "the last key twice", keyed([*pairs, (keys[-1], b"true")]), keyed([*outputs[:-1], (keys[-1], b"true")])
    yield ("a list, and then a lesser key", keyed([(b"b", listed(given)), (b"a", b"null")]),
           keyed([(b"a", b"null"), (b"b", listed(written))]))
    yield ("lists and objects under keys", keyed([(b"", keyed(pairs[::-1])), (b"a", listed(given)), (b"b", LONG)]),
           keyed([(b"", keyed(outputs)), (b"a", listed(written)), (b"b", LONG)]))
    yield ("a first key $scope", keyed([(b"$scope", listed(given)), (b"a", LONG)]),
           keyed([(b"$scope", listed(written)), (b"a", LONG)]))
    yield ("code with a scope", keyed([(b"$code", LONG), (b"$scope", keyed(pairs))]),
           keyed([(b"$code", LONG), (b"$scope", keyed(outputs))]))
    yield "an element that gives way", listed([LONG, b'{"a":{"$oid":1},"a":true}']), listed([LONG, b'{"a":true}'])
    yield "a value that gives way", keyed([(b"a", b'{"$oid":1}'), (b"a", LONG)]), keyed([(b"a", LONG)])
    yield "a wrapper's key twice", listed([LONG, b'{"$symbol":1,"$symbol":"s"}']), listed([LONG, b'{"$symbol":"s"}'])
    yield ("a scope twice", listed([LONG, b'{"$code":1,"$scope":{"a":1},"$scope":null,"$code":"f"}']),
           listed([LONG, b'{"$code":"f"}']))
    yield "127 levels in a list", listed([LONG, nested(126)]), listed([LONG, nested(126)])
    deep = keyed([(b"a", nested(126)), (b"b", LONG)])
    yield "127 levels under a key", deep, deep
    yield "a string", LONG, LONG
    yield "no element", b"[" + b" " * 5000 + b"]", b"[]"
    yield "no member", b"{" + b" " * 5000 + b"}", b"{}"
    yield from many()
    for length in (4095, 4096, 4097):
        text = b'["' + b"x" * (length - 4) + b'"]'
        yield f"{length} bytes", text, text


def many():
    """The same of objects of many keys in random order."""
    pairs = [(b"%06x" % (number * STEP % 2**24), b"null") for number in range(MANY)]
    text, output = keyed(pairs), keyed(sorted(pairs))
    first, last = pairs[0], pairs[-1]
    yield f"{MANY} keys in random order", text, output
    yield f"{MANY} keys in random order in a list", listed([text]), listed([output])
    yield (f"{MANY} keys in random order, the first twice", keyed([*pairs, (first[0], b"true")]),
           keyed(sorted([(first[0], b"true"), *pairs[1:]])))
    yield (f"{MANY} keys in random order in a list, the last twice", listed([keyed([(last[0], b"true"), *pairs])]),
           listed([output]))


def out_of_order(pairs, outputs):
    """The same of objects whose keys do not ascend by bytes, which a text has escaped or unescaped."""
    alike = b"the first sixteen bytes are alike "
    yield ("keys alike in their first bytes", keyed((alike + key, text) for key, text in pairs[::-1]),
           keyed((alike + key, output) for key, output in outputs))
    yield ("keys with escapes", keyed([(b"\\u0062", LONG), (b"a\\u000a", b"true"), (b"\\u00e9", b"null"), (b"a", b"false")]),
           keyed([(b"a", b"false"), (b"a\\n", b"true"), (b"b", LONG), (b"\xc3\xa9", b"null")]))
    yield ("a key and the same with a zero byte",
           keyed([(b"b", LONG), (b"a\\u0000", b"true"), (b"a", b"false"), (b"", b"null")]),
           keyed([(b"", b"null"), (b"a", b"false"), (b"a\\u0000", b"true"), (b"b", LONG)]))
    yield ("a key, and then a beginning of it", keyed([(b"ab", LONG), (b"aa", b"true"), (b"a", b"false")]),
           keyed([(b"a", b"false"), (b"aa", b"true"), (b"ab", LONG)]))
    yield ("a double key out of order", keyed([(b"b", b"true"), (b"a", LONG), (b"b", b"null")]),
           keyed([(b"a", LONG), (b"b", b"null")]))
    yield ("a double key alike in its first bytes",
           keyed([(alike + b"b", b"true"), (alike + b"a", LONG), (alike + b"b", b"null")]),
           keyed([(alike + b"a", LONG), (alike + b"b", b"null")]))
    yield ("a value that gives way out of order", keyed([(b"b", b'{"$oid":1}'), (b"a", LONG), (b"b", b"null")]),
           keyed([(b"a", LONG), (b"b", b"null")]))


def refused(given):
    """A name, a text, and the words for its fault."""
    keys = [b"key%05d" % number for number in range(len(given))]
    pairs = list(zip(keys, given))
    whole, map_of_all = listed(given), keyed(pairs)
    yield "a bad object id last", listed([*given, b'{"$oid":"zz"}']), BAD_ID
    yield "no meaning last", listed([*given, b'{"$oid":1}']), NOT_EXTENDED
    yield "a fraction last", listed([*given, b"0.5"]), NOT_EXTENDED
    yield "a bad object id under the last key", keyed([*pairs, (b"z", b'{"$oid":"zz"}')]), BAD_ID
    yield "no meaning in a list under the last key", keyed([*pairs, (b"z", b'[{"$oid":1}]')]), NOT_EXTENDED
    turned = keyed(pairs[::-1])
    yield "a bad object id under a lesser key", keyed([*pairs, (b"a", b'{"$oid":"zz"}')]), BAD_ID
    yield "no meaning under a lesser key", keyed([*pairs, (b"a", b'[{"$oid":1}]')]), NOT_EXTENDED
    yield "a wrapper's key behind a lesser one", keyed([*pairs, (b"a", b"1"), (b"$oid", b'"z"')]), NOT_EXTENDED
    yield "no brace behind a lesser key", turned[:-1], NOT_JSON
    yield "a comma before the end behind a lesser key", turned[:-1] + b",}", NOT_JSON
    yield "one brace more behind a lesser key", turned + b"}", NOT_JSON
    yield "128 levels under a lesser key", keyed([(b"b", LONG), (b"a", nested(127))]), NOT_JSON
    yield "a wrapper's key late", keyed([(b"", whole), (b"$oid", b'"53e37d08776f724e42000000"')]), NOT_EXTENDED
    yield "a wrapper's key first", keyed([(b"$oid", whole), (b"a", b"1")]), NOT_EXTENDED
    yield "a comma before the end", whole[:-1] + b",]", NOT_JSON
    yield "a comma before the end of an object", map_of_all[:-1] + b",}", NOT_JSON
    yield "the other bracket", whole[:-1] + b"}", NOT_JSON
    yield "the other brace", map_of_all[:-1] + b"]", NOT_JSON
    yield "no bracket", whole[:-1], NOT_JSON
    yield "no brace", map_of_all[:-1], NOT_JSON
    yield "one bracket more", whole + b"]", NOT_JSON
    yield "one brace more", map_of_all + b"}", NOT_JSON
    yield "no UTF-8 at the end", listed([*given, b'"\xff"']), NOT_JSON
    yield "no meaning first, and then no JSON", listed([b"1.5", *given, b"1e400"]), NOT_JSON
    yield "128 levels in a list", listed([LONG, nested(127)]), NOT_JSON
    yield "128 levels under a key", keyed([(b"a", nested(127)), (b"b", LONG)]), NOT_JSON


def rows(found):
    """The rows of both forms."""
    made_rows = []
    for form in FORMS:
        parts = parts_of(found, form)
        if len(listed(text for text, _ in parts)) <= 4096:
            raise SystemExit(f"too few rows are accepted in the form {form}")
        for name, text, output in accepted(parts):
            made_rows.append(LongText(f"long text, {name}", form, text, done(output)))
        for name, text, wanted in refused([text for text, _ in parts]):
            made_rows.append(LongText(f"long text, {name}", form, text, wanted))
    return made_rows
