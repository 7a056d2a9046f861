"""Values of dumps, streams, hooks and indents, values of other packages, and the examples of the docstrings. The last line is
'N passed, M failed'."""
import collections
import dataclasses
import datetime
import decimal
import doctest
import enum
import functools
import importlib
import io
import json
import pkgutil
import random

import vbson
from python_check import end, fields, raises, refusal, want

UTC = datetime.timezone.utc
MODULES = ["vbson", *(f"vbson.{it.name}" for it in pkgutil.iter_modules(vbson.__path__) if not it.name.endswith(".abi3"))]
ONE, TWO = vbson.encode('{"n":1,"a":[{"b":1.5}]}'), vbson.encode('{"r":"x","s":"abc"}')
VALUES = [{"n": 1, "a": [{"b": 1.5}]}, {"r": "x", "s": "abc"}]
DOUBLED = b"\x13\0\0\0\x10b\0\5\0\0\0\x10b\0\6\0\0\0\0"


@functools.lru_cache(None)
def has(name):
    try:
        return importlib.import_module(name)
    except ImportError:
        print(f"not tried, since there is no module {name}: its values")
        return None


def types():
    return ("plain", "bson") if has("bson.codec_options") else ("plain",)


# ---- dumps of documents

def try_dumps():
    want("values of a dump", vbson.loads_documents(ONE + TWO), VALUES)
    want("no documents", (vbson.loads_documents(b""), [*vbson.iter_documents(io.BytesIO())]), ([], []))
    want("a hook", vbson.loads_documents(ONE, object_hook=lambda it: [*it]), [["n", "a"]])
    rejected = vbson.NotADocument, vbson.NOT_A_DOCUMENT
    for given, path, offset in ((ONE + TWO[:-3], [1], None), (ONE + b"\4\0\0\0\0", [1], None), (ONE + b"\5\0", [1], None),
                                (ONE + TWO.replace(b"abc", b"\xff\xff\xff"), [1, "s"], None)):
        found = fields(vbson.loads_documents, given)
        want(f"{given.hex()} rejected", (found[:2], found[2][:len(path)], found[5] >= len(ONE)), (rejected, path, True))
        want(f"{given.hex()} in a stream", fields(lambda it: [*vbson.iter_documents(io.BytesIO(it))], given), found)
        at_its_byte = fields(vbson.decode, given[len(ONE):])
        want(f"the offset of {given.hex()}", found[5], len(ONE) + at_its_byte[5])
        message = refusal(vbson.loads_documents, given)[0]
        want(f"the message of {given.hex()}", message.startswith(f"document 2 at byte {len(ONE)}: "), True)
    strict = {"reject_duplicate_keys": True}
    want("duplicate key", vbson.loads_documents(DOUBLED), [{"b": 6}])
    want("a duplicate key rejected", fields(vbson.loads_documents, ONE + DOUBLED, **strict)[:3], (*rejected, [1, "b"]))
    want("a duplicate key in a stream", fields(lambda it: [*vbson.iter_documents(it, **strict)], [ONE, DOUBLED])[:3], (*rejected, [1, "b"]))
    raises("sorted keys", ValueError, vbson.loads_documents, ONE, keep_order=False)
    raises("a text", TypeError, vbson.loads_documents, "{}")
    raises("a file of text", TypeError, lambda: [*vbson.iter_documents(io.StringIO("{}"))])


def try_streams():
    """A dump in blocks of any size has the values of the whole."""
    dump = (ONE + TWO) * 40 + b"\5\0\0\0\0"
    wanted = vbson.loads_documents(dump)
    for size in (1, 3, 7, len(ONE), 100, 1 << 20):
        want(f"blocks of {size} bytes", [*vbson.iter_documents(io.BytesIO(dump), block_size=size)], wanted)
        parts = [dump[at:at + size] for at in range(0, len(dump), size)]
        want(f"parts of {size} bytes", [*vbson.iter_documents(parts)], wanted)
    found, error = [], None
    try:
        for it in vbson.iter_documents(io.BytesIO(dump[:-6]), block_size=10):
            found.append(it)
    except vbson.NotADocument as it:
        error = it
    want("values before the end", found, wanted[:-2])
    want("the end", error.path[:1], [79])
    file = io.BytesIO()
    want("written values", (vbson.dump_documents(iter(wanted), file), file.getvalue()), (81, dump))
    for values, error, path in (([{}, {"a": [1j]}], vbson.UnsupportedType, [1, "a", 0]), ([{}, 5], vbson.NotADocument, [1]),
                                ([{}, {"a\0": 1}], vbson.NotEncodable, [1, "a\0"]), ([{}, {"a": nested(99)}], vbson.NotADocument, [1])):
        file = io.BytesIO()
        found = fields(vbson.dump_documents, values, file)
        want(f"{error.__name__} in a dump", (found[0], found[2][:len(path)], file.getvalue()), (error, path, b"\5\0\0\0\0"))
    if "bson" in types():
        import bson
        found = bson.decode_all(dump, bson.CodecOptions(tz_aware=True))
        want("PyMongo's values", vbson.loads_documents(dump, "bson")[0], found[0])
        file = io.BytesIO()
        vbson.dump_documents(found, file, "bson")
        want("PyMongo's bytes", file.getvalue(), b"".join(map(bson.encode, found)))


def nested(depth):
    value = []
    for _ in range(depth):
        value = [value]
    return value


def try_lines():
    """The block call on parts of a file, as Spark and Ray hand them to a worker, has the lines of the whole."""
    generator, texts = random.Random(5), ['{"n":%d,"a":"%s"}' % (at, "x" * (at % 50)) for at in range(2000)]
    for at in range(0, 2000, 97):
        texts[at] = ("", "{", '{"$oid":"5"}', " \t")[at % 4]
    whole, refused = vbson.convert_lines("\n".join(texts), "relaxed")
    cuts = sorted(generator.sample(range(2000), 7))
    for size in (1, 1000, 1 << 22):
        lines, errors, at = [], [], 0
        for part in (texts[a:b] for a, b in zip([0, *cuts], [*cuts, 2000])):
            lines += vbson.iter_lines(iter(part), "relaxed", lambda number, error: errors.append((at + number, str(error))), size)
            at += len(part)
        want(f"lines by parts in blocks of {size}", "".join(f"{it}\n" for it in lines).encode(), whole)
        want(f"errors by parts in blocks of {size}", errors, [(number, str(error)) for number, error in refused])
    want("a file of lines", [*vbson.iter_lines(io.BytesIO(b"\xef\xbb\xbf[1]\n\n[2]"), "relaxed")], ["[1]", "[2]"])
    found = fields(lambda: [*vbson.iter_lines(["[1]", "", "[1"], "relaxed", block_size=1)])
    want("a rejected line", (found[0], found[3]), (vbson.NotJson, 3))
    marked = b"\xef\xbb\xbf[1]\n[\n"
    for is_first, text, numbers in ((True, b"[1]\n", [2]), (False, b"", [1, 2])):
        made, refused = vbson.convert_block(marked, "relaxed", is_first)
        want(f"a byte order mark, {is_first}", (made, [number for number, _ in refused]), (text, numbers))


# ---- as the module json

def try_json():
    text = '{"a": {"b": 1}, "c": [{"d": 2}, {}]}'
    for hook in (lambda it: [*it.items()], lambda it: len(it), lambda it: {**it, "seen": True}):
        for kinds in types():
            want(f"a hook, {kinds}", vbson.loads(text, kinds, hook), json.loads(text, object_hook=hook))
    want("a hook on lines", vbson.loads_lines(text, object_hook=len)[0], [2])
    want("a file", vbson.load(io.StringIO(text)), json.loads(text))
    want("a file of bytes", vbson.load(io.BytesIO(text.encode()), "plain", len), 2)
    want("parts", vbson.load([text[:9], text[9:].encode()]), json.loads(text))
    file = io.StringIO()
    vbson.dump({"n": 1.5}, file, "relaxed", indent=1)
    want("a file that is written", file.getvalue(), '{\n "n": 1.5\n}')
    value = {"a": [1, {}, [], {"b": '{[,:]}\\"\n'}], "\u2028": {"d": [[]]}, "": -1.5}
    compact = vbson.dumps(value, "relaxed")
    for indent in (0, 1, 4, "\t", "--"):
        want(f"the indent {indent!r}", vbson.dumps(value, "relaxed", indent=indent), json.dumps(json.loads(compact), indent=indent, ensure_ascii=False))
    want("no indent", vbson.dumps(value, "relaxed", indent=None), compact)
    for kinds in types():
        want(f"default, {kinds}", vbson.dumps([1j, {"a": 2j}], "relaxed", kinds, lambda it: [it.imag]), '[[1.0],{"a":[2.0]}]')
        want(f"default of a decimal, {kinds}", vbson.dumps(1j, "relaxed", kinds, lambda it: decimal.Decimal("0.10")), '{"$numberDecimal":"0.10"}')
        raises(f"default that raises, {kinds}", ZeroDivisionError, vbson.dumps, 1j, types=kinds, default=lambda it: 1 // 0)
        raises(f"default without a value, {kinds}", ZeroDivisionError, vbson.dumps, [1j], types=kinds, default=lambda it: 1 // 0)


class Color(enum.Enum):
    RED, PRICE = 1, decimal.Decimal("1.50")


class Size(enum.IntEnum):
    SMALL = 5


@dataclasses.dataclass
class Point:
    x: int
    y: list


def try_foreign():
    """Values of other types, by the rules that `vbson.values` lists."""
    for kinds in types():
        for value, text in ((Color.RED, "1"), (Color.PRICE, '{"$numberDecimal":"1.50"}'), (Size.SMALL, "5"), (Point(1, [Color.RED]), '{"x":1,"y":[1]}'),
                            (collections.UserDict(b=1, a=2), '{"b":1,"a":2}'), ({3, 1, 2}, "[1,2,3]"), (frozenset("ba"), '["a","b"]'),
                            ({1, "a", None}, '[null,1,"a"]'), (datetime.date(2020, 1, 2), '{"$date":"2020-01-02T00:00:00Z"}')):
            want(f"{value!r}, {kinds}", vbson.dumps({"v": [value]}, "relaxed", kinds), f'{{"v":[{text}]}}')
        for value, path, error in (({"a": [{"k": 1j}]}, ["a", 0, "k"], vbson.UnsupportedType), ({"a": {1: 2}}, ["a", 1], vbson.UnsupportedType),
                                   ([[2**64]], [0, 0], vbson.IntegerTooLarge), ({"a": ["\ud800"]}, ["a", 0], vbson.NotEncodable),
                                   ({"a": {"b\0": 1}}, ["a", "b\0"], vbson.NotEncodable), ({"a": (1, decimal.Decimal("1E+7000"))}, ["a", 1], vbson.InvalidString)):
            found = fields(vbson.dumps, value, types=kinds)
            want(f"the error of {value!r}, {kinds}", (found[0], found[2], found[1] is None), (error, path, False))
            words = f"not BSON at {vbson._paths.joined(path)} ("
            want(f"the message of {value!r}, {kinds}", refusal(vbson.dumps, value, types=kinds)[0].startswith(words), True)
    for value, path in (([1, {"a": 2.5}], [1, "a"]), ({"a": [2.5]}, ["a", 0]), (2.5, [])):
        want(f"{value} without doubles", fields(vbson.dumps, value, doubles=False)[:3], (vbson.NotRepresentable, vbson.NOT_REPRESENTABLE, path))
    for value, path in (([datetime.datetime(2020, 1, 1)], [0]), ({"a": datetime.datetime(2020, 1, 1, 0, 0, 0, 1, UTC)}, ["a"])):
        want(f"{value}", fields(vbson.dumps, value)[:3], (vbson.NotRepresentable, vbson.NOT_REPRESENTABLE, path))
    for value in ([vbson.Timestamp(-1, 0)], [vbson.Timestamp(0, 2**32)], [vbson.DatetimeMS(2**63)]):
        want(f"{value}", fields(vbson.dumps, value)[::2][:2], (vbson.IntegerTooLarge, [0]))
    circle = []
    circle.append(circle)
    raises("a circle", vbson.NotADocument, vbson.dumps, circle)


def try_numpy():
    numpy = has("numpy")
    if numpy is None:
        return
    date = '{"$date":"2020-01-01T00:00:00Z"}'
    for kinds in types():
        for value, text in ((numpy.int64(5), "5"), (numpy.uint8(5), "5"), (numpy.float32(1.5), "1.5"), (numpy.float64(2.5), "2.5"), (numpy.bool_(True), "true"),
                            (numpy.str_("a"), '"a"'), (numpy.array([[1, 2], [3, 4]]), "[[1,2],[3,4]]"), (numpy.array(5), "5"), (numpy.datetime64("NaT"), "null"),
                            (numpy.array(["2020-01-01"], dtype="datetime64[ns]"), f"[{date}]"), (numpy.datetime64("2020-01-01"), date)):
            want(f"{value!r}, {kinds}", vbson.dumps([value], "relaxed", kinds), f"[{text}]")
        for value, error in ((numpy.timedelta64(1, "ns"), vbson.UnsupportedType), (numpy.longdouble(1), vbson.UnsupportedType), (numpy.complex64(1), vbson.UnsupportedType),
                             (numpy.datetime64("2020-01-01T00:00:00.0000001"), vbson.NotRepresentable), (numpy.datetime64("0000-01-01"), vbson.NotRepresentable),
                             (numpy.uint64(2**63), vbson.IntegerTooLarge)):
            want(f"{value!r} rejected, {kinds}", fields(vbson.dumps, {"a": value}, types=kinds)[::2][:2], (error, ["a"]))


def try_pandas():
    pandas = has("pandas")
    if pandas is None:
        return
    moment = pandas.Timestamp("2020-01-01", tz="UTC")
    for value, text in ((moment, '{"$date":"2020-01-01T00:00:00Z"}'), (pandas.NaT, "null"), (pandas.NA, "null")):
        want(f"{value!r}", vbson.dumps([value], "relaxed"), f"[{text}]")
    for value in (pandas.Timestamp("2020-01-01"), pandas.Timestamp("2020-01-01 00:00:00.000001", tz="UTC")):
        want(f"{value!r}", fields(vbson.dumps, {"a": value})[::2][:2], (vbson.NotRepresentable, ["a"]))
    if "bson" in types():
        want("NaT, bson", fields(vbson.dumps, {"a": pandas.NaT}, types="bson")[::2][:2], (vbson.NotRepresentable, ["a"]))
    frame = pandas.DataFrame(vbson.loads_lines('{"n":1,"p":1.5}\n{"n":2,"p":2.5}\n')[0])
    records = frame.to_dict("records")
    want("rows of a frame", [vbson.dumps(it, "relaxed") for it in records], ['{"n":1,"p":1.5}', '{"n":2,"p":2.5}'])


def try_examples():
    """Each public call has an example in its docstring, but for those that another's has; the examples are run."""
    tried = 0
    for name in MODULES:
        done = doctest.testmod(importlib.import_module(name))
        want(f"the examples of {name}", done.failed, 0)
        tried += done.attempted
    want("the number of examples", tried >= 40, True)
    for name in vbson.__all__:
        it = getattr(vbson, name)
        if callable(it):
            want(f"the docstring of {name}", bool(it.__doc__), True)


try_dumps()
try_streams()
try_lines()
try_json()
try_foreign()
try_numpy()
try_pandas()
try_examples()
end()
