"""Values of Python from Extended JSON and to it, as the module json has them."""
import re
from typing import Any, Callable, IO, Iterable, List, Optional, Tuple, Union

from . import _calls, documents, errors
from ._options import CANONICAL, DOUBLES, ONLY_WRITING, READING, SHOW, WRITING, Given, Mode, flags_of, mode_of, text_bytes
from ._types import types_of
from .errors import Error
from .texts import encode_lines, expect_accepted

_Hook = Optional[Callable[[dict], Any]]


def hooked(value, hook):
    """Returns the value with what the hook returns for each dict in it, the innermost first."""
    if hook is None:
        return value
    if isinstance(value, dict):
        for key, it in value.items():
            value[key] = hooked(it, hook)
        return hook(value)
    return [hooked(it, hook) for it in value] if isinstance(value, list) else value


def loads(text: Given, types: str = "plain", object_hook: _Hook = None, **options: bool) -> Any:
    """Reads one Extended JSON text of either form, and returns its value in Python.

    >>> loads('{"n": 1.5, "b": {"$binary": {"base64": "AQI=", "subType": "00"}}, "a": [true, null]}')
    {'n': 1.5, 'b': b'\\x01\\x02', 'a': [True, None]}
    >>> loads('{"$oid": "53e37d08776f724e42000000"}')
    ObjectId('53e37d08776f724e42000000')

    The types are those of `values`, which need no package ('plain'), or those of PyMongo's package bson ('bson'). Dates are
    datetimes in UTC. object_hook is called with each dict, the innermost first, and returns the value to use instead.

    Raises the errors that `encode` has for a document with this value under a key. So a value that is not a document may nest
    126 deep, one less than a document. Raises NoValue if bson can't represent a value: dates outside the years 1 to 9999
    before its version 4.3, and UUIDs that are not 16 bytes.
    """
    given, kinds = text_bytes(text), types_of(types)
    flags = flags_of(options, WRITING)
    # (each value is read under a key, since bson treats a document at the top differently)
    if not (b"~" in given and b'"~"' in given) and not (b"\\" in given and b"\\u" in given):
        # No further key is read as that one, so that a document of one key has in it the value of the whole text.
        # (one byte is found in a tenth of the time of two, and a join copies once)
        found = kinds.only_value(flags, b"".join((b'{"~":', given, b"}")))
        if found is not None:
            return hooked(found[0], object_hook)
    return hooked(kinds.value_of(under_a_key(flags, given)), object_hook)


def under_a_key(flags, given):
    """Returns the bytes of a document with the value under its one key; raises the error if there are none."""
    status, made = _calls.encoded(flags, given)
    if status == errors.NOT_A_DOCUMENT:
        given = b'{"v":' + given + b"}"
        status, made = _calls.encoded(flags, given)
        expect_accepted(status, flags, given)
        return made
    expect_accepted(status, flags, given)
    size = len(made) + 8
    if size > 0x7FFFFFFF:
        raise errors.of_status(errors.TOO_LONG)
    return size.to_bytes(4, "little") + b"\x03v\0" + made + b"\0"


def load(file: Union[IO, Iterable[Given]], types: str = "plain", object_hook: _Hook = None, **options: bool) -> Any:
    """Reads one Extended JSON text from a file, or from an iterable of its parts. The rest is as for `loads`.

    >>> import io
    >>> load(io.StringIO('{"n": 5}')), load(['{"n"', ': 5}'])
    ({'n': 5}, {'n': 5})
    """
    text = file.read() if hasattr(file, "read") else b"".join(map(text_bytes, file))
    return loads(text, types, object_hook, **options)


def loads_lines(block: Given, types: str = "plain", object_hook: _Hook = None,
                **options: bool) -> Tuple[List[Any], List[Tuple[int, Error]]]:
    """Returns the values of the documents in the lines of a block, and the number and error of each rejected line.

    >>> loads_lines('{"n": 1}\\n{"n": 2.5}\\n')
    ([{'n': 1}, {'n': 2.5}], [])

    The lines are those of `encode_lines`, the values those of `loads`. Raises NoValue and MemoryError.
    """
    kinds = types_of(types)
    made, refused = encode_lines(block, **options)
    return [hooked(it, object_hook) for it in kinds.values_of(made)] if object_hook else kinds.values_of(made), refused


def dumps(value: Any, form: Mode = CANONICAL, types: str = "plain", default: Optional[Callable[[Any], Any]] = None,
          indent: Union[int, str, None] = None, **options: bool) -> str:
    """Writes a value of Python as Extended JSON in the form. The types are those of `loads`.

    >>> dumps({"n": 1.5, "b": bytes([1, 2]), "a": [True, 5]}, "relaxed")
    '{"n":1.5,"b":{"$binary":{"base64":"AQI=","subType":"00"}},"a":[true,5]}'
    >>> print(dumps({"n": 5, "c": 1j}, "relaxed", default=str, indent=2))
    {
      "n": 5,
      "c": "1j"
    }

    Keys are in the order of each dict, or sorted if keep_order is False. Dates and wrappers are written as json_util of PyMongo
    writes them, or as the specification does if mongodb_layout is False. `values` lists the types that are converted.
    default is called with a value of any other type, and returns the value to write instead. indent is that of json.

    The error has the path to the value: UnsupportedType, which is a TypeError, for a value of another type or a key that is
    not a str; IntegerTooLarge, which is an OverflowError, for an int past 64 bits; NotEncodable as `encode` does; NotADocument
    if it nests deeper than 100 dicts and lists (99 if the value is not a dict); NotRepresentable for a finite double other
    than 0.0 without doubles, and for a datetime without a time zone or with a fraction of a millisecond.
    """
    form = mode_of(form)
    if form == SHOW:
        raise ValueError("a form is CANONICAL, RELAXED, 'canonical' or 'relaxed'")
    # (a value of Python has no duplicate key, and is not Extended JSON)
    flags = flags_of(options, DOUBLES | ONLY_WRITING, READING)
    document = types_of(types).document_of(value, default)
    if document[4] == 3:
        made = documents.decoded(form, flags, document[7:-1])
    else:
        made = documents.decoded(form, flags, document, 1)[5:-1]
    return made if indent is None else indented(made, indent)


def dump(value: Any, file: IO[str], form: Mode = CANONICAL, **how: Any) -> None:
    """Writes a value as `dumps` does to a file that is opened as text. The keywords are those of `dumps`.

    >>> import sys
    >>> dump({"n": 5}, sys.stdout, "relaxed")
    {"n":5}
    """
    file.write(dumps(value, form, **how))


_TOKENS = re.compile(r'"(?:[^"\\]|\\.)*"|[{\[]\s*[}\]]|[{}\[\],:]|[^{}\[\],:"]+')


def indented(text, indent):
    """Returns compact JSON with a line for each element, as json.dumps writes it."""
    step, depth, parts = indent if isinstance(indent, str) else " " * indent, 0, []
    for token in _TOKENS.findall(text):
        if token in ("}", "]"):
            depth -= 1
            parts.append(f"\n{step * depth}")
        parts.append(": " if token == ":" else token)
        if token in ("{", "["):
            depth += 1
        if token in ("{", "[", ","):
            parts.append(f"\n{step * depth}")
    return "".join(parts)
