"""What the calls accept: inputs, modes, and options, which are the same keywords everywhere."""
from typing import TypedDict, Union


Bytes = Union[bytes, bytearray, memoryview]
Given = Union[str, bytes, bytearray, memoryview]

# What `convert` writes: the canonical form, the relaxed form, or a form for people to read.
CANONICAL, RELAXED, SHOW = 0, 1, 2
Mode = Union[int, str]
_MODES = {"canonical": CANONICAL, "relaxed": RELAXED, "show": SHOW}
DOUBLES, KEEP_ORDER, REJECT_DUPLICATE_KEYS, V1, MONGODB_LAYOUT = 1, 2, 4, 8, 16
_FLAGS = {"doubles": DOUBLES, "keep_order": KEEP_ORDER, "reject_duplicate_keys": REJECT_DUPLICATE_KEYS, "v1": V1,
          "mongodb_layout": MONGODB_LAYOUT}
_DEFAULT = DOUBLES | KEEP_ORDER | MONGODB_LAYOUT


class Options(TypedDict, total=False):
    """The options that each call accepts as keywords.

    doubles                 accept and write finite doubles, such as 1.5 (True by default)
    keep_order              keep the order of keys; False sorts them (True by default)
    reject_duplicate_keys   reject input in which an object or a document has a duplicate key; without it the last value
                            wins, at the position of the first (False by default)
    v1                      accept Extended JSON v1 too: {"$binary": .., "$type": ..}, {"$regex": .., "$options": ..}, a
                            $date without seconds or with an offset such as +0100, a $uuid without hyphens, and the words
                            NaN, Infinity and -Infinity (False by default)
    mongodb_layout          write dates and wrappers as libbson and json_util of PyMongo do: a fraction of a second has
                            three digits, and with keep_order "t" is before "i", "pattern" before "options", and "$ref"
                            before "$id". False writes no zeros at the end of a fraction, and ascending keys in
                            wrappers (True by default)

    A call that only compares, hashes or checks has no order of keys to keep and no layout, and BSON bytes that are compared,
    hashed or checked have their doubles and no v1: the option changes nothing there. The calls that decode bytes raise
    ValueError for v1, since bytes are not Extended JSON.
    """

    doubles: bool
    keep_order: bool
    reject_duplicate_keys: bool
    v1: bool
    mongodb_layout: bool


# The options of the specification, which rejects finite doubles, sorts keys and has a layout of its own:
# convert(text, **SPECIFIED)
SPECIFIED: Options = {"doubles": False, "keep_order": False, "mongodb_layout": False}


def flags_of(options, accepted, ignored=0):
    """Returns the flags of the options, for _calls: those that the call accepts, without those that change nothing."""
    flags = _DEFAULT
    for name, value in options.items():
        if name not in _FLAGS:
            raise TypeError(f"no such option: {name!r}; the options are {', '.join(_FLAGS)}")
        if type(value) is not bool:
            raise TypeError(f"{name} is True or False, and not {type(value).__name__}")
        flags = flags & ~_FLAGS[name] | _FLAGS[name] * value
    wrong = next((name for name, flag in _FLAGS.items() if flags & flag & ~accepted & ~ignored), None)
    if wrong is not None:
        raise ValueError(f"{wrong} has no meaning for BSON bytes")
    return flags & accepted


# The flags of the calls that only read, those that change nothing in reading, those of the calls that write, and those of the
# calls that decode bytes.
READING, ONLY_WRITING = DOUBLES | REJECT_DUPLICATE_KEYS | V1, KEEP_ORDER | MONGODB_LAYOUT
WRITING, DECODING = READING | ONLY_WRITING, DOUBLES | REJECT_DUPLICATE_KEYS | ONLY_WRITING


def mode_of(mode):
    """Returns the number of a mode, which is given by its number or its name."""
    if type(mode) is int and 0 <= mode <= SHOW:
        return mode
    if isinstance(mode, str):
        mode = _MODES.get(mode, -1)
    if number(mode, "a mode is CANONICAL, RELAXED, SHOW or its name") not in _MODES.values():
        raise ValueError("no such mode: it is CANONICAL, RELAXED, SHOW, or 'canonical', 'relaxed', 'show'")
    return int(mode)


def number(value, what):
    """Returns an int, which is not a bool."""
    if isinstance(value, bool) or not isinstance(value, int):
        raise TypeError(f"{what}, and not {type(value).__name__}")
    return value


def lent(value, what):
    """Returns the bytes of an object with a buffer."""
    if type(value) is bytes:
        return value
    try:
        return bytes(memoryview(value))
    except TypeError:
        raise TypeError(f"{what}, and not {type(value).__name__}") from None


def text_bytes(text):
    """Returns the UTF-8 of a str, or the bytes of an object with a buffer."""
    if isinstance(text, str):
        # (a lone surrogate is not UTF-8, and is rejected as any other bytes that are not)
        return text.encode("utf-8", "surrogatepass")
    return lent(text, "a text is str or bytes")


def document_bytes(value):
    """Returns the bytes of a document."""
    return lent(value, "a document is bytes")


def of_size(value, size, what):
    """Returns bytes of one size."""
    value = lent(value, f"{what} is {size} bytes")
    if len(value) != size:
        raise ValueError(f"{what} is {size} bytes, and not {len(value)}")
    return value
