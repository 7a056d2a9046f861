"""What the tests of the Python package share: checks that are counted, and the last line 'N passed, M failed'."""
import sys

import vbson

counts = {True: 0, False: 0}


def want(name, found, wanted):
    is_right = found == wanted and (type(found) is type(wanted) or not isinstance(found, (int, str, float, list, dict)))
    counts[is_right] += 1
    if not is_right:
        print(f"FAILED: {name}: {found!r} and not {wanted!r}")


def raises(name, error, call, *arguments, **named):
    try:
        found = call(*arguments, **named)
    except Exception as it:
        found = type(it)
    want(name, found, error)


def refusal(call, *arguments, **named):
    """The message, the path and the reason of an error, and its class."""
    try:
        return call(*arguments, **named)
    except vbson.Error as it:
        return str(it), it.path, it.reason, type(it)


def fields(call, *arguments, **named):
    """The class, the code, the path, the line, the column and the offset of an error."""
    try:
        return call(*arguments, **named)
    except vbson.Error as it:
        return type(it), it.code, it.path, it.line, it.column, it.offset


def end():
    print(f"{counts[True]} passed, {counts[False]} failed")
    sys.exit(1 if counts[False] else 0)
