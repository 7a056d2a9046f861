"""The errors of the library, as data."""
from typing import List, Optional, Union

from . import _paths

OK, INVALID_ARGUMENT, NOT_JSON, BAD_OBJECT_ID, NOT_EXTENDED_JSON = 0, 1, 2, 3, 4
OUT_OF_MEMORY, INVALID_STRING, NOT_REPRESENTABLE, BUFFER_TOO_SMALL, DIFFERENT = 5, 6, 7, 8, 9
NOT_A_DOCUMENT, ZERO_IN_KEY, ZERO_IN_REGEX, TOO_LONG, NOT_FOUND = 10, 11, 12, 13, 14
UNEXPECTED_TYPE, NOT_CANONICAL = 15, 16


class Error(ValueError):
    """The library rejected its input. str() is the message.

    code     the status of the C library, for example NOT_EXTENDED_JSON
    reason   what is wrong: 'not a 64-bit integer; found 1.5'. Without a longer one it is the message
    path     the keys and indexes that lead to the wrong value, for example ['orders', 3, 'price']. It is empty if the error
             is that of the whole value, or if the input is not JSON
    offset   the number of bytes of the input before the error: before the byte at which it stops to be JSON, before the wrong
             value, or before the first error of a document. It is None if that is not known
    line, column    the line of that byte, and the byte in the line, both from 1. They are None for a document, and without an
             offset. An error of a block of lines always has the line
    """

    code: Optional[int] = None
    reason: str
    path: List[Union[str, int]]
    line: Optional[int]
    column: Optional[int]
    offset: Optional[int]

    def __init__(self, message: str = "", reason: str = "", path=(), *, code: Optional[int] = None,
                 offset: Optional[int] = None):
        super().__init__(message)
        self.reason, self.path, self.offset, self.line, self.column = reason or message, [*path], offset, None, None
        if code is not None:
            self.code = code

    @property
    def message(self) -> str:
        """The message of the class, and after it the path and the reason."""
        return str(self)


class NotJson(Error):
    """The input is not UTF-8, is not one JSON text, or nests deeper than 127."""

    code = NOT_JSON


class BadObjectId(Error):
    """The first error is an invalid object id."""

    code = BAD_OBJECT_ID


class NotExtendedJson(Error):
    """The first error is any other: the JSON is not valid Extended JSON v2."""

    code = NOT_EXTENDED_JSON


class InvalidString(Error):
    """The string does not have the format that the call parses."""

    code = INVALID_STRING


class NotRepresentable(Error):
    """The value has no output of the requested format: a finite double, without `doubles`, or a date without a time zone."""

    code = NOT_REPRESENTABLE


class NotADocument(Error):
    """The bytes are not a BSON document, or the value of the input is not a document."""

    code = NOT_A_DOCUMENT


class NotEncodable(Error):
    """The document has no bytes: a key or a regular expression contains a 0 byte, or a part is too long."""


class UnsupportedType(NotEncodable, TypeError):
    """A value of Python is of a type that BSON has no type for, or a key is not a str."""

    code = NOT_REPRESENTABLE


class IntegerTooLarge(NotEncodable, OverflowError):
    """An int has more than 64 bits."""

    code = NOT_REPRESENTABLE


class NoValue(Error):
    """A value can't be represented in the requested types."""


_ERRORS = {INVALID_ARGUMENT: (ValueError, "invalid argument"), NOT_JSON: (NotJson, "not JSON"),
           BAD_OBJECT_ID: (BadObjectId, "bad object id"), NOT_EXTENDED_JSON: (NotExtendedJson, "not Extended JSON"),
           OUT_OF_MEMORY: (MemoryError, "out of memory"), INVALID_STRING: (InvalidString, "invalid string"),
           NOT_REPRESENTABLE: (NotRepresentable, "not representable"), NOT_A_DOCUMENT: (NotADocument, "not a document"),
           ZERO_IN_KEY: (NotEncodable, "a key has a 0 byte in it"),
           ZERO_IN_REGEX: (NotEncodable, "a regular expression has a 0 byte in it"), TOO_LONG: (NotEncodable, "a part is too long for BSON")}
# A byte order mark, which is skipped at the start of a block of lines.
MARK = b"\xef\xbb\xbf"
_OF_TEXTS = (NOT_JSON, BAD_OBJECT_ID, NOT_EXTENDED_JSON)


def of_status(status):
    """Returns the error of a status, which has its message alone."""
    error, words = _ERRORS.get(status, (Error, f"status {status}"))
    return error(words, code=status) if issubclass(error, Error) else error(words)


def expect_ok(status):
    """Raises the error of a status that is not OK."""
    if status != OK:
        raise of_status(status)


def is_of_text(status):
    """Returns whether `vbson_explain` has more for a text with this status."""
    return status in _OF_TEXTS


def of_text(found):
    """Returns the error of a rejected text, from what `vbson_explain` found."""
    error = _ERRORS[found.code][0](found.message, found.reason, _paths.of_array(found.path), code=found.code)
    if found.line > 0:
        error.line, error.column, error.offset = found.line, found.column, found.offset
    return error


def of_lines(count, block, first_from, error_of):
    """Returns the number and the error of each of so many rejected lines of a block: first_from returns the number of the first
    one in the rest of the block from an index, error_of the error of the line alone."""
    refused, number, end = [], 1, 0
    for _ in range(count):
        # (the rest begins with the newline of the rejected line, so that a byte order mark after it is not skipped)
        passed = first_from(end) - 1
        number += passed
        # (the columns of the first line count from after a byte order mark)
        start = len(MARK) if number == 1 and block.startswith(MARK) else end
        for _ in range(passed):
            start = block.index(b"\n", start) + 1
        end = block.find(b"\n", start)
        end = end if end >= 0 else len(block)
        error = error_of(block[start:end])
        if error.offset is not None:
            error.offset += start
        error.line = number
        refused.append((number, error))
    return refused


def of_bytes(reason, offset, document):
    """Returns the error of bytes that are not a document, from what is wrong at an offset."""
    return NotADocument(f"not a document at byte {offset} ({reason})", reason, _paths.at_offset(document, offset), offset=offset)


def of_double(document, hidden=0):
    """Returns the error of a document with a finite double, which has no text without `doubles`. Its path lacks the first keys,
    which are hidden."""
    path, reason = (_paths.of_finite_double(document) or [])[hidden:], "a finite double"
    return NotRepresentable(f"not representable{f' at {_paths.joined(path)}' if path else ''} ({reason})", reason, path)


def of_documents(count, block, error_of):
    """Returns the number, the offset and the error of each rejected document among so many of a block: error_of returns the
    error of the document alone, or None."""
    refused, start = [], 0
    for number in range(1, count + 1):
        # (the bytes of a document are at least those of its length)
        length = int.from_bytes(block[start:start + 4], "little", signed=True)
        document = block[start:start + max(length, 4)]
        error = error_of(document)
        if error is not None:
            refused.append((number, start, error))
        start += len(document)
    return refused


def placed(error, path, kind="not BSON"):
    """Returns an error of a value of Python, with the path to the value."""
    error.path = [*path]
    error.args = (f"{kind}{f' at {_paths.joined(path)}' if path else ''} ({error.reason})",)
    return error


def of_value(error, number):
    """Returns the error of the value of this number, from 0, among several."""
    error.path.insert(0, number)
    error.args = (f"document {number + 1}: {error}",)
    return error


def in_dump(error, number, start):
    """Returns the error of the document of this number, from 0, as one of the dump in which it begins at an offset."""
    at_byte = "" if error.offset is None else f" at its byte {error.offset}"
    found = type(error)(f"document {number + 1} at byte {start}: {error.reason}{at_byte}", error.reason, [number, *error.path],
                        code=error.code, offset=start + (error.offset or 0))
    return found
