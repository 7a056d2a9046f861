"""The types of Python that the values of documents have: plain ones, or those of PyMongo's package bson."""
import datetime
import decimal
import functools
import re
import types
from collections.abc import Mapping
from typing import Any, Optional

from . import _calls, _foreign, _paths, errors, scalars
from ._reading import LENGTH, LONG, READERS, read_document
from ._writing import Writer, exact_decimal, unsupported
from .errors import Error, IntegerTooLarge, NotADocument, NotEncodable, NotRepresentable, NoValue, UnsupportedType
from .values import Int64, ObjectId

KEY = "v"


def field_of(kind):
    """Returns the name of the one field in which an object id of this type keeps its bytes; None if it is not made so."""
    names, binary = [name for name, it in vars(kind).items() if isinstance(it, types.MemberDescriptorType)], bytes(range(12))
    if len(names) != 1:
        return None
    try:
        made = object.__new__(kind)
        object.__setattr__(made, names[0], binary)
        return names[0] if made == kind(binary) and hash(made) == hash(kind(binary)) else None
    except (AttributeError, TypeError):
        return None


class Types:
    """Types, of which a class below makes the values."""

    def only_value(self, flags: int, text: bytes) -> Optional[tuple]:
        """Returns the value under the one key of the document of a text, in a tuple; None if there is no value."""
        try:
            if _calls.extension is not None:
                found = _calls.extension.value_by(_calls.ADDRESSES["encode"], _calls.OPTIONS_AT[flags], text, self._made)
                return found if isinstance(found, tuple) else None
            status, made = _calls.encoded(flags, text)
            return self._only(made) if status == errors.OK else None
        except NoValue:
            return None

    def value_of(self, document: bytes) -> Any:
        """Returns the value under the one key of a document that the library has written."""
        try:
            return (_calls.extension.value_of(document, self._made) if _calls.extension is not None else self._only(document))[0]
        except NoValue as error:
            raise errors.placed(error, self._unreadable(document)[1:], "no value")

    def values_of(self, documents: bytes) -> list:
        """Returns the values of concatenated documents that the library has written or checked."""
        try:
            return self._documents_of(documents)
        except NoValue as error:
            raise errors.placed(error, self._unreadable_of(documents), "no value")

    def _unreadable_of(self, documents):
        """Returns the path to the first value in concatenated documents that has no value of these types."""
        at, paths = 0, []
        while at < len(documents) and not (paths and paths[-1]):
            end = at + LENGTH.unpack_from(documents, at)[0]
            paths.append(self._unreadable(documents[at:end]))
            at = end
        return [len(paths) - 1, *paths[-1]]

    def _documents_of(self, documents):
        if _calls.extension is not None:
            return _calls.extension.documents_of(0, documents, self._made)[0]
        parts, at = [], 0
        while at < len(documents):
            end = at + LENGTH.unpack_from(documents, at)[0]
            # (under one key as an array, whose own keys nobody reads)
            parts.append(b"\x030\0" + documents[at:end])
            at = end
        return self._listed(parts)

    def checked_values_of(self, block: bytes) -> tuple:
        """Returns the values of the documents at the beginning of a block that the library accepts, and their bytes' number."""
        if _calls.extension is not None:
            try:
                return _calls.extension.documents_of(_calls.ADDRESSES["is_document"], block, self._made)
            except NoValue as error:
                raise errors.placed(error, self._unreadable_of(block), "no value")
        at, call = 0, _calls.library.vbson_is_document
        while len(block) - at >= 5:
            length = LENGTH.unpack_from(block, at)[0]
            if not 5 <= length <= len(block) - at or call(block[at:at + length], length) != errors.OK:
                break
            at += length
        return self.values_of(block[:at]), at

    def _listed(self, parts):
        inside = b"".join(parts)
        size = len(inside) + 5
        if size + 8 > 0x7FFFFFFF:
            half = len(parts) // 2
            return self._listed(parts[:half]) + self._listed(parts[half:])
        return self._only((size + 8).to_bytes(4, "little") + b"\x04v\0" + size.to_bytes(4, "little") + inside + b"\0\0")[0]


class Plain(Types):
    """The types of `values`."""

    def __init__(self):
        # (what _vbson makes values by)
        self._made = (ObjectId, "binary", Int64, datetime.datetime, datetime.timezone.utc, scalars.decimal_of, self._other, None)

    @staticmethod
    def _other(tag, content):
        """Returns the value of a tag and the bytes after its key."""
        return READERS[tag](content, 0)[0]

    @staticmethod
    def _only(document):
        found = read_document(document, 0)[0]
        return tuple(found.values()) if len(found) == 1 else None

    def document_of(self, value: Any, default=None) -> bytes:
        """Returns the document that has the value under a key."""
        try:
            return Writer(default).pairs([(KEY, value)])
        except RecursionError:
            raise NotADocument("not a document (nested too deep)", "nested too deep") from None
        except Error as error:
            raise errors.placed(error, error.path[1:])


class Bson(Types):
    """The types of the package bson of PyMongo: dates are datetimes in UTC, and a UUID has subtype 4."""

    def __init__(self):
        # (another package of that name has no codec_options)
        import bson
        from bson import binary, codec_options, decimal128, errors as their_errors, int64, objectid, tz_util
        options = {"tz_aware": True, "uuid_representation": binary.STANDARD}
        if hasattr(codec_options, "DatetimeConversion"):
            options["datetime_conversion"] = codec_options.DatetimeConversion.DATETIME_AUTO
        self._bson, self._errors, self._decimal = bson, their_errors, decimal128.Decimal128
        self._reading, self._registry = codec_options.CodecOptions(**options), codec_options.TypeRegistry
        self._writing = self._writing_with(None)
        # (what _vbson makes values by)
        self._made = (objectid.ObjectId, field_of(objectid.ObjectId), int64.Int64, datetime.datetime, tz_util.utc,
                      decimal128.Decimal128.from_bid, self._other, functools.partial(self._other, 3))

    def _writing_with(self, default):
        return self._reading.with_options(type_registry=self._registry(fallback_encoder=functools.partial(self._fallback, default)))

    def _fallback(self, default, value):
        """Returns what is written for a value that bson has no rule for; decimals are accepted too, exactly."""
        found = _foreign.converted(value)
        if isinstance(value, decimal.Decimal):
            found = value
        elif found is _foreign.NOTHING:
            if default is None:
                raise unsupported(value)
            found = default(value)
        return self._decimal.from_bid(exact_decimal(found)) if isinstance(found, decimal.Decimal) else found

    def _other(self, tag, content):
        """Returns the value of a tag and the bytes after its key."""
        size = (len(content) + 8).to_bytes(4, "little")
        return self._only(size + bytes([tag]) + b"v\0" + content + b"\0")[0]

    def _only(self, document):
        try:
            found = self._bson.decode(document, self._reading)
        except self._errors.InvalidBSON as error:
            raise NoValue("no value", f"the package bson can't represent it: {error}") from error
        return tuple(found.values()) if isinstance(found, dict) and len(found) == 1 else None

    def _unreadable(self, data, at=0, is_array=False):
        """Returns the path to the first value in a document that bson can't represent; empty if there is none."""
        for key, tag, start, end in _paths.elements(data, at, is_array):
            try:
                self._other(tag, data[start:end])
            except NoValue:
                inside = _paths.inside_of(data, tag, start)
                return [key] if inside is None else [key, *inside[1], *self._unreadable(data, inside[0], tag == 0x04)]
        return []

    def document_of(self, value: Any, default=None) -> bytes:
        """Returns the document that has the value under a key."""
        if type(value) is datetime.datetime:
            # (as bson does, but faster: one without a time zone is in UTC, and a fraction of a millisecond is cut off)
            moment = value if value.tzinfo is not None else value.replace(tzinfo=datetime.timezone.utc)
            return b"\x10\0\0\0\x09v\0" + LONG.pack((moment - scalars.EPOCH) // scalars.MILLISECOND) + b"\0"
        options = self._writing if default is None else self._writing_with(default)
        try:
            return self._bson.encode({KEY: value}, codec_options=options)
        except Error as error:
            raise errors.placed(error, self._path(value, options))
        except (self._errors.InvalidDocument, OverflowError, ValueError) as error:
            if (found := self._error(error)) is None:
                raise
            raise errors.placed(found, self._path(value, options)) from error

    def _error(self, error):
        """Returns the error of an exception of bson; None for an exception of somebody's function."""
        if isinstance(error, OverflowError):
            return IntegerTooLarge(str(error))
        if isinstance(error, UnicodeError):
            return NotEncodable("a string has a lone surrogate", code=errors.INVALID_STRING)
        if not isinstance(error, self._errors.InvalidDocument):
            return NotRepresentable("NaT is not a date") if "NaTType" in str(error) else None
        if re.search("must not contain (a|the) NUL", str(error)):
            return NotEncodable(str(error), code=errors.ZERO_IN_KEY)
        return UnsupportedType(str(error))

    def _path(self, value, options):
        """Returns the path to the first value inside that bson does not write."""
        parts = [(str(index), index, it) for index, it in enumerate(value)] if isinstance(value, (list, tuple)) else \
            [(key, key, it) for key, it in value.items()] if isinstance(value, Mapping) else []
        for key, name, it in parts:
            try:
                self._bson.encode({key: it}, codec_options=options)
            except (self._errors.InvalidDocument, OverflowError, ValueError):
                return [name, *self._path(it, options)]
        return []


@functools.lru_cache(None)
def types_of(name: str) -> Any:
    """Returns the types of this name."""
    if name == "plain":
        return Plain()
    if name == "bson":
        return Bson()
    raise ValueError("the types are 'plain' or 'bson'")
