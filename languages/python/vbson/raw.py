"""Documents that remain bytes: checked once, and then read value by value."""
import collections.abc
import ctypes
from typing import Any, Iterator

from . import _calls, _reading, errors
from ._options import Bytes, document_bytes
from .documents import of_bytes

_DOCUMENT = 0x03


class RawDocument(collections.abc.Mapping):
    """A document that remains its bytes, which are checked once. A value is read when its key is asked for.

    >>> document = RawDocument(b"\\x18\\0\\0\\0\\x10n\\0\\5\\0\\0\\0\\3at\\0\\x08\\0\\0\\0\\x0aa\\0\\0\\0")
    >>> document["n"], document.get("absent"), list(document["at"])
    (5, None, ['a'])

    Its values are those of `loads_documents`, but a document inside is a RawDocument too, which shares the bytes. The last
    value of a duplicate key wins. `raw` has the bytes, for example for `decode`. Raises NotADocument.
    """

    __slots__ = ("_data", "_at", "_size", "_len")

    def __init__(self, document: Bytes):
        data = document_bytes(document)
        if _calls.library.vbson_is_document(data, len(data)) != errors.OK:
            raise of_bytes(data)
        self._data, self._at, self._size, self._len = data, 0, len(data), len(data)

    @property
    def raw(self) -> bytes:
        """The bytes of the document."""
        return self._data[self._at:self._at + self._len]

    def __getitem__(self, key: str) -> Any:
        if not isinstance(key, str):
            raise KeyError(key)
        # (a lone surrogate becomes bytes that are in no document)
        value, name = _calls.no_value(), key.encode(errors="surrogatepass")
        status = _calls.library.vbson_raw_get(_address(self._data) + self._at, self._size, name, len(name), ctypes.byref(value))
        if status != errors.OK:
            raise KeyError(key)
        return self._read(value)

    def __iter__(self) -> Iterator[str]:
        return iter(dict.fromkeys(key for key, _ in self._elements()))

    def __len__(self) -> int:
        return len({key for key, _ in self._elements()})

    def items(self):
        """Returns the keys and their values."""
        return {key: self._read(value) for key, value in self._elements()}.items()

    def __repr__(self) -> str:
        return f"RawDocument({self.raw!r})"

    def _elements(self):
        """The keys and the places of the values, in the order of the bytes."""
        cursor, key, value = _calls.no_slice(), _calls.no_slice(), _calls.no_value()
        _calls.library.vbson_raw_elements(_address(self._data) + self._at, self._size, ctypes.byref(cursor))
        while _calls.library.vbson_raw_next(ctypes.byref(cursor), ctypes.byref(key), ctypes.byref(value)) == errors.OK:
            yield ctypes.string_at(key.bytes, key.len).decode(), value

    def _read(self, value):
        at = value.bytes - _address(self._data)
        if value.type != _DOCUMENT:
            return _reading.READERS[value.type](self._data, at)[0]
        made = object.__new__(RawDocument)
        made._data, made._at, made._size, made._len = self._data, at, value.size, value.len
        return made


def _address(data):
    """The address of the bytes, which remain where they are as long as they live."""
    return ctypes.cast(ctypes.c_char_p(data), ctypes.c_void_p).value
