"""Dumps of BSON documents as values of Python, and streams of lines: at once, or block by block in little memory."""
from typing import IO, Any, Callable, Iterable, Iterator, List, Optional, Tuple, Union

from . import documents, errors
from ._options import (CANONICAL, DOUBLES, KEEP_ORDER, V1, MONGODB_LAYOUT, REJECT_DUPLICATE_KEYS, Bytes, Given, Mode,
                       document_bytes, flags_of, text_bytes)
from ._types import types_of
from .errors import Error
from .objects import hooked
from .texts import convert_lines

_Hook = Optional[Callable[[dict], Any]]


def _is_strict(options):
    """Returns whether duplicate keys are rejected. The documents of a dump keep the order of their keys."""
    flags = flags_of(options, KEEP_ORDER | REJECT_DUPLICATE_KEYS, DOUBLES | V1 | MONGODB_LAYOUT)
    if not flags & KEEP_ORDER:
        raise ValueError("documents of a dump keep the order of their keys")
    return bool(flags & REJECT_DUPLICATE_KEYS)


def _length(block):
    """Returns the length of the document at the beginning of a block."""
    return int.from_bytes(block[:4], "little", signed=True)


def _is_cut(block, at=0):
    """Returns whether the block ends before the document does that begins at the index."""
    left = len(block) - at
    return left < 4 or left < _length(block[at:at + 4])


def _checked(kinds, is_strict, block, number, start):
    """Returns the values of the whole documents at the beginning of a block, how many bytes they have, and the error of the
    next document, or None if the block has no more or cuts it. The first has this number, from 0, and this place in the dump."""
    try:
        found, used = kinds.checked_values_of(block)
    except errors.NoValue as error:
        raise errors.placed(error, [number + error.path[0], *error.path[1:]], "no value")
    at = 0
    for index in range(len(found) if is_strict else 0):
        end = at + _length(block[at:at + 4])
        if not documents.is_document(block[at:end], reject_duplicate_keys=True):
            return found[:index], at, _rejected(block[at:end], number + index, start + at, REJECT_DUPLICATE_KEYS)
        at = end
    is_left = used < len(block) and not _is_cut(block, used)
    return found, used, _rejected(block[used:], number + len(found), start + used) if is_left else None


def _rejected(block, number, start, flags=0):
    """Returns the error of the document at the beginning of a block, under the flags."""
    length = _length(block)
    document = block[:length] if 5 <= length <= len(block) else block
    return errors.in_dump(documents.of_bytes(bytes(document), flags), number, start)


def loads_documents(data: Bytes, types: str = "plain", object_hook: _Hook = None, **options: bool) -> List[Any]:
    """Returns the values of concatenated BSON documents, such as a dump of mongodump.

    >>> loads_documents(b"\\x0c\\0\\0\\0\\x10n\\0\\5\\0\\0\\0\\0\\x05\\0\\0\\0\\0")
    [{'n': 5}, {}]

    types and object_hook are those of `loads`. The library checks each document. Raises NotADocument for the first that is
    not one; its path begins with the index of the document, and its offset is that in the data. Raises NoValue and MemoryError.
    """
    kinds, is_strict, given = types_of(types), _is_strict(options), document_bytes(data)
    found, used, error = _checked(kinds, is_strict, given, 0, 0)
    if used < len(given):
        raise error or _rejected(given[used:], len(found), used)
    return [hooked(it, object_hook) for it in found] if object_hook else found


def _pieces(file, size):
    """Yields the bytes of a file, at most so many at once, or the parts of an iterable."""
    if not hasattr(file, "read"):
        yield from map(document_bytes, file)
        return
    while True:
        piece = document_bytes(file.read(size))
        if not piece:
            return
        yield piece


def iter_documents(file: Union[IO[bytes], Iterable[Bytes]], types: str = "plain", object_hook: _Hook = None,
                   block_size: int = 1 << 20, **options: bool) -> Iterator[Any]:
    """Yields the values of the documents of a dump, from a file that is opened as bytes, or from an iterable of its parts.

    >>> import io
    >>> [*iter_documents(io.BytesIO(b"\\x05\\0\\0\\0\\0" * 2))], [*iter_documents([b"\\x05\\0", b"\\0\\0\\0"])]
    ([{}, {}], [{}])

    A block of block_size bytes and the largest document are in memory. A document that the end of a block cuts is read with
    the next block. The values and errors are those of `loads_documents`; values before the error are yielded first.
    """
    kinds, is_strict = types_of(types), _is_strict(options)
    rest, number, start = bytearray(), 0, 0
    for piece in _pieces(file, block_size):
        rest += piece
        if _is_cut(rest):
            continue
        found, used, error = _checked(kinds, is_strict, bytes(rest), number, start)
        for it in found:
            yield hooked(it, object_hook)
        if error is not None:
            raise error
        del rest[:used]
        number, start = number + len(found), start + used
    if rest:
        raise _rejected(bytes(rest), number, start)


def dump_documents(values: Iterable[Any], file: IO[bytes], types: str = "plain",
                   default: Optional[Callable[[Any], Any]] = None, **options: bool) -> int:
    """Writes values as concatenated BSON documents to a file that is opened as bytes. Returns how many they are.

    >>> import io
    >>> file = io.BytesIO()
    >>> dump_documents([{"n": 5}, {}], file), file.getvalue().hex()
    (2, '0c000000106e0005000000000500000000')

    Each value is a dict or becomes a document by the rules of `dumps`; keys are in the order of the dict. The library checks
    each document before it is written. Raises the errors of `dumps`, whose path begins with the index of the value, and
    NotADocument for another value. The documents before it are written.
    """
    kinds, count = types_of(types), 0
    _is_strict(options)
    for value in values:
        try:
            made = kinds.document_of(value, default)
            document = made[7:-1]
            if made[4] != 3:
                reason = f"a document is needed, and not {type(value).__name__}"
                raise errors.NotADocument(f"not a document ({reason})", reason)
            if not documents.is_document(document):
                raise documents.of_bytes(document)
        except Error as error:
            raise errors.of_value(error, count)
        file.write(document)
        count += 1
    return count


# ---- lines, for programs and for engines that cut files into parts

def convert_block(block: Given, mode: Mode = CANONICAL, is_first: bool = True,
                  **options: bool) -> Tuple[bytes, List[Tuple[int, Error]]]:
    """Converts a block of a file as `convert_lines` does. Only the first block of a file may begin with a byte order mark."""
    given = text_bytes(block)
    before = int(not is_first and given.startswith(errors.MARK))
    made, refused = convert_lines(b"\n" * before + given, mode, **options)
    return made, [(number - before, error) for number, error in refused]


def iter_lines(lines: Iterable[Given], mode: Mode = CANONICAL, on_error: Optional[Callable[[int, Error], Any]] = None,
               block_size: int = 1 << 22, **options: bool) -> Iterator[str]:
    """Yields each line of a file, or of another iterable of lines, as `convert` writes it, without a newline.

    >>> [*iter_lines(['{"n": 5}', '{"n": {"$numberLong": "6"}}'], "relaxed")]
    ['{"n":5}', '{"n":6}']

    The library converts blocks of lines. A rejected line raises its error, or on_error is called with its number and its
    error, and the line is skipped. The mode is not SHOW. Blank lines count, and are skipped.
    """
    pending, size, before = [], 0, 0
    for line in lines:
        given = text_bytes(line)
        pending.append(given if given.endswith(b"\n") else given + b"\n")
        size += len(given) + 1
        if size >= block_size:
            yield from _converted(pending, before, mode, on_error, options)
            pending, size, before = [], 0, before + len(pending)
    yield from _converted(pending, before, mode, on_error, options)


def _converted(lines, before, mode, on_error, options):
    """Returns the output of lines, of which so many are before these."""
    made, refused = convert_block(b"".join(lines), mode, before == 0, **options)
    for number, error in refused:
        error.line = before + number
        if on_error is None:
            raise error
        on_error(before + number, error)
    return made.decode().split("\n")[:-1]
