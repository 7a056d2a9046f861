"""The calls on the bytes of BSON documents: one document, or the concatenated documents of a dump."""
from typing import List, Tuple

from . import _calls, errors
from ._options import (CANONICAL, DECODING, DOUBLES, ONLY_WRITING, REJECT_DUPLICATE_KEYS, V1, Bytes, Mode, document_bytes, flags_of,
                       mode_of)
from .errors import Error

# What changes nothing on bytes that are only read.
NO_CHANGE = DOUBLES | ONLY_WRITING | V1


def of_bytes(document, flags=0):
    """Returns the error of bytes that are not a document, or that have a duplicate key, which the flags reject."""
    status, found = _calls.explained(flags | DOUBLES, document, "explain_document")
    # (without memory for it, the error has no path)
    if status != errors.OK or found.code != errors.NOT_A_DOCUMENT:
        return errors.NotADocument("not a document")
    return errors.of_bytes(found.reason, found.offset, document)


def expect_documents(status, flags, *documents):
    """Raises the error of the first rejected document, if there is one."""
    if status == errors.NOT_A_DOCUMENT:
        hashed = ((it, _calls.hash_by(_calls.library.vbson_hash_document, flags, it)[0]) for it in documents)
        raise of_bytes(next((it for it, found in hashed if found == status), b""), flags)
    errors.expect_ok(status)


def is_document(document: Bytes, **options: bool) -> bool:
    """Returns whether the bytes are exactly one document of BSON 1.1.

    >>> is_document(b"\\x05\\0\\0\\0\\0"), is_document(b"\\x05\\0\\0\\0")
    (True, False)

    Documents, arrays and scopes of code nest at most 100 deep, here and in `decode`.
    """
    flags, given = flags_of(options, REJECT_DUPLICATE_KEYS, NO_CHANGE), document_bytes(document)
    if flags:
        status, _ = _calls.hash_by(_calls.library.vbson_hash_document, flags, given)
        return status == errors.OK
    return _calls.library.vbson_is_document(given, len(given)) == errors.OK


def explain_document(document: Bytes, **options: bool) -> str:
    """Returns why, and where, the bytes are not a document, as one line; empty if they are one. Raises MemoryError.

    >>> explain_document(b"\\x05\\0\\0\\0")
    'not a document at byte 4 (ends too early)'
    """
    flags, given = flags_of(options, REJECT_DUPLICATE_KEYS, NO_CHANGE), document_bytes(document)
    status, found = _calls.explained(flags | DOUBLES, given, "explain_document")
    errors.expect_ok(status)
    return found.message


def same_documents(a: Bytes, b: Bytes, **options: bool) -> bool:
    """Compares two documents. The order of their keys doesn't matter.

    reject_duplicate_keys rejects bytes if one of their documents has a duplicate key, at any depth. Raises NotADocument for
    a first, and MemoryError.
    """
    flags, a, b = flags_of(options, REJECT_DUPLICATE_KEYS, NO_CHANGE), document_bytes(a), document_bytes(b)
    status = _calls.library.vbson_same_documents(flags, a, len(a), b, len(b))
    if status != errors.DIFFERENT:
        expect_documents(status, flags, a, b)
    return status == errors.OK


def hash_of_document(document: Bytes, **options: bool) -> int:
    """Computes the hash of a document. It is the hash that `hash_of` returns for Extended JSON with the same value.

    The options are those of `same_documents`. Raises NotADocument, and MemoryError.
    """
    flags, given = flags_of(options, REJECT_DUPLICATE_KEYS, NO_CHANGE), document_bytes(document)
    status, number = _calls.hash_by(_calls.library.vbson_hash_document, flags, given)
    expect_documents(status, flags, given)
    return number


def decode(document: Bytes, mode: Mode = CANONICAL, **options: bool) -> str:
    """Reads the bytes as one document, and writes it in the mode.

    >>> decode(b"\\x0c\\0\\0\\0\\x10n\\0\\5\\0\\0\\0\\0", "relaxed")
    '{"n":5}'

    The mode SHOW always has the document's own order of keys. The last value of a duplicate key wins, at the position of
    the first. reject_duplicate_keys rejects bytes if one of their documents has a duplicate key, at any depth. v1 has no
    meaning for bytes. Raises ValueError for v1, NotADocument, MemoryError, and in the two forms NotRepresentable for a finite
    double other than 0.0 without doubles.
    """
    return decoded(mode_of(mode), flags_of(options, DECODING), document_bytes(document))


def decoded(mode, flags, given, hidden=0):
    """Returns the text of a document; raises its error, whose path lacks the first keys, which are hidden."""
    status, made = _calls.text_by("decode", mode, flags, given)
    if status == errors.NOT_A_DOCUMENT:
        error = of_bytes(given, flags & REJECT_DUPLICATE_KEYS)
        del error.path[:hidden]
        raise error
    if status == errors.NOT_REPRESENTABLE:
        raise errors.of_double(given, hidden)
    errors.expect_ok(status)
    return made


def decode_documents(block: Bytes, mode: Mode = CANONICAL, **options: bool) -> Tuple[bytes, List[Tuple[int, int, Error]]]:
    """Decodes the concatenated documents of a block, each as `decode` does. Returns the output, a line for each document, and
    the number, the byte offset and the error of each rejected document.

    >>> decode_documents(b"\\x0c\\0\\0\\0\\x10n\\0\\5\\0\\0\\0\\0", "relaxed")
    (b'{"n":5}\\n', [])

    The next document begins where the length of the one before it ends, also if that was rejected. If the block has no
    valid length there, or fewer bytes, that document is the last, and the rest is not read. Raises MemoryError.
    """
    mode, flags, given = mode_of(mode), flags_of(options, DECODING), document_bytes(block)
    out = _calls.Documents(_calls.empty(), _calls.empty(), 0, 0)
    status, made, diagnostics = _calls.block_by(_calls.library.vbson_decode_documents, out, mode, flags, given, len(given))
    errors.expect_ok(status)
    # (a block of which a document is rejected is read again)
    count = out.documents if diagnostics else 0
    return made, errors.of_documents(count, given, lambda document: _error_of(mode, flags, document))


def _error_of(mode, flags, document):
    """Returns the error of a document that has no text in the mode; None if it has one."""
    if flags & DOUBLES and not flags & REJECT_DUPLICATE_KEYS and _calls.library.vbson_is_document(document, len(document)) == errors.OK:
        return None
    try:
        decoded(mode, flags, document)
    except Error as error:
        return error
    return None
