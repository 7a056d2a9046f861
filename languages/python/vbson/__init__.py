"""MongoDB Extended JSON v2, BSON bytes and BSON's scalar types, by the library libvbson.so, whose calls are proved.

    >>> import vbson
    >>> vbson.loads('{"price": 12.5, "paid": {"$date": "2020-06-01T00:00:00Z"}}')
    {'price': 12.5, 'paid': datetime.datetime(2020, 6, 1, 0, 0, tzinfo=datetime.timezone.utc)}
    >>> vbson.decode(vbson.encode('{"n": 5}'), "relaxed")
    '{"n":5}'

| Values of Python | Texts, lines and bytes |
|---|---|
| `loads`, `load`, `loads_lines` | `convert`, `convert_lines`, `iter_lines`, `explain` |
| `dumps`, `dump` | `encode`, `encode_lines`, `decode`, `decode_documents` |
| `loads_documents`, `iter_documents`, `dump_documents`, `RawDocument` | `same`, `hash_of`, `same_documents`, `hash_of_document`, `is_document`, `is_canonical_text` |

Each call has the same options, as keywords: `Options` describes them. Errors are data: `Error` describes their fields.

The library is searched in the variable VBSON_LIBRARY (its path), in this package, in ../../out/lib (where ./vbson build
puts it), in ../../.. (where it is installed) and where the system keeps libraries. It runs on x86-64 Linux with glibc, on a
processor with SSE4.2 and POPCNT, which is checked if the machine has /proc/cpuinfo. The extension module _vbson, which is
built if there is a Python.h, returns the same faster; the variable VBSON_EXTENSION has its path, or is empty for none.

Input is `str`, or `bytes` (or another object with a buffer) in UTF-8; anything else is a TypeError. Any number of threads
may call at once.
"""
from ._options import (CANONICAL, DOUBLES, KEEP_ORDER, V1, MONGODB_LAYOUT, REJECT_DUPLICATE_KEYS, RELAXED, SHOW, SPECIFIED,
                       Options)
from .documents import decode, decode_documents, explain_document, hash_of_document, is_document, same_documents
from .errors import (BAD_OBJECT_ID, BUFFER_TOO_SMALL, DIFFERENT, INVALID_ARGUMENT, INVALID_STRING, NOT_A_DOCUMENT, NOT_CANONICAL, NOT_EXTENDED_JSON,
                     NOT_FOUND, NOT_JSON, NOT_REPRESENTABLE, OK, OUT_OF_MEMORY, TOO_LONG, UNEXPECTED_TYPE, ZERO_IN_KEY, ZERO_IN_REGEX,
                     BadObjectId, Error, IntegerTooLarge, InvalidString, NotADocument, NotEncodable, NotExtendedJson, NotJson, NotRepresentable, NoValue,
                     UnsupportedType)
from .objects import dump, dumps, load, loads, loads_lines
from .raw import RawDocument
from .scalars import (date_time, date_time_text, datetime_of, decimal128, decimal128_text, decimal_of, object_id, object_id_text)
from .streams import convert_block, dump_documents, iter_documents, iter_lines, loads_documents
from .texts import convert, convert_lines, encode, encode_lines, explain, hash_of, is_canonical_text, same, version
from .values import (Binary, Code, DatetimeMS, DBPointer, Int64, MaxKey, MinKey, ObjectId, Regex, Symbol, Timestamp, Undefined)

__all__ = [
    "CANONICAL", "RELAXED", "SHOW", "Options", "SPECIFIED",
    "convert", "convert_lines", "convert_block", "iter_lines", "explain", "same", "hash_of", "is_canonical_text", "encode", "encode_lines",
    "decode", "decode_documents", "is_document", "explain_document", "same_documents", "hash_of_document",
    "loads", "load", "loads_lines", "dumps", "dump", "loads_documents", "iter_documents", "dump_documents", "RawDocument",
    "decimal128", "decimal128_text", "decimal_of", "object_id", "object_id_text", "date_time", "date_time_text", "datetime_of",
    "version", "Error", "NotJson", "BadObjectId", "NotExtendedJson", "InvalidString", "NotRepresentable", "NotADocument",
    "NotEncodable", "UnsupportedType", "IntegerTooLarge", "NoValue",
    "OK", "INVALID_ARGUMENT", "NOT_JSON", "BAD_OBJECT_ID", "NOT_EXTENDED_JSON", "OUT_OF_MEMORY", "INVALID_STRING", "NOT_REPRESENTABLE",
    "BUFFER_TOO_SMALL", "DIFFERENT", "NOT_A_DOCUMENT", "ZERO_IN_KEY", "ZERO_IN_REGEX", "TOO_LONG", "NOT_FOUND",
    "UNEXPECTED_TYPE", "NOT_CANONICAL",
    "Binary", "Code", "DBPointer", "DatetimeMS", "Int64", "MaxKey", "MinKey", "ObjectId", "Regex", "Symbol", "Timestamp", "Undefined",
]
