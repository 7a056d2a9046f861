"""Types for the values of BSON that Python has no type for.

    double              float                       date                datetime in UTC, DatetimeMS where it has no year
    string              str                         regular expression  Regex
    document            dict, its keys in order     code                Code, a str; with its scope
    array               list                        symbol              Symbol, a str
    binary              bytes, UUID of subtype 4,   timestamp           Timestamp
                        Binary, a bytes, for others decimal             decimal.Decimal
    object id           ObjectId                    database pointer    DBPointer
    boolean, null       bool, None                  least and greatest  MinKey, MaxKey
    32-bit, 64-bit int  int, Int64, an int          undefined           Undefined

These are the types "plain" of `loads`, `dumps` and the other calls with values. Reading and writing round-trip to the same
bytes, except for the bits of a NaN. These are written too:

    tuple               an array                    int past 32 bits    a 64-bit int
    bytearray, memoryview  a binary                 re.Pattern          a regular expression
    set, frozenset      an array, sorted            any other Mapping   a document
    Enum                its value                   dataclass           a document of its fields
    datetime.date       its midnight in UTC         scalars and arrays of numpy  the value of Python
    numpy.datetime64    a date                      NaT and NA of pandas  null
"""
import dataclasses
from typing import Optional

from . import scalars
from ._options import of_size

__all__ = ["Binary", "Code", "DBPointer", "DatetimeMS", "Int64", "MaxKey", "MinKey", "ObjectId", "Regex", "Symbol", "Timestamp",
           "Undefined"]


class Int64(int):
    """An int that is written as a 64-bit one, however small it is."""


class DatetimeMS(int):
    """A date-time outside the years 1 to 9999, as the milliseconds since 1970-01-01T00:00:00Z."""


class Symbol(str):
    """A symbol, which is deprecated."""


class Code(str):
    """JavaScript code, with the document of its scope or None."""

    scope: Optional[dict]

    def __new__(cls, code: str, scope: Optional[dict] = None) -> "Code":
        made = super().__new__(cls, code)
        made.scope = scope
        return made

    def __eq__(self, other):
        return isinstance(other, Code) and str.__eq__(self, other) and self.scope == other.scope

    __hash__ = str.__hash__

    def __repr__(self):
        return f"Code({str.__repr__(self)}, {self.scope!r})"


class Binary(bytes):
    """Bytes of a subtype."""

    subtype: int

    def __new__(cls, data: bytes, subtype: int = 0) -> "Binary":
        made = super().__new__(cls, data)
        made.subtype = subtype
        return made

    def __eq__(self, other):
        return isinstance(other, Binary) and bytes.__eq__(self, other) and self.subtype == other.subtype

    __hash__ = bytes.__hash__

    def __repr__(self):
        return f"Binary({bytes.__repr__(self)}, {self.subtype})"


@dataclasses.dataclass(frozen=True, repr=False)
class ObjectId:
    """An object id, of its 12 bytes or of its 24 hexadecimal digits.

    >>> ObjectId(bytes(12))
    ObjectId('000000000000000000000000')
    >>> str(ObjectId("53E37d08776f724e42000000"))
    '53e37d08776f724e42000000'

    Raises InvalidString if a str is not 24 hexadecimal digits, and ValueError if there are not 12 bytes.
    """

    binary: bytes

    def __post_init__(self):
        made = scalars.object_id(self.binary) if isinstance(self.binary, str) else of_size(self.binary, 12, "an object id")
        object.__setattr__(self, "binary", made)

    def __str__(self):
        return self.binary.hex()

    def __repr__(self):
        return f"ObjectId('{self}')"


@dataclasses.dataclass(frozen=True)
class Regex:
    """A regular expression of PCRE; Python's `re` may have another meaning for the pattern, or none."""

    pattern: str
    options: str = ""


@dataclasses.dataclass(frozen=True)
class Timestamp:
    """A timestamp of MongoDB's replication: seconds since 1970, and a number within that second."""

    time: int
    increment: int


@dataclasses.dataclass(frozen=True)
class DBPointer:
    """A database pointer, which is deprecated."""

    namespace: str
    id: ObjectId


@dataclasses.dataclass(frozen=True)
class MinKey:
    """The value that is less than all others."""


@dataclasses.dataclass(frozen=True)
class MaxKey:
    """The value that is greater than all others."""


@dataclasses.dataclass(frozen=True)
class Undefined:
    """The value undefined, which is deprecated."""
