"""BSON's decimals, object ids and dates, as bytes, strings and values of Python."""
import ctypes
import datetime
import decimal
from typing import Union

from . import _calls, errors
from ._options import Bytes, Given, number, of_size, text_bytes
from .errors import NotRepresentable

EPOCH = datetime.datetime(1970, 1, 1, tzinfo=datetime.timezone.utc)
MILLISECOND = datetime.timedelta(milliseconds=1)


def _parsed(call, text, size):
    given, out = text_bytes(text), ctypes.create_string_buffer(size)
    errors.expect_ok(call(given, len(given), out))
    return out.raw


def _printed(call, value):
    buffer, size = ctypes.create_string_buffer(64), ctypes.c_size_t()
    errors.expect_ok(call(value, buffer, len(buffer), ctypes.byref(size)))
    return buffer.raw[:size.value].decode()


def decimal128(value: Union[Given, decimal.Decimal]) -> bytes:
    """Returns the 16 bytes, the lowest first, of a decimal: a string or a decimal.Decimal.

    >>> decimal128_text(decimal128("19.90"))
    '19.90'

    Raises InvalidString if the string is not a decimal, or would have to be rounded.
    """
    given = str(value) if isinstance(value, decimal.Decimal) else value
    return _parsed(_calls.library.vbson_decimal128_parse, given, 16)


def decimal128_text(value: Bytes) -> str:
    """Formats a decimal of 16 bytes."""
    given = of_size(value, 16, "a decimal")
    if _calls.extension is not None:
        made = _calls.extension.printed(_calls.ADDRESSES["decimal128_print"], given)
        if isinstance(made, str):
            return made
    return _printed(_calls.library.vbson_decimal128_print, given)


def decimal_of(value: Bytes) -> decimal.Decimal:
    """Returns the exact decimal.Decimal of a decimal of 16 bytes, with its digits, exponent and sign, in any context.

    >>> decimal_of(decimal128("19.90"))
    Decimal('19.90')
    """
    return decimal.Decimal(decimal128_text(value))


def object_id(text: Given) -> bytes:
    """Parses the 24 hexadecimal digits of an object id into its 12 bytes. Raises InvalidString.

    >>> object_id("53e37d08776f724e42000000").hex()
    '53e37d08776f724e42000000'
    """
    return _parsed(_calls.library.vbson_object_id_parse, text, 12)


def object_id_text(value: Bytes) -> str:
    """Formats an object id of 12 bytes as 24 lower-case hexadecimal digits."""
    return _printed(_calls.library.vbson_object_id_print, of_size(value, 12, "an object id"))


def date_time(value: Union[Given, datetime.datetime]) -> int:
    """Returns the milliseconds since 1970-01-01T00:00:00Z of a string of RFC 3339, or of a datetime.

    >>> date_time("2020-06-01T00:42:40.292Z")
    1590972160292

    Raises InvalidString, and NotRepresentable for a datetime without a time zone or with a fraction of a millisecond.
    """
    if isinstance(value, datetime.datetime):
        return _millis(value)
    given, out = text_bytes(value), ctypes.c_int64()
    errors.expect_ok(_calls.library.vbson_date_time_parse(given, len(given), ctypes.byref(out)))
    return out.value


def _millis(moment):
    if moment.utcoffset() is None:
        raise NotRepresentable("a datetime without a time zone is not a date-time")
    millis, rest = divmod(moment - EPOCH, MILLISECOND)
    if rest:
        raise NotRepresentable("a datetime with a fraction of a millisecond would be rounded")
    return millis


def date_time_text(millis: int) -> str:
    """Formats milliseconds since 1970-01-01T00:00:00Z by RFC 3339, in UTC. Raises NotRepresentable.

    >>> date_time_text(0)
    '1970-01-01T00:00:00Z'
    """
    if not -2**63 <= number(millis, "a date-time is an int of milliseconds") < 2**63:
        raise errors.of_status(errors.NOT_REPRESENTABLE)
    return _printed(_calls.library.vbson_date_time_print, millis)


def datetime_of(millis: int) -> datetime.datetime:
    """Returns the datetime, in UTC, of milliseconds since 1970-01-01T00:00:00Z. Raises OverflowError outside the years 1 to 9999.

    >>> datetime_of(0)
    datetime.datetime(1970, 1, 1, 0, 0, tzinfo=datetime.timezone.utc)
    """
    return EPOCH + number(millis, "a date-time is an int of milliseconds") * MILLISECOND
