"""Values of Python that are written as values of other types: the rules of json, and those for numpy and pandas."""
import collections.abc
import dataclasses
import datetime
import enum
import sys

from . import scalars
from .errors import NotRepresentable

# What `converted` returns if there is no rule.
NOTHING = object()


def converted(value):
    """Returns the value that is written for a value of another type, or NOTHING."""
    if isinstance(value, enum.Enum):
        return value.value
    if isinstance(value, collections.abc.Mapping):
        return dict(value.items())
    if isinstance(value, collections.abc.Set):
        return _in_order(value)
    if dataclasses.is_dataclass(value) and not isinstance(value, type):
        return {it.name: getattr(value, it.name) for it in dataclasses.fields(value)}
    if isinstance(value, datetime.date):
        return datetime.datetime(value.year, value.month, value.day, tzinfo=datetime.timezone.utc)
    pandas = sys.modules.get("pandas")
    if pandas is not None and value is getattr(pandas, "NA", NOTHING):
        return None
    # (a value of numpy exists only if numpy is imported)
    return NOTHING if "numpy" not in sys.modules else _of_numpy(sys.modules["numpy"], value)


def _in_order(values):
    """Returns the elements of a set, sorted, so that equal sets have one text."""
    try:
        return sorted(values)
    except TypeError:
        return sorted(values, key=lambda it: (type(it).__name__, repr(it)))


def _of_numpy(numpy, value):
    if isinstance(value, numpy.ndarray):
        return [*value] if value.ndim else _of_numpy(numpy, value[()])
    if isinstance(value, numpy.datetime64):
        return _of_datetime64(numpy, value)
    is_inexact = isinstance(value, (numpy.timedelta64, numpy.longdouble))
    is_number = isinstance(value, (numpy.bool_, numpy.integer, numpy.floating))
    return value.item() if is_number and not is_inexact else NOTHING


def _of_datetime64(numpy, value):
    """Returns the datetime of a moment of numpy, which is in UTC; None for NaT."""
    if numpy.isnat(value):
        return None
    moment = value.astype("datetime64[ms]")
    if moment != value:
        raise NotRepresentable("a datetime64 with a fraction of a millisecond would be rounded")
    try:
        return scalars.datetime_of(int(moment.astype("int64")))
    except OverflowError:
        raise NotRepresentable("a datetime64 outside the years 1 to 9999 is not a datetime") from None
