"""Dates: milliseconds since 1970-01-01T00:00:00Z, and their texts (RFC 3339 section 5.6, proleptic Gregorian years).

Reading takes `YYYY-MM-DD`, `T`, `hh:mm:ss`, optionally a point and digits, and `Z` or a signed offset `hh:mm`, T and
Z in either case. A second of 60 is refused. The first nine digits of a fraction count, and the nanoseconds are
divided by a million towards zero.
"""
import re

DAY = 24 * 60 * 60 * 1000
ERA_YEARS, ERA_DAYS = 400, 146097
TEXT = re.compile(
    r'([0-9]{4})-([0-9]{2})-([0-9]{2})[Tt]([0-9]{2}):([0-9]{2}):([0-9]{2})(?:\.([0-9]+))?'
    r'(?:[Zz]|([+-])([0-9]{2}):([0-9]{2}))')


def is_leap(year):
    return year % 4 == 0 and (year % 100 != 0 or year % 400 == 0)


def days_before_year(year):
    """The days from 0000-01-01 to the first day of this year."""
    past = year - 1
    return 365 * year + past // 4 - past // 100 + past // 400 + 1


def days_in_month(year, month):
    if month == 2:
        return 29 if is_leap(year) else 28
    return 30 if month in (4, 6, 9, 11) else 31


EPOCH = days_before_year(1970)


def parse_rfc3339(text):
    """The milliseconds that the text names, or None."""
    found = TEXT.fullmatch(text)
    if not found:
        return None
    year, month, day, hour, minute, second = (int(field) for field in found.groups()[:6])
    fraction, sign, offset_hour, offset_minute = found.groups()[6:]
    if not (1 <= month <= 12 and 1 <= day <= days_in_month(year, month) and hour <= 23 and minute <= 59
            and second <= 59):
        return None
    minutes = hour * 60 + minute
    if sign:
        if int(offset_hour) > 23 or int(offset_minute) > 59:
            return None
        offset = int(offset_hour) * 60 + int(offset_minute)
        minutes -= offset if sign == '+' else -offset
    days = days_before_year(year) + sum(days_in_month(year, earlier) for earlier in range(1, month)) + day - 1
    seconds = (days - EPOCH) * 86400 + minutes * 60 + second
    nanoseconds = seconds * 10**9 + int(((fraction or '') + '0' * 9)[:9])
    towards_zero = abs(nanoseconds) // 10**6
    return towards_zero if nanoseconds >= 0 else -towards_zero


def civil(days):
    """Year, month and day of the day so many days after 0000-01-01."""
    era, days = divmod(days, ERA_DAYS)
    # No year has more than 366 days, so this one is not too late.
    year = days // 366
    while days_before_year(year + 1) <= days:
        year += 1
    days -= days_before_year(year)
    month = 1
    while days >= days_in_month(year, month):
        days -= days_in_month(year, month)
        month += 1
    return era * ERA_YEARS + year, month, days + 1


def moment(ms):
    """Year, month, day, hour, minute, second and millisecond."""
    days, rest = divmod(ms, DAY)
    seconds, millisecond = divmod(rest, 1000)
    minutes, second = divmod(seconds, 60)
    hour, minute = divmod(minutes, 60)
    return (*civil(days + EPOCH), hour, minute, second, millisecond)


def rfc3339(ms, has_three_digits):
    """The text of a moment in the years 0000 to 9999: without a fraction where it is zero, else with three digits of it or
    without zeros at its end."""
    year, month, day, hour, minute, second, millisecond = moment(ms)
    fraction = f'.{millisecond:03}' if millisecond else ''
    fraction = fraction if has_three_digits else fraction.rstrip('0')
    return f'{year:04}-{month:02}-{day:02}T{hour:02}:{minute:02}:{second:02}{fraction}Z'


def display(ms):
    """The text that a user is shown, in the years -9999 to 9999; elsewhere the number of milliseconds."""
    year, month, day, hour, minute, second, millisecond = moment(ms)
    if not -9999 <= year <= 9999:
        return str(ms)
    sign = '-' if year < 0 else ''
    fraction = f'{millisecond:03}'.rstrip('0') or '0'
    return f'{sign}{abs(year):04}-{month:02}-{day:02} {hour}:{minute:02}:{second:02}.{fraction} +00:00:00'
