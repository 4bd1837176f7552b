# SPDX-License-Identifier: Apache-2.0
"""Dates, times of day and instants as exact numbers of seconds: of Python's, numpy's and pandas' values and of ISO 8601 texts.

A number of seconds is a pair of whole numbers, how many ticks and how many of them a second has, so that nothing is rounded.
"""
from __future__ import annotations

import datetime
import re
from typing import Any, NamedTuple

try:
    import numpy
except ImportError:
    numpy = None  # type: ignore[assignment]

DAY = 86_400
_EPOCH = datetime.date(1970, 1, 1).toordinal()
_MICRO = 1_000_000
#: Ticks a second of the fine units of numpy, and seconds a tick of the coarse ones.
FINE = {"s": 1, "ms": 10**3, "us": 10**6, "ns": 10**9, "ps": 10**12, "fs": 10**15, "as": 10**18}
COARSE = {"W": 7 * DAY, "D": DAY, "h": 3600, "m": 60}

_DATE = r"(?P<year>[0-9]{4}|[+-][0-9]{4,9})-(?P<month>[0-9]{2})-(?P<day>[0-9]{2})"
_CLOCK = r"(?P<hour>[0-9]{2}):(?P<minute>[0-9]{2})(?::(?P<second>[0-9]{2})(?:\.(?P<part>[0-9]{1,40}))?)?"
_ZONE = r"(?P<zone>Z| ?UTC|[+-][0-9]{2}(?::?[0-9]{2})?)?"
_INSTANT = re.compile(rf"{_DATE}(?:[T ]{_CLOCK}{_ZONE})?")
_TIME = re.compile(_CLOCK)


class Instant(NamedTuple):
    """A number of seconds, since 1970 or since midnight: so many ticks, of which a second has ``parts``; and whether it has a zone.

    >>> instant("1970-01-02")
    Instant(ticks=86400, parts=1, zoned=False)
    """

    ticks: int
    parts: int
    zoned: bool


def days_of(year: int, month: int, day: int) -> int:
    """Returns the days from 1970 to a date of the Gregorian calendar of any year, before its beginning too. ValueError where there is no such day.

    >>> days_of(1970, 1, 1), days_of(2000, 2, 29), days_of(0, 3, 1)
    (0, 11016, -719468)
    """
    # A cycle of 400 years has 146,097 days, and Python's calendar has all years of one.
    cycles, place = divmod(year - 2000, 400)
    return datetime.date(2000 + place, month, day).toordinal() - _EPOCH + 146_097 * cycles


def date_of(days: int) -> tuple[int, int, int]:
    """Returns the year, month and day that so many days after 1970 begin.

    >>> date_of(11016)
    (2000, 2, 29)
    """
    cycles, place = divmod(days - 10_957, 146_097)
    found = datetime.date.fromordinal(place + 10_957 + _EPOCH)
    return found.year + 400 * cycles, found.month, found.day


def instant(given: Any) -> Instant | None:
    """Returns the seconds since 1970 of a date, which begins at midnight, or of an instant; None where a value is neither.

    >>> instant(datetime.datetime(1970, 1, 1, 0, 0, 1, 5))
    Instant(ticks=1000005, parts=1000000, zoned=False)
    """
    if isinstance(given, datetime.datetime):
        return _of_datetime(given)
    if isinstance(given, datetime.date):
        return Instant((given.toordinal() - _EPOCH) * DAY, 1, False)
    if isinstance(given, str):
        return of_text(given)
    if numpy is not None and isinstance(given, numpy.datetime64) and not numpy.isnat(given):
        return _of_numpy(given)
    return None


def _of_datetime(given: datetime.datetime) -> Instant:
    since = given.replace(tzinfo=None) - datetime.datetime(1970, 1, 1)
    offset = given.utcoffset()
    if offset is not None:
        # Apart, as the difference of two datetimes may leave their range.
        count = _micros(since) - _micros(offset)
    else:
        count = _micros(since)
    # pandas' instants are Python's, with nanoseconds beside them.
    finer = getattr(given, "nanosecond", 0)
    return Instant(count * 1000 + finer, 10**9, offset is not None) if finer else Instant(count, _MICRO, offset is not None)


def _micros(span: datetime.timedelta) -> int:
    return (span.days * DAY + span.seconds) * _MICRO + span.microseconds


def _of_numpy(given: Any) -> Instant | None:
    unit, step = numpy.datetime_data(given.dtype)
    ticks = int(given.astype("i8")) * step
    if unit in FINE:
        return Instant(ticks, FINE[unit], False)
    if unit in COARSE:
        return Instant(ticks * COARSE[unit], 1, False)
    if unit not in ("Y", "M"):
        return None
    years, months = (ticks, 0) if unit == "Y" else divmod(ticks, 12)
    return Instant(days_of(1970 + years, months + 1, 1) * DAY, 1, False)


def of_text(text: str) -> Instant | None:
    """Returns the seconds since 1970 of a text of ISO 8601; None where it is none. The zone is ``Z``, ``UTC`` or an offset as ``+02:00``.

    >>> of_text("1970-01-01 02:00:00.5+02:00")
    Instant(ticks=5, parts=10, zoned=True)
    """
    found = _INSTANT.fullmatch(text)
    if found is None:
        return None
    try:
        days = days_of(int(found["year"]), int(found["month"]), int(found["day"]))
    except ValueError:
        return None
    if found["hour"] is None:
        return Instant(days * DAY, 1, False)
    clock, offset = _clock(found), _offset(found["zone"])
    if clock is None or offset is None:
        return None
    return Instant((days * DAY - offset) * clock.parts + clock.ticks, clock.parts, found["zone"] is not None)


def _clock(found: re.Match[str]) -> Instant | None:
    hour, minute, second = int(found["hour"]), int(found["minute"]), int(found["second"] or 0)
    if hour > 23 or minute > 59 or second > 59:
        return None
    digits = found["part"] or ""
    parts = 10 ** len(digits)
    return Instant((hour * 3600 + minute * 60 + second) * parts + int(digits or 0), parts, False)


def _offset(zone: str | None) -> int | None:
    """Returns the seconds by which a zone is ahead; None where there is no such offset."""
    if zone is None or zone.strip() in ("Z", "UTC"):
        return 0
    digits = zone[1:].replace(":", "")
    hours, minutes = int(digits[:2]), int(digits[2:] or 0)
    seconds = (hours * 60 + minutes) * 60
    return None if hours > 23 or minutes > 59 else -seconds if zone[0] == "-" else seconds


def time_of_day(given: Any) -> Instant | None:
    """Returns the seconds since midnight of a time of day or of an ISO text; None where a value is neither.

    >>> time_of_day("12:00:00.5"), time_of_day(datetime.time(0, 1))
    (Instant(ticks=432005, parts=10, zoned=False), Instant(ticks=60000000, parts=1000000, zoned=False))
    """
    if isinstance(given, datetime.time):
        seconds = given.hour * 3600 + given.minute * 60 + given.second
        return Instant(seconds * _MICRO + given.microsecond, _MICRO, given.tzinfo is not None)
    found = _TIME.fullmatch(given) if isinstance(given, str) else None
    return None if found is None else _clock(found)


def date_text(days: int) -> str:
    """Returns a date as ISO 8601 has it, with a sign before years of more or fewer than four digits.

    >>> date_text(0), date_text(10**7)
    ('1970-01-01', '+29349-01-26')
    """
    year, month, day = date_of(days)
    word = f"{year:04d}" if 0 <= year <= 9999 else f"{year:+05d}"
    return f"{word}-{month:02d}-{day:02d}"


def clock_text(ticks: int, parts: int) -> str:
    """Returns a time of day of so many ticks as a text, with a fraction where there is one.

    >>> clock_text(43_200_500, 1000)
    '12:00:00.500'
    """
    seconds, rest = divmod(ticks, parts)
    fraction = f".{rest:0{len(str(parts)) - 1}d}" if rest else ""
    return f"{seconds // 3600:02d}:{seconds // 60 % 60:02d}:{seconds % 60:02d}{fraction}"
