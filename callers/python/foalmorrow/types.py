# SPDX-License-Identifier: Apache-2.0
"""Logical types: dates, times, decimals, floating numbers, uuids and enumerations, each mapped onto a physical type in its own order.

``docs/TYPES.md`` has the table of them. A mapping is strictly monotone: of two values the lesser one has the lesser number, or the lesser
bytes, and equal ones have the same. So bounds and comparisons of the mapped values are those of the values.

>>> Column("at", Timestamp("us", tz="UTC"), nullable=True).dtype.name
'I64'
"""
from __future__ import annotations

import datetime
import decimal
import re
import uuid
from collections.abc import Sequence
from dataclasses import dataclass
from typing import Any, NamedTuple

from . import floats
from .instants import DAY, FINE, Instant, clock_text, date_of, date_text, instant, time_of_day
from .items import plain, shown
from .kinds import Column, DType, Logical

__all__ = [
    "Column", "Date", "Decimal", "Enum", "FixedBinary", "Float32", "Float64", "LiteralFault", "Logical", "Spot", "Time", "Timestamp", "Unmapped",
    "Uuid", "of_word",
]


class LiteralFault(ValueError):
    """A literal that isn't one of a type.

    >>> Date().spot("tomorrow")
    Traceback (most recent call last):
    ...
    foalmorrow.types.LiteralFault: 'tomorrow' is no date; expected a date, or a datetime at midnight or an ISO text without a zone
    """


class Spot(NamedTuple):
    """Where a literal lies among the whole numbers of a type: at ``number``, or strictly between it and the next one.

    ``rounded`` is the number that engines may take for an inexact literal of a floating type, and None where they compare exactly.

    >>> Timestamp("s").spot("1970-01-01 00:00:12.5")
    Spot(number=12, exact=False, rounded=None)
    """

    number: int
    exact: bool = True
    rounded: int | None = None


class Numbered(Logical):
    """A logical type over whole numbers."""

    #: Whether a column may have values without a number, which lie below or above all numbers, as PostgreSQL's infinity and NaN.
    is_open = False

    def spot(self, literal: Any) -> Spot:
        """Returns where a literal lies among the type's numbers. LiteralFault where it is no literal of the type.

        >>> Decimal(5, 2).spot("1.005")
        Spot(number=100, exact=False, rounded=None)
        """
        raise NotImplementedError

    def decides(self, spot: Spot) -> bool:
        """Tells whether a comparison with a literal at this place is one of numbers. In an open type the literal has to lie between the least and the
        greatest number: a value without one may lie on either side of any other literal.

        >>> Decimal(5, 2).decides(Spot(2**63))
        True
        """
        assert self.dtype.range is not None
        low, high = self.dtype.range
        return not self.is_open or low < spot.number < high - (not spot.exact)

    def stored(self, item: Any) -> int | None:
        try:
            spot = self.spot(item)
        except LiteralFault:
            return None
        low, high = self._range
        return spot.number if spot.exact and low <= spot.number <= high else None

    @property
    def _range(self) -> tuple[int, int]:
        """Returns the least and the greatest number that a value has."""
        assert self.dtype.range is not None
        return self.dtype.range

    def sql(self, literal: Any) -> str:
        """Returns a literal as SQL has it. LiteralFault where it is no literal of the type.

        >>> Date().sql(datetime.date(2026, 1, 2))
        "DATE '2026-01-02'"
        """
        raise NotImplementedError

    def _fault(self, literal: Any) -> LiteralFault:
        return LiteralFault(f"{shown(literal)} is no {self.word}; expected {self.expected}")


def _ticks(found: Instant, parts: int, seconds: int = 1) -> Spot:
    """Returns where an instant lies among ticks, of which ``seconds`` have so many."""
    number, rest = divmod(found.ticks * parts, found.parts * seconds)
    return Spot(number, rest == 0)


@dataclass(frozen=True)
class Date(Numbered):
    """A date, as the days since 1970-01-01.

    >>> Date().stored(datetime.date(1970, 2, 1))
    31
    """

    dtype = DType.I32
    word = "date"
    expected = "a date, or a datetime at midnight or an ISO text without a zone"
    field = (12, 0, 0, 0)

    def spot(self, literal: Any) -> Spot:
        found = instant(literal)
        if found is None or found.zoned:
            raise self._fault(literal)
        return _ticks(found, 1, DAY)

    def shown(self, value: Any) -> Any:
        year, month, day = date_of(value)
        return datetime.date(year, month, day) if 1 <= year <= 9999 else date_text(value)

    def sql(self, literal: Any) -> str:
        found = self.spot(literal)
        if not found.exact:
            return Timestamp("ns").sql(literal)
        return f"DATE '{date_text(found.number)}'"


@dataclass(frozen=True)
class Time(Numbered):
    """A time of day without a zone, as the seconds, milliseconds, microseconds or nanoseconds since midnight.

    >>> Time("ms").stored(datetime.time(0, 0, 1))
    1000
    """

    unit: str = "us"

    dtype = DType.I64
    expected = "a time of day without a zone, or an ISO text of one"

    def __post_init__(self) -> None:
        _check_unit(self.unit)

    @property
    def field(self) -> tuple[int, int, int, int]:
        return 13, _UNITS[self.unit], 0, 0

    @property
    def word(self) -> str:
        return f"time[{self.unit}]"

    def spot(self, literal: Any) -> Spot:
        found = time_of_day(literal)
        if found is None or found.zoned:
            raise self._fault(literal)
        return _ticks(found, FINE[self.unit])

    @property
    def _range(self) -> tuple[int, int]:
        return 0, DAY * FINE[self.unit] - 1

    def shown(self, value: Any) -> Any:
        parts = FINE[self.unit]
        if not 0 <= value < DAY * parts:
            return value
        if parts <= 10**6 or value % 1000 == 0:
            micros = value * 10**6 // parts
            return (datetime.datetime(1970, 1, 1) + datetime.timedelta(microseconds=micros)).time()
        return clock_text(value, parts)

    def sql(self, literal: Any) -> str:
        found = time_of_day(literal)
        self.spot(literal)
        assert found is not None
        return f"TIME '{clock_text(found.ticks, found.parts)}'"


#: The library's numbers of units.
_UNITS = {"s": 1, "ms": 2, "us": 3, "ns": 4}


def _check_unit(unit: str) -> None:
    if unit not in _UNITS:
        raise ValueError(f"{shown(unit)} is no unit; expected s, ms, us or ns")


@dataclass(frozen=True)
class Timestamp(Numbered):
    """An instant, as the seconds, milliseconds, microseconds or nanoseconds since 1970: in UTC where the column has a zone, else naive.

    A zone says how instants are shown, and has no part in their order. A naive literal isn't compared with a column that has one.

    >>> Timestamp("ms", tz="UTC").stored("1970-01-01 01:00:00+01:00")
    0
    """

    unit: str = "us"
    tz: str | None = None

    dtype = DType.I64

    def __post_init__(self) -> None:
        _check_unit(self.unit)
        if self.tz is not None and (not isinstance(self.tz, str) or not re.fullmatch(r"[!-~]+", self.tz)):
            raise ValueError(f"{shown(self.tz)} is no zone; expected a name as 'UTC', or None for naive instants")

    @property
    def field(self) -> tuple[int, int, int, int]:
        return 14 if self.tz is None else 15, _UNITS[self.unit], 0, 0

    @property
    def word(self) -> str:
        return f"timestamp[{self.unit}]" if self.tz is None else f"timestamp[{self.unit}, {self.tz}]"

    @property
    def expected(self) -> str:
        if self.tz is None:
            return "a datetime without a zone, a date, a numpy.datetime64 or an ISO text"
        return "a datetime with a zone or an ISO text with one: whose midnight or clock a naive one shows isn't known"

    def spot(self, literal: Any) -> Spot:
        found = instant(literal)
        if found is None or found.zoned != (self.tz is not None):
            raise self._fault(literal)
        return _ticks(found, FINE[self.unit])

    def shown(self, value: Any) -> Any:
        seconds, rest = divmod(value, FINE[self.unit])
        micros, finer = divmod(rest * 10**6, FINE[self.unit])
        days, clock = divmod(seconds, DAY)
        if 1 <= date_of(days)[0] <= 9999 and not finer:
            zone = None if self.tz is None else datetime.timezone.utc
            return datetime.datetime(1970, 1, 1, tzinfo=zone) + datetime.timedelta(days, clock, micros)
        return self._text(value, FINE[self.unit])

    def _text(self, count: int, parts: int) -> str:
        days, clock = divmod(count, DAY * parts)
        return f"{date_text(days)} {clock_text(clock, parts)}{'' if self.tz is None else '+00:00'}"

    def sql(self, literal: Any) -> str:
        self.spot(literal)
        found = instant(literal)
        assert found is not None
        words = "TIMESTAMP" if self.tz is None else "TIMESTAMP WITH TIME ZONE"
        return f"{words} '{self._text(found.ticks, found.parts)}'"


#: Decimals of up to 60 digits without a rounding, within what is looked at digit by digit.
_EXACT = decimal.Context(prec=60, Emin=-99, Emax=99, traps=[decimal.Inexact, decimal.Overflow, decimal.InvalidOperation, decimal.Subnormal])
_DIGITS = re.compile(r"[+-]?(?:[0-9]+(?:\.[0-9]*)?|\.[0-9]+)(?:[eE][+-]?[0-9]{1,6})?")


@dataclass(frozen=True)
class Decimal(Numbered):
    """A decimal number of up to 18 digits, ``scale`` of them behind the point, as the number of its last digit's units.

    >>> Decimal(5, 2).stored(decimal.Decimal("1.5"))
    150
    """

    precision: int
    scale: int = 0

    dtype = DType.I64
    has_sum = True

    def __post_init__(self) -> None:
        if not (isinstance(self.precision, int) and isinstance(self.scale, int) and 1 <= self.precision <= 18 and 0 <= self.scale <= self.precision):
            raise ValueError(f"decimal({shown(self.precision)}, {shown(self.scale)}) is no type; expected 1 to 18 digits, and no more behind the point")

    @property
    def field(self) -> tuple[int, int, int, int]:
        return 16, 0, self.precision, self.scale

    @property
    def word(self) -> str:
        return f"decimal({self.precision}, {self.scale})"

    @property
    def expected(self) -> str:
        return f"a decimal.Decimal or a whole number below 10^{self.precision - self.scale}, with {self.scale} digits behind the point: no float"

    def spot(self, literal: Any) -> Spot:
        value = plain(literal)
        if isinstance(value, str) and _DIGITS.fullmatch(value):
            value = decimal.Decimal(value)
        if isinstance(value, bool) or not isinstance(value, (int, decimal.Decimal)) or (isinstance(value, decimal.Decimal) and value.is_nan()):
            raise self._fault(literal)
        if isinstance(value, int):
            return Spot(value * 10**self.scale)
        if value == 0:
            return Spot(0)
        sign, digits, exponent = value.as_tuple()
        # Beyond these no digit is looked at: such numbers lie above all others, or between two neighbours.
        if not isinstance(exponent, int) or value.adjusted() > 40:
            return Spot(-(2**70) if sign else 2**70)
        if value.adjusted() < -40:
            return Spot(-sign, False)
        whole, shift = int(decimal.Decimal((sign, digits, 0))), exponent + self.scale
        if shift >= 0:
            return Spot(whole * 10**shift)
        number, rest = divmod(whole, 10**-shift)
        return Spot(number, rest == 0)

    def stored(self, item: Any) -> int | None:
        if type(item) is decimal.Decimal:
            # Most are looked at by their units alone: what would have to be rounded takes the longer way.
            try:
                scaled = item.scaleb(self.scale, _EXACT)
                units = int(scaled)
                if units == scaled:
                    return units if abs(units) < 10**self.precision else None
            except (decimal.DecimalException, ValueError, OverflowError):
                pass
        return super().stored(item)

    @property
    def _range(self) -> tuple[int, int]:
        return 1 - 10**self.precision, 10**self.precision - 1

    def shown(self, value: Any) -> Any:
        return decimal.Decimal(value).scaleb(-self.scale, decimal.Context(40))

    def sql(self, literal: Any) -> str:
        self.spot(literal)
        return f"{decimal.Decimal(plain(literal)):f}"


class _Float(Numbered):
    """A floating number, in the order of its bits."""

    width: floats.Width

    @property
    def expected(self) -> str:
        return f"a float of {self.width.bits} bits, or a number that is one"

    def spot(self, literal: Any) -> Spot:
        value = floats.real(literal)
        if value is None:
            raise self._fault(literal)
        if value != value:
            return Spot(self.width.nan)
        near = self.width.nearest(value)
        number = self.width.number(near)
        if near == value:
            return Spot(number)
        return Spot(number if near < value else number - 1, False, number)

    def shown(self, value: Any) -> Any:
        return self.width.value(value)

    def sql(self, literal: Any) -> str:
        value = floats.real(literal)
        if value is None:
            raise self._fault(literal)
        if isinstance(value, (int, decimal.Decimal)) and value == value:
            return f"{decimal.Decimal(value):f}"
        # No literal of SQL is a fraction: the nearest number stands for it.
        near = value if isinstance(value, float) else floats.DOUBLE.nearest(value)
        if near != near or near in (float("inf"), float("-inf")):
            words = {"nan": "NaN", "inf": "Infinity", "-inf": "-Infinity"}
            return f"CAST('{words[str(near)]}' AS {'REAL' if self.width.bits == 32 else 'DOUBLE PRECISION'})"
        return repr(near)


@dataclass(frozen=True)
class Float32(_Float):
    """A floating number of 32 bits.

    >>> Float32().stored(1.5), Float32().stored(0.1)
    (1069547520, None)
    """

    dtype = DType.I32
    word = "float32"
    width = floats.SINGLE


@dataclass(frozen=True)
class Float64(_Float):
    """A floating number of 64 bits.

    >>> Float64().stored(0.1) < Float64().stored(0.2)
    True
    """

    dtype = DType.I64
    word = "float64"
    width = floats.DOUBLE


class Written(Logical):
    """A logical type over texts or bytes."""

    def literal(self, literal: Any) -> str | bytes:
        """Returns a literal as a text or bytes. LiteralFault where it is no literal of the type.

        >>> Uuid().literal("00000000-0000-0000-0000-000000000001")[-2:]
        b'\\x00\\x01'
        """
        raise NotImplementedError


@dataclass(frozen=True)
class FixedBinary(Written):
    """Bytes of one length. A literal may have another one: such bytes are compared as any, and equal none.

    >>> FixedBinary(2).stored(b"ab"), FixedBinary(2).stored(b"abc")
    (b'ab', None)
    """

    size: int

    dtype = DType.BINARY

    def __post_init__(self) -> None:
        if not isinstance(self.size, int) or isinstance(self.size, bool) or self.size < 0:
            raise ValueError(f"{shown(self.size)} is no number of bytes")

    @property
    def word(self) -> str:
        return f"fixed_binary({self.size})"

    @property
    def expected(self) -> str:
        return f"{self.size} bytes"

    def literal(self, literal: Any) -> bytes:
        value = plain(literal)
        if not isinstance(value, bytes):
            raise LiteralFault(f"{shown(literal)} is no {self.word}; expected bytes")
        return value

    def stored(self, item: Any) -> bytes | None:
        value = plain(item)
        return value if isinstance(value, bytes) and len(value) == self.size else None

    def shown(self, value: Any) -> Any:
        return value


@dataclass(frozen=True)
class Uuid(Written):
    """A UUID, as its 16 bytes in the order in which it is written.

    >>> Uuid().stored("00000000-0000-0000-0000-0000000000ff")[-1]
    255
    """

    dtype = DType.BINARY
    word = "uuid"
    size = 16
    expected = "a uuid.UUID, its 16 bytes, or its 36 characters"

    def literal(self, literal: Any) -> bytes:
        found = self.stored(literal)
        if found is None:
            raise LiteralFault(f"{shown(literal)} is no uuid; expected {self.expected}")
        return found

    def stored(self, item: Any) -> bytes | None:
        value = plain(item)
        if isinstance(value, uuid.UUID):
            return value.bytes
        if isinstance(value, str) and re.fullmatch(r"[0-9a-fA-F]{8}(-[0-9a-fA-F]{4}){3}-[0-9a-fA-F]{12}", value):
            return uuid.UUID(value).bytes
        return value if isinstance(value, bytes) and len(value) == 16 else None

    def shown(self, value: Any) -> Any:
        return uuid.UUID(bytes=value)


@dataclass(frozen=True, init=False)
class Enum(Written):
    """A text of a list of texts, or of any where none are listed; a dictionary column as its texts.

    Such a type mostly has an order of its own, which isn't that of its texts. So it is compared by ``==``, ``!=``, ``isin`` and LIKE alone.

    >>> Enum(["low", "high"]).stored("mid")
    """

    values: tuple[str, ...] | None

    dtype = DType.UTF8

    def __init__(self, values: Sequence[str] | None = None):
        listed = None if values is None else tuple(values)
        if isinstance(values, str) or (listed is not None and not all(isinstance(it, str) for it in listed)):
            raise ValueError(f"{shown(values)} are no texts; expected a list of str")
        object.__setattr__(self, "values", listed)

    @property
    def word(self) -> str:
        return "enum"

    @property
    def expected(self) -> str:
        return "a str" if self.values is None else f"one of {shown(list(self.values))}"

    def literal(self, literal: Any) -> str:
        value = plain(literal)
        if not isinstance(value, str):
            raise LiteralFault(f"{shown(literal)} is no enum; expected a str")
        return value

    def stored(self, item: Any) -> bytes | None:
        value = plain(item)
        if not isinstance(value, str) or (self.values is not None and value not in self.values):
            return None
        try:
            return value.encode()
        except UnicodeEncodeError:
            return None

    def shown(self, value: Any) -> Any:
        return value


@dataclass(frozen=True)
class Unmapped(Logical):
    """A type without a mapping, under any name. What is said of its values is opaque, and only which of them are null is known.

    >>> Unmapped("json").word
    'unmapped(json)'
    """

    name: str

    dtype = DType.BINARY
    has_values = False
    expected = "anything"

    def __post_init__(self) -> None:
        if not isinstance(self.name, str):
            raise ValueError(f"{shown(self.name)} is no name of a type; expected a str")

    @property
    def word(self) -> str:
        return f"unmapped({self.name})"

    def stored(self, item: Any) -> bytes | None:
        return b""

    def shown(self, value: Any) -> Any:
        return None


_PLAIN: dict[str, Logical] = {"date": Date(), "float32": Float32(), "float64": Float64(), "uuid": Uuid(), "enum": Enum()}
_WORD = re.compile(r"(?P<kind>time|timestamp)\[(?P<unit>s|ms|us|ns)(?:, (?P<tz>[!-~]+))?\]|decimal\((?P<p>[0-9]{1,2}), (?P<s>[0-9]{1,2})\)"
                   r"|fixed_binary\((?P<size>[0-9]{1,9})\)|unmapped\((?P<name>.*)\)", re.DOTALL)


def of_word(word: str) -> Logical | None:
    """Returns the logical type of a word; None where there is none. The texts of an enum have no part in its word.

    >>> of_word("timestamp[us, UTC]")
    Timestamp(unit='us', tz='UTC')
    """
    if word in _PLAIN:
        return _PLAIN[word]
    found = _WORD.fullmatch(word)
    if found is None:
        return None
    try:
        made = _of_match(found)
    except ValueError:
        return None
    return made if made.word == word else None


def _of_match(found: re.Match[str]) -> Logical:
    if found["unit"]:
        return Timestamp(found["unit"], found["tz"]) if found["kind"] == "timestamp" else Time(found["unit"])
    if found["p"]:
        return Decimal(int(found["p"]), int(found["s"]))
    return FixedBinary(int(found["size"])) if found["size"] else Unmapped(found["name"])
