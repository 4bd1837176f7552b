# SPDX-License-Identifier: Apache-2.0
"""How Delta Lake writes values: bounds in a file's statistics as JSON, and values of partitions as texts.

Each form says which bounds are the least and the greatest value themselves, and widens the others so that no value leaves them.
"""
from __future__ import annotations

import re
from decimal import Decimal
from typing import Any

from . import floats
from .instants import Instant, days_of, of_text
from .items import shown
from .kinds import DType
from .tables import Bound, Form, Pair, ToldFault, misfit, successor
from .types import Date, Float32, Float64, LiteralFault, Numbered, Spot, Timestamp, Unmapped
from .types import Decimal as DecimalType

#: The first day of the Gregorian calendar. Writers had two calendars for earlier ones.
_GREGORIAN = days_of(1582, 10, 15)
_DAY = 86_400 * 10**6
#: Until 1972 clocks of some zones differed from UTC by seconds, which the offset in a text leaves out.
_LAST_ODD_OFFSET = days_of(1972, 1, 8) * _DAY
_MINUTE = 60 * 10**6
#: The zone of a clock without one is less than so far from UTC.
_ANY_ZONE = 18 * 60 * _MINUTE


class Whole(Form):
    """Whole numbers: themselves, in statistics and partitions."""

    def bounds(self, least: Any, greatest: Any) -> Pair:
        return self._number(least), self._number(greatest)

    def _number(self, told: Any) -> Bound | None:
        if told is None:
            return None
        assert self.dtype.range is not None
        if not isinstance(told, int) or isinstance(told, bool) or not self.dtype.range[0] <= told <= self.dtype.range[1]:
            raise misfit(told, self.word)
        return Bound(told, True)

    def constant(self, told: str) -> Pair:
        if not re.fullmatch(r"[+-]?[0-9]{1,40}", told):
            raise misfit(told, self.word)
        found = self._number(int(told))
        return found, found


class Truth(Form):
    """Truths: themselves."""

    def bounds(self, least: Any, greatest: Any) -> Pair:
        return self._truth(least), self._truth(greatest)

    def _truth(self, told: Any) -> Bound | None:
        if told is None:
            return None
        if not isinstance(told, bool):
            raise misfit(told, self.word)
        return Bound(told, True)

    def constant(self, told: str) -> Pair:
        if told not in ("true", "false"):
            raise misfit(told, self.word)
        return Bound(told == "true", True), Bound(told == "true", True)


class Text(Form):
    """Texts: statistics hold a beginning of each, so the greatest value may go on behind what is told."""

    def bounds(self, least: Any, greatest: Any) -> Pair:
        low = None if least is None else Bound(self._utf8(least), False)
        if greatest is None:
            return low, None
        self._utf8(greatest)
        above = successor(greatest)
        return low, None if above is None else Bound(above.encode(), False)

    def _utf8(self, told: Any) -> bytes:
        if not isinstance(told, str):
            raise misfit(told, self.word)
        try:
            return told.encode()
        except UnicodeEncodeError:
            raise ToldFault(f"{shown(told)} has half of a character, so it is no {self.word}") from None

    def constant(self, told: str) -> Pair:
        found = Bound(self._utf8(told), True)
        return found, found


class Bytes(Form):
    """Bytes: no bounds in statistics; in partitions a character each, which is a byte of the same number below 128."""

    def constant(self, told: str) -> Pair:
        if not told.isascii():
            return None, None
        found = Bound(told.encode(), True)
        return found, found


class Day(Form):
    """Dates: themselves, but for the days before the Gregorian calendar."""

    def bounds(self, least: Any, greatest: Any) -> Pair:
        low, high = (None if told is None else self._days(told) for told in (least, greatest))
        return (
            None if low is None or low < _GREGORIAN else Bound(low, True),
            None if high is None else Bound(_GREGORIAN, False) if high < _GREGORIAN else Bound(high, True),
        )

    def _days(self, told: Any) -> int:
        found = of_text(told) if isinstance(told, str) and re.fullmatch(r"[+-]?[0-9]+-[0-9]{2}-[0-9]{2}", told) else None
        days = None if found is None else found.ticks // 86_400
        if days is None or not -(2**31) <= days < 2**31:
            raise misfit(told, self.word)
        return days

    def constant(self, told: str) -> Pair:
        found = Bound(self._days(told), True)
        return found, found


class Moment(Form):
    """Timestamps: statistics are cut to milliseconds, and offsets of old ones to minutes; a clock without a zone may be that of any zone."""

    def __init__(self, kind: Timestamp, word: str):
        super().__init__(kind, word)
        self.zoned = kind.tz is not None

    def bounds(self, least: Any, greatest: Any) -> Pair:
        low = None if least is None else self._span(least)[0]
        high = None if greatest is None else self._span(greatest)[1]
        return (
            None if low is None or low < _GREGORIAN * _DAY else self._bound(low, greatest),
            None if high is None else self._bound(max(high - high % 1000 + 999, _GREGORIAN * _DAY), greatest),
        )

    def _span(self, told: Any) -> tuple[int, int]:
        """Returns the earliest and the latest microsecond that a text may mean."""
        found = self._instant(told)
        micros = found.ticks * 10**6 // found.parts
        apart = 0 if not self.zoned else _ANY_ZONE if not found.zoned else _MINUTE if micros < _LAST_ODD_OFFSET else 0
        return micros - apart, micros + apart

    def _instant(self, told: Any) -> Instant:
        found = of_text(told) if isinstance(told, str) else None
        if found is None or (found.zoned and not self.zoned and not told.endswith("Z")):
            raise misfit(told, self.word)
        return found

    def _bound(self, micros: int, told: Any, exact: bool = False) -> Bound:
        if not -(2**63) <= micros < 2**63:
            raise misfit(told, self.word)
        return Bound(micros, exact)

    def constant(self, told: str) -> Pair:
        found = self._instant(told)
        micros, rest = divmod(found.ticks * 10**6, found.parts)
        if rest:
            raise misfit(told, self.word)
        if self.zoned and not found.zoned:
            return self._bound(micros - _ANY_ZONE, told), self._bound(micros + _ANY_ZONE, told)
        return self._bound(micros, told, True), self._bound(micros, told, True)


class Numeric(Form):
    """Decimals of up to 18 digits: themselves up to 15 digits; of more a writer may have made a double, so they are widened."""

    def __init__(self, kind: DecimalType, word: str):
        super().__init__(kind, word)
        self.kind = kind
        self.limit = 10**kind.precision - 1

    def bounds(self, least: Any, greatest: Any) -> Pair:
        return self._bound(least, -1), self._bound(greatest, 1)

    def _bound(self, told: Any, side: int) -> Bound | None:
        if told is None:
            return None
        spot = self._spot(told)
        number = spot.number + (side > 0 and not spot.exact)
        if abs(number) > self.limit + 1:
            raise misfit(told, self.word)
        if self.kind.precision > 15:
            # Four times the distance of doubles covers two roundings and a step towards zero.
            return Bound(_within(number + side * ((abs(number) >> 50) + 1), self.limit), False)
        if abs(number) > self.limit:
            raise misfit(told, self.word)
        return Bound(number, spot.exact)

    def _spot(self, told: Any) -> Spot:
        if not isinstance(told, (int, Decimal)) or isinstance(told, bool):
            raise misfit(told, self.word)
        return _spot(self.kind, told, self.word)

    def constant(self, told: str) -> Pair:
        spot = _spot(self.kind, _decimal(told, self.word), self.word)
        if not spot.exact or abs(spot.number) > self.limit:
            raise misfit(told, self.word)
        return Bound(spot.number, True), Bound(spot.number, True)


class Floating(Form):
    """Floating numbers: the nearest ones round what is told, and no greatest value, which a writer may have told of the numbers without NaN."""

    def __init__(self, kind: Float32 | Float64, word: str, has_nan: bool, was_float: bool):
        super().__init__(kind, word)
        self.kind: Numbered = kind
        self.width: floats.Width = kind.width
        self.has_nan, self.was_float = has_nan, was_float

    def bounds(self, least: Any, greatest: Any) -> Pair:
        low = None if least is None else self._spot(least)
        high = None if greatest is None else self._spot(greatest)
        is_open = self.has_nan or high is None or high.number == self.width.nan
        return (
            None if low is None or low.number == self.width.nan else Bound(self._wider(low)[0], False),
            None if is_open or high is None else Bound(self._wider(high)[1], False),
        )

    def _wider(self, spot: Spot) -> tuple[int, int]:
        """Returns the neighbours of what is told; those of 32 bits in a column that had these, whose texts have no more digits than tell them apart."""
        low, high = spot.number, spot.number + (not spot.exact)
        if not self.was_float:
            return low, high
        below, above = Float32().spot(self.width.value(low)), Float32().spot(self.width.value(high))
        single = floats.SINGLE
        return self.width.number(single.value(below.number)), self.width.number(single.value(above.number + (not above.exact)))

    def _spot(self, told: Any) -> Spot:
        if isinstance(told, str) and told in _ODD_FLOATS:
            return _spot(self.kind, _ODD_FLOATS[told], self.word)
        if not isinstance(told, (int, Decimal)) or isinstance(told, bool) or abs(self.width.nearest(told)) == float("inf"):
            raise misfit(told, self.word)
        return _spot(self.kind, told, self.word)

    def constant(self, told: str) -> Pair:
        spot = self._spot(told if told in _ODD_FLOATS else _decimal(told, self.word))
        return Bound(spot.number, spot.exact), Bound(spot.number + (not spot.exact), spot.exact)


_ODD_FLOATS = {"NaN": float("nan"), "Infinity": float("inf"), "-Infinity": float("-inf")}


def _within(number: int, limit: int) -> int:
    return max(-limit, min(limit, number))


def _decimal(text: str, word: str) -> Decimal:
    if not re.fullmatch(r"[+-]?(?:[0-9]{1,400}(?:\.[0-9]{0,400})?|\.[0-9]{1,400})(?:[eE][+-]?[0-9]{1,6})?", text):
        raise misfit(text, word)
    return Decimal(text)


def _spot(kind: Numbered, told: Any, word: str) -> Spot:
    try:
        return kind.spot(told)
    except LiteralFault:
        raise misfit(told, word) from None


_WHOLE = {"byte": DType.I8, "short": DType.I16, "integer": DType.I32, "long": DType.I64}
_DECIMAL = re.compile(r"decimal(?:\(\s*([0-9]{1,3})\s*,\s*(-?[0-9]{1,3})\s*\))?")


def form_of(word: str, has_nan: bool = True, was_other: bool = False) -> Form:
    """Returns the form of a primitive type of a table's schema; of one without a counterpart that of an unmapped column.

    ``has_nan`` says whether a floating column may have NaN, and ``was_other`` whether the column had another type in older files.
    """
    if word in _WHOLE:
        return Whole(_WHOLE[word], word)
    if word in ("float", "double"):
        return Floating(Float32() if word == "float" else Float64(), word, has_nan, was_other)
    found = _DECIMAL.fullmatch(word)
    if found is not None:
        precision, scale = (10, 0) if found[1] is None else (int(found[1]), int(found[2]))
        if 1 <= precision <= 18 and 0 <= scale <= precision:
            return Numeric(DecimalType(precision, scale), word)
    plain: dict[str, type[Form]] = {"string": Text, "binary": Bytes, "boolean": Truth}
    if word in plain:
        return plain[word]({"string": DType.UTF8, "binary": DType.BINARY, "boolean": DType.BOOL}[word], word)
    if word == "date":
        return Day(Date(), word)
    if word in ("timestamp", "timestamp_ntz"):
        return Moment(Timestamp("us", "UTC" if word == "timestamp" else None), word)
    return Form(Unmapped(word), word)
