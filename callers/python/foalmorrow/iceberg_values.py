# SPDX-License-Identifier: Apache-2.0
"""How Iceberg writes values: bounds of a file in the single-value binary form, and values of partitions as Avro has them.

No bound is exact: the specification asks that no value leaves it, not that one reaches it, and writers cut texts and bytes.
"""
from __future__ import annotations

import re
import struct
from typing import Any

from . import floats
from .kinds import DType
from .tables import Bound, Form, Pair, ToldFault, misfit
from .types import Date, FixedBinary, Float32, Float64, Time, Timestamp, Unmapped, Uuid
from .types import Decimal as DecimalType

_DAY = 86_400


class Number(Form):
    """Whole numbers, dates, times and timestamps: little-endian, of the type's width or of that of the type that the column had before."""

    def __init__(self, kind: Any, word: str, ticks: int = 0, low: int | None = None, high: int | None = None):
        super().__init__(kind, word)
        #: The ticks of a day, where the column may have been one of dates.
        self.ticks = ticks
        assert self.dtype.range is not None
        self.low, self.high = self.dtype.range if low is None or high is None else (low, high)

    def bounds(self, least: Any, greatest: Any) -> Pair:
        return self._bound(least), self._bound(greatest)

    def _bound(self, told: bytes | None) -> Bound | None:
        if told is None:
            return None
        if len(told) != self.dtype.width and not (len(told) == 4 and (self.ticks or self.type == DType.I64)):
            raise misfit(told, self.word)
        number = int.from_bytes(told, "little", signed=True) * (self.ticks if self.ticks and len(told) == 4 else 1)
        return Bound(self._in_range(number), False)

    def _in_range(self, number: int) -> int:
        if not self.low <= number <= self.high:
            raise misfit(number, self.word)
        return number

    def constant(self, told: Any) -> Pair:
        if not isinstance(told, int) or isinstance(told, bool):
            raise misfit(told, self.word)
        found = Bound(self._in_range(told), True)
        return found, found


class Truth(Form):
    """Truths: a byte, 0 or 1."""

    def bounds(self, least: Any, greatest: Any) -> Pair:
        return self._bound(least), self._bound(greatest)

    def _bound(self, told: bytes | None) -> Bound | None:
        if told is None:
            return None
        if told not in (b"\0", b"\1"):
            raise misfit(told, self.word)
        return Bound(told == b"\1", False)

    def constant(self, told: Any) -> Pair:
        if not isinstance(told, bool):
            raise misfit(told, self.word)
        return Bound(told, True), Bound(told, True)


class Floating(Form):
    """Floating numbers. No bound is NaN, and the greatest one is told only of files whose count of NaNs is 0."""

    def __init__(self, kind: Float32 | Float64, word: str):
        super().__init__(kind, word)
        self.width: floats.Width = kind.width

    def bounds(self, least: Any, greatest: Any) -> Pair:
        return self._bound(least), self._bound(greatest)

    def _bound(self, told: bytes | None) -> Bound | None:
        if told is None:
            return None
        if len(told) != self.width.bits // 8 and len(told) != 4:
            raise misfit(told, self.word)
        (value,) = struct.unpack("<f" if len(told) == 4 else "<d", told)
        # Old writers told NaN, and nothing is known of the other values then.
        return None if value != value else Bound(self.width.number(value), False)

    def constant(self, told: Any) -> Pair:
        if not isinstance(told, float):
            raise misfit(told, self.word)
        found = Bound(self.width.number(told), True)
        return found, found


class Text(Form):
    """Texts: UTF-8. The least one may be cut; the greatest one is above all where it is."""

    def bounds(self, least: Any, greatest: Any) -> Pair:
        return self._bound(least), self._bound(greatest)

    def _bound(self, told: bytes | None) -> Bound | None:
        if told is None:
            return None
        try:
            told.decode()
        except UnicodeDecodeError as fault:
            raise ToldFault(f"a bound isn't UTF-8: {fault.reason}") from None
        return Bound(told, False)

    def constant(self, told: Any) -> Pair:
        if not isinstance(told, str):
            raise misfit(told, self.word)
        found = Bound(told.encode(), True)
        return found, found


class Bytes(Form):
    """Bytes of any length, or of one; bounds of those of one length may be shorter."""

    def __init__(self, kind: DType | FixedBinary, word: str):
        super().__init__(kind, word)
        self.size = kind.size if isinstance(kind, FixedBinary) else None

    def bounds(self, least: Any, greatest: Any) -> Pair:
        return self._bound(least), self._bound(greatest)

    def _bound(self, told: bytes | None) -> Bound | None:
        if told is not None and self.size is not None and len(told) > self.size:
            raise misfit(told, self.word)
        return None if told is None else Bound(told, False)

    def constant(self, told: Any) -> Pair:
        if not isinstance(told, bytes) or len(told) != (len(told) if self.size is None else self.size):
            raise misfit(told, self.word)
        return Bound(told, True), Bound(told, True)


class Identifier(Form):
    """UUIDs: 16 bytes. Java compares the halves of one as signed numbers, so a bound is told as far as both orders agree on it."""

    def bounds(self, least: Any, greatest: Any) -> Pair:
        low, high = (None if told is None else self._whole(told) for told in (least, greatest))
        if low is None or high is None or (low[0] >= 0x80 and high[0] < 0x80):
            return None, None
        return Bound(low[:8] + bytes(8), False), Bound(high[:8] + b"\xff" * 8, False)

    def _whole(self, told: Any) -> bytes:
        if not isinstance(told, bytes) or len(told) != 16:
            raise misfit(told, self.word)
        return told

    def constant(self, told: Any) -> Pair:
        found = Bound(self._whole(told), True)
        return found, found


class Numeric(Form):
    """Decimals of up to 18 digits: the number of units of the last digit, big-endian in as few bytes as it needs."""

    def __init__(self, kind: DecimalType, word: str):
        super().__init__(kind, word)
        self.limit = 10**kind.precision - 1

    def bounds(self, least: Any, greatest: Any) -> Pair:
        return self._bound(least), self._bound(greatest)

    def _bound(self, told: Any, exact: bool = False) -> Bound | None:
        if told is None:
            return None
        if not isinstance(told, bytes) or not 1 <= len(told) <= 16:
            raise misfit(told, self.word)
        number = int.from_bytes(told, "big", signed=True)
        if abs(number) > self.limit:
            raise misfit(told, self.word)
        return Bound(number, exact)

    def constant(self, told: Any) -> Pair:
        if told is None:
            raise misfit(told, self.word)
        found = self._bound(told, True)
        return found, found


_DECIMAL = re.compile(r"decimal\(\s*([0-9]{1,3})\s*,\s*([0-9]{1,3})\s*\)")
_FIXED = re.compile(r"fixed\[\s*([0-9]{1,9})\s*\]")
#: How Avro writes the values of a type in a partition.
_AVRO = {
    "boolean": ("boolean",), "int": ("int",), "long": ("int", "long"), "float": ("float",), "double": ("float", "double"), "date": ("int",),
    "time": ("long",), "string": ("string",), "uuid": ("fixed",), "binary": ("bytes",), "fixed": ("fixed",), "decimal": ("fixed", "bytes"),
}


def avro_types(word: str) -> tuple[str, ...]:
    """Returns the types of Avro in which partitions of a type are read: no others, as a timestamp that was a date once is counted in days."""
    return _AVRO.get(re.split(r"[(\[]", word)[0], ("long",))


def form_of(word: str) -> Form:
    """Returns the form of a primitive type; of one without a counterpart that of an unmapped column."""
    simple: dict[str, Form] = {
        "boolean": Truth(DType.BOOL, word), "int": Number(DType.I32, word), "long": Number(DType.I64, word), "date": Number(Date(), word),
        "float": Floating(Float32(), word), "double": Floating(Float64(), word), "string": Text(DType.UTF8, word),
        "binary": Bytes(DType.BINARY, word), "uuid": Identifier(Uuid(), word), "time": Number(Time("us"), word, 0, 0, _DAY * 10**6 - 1),
    }
    for name, unit, zone in (("timestamp", "us", None), ("timestamptz", "us", "UTC"), ("timestamp_ns", "ns", None), ("timestamptz_ns", "ns", "UTC")):
        simple[name] = Number(Timestamp(unit, zone), word, _DAY * (10**6 if unit == "us" else 10**9))
    if word in simple:
        return simple[word]
    fixed, decimal = _FIXED.fullmatch(word), _DECIMAL.fullmatch(word)
    if fixed is not None:
        return Bytes(FixedBinary(int(fixed[1])), word)
    if decimal is not None and 1 <= int(decimal[1]) <= 18 and int(decimal[2]) <= int(decimal[1]):
        return Numeric(DecimalType(int(decimal[1]), int(decimal[2])), word)
    return Form(Unmapped(word), word)
