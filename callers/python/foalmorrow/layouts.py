# SPDX-License-Identifier: Apache-2.0
"""Arrays in Arrow's layouts, by the words of its formats, as values and nulls of a column's type.

Numbers, truths in bits or bytes, texts and bytes with 32-bit or 64-bit offsets or in views, bytes of one length, dates, times, timestamps, decimals and
dictionaries of them are read; a layout that isn't is refused by its word. The formats are those of Arrow's C Data Interface, which the
dataframe interchange protocol uses too.
"""
from __future__ import annotations

import re
from dataclasses import dataclass
from fractions import Fraction
from typing import Any

import numpy

from .arrays import Values, gathered
from .instants import FINE
from .kinds import DType, Logical
from .logical_reading import of_ticks
from .reading import Read, Where, read_typed, used_places
from .types import Date, Decimal, Enum, FixedBinary, Float32, Float64, Time, Timestamp, Unmapped, Uuid

#: The formats of numbers, by their types in numpy.
NUMBERS = {"c": "i1", "C": "u1", "s": "<i2", "S": "<u2", "i": "<i4", "I": "<u4", "l": "<i8", "L": "<u8", "e": "<f2", "f": "<f4", "g": "<f8"}
_UNITS = {"s": "s", "m": "ms", "u": "us", "n": "ns"}
#: The bytes of each format of dates and times.
_TIMES = {"tdD": 4, "tdm": 8, "tts": 4, "ttm": 4, "ttu": 8, "ttn": 8}
_DECIMAL = re.compile(r"d:(?P<precision>[0-9]{1,3}),(?P<scale>-?[0-9]{1,3})(?:,(?P<bits>32|64|128|256))?")
_BINARY = re.compile(r"w:(?P<size>[0-9]{1,9})")


def width(form: str) -> int | None:
    """Returns the bytes of each value of a format; None where it has none of its own, as texts and truths in bits.

    >>> width("l"), width("d:9,2"), width("u")
    (8, 16, None)
    """
    if form in NUMBERS:
        return numpy.dtype(NUMBERS[form]).itemsize
    if form in _TIMES:
        return _TIMES[form]
    if re.fullmatch("ts[smun]:.*", form, re.DOTALL):
        return 8
    found = _DECIMAL.fullmatch(form)
    if found is not None:
        return int(found["bits"] or 128) // 8
    fixed = _BINARY.fullmatch(form)
    return int(fixed["size"]) if fixed is not None else None


@dataclass(frozen=True)
class Laid:
    """An array of one format without its offset: its values, and which of them are there.

    ``items`` is an array of numpy with the values' bytes, or truths; of texts and bytes it is the heap, and ``ends`` says where each value ends.
    ``there`` is None where no value is null. ``dictionary`` has the values of which the items are places.
    """

    form: str
    count: int
    items: Any
    ends: Any = None
    there: Any = None
    dictionary: Laid | None = None

    @property
    def nulls(self) -> bytes | None:
        return None if self.there is None or self.there.all() else (~self.there).tobytes()


def converted(kind: DType | Logical, laid: Laid, where: Where) -> Read:
    """Returns an array as values of a type and nulls. ValueFault where its format isn't one of the type's, or a value isn't the type's."""
    if laid.form == "n":
        return _all_null(kind, laid.count)
    if laid.dictionary is not None:
        return _of_dictionary(kind, laid, laid.dictionary, where)
    if isinstance(kind, Unmapped):
        return Read(Values(DType.BINARY, memoryview(b""), memoryview(bytes(8 * laid.count)), laid.count), laid.nulls)
    found = _converted(kind, laid, where)
    if found is None:
        what = kind.expected if isinstance(kind, Logical) else f"an array of {kind.word}"
        raise where.fault(f"an array of Arrow's format {laid.form!r} is no {kind.word}; expected {what}")
    return found


def _converted(kind: DType | Logical, laid: Laid, where: Where) -> Read | None:
    if laid.form in NUMBERS:
        return _of_numbers(kind, laid, where)
    if laid.form == "b":
        return read_typed(kind, laid.items, laid.nulls, where) if kind == DType.BOOL else None
    if laid.form in ("u", "U", "z", "Z"):
        return _of_heap(kind, laid, where)
    if laid.form.startswith("w:"):
        return _of_fixed(kind, laid, where)
    if laid.form.startswith("d:"):
        return _of_decimals(kind, laid, where) if isinstance(kind, Decimal) else None
    return _of_times(kind, laid, where)


def _all_null(kind: DType | Logical, count: int) -> Read:
    dtype = kind.dtype if isinstance(kind, Logical) else kind
    ends = memoryview(bytes(8 * count)) if dtype.has_ends else memoryview(b"")
    values = Values(dtype, memoryview(bytes(dtype.width * count)), ends, count)
    return Read(values, None if dtype == DType.NULL or not count else b"\1" * count)


def _of_numbers(kind: DType | Logical, laid: Laid, where: Where) -> Read | None:
    is_float = laid.form in ("e", "f", "g")
    if isinstance(kind, Logical):
        takes = isinstance(kind, (Float32, Float64)) or (isinstance(kind, Decimal) and not is_float)
    else:
        takes = kind.range is not None and not is_float
    return read_typed(kind, laid.items, laid.nulls, where) if takes else None


def _of_heap(kind: DType | Logical, laid: Laid, where: Where) -> Read | None:
    is_text = laid.form in ("u", "U")
    values = Values(DType.UTF8 if is_text else DType.BINARY, memoryview(laid.items), memoryview(laid.ends).cast("B"), laid.count)
    if kind == (DType.UTF8 if is_text else DType.BINARY):
        return Read(values, laid.nulls)
    if isinstance(kind, (Enum, Uuid)) if is_text else isinstance(kind, (FixedBinary, Uuid)):
        if isinstance(kind, Enum) and kind.values is None:
            return Read(values, laid.nulls)
        if not is_text:
            return read_typed(kind, values, laid.nulls, where)
        nulls = laid.nulls or bytes(laid.count)
        return read_typed(kind, [None if null else values[row] for row, null in enumerate(nulls)], None, where)
    return None


def _of_fixed(kind: DType | Logical, laid: Laid, where: Where) -> Read | None:
    size = width(laid.form) or 0
    if kind != DType.BINARY and not (isinstance(kind, (FixedBinary, Uuid)) and kind.size == size):
        return None
    ends: Any = numpy.arange(1, laid.count + 1, dtype="<u8") * size
    return Read(Values(DType.BINARY, memoryview(laid.items), memoryview(ends).cast("B") if laid.count else memoryview(b""), laid.count), laid.nulls)


def _of_times(kind: DType | Logical, laid: Laid, where: Where) -> Read | None:
    ticks = laid.items.view(f"<i{width(laid.form)}").astype("<i8")
    if laid.form in ("tdD", "tdm"):
        seconds = Fraction(86_400) if laid.form == "tdD" else Fraction(1, 1000)
        return of_ticks(kind, ticks, seconds, laid.nulls, where) if isinstance(kind, Date) else None
    seconds = Fraction(1, FINE[_UNITS[laid.form[2]]])
    if laid.form.startswith("tt"):
        return of_ticks(kind, ticks, seconds, laid.nulls, where) if isinstance(kind, Time) else None
    if not isinstance(kind, Timestamp) or (kind.tz is None) != (laid.form[4:] == ""):
        return None
    return of_ticks(kind, ticks, seconds, laid.nulls, where)


def _of_decimals(kind: Decimal, laid: Laid, where: Where) -> Read:
    found = _DECIMAL.fullmatch(laid.form)
    assert found is not None
    there = numpy.ones(laid.count, bool) if laid.there is None else laid.there
    size = int(found["bits"] or 128)
    if size <= 64:
        low = laid.items.view(f"<i{size // 8}").astype("<i8")
    else:
        words = laid.items.view("<i8").reshape(laid.count, size // 64)
        low = words[:, 0].copy()
        # A number of 64 bits has its sign alone in the words above them.
        _first(kind, there & (words[:, 1:] != (low >> 63)[:, None]).any(axis=1), laid, where)
    return _scaled(kind, numpy.where(there, low, 0), int(found["scale"]), laid, where)


def _scaled(kind: Decimal, numbers: Any, scale: int, laid: Laid, where: Where) -> Read:
    """Returns decimals of another scale, each of which has to be one of the type."""
    limit, shift = 10**kind.precision - 1, kind.scale - scale
    if shift < 0:
        step = 10 ** min(-shift, 18)
        outside = (numbers != 0) if -shift > 18 else numbers % step != 0
        numbers = numbers // step
    else:
        step = 10 ** min(shift, 18)
        outside = (numbers > limit // 10**shift) | (numbers < -(limit // 10**shift))
        numbers = numpy.where(outside, 0, numbers) * step
    _first(kind, outside | (numbers > limit) | (numbers < -limit), laid, where)
    return of_ticks(kind, numbers, Fraction(1), laid.nulls, where)


def _first(kind: Decimal, wrong: Any, laid: Laid, where: Where) -> None:
    if wrong.any():
        row = int(wrong.argmax())
        size = width(laid.form) or 0
        number = int.from_bytes(bytes(laid.items[row * size : (row + 1) * size]), "little", signed=True)
        raise where.fault(f"{number} of Arrow's format {laid.form!r} is no {kind.word}; expected {kind.expected}", row)


def _of_dictionary(kind: DType | Logical, laid: Laid, dictionary: Laid, where: Where) -> Read:
    if laid.form not in NUMBERS or laid.form in ("e", "f", "g"):
        raise where.fault(f"a dictionary has places of Arrow's format {laid.form!r}; expected whole numbers")
    there = numpy.ones(laid.count, bool) if laid.there is None else laid.there
    wrong = there & ((laid.items < 0) | (laid.items >= dictionary.count))
    if wrong.any():
        row = int(wrong.argmax())
        raise where.fault(f"place {laid.items[row]} of a dictionary of {dictionary.count} values; expected one of them", row)
    places = numpy.where(there, laid.items, 0).astype("<i8")
    if dictionary.there is not None and dictionary.count:
        there = there & dictionary.there[places]
    used, first, among = used_places(places, there, dictionary.count)
    # A value of the dictionary is looked at where a row has it.
    spots = Where(where.words, where.column, where.unit, [int(row) if where.rows is None else where.rows[row] for row in first])
    values = converted(kind, _taken(dictionary, used), spots).values
    return Read(gathered(values, among), None if there.all() else (~there).tobytes())


def _taken(laid: Laid, places: Any) -> Laid:
    """Returns the values of an array at places, none of which is null."""
    if laid.dictionary is not None:
        return Laid(laid.form, len(places), laid.items[places], None, None, laid.dictionary)
    if laid.form == "n":
        return Laid("n", len(places), None)
    if laid.ends is not None:
        held = Values(DType.BINARY, memoryview(laid.items), memoryview(laid.ends).cast("B") if laid.count else memoryview(b""), laid.count)
        found = gathered(held, places)
        return Laid(laid.form, len(places), found.data, numpy.frombuffer(found.ends, "<u8") if len(places) else numpy.zeros(0, "<u8"))
    if laid.form in NUMBERS or laid.form == "b":
        return Laid(laid.form, len(places), laid.items[places])
    size = width(laid.form) or 0
    rows = numpy.frombuffer(laid.items, numpy.uint8).reshape(laid.count, size)[places]
    return Laid(laid.form, len(places), numpy.ascontiguousarray(rows).reshape(-1))


