# SPDX-License-Identifier: Apache-2.0
"""Reads containers of dates, times, decimals, floating numbers, uuids and enumerations into the physical values that they are mapped onto.

A value is taken exactly, or refused with its row: a timestamp that is finer than its column's unit, a float that isn't one of 32 bits, an
instant without a zone for a column with one. NaN is a value of a column of floating numbers; in a Series of pandas, where it may be null too,
it is refused.
"""
from __future__ import annotations

import datetime
import sys
from array import array
from collections.abc import Sequence
from dataclasses import replace
from fractions import Fraction
from typing import TYPE_CHECKING, Any

from .arrays import Values, of_numbers, of_texts, spaced
from .instants import COARSE, DAY, FINE
from .kinds import DType, Logical
from .types import Date, Decimal, Enum, FixedBinary, Float32, Float64, Numbered, Time, Timestamp, Unmapped, Uuid

if TYPE_CHECKING:
    from .reading import Read, Where

try:
    import numpy
except ImportError:
    numpy = None  # type: ignore[assignment]

_NONE = memoryview(b"")
_EPOCH = datetime.datetime(1970, 1, 1)
_FLOATS = (Float32, Float64)


def read_logical(kind: Logical, given: Any, marks: bytes | None, where: Where) -> Read:
    """Reads a container, as ``reading.read`` lists them, into physical values and nulls. ValueFault where an item is neither."""
    from . import reading

    if isinstance(given, Values):
        return _of_values(kind, given, marks, where)
    if isinstance(given, list):
        return of_items(kind, given, marks, where)
    if reading.is_pandas(given):
        return _of_pandas(kind, given, marks, where)
    if reading.is_numpy(given):
        return of_numpy(kind, given, marks, where)
    if isinstance(given, array) and given.typecode != "u":
        return of_numpy(kind, numpy.asarray(given), marks, where) if numpy is not None else of_items(kind, list(given), marks, where)
    view = memoryview(given)
    if not isinstance(kind, _FLOATS) or view.format.lstrip("@=<") not in ("e", "f", "d") or view.ndim != 1:
        raise where.fault(f"one {type(given).__name__} is no column of {kind.word}; expected a list, an array of numpy or a Series of {kind.expected}")
    return of_numpy(kind, numpy.asarray(view), marks, where) if numpy is not None else of_items(kind, view.tolist(), marks, where)


# -- values of the physical type


def _of_values(kind: Logical, given: Values, marks: bytes | None, where: Where) -> Read:
    from .reading import Read

    if given.dtype != kind.dtype or isinstance(kind, (*_FLOATS, Enum, Unmapped)):
        raise where.fault(f"values of {given.dtype.word} are no {kind.word}; expected {kind.expected}")
    if isinstance(kind, Numbered):
        low, high = kind._range
        if (low, high) != kind.dtype.range:
            numbers = given.data.cast("q")
            outside = [row for row in range(len(given)) if not low <= numbers[row] <= high] if numpy is None else _outside(given, low, high)
            for row in outside:
                if marks is None or not marks[row]:
                    raise where.fault(f"{numbers[row]} is no {kind.word}; expected a number from {low} to {high}", row)
    elif isinstance(kind, (Uuid, FixedBinary)):
        ends, start = given.heap_ends(), 0
        for row, end in enumerate(ends):
            if end - start != kind.size and (marks is None or not marks[row]):
                raise where.fault(f"{end - start} bytes are no {kind.word}; expected {kind.size}", row)
            start = end
    return Read(given, marks)


def _outside(given: Values, low: int, high: int) -> Sequence[int]:
    found = numpy.frombuffer(given.data, dtype="<i8") if len(given) else numpy.zeros(0, "<i8")
    return [int(row) for row in numpy.flatnonzero((found < low) | (found > high))]


# -- items one by one


def of_items(kind: Logical, items: list[Any], marks: bytes | None, where: Where) -> Read:
    """Reads a list of items."""
    from . import reading

    nulls = reading.nulls_of(items, marks, isinstance(kind, _FLOATS))
    present = items if nulls is None else [item for item, null in zip(items, nulls) if not null]
    arrays = _as_array(kind, present)
    rows = range(len(items)) if nulls is None else [row for row, null in enumerate(nulls) if not null]
    there = replace(where, rows=rows) if nulls is not None else where
    if arrays is not None:
        values = of_numpy(kind, arrays, None, there).values
    else:
        found = [kind.stored(item) for item in present]
        for row, value in enumerate(found):
            if value is None:
                raise there.misfit(kind, present[row], row)
        plain: Any = found
        values = of_texts(kind.dtype, plain) if kind.dtype.has_ends else of_numbers(kind.dtype, plain)
    return reading.Read(values if nulls is None else spaced(values, nulls), nulls)


def _as_array(kind: Logical, items: list[Any]) -> Any:
    """Returns items of one type of Python as an array of numpy that holds them exactly; None where there is none."""
    if numpy is None or len(items) < 16:
        return None
    types = set(map(type, items))
    if isinstance(kind, _FLOATS) and types == {float}:
        return numpy.array(items, dtype="<f8")
    if isinstance(kind, (Date, Timestamp)) and types == {datetime.date}:
        is_naive = isinstance(kind, Date) or kind.tz is None
        return (numpy.array([item.toordinal() for item in items], dtype="<i8") - 719_163).view("M8[D]") if is_naive else None
    is_naive = isinstance(kind, Date) or (isinstance(kind, Timestamp) and kind.tz is None)
    if is_naive and types == {datetime.datetime} and all(item.tzinfo is None for item in items):
        # By whole numbers, as numpy itself takes ten times as long.
        since = [item - _EPOCH for item in items]
        return numpy.array([(it.days * 86_400 + it.seconds) * 1_000_000 + it.microseconds for it in since], dtype="<i8").view("M8[us]")
    return None


# -- numpy


def of_numpy(kind: Logical, given: Any, marks: bytes | None, where: Where) -> Read:
    """Reads an array of numpy."""
    from . import reading

    given, marks = reading.unmasked(given, marks, where)
    letter = given.dtype.kind
    if letter == "M" and isinstance(kind, (Date, Timestamp)):
        return _of_times(kind, given, marks, where)
    if letter == "f" and isinstance(kind, _FLOATS):
        return reading.Read(_of_floats(kind, given, marks, where), marks)
    if letter in "iu" and isinstance(kind, (*_FLOATS, Decimal)):
        found = _of_wholes(kind, given, marks, where) if isinstance(kind, Decimal) else _of_floats(kind, given, marks, where)
        return reading.Read(found, marks)
    if letter in "SV" and isinstance(kind, (Uuid, FixedBinary)) and given.dtype.itemsize == kind.size and not given.dtype.names:
        return reading.Read(_of_bytes(kind.size, given), marks)
    if isinstance(kind, Unmapped) and letter != "O":
        # NaN is a value here, and NaT none.
        absent = ~_there(len(given), marks) | (numpy.isnat(given) if letter in "Mm" else False)
        return reading.Read(of_texts(DType.BINARY, [b""] * len(given)), absent.view(numpy.uint8).tobytes())
    if letter in "OUS":
        return of_items(kind, given.tolist(), marks, where)
    raise where.fault(f"an array of {given.dtype} is no {kind.word}; expected {kind.expected}")


def _of_bytes(size: int, given: Any) -> Values:
    count = len(given)
    ends = numpy.arange(1, count + 1, dtype="<u8") * size
    return Values(DType.BINARY, memoryview(given.tobytes()), memoryview(ends.tobytes()), count)


def _there(count: int, marks: bytes | None) -> Any:
    return numpy.ones(count, bool) if marks is None else numpy.frombuffer(marks, dtype=numpy.uint8) == 0


def _values(kind: Logical, numbers: Any) -> Values:
    held = numpy.ascontiguousarray(numbers.astype(f"<i{kind.dtype.width}", copy=False))
    return Values(kind.dtype, held.view(numpy.uint8).data if len(held) else _NONE, _NONE, len(held))


def _refused(kind: Logical, wrong: Any, given: Any, where: Where) -> None:
    """Refuses the first row that is wrong."""
    if wrong.any():
        row = int(wrong.argmax())
        raise where.misfit(kind, given[row], row)


def _of_times(kind: Date | Timestamp, given: Any, marks: bytes | None, where: Where) -> Read:
    if isinstance(kind, Timestamp) and kind.tz is not None:
        raise where.fault(
            f"an array of {given.dtype} has no zone, and is no {kind.word}; expected a Series with one, as .dt.tz_localize makes it, or Values of "
            "the instants in UTC as i64"
        )
    unit, step = numpy.datetime_data(given.dtype)
    ticks = numpy.ascontiguousarray(given.astype(given.dtype.newbyteorder("="), copy=False)).view("i8")
    none = ticks == numpy.iinfo("i8").min
    there = _there(len(ticks), marks) & ~none
    nulls = (~there).view(numpy.uint8).tobytes() if not there.all() else None
    if unit in ("Y", "M"):
        # Beyond these numpy's own days would leave 64 bits.
        _refused(kind, there & (numpy.abs(ticks) > 2**40 // step), given, where)
        ticks = numpy.where(there, ticks, 0).view(f"M8[{step}{unit}]").astype("M8[D]").view("i8")
        step, unit = 1, "D"
    if unit not in FINE and unit not in COARSE:
        if there.any():
            raise where.fault(f"an array of {given.dtype} has no unit of time; expected {kind.expected}")
        step, unit = 1, "s"
    return of_ticks(kind, ticks, Fraction(step, FINE[unit]) if unit in FINE else Fraction(step * COARSE[unit]), nulls, where, given)


def of_ticks(kind: Logical, ticks: Any, seconds: Fraction, nulls: bytes | None, where: Where, given: Any = None) -> Read:
    """Reads whole numbers of 64 bits of so many seconds each; for a decimal type its own numbers.

    ValueFault where one isn't a value of the type, as ``given`` shows it.
    """
    from .reading import Read

    given = ticks if given is None else given
    parts = Fraction(1, DAY) if isinstance(kind, Date) else Fraction(FINE[kind.unit] if isinstance(kind, (Time, Timestamp)) else 1)
    ratio = seconds * parts
    numbers = numpy.where(_there(len(ticks), nulls), ticks, 0)
    if ratio.denominator > 1:
        numbers, rest = numpy.divmod(numbers, ratio.denominator)
        _refused(kind, rest != 0, given, where)
    assert isinstance(kind, Numbered)
    first, last = kind._range
    low, high = -(-first // ratio.numerator), last // ratio.numerator
    _refused(kind, (numbers < low) | (numbers > high), given, where)
    return Read(_values(kind, numbers * ratio.numerator), nulls)


def _of_floats(kind: Any, given: Any, marks: bytes | None, where: Where) -> Values:
    """Returns numbers of an array of floating or whole ones, each of which is one of the width."""
    width, own = kind.width, numpy.dtype(f"<f{kind.width.bits // 8}")
    there = _there(len(given), marks)
    with numpy.errstate(all="ignore"):
        found = given.astype(own)
        if given.dtype.kind == "f":
            if not numpy.can_cast(given.dtype, own):
                _refused(kind, there & (found.astype(given.dtype) != given) & ~numpy.isnan(given), given, where)
        else:
            limit = 2 ** (24 if width.bits == 32 else 53)
            for row in numpy.flatnonzero(there & ((given > limit) | (given < -limit if given.dtype.kind == "i" else False))):
                if int(found[row]) != int(given[row]):
                    raise where.misfit(kind, given[row], int(row))
    return _values(kind, width.numbers(found))


def _of_wholes(kind: Decimal, given: Any, marks: bytes | None, where: Where) -> Values:
    limit = 10 ** (kind.precision - kind.scale)
    outside = given >= limit if given.dtype.kind == "u" else (given >= limit) | (given <= -limit)
    there = _there(len(given), marks)
    _refused(kind, there & outside, given, where)
    return _values(kind, numpy.where(there, given, 0).astype("<i8") * 10**kind.scale)


# -- pandas


def _of_pandas(kind: Logical, given: Any, marks: bytes | None, where: Where) -> Read:
    from . import reading

    pandas = sys.modules["pandas"]
    if isinstance(given, pandas.DataFrame):
        raise where.fault("a frame has 2 dimensions; expected one")
    given = reading.as_series(given)
    is_open = isinstance(kind, _FLOATS) or (isinstance(kind, Unmapped) and given.dtype == float)
    if is_open and isinstance(given.dtype, numpy.dtype) and given.dtype.kind in "fO":
        _refuse_nan(kind, numpy.asarray(given), marks, where)
    if isinstance(given.dtype, numpy.dtype):
        return of_numpy(kind, given.to_numpy(), marks, where)
    held = given.array if isinstance(given, (pandas.Series, pandas.Index)) else given
    if isinstance(given.dtype, pandas.DatetimeTZDtype):
        if not isinstance(kind, Timestamp) or kind.tz is None:
            raise where.fault(f"values of pandas' type {given.dtype} have a zone, and are no {kind.word}; expected {kind.expected}")
        naive = pandas.DatetimeIndex(held).tz_convert("UTC").tz_localize(None).to_numpy()
        return of_numpy(Timestamp(kind.unit), naive, marks, where)
    if isinstance(given.dtype, pandas.CategoricalDtype):
        return reading.of_categories(kind, held, marks, where)
    if isinstance(held, (pandas.arrays.FloatingArray, pandas.arrays.IntegerArray)):
        return reading.of_masked(kind, held, marks, where)
    return of_items(kind, numpy.asarray(held, dtype=object).tolist(), marks, where)


def _refuse_nan(kind: Logical, items: Any, marks: bytes | None, where: Where) -> None:
    """Refuses a Series with NaN, which pandas takes for null."""
    nans = numpy.isnan(items) if items.dtype.kind == "f" else numpy.array([isinstance(it, float) and it != it for it in items], dtype=bool)
    nans &= _there(len(items), marks)
    if nans.any():
        hint = "hand in .to_numpy() where it is a value, and .astype('Float64') or a Nullable where it is null"
        raise where.fault(f"NaN in a Series may be a value or null; expected {kind.expected}: {hint}", int(nans.argmax()))
