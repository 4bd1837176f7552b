# SPDX-License-Identifier: Apache-2.0
"""How much the zones of a column overlap: the clustering depth that warehouses show."""
from __future__ import annotations

import bisect
from dataclasses import dataclass
from itertools import compress
from typing import Any

from .arrays import Values
from .kinds import DType
from .statistic import Statistic

try:
    import numpy
except ImportError:
    numpy = None  # type: ignore[assignment]


@dataclass(frozen=True)
class Overlap:
    """In how many zones a value may lie: on average over the zones' least values, and at the most.

    1 is a table that is sorted by the column; the number of zones is one in which no zone tells anything. Sort the table where the mean is
    large and predicates on the column are common.

    >>> from foalmorrow import Column, Footers
    >>> Footers.measure([Column("a", DType.I64)], [{"a": [1, 5]}, {"a": [3, 9]}]).overlap("a")
    Overlap(mean=1.5, most=2)
    """

    mean: float
    most: int


def overlap(least: Statistic | None, greatest: Statistic | None, zones: int) -> Overlap:
    """Returns the overlap of zones by their bounds. A zone without both may hold any value."""
    if least is None or greatest is None:
        return Overlap(float(zones), zones)
    known = bytes(a and b for a, b in zip(least.known, greatest.known)) if numpy is None else _both(least.known, greatest.known)
    anywhere = zones - len(known) + known.count(0)
    if numpy is not None and not least.values.dtype.has_ends:
        return _of_numbers(_numbers(least.values), _numbers(greatest.values), numpy.frombuffer(known, dtype=bool), anywhere)
    lows, highs = compress(_listed(least.values), known), compress(_listed(greatest.values), known)
    pairs = [(low, high) for low, high in zip(lows, highs) if low <= high]
    starts, ends = sorted(low for low, _ in pairs), sorted(high for _, high in pairs)
    # Zones that begin at a value or before it, without those that end before it.
    depths = [anywhere + bisect.bisect_right(starts, value) - bisect.bisect_left(ends, value) for value in starts] or [anywhere]
    return Overlap(sum(depths) / len(depths), max(depths))


def _both(left: memoryview, right: memoryview) -> bytes:
    sides = (numpy.frombuffer(it, dtype=numpy.uint8) != 0 if len(it) else numpy.zeros(0, bool) for it in (left, right))
    return bytes(numpy.logical_and(*sides).tobytes())


def _of_numbers(lows: Any, highs: Any, known: Any, anywhere: int) -> Overlap:
    lows, highs = lows[known], highs[known]
    there = lows <= highs
    starts, ends = numpy.sort(lows[there]), numpy.sort(highs[there])
    if not len(starts):
        return Overlap(float(anywhere), anywhere)
    depths = numpy.searchsorted(starts, starts, "right") - numpy.searchsorted(ends, starts, "left") + anywhere
    return Overlap(int(depths.sum()) / len(depths), int(depths.max()))


def _numbers(values: Values) -> Any:
    sign = "u" if values.dtype <= DType.U64 else "i"
    return numpy.frombuffer(values.data, dtype=f"<{sign}{values.dtype.width}") if len(values) else numpy.zeros(0, "u1")


def _listed(values: Values) -> list[Any]:
    """Lists the values in an order that is theirs too: texts by their bytes."""
    if not values.dtype.has_ends:
        return [values[place] for place in range(len(values))]
    ends, heap, start, found = values.ends.cast("Q"), bytes(values.data), 0, []
    for end in ends:
        found.append(heap[start:end])
        start = end
    return found
