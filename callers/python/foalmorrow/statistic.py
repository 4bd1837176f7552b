# SPDX-License-Identifier: Apache-2.0
"""One statistic of one column over the zones of a table: how it is known of each, and its values."""
from __future__ import annotations

from array import array
from collections.abc import Sequence
from dataclasses import dataclass
from itertools import compress

from .arrays import Values, joined
from .kinds import DType, Precision, stat_dtype, Stat

try:
    import numpy
except ImportError:
    numpy = None  # type: ignore[assignment]

_IS_ABSENT = bytes(code == Precision.ABSENT for code in range(256))


class FooterError(ValueError):
    """Footers that don't fit their columns, one another or their file.

    >>> from foalmorrow import Column, Footers
    >>> Footers([Column("a", DType.I64), Column("a", DType.I64)], [])
    Traceback (most recent call last):
    ...
    foalmorrow.statistic.FooterError: two columns have one name
    """


@dataclass(frozen=True)
class Statistic:
    """One statistic of one column: how it is known of each zone, a byte each, and its values.

    >>> Statistic(memoryview(b"\\x01\\x00"), Values.of(DType.I64, [5, 0])).at(1)
    (<Precision.ABSENT: 0>, None)
    """

    known: memoryview
    values: Values

    def at(self, zone: int) -> tuple[Precision, object]:
        """Returns how the value is known of a zone, and the value, which is None where it is absent.

        >>> Statistic(memoryview(b"\\x01"), Values.of(DType.I64, [5])).at(0)
        (<Precision.EXACT: 1>, 5)
        """
        code = self.known[zone]
        if code > Precision.INEXACT:
            raise FooterError(f"zone {zone}: {code} doesn't say how a value is known; expected 0, 1 or 2")
        return Precision(code), None if code == Precision.ABSENT else self.values[zone]

    def slice(self, start: int, stop: int) -> Statistic:
        """Returns the statistic of the zones from one up to another.

        >>> len(Statistic(memoryview(bytes(3)), Values.of(DType.I64, [0, 0, 0])).slice(1, 3).known)
        2
        """
        return Statistic(self.known[start:stop], self.values.slice(start, stop))

    def take(self, zones: range) -> Statistic:
        """Returns the statistic of zones that ascend by one step, as a copy.

        >>> Statistic(memoryview(b"\\x01\\x01"), Values.of(DType.I64, [5, 6])).take(range(1, 2)).at(0)
        (<Precision.EXACT: 1>, 6)
        """
        return Statistic(memoryview(self.known[zones.start : zones.stop : zones.step].tobytes()), self.values.take(zones))


def absent(stat: Stat, dtype: DType, count: int) -> Statistic:
    """Returns a column's statistic that is known of no zone: zeros, which nothing reads."""
    kind = stat_dtype(stat, dtype)
    assert kind is not None
    ends = memoryview(bytes(8 * count)) if kind.has_ends else memoryview(b"")
    return Statistic(memoryview(bytes(count)), Values(kind, memoryview(bytes(kind.width * count)), ends, count))


def without_nulls(rows: array[int], counted: Statistic | None) -> Statistic:
    """Returns the null count of a column that isn't nullable: what is known of it, and an exact 0 where nothing is.

    A zone without rows gets none, so that a zone whose rows aren't known may be told as one of none.
    """
    if counted is None:
        counted = absent(Stat.NULL_COUNT, DType.BOOL, len(rows))
    is_open = bytes(counted.known).translate(_IS_ABSENT)
    if not any(is_open):
        return counted
    if numpy is not None:
        gained = (numpy.frombuffer(is_open, dtype=bool)) & (numpy.frombuffer(rows, dtype="<u8") > 0)
        known, values = numpy.array(counted.known, dtype=numpy.uint8), numpy.array(counted.values.data.cast("Q"), dtype="<u8")
        known[gained], values[gained] = Precision.EXACT, 0
        return Statistic(known.data, Values(DType.U64, values.view(numpy.uint8).data, memoryview(b""), len(rows)))
    known_bytes, numbers = bytearray(counted.known), array("Q", bytes(counted.values.data))
    for zone in compress(range(len(rows)), is_open):
        if rows[zone]:
            known_bytes[zone], numbers[zone] = Precision.EXACT, 0
    return Statistic(memoryview(known_bytes), Values(DType.U64, memoryview(numbers).cast("B"), memoryview(b""), len(rows)))


def joined_statistics(pieces: Sequence[Statistic]) -> Statistic:
    """Returns a statistic of pieces of one table, one piece behind the other."""
    return Statistic(memoryview(b"".join(piece.known for piece in pieces)), joined([piece.values for piece in pieces]))
