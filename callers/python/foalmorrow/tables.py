# SPDX-License-Identifier: Apache-2.0
"""A snapshot of a table that is many files: each file a zone, so that one predicate gives the files to read.

``foalmorrow.delta``, ``foalmorrow.iceberg`` and ``foalmorrow.dataset`` make such tables of what these formats keep.
"""
from __future__ import annotations

from array import array
from collections.abc import Iterable, Sequence
from dataclasses import dataclass
from functools import cached_property
from typing import Any, NamedTuple

from .answers import Answers
from .arrays import of_numbers, of_texts, spaced
from .filters import Filters, of_filters
from .footers import Footers
from .items import shown
from .kinds import Column, DType, Logical, Stat, stat_dtype
from .predicate import Predicate
from .statistic import Statistic

__all__ = ["Bound", "DataFile", "Form", "Pair", "Table", "ToldFault", "Zones", "misfit", "successor"]


@dataclass(frozen=True)
class DataFile:
    """A data file of a snapshot."""

    #: The path as the table names it: relative to the table's folder, or absolute.
    path: str
    #: The bytes of the file.
    size: int
    #: How many rows of it belong to the snapshot; None where the table doesn't say.
    rows: int | None = None
    #: Whether rows may have been deleted from it that it still holds.
    has_deletes: bool = False
    #: The row group of the file that the zone is; None where it is the whole file.
    row_group: int | None = None


class Bound(NamedTuple):
    """The least or the greatest value of a column in a file, as a value of the physical type; or no more than a bound of it."""

    value: bool | int | bytes
    exact: bool


class ToldFault(ValueError):
    """A value that a table tells of a column, and that is none of its type."""


def misfit(told: object, word: str) -> ToldFault:
    """Returns the fault of a value that is none of a type."""
    return ToldFault(f"{shown(told)} is no {word}")


#: The least and the greatest value, where something is known of them.
Pair = tuple[Bound | None, Bound | None]


class Form:
    """How a table writes the values of a type: bounds in its statistics, and the one value of a partition. Nothing is known of this one's."""

    def __init__(self, kind: DType | Logical, word: str):
        #: The column's type.
        self.type = kind
        #: The type's word in the table's schema.
        self.word = word

    @property
    def dtype(self) -> DType:
        """The physical type."""
        return self.type.dtype if isinstance(self.type, Logical) else self.type

    def bounds(self, least: Any, greatest: Any) -> Pair:
        """Returns the bounds of a file's statistics, which are None where they aren't told. ToldFault where one is no value of the type."""
        return None, None

    def constant(self, told: Any) -> Pair:
        """Returns the bounds of a partition's one value. ToldFault where it is no value of the type."""
        return None, None


class _Cells:
    """One statistic of one column: the zones of which it is known, its values there, and how each is known."""

    __slots__ = ("zones", "values", "known")

    def __init__(self) -> None:
        self.zones, self.values, self.known = array("Q"), list[Any](), bytearray()

    def add(self, zone: int, value: Any, exact: bool) -> None:
        self.zones.append(zone)
        self.values.append(value)
        self.known.append(1 if exact else 2)

    def forget(self, zone: int) -> None:
        """Takes back what was added last of a zone."""
        while self.zones and self.zones[-1] == zone:
            self.zones.pop()
            self.values.pop()
            self.known.pop()


#: The statistics that tables tell, in the order of a column's cells.
_STATS = (Stat.MIN, Stat.MAX, Stat.NULL_COUNT)


class Zones:
    """What a table tells of its files, file by file."""

    def __init__(self, columns: Iterable[Column]):
        self.columns = tuple(columns)
        self.rows = array("Q")
        self._is_wide = False
        self._cells = {column.name: (_Cells(), _Cells(), _Cells()) for column in self.columns}

    def begin(self, rows: int | None, is_wide: bool = False) -> None:
        """Begins the next file. Bounds of a wide one are those of more rows than belong to the table, and so not exact.

        A file whose number of rows isn't known counts as one row. A proof compares the number of rows with a null count alone, and of such a
        file only null counts of none and of all are told.
        """
        self.rows.append(1 if rows is None else rows)
        self._is_wide = is_wide

    def bounds(self, name: str, least: Bound | None, greatest: Bound | None) -> None:
        """Tells the bounds of a column in the file that was begun last. ToldFault where the least value is above the greatest."""
        if least is not None and greatest is not None and least.value > greatest.value:  # type: ignore[operator]
            raise ToldFault("the least value is above the greatest")
        may_be_exact = not self._is_wide and self.rows[-1] > 0
        for cells, bound in zip(self._cells[name], (least, greatest)):
            if bound is not None:
                cells.add(len(self.rows) - 1, bound.value, bound.exact and may_be_exact)

    def nulls(self, name: str, count: int) -> None:
        """Tells the exact number of nulls of a column in the file that was begun last."""
        self._cells[name][2].add(len(self.rows) - 1, count, True)

    def all_null(self, name: str) -> None:
        """Tells that a column has nulls alone in the file that was begun last."""
        self.nulls(name, self.rows[-1])

    def tell(self, name: str, stat: Stat, value: Any, exact: bool) -> None:
        """Tells a statistic of a column in the file that was begun last, by a value of the physical type, texts as UTF-8."""
        self._cells[name][_STATS.index(stat)].add(len(self.rows) - 1, value, exact)

    def forget(self, name: str) -> None:
        """Takes back what was told of a column in the file that was begun last: of one of which it is told what can't be, nothing is known there."""
        for cells in self._cells[name]:
            cells.forget(len(self.rows) - 1)

    def footers(self, names: Iterable[str] | None = None) -> Footers:
        """Returns the footers of some columns, or of all. Names that the table hasn't are left out."""
        wanted = self._cells.keys() if names is None else set(names)
        columns = [column for column in self.columns if column.name in wanted]
        cells = {(column, stat): it for column in columns for stat, it in zip(_STATS, self._cells[column.name]) if len(it.zones)}
        return Footers(columns, self.rows, {(column.name, stat): self._statistic(column, stat, it) for (column, stat), it in cells.items()})

    def _statistic(self, column: Column, stat: Stat, cells: _Cells) -> Statistic:
        dtype = stat_dtype(stat, column.dtype)
        assert dtype is not None
        known, absent = bytearray(len(self.rows)), bytearray(b"\1") * len(self.rows)
        for zone, code in zip(cells.zones, cells.known):
            known[zone], absent[zone] = code, 0
        present = of_texts(dtype, cells.values) if dtype.has_ends else of_numbers(dtype, cells.values)
        return Statistic(memoryview(known), spaced(present, bytes(absent)))


class Table:
    """A snapshot of a table: its files, and what is known of each."""

    def __init__(self, name: str, version: int | None, files: Sequence[DataFile], known: Zones | Footers):
        #: The folder or file that it was read from.
        self.name = name
        #: The version of a Delta table, the snapshot's number of an Iceberg table; None where there is none.
        self.version = version
        #: The data files, or their row groups, in the order of the zones.
        self.files = tuple(files)
        self._known = known

    @property
    def columns(self) -> tuple[Column, ...]:
        """The columns that a predicate may name. Of one whose type is ``Unmapped`` no more is known than which values are null."""
        return self._known.columns

    @cached_property
    def footers(self) -> Footers:
        """The footers of all columns, a zone for each file or row group."""
        return self._known if isinstance(self._known, Footers) else self._known.footers()

    def __len__(self) -> int:
        return len(self.files)

    def __repr__(self) -> str:
        return f"<{self.name}{'' if self.version is None else f', version {self.version}'}: {len(self.files)} files>"

    def prune(self, wanted: Predicate | Filters | str, **options: Any) -> Answers:
        """Returns what to do with each file under a predicate, or under filter tuples as ``foalmorrow.filters`` reads them.

        A text is a condition in SQL; the options and the errors are those of ``Footers.prune``. Of a predicate and of filters only the columns that
        they name are looked at.
        """
        if isinstance(wanted, str):
            return self.footers.prune(wanted, **options)
        predicate = wanted if isinstance(wanted, Predicate) else of_filters(wanted)
        footers = self._known if isinstance(self._known, Footers) else self._known.footers(predicate.names())
        return footers.prune(predicate, **options)

    def files_for(self, wanted: Predicate | Filters | str, **options: Any) -> list[DataFile]:
        """Returns the files, or row groups, that have to be read for a predicate: no row of any other one satisfies it. Errors are those of
        ``prune``."""
        return [self.files[zone] for zone in self.prune(wanted, **options).kept]


def successor(text: str) -> str | None:
    """Returns a text above each text that begins with this one; None where there is none.

    >>> successor("abc"), successor("a\\U0010ffff"), successor("\\U0010ffff"), successor("")
    ('abd', 'b', None, None)
    """
    stem = text.rstrip("\U0010ffff")
    if not stem:
        return None
    # No text has a surrogate.
    following = ord(stem[-1]) + 1
    return stem[:-1] + chr(0xE000 if following == 0xD800 else following)
