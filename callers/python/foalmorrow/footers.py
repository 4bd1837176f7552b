# SPDX-License-Identifier: Apache-2.0
"""Footers: the statistics of a table's zones as arrays, measured, merged, checked, kept in a file, and pruned by."""
from __future__ import annotations

import operator
import os
from array import array
from collections.abc import Collection, Iterable, Iterator, Mapping, Sequence
from contextlib import ExitStack
from typing import Any, Literal, NamedTuple

from . import files, library
from .answers import Answers
from .arrays import ValueFault, Values
from .explain import Explanation
from .items import shown
from .kinds import Column, DType, Logical, Precision, Stat, stat_dtype
from .overlap import Overlap, overlap
from .predicate import Opaque, Predicate, PredicateError
from .reading import Nullable, Read, Where, is_arrow, read, read_column
from .spelling import is_name, unnamed
from .sql import warn_of
from .statistic import FooterError, Statistic, absent, joined_statistics, without_nulls
from .types import Float32, Float64

__all__ = ["ALL", "PRUNING", "FooterError", "Footers", "Nullable", "Statistic", "Untrue"]

#: The statistics that a measured footer has where the column's type has them.
ALL = (Stat.MIN, Stat.MAX, Stat.NULL_COUNT, Stat.SUM, Stat.IS_CONSTANT, Stat.IS_SORTED, Stat.IS_STRICT_SORTED)


#: The statistics that pruning reads. Merged in any order that keeps neighbours together they are the same.
PRUNING = (Stat.MIN, Stat.MAX, Stat.NULL_COUNT)


class Untrue(NamedTuple):
    """What isn't true of a chunk: a statistic of a column, or ``rows``, the number of rows that the footers say the zone has.

    >>> Footers([Column("a", DType.I64)], [2]).check(0, {"a": [1]})
    Untrue(column='a', what='rows')
    """

    column: str
    what: Stat | Literal["rows"]


class Footers:
    """What is known of the zones of a table: how many rows each has, and the statistics of its columns.

    Zones count from 0, in the order in which they stand. What isn't there is unknown, and rules nothing out.

    >>> footers = Footers.measure([Column("a", DType.I64)], [{"a": [1, 5]}, {"a": [7, 9]}])
    >>> list(footers.prune((col("a") > 5) & (col("a") < 10)).skipped)
    [0]
    """

    def __init__(self, columns: Sequence[Column], rows: object, statistics: Mapping[tuple[str, Stat], Statistic] | None = None):
        """Takes the number of rows of each zone, in any container that a column may stand in.

        FooterError where a statistic is of no column, of a column without that statistic, or not of as many zones as there are; ValueFault
        where a number of rows is none.
        """
        self.columns = tuple(columns)
        self.rows = _rows(rows)
        self.statistics = dict(statistics or {})
        for column in self.columns:
            if not (isinstance(column.name, str) and isinstance(column.dtype, DType) and isinstance(column.nullable, bool)):
                raise FooterError(f"{column!r} is no column: expected a str, a DType and a bool")
        self._places = {column.name: column for column in self.columns}
        if len(self._places) != len(self.columns):
            raise FooterError("two columns have one name")
        for (name, stat), statistic in self.statistics.items():
            dtype = self._dtype(name, stat)
            if statistic.values.dtype != dtype:
                raise FooterError(f"column {name}: {stat.name.lower()} is of type {dtype.word}, not {statistic.values.dtype.word}")
            if not len(statistic.known) == len(statistic.values) == len(self.rows):
                raise FooterError(f"column {name}: {stat.name.lower()} isn't of {len(self.rows)} zones")

    def _dtype(self, name: str, stat: Stat) -> DType:
        if name not in self._places:
            raise FooterError(f"the table has no column {name}")
        if not isinstance(stat, Stat):
            raise FooterError(f"column {name}: {stat!r} is no Stat")
        dtype = stat_dtype(stat, self._places[name].type)
        if dtype is None:
            raise FooterError(f"column {name}: {self._places[name].type.word} has no {stat.name.lower()}")
        return dtype

    def __len__(self) -> int:
        return len(self.rows)

    @classmethod
    def of_values(
        cls, columns: Sequence[Column], rows: object, given: Mapping[tuple[str, Stat], tuple[object, object]], nan_left_out: Collection[str] = ()
    ) -> Footers:
        """Returns footers of arrays: of each column's statistic its values, a zone each, and how they are known.

        ``nan_left_out`` names the columns of floating numbers whose writer leaves NaN out of the bounds, as Parquet's do: their greatest values
        bound nothing above, so these are absent, and so is a least value that is NaN.

        The values may stand in any container that a column may stand in. How: one ``Precision`` for all zones, or one for each. A value that is
        None, or null as the container has it, is absent whatever is said of how it is known.

        FooterError as of ``Footers``; ValueFault, with the column and the zone, where a value isn't of the statistic's type.

        >>> bounds = {("a", Stat.MAX): ([5, None], Precision.INEXACT)}
        >>> Footers.of_values([Column("a", DType.I64)], [10, 10], bounds).at(0)
        {('a', <Stat.MAX: 3>): (<Precision.INEXACT: 2>, 5)}
        """
        empty = cls(columns, rows)
        statistics = {}
        for name in nan_left_out:
            if name not in empty._places or not isinstance(empty._places[name].logical, (Float32, Float64)):
                raise FooterError(f"column {name} holds no floating numbers, of which NaN may be left out")
        for (name, stat), (values, known) in given.items():
            empty._dtype(name, stat)
            where = Where(f"column {name}, {stat.name.lower()}", name, "zone")
            found = read(empty._value_type(name, stat), values, where)
            marks = _known(known, len(found.values), where)
            if found.nulls is not None:
                marks = bytes(Precision.ABSENT if null else code for code, null in zip(marks, found.nulls))
            if name in nan_left_out and stat in (Stat.MIN, Stat.MAX):
                marks = bytes(len(marks)) if stat == Stat.MAX else _without_nan(empty._places[name].logical, found.values, marks)
            statistics[name, stat] = Statistic(memoryview(marks), found.values)
        return cls(columns, empty.rows, statistics)

    def _value_type(self, name: str, stat: Stat) -> DType | Logical:
        """Returns the type of a statistic's values: the column's logical one for its bounds, and for its sum where it has one."""
        column = self._places[name]
        return column.type if stat in (Stat.MIN, Stat.MAX) or (stat == Stat.SUM and column.logical is not None) else self._dtype(name, stat)

    @classmethod
    def measure(cls, columns: Sequence[Column], chunks: Iterable[Any], wanted: Sequence[Stat] = ALL) -> Footers:
        """Returns the footers of chunks, a zone each: true of them by proof.

        A chunk is a dict or a frame of columns by their names, each a list, an array of numpy, a Series or another container that
        ``foalmorrow.reading`` names; or a table of Arrow, or a frame of the dataframe interchange protocol. The chunks may be a stream of Arrow,
        of which each record batch is one.

        FooterError where a column is missing, or one of a chunk is longer than another; ValueFault, with the column and the row, where a value
        isn't of its column's type; Refused where a heap of texts isn't UTF-8.

        >>> Footers.measure([Column("a", DType.I64)], [{"a": range(5)}], [Stat.MAX]).at(0)
        {('a', <Stat.MAX: 3>): (<Precision.EXACT: 1>, 4)}
        """
        from . import arrow

        building = _Building(columns, wanted)
        for chunk in arrow.batches(chunks) if arrow.is_table(chunks) else chunks:
            building.add(chunk)
        return building.footers()

    def at(self, zone: int) -> dict[tuple[str, Stat], tuple[Precision, object]]:
        """Returns what is known of a zone. The bounds of a logical type are its own values, as dates and decimals.

        >>> from foalmorrow import Date
        >>> Footers.measure([Column("day", Date())], [{"day": ["2026-01-02"]}], [Stat.MIN]).at(0)["day", Stat.MIN][1]
        datetime.date(2026, 1, 2)
        """
        found = self._stored_at(zone)
        for (name, stat), (known, value) in found.items():
            logical = self._places[name].logical
            if logical is not None and stat in (Stat.MIN, Stat.MAX, Stat.SUM):
                found[name, stat] = known, logical.shown(value)
        return found

    def _stored_at(self, zone: int) -> dict[tuple[str, Stat], tuple[Precision, object]]:
        """Returns what is known of a zone, by the values that are kept."""
        return {key: statistic.at(zone) for key, statistic in self.statistics.items() if statistic.known[zone]}

    def prune(self, predicate: Predicate | str, normalize: bool = False, *, last_names: bool = False) -> Answers:
        """Returns what to do with each zone: of whatever rows the statistics are true, no row of a skipped zone satisfies the predicate and each
        row of a whole one does.

        A predicate is built from columns (``col("a") > 3``), whatever their names, or it is a text: a condition in SQL as it stands behind
        WHERE, which ``docs/SQL.md`` describes. Pruning goes by the predicate as it is, by its normal form, and by tests of its truth that see
        columns of nulls alone; ``normalize`` is taken and has no effect. The arrays of the columns that it names are handed over as they are.
        A column that isn't nullable has an exact null count of 0 where nothing else is known of it.

        An opaque condition may be anything of each row: it is a column of its own without statistics. So may a test in SQL that isn't read:
        ``unread`` of the answer has the texts of these, ``explained`` underlines them in the condition, and one ``UnreadWarning`` tells of them. A
        test of a column that the table hasn't, or whose name isn't made of ASCII letters, digits and ``_``, isn't read, nor is one of a floating
        number, a UUID, bytes of one length or an enumeration. Dates, times, timestamps and decimals compare with literals of their own type, as
        ``day >= DATE '2026-01-02'``; a number beside a date is refused. With ``last_names`` a name of several parts, as ``t.a``, is the column
        of its last one, and else it isn't read.

        PredicateError where the predicate names a column that isn't there, compares a column with a value that isn't of its type, isn't of
        type bool, or nests deeper than 128 levels; SqlError, with the place, where a text is no condition; Refused, with the column, the
        statistic and the zone, where an array says what can't be.

        >>> footers = Footers.measure([Column("a", DType.I64)], [{"a": [1, 5]}, {"a": [7, 9]}])
        >>> footers.prune(col("a").between(6, 9))
        <2 zones: 0 to be read, 1 skipped, 1 whole>
        >>> footers.prune("a BETWEEN 6 AND 9").unread
        ()
        """
        if isinstance(predicate, str):
            return self._prune_sql(predicate, last_names)
        if not isinstance(predicate, Predicate):
            raise TypeError(f"{predicate!r} is no predicate: compare a column, as in col('a') == True")
        columns, names, text, unknown = self._spelled(predicate)
        return Answers(library.prune(columns, names, self.rows, self._handed(columns), text, unknown))

    def prune_where(self, words: str) -> Answers:
        """Returns what to do with each zone under the words of a ``where`` line of the program's language, as ``prune`` does under a predicate.

        The words know the columns whose names the language takes, and compare their physical values. Errors are those of ``prune``.

        >>> footers = Footers.measure([Column("a", DType.I64)], [{"a": [1, 5]}, {"a": [7, 9]}])
        >>> footers.prune_where("gt col a lit i64 5")
        <2 zones: 0 to be read, 1 skipped, 1 whole>
        """
        columns = [column for column in self.columns if is_name(column.name)]
        return Answers(library.prune(columns, [column.name for column in columns], self.rows, self._handed(columns), words))

    def _prune_sql(self, condition: str, last_names: bool) -> Answers:
        codes, unread = self._answered_sql(condition, last_names)
        words = [condition.encode()[start:end].decode() for start, end in unread]
        warn_of(words, stacklevel=3)
        return Answers(codes, words, [(condition, unread)])

    def _answered_sql(self, condition: str, last_names: bool) -> tuple[bytearray, list[tuple[int, int]]]:
        """Returns a code for each zone, and the bytes of tests that weren't read.

        The columns are handed over that the library knows, and whose names stand in the condition.
        """
        columns = [it for it in self.columns if it.field is not None and is_name(it.name) and it.name in condition]
        handed = self._handed(columns)
        # The library takes no table without columns.
        return library.prune_sql(columns or [Column(unnamed(condition), DType.BOOL, True)], self.rows, handed, condition, last_names)

    def _spelled(self, predicate: Predicate) -> tuple[list[Column], list[str], str, list[str]]:
        """Returns the columns that a predicate names, the names that it gives them, its text, and the names of its opaque conditions."""
        columns = [self._column(name) for name in dict.fromkeys(predicate.names())]
        names = [f"c{place}" for place in range(len(columns))]
        spelled = dict(zip((column.name for column in columns), names))
        items = predicate.lowered(columns).prefix()
        places = [place for place, item in enumerate(items) if isinstance(item, Opaque)]
        unknown = [f"o{place}" for place in places]
        words: list[str | Predicate] = list(items)
        for place, name in zip(places, unknown):
            words[place] = f"col {name}"
        known = {column.name: column.physical for column in columns}
        text = " ".join(it if isinstance(it, str) else it._text(known, spelled.__getitem__) for it in words)
        # The library takes no table without columns.
        return columns, names, text, unknown if columns or unknown else ["o"]

    def _column(self, name: str) -> Column:
        if name not in self._places:
            raise PredicateError(f"the table has no column {name}")
        return self._places[name]

    def _handed(self, columns: Sequence[Column]) -> dict[tuple[str, Stat], Statistic]:
        """Returns what pruning reads of columns."""
        found = {}
        for column in columns:
            for stat in PRUNING:
                it = self.statistics.get((column.name, stat))
                if stat == Stat.NULL_COUNT and not column.nullable and column.dtype != DType.NULL:
                    it = without_nulls(self.rows, it)
                if it is not None:
                    found[column.name, stat] = it
        return found

    def merge(self, right: Footers) -> Footers:
        """Returns footers of zones that each are a zone of these followed by the zone of ``right`` at the same place.

        FooterError where the columns differ, the numbers of zones do, or a zone's rows leave 64 bits; Refused as of ``prune``.

        >>> footers = Footers.measure([Column("a", DType.I64)], [{"a": [1, 5]}, {"a": [7, 9]}])
        >>> list(footers.slice(0, 1).merge(footers.slice(1, 2)).rows)
        [4]
        """
        if self.columns != right.columns:
            raise FooterError("the footers are of tables with different columns")
        if len(self) != len(right):
            raise FooterError(f"{len(self)} zones and {len(right)} zones don't stand side by side")
        try:
            rows = array("Q", map(operator.add, self.rows, right.rows))
        except OverflowError as fault:
            raise FooterError("the rows of a merged zone leave 64 bits") from fault
        statistics: dict[tuple[str, Stat], Statistic] = {}
        for column in self.columns:
            stats = sorted({stat for side in (self, right) for name, stat in side.statistics if name == column.name})
            sides = [{stat: side._or_absent(column.name, stat) for stat in stats} for side in (self, right)]
            found = library.merge(column, len(self), *sides) if stats else {}
            statistics |= {(column.name, stat): it for stat, it in found.items()}
        return type(self)(self.columns, rows, statistics)

    def merged(self) -> Footers:
        """Returns the footers of all zones as one zone, merged from left to right in one call for each column; of no zones there are none.

        Each statistic is what merging each zone to those before it leaves. A sum that leaves its type on the way is absent, even if the sum of
        all would be in it. FooterError where the rows leave 64 bits; Refused as of ``prune``.

        >>> footers = Footers.measure([Column("a", DType.I64)], [{"a": [1, 5]}, {"a": [7, 9]}])
        >>> footers.merged().at(0)["a", Stat.MAX]
        (<Precision.EXACT: 1>, 9)
        """
        if not len(self):
            return self
        rows = sum(self.rows)
        if rows >= 2**64:
            raise FooterError("the rows of a merged zone leave 64 bits")
        statistics: dict[tuple[str, Stat], Statistic] = {}
        for column in self.columns:
            given = {stat: it for (name, stat), it in self.statistics.items() if name == column.name}
            found = library.merge_zones(column, len(self), given) if given else {}
            statistics |= {(column.name, stat): it for stat, it in found.items()}
        return type(self)(self.columns, array("Q", [rows]), statistics)

    def only(self, wanted: Sequence[Stat]) -> Footers:
        """Returns the footers with some of the statistics alone.

        >>> footers = Footers.measure([Column("a", DType.I64)], [{"a": [1, 5]}, {"a": [7, 9]}])
        >>> list(footers.only([Stat.MAX]).statistics)
        [('a', <Stat.MAX: 3>)]
        """
        return type(self)(self.columns, self.rows, {key: it for key, it in self.statistics.items() if key[1] in wanted})

    def take(self, zones: range) -> Footers:
        """Returns the footers of zones that ascend by one step, as a copy.

        >>> footers = Footers.measure([Column("a", DType.I64)], [{"a": [1, 5]}, {"a": [7, 9]}])
        >>> footers.take(range(1, 2)).at(0)["a", Stat.MIN][1]
        7
        """
        return type(self)(self.columns, self.rows[zones.start : zones.stop : zones.step], {key: it.take(zones) for key, it in self.statistics.items()})

    def explain(self, predicate: Predicate, normalize: bool = False) -> Explanation:
        """Returns why a zone is read: what each comparison of the predicate by itself tells of each zone, and what isn't known.

        ``normalize`` is taken and has no effect. Errors are those of ``prune``.

        >>> footers = Footers.measure([Column("a", DType.I64)], [{"a": [1, 5]}, {"a": [7, 9]}])
        >>> print(footers.explain(col("a") > 6))
        ("a" > 6)
        skipped: 1 zones, 2 rows
        whole: 1 zones, 2 rows
        to be read: 0 zones, 0 rows
        zone 0, 2 rows: skip
            ("a" > 6): skip
        zone 1, 2 rows: whole
            ("a" > 6): whole
        """
        return Explanation(self, predicate)

    def plot(self, column: str, predicate: Predicate, axes: Any = None) -> Any:
        """Draws each zone's bounds of a column as a bar: skipped, whole and zones to be read in their colours, and the values of the column that
        may satisfy the predicate as a band. Returns matplotlib's axes, by default new ones.

        ImportError where matplotlib isn't there; PredicateError where the table hasn't the column, and as of ``prune``.
        """
        from .plot import plot

        return plot(self, column, predicate, axes)

    def overlap(self, column: str) -> Overlap:
        """Returns in how many zones a value of a column may lie. FooterError where the table hasn't the column.

        >>> footers = Footers.measure([Column("a", DType.I64)], [{"a": [1, 5]}, {"a": [7, 9]}])
        >>> footers.overlap("a").most
        1
        """
        if column not in self._places:
            raise FooterError(f"the table has no column {column}")
        return overlap(self.statistics.get((column, Stat.MIN)), self.statistics.get((column, Stat.MAX)), len(self))

    def _bounds(self, column: str, zone: int) -> tuple[object, object] | None:
        least, greatest = (self.statistics.get((column, stat)) for stat in (Stat.MIN, Stat.MAX))
        if least is None or greatest is None or not (least.known[zone] and greatest.known[zone]):
            return None
        return least.values[zone], greatest.values[zone]

    def check(self, zone: int, chunk: Any) -> Untrue | None:
        """Returns the first thing told of a zone that isn't true of a chunk's values, or None where all is.

        The number of rows is told too, and compared first: ``Untrue(column, "rows")`` where the chunk has others. FooterError and ValueFault as of
        ``measure``; IndexError where there is no such zone.

        >>> footers = Footers.measure([Column("a", DType.I64)], [{"a": [1, 5]}, {"a": [7, 9]}])
        >>> footers.check(0, {"a": [1, 5]}), footers.only(PRUNING).check(0, {"a": [1, 6]})
        (None, Untrue(column='a', what=<Stat.MAX: 3>))
        """
        if not 0 <= zone < len(self):
            raise IndexError(f"zone {zone} of {len(self)}")
        for column, values, nulls in _chunk_columns(self.columns, chunk):
            told = {stat: it.slice(zone, zone + 1) for (name, stat), it in self.statistics.items() if name == column.name and it.known[zone]}
            fault = library.check(column, values, nulls, self.rows[zone], told)
            if fault is not None:
                return Untrue(column.name, fault)
        return None

    def slice(self, start: int, stop: int) -> Footers:
        """Returns the footers of the zones from one up to another.

        >>> footers = Footers.measure([Column("a", DType.I64)], [{"a": [1, 5]}, {"a": [7, 9]}])
        >>> len(footers.slice(0, 1))
        1
        """
        return type(self)(self.columns, self.rows[start:stop], {key: it.slice(start, stop) for key, it in self.statistics.items()})

    def shards(self, size: int) -> Iterator[Footers]:
        """Yields the footers in pieces of so many zones.

        >>> footers = Footers.measure([Column("a", DType.I64)], [{"a": [1, 5]}, {"a": [7, 9]}])
        >>> [len(shard) for shard in footers.shards(1)]
        [1, 1]
        """
        return (self.slice(start, min(start + size, len(self))) for start in range(0, len(self), size))

    @classmethod
    def joined(cls, pieces: Sequence[Footers]) -> Footers:
        """Returns the footers of pieces of one table, one piece behind the other. FooterError where their columns differ.

        >>> footers = Footers.measure([Column("a", DType.I64)], [{"a": [1, 5]}, {"a": [7, 9]}])
        >>> Footers.joined(list(footers.shards(1))) == footers
        True
        """
        if not pieces:
            raise FooterError("there is nothing to join")
        columns = pieces[0].columns
        if any(piece.columns != columns for piece in pieces):
            raise FooterError("the footers are of tables with different columns")
        keys = sorted({key for piece in pieces for key in piece.statistics})
        statistics = {(name, stat): joined_statistics([piece._or_absent(name, stat) for piece in pieces]) for name, stat in keys}
        return cls(columns, array("Q", b"".join(bytes(piece.rows) for piece in pieces)), statistics)

    def save(self, path: str | os.PathLike[str], note: str = "") -> None:
        """Writes the footers to one file, whole or not at all, with a note that ``load_with_note`` gives back.

        A file that was there keeps its mode; a new one has what the umask leaves. FooterError as of ``to_bytes``.

        >>> import tempfile
        >>> with tempfile.TemporaryDirectory() as folder:
        ...     Footers([Column("a", DType.I64)], [3]).save(folder + "/a.footers", "a note")
        ...     Footers.load_with_note(folder + "/a.footers")[1]
        'a note'
        """
        files.written(path, self.to_bytes(note))

    @classmethod
    def load(cls, path: str | os.PathLike[str]) -> Footers:
        """Reads footers from a file. FooterError where it isn't one, is of another version, is cut short or was changed, whatever its bytes are.

        >>> import tempfile
        >>> with tempfile.TemporaryDirectory() as folder:
        ...     Footers([Column("a", DType.I64)], [3]).save(folder + "/a.footers")
        ...     list(Footers.load(folder + "/a.footers").rows)
        [3]
        """
        return cls.load_with_note(path)[0]

    @classmethod
    def load_with_note(cls, path: str | os.PathLike[str]) -> tuple[Footers, str]:
        """Reads footers and the note that was kept with them. FooterError as of ``load``.

        >>> import tempfile
        >>> with tempfile.TemporaryDirectory() as folder:
        ...     Footers([], []).save(folder + "/a.footers", "a note")
        ...     Footers.load_with_note(folder + "/a.footers")[1]
        'a note'
        """
        with open(path, "rb") as file:
            return cls.from_bytes(file.read())

    def to_bytes(self, note: str = "") -> bytes:
        """Returns the footers as the bytes of their file, which docs/FOOTERS.md describes.

        FooterError where an array or a text is one that no file may hold, and so couldn't be read again.

        >>> Footers([], []).to_bytes()[:20]
        b'foalmorrow footers 1'
        """
        return files.encoded(self.columns, self.rows, self.statistics, note)

    @classmethod
    def from_bytes(cls, data: bytes) -> tuple[Footers, str]:
        """Returns the footers that these bytes are, and their note. FooterError as of ``load``.

        >>> Footers.from_bytes(Footers([], []).to_bytes("a note"))[1]
        'a note'
        """
        columns, rows, statistics, note = files.decoded(bytes(data))
        return cls(columns, rows, statistics), note

    def __eq__(self, other: object) -> bool:
        """Tells whether both know the same of the same zones."""
        return (
            isinstance(other, Footers)
            and self.columns == other.columns
            and self.rows == other.rows
            and all(self._stored_at(zone) == other._stored_at(zone) for zone in range(len(self)))
        )

    __hash__ = None  # type: ignore[assignment]

    def _or_absent(self, name: str, stat: Stat) -> Statistic:
        found = self.statistics.get((name, stat))
        return found if found is not None else absent(stat, self._places[name].dtype, len(self))


def _without_nan(logical: Any, values: Values, marks: bytes) -> bytes:
    """Returns how least values are known, without those that are NaN."""
    numbers = values.data.cast("i" if logical.dtype == DType.I32 else "q")
    return bytes(Precision.ABSENT if number == logical.width.nan else code for number, code in zip(numbers, marks))


def _rows(rows: object) -> array[int]:
    if isinstance(rows, array) and rows.typecode == "Q":
        return rows
    found = read(DType.U64, rows, Where("rows", unit="zone"))
    if found.nulls is not None:
        raise ValueFault(f"rows, zone {found.nulls.index(1)}: null is no number of rows; expected a whole number", row=found.nulls.index(1))
    return array("Q", bytes(found.values.data))


def _known(given: object, count: int, where: Where) -> bytes:
    """Reads how the values of a statistic are known: one code for all zones, or one for each."""
    if isinstance(given, int) and not isinstance(given, bool):
        if given not in tuple(Precision):
            raise where.fault(f"{shown(given)} doesn't say how a value is known; expected a Precision")
        return bytes([given]) * count
    found = read(DType.U8, given, Where(f"{where.words}, how it is known", where.column, "zone"))
    marks = bytes(found.values.data)
    for zone, code in enumerate(marks if found.nulls is not None or marks.translate(None, bytes(list(Precision))) else b""):
        if code > Precision.INEXACT or (found.nulls is not None and found.nulls[zone]):
            raise where.fault(f"{code} doesn't say how a value is known; expected a Precision", zone)
    if len(marks) != count:
        raise FooterError(f"{where.words}: {count} values, of which {len(marks)} are said to be known or not")
    return marks


def _chunk_columns(columns: Sequence[Column], chunk: Any) -> Iterator[tuple[Column, Any, bytes | None]]:
    """Yields each column with its values in a chunk and which of them are null. FooterError where one is missing or longer than another.

    Arrays of Arrow may be lent, as ``Packed`` values, until the next column is asked for.
    """
    from . import arrow

    first: tuple[str, int] | None = None
    with ExitStack() as held:
        table = None if hasattr(chunk, "keys") else _table_columns(columns, chunk, held)
        for column in columns:
            if table is None and column.name not in chunk.keys():
                raise FooterError(f"the chunk has no column {column.name}")
            with ExitStack() as lent:
                given = chunk[column.name] if table is None else table[column.name]
                if is_arrow(given):
                    given = lent.enter_context(arrow.lent(column.type, given, Where(f"column {column.name}", column.name)))
                found = read_column(column, given)
                first = first or (column.name, len(found.values))
                if len(found.values) != first[1]:
                    raise FooterError(f"the chunk's column {column.name} has {len(found.values)} rows, and column {first[0]} has {first[1]}")
                yield column, found.values, found.nulls


def _table_columns(columns: Sequence[Column], chunk: Any, held: ExitStack) -> Mapping[str, Read]:
    """Reads the columns of a table of Arrow, or of a frame of the interchange protocol; those that are lent are held. FooterError where one is missing."""
    from . import arrow, interchange

    try:
        if isinstance(chunk, arrow.Batch):
            return chunk.columns(columns)
        if arrow.is_table(chunk):
            return held.enter_context(arrow.columns_lent(columns, chunk))
        if hasattr(chunk, "__dataframe__"):
            return interchange.columns_of(columns, chunk)
    except KeyError as missing:
        raise FooterError(f"the chunk has no column {missing.args[0]}") from None
    raise FooterError(f"a chunk of type {type(chunk).__name__} names no columns; expected a dict of columns, a frame or a table")


class _Building:
    """Footers that grow by a chunk at a time."""

    def __init__(self, columns: Sequence[Column], wanted: Sequence[Stat]):
        self.columns = tuple(columns)
        self.wanted = tuple(wanted)
        self.rows = array("Q")
        self.told: dict[tuple[str, Stat], list[Statistic]] = {}

    def add(self, chunk: Any) -> None:
        rows = 0
        for column, values, nulls in _chunk_columns(self.columns, chunk):
            rows = len(values)
            wanted = [stat for stat in self.wanted if stat_dtype(stat, column.type) is not None]
            measured = library.measure(column, values, nulls, wanted)
            for stat in wanted:
                self.told.setdefault((column.name, stat), []).append(measured.get(stat) or absent(stat, column.dtype, 1))
        self.rows.append(rows)

    def footers(self) -> Footers:
        return Footers(self.columns, self.rows, {key: joined_statistics(told) for key, told in self.told.items()})
