# SPDX-License-Identifier: Apache-2.0
"""ClickHouse: its sparse primary index as footers, a zone a granule, and footers of columns that it keeps nothing of, a zone a part.

Tried with version 18.16.1, as Debian 12 has it.

The server keeps of each granule the key of its first row, and of each part the least and greatest value of the partition key's columns.
Of the other columns it keeps nothing: their footers are measured here part by part.
"""
from __future__ import annotations

import http.client as http_client
import json
import pathlib
import re
import struct
import urllib.error
import urllib.parse
import urllib.request
from array import array
from bisect import bisect_right
from collections.abc import Callable, Iterator, Sequence
from dataclasses import dataclass, field
from itertools import accumulate
from typing import Any

from .answers import Answers
from .arrays import Values
from .footers import ALL, FooterError, Footers, Nullable
from .kinds import Answer, Column, DType, Stat
from .library import Refused
from .predicate import Dialect, Predicate, PredicateError, sql_literal
from .sql import SqlError
from .tables import Bound, Zones

#: Asks the server, and answers its bytes.
Query = Callable[[str], bytes]

_TYPES = {f"{'U' * (not signed)}Int{bits}": DType[f"{'I' if signed else 'U'}{bits}"] for signed in (False, True) for bits in (8, 16, 32, 64)}
_TYPES |= {"Date": DType.U16, "String": DType.UTF8}
_CODES = {DType.U8: "B", DType.U16: "H", DType.U32: "I", DType.U64: "Q", DType.I8: "b", DType.I16: "h", DType.I32: "i", DType.I64: "q"}


class ClickHouseError(ValueError):
    """A table that isn't read: of another engine, with a key or a column that has no counterpart, or with files of another form; or what the
    server refused."""


@dataclass(frozen=True)
class Spelling(Dialect):
    """How the server spells a condition: a backslash in a text is doubled, and a day of a Date isn't a number.

    Its AND and OR take null for false here and there, as ``NOT (a OR NULL)``, so conditions have no NOT before them.
    """

    dates: frozenset[str] = frozenset()
    has_null = False

    def name(self, column: Column) -> str:
        return _name(column.name)

    def literal(self, column: Column, value: bool | int | str | bytes | None) -> str:
        if isinstance(value, str):
            sql_literal(column, value)
            return _text(value)
        spelled = sql_literal(column, value)
        return f"toDate({spelled})" if column.name in self.dates and value is not None else spelled

    def like(self, column: Column, pattern: str, negated: bool, ignore_case: bool) -> str:
        name, same = self.name(column), _pattern(column, pattern)
        if ignore_case:
            name, same = f"lower({name})", "".join(it.lower() if it.isascii() else it for it in same)
        return f"({name} {'NOT ' * negated}LIKE {self.literal(column, same)})"


#: The texts, the quoted names and the words of a condition, and where parentheses end.
_TOKENS = re.compile(r"""'(?:[^']|'')*'|"(?:[^"]|"")*"|\w+|\)""")
#: What NOT negates as a part of a test.
_NEGATED = frozenset("IN LIKE ILIKE SIMILAR BETWEEN NULL".split())


class ServedFooters(Footers):
    """Footers of a table of the server, by which conditions in SQL are answered as the server means them.

    IN is never null there, and AND and OR take null for false here and there. So a test with IN isn't read, and a condition isn't at all in which NOT or
    IS may stand above AND or OR.
    """

    def _answered_sql(self, condition: str, last_names: bool) -> tuple[bytearray, list[tuple[int, int]]]:
        found = super()._answered_sql(condition, last_names)
        tokens = list(_TOKENS.finditer(condition))
        words = [it[0].upper() for it in tokens]
        unread = bytearray(len(self)), [(0, len(condition.encode()))]
        if not {"AND", "OR"}.isdisjoint(words) and any(map(_is_above, words, [*words[1:], ""])):
            return unread
        places = [it.start() for it, word in zip(tokens, words) if word == "IN"]
        if not places:
            return found
        # ILIKE binds as IN does, and isn't read.
        pieces = [condition[start:end] for start, end in zip([0, *(place + 2 for place in places)], [*places, len(condition)])]
        try:
            codes, spans = super()._answered_sql("ILIKE".join(pieces), last_names)
        except SqlError:
            return unread
        ends = list(accumulate((len(piece.encode()) + 5 for piece in pieces[:-1])))

        def moved(at: int) -> int:
            return at - 3 * bisect_right(ends, at)

        return codes, [(moved(start), moved(end)) for start, end in spans]


def _is_above(word: str, following: str) -> bool:
    """Tells whether a word may stand above AND or OR: NOT before a condition, and IS behind one in parentheses."""
    return (word == "NOT" and following not in _NEGATED) or (word == ")" and following in ("IS", "ISNULL", "NOTNULL"))


def _served(footers: Footers) -> ServedFooters:
    return ServedFooters(footers.columns, footers.rows, footers.statistics)


def _pattern(column: Column, pattern: str) -> str:
    """The same pattern with a backslash before ``%``, ``_`` and itself alone: before other characters the server takes it as one of the text."""
    pieces = re.findall(r"\\.|[^\\]|\\$", pattern, flags=re.DOTALL)
    if pieces and pieces[-1] == "\\":
        raise PredicateError(f"column {column.name}: the pattern {pattern!r} ends with a backslash")
    return "".join(it[1] if len(it) == 2 and it[1] not in "%_\\" else it for it in pieces)


def _text(value: str) -> str:
    return "'" + value.replace("\\", "\\\\").replace("'", "\\'") + "'"


def _name(value: str) -> str:
    return "`" + value.replace("\\", "\\\\").replace("`", "\\`") + "`"


def http(url: str, timeout: float = 60) -> Query:
    """Asks over the server's HTTP interface. ConnectionError where it isn't there, ClickHouseError where it refuses."""

    def query(sql: str) -> bytes:
        try:
            # Without the setting a WHERE becomes a PREWHERE, and the rows that were read count something else.
            settings = urllib.parse.urlencode({"optimize_move_to_prewhere": 0, "max_threads": 1})
            with urllib.request.urlopen(f"{url}/?{settings}", sql.encode(), timeout) as answer:
                found: bytes = answer.read()
                return found
        except urllib.error.HTTPError as fault:
            raise ClickHouseError(fault.read().decode(errors="replace").strip()) from fault
        except (OSError, http_client.HTTPException) as fault:
            raise ConnectionError(f"the server at {url} doesn't answer: {fault}") from fault

    return query


@dataclass(frozen=True)
class Counted:
    """How many rows satisfied a condition, and how many the server read for it."""

    rows: int
    read: int


def count(query: Query, table: str, condition: str) -> Counted:
    """Counts the rows of a table that satisfy a condition of SQL."""
    told = json.loads(query(f"SELECT count() FROM {table} WHERE {condition} FORMAT JSON"))
    return Counted(int(told["data"][0]["count()"]), int(told["statistics"]["rows_read"]))


@dataclass(frozen=True)
class Granules:
    """The granules of a table's parts as zones: the part of each, and the bounds of the key's columns."""

    parts: tuple[str, ...]
    footers: Footers


def granules(query: Query, database: str, table: str) -> Granules:
    """Reads the primary index and the partition's bounds from the files of a table's active parts.

    Rows ascend by the whole key. So a column of it has bounds in a granule where the columns before it are the same at its mark and at the next.

    ClickHouseError where the table isn't of the MergeTree engine, its key has an expression, a column that may be null, or none of a type with a
    counterpart, or a part has no plain primary.idx or granules of different sizes.
    """
    place = f"{database}.{table}"
    key = _key(query, database, table)
    size = _granularity(query, database, table)
    names: list[str] = []
    zones = Zones(it.column for it in key if it.column is not None)
    for name, path, count_of in _parts(query, database, table):
        marks, bounds = _files_of(pathlib.Path(path), key, place)
        if len(marks) != -(-count_of // size):
            words = f"{len(marks)} marks for {count_of} rows, so its granules aren't of {size} rows each (settings index_granularity_bytes, write_final_mark)"
            raise ClickHouseError(f"{place}: the part {name} has {words}")
        for at, mark in enumerate(marks):
            names.append(name)
            zones.begin(min(size, count_of - at * size))
            _tell(zones, key, mark, marks[at + 1] if at + 1 < len(marks) else None, bounds)
    return Granules(tuple(names), _served(zones.footers()))


@dataclass(frozen=True)
class _KeyColumn:
    """A column of the primary key: how many bytes a value takes in a mark, None for texts, and the column where its values are read."""

    name: str
    width: int | None
    column: Column | None

    def value(self, piece: bytes) -> int | bytes:
        """Returns a value of a mark as one of the physical type."""
        assert self.column is not None
        return piece if self.column.dtype.has_ends else int.from_bytes(piece, "little", signed=self.column.dtype >= DType.I8)


#: A mark: the bytes of each of the key's columns.
_Mark = list[bytes]


def _tell(zones: Zones, key: Sequence[_KeyColumn], mark: _Mark, following: _Mark | None, bounds: dict[str, tuple[int, int]]) -> None:
    """Tells the bounds of a granule from its mark and the next one."""
    is_sorted = True
    for at, it in enumerate(key):
        if it.column is not None:
            zones.nulls(it.name, 0)
            low, high = bounds.get(it.name, (None, None))
            least = Bound(it.value(mark[at]), True) if is_sorted else None if low is None else Bound(low, False)
            top = it.value(following[at]) if is_sorted and following is not None else high
            zones.bounds(it.name, least, None if top is None else Bound(top, False))
        is_sorted = is_sorted and following is not None and mark[at] == following[at]


_WIDTHS = {"Float32": 4, "Float64": 8, "DateTime": 4, "UUID": 16, "Enum8": 1, "Enum16": 2}


def _width(kind: str) -> int | None:
    """Returns how many bytes a value of a type takes in a mark; None where it isn't known."""
    if kind in _TYPES:
        return _TYPES[kind].width
    inner = re.fullmatch(r"(\w+)(?:\((.*)\))?", kind, re.DOTALL)
    if inner is None:
        return None
    if inner[1] == "FixedString" and (inner[2] or "").isdecimal():
        return int(inner[2])
    return _WIDTHS.get(inner[1])


def _key(query: Query, database: str, table: str) -> list[_KeyColumn]:
    place = f"{database}.{table}"
    where = f"database = {_text(database)} AND name = {_text(table)}"
    told = query(f"SELECT engine, primary_key FROM system.tables WHERE {where} FORMAT TabSeparated").decode()
    if not told.strip():
        raise ClickHouseError(f"there is no table {place}")
    engine, key = told.rstrip("\n").split("\t")
    if not engine.endswith("MergeTree"):
        raise ClickHouseError(f"{place} is of the engine {engine}, not MergeTree")
    kinds, columns = _kinds(query, database, table), {it.name: it for it in columns_of(query, database, table)}
    found = [_key_column(name.strip(), kinds, columns, place) for name in key.split(",")]
    if all(it.column is None for it in found):
        raise ClickHouseError(f"{place}: no column of the key {key} has a counterpart")
    return found


def _key_column(name: str, kinds: dict[str, str], columns: dict[str, Column], place: str) -> _KeyColumn:
    if name not in kinds:
        raise ClickHouseError(f"{place}: {name} in the key is no column")
    column, width = columns.get(name), _width(kinds[name])
    if kinds[name].startswith("Nullable("):
        raise ClickHouseError(f"{place}: the key's column {name} may be null (setting allow_nullable_key)")
    if width is None:
        raise ClickHouseError(f"{place}: the key's column {name} is of the type {kinds[name]}, of which it isn't known how many bytes a value takes")
    return _KeyColumn(name, None if kinds[name] == "String" else width, column)


def _kinds(query: Query, database: str, table: str) -> dict[str, str]:
    """Returns the types of a table's columns, as the server names them."""
    told = query(f"SELECT name, type FROM system.columns WHERE database = {_text(database)} AND table = {_text(table)} FORMAT TabSeparatedRaw").decode()
    return dict(line.split("\t") for line in told.splitlines())


def spelling(query: Query, database: str, table: str) -> Spelling:
    """How conditions on a table's columns are spelled."""
    where = f"database = {_text(database)} AND table = {_text(table)} AND type LIKE '%Date%'"
    told = query(f"SELECT name FROM system.columns WHERE {where} FORMAT TabSeparatedRaw")
    return Spelling(frozenset(told.decode().splitlines()))


def columns_of(query: Query, database: str, table: str) -> list[Column]:
    """The columns of a table that have a counterpart."""
    told = query(f"SELECT name, type FROM system.columns WHERE database = {_text(database)} AND table = {_text(table)} FORMAT TabSeparated").decode()
    found = []
    for line in told.splitlines():
        name, kind = line.split("\t")
        inner = re.fullmatch(r"Nullable\((.*)\)", kind)
        dtype = _TYPES.get(inner.group(1) if inner else kind)
        if dtype is not None:
            found.append(Column(name, dtype, inner is not None))
    return found


def _granularity(query: Query, database: str, table: str) -> int:
    where = f"database = {_text(database)} AND name = {_text(table)}"
    told = query(f"SELECT create_table_query FROM system.tables WHERE {where} FORMAT TabSeparatedRaw").decode()
    found = re.search(r"index_granularity = (\d+)", told)
    if found is None:
        raise ClickHouseError(f"{database}.{table}: its granularity isn't told")
    return int(found.group(1))


def _parts(query: Query, database: str, table: str) -> Iterator[tuple[str, str, int]]:
    for name, path, rows, _, _ in _part_lines(query, database, table):
        yield name, path, int(rows)


def _part_lines(query: Query, database: str, table: str) -> list[list[str]]:
    told = query(
        "SELECT name, path, rows, bytes_on_disk, toUInt32(modification_time) FROM system.parts "
        f"WHERE database = {_text(database)} AND table = {_text(table)} AND active ORDER BY name FORMAT TabSeparatedRaw"
    ).decode()
    return [line.split("\t") for line in told.splitlines()]


def _files_of(folder: pathlib.Path, key: Sequence[_KeyColumn], place: str) -> tuple[list[_Mark], dict[str, tuple[int, int]]]:
    """The marks of a part, and the partition's bounds of the key's columns that it has."""
    try:
        bounds = {it.name: found for it in key if it.column is not None and (found := _partition_bounds(folder, it.column, place)) is not None}
        return _marks(folder, key, place), bounds
    except OSError as fault:
        raise ClickHouseError(f"{place}: the part {folder.name} can't be read, or was merged meanwhile: {fault}") from fault


def _marks(folder: pathlib.Path, key: Sequence[_KeyColumn], place: str) -> list[_Mark]:
    """The key at the first row of each granule."""
    index = folder / "primary.idx"
    if not index.exists():
        raise ClickHouseError(f"{place}: the part {folder.name} has no plain primary.idx (setting compress_primary_key)")
    if any(it.suffix in (".mrk2", ".mrk3", ".cmrk2", ".cmrk3", ".mrk4", ".cmrk4") for it in folder.iterdir()):
        raise ClickHouseError(f"{place}: the granules of the part {folder.name} may be of different sizes (setting index_granularity_bytes)")
    data, at, found = index.read_bytes(), 0, []
    short = f"{place}: primary.idx of the part {folder.name} is cut short"
    while at < len(data):
        mark: _Mark = []
        for it in key:
            length, at = (it.width, at) if it.width is not None else _varint(data, at, short)
            piece, at = data[at : at + length], at + length
            if len(piece) < length:
                raise ClickHouseError(short)
            mark.append(piece)
        found.append(mark)
    _check_texts(found, key, place, folder.name)
    return found


def _check_texts(marks: list[_Mark], key: Sequence[_KeyColumn], place: str, part: str) -> None:
    for at, it in enumerate(key):
        if it.column is not None and it.column.dtype.has_ends:
            try:
                b"\0".join(mark[at] for mark in marks).decode()
            except UnicodeDecodeError as fault:
                raise ClickHouseError(f"{place}: a key of the part {part} isn't UTF-8") from fault


def _varint(data: bytes, at: int, short: str) -> tuple[int, int]:
    """Returns a length, and the place behind it."""
    length, shift = 0, 0
    while True:
        if at >= len(data) or shift > 63:
            raise ClickHouseError(short)
        byte = data[at]
        at, length, shift = at + 1, length | (byte & 127) << shift, shift + 7
        if byte < 128:
            return length, at


def _partition_bounds(folder: pathlib.Path, column: Column, place: str) -> tuple[int, int] | None:
    """The least and the greatest value of the column in the part, where it is one of the partition key's."""
    file = folder / f"minmax_{column.name}.idx"
    if not file.exists() or column.dtype.has_ends:
        return None
    try:
        least, greatest = struct.unpack("<2" + _CODES[column.dtype], file.read_bytes())
    except struct.error as fault:
        raise ClickHouseError(f"{place}: {file.name} of the part {folder.name} is cut short") from fault
    return least, greatest


#: How often parts may be merged while they are measured.
_TRIES = 5


@dataclass
class PartFooters:
    """Footers of some columns of a table, a zone a part, by the parts' names. A part's rows never change, and a merge makes a new name."""

    database: str
    table: str
    columns: tuple[Column, ...]
    parts: list[str] = field(default_factory=list)
    footers: Footers | None = None
    #: Of each part its rows, its bytes and the time of its change, by which a part of another table with this name is told from it.
    stamps: list[tuple[int, int, int]] = field(default_factory=list)

    @classmethod
    def of(cls, query: Query, database: str, table: str, names: Sequence[str]) -> PartFooters:
        """Those of columns by their names, of no part yet. ClickHouseError where a column isn't there or has no counterpart."""
        known = {column.name: column for column in columns_of(query, database, table)}
        missing = [name for name in names if name not in known]
        if missing:
            raise ClickHouseError(f"{database}.{table}: the column {missing[0]} isn't there or has no counterpart")
        return cls(database, table, tuple(known[name] for name in names))

    def refresh(self, query: Query, wanted: Sequence[Stat] = ALL) -> tuple[list[str], list[str]]:
        """Measures the parts that aren't known yet and forgets those that are gone. Answers the names of both.

        ClickHouseError where the columns are others than they were, or parts are merged faster than they are measured.
        """
        types = {column.name: column for column in columns_of(query, self.database, self.table)}
        changed = [column.name for column in self.columns if types.get(column.name) != column]
        if changed:
            raise ClickHouseError(f"{self.database}.{self.table}: the column {changed[0]} isn't there any more, or is of another type")
        for _ in range(_TRIES):
            active = {name: (int(rows), int(size), int(time)) for name, _, rows, size, time in _part_lines(query, self.database, self.table)}
            known = {name: place for place, name in enumerate(self.parts) if active.get(name) == self.stamps[place]}
            fresh, gone = [name for name in active if name not in known], [name for name in self.parts if name not in known]
            try:
                measured = [Footers.measure(self.columns, [self._chunk(query, name, active[name][0])], wanted) for name in fresh]
            except _Merged:
                continue
            except Refused as fault:
                raise ClickHouseError(f"{self.database}.{self.table}: {fault}") from fault
            pieces = [self.footers.slice(place, place + 1) for place in known.values()] if self.footers is not None else []
            self.parts = [*known, *fresh]
            self.stamps = [active[name] for name in self.parts]
            self.footers = ServedFooters.joined(pieces + measured) if pieces or measured else None
            return fresh, gone
        raise ClickHouseError(f"{self.database}.{self.table}: its parts are merged faster than they are measured")

    def prune(self, predicate: Predicate | str) -> Answers:
        """What to do with each part, in the order of ``parts``, under a predicate or a condition in SQL, as ``ServedFooters`` reads it."""
        if self.footers is None:
            return Answers(b"")
        return self.footers.prune(predicate)

    def condition(self, query: Query, predicate: Predicate) -> str:
        """The predicate as a condition of SQL that leaves out the parts that are ruled out.

        It names the parts that need not be read and not those that have to be, so that a part that came since, also by a merge, is read.
        ``refresh`` first, and don't use it with FINAL, where rows of one part hang on those of another, or where the query gives a name of a
        column to another expression.
        """
        text = predicate.sql(self.columns, spelling(query, self.database, self.table))
        skipped = [_text(name) for name, answer in zip(self.parts, self.prune(predicate)) if answer == Answer.SKIP]
        return f"_part NOT IN ({', '.join(skipped)}) AND {text}" if skipped else text

    def _chunk(self, query: Query, part: str, rows: int) -> dict[str, object]:
        return {column.name: self._column(query, part, column, rows) for column in self.columns}

    def _column(self, query: Query, part: str, column: Column, rows: int) -> object:
        source = f"FROM {_name(self.database)}.{_name(self.table)} WHERE _part = {_text(part)}"

        def read(what: str, width: int) -> bytes:
            found = query(f"SELECT {what} {source} FORMAT RowBinary")
            if len(found) != rows * width:
                raise _Merged
            return found

        name = _name(column.name)
        there = f"assumeNotNull({name})" if column.nullable else name
        if column.dtype.has_ends:
            lengths = array("Q", read(f"toUInt64(length({there}))", 8))
            heap = query(f"SELECT arrayStringConcat(groupArray({there})) {source} FORMAT TabSeparatedRaw").removesuffix(b"\n")
            if sum(lengths) != len(heap):
                raise _Merged
            values: object = Values.of_heap(column.dtype, heap, array("Q", accumulate(lengths)))
        else:
            values = array(_CODES[column.dtype], read(there, column.dtype.width))
        return Nullable(values, read(f"isNull({name})", 1)) if column.nullable else values

    def save(self, path: str) -> None:
        """Keeps the footers in one file, with the table's name and the parts', whole or not at all."""
        if self.footers is None:
            raise FooterError("there is nothing to keep yet")
        self.footers.save(path, json.dumps({"database": self.database, "table": self.table, "parts": self.parts, "stamps": self.stamps}))

    @classmethod
    def load(cls, path: str, database: str, table: str) -> PartFooters:
        """Reads them back. FooterError where the file is another table's, or as of ``Footers.load``."""
        footers, note = Footers.load_with_note(path)
        told = _told(note)
        if (told.get("database"), told.get("table")) != (database, table):
            raise FooterError(f"{path} has the footers of {told.get('database')}.{told.get('table')}, not of {database}.{table}")
        try:
            parts, stamps = told["parts"], [(rows, size, time) for rows, size, time in told["stamps"]]
        except (KeyError, TypeError, ValueError) as fault:
            raise FooterError(f"{path} doesn't say which parts it is of") from fault
        numbers = [number for stamp in stamps for number in stamp]
        if not (isinstance(parts, list) and {str} >= set(map(type, parts)) and {int} >= set(map(type, numbers))):
            raise FooterError(f"{path} doesn't say which parts it is of")
        if not len(parts) == len(stamps) == len(footers):
            raise FooterError(f"{path} has {len(footers)} footers for {len(parts)} parts")
        return cls(database, table, footers.columns, parts, _served(footers), stamps)


class _Merged(Exception):
    """A part isn't there any more, since it was merged with others."""


def _told(note: str) -> dict[str, Any]:
    try:
        told = json.loads(note or "{}")
    except (ValueError, RecursionError):
        told = {}
    return told if isinstance(told, dict) else {}
