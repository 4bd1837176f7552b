# SPDX-License-Identifier: Apache-2.0
"""PostgreSQL's BRIN indexes as footers: a zone a range of pages.

What a BRIN index keeps of a range are a least and a greatest value of each column and whether there are nulls. They were true when
they were written and rows that were deleted since don't shrink them, so both are inexact. How many rows a range has isn't kept.

A column of dates, timestamps or numerics may have infinity or NaN, which no number stands for. A comparison with a literal that isn't between
the least and the greatest number of the type is carried along as unknown, and such footers are kept in no file.

``read`` and ``select`` belong into one ``session``: rows that others write meanwhile widen ranges that were read already.
"""
from __future__ import annotations

import contextlib
import json
import os
import re
import subprocess
import uuid
from collections.abc import Callable, Iterator, Sequence
from dataclasses import dataclass, field
from typing import Any

from .footers import Footers
from .instants import days_of
from .kinds import Column, DType, Logical, Stat
from .predicate import Dialect, Predicate
from .tables import Zones
from .types import Date, Decimal, Timestamp, Unmapped, Uuid

#: Asks the server, and answers rows of texts, None being null.
Query = Callable[[str], list[list[str | None]]]


class _Open:
    """A type of the server with values that have no number here. The library's SQL doesn't know it: it would take a literal past the numbers for one
    that no value reaches.
    """

    is_open = True

    @property
    def field(self) -> None:
        return None


@dataclass(frozen=True)
class _Date(_Open, Date):
    """A date, or infinity."""


@dataclass(frozen=True)
class _Timestamp(_Open, Timestamp):
    """An instant, infinity, or an instant of the last 29 years that the server has, which have no number here."""


@dataclass(frozen=True)
class _Decimal(_Open, Decimal):
    """A decimal number, or NaN."""


_TYPES: dict[str, DType | Logical] = {"smallint": DType.I16, "integer": DType.I32, "bigint": DType.I64, "bytea": DType.BINARY}
_TYPES |= {"text": DType.UTF8, "character varying": DType.UTF8, "date": _Date(), "uuid": Uuid()}
_TYPES |= {"timestamp without time zone": _Timestamp("us"), "timestamp with time zone": _Timestamp("us", "UTC")}
_GREATEST_TEXT = "\U0010ffff" * 16
#: How many runs of pages one statement asks for.
_RUNS = 200


class Postgres(Dialect):
    """How PostgreSQL spells values: a UUID as its 36 characters."""

    def literal(self, column: Column, value: Any) -> str:
        spelled = super().literal(column, value)
        found = column.logical.stored(value) if isinstance(column.logical, Uuid) else None
        return f"'{uuid.UUID(bytes=found)}'" if isinstance(found, bytes) else spelled


#: For ``Predicate.sql``.
POSTGRES = Postgres()


class BrinError(ValueError):
    """What isn't read: an index of another kind, or without a column that has bounds; or what the server refused."""


@dataclass(frozen=True)
class Brin:
    """A BRIN index as it was read: the footers of its table's ranges of pages."""

    index: str
    table: str
    pages_per_range: int
    pages: int
    footers: Footers
    #: The transaction that it was read in.
    moment: str = ""

    def pages_of(self, zone: int) -> tuple[int, int]:
        """The pages of a zone: the first, and the one behind the last."""
        start = zone * self.pages_per_range
        return start, min(start + self.pages_per_range, self.pages)


@dataclass(frozen=True)
class Selected:
    """The rows that satisfy a predicate, texts as the server writes them and None for null, and how many pages were read for them."""

    rows: list[list[str | None]]
    pages: int


_ESCAPES = {b"b": b"\b", b"f": b"\f", b"n": b"\n", b"r": b"\r", b"t": b"\t", b"v": b"\v"}


def _client(folder: str, database: str, user: str | None) -> subprocess.Popen[bytes]:
    words = ["psql", "-X", "-q", "-A", "-t", "-v", "ON_ERROR_STOP=1", "-h", folder, "-d", database, *(["-U", user] if user else [])]
    environment = {**os.environ, "PGCLIENTENCODING": "UTF8", "PGDATESTYLE": "ISO, YMD", "PGTZ": "UTC"}
    try:
        return subprocess.Popen(words, stdin=subprocess.PIPE, stdout=subprocess.PIPE, stderr=subprocess.PIPE, env=environment)
    except FileNotFoundError as fault:
        raise BrinError("PostgreSQL's client psql isn't installed (Debian: postgresql-client)") from fault


def _spoken(sql: str) -> bytes:
    """A statement as it is sent: what a SELECT answers comes in the text form of COPY, in which no value can be taken for a separator."""
    return (f"COPY ({sql}) TO STDOUT;\n" if sql.lstrip()[:6].upper() == "SELECT" else f"{sql};\n").encode()


def _rows(sql: str, answer: bytes) -> list[list[str | None]]:
    if sql.lstrip()[:6].upper() != "SELECT":
        return [[answer.decode()]] if answer.strip() else []
    return [[_cell(cell) for cell in line.split(b"\t")] for line in answer.split(b"\n")[:-1]]


def _cell(cell: bytes) -> str | None:
    if b"\\" not in cell:
        return cell.decode()
    if cell == b"\\N":
        return None
    return re.sub(rb"\\(.)", lambda found: _ESCAPES.get(found[1], found[1]), cell, flags=re.DOTALL).decode()


def psql(folder: str, database: str = "postgres", user: str | None = None) -> Query:
    """Asks by PostgreSQL's own client over the socket in a folder, each time anew. Instants are written in UTC and as ISO 8601.

    ConnectionError where the server doesn't answer, BrinError where it refuses.
    """

    def query(sql: str) -> list[list[str | None]]:
        client = _client(folder, database, user)
        answer, said = client.communicate(_spoken(sql))
        if client.returncode:
            raise _fault(client.returncode, said)
        return _rows(sql, answer)

    return query


def _fault(status: int, said: bytes) -> Exception:
    text = said.decode(errors="replace").strip()
    # psql ends with 3 where a statement was refused, and with 2 where there is no connection, or none any more.
    return BrinError(text) if status == 3 else ConnectionError(text or "the server doesn't answer")


@contextlib.contextmanager
def session(folder: str, database: str = "postgres", user: str | None = None) -> Iterator[Query]:
    """Asks in one transaction that reads alone, of the level REPEATABLE READ. Errors are those of ``psql``; after one the session is over."""
    client = _client(folder, database, user)
    mark = uuid.uuid4().hex.encode() + b"\n"
    assert client.stdin is not None and client.stdout is not None and client.stderr is not None
    to, answers, said = client.stdin, client.stdout, client.stderr

    def query(sql: str) -> list[list[str | None]]:
        lines: list[bytes] = []
        with contextlib.suppress(BrokenPipeError):
            to.write(_spoken(sql) + b"\\echo " + mark)
            to.flush()
            for line in answers:
                if line == mark:
                    return _rows(sql, b"".join(lines))
                lines.append(line)
        raise _fault(client.wait(), said.read())

    try:
        query("BEGIN ISOLATION LEVEL REPEATABLE READ READ ONLY")
        yield query
    finally:
        with contextlib.suppress(BrokenPipeError):
            to.close()
        client.wait()
        answers.close()
        said.close()


def read(query: Query, index: str) -> Brin:
    """Reads a BRIN index by pageinspect.

    A column has no bounds where it has an operator class that keeps no least and greatest value, a type without a counterpart, or texts of a
    collation that isn't C or in another encoding than UTF-8. An expression is left out.

    BrinError where the index isn't BRIN, is partial or not valid, or no column of it has bounds; or where the session writes dates otherwise
    than as ISO 8601 or instants in another zone than UTC.
    """
    table, columns = _columns(query, index)
    named = index.replace("'", "''")
    # In a transaction this keeps others from writing the table anew, which would move its rows.
    query(f"SELECT 1 FROM ONLY {table} LIMIT 0")
    ((per_range, _),) = query(f"SELECT pagesperrange, lastrevmappage FROM brin_metapage_info(get_raw_page('{named}', 0))")
    sized = table.replace("'", "''")
    ((pages, moment),) = query(f"SELECT pg_relation_size('{sized}') / current_setting('block_size')::int, {_MOMENT}")
    building = _Ranges(index, columns, int(per_range or 1), int(pages or 0))
    for row in query(_items(named)):
        building.add(row)
    return Brin(index, table, building.per_range, building.pages, building.footers(), moment or "")


#: A transaction, and nothing where each statement sees rows of its own.
_MOMENT = (
    "CASE WHEN current_setting('transaction_isolation') IN ('repeatable read', 'serializable') "
    "THEN pg_backend_pid() || ' ' || extract(epoch FROM now()) ELSE '' END"
)


def select(query: Query, index: Brin, predicate: Predicate, what: Sequence[str] | None = None, also: str | None = None) -> Selected:
    """The rows of the index's table that satisfy a predicate, read from the ranges that aren't ruled out.

    ``what`` are the expressions of SQL that are wanted of each row, by default the index's columns; ``also`` is a condition of SQL that
    the rows have to satisfy too. Rows of tables that inherit from this one aren't read.

    BrinError where the index was read in another transaction; PredicateError where the predicate names what the index hasn't.
    """
    ((moment,),) = query(f"SELECT {_MOMENT}")
    if not moment or moment != index.moment:
        raise BrinError(f"{index.index} was read in another transaction: read it and the rows in one session")
    columns = index.footers.columns
    condition = predicate.sql(columns, POSTGRES) + (f" AND ({also})" if also else "")
    wanted = ", ".join(what if what is not None else ['"' + column.name.replace('"', '""') + '"' for column in columns])
    answers = index.footers.prune(predicate)
    runs = [(index.pages_of(start)[0], index.pages_of(end - 1)[1]) for start, end in answers.runs()]
    rows: list[list[str | None]] = []
    for at in range(0, len(runs), _RUNS):
        pieces = [
            f"SELECT {wanted} FROM ONLY {index.table} WHERE ctid >= '({start},0)'::tid AND ctid < '({end},0)'::tid AND {condition}"
            for start, end in runs[at : at + _RUNS]
        ]
        rows += query(" UNION ALL ".join(pieces))
    return Selected(rows, sum(end - start for start, end in runs))


def server_pages(query: Query, table: str, condition: str) -> int | None:
    """How many pages the server's own bitmap scan reads for a condition of SQL; None where it uses no index for it."""
    query("SET enable_seqscan = off")
    ((told,),) = query(f"EXPLAIN (ANALYZE, TIMING OFF, FORMAT JSON) SELECT 1 FROM ONLY {table} WHERE {condition}")
    query("RESET enable_seqscan")
    return _lossy_pages(json.loads(told or "[]")[0]["Plan"])


def _lossy_pages(plan: dict[str, Any]) -> int | None:
    if plan["Node Type"] == "Bitmap Heap Scan":
        return int(plan.get("Lossy Heap Blocks", 0)) + int(plan.get("Exact Heap Blocks", 0))
    found = [pages for it in plan.get("Plans", []) if (pages := _lossy_pages(it)) is not None]
    # A condition that is never true becomes a plan that reads nothing.
    return sum(found) if found else (0 if plan.get("One-Time Filter") == "false" else None)


def _columns(query: Query, index: str) -> tuple[str, list[Column | None]]:
    """Returns the table of an index, and its columns. One that is an expression is None, and one whose bounds aren't read is unmapped."""
    named = index.replace("'", "''")
    rows = query(
        "SELECT am.amname, i.indrelid::regclass, a.attname, format_type(t.atttypid, NULL), t.attnotnull, oc.opcname, co.collname, "
        "pg_encoding_to_char(d.encoding), d.datcollate, i.indpred IS NOT NULL, i.indisvalid AND i.indisready AND c.relkind = 'i', "
        "format_type(t.atttypid, t.atttypmod) "
        "FROM pg_index i JOIN pg_class c ON c.oid = i.indexrelid JOIN pg_am am ON am.oid = c.relam "
        "JOIN pg_attribute a ON a.attrelid = i.indexrelid LEFT JOIN pg_attribute t ON t.attrelid = i.indrelid AND t.attnum = i.indkey[a.attnum - 1] "
        "AND t.attnum > 0 LEFT JOIN pg_opclass oc ON oc.oid = i.indclass[a.attnum - 1] LEFT JOIN pg_collation co ON co.oid = a.attcollation "
        f"JOIN pg_database d ON d.datname = current_database() WHERE i.indexrelid = '{named}'::regclass ORDER BY a.attnum"
    )
    if not rows:
        raise BrinError(f"{index} is no index")
    kind, table, partial, valid = rows[0][0], rows[0][1], rows[0][9], rows[0][10]
    if kind != "brin":
        raise BrinError(f"{index} is an index of kind {kind}, not brin")
    if partial == "t":
        raise BrinError(f"{index} is partial: of the rows outside its condition it tells nothing")
    if valid != "t":
        raise BrinError(f"{index} isn't valid: its building was broken off, or it is a partitioned table's")
    columns: list[Column | None] = []
    reasons = []
    for _, _, name, dtype, not_null, opclass, collation, encoding, default, _, _, whole in rows:
        is_c = collation in ("C", "POSIX") or (collation == "default" and default in ("C", "POSIX"))
        found = _type(dtype, whole)
        reason = _reason(dtype, found, opclass, None if is_c else collation, encoding)
        reasons += [f"{index}, column {name}: {reason}"] if reason else []
        known: DType | Logical = Unmapped(dtype or "") if reason or found is None else found
        columns.append(None if dtype is None else Column(name or "", known, not_null == "f"))
    if len(reasons) == len(columns):
        raise BrinError(reasons[0])
    return table or "", columns


def _type(dtype: str | None, whole: str | None) -> DType | Logical | None:
    """Returns the type of a column by PostgreSQL's name for it, without and with its length or its digits; None where there is none."""
    numeric = re.fullmatch(r"numeric\((\d+),(-?\d+)\)", whole or "")
    if numeric is not None and int(numeric[1]) <= 18 and 0 <= int(numeric[2]) <= int(numeric[1]):
        return _Decimal(int(numeric[1]), int(numeric[2]))
    return _TYPES.get(dtype or "")


def _reason(dtype: str | None, found: DType | Logical | None, opclass: str | None, collation: str | None, encoding: str | None) -> str | None:
    """Returns why the bounds of a column aren't read; None where they are."""
    if dtype is None:
        return "an expression has no column"
    if found is None:
        return f"the type {dtype} has no counterpart"
    if not (opclass or "").endswith("_minmax_ops"):
        return f"the operator class {opclass} keeps no least and greatest value"
    if found == DType.UTF8 and collation is not None:
        return f"the collation {collation} is not C, so its order isn't that of bytes"
    if found == DType.UTF8 and encoding != "UTF8":
        return f"the encoding {encoding} is not UTF8"
    return None


def _items(index: str) -> str:
    return (
        "SELECT it.blknum, it.attnum, it.allnulls, it.hasnulls, it.placeholder, it.value, current_setting('datestyle'), current_setting('timezone') "
        f"FROM generate_series(1, pg_relation_size('{index}') / current_setting('block_size')::int - 1) page, "
        f"LATERAL (SELECT * FROM brin_page_items(get_raw_page('{index}', page::int), '{index}') "
        f"WHERE brin_page_type(get_raw_page('{index}', page::int)) = 'regular') it WHERE it.blknum IS NOT NULL ORDER BY 1, 2"
    )


#: How the values of a range are told: the least and the greatest one, and the number of nulls of the one row that stands for all.
_Told = tuple[tuple[Any, Any] | None, int | None]


@dataclass
class _Ranges:
    """The ranges of a table, as the items of its index are read."""

    index: str
    columns: Sequence[Column | None]
    per_range: int
    pages: int
    told: dict[tuple[int, int], _Told] = field(default_factory=dict)

    def __post_init__(self) -> None:
        self.count = -(-self.pages // self.per_range)

    def add(self, row: Sequence[str | None]) -> None:
        block, place, all_nulls, has_nulls, placeholder, value, style, zone_name = row
        zone, at = int(block or 0) // self.per_range, int(place or 1) - 1
        column = self.columns[at]
        if placeholder == "t" or zone >= self.count or column is None:
            return
        if isinstance(column.logical, (Date, Timestamp)):
            self._check_session(column, style or "", zone_name or "")
        is_known = not isinstance(column.logical, Unmapped)
        if all_nulls == "t":
            # Whatever bounds there are, no value leaves them; and of the one row that stands for all, one is null.
            self.told[zone, at] = (_none_between(column.type) if is_known else None, 1)
        else:
            self.told[zone, at] = (_bounds(column.type, value or "") if is_known else None, 0 if has_nulls == "f" else None)

    def _check_session(self, column: Column, style: str, zone: str) -> None:
        """Refuses values that are written in another form than the one that is read."""
        if not style.startswith("ISO"):
            raise BrinError(f"{self.index}, column {column.name}: the setting DateStyle is {style}; expected ISO")
        if isinstance(column.logical, Timestamp) and column.logical.tz is not None and zone not in ("UTC", "Etc/UTC"):
            raise BrinError(f"{self.index}, column {column.name}: the setting TimeZone is {zone}; expected UTC")

    def footers(self) -> Footers:
        """The footers, each range as if it had one row.

        A proof reads the number of rows only to compare it with a null count, and of that only 0 and all are known: so with one row each
        test answers what it would with the true number.
        """
        columns = [(at, column) for at, column in enumerate(self.columns) if column is not None]
        zones = Zones(column for _, column in columns)
        for zone in range(self.count):
            zones.begin(None)
            for at, column in columns:
                bounds, nulls = self.told.get((zone, at), (None, None))
                for stat, value in zip((Stat.MIN, Stat.MAX), bounds or (None, None)):
                    if value is not None:
                        zones.tell(column.name, stat, value.encode() if isinstance(value, str) else value, False)
                if nulls is not None:
                    zones.nulls(column.name, nulls)
        return zones.footers()


def _none_between(kind: DType | Logical) -> tuple[object, object]:
    """A least value above a greatest one, as far as the type has such: bounds of no value."""
    dtype = kind.dtype if isinstance(kind, Logical) else kind
    if dtype.range is not None:
        return dtype.range[1], dtype.range[0]
    if isinstance(kind, Uuid):
        return b"\xff" * 16, bytes(16)
    return (_GREATEST_TEXT, "") if dtype == DType.UTF8 else (b"\xff" * 64, b"")


def _bounds(kind: DType | Logical, value: str) -> tuple[Any, Any] | None:
    """The least and the greatest value of ``{least .. greatest}``, or None where there are none. One that isn't known is None.

    Of texts that hold `` .. `` themselves it can't be told where the least one ends. Then the shortest candidate is the least of them, and
    the greatest of all candidates is taken for the other.
    """
    inner = value.removeprefix("{").removesuffix("}")
    seams = [found.start() for found in re.finditer(r"(?= \.\. )", inner)]
    if not seams or (len(seams) > 1 and kind != DType.UTF8):
        return None
    if kind == DType.UTF8:
        return inner[: seams[0]], max(inner[seam + 4 :] for seam in seams)
    least, greatest = _value(kind, inner[: seams[0]]), _value(kind, inner[seams[0] + 4 :])
    return None if least is None and greatest is None else (least, greatest)


_CLOCK = re.compile(r"(\d{4,7})-(\d\d)-(\d\d)(?: (\d\d):(\d\d):(\d\d)(?:\.(\d{1,6}))?(\+00)?)?( BC)?")


def _value(kind: DType | Logical, text: str) -> Any:
    """A value as the server writes it as one of the physical type; None where it has none, as NaN or a timestamp after 294247-01-10, or isn't written
    in a form that is read."""
    if isinstance(kind, (Date, Timestamp)):
        ends = kind.dtype.range
        assert ends is not None
        if text in ("-infinity", "infinity"):
            return ends[text == "infinity"]
        found = _instant(kind, text)
        return found if found is not None and ends[0] < found < ends[1] else None
    if isinstance(kind, Decimal):
        return None if text == "NaN" else kind.stored(text)
    if isinstance(kind, Logical):
        return kind.stored(text)
    if kind == DType.BINARY:
        # The setting bytea_output may have them in another form.
        return bytes.fromhex(text[2:]) if text.startswith("\\x") else None
    return int(text)


def _instant(kind: Date | Timestamp, text: str) -> int | None:
    found = _CLOCK.fullmatch(text)
    if found is None:
        return None
    year, month, day = (int(word) for word in found.group(1, 2, 3))
    days = days_of(1 - year if found[9] else year, month, day)
    if isinstance(kind, Date):
        return days
    hour, minute, second = (int(word) for word in found.group(4, 5, 6))
    return (((days * 24 + hour) * 60 + minute) * 60 + second) * 10**6 + int((found[7] or "0").ljust(6, "0"))
