# SPDX-License-Identifier: Apache-2.0
"""What the tests of tables share: rows as plain Python has them, filter tuples over them, and what a footer may say of them."""
import datetime
import math
import operator
import os
import random
import struct
import tempfile
import unittest
import uuid
from collections.abc import Callable
from decimal import Decimal

try:
    import hypothesis
    import hypothesis.strategies
except ImportError:
    hypothesis = None

from foalmorrow import Answer, Column, Footers, Precision, Stat
from foalmorrow.filters import of_filters
from foalmorrow.tables import DataFile, Table, Zones
from foalmorrow.types import Date, Timestamp

SEED = int(os.environ.get("FOALMORROW_SEED", "1"))
HAS_LIBRARY = os.path.exists(os.environ.get("FOALMORROW_LIBRARY", ""))
UTC = datetime.timezone.utc
EPOCH = datetime.datetime(1970, 1, 1)
COMPARE = {"==": operator.eq, "=": operator.eq, "!=": operator.ne, "<": operator.lt, "<=": operator.le, ">": operator.gt, ">=": operator.ge}
TEXTS = ["", "a", "ab", "abc", "abcd", "abd", "b\U0010ffff", "b\U0010ffff\U0010ffffz", "\ud7ff", "\ue000", "é", "zz", "\U0010ffff\U0010ffff"]


def order(value: object) -> object:
    """A value's place in its column's order: microseconds of instants, days of dates, and NaN above all other floating numbers."""
    if isinstance(value, datetime.datetime):
        since = value.replace(tzinfo=None) - EPOCH
        return (since.days * 86_400 + since.seconds) * 10**6 + since.microseconds
    if isinstance(value, datetime.date):
        return value.toordinal() - EPOCH.toordinal()
    if isinstance(value, float):
        return (math.isnan(value), 0.0 if math.isnan(value) else value)
    return value.encode() if isinstance(value, str) else value


def order_of_bound(column: Column, bound: object) -> object:
    """The same of what a footer tells of a column."""
    if isinstance(column.logical, Timestamp):
        return bound * {"ms": 1000, "us": 1}[column.logical.unit]
    is_number = column.logical is None or isinstance(column.logical, Date)
    return order(bound if is_number else column.logical.shown(bound))


def is_wanted(filters: list, row: dict) -> bool:
    """Whether a row satisfies filters, as pyarrow has them."""
    return any(all(_holds(it, row) for it in every) for every in (filters if isinstance(filters[0], list) else [filters]))


def _holds(it: tuple, row: dict) -> bool:
    name, word, wanted = it
    value = row.get(name)
    if word in ("is", "is not"):
        return (value is None) == (word == "is")
    if word in ("in", "not in"):
        return (order(value) in [order(one) for one in wanted]) == (word == "in")
    return value is not None and COMPARE[word](order(value), order(wanted))


def place(file: DataFile) -> object:
    """What the rows of a zone are kept under: the path of the file, and the row group where it is one."""
    return file.path if file.row_group is None else (file.path, file.row_group)


def physical(footers: Footers, zone: int) -> dict[tuple[str, Stat], tuple[int, object]]:
    """What is known of a zone, as values of the physical types."""
    return {key: (it.known[zone], it.values[zone]) for key, it in footers.statistics.items() if it.known[zone]}


def untrue(table: Table, rows: dict[object, list[dict]]) -> list[str]:
    """What the footers of a table say that isn't true of the rows of its files, by their paths."""
    footers = table.footers
    return [fault for zone, file in enumerate(table.files) for fault in _untrue_of(table.columns, file, physical(footers, zone), rows[place(file)])]


def _untrue_of(columns: tuple[Column, ...], file: DataFile, told: dict, rows: list[dict]) -> list[str]:
    found = []
    if file.rows not in (None, len(rows)):
        found.append(f"{file.path}: {file.rows} rows of {len(rows)}")
    for column in columns:
        values = [row.get(column.name) for row in rows]
        present = [order(value) for value in values if value is not None]
        nulls = told.get((column.name, Stat.NULL_COUNT), (Precision.ABSENT, None))[1]
        # Of a file of which it isn't known how many rows it has, one row stands for all.
        real = len(values) - len(present) if file.rows is not None else {len(values): 1, 0: 0}.get(len(values) - len(present), -1)
        if nulls not in (None, real) and (values or file.rows is not None):
            found.append(f"{file.path}, {column.name}: {nulls} nulls of {real}")
        for stat, extreme, compare in ((Stat.MIN, min, operator.le), (Stat.MAX, max, operator.ge)):
            known, bound = told.get((column.name, stat), (Precision.ABSENT, None))
            if not known or not present:
                continue
            shown = order_of_bound(column, bound)
            if not compare(shown, extreme(present)) or (known == Precision.EXACT and shown != extreme(present)):
                found.append(f"{file.path}, {column.name}: {stat.name} {shown!r} of {extreme(present)!r}")
    return found


def lost(table: Table, rows: dict[object, list[dict]], filters: list) -> list[str]:
    """The files that are skipped although a row of theirs is wanted, and those that are whole although one isn't."""
    found = []
    for file, answer in zip(table.files, table.prune(filters)):
        wanted = [is_wanted(filters, row) for row in rows[place(file)]]
        if (answer == Answer.SKIP and any(wanted)) or (answer == Answer.WHOLE and not all(wanted)):
            found.append(f"{file.path}: {answer.name}")
    return found


def a_value(rng: random.Random, kind: str) -> object:
    """A value of a type, by what Delta or Iceberg call it."""
    if kind in ("long", "int", "integer", "short", "byte"):
        most = {"byte": 127, "short": 2**15 - 1, "integer": 2**31 - 1, "int": 2**31 - 1, "long": 2**63 - 1}[kind]
        return rng.choice([rng.randrange(-5, 6), rng.randrange(-most - 1, most + 1), -most - 1, most])
    if kind == "boolean":
        return rng.random() < 0.5
    if kind == "string":
        return rng.choice(TEXTS)
    if kind == "date":
        return datetime.date(rng.choice([1581, 1583, 1899, 1970, 2024]), rng.randrange(1, 13), rng.randrange(1, 29))
    if kind in ("timestamp", "timestamp_ntz", "timestamptz"):
        zone = None if kind == "timestamp_ntz" else UTC
        year = rng.choice([1580, 1890, 1969, 1971, 2024, 9998])
        return datetime.datetime(year, 1, rng.randrange(1, 4), rng.randrange(24), 0, 0, rng.choice([0, 123456, 123999, 999999]), tzinfo=zone)
    if kind.startswith("decimal"):
        precision, scale = (int(word) for word in kind[8:-1].split(","))
        digits = rng.choice([rng.randrange(-9, 10), rng.randrange(-(10**precision) + 1, 10**precision), 10**precision - 1])
        return Decimal(digits).scaleb(-scale)
    if kind in ("float", "double"):
        special = [0.0, -0.0, 0.5, -1.5, math.nan, math.inf, -math.inf, 2.0**-126, 3.0e38 if kind == "double" else 2.0**100]
        tenth = rng.randrange(-50, 50) / 10
        return rng.choice([*special, tenth if kind == "double" else single(tenth)])
    if kind == "uuid":
        half = rng.choice([0, 1, 2**63 - 1, 2**63, 2**64 - 1])
        return uuid.UUID(int=half << 64 | rng.choice([0, 1, 2**63, 2**64 - 1]))
    if kind == "time":
        return datetime.time(rng.randrange(24), 0, 0, rng.choice([0, 1, 999_999]))
    assert kind == "binary"
    return rng.choice([b"", b"\1", b"\xff\xff", b"ab"])


def single(value: float) -> float:
    """The floating number of 32 bits that is nearest."""
    found: float = struct.unpack("<f", struct.pack("<f", value))[0]
    return found


def some_filters(rng: random.Random, kinds: dict[str, str], rows: list[dict]) -> list:
    """Filters over columns, most of their literals taken from the rows."""

    def one() -> tuple:
        name = rng.choice(sorted(kinds))
        kind = rng.randrange(10)

        def literal() -> object:
            there = [row[name] for row in rows if row.get(name) is not None]
            return rng.choice(there) if there and rng.random() < 0.7 else a_value(rng, kinds[name])

        if kind == 0:
            return (name, rng.choice(["is", "is not"]), None)
        if kind < 3:
            return (name, rng.choice(["in", "not in"]), [literal() for _ in range(rng.randrange(1, 4))] + [None] * (rng.random() < 0.2))
        return (name, rng.choice(sorted(COMPARE)), literal())

    return [[one() for _ in range(rng.randrange(1, 3))] for _ in range(rng.randrange(1, 3))]


def examples(count: int) -> Callable[[Callable[[random.Random], None]], Callable[[], None]]:
    """Calls a test of a source of choices so many times, with hypothesis, which looks for the least choices by which it fails, where it is there."""

    def decorated(test: Callable[[random.Random], None]) -> Callable[[], None]:
        if hypothesis is None:
            return lambda: [test(random.Random(seed)) for seed in range(SEED, SEED + count)]
        chosen = hypothesis.strategies.randoms(use_true_random=False)
        quiet = hypothesis.settings(max_examples=count, deadline=None, database=None, suppress_health_check=list(hypothesis.HealthCheck))
        return hypothesis.seed(SEED)(quiet(hypothesis.given(chosen)(test)))

    return decorated


class TableTests(unittest.TestCase):
    """Tests of tables that are written into a folder."""

    def setUp(self) -> None:
        holder = tempfile.TemporaryDirectory()
        self.addCleanup(holder.cleanup)
        self.folder = holder.name

    def assert_kept(self, table: Table, filters: list, name: str, naive: dict[Stat, object], rows: int | None = None) -> None:
        """The one file is read, which is skipped where statistics are taken for the values themselves."""
        column = next(it for it in table.columns if it.name == name)
        told = {stat: value for (key, stat), (_, value) in physical(table.footers, 0).items() if key == name and stat != Stat.NULL_COUNT}
        wrong = Zones([column])
        wrong.begin(table.footers.rows[0] if rows is None else rows)
        for stat, value in {Stat.NULL_COUNT: 0, **told, **naive}.items():
            is_logical = column.logical is not None and stat in naive and stat != Stat.NULL_COUNT
            found = column.logical.stored(value) if is_logical else value
            wrong.tell(name, stat, found.encode() if isinstance(found, str) else found, True)
        if not HAS_LIBRARY:
            self.skipTest("the library isn't built")
        self.assertNotEqual(table.prune(filters)[0], Answer.SKIP)
        self.assertEqual(wrong.footers().prune(of_filters(filters))[0], Answer.SKIP)
