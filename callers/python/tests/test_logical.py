# SPDX-License-Identifier: Apache-2.0
"""Columns of logical types in every container, measured, checked, pruned, kept and framed beside a model of their own values."""
import atexit
import datetime
import decimal
import math
import operator
import os
import pathlib
import tempfile
import unittest
import uuid
from array import array
from collections import deque
from collections.abc import Callable
from typing import Any

import numpy
import pandas
from hypothesis import HealthCheck, configuration, event, given, seed, settings
from hypothesis import strategies as st

from foalmorrow import PRUNING, Answer, Column, DType, Date, Decimal, Enum, FixedBinary, Float32, Float64, FooterError, Footers, Nullable, Precision, Predicate
from foalmorrow import PredicateError, Refused, Stat, Time, Timestamp, Unmapped, Uuid, ValueFault, Values, col, opaque
from foalmorrow import UnreadWarning, brin, frames
from foalmorrow.reading import read_column
from tests import producer
from tests.test_containers import odd_containers, odd_items

SEED = int(os.environ.get("FOALMORROW_SEED", "1"))
_HOME = tempfile.TemporaryDirectory()
atexit.register(_HOME.cleanup)
configuration.set_hypothesis_home_dir(_HOME.name)
EXAMPLES = settings(max_examples=int(os.environ.get("FOALMORROW_EXAMPLES", "500")), deadline=None, database=None, suppress_health_check=list(HealthCheck))
UTC = datetime.timezone.utc
Items = list[Any]
Truth = bool | None

DAYS = st.dates(datetime.date(1677, 12, 31), datetime.date(2262, 1, 1)) | st.sampled_from([datetime.date(2026, 1, day) for day in range(1, 5)])
INSTANTS = st.datetimes(datetime.datetime(1678, 1, 1), datetime.datetime(2262, 1, 1)) | st.sampled_from([datetime.datetime(2026, 1, day) for day in range(1, 5)])
FLOATS = st.floats() | st.sampled_from([0.0, -0.0, 1.0, 1.5, math.inf, -math.inf, math.nan])
#: Each type with its values and its literals.
KINDS: dict[Any, tuple[Any, Any]] = {
    Date(): (DAYS, DAYS | INSTANTS), Timestamp("us"): (INSTANTS, INSTANTS | DAYS), Timestamp("ns"): (INSTANTS, INSTANTS | st.datetimes()),
    Timestamp("s"): (INSTANTS.map(lambda it: it.replace(microsecond=0)), INSTANTS), Timestamp("us", "UTC"): (INSTANTS.map(lambda it: it.replace(tzinfo=UTC)),
                                                                                                            INSTANTS.map(lambda it: it.replace(tzinfo=UTC))),
    Time("us"): (st.times(), st.times()), Decimal(9, 2): (st.integers(1 - 10**9, 10**9 - 1).map(lambda it: decimal.Decimal(it).scaleb(-2)),
                                                        st.decimals(-10**8, 10**8, places=3) | st.integers(-3, 3)),
    Float64(): (FLOATS, FLOATS), Float32(): (st.floats(width=32) | st.sampled_from([0.0, 1.5, math.nan]), st.floats(width=32) | st.sampled_from([0.0, math.nan])),
    Uuid(): (st.uuids() | st.sampled_from([uuid.UUID(int=it) for it in range(3)]), st.uuids() | st.sampled_from([uuid.UUID(int=it) for it in range(3)])),
    FixedBinary(2): (st.binary(min_size=2, max_size=2), st.binary(max_size=3)), Enum(): (st.sampled_from(["low", "mid", "high", ""]), st.sampled_from(["low", "mid", "x"])),
}


def objects(items: Items) -> numpy.ndarray:
    found = numpy.empty(len(items), dtype=object)
    found[:] = items
    return found


def full(items: Items, filler: Any) -> Items:
    return [filler if it is None else it for it in items]


def marks(items: Items) -> list[bool]:
    return [it is None for it in items]


def times_of(kind: Any, items: Items, unit: str) -> numpy.ndarray:
    return numpy.array([numpy.datetime64("NaT") if it is None else numpy.datetime64(it.replace(tzinfo=None) if isinstance(it, datetime.datetime) else it) for it in items],
                       dtype=f"M8[{unit}]")


def builders(kind: Any, items: Items) -> dict[str, Callable[[], Any]]:
    """The containers that can hold these items."""
    found: dict[str, Callable[[], Any]] = {
        "list": lambda: items, "tuple": lambda: tuple(items), "deque": lambda: deque(items), "generator": lambda: iter(items), "object array": lambda: objects(items),
        "strided object array": lambda: numpy.repeat(objects(items), 2)[::2], "long list": lambda: items,
    }
    has_nan = any(isinstance(it, float) and it != it for it in items)
    if not has_nan:
        found["series of objects"] = lambda: pandas.Series(objects(items), dtype=object)
    if isinstance(kind, (Float32, Float64)):
        numbers = numpy.array(full(items, 7.0), "f8")
        found["marked array"] = lambda: Nullable(numbers, marks(items))
        found["masked array"] = lambda: numpy.ma.array(numbers, mask=marks(items))
        found["pandas' array"] = lambda: pandas.arrays.FloatingArray(numbers, numpy.array(marks(items), bool))
        found["swapped array"] = lambda: Nullable(numbers.astype(">f8")[::-1].copy()[::-1], marks(items))
        found["narrow array"] = lambda: Nullable(numbers.astype("f4") if kind == Float32() else numbers, marks(items))
        if None not in items:
            found["array"] = lambda: array("d", items)
            found["buffer"] = lambda: memoryview(numbers)
    if isinstance(kind, Date):
        for unit in ("D", "s", "us"):
            found[f"datetime64[{unit}]"] = lambda unit=unit: times_of(kind, items, unit)
        found["swapped datetime64"] = lambda: times_of(kind, items, "D").astype(">M8[D]")
        found["marked dates"] = lambda: Nullable(times_of(kind, full(items, datetime.date(9999, 1, 1)), "D"), marks(items))
    if isinstance(kind, Timestamp) and kind.tz is None:
        for unit in ("us", "ns") if kind.unit != "s" else ("s", "ms", "us", "ns"):
            found[f"datetime64[{unit}]"] = lambda unit=unit: times_of(kind, items, unit)
        found["strided datetime64"] = lambda: numpy.repeat(times_of(kind, items, "us"), 3)[::3]
        found["series of times"] = lambda: pandas.Series(times_of(kind, items, "ns"))
        found["index of times"] = lambda: pandas.DatetimeIndex(times_of(kind, items, "ns"))
        found["values"] = lambda: Nullable(Values.of(DType.I64, [0 if it is None else kind.stored(it) for it in items]), marks(items))
    if isinstance(kind, Timestamp) and kind.tz is not None:
        found["series with a zone"] = lambda: pandas.Series(times_of(kind, items, "ns")).dt.tz_localize("UTC").dt.tz_convert("Europe/Berlin")
    if isinstance(kind, Uuid):
        found["bytes"] = lambda: [None if it is None else it.bytes for it in items]
        found["texts"] = lambda: [None if it is None else str(it) for it in items]
        found["void array"] = lambda: Nullable(numpy.array([it.bytes for it in full(items, uuid.UUID(int=1))], "V16"), marks(items))
    if isinstance(kind, FixedBinary):
        found["array of bytes"] = lambda: Nullable(numpy.array(full(items, b"zz"), "S2"), marks(items))
    if isinstance(kind, Enum):
        found["categories"] = lambda: pandas.Series(pandas.Categorical(items))
        found["ordered categories"] = lambda: pandas.Categorical(items, ["high", "", "mid", "low"], ordered=True)
        found["series of texts"] = lambda: pandas.Series(items, dtype="string")
    if isinstance(kind, Decimal) and all(it is None or it == int(it) for it in items):
        found["array of whole numbers"] = lambda: Nullable(numpy.array([int(it) for it in full(items, decimal.Decimal(5))], "i8"), marks(items))
        found["pandas' whole numbers"] = lambda: pandas.arrays.IntegerArray(numpy.array([int(it) for it in full(items, decimal.Decimal(5))], "i8"), numpy.array(marks(items), bool))
    if producer.is_built():
        found["arrow"] = lambda: arrow_of(kind, items)
    return found


def arrow_of(kind: Any, items: Items) -> Any:
    stored = [None if it is None else kind.stored(it) for it in items]
    if isinstance(kind, (Float32, Float64)):
        return producer.numbers("g" if isinstance(kind, Float64) else "f", "d" if isinstance(kind, Float64) else "f", items, before=3)
    if isinstance(kind, Timestamp):
        return producer.numbers({"s": "tss:", "us": "tsu:", "ns": "tsn:"}[kind.unit] + (kind.tz or ""), "q", stored, before=9)
    if isinstance(kind, Date):
        return producer.Stream([producer.numbers("tdD", "i", stored[:2]), producer.numbers("tdD", "i", stored[2:], before=1)])
    if isinstance(kind, Time):
        return producer.numbers("ttu", "q", stored)
    if isinstance(kind, Decimal):
        return producer.decimals("d:38,2", 16, stored, before=1)
    if isinstance(kind, Enum):
        values = sorted({it for it in items if it is not None})
        return producer.numbers("c", "b", [None if it is None else values.index(it) for it in items]).with_dictionary(producer.texts("u", values))
    return producer.fixed(16 if isinstance(kind, Uuid) else 2, stored, before=2)


# -- the model


def order(kind: Any, value: Any) -> Any:
    """What values of a type and its literals are ordered by."""
    if isinstance(kind, (Date, Timestamp)):
        day = datetime.datetime.combine(value, datetime.time()) if not isinstance(value, datetime.datetime) else value
        return (day - datetime.datetime(1970, 1, 1, tzinfo=day.tzinfo)) // datetime.timedelta(microseconds=1)
    if isinstance(kind, (Float32, Float64)):
        return (value != value, 0.0 if value != value else value)
    if isinstance(kind, Enum):
        return value.encode()
    return value.bytes if isinstance(value, uuid.UUID) else value


def compared(kind: Any, word: str, value: Any, literal: Any, nan: Any) -> Truth:
    if value is None:
        return None
    if isinstance(kind, (Float32, Float64)) and nan == "ieee":
        return bool(getattr(operator, word)(value, literal))
    return bool(getattr(operator, word)(order(kind, value), order(kind, literal)))


Test = Callable[[Any, Any], Truth]


def a_predicate(draw: Any, kind: Any, literals: Any, nan: Any, depth: int = 2) -> tuple[Predicate, Test]:
    """A predicate over column c, and what it is of a value where an opaque condition has a truth."""
    form = draw(st.integers(0, 9)) if depth else draw(st.integers(4, 9))
    if form < 2:
        (left, left_test), (right, right_test) = a_predicate(draw, kind, literals, nan, depth - 1), a_predicate(draw, kind, literals, nan, depth - 1)
        decides = form == 0

        def joined(value: Any, unknown: Truth) -> Truth:
            sides = (left_test(value, unknown), right_test(value, unknown))
            return decides if decides in sides else None if None in sides else not decides

        return (left | right if decides else left & right), joined
    if form < 4:
        inner, inner_test = a_predicate(draw, kind, literals, nan, depth - 1)
        return ~inner, lambda value, unknown: None if inner_test(value, unknown) is None else not inner_test(value, unknown)
    c = col("c", nan)
    if form == 4:
        return (c.is_null(), lambda value, _: value is None) if draw(st.booleans()) else (c.is_not_null(), lambda value, _: value is not None)
    if form == 5:
        return opaque("f(c)"), lambda _, unknown: unknown
    if form == 6:
        some = draw(st.lists(literals, max_size=3))
        return c.isin(some), lambda value, _: any(compared(kind, "eq", value, it, nan) for it in some) if value is not None or not some else None
    words = ["eq", "ne"] if isinstance(kind, Enum) else ["eq", "ne", "lt", "le", "gt", "ge"]
    if form == 7 and not isinstance(kind, Enum):
        low, high, closed = draw(literals), draw(literals), draw(st.sampled_from(["both", "left", "right", "neither"]))
        ends = ("ge" if closed in ("both", "left") else "gt", "le" if closed in ("both", "right") else "lt")

        def between(value: Any, _: Truth) -> Truth:
            return None if value is None else bool(compared(kind, ends[0], value, low, nan) and compared(kind, ends[1], value, high, nan))

        return c.between(low, high, closed=closed), between
    word, literal = draw(st.sampled_from(words)), draw(literals)
    return getattr(operator, word)(c, literal), lambda value, _: compared(kind, word, value, literal, nan)


@st.composite
def tables(draw: Any) -> tuple[Column, list[Items], Any, Any]:
    kind = draw(st.sampled_from(sorted(KINDS, key=repr)))
    values, literals = KINDS[kind]
    column = Column("c", kind, draw(st.booleans()))
    items = st.lists(st.one_of(st.none(), values) if column.nullable else values, max_size=5)
    return column, draw(st.lists(items, min_size=1, max_size=3)), literals, kind


def held(draw: Any, kind: Any, items: Items) -> Any:
    found = builders(kind, items)
    name = draw(st.sampled_from(sorted(found)))
    event(name)
    return found[name]()


class Columns(unittest.TestCase):
    @seed(SEED)
    @EXAMPLES
    @given(st.data())
    def test_measured_kept_and_checked_as_the_model(self, data: Any) -> None:
        column, zones, _, kind = data.draw(tables())
        footers = Footers.measure([column], [{"c": held(data.draw, kind, items)} for items in zones])
        footers = Footers.from_bytes(footers.to_bytes())[0]
        self.assertEqual([(it.word, it.dtype) for it in footers.columns], [(column.word, column.dtype)])
        for zone, items in enumerate(zones):
            there = [it for it in items if it is not None]
            told = {stat: value for (_, stat), (_, value) in footers.at(zone).items()}
            self.assertEqual(told[Stat.NULL_COUNT], len(items) - len(there))
            for stat, find in ((Stat.MIN, min), (Stat.MAX, max)):
                if there:
                    self.assertEqual(order(kind, told[stat]), order(kind, find(there, key=lambda it: order(kind, it))))
                else:
                    self.assertNotIn(stat, told)
            if isinstance(kind, Decimal):
                self.assertEqual(told[Stat.SUM], sum(there))
            else:
                self.assertNotIn(Stat.SUM, told)
            self.assertIsNone(footers.check(zone, {"c": held(data.draw, kind, items)}))

    @seed(SEED)
    @EXAMPLES
    @given(st.data())
    def test_pruned_as_the_model(self, data: Any) -> None:
        column, zones, literals, kind = data.draw(tables())
        footers = Footers.measure([column], [{"c": held(data.draw, kind, items)} for items in zones], PRUNING)
        nan = data.draw(st.sampled_from([None, "ieee", "greatest"])) if isinstance(kind, (Float32, Float64)) else None
        predicate, test = a_predicate(data.draw, kind, literals, nan or "ieee")
        other: Any = None
        if nan is None and isinstance(kind, (Float32, Float64)):
            # Where it isn't said what NaN means, a zone is skipped or whole only where both meanings agree.
            predicate, test, other = self.open_predicate(data, literals, kind)
        for normalize in (False, True):
            for answer, items in zip(footers.prune(predicate, normalize), zones, strict=True):
                event(answer.name)
                for unknown in (True, False, None):
                    for it in filter(None, (test, other)):
                        wanted = sum(it(value, unknown) is True for value in items)
                        if answer == Answer.SKIP:
                            self.assertEqual(wanted, 0)
                        if answer == Answer.WHOLE:
                            self.assertEqual(wanted, len(items))

    def open_predicate(self, data: Any, literals: Any, kind: Any) -> tuple[Predicate, Test, Test]:
        word, literal, turned = data.draw(st.sampled_from(["eq", "ne", "lt", "le", "gt", "ge"])), data.draw(literals), data.draw(st.booleans())
        made = getattr(operator, word)(col("c"), literal)

        def test(nan: str) -> Test:
            def found(value: Any, _: Truth) -> Truth:
                truth = compared(kind, word, value, literal, nan)
                return None if truth is None else truth != turned
            return found

        return ~made if turned else made, test("ieee"), test("greatest")

    @seed(SEED)
    @EXAMPLES
    @given(st.data())
    def test_comparison_skips_as_the_bounds_allow(self, data: Any) -> None:
        column, zones, literals, kind = data.draw(tables().filter(lambda it: not isinstance(it[3], Enum)))
        items, literal = [it for it in zones[0] if it is not None], data.draw(literals)
        if not items:
            return
        footers = Footers.measure([column], [{"c": items}], PRUNING)
        nan = "greatest" if isinstance(kind, (Float32, Float64)) else None
        low, high, key = min(order(kind, it) for it in items), max(order(kind, it) for it in items), order(kind, literal)
        for made, skipped in [(col("c", nan) > literal, high <= key), (col("c", nan) < literal, low >= key), (col("c", nan) >= literal, high < key),
                              (col("c", nan) <= literal, low > key)]:
            self.assertEqual(footers.prune(made)[0] == Answer.SKIP, skipped, made)
        if nan is None and not low <= key <= high:
            self.assertEqual(footers.prune(col("c") == literal)[0], Answer.SKIP)

    @seed(SEED)
    @EXAMPLES
    @given(st.data())
    def test_rows_of_a_frame_as_the_model(self, data: Any) -> None:
        column, zones, literals, kind = data.draw(tables())
        nan = data.draw(st.sampled_from(["ieee", "greatest"])) if isinstance(kind, (Float32, Float64)) else None
        predicate, test = a_predicate(data.draw, kind, literals, nan)
        frame = frames.frame_of([column], {"c": zones[0]})
        frame.index = frame.index + 7
        if "f(c)" in repr(predicate):
            with self.assertRaisesRegex(PredicateError, "is opaque"):
                frames.rows(predicate, [column], frame)
            return
        found = frames.rows(predicate, [column], frame)
        self.assertEqual(list(found.index - 7), [row for row, value in enumerate(zones[0]) if test(value, None) is True])

    def test_same_in_every_container(self) -> None:
        for kind in KINDS:
            with self.subTest(kind=kind):
                values: dict[Any, Items] = {
                    Float64(): [1.5, None, -0.0, math.inf], Float32(): [1.5, None, 0.0], Uuid(): [uuid.UUID(int=5), None], FixedBinary(2): [b"ab", None], Enum(): ["low", None, "mid"],
                    Decimal(9, 2): [decimal.Decimal(3), None, decimal.Decimal(-4)], Time("us"): [datetime.time(1), None],
                    Date(): [datetime.date(2026, 1, 2), None, datetime.date(1700, 1, 2)],
                }
                zone = UTC if isinstance(kind, Timestamp) and kind.tz else None
                items = values.get(kind, [datetime.datetime(2026, 1, 2, tzinfo=zone), None, datetime.datetime(1700, 1, 2, tzinfo=zone)])
                for some in (items, [it for it in items if it is not None], [], items * 20):
                    column, wanted = Column("c", kind, True), [None if it is None else kind.stored(it) for it in some]
                    for name, build in builders(kind, some).items():
                        found = read_column(column, build())
                        nulls = found.nulls or bytes(len(found.values))
                        stored = Values(DType.BINARY, found.values.data, found.values.ends, found.values.count) if kind.dtype == DType.UTF8 else found.values
                        self.assertEqual([None if null else stored[row] for row, null in enumerate(nulls)], wanted, name)


class Refusals(unittest.TestCase):
    def test_values_of_no_type_refused_by_row(self) -> None:
        second = numpy.datetime64("1970-01-01 00:00:00.5")
        for kind, containers in [
            (Date(), [[datetime.date(2026, 1, 1), datetime.datetime(2026, 1, 1, 12)], numpy.array(["2026-01-01", "2026-01-01T12"], "M8[h]"), ["2026-01-01", 5],
                      numpy.array([0, 2**40], "M8[D]"), ["2026-01-01", "2026-01-01 00:00Z"], numpy.array([0, 2**50], "M8[Y]")]),
            (Timestamp("s"), [numpy.array([0, second], "M8[ms]"), [datetime.datetime(2026, 1, 1), datetime.datetime(2026, 1, 1, microsecond=1)],
                              [datetime.datetime(2026, 1, 1), datetime.datetime(2026, 1, 1, tzinfo=UTC)], pandas.Series(numpy.array([0, second], "M8[ns]"))]),
            (Timestamp("ns"), [numpy.array([0, 10**10], "M8[s]"), ["2026-01-01", datetime.datetime(9999, 1, 1)], numpy.array([0, 300], "M8[Y]")]),
            (Timestamp("us", "UTC"), [[datetime.datetime(2026, 1, 1, tzinfo=UTC), datetime.datetime(2026, 1, 1)], ["2026-01-01 00:00Z", "2026-01-01"]]),
            (Decimal(3, 1), [[1, 1.5], [1, decimal.Decimal("1.55")], [1, 100], numpy.array([1, 100]), numpy.array([1, 2**63], "u8"), [1, decimal.Decimal("NaN")], [1, True], [1, decimal.Decimal("sNaN")],
                             Values.of(DType.I64, [0, 1000])]),
            (Float32(), [[1.0, 0.1], numpy.array([1.0, 0.1]), numpy.array([1, 2**24 + 1]), [1.0, "x"], [1.0, True]]),
            (Float64(), [numpy.array([1, 2**53 + 1]), numpy.array([1, 2**64 - 1], "u8"), [1.0, 2**53 + 1], [1, decimal.Decimal("0.1")]]),
            (Uuid(), [[uuid.UUID(int=1), b"x"], Values.of(DType.BINARY, [bytes(16), b"x"])]), (FixedBinary(2), [[b"ab", b"a"], [b"ab", "ab"], numpy.array([b"ab", b"a"], "S3")]),
            (Enum(["a"]), [["a", "b"], pandas.Categorical(["a", "b"])]), (Time("s"), [[datetime.time(1), datetime.time(1, microsecond=5)], ["01:00", "25:00"]]),
        ]:
            for container in containers:
                with self.assertRaises(ValueFault, msg=(kind, container)) as told:
                    read_column(Column("c", kind), container)
                self.assertEqual((told.exception.column, told.exception.row), ("c", 1), (kind, container, told.exception))
                self.assertIn("expected", str(told.exception))

    def test_containers_of_another_type_refused_whole(self) -> None:
        aware = pandas.Series(pandas.to_datetime(["2026-01-01"])).dt.tz_localize("UTC")
        for kind, container in [
            (Date(), numpy.array([1, 2])), (Timestamp("us"), numpy.array([1.5])), (Timestamp("us", "UTC"), numpy.array(["2026-01-01"], "M8[s]")), (Timestamp("us"), aware),
            (Date(), aware), (Decimal(5, 2), numpy.array([1.5])), (Float64(), numpy.array([1, 2], "M8[s]")), (Float64(), b"12345678"), (Float64(), array("u", "ab")),
            (Float64(), Values.of(DType.I64, [1])), (Enum(), Values.of(DType.UTF8, ["a"])), (Date(), Values.of(DType.I64, [1])), (Float64(), numpy.zeros((2, 2))),
            (Timestamp("us"), pandas.Series(pandas.period_range("2026", periods=2, freq="D"))), (Float64(), numpy.array([True])), (Uuid(), numpy.zeros(2, "V8")),
            (Float64(), pandas.DataFrame({"a": [1.0]})), (Date(), "2026-01-01"), (Date(), 5), (Float64(), pandas.arrays.SparseArray(["a"])),
        ]:
            with self.assertRaisesRegex(ValueFault, "column c.*expected", msg=(kind, container)):
                read_column(Column("c", kind, True), container)

    def test_nan_in_a_series_refused(self) -> None:
        for series in (pandas.Series([1.0, math.nan]), pandas.Series([1.0, math.nan], dtype=object), pandas.Index([1.0, math.nan])):
            with self.assertRaisesRegex(ValueFault, r"column c, row 1: NaN in a Series may be a value or null.*hand in .to_numpy\(\)"):
                read_column(Column("c", Float64(), True), series)
        sparse = pandas.arrays.SparseArray([1.0, math.nan])
        of_numpy = getattr(pandas.arrays, "NumpyExtensionArray", None) or pandas.arrays.PandasArray
        for column in (Column("c", Float64(), True), Column("c", Float32(), True), Column("c", Unmapped("x"), True)):
            filled = pandas.arrays.SparseArray([1.0, math.nan], fill_value=1.0)
            for held in (sparse, filled, pandas.Series(sparse), of_numpy(numpy.array([1.0, math.nan]))):
                with self.assertRaisesRegex(ValueFault, "column c, row 1: NaN in a Series may be a value or null"):
                    read_column(column, held)
                self.assertEqual(read_column(column, Nullable(held, [False, True])).nulls, b"\0\1")
        self.assertEqual(read_column(Column("c", Float64(), True), pandas.arrays.SparseArray([1.5, 0.0])), read_column(Column("c", Float64(), True), [1.5, 0.0]))
        marked = Nullable(pandas.Series([1.0, math.nan]), [False, True])
        self.assertEqual(read_column(Column("c", Float64(), True), marked).nulls, b"\0\1")

    def test_nulls_of_an_unmapped_column(self) -> None:
        column = Column("j", Unmapped("complex"), True)
        for container, nulls in [
            ([{}, None, [1]], [0, 1, 0]), (numpy.array([1.0, math.nan]), None), (numpy.array([1j, 2j]), None), (numpy.array(["NaT", 1], "m8[s]"), [1, 0]),
            (Nullable(numpy.array([1.0, math.nan]), [1, 0]), [1, 0]), (pandas.Series([pandas.Period("2026"), None]), [0, 1]), (pandas.interval_range(0, 2), None),
            (numpy.zeros(2, "i4,i4"), None), (objects([{}, None]), [0, 1]),
        ]:
            found = read_column(column, container).nulls
            self.assertEqual(None if found is None else list(found), nulls, container)
        with self.assertRaisesRegex(ValueFault, "NaN in a Series"):
            read_column(column, pandas.Series([1.0, math.nan]))

    def test_null_where_the_column_has_none_refused(self) -> None:
        for kind, container in [(Date(), numpy.array(["NaT"], "M8[D]")), (Float64(), [None]), (Timestamp("us"), [pandas.NaT]), (Enum(), pandas.Categorical([None]))]:
            with self.assertRaisesRegex(ValueFault, "column c, row 0: null is no value"):
                read_column(Column("c", kind), container)


class Odd(unittest.TestCase):
    """Whatever is handed in, the errors are those that are promised."""

    KINDS = [*KINDS, Enum(["a"]), Unmapped("x"), Time("s"), Decimal(18, 18), FixedBinary(0)]

    def answered(self, call: Callable[[], object]) -> None:
        try:
            call()
        except ValueFault as fault:
            self.assertIn(fault.column, (None, "c"))
            self.assertIn("expected", str(fault))
        except (FooterError, PredicateError, Refused):
            pass

    def test_items_and_literals(self) -> None:
        for kind in self.KINDS:
            column = Column("c", kind, True)
            footers, c = Footers([column], [1]), col("c")
            for item in odd_items():
                for container in ([item], [item, None], deque([item]), Nullable([item, item], [0, 1]), objects([item]), pandas.Series(objects([item]))):
                    self.answered(lambda: read_column(column, container))
                for make in (lambda: c == item, lambda: c.is_in([item]), lambda: c.between(item, item), lambda: c < item, lambda: ~(c >= item)):
                    self.answered(lambda: footers.prune(make()))
                    self.answered(lambda: make().sql([column]))
                    self.answered(lambda: (repr(make()), hash(make()), make() == make(), make().with_nan("ieee")))

    def test_containers(self) -> None:
        for kind in self.KINDS:
            column = Column("c", kind, True)
            for container in odd_containers():
                self.answered(lambda: read_column(column, container))
                self.answered(lambda: read_column(column, Nullable(container, [0, 1])))
                self.answered(lambda: Footers.of_values([column], [1, 1], {("c", Stat.MIN): (container, 1)}))
                self.answered(lambda: Footers([column], [1]).prune(col("c").is_in(container)))


class OpenTypes(unittest.TestCase):
    """Columns of a server that has values without a number: infinity and NaN."""

    def footers(self, dtype: str, whole: str, value: str) -> Footers:
        kind = brin._type(dtype, whole)
        assert kind is not None
        ranges = brin._Ranges("an index", [Column("c", kind, True)], 1, 1)
        ranges.add(["0", "1", "f", "f", "f", value, "ISO, YMD", "UTC"])
        return ranges.footers()

    def assert_read(self, footers: Footers, literals: list[Any], texts: list[str]) -> None:
        """By each test of the column with one of these literals, or texts in SQL, nothing is skipped or whole."""
        for literal in literals:
            for compare in (operator.eq, operator.ne, operator.lt, operator.le, operator.gt, operator.ge):
                for wanted in (compare(col("c"), literal), ~compare(col("c"), literal)):
                    self.assertEqual(list(footers.prune(wanted)), [Answer.READ], wanted)
            near = footers.at(0)["c", Stat.MIN][1]
            for wanted in (col("c").between(near, literal), col("c").between(literal, near), ~col("c").between(near, literal), col("c").isin([literal])):
                self.assertEqual(list(footers.prune(wanted)), [Answer.READ], wanted)
        for text in texts:
            with self.assertWarns(UnreadWarning):
                self.assertEqual(list(footers.prune(text)), [Answer.READ], text)

    def test_numeric_with_nan(self) -> None:
        footers = self.footers("numeric", "numeric(12,3)", "{1.500 .. NaN}")
        far = [10**20, -(10**20), decimal.Decimal("9223372036854775.807"), decimal.Decimal("-9223372036854775.808"), decimal.Decimal("Infinity")]
        self.assert_read(footers, far, ["c > 100000000000000000000", "NOT c < 100000000000000000000", "c IN (100000000000000000000)", "100000000000000000000 < c"])
        near = [col("c") < 1, col("c") == 1, col("c").between(0, 1), ~(col("c") > 1)]
        self.assertEqual([list(footers.prune(wanted)) for wanted in near], [[Answer.SKIP]] * 4)
        # In SQL no test of such a column is read.
        self.assert_read(footers, [], ["c < 1", "c = 1", "c BETWEEN 0 AND 1", "NOT c > 1"])
        # Below the last number the literal is one among the numbers.
        inside = decimal.Decimal("9223372036854775.806")
        self.assertEqual([list(footers.prune(wanted)) for wanted in (col("c") > inside, ~(col("c") <= inside))], [[Answer.READ]] * 2)

    def test_numeric_without_bounds_at_its_ends(self) -> None:
        footers = self.footers("numeric", "numeric(12,3)", "{1.500 .. 2.500}")
        self.assertEqual([list(footers.prune(wanted)) for wanted in (col("c") > 10**15, col("c") < 10**15)], [[Answer.SKIP], [Answer.WHOLE]])
        self.assert_read(footers, [10**16], ["c < 10000000000000000"])

    def test_instants_with_infinity(self) -> None:
        for dtype, zone in (("timestamp without time zone", ""), ("timestamp with time zone", "+00:00")):
            footers = self.footers(dtype, dtype, f"{{2024-01-01 00:00:00{zone[:3]} .. infinity}}")
            far = ["+300000-01-01 00:00:00", "+294247-01-10 04:00:54.775807", "+294247-01-10 04:00:54.7758065", "-300000-01-01 00:00:00", "-290308-12-21 19:59:05.224192"]
            self.assert_read(footers, [f"{it}{zone}" for it in far], ["c > '2030-01-01 00:00:00'", "c >= TIMESTAMP '2030-01-01 00:00:00'"])
            self.assertEqual(list(footers.prune(col("c") < f"2023-01-01 00:00:00{zone}")), [Answer.SKIP])
            self.assertEqual(list(footers.prune(col("c") > f"+294247-01-10 04:00:54.775806{zone}")), [Answer.READ])
        days = self.footers("date", "date", "{2024-01-01 .. infinity}")
        self.assert_read(days, ["+6000000-01-01", "-6000000-01-01"], ["c > DATE '2030-01-01'"])
        self.assertEqual(list(days.prune(col("c") < datetime.date(2023, 1, 1))), [Answer.SKIP])

    def test_instants_after_the_last_number_are_unknown(self) -> None:
        word = "timestamp without time zone"
        last, behind = "294247-01-10 04:00:54.775806", "294247-01-10 04:00:54.775807"
        for least, greatest, known in [
            ("2024-01-01 00:00:00", last, {Stat.MIN, Stat.MAX}), ("2024-01-01 00:00:00", behind, {Stat.MIN}), ("2024-01-01 00:00:00", "294276-12-31 00:00:00", {Stat.MIN}),
            (behind, "294276-12-31 00:00:00", set()), ("294276-12-31 00:00:00", "infinity", {Stat.MAX}),
        ]:
            footers = self.footers(word, word, f"{{{least} .. {greatest}}}")
            self.assertEqual({stat for _, stat in footers.at(0) if stat != Stat.NULL_COUNT}, known, (least, greatest))
            if least == "294276-12-31 00:00:00":
                self.assertEqual(list(footers.prune(col("c") < "2024-01-01")), [Answer.READ])

    def test_file_of_such_footers_is_refused(self) -> None:
        with self.assertRaisesRegex(FooterError, "column c: no file holds this type: _Date"):
            self.footers("date", "date", "{2024-01-01 .. infinity}").to_bytes()


class Statistics(unittest.TestCase):
    def test_bounds_of_a_writer_that_leaves_nan_out(self) -> None:
        column = Column("x", Float64(), True)
        bounds = {("x", Stat.MIN): ([1.0, math.nan, None], Precision.EXACT), ("x", Stat.MAX): ([2.0, 3.0, 4.0], Precision.EXACT)}
        footers = Footers.of_values([column], [10, 10, 10], bounds, nan_left_out=["x"])
        self.assertEqual([footers.at(zone) for zone in range(3)], [{("x", Stat.MIN): (Precision.EXACT, 1.0)}, {}, {}])
        # NaN may stand above each bound that was told.
        self.assertEqual(list(footers.prune(col("x", "greatest") > 5.0)), [Answer.READ] * 3)
        self.assertEqual(list(footers.prune(col("x", "ieee") != 5.0)), [Answer.READ] * 3)
        self.assertEqual(footers.prune(col("x", "ieee") < 0.5)[0], Answer.SKIP)
        for names in (["y"], ["n"]):
            with self.assertRaisesRegex(FooterError, "holds no floating numbers"):
                Footers.of_values([column, Column("n", DType.I64)], [], {}, nan_left_out=names)

    def test_bounds_are_read_as_values_are(self) -> None:
        columns = [Column("day", Date()), Column("d", Decimal(5, 2)), Column("u", Uuid()), Column("s", DType.UTF8)]
        footers = Footers.of_values(columns, [10, 10], {
            ("day", Stat.MIN): (["2026-01-01", None], 1), ("d", Stat.MAX): ([decimal.Decimal("1.5"), 2], 2), ("d", Stat.SUM): ([5, "5.25"], 1), ("u", Stat.MIN): ([bytes(16), None], 1),
        })
        self.assertEqual(footers.at(0)["day", Stat.MIN][1], datetime.date(2026, 1, 1))
        self.assertEqual([footers.at(zone)["d", Stat.MAX][1] for zone in (0, 1)], [decimal.Decimal("1.50"), decimal.Decimal("2.00")])
        self.assertEqual(footers.at(1)["d", Stat.SUM][1], decimal.Decimal("5.25"))
        self.assertEqual(footers.at(0)["u", Stat.MIN][1], uuid.UUID(int=0))
        with self.assertRaisesRegex(ValueFault, "column day, min, zone 0: 5 is no date"):
            Footers.of_values(columns, [10], {("day", Stat.MIN): ([5], 1)})
        for name, stat, word in (("day", Stat.SUM, "date has no sum"), ("u", Stat.SUM, "uuid has no sum")):
            with self.assertRaisesRegex(FooterError, word):
                Footers.of_values(columns, [1], {(name, stat): ([1], 1)})

    def test_unmapped_column_has_nulls_alone(self) -> None:
        column = Column("j", Unmapped("json"), True)
        footers = Footers.measure([column, Column("n", DType.I64)], [{"j": [{"a": 1}, None], "n": [1, 2]}, {"j": [[1], 5], "n": [5, 6]}])
        self.assertEqual({stat for name, stat in footers.statistics if name == "j"}, {Stat.NULL_COUNT})
        self.assertEqual(list(footers.prune(col("j").is_null())), [Answer.READ, Answer.SKIP])
        self.assertEqual(list(footers.prune((col("j") == {"a": 1}) & (col("n") > 3))), [Answer.SKIP, Answer.READ])
        self.assertEqual(list(footers.prune((col("j") == 5) | (col("n") > 3))), [Answer.READ, Answer.WHOLE])
        self.assertEqual(Footers.from_bytes(footers.to_bytes())[0], footers)
        self.assertIn('("j" = 5)', str(footers.explain(col("j") == 5)))

    def test_opaque_conditions(self) -> None:
        footers = Footers.measure([Column("o0", DType.I64), Column("c0", DType.BOOL)], [{"o0": [1, 2], "c0": [True, True]}, {"o0": [5, 6], "c0": [True, True]}])
        f = opaque("f(x)")
        for made, answers in [
            (f, "RR"), (~f, "RR"), (f & ~f, "RR"), (f | ~f, "RR"), ((col("o0") > 3) & f, "SR"), ((col("o0") > 3) | f, "RW"), (~(f & (col("o0") > 3)), "WR"),
            ((col("c0") == True) & f, "RR"), ((col("c0") == True) | f, "WW"), (col("o0").isin([]), "SS"), (~col("o0").isin([]), "WW"),  # noqa: E712
        ]:
            found = footers.prune(made)
            self.assertEqual("".join(it.name[0] for it in found), answers, made)
        self.assertIn("(f(x))", str(footers.explain((col("o0") > 3) & f)))

    def test_never_and_always_true_need_no_bounds(self) -> None:
        footers = Footers.of_values([Column("d", Decimal(5, 2), True)], [5, 5], {("d", Stat.NULL_COUNT): ([0, 2], 1)})
        self.assertEqual(list(footers.prune(col("d") == "1.005")), [Answer.SKIP, Answer.SKIP])
        self.assertEqual(list(footers.prune(col("d") != "1.005")), [Answer.WHOLE, Answer.READ])
        self.assertEqual(list(footers.prune(~(col("d") == "1.005"))), [Answer.WHOLE, Answer.READ])
        nothing = Footers([Column("d", Decimal(5, 2), True)], [5])
        self.assertEqual((nothing.prune(col("d") == "1.005")[0], nothing.prune(~(col("d") != "1.005"))[0]), (Answer.SKIP, Answer.SKIP))

    def test_file_is_the_one_that_rust_reads(self) -> None:
        kinds = {"day": Date(), "clock": Time("us"), "at": Timestamp("ns"), "zoned": Timestamp("s", "Europe/Berlin"), "d": Decimal(9, 2), "f": Float32(), "g": Float64(),
                 "u": Uuid(), "b": FixedBinary(2), "e": Enum(), "j": Unmapped("json")}
        zones: list[dict[str, Items]] = [
            {"day": ["2026-01-01", "2026-01-05"], "clock": ["01:00", "02:00"], "at": ["2026-01-01", "2026-01-02"], "zoned": ["2026-01-01 00:00Z", None], "d": ["1.5", "-2"],
             "f": [1.5, math.nan], "g": [-0.0, math.inf], "u": [uuid.UUID(int=1), None], "b": [b"ab", b"zz"], "e": ["low", "high"], "j": [{}, None]},
            {"day": ["2025-01-01", None], "clock": [None, None], "at": [None, "1970-01-01"], "zoned": [None, None], "d": [None, 5], "f": [None, 1], "g": [None, math.nan],
             "u": [None, None], "b": [None, b"\0\0"], "e": [None, ""], "j": [None, None]},
        ]
        made = Footers.measure([Column(name, kind, True) for name, kind in kinds.items()], zones, PRUNING).to_bytes("logical types")
        path = pathlib.Path(__file__).resolve().parents[2] / "rust" / "tests" / "logical_types.footers"
        self.assertEqual(made, path.read_bytes())
        self.assertEqual(Footers.from_bytes(made)[0].to_bytes("logical types"), made)

    def test_files_spoiled(self) -> None:
        data = Footers([Column("d", Date())], [1]).to_bytes()
        self.assertEqual(Footers.from_bytes(data)[0].columns, (Column("d", Date()),))
        for word in (b'"dote"', b'"uuid"', b"1234", b"true", b'null'):
            spoiled = data[:-4].replace(b'"date"', word.ljust(6))
            spoiled += __import__("zlib").crc32(spoiled).to_bytes(4, "little")
            with self.assertRaises(FooterError, msg=word):
                Footers.from_bytes(spoiled)


if __name__ == "__main__":
    unittest.main()
