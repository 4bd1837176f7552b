# SPDX-License-Identifier: Apache-2.0
"""Every kind of container measured, checked, pruned and merged beside a model in plain Python, by hypothesis (Debian: python3-hypothesis)."""
import atexit
import ctypes
import io
import itertools
import math
import os
import tempfile
import unittest
from array import array
from collections import deque
from collections.abc import Callable
from datetime import datetime
from decimal import Decimal
from itertools import accumulate
from typing import Any

import numpy
import pandas
from hypothesis import HealthCheck, configuration, event, given, seed, settings
from hypothesis import strategies as st

from foalmorrow import PRUNING, Answer, Column, DType, FooterError, Footers, Nullable, Precision, Predicate, PredicateError, Refused, Stat
from foalmorrow import ValueFault, Values, col
from foalmorrow.predicate import Compared

SEED = int(os.environ.get("FOALMORROW_SEED", "1"))
_HOME = tempfile.TemporaryDirectory()
atexit.register(_HOME.cleanup)
configuration.set_hypothesis_home_dir(_HOME.name)
EXAMPLES = settings(max_examples=600, deadline=None, database=None, suppress_health_check=list(HealthCheck))
CODES = {DType.U8: "B", DType.U16: "H", DType.U32: "I", DType.U64: "Q", DType.I8: "b", DType.I16: "h", DType.I32: "i", DType.I64: "q"}
WANTED = (*PRUNING, Stat.SUM)
Items = list[Any]
Build = Callable[[DType, Items], Any]


def own(dtype: DType) -> numpy.dtype:
    """numpy's type of numbers or truths."""
    return numpy.dtype("?" if dtype == DType.BOOL else f"{'u' if dtype <= DType.U64 else 'i'}{dtype.width}")


def filler(dtype: DType) -> Any:
    """A value that stands where a null is marked, and would change every statistic if it were read."""
    if dtype == DType.BOOL:
        return True
    return dtype.range[1] if dtype.range is not None else "\U0010ffff" if dtype == DType.UTF8 else b"\xff" * 4


def filled(dtype: DType, items: Items) -> Items:
    return [filler(dtype) if item is None else item for item in items]


def marks(items: Items) -> list[bool]:
    return [item is None for item in items]


def objects(items: Items) -> numpy.ndarray:
    found = numpy.empty(len(items), dtype=object)
    found[:] = items
    return found


def fixed(dtype: DType, items: Items) -> numpy.ndarray:
    """An array of numpy's own type: numbers, truths, or texts and bytes of one length."""
    if dtype.has_ends:
        return numpy.array(items, dtype="U" if dtype == DType.UTF8 else "S")
    return numpy.array(items, dtype=own(dtype))


def heap_of(dtype: DType, items: Items) -> Values:
    pieces = [item.encode() if dtype == DType.UTF8 else item for item in items]
    return Values.of_heap(dtype, b"".join(pieces) + b"more", array("Q", accumulate(map(len, pieces))))


def strided(found: numpy.ndarray) -> numpy.ndarray:
    return numpy.repeat(found, 2)[::2]


def frozen(found: numpy.ndarray) -> numpy.ndarray:
    found.setflags(write=False)
    return found


def mixed_nulls(items: Items) -> Items:
    """None in turn as each null that there is."""
    nulls = [None, pandas.NA, pandas.NaT, math.nan, numpy.float64("nan"), numpy.datetime64("NaT")]
    return [nulls[place % len(nulls)] if item is None else item for place, item in enumerate(items)]


#: Containers that may hold nulls.
ANY: dict[str, Build] = {
    "list": lambda _, items: items,
    "tuple": lambda _, items: tuple(items),
    "deque": lambda _, items: deque(items),
    "generator": lambda _, items: (item for item in items),
    "view of a dict": lambda _, items: dict(enumerate(items)).values(),
    "list of each null": lambda _, items: mixed_nulls(items),
    "object array": lambda _, items: objects(items),
    "object array of each null": lambda _, items: objects(mixed_nulls(items)),
    "strided object array": lambda _, items: strided(objects(items)),
    "masked object array": lambda dtype, items: numpy.ma.array(objects(filled(dtype, items)), mask=marks(items)),
    "series of objects": lambda _, items: pandas.Series(objects(items), dtype=object),
    "index of objects": lambda _, items: pandas.Index(objects(mixed_nulls(items)), dtype=object),
    "marked list": lambda dtype, items: Nullable(filled(dtype, items), marks(items)),
    "list marked by bytes": lambda dtype, items: Nullable(filled(dtype, items), bytes(marks(items))),
    "list marked by an array": lambda dtype, items: Nullable(filled(dtype, items), numpy.array(marks(items), dtype=bool)),
    "iterators": lambda dtype, items: Nullable(iter(filled(dtype, items)), iter(marks(items))),
}
#: Containers that may hold nulls of columns with a type of numpy.
TYPED: dict[str, Build] = {
    "masked array": lambda dtype, items: numpy.ma.array(fixed(dtype, filled(dtype, items)), mask=marks(items)),
    "strided masked array": lambda dtype, items: numpy.ma.array(fixed(dtype, filled(dtype, items)), mask=marks(items))[::-1][::-1],
    "marked array": lambda dtype, items: Nullable(fixed(dtype, filled(dtype, items)), strided(numpy.array(marks(items), dtype=bool))),
    "marked values": lambda dtype, items: Nullable(Values.of(dtype, filled(dtype, items)), marks(items)),
}
#: Containers of numbers and truths that may hold nulls.
NUMBERS: dict[str, Build] = {
    "list of scalars": lambda dtype, items: [None if item is None else own(dtype).type(item) for item in items],
    "series with null": lambda dtype, items: pandas.Series(masked(dtype, items)),
    "pandas' array": lambda dtype, items: masked(dtype, items),
}
TEXTS: dict[str, Build] = {
    "series of texts": lambda _, items: pandas.Series(items, dtype="string"), "marked heap": lambda dtype,
    items: Nullable(heap_of(dtype, filled(dtype, items)), marks(items)),
}
#: Containers without nulls.
FULL: dict[str, Build] = {
    "array of numpy": fixed,
    "strided array": lambda dtype, items: strided(fixed(dtype, items)),
    "reversed array": lambda dtype, items: fixed(dtype, items[::-1])[::-1],
    "swapped array": lambda dtype, items: fixed(dtype, items).astype(fixed(dtype, items).dtype.newbyteorder(">")),
    "read-only array": lambda dtype, items: frozen(fixed(dtype, items)),
    "column of a matrix": lambda dtype, items: numpy.stack([fixed(dtype, items)] * 2, axis=1)[:, 1],
    "values": lambda dtype, items: Values.of(dtype, items),
    "masked array without a mask": lambda dtype, items: numpy.ma.array(fixed(dtype, items)),
}
FULL_NUMBERS: dict[str, Build] = {
    "series": lambda dtype, items: pandas.Series(fixed(dtype, items)),
    "buffer": lambda dtype, items: memoryview(fixed(dtype, items)),
    "strided buffer": lambda dtype, items: memoryview(strided(fixed(dtype, items))),
}
FULL_INTEGERS: dict[str, Build] = {
    "array": lambda dtype, items: array(CODES[dtype], items),
    "wide array": lambda dtype, items: array("Q" if dtype == DType.U64 else "q", items),
    "wide array of numpy": lambda dtype, items: numpy.array(items, dtype="u8" if dtype == DType.U64 else "i8"),
    "index of numbers": lambda dtype, items: pandas.Index(fixed(dtype, items)),
}


def masked(dtype: DType, items: Items) -> Any:
    kind = pandas.arrays.BooleanArray if dtype == DType.BOOL else pandas.arrays.IntegerArray
    return kind(fixed(dtype, filled(dtype, items)), numpy.array(marks(items), dtype=bool))


def builders(dtype: DType, items: Items) -> dict[str, Build]:
    """The containers that can hold these items."""
    if dtype == DType.NULL:
        return {name: build for name, build in ANY.items() if "marked" not in name and "masked" not in name and name != "iterators"}
    found = dict(ANY)
    # numpy drops zeros at the end of its texts and bytes.
    is_typed = not dtype.has_ends or not any(item and item[-1:] in ("\0", b"\0") for item in items)
    found |= TYPED if is_typed else {}
    found |= NUMBERS if not dtype.has_ends else TEXTS if dtype == DType.UTF8 else {}
    if None not in items:
        found |= {name: build for name, build in FULL.items() if is_typed or name == "values"}
        found |= FULL_NUMBERS if not dtype.has_ends else {"heap": heap_of}
        found |= FULL_INTEGERS if dtype.range is not None else {}
    return found


def values_of(dtype: DType) -> st.SearchStrategy:
    if dtype == DType.NULL:
        return st.none()
    if dtype == DType.BOOL:
        return st.booleans()
    if dtype.range is not None:
        return st.one_of(st.integers(*dtype.range), st.sampled_from([*dtype.range, 0, 1, 2, 3]))
    if dtype == DType.UTF8:
        return st.one_of(st.text(max_size=5), st.sampled_from(["", "a", "ab", "é", "\0", "a\0", "\U0010ffff"]))
    return st.one_of(st.binary(max_size=5), st.sampled_from([b"", b"\0", b"a\0", b"\xff"]))


@st.composite
def columns(draw: Any) -> Column:
    dtype = draw(st.sampled_from(DType))
    return Column("c", dtype, dtype != DType.NULL and draw(st.booleans()))


def items_of(column: Column) -> st.SearchStrategy:
    some = values_of(column.dtype)
    return st.lists(st.one_of(st.none(), some) if column.nullable else some, max_size=8)


def held(draw: Any, column: Column, items: Items) -> Any:
    """The items in a container of some kind that can hold them."""
    kinds = builders(column.dtype, items)
    name = draw(st.sampled_from(sorted(kinds)))
    event(name)
    return kinds[name](column.dtype, list(items))


# -- the model


def order(item: Any) -> Any:
    """What a value is ordered by: texts by their bytes."""
    return item.encode() if isinstance(item, str) else item


def facts(dtype: DType, items: Items) -> dict[Stat, Any]:
    """The statistics of a column's items."""
    there = [item for item in items if item is not None]
    found: dict[Stat, Any] = {Stat.NULL_COUNT: len(items) - len(there)}
    if there:
        found[Stat.MIN], found[Stat.MAX] = min(there, key=order), max(there, key=order)
    if dtype == DType.BOOL or dtype.range is not None:
        low, high = (-(2**63), 2**63) if DType.I8 <= dtype <= DType.I64 else (0, 2**64)
        if low <= sum(there) < high:
            found[Stat.SUM] = sum(there)
    return found


TESTS: dict[str, Callable[[Any, Any], bool]] = {
    "__eq__": lambda a, b: a == b,
    "__ne__": lambda a, b: a != b,
    "__gt__": lambda a, b: a > b,
    "__ge__": lambda a, b: a >= b,
    "__lt__": lambda a, b: a < b,
    "__le__": lambda a, b: a <= b,
}
Test = Callable[[Any], "bool | None"]


def some_predicate(draw: Any, dtype: DType, depth: int = 2) -> tuple[Predicate, Test]:
    """A predicate over column c, and what it is of an item."""
    kind = draw(st.integers(0, 6)) if depth else draw(st.integers(3, 6))
    if kind < 2:
        (left, left_test), (right, right_test) = some_predicate(draw, dtype, depth - 1), some_predicate(draw, dtype, depth - 1)
        decides = kind == 0

        def joined(item: Any) -> bool | None:
            sides = (left_test(item), right_test(item))
            return decides if decides in sides else None if None in sides else not decides

        return (left | right if decides else left & right), joined
    if kind == 2:
        inner, inner_test = some_predicate(draw, dtype, depth - 1)
        return ~inner, lambda item: None if inner_test(item) is None else not inner_test(item)
    if kind == 3:
        return (col("c").is_null(), lambda item: item is None) if draw(st.booleans()) else (col("c").is_not_null(), lambda item: item is not None)
    if kind == 4 and dtype != DType.NULL:
        wanted = draw(st.lists(values_of(dtype), min_size=1, max_size=4))
        listed = numpy.array(wanted, dtype=own(dtype)) if not dtype.has_ends else wanted
        return col("c").is_in(listed), lambda item: None if item is None else item in wanted
    word, value = draw(st.sampled_from(sorted(TESTS))), draw(values_of(dtype))
    if value is None:
        return Compared(word.strip("_"), "c", None), lambda _: None
    scalar = own(dtype).type(value) if not dtype.has_ends and value is not None and draw(st.booleans()) else value
    return getattr(col("c"), word)(scalar), lambda item: None if item is None or value is None else TESTS[word](order(item), order(value))


class Unshown:
    """An item that can't be shown or compared."""

    def __repr__(self) -> str:
        raise RuntimeError

    __hash__ = None  # type: ignore[assignment]

    def __eq__(self, other: object) -> bool:
        raise RuntimeError


def odd_items() -> Items:
    """Items that are values of few types or of none."""
    nested: list = []
    for _ in range(20_000):
        nested = [nested]
    found = [None, True, 0, -1, 2**63, 2**64, 10**5000, 1.0, math.nan, math.inf, 1j, "x", "\ud800", b"x", bytearray(b"x"), memoryview(b"x")]
    found += [[1], {}, {1}, nested, object(), Unshown(), Precision.EXACT, int, ..., Decimal(1), Decimal("NaN"), datetime(2026, 1, 1)]
    found += [numpy.uint64(2**64 - 1), numpy.bool_(True), numpy.float32(1), numpy.longdouble(1), numpy.str_("x"), numpy.bytes_(b"x")]
    found += [numpy.void(b"x"), numpy.datetime64("NaT"), numpy.datetime64(1, "s"), numpy.timedelta64(1, "s"), numpy.ma.masked, numpy.array(1)]
    found += [numpy.array([1, 2]), pandas.NA, pandas.NaT, pandas.Timestamp(0), pandas.Timedelta(1), pandas.Period("2026")]
    return found + [pandas.Interval(0, 1), pandas.Series([1]), col("c"), col("c") > 1]


def odd_containers() -> Items:
    """What columns may stand in, or may be taken for one."""
    found = [array("d", [1]), bytes(2), "ab", 5, None, {}, {1}, {1: 2}, {1: 2}.keys(), {1: 2}.items(), io.BytesIO(b"ab"), io.StringIO("a")]
    found += [ctypes.c_int(5), (ctypes.c_int * 2)(1, 2), (ctypes.c_char * 2)(b"a"), range(2), object(), Unshown()]
    found += [memoryview(bytes(16)).cast("d"), memoryview(bytes(16)).cast("B", (4, 4)), memoryview(bytes(16)).cast("c")]
    found += [numpy.zeros(2, kind) for kind in ("V3", "i4,f4", "M8[ns]", "m8[s]", "f2", "g", "G", ">i2", "S2", "U2", "?")]
    found += [numpy.zeros(0), numpy.zeros((2, 2)), numpy.array(5), numpy.ma.masked_all(2, "i8"), numpy.ma.masked_all(2, "i4,i4")]
    found += [pandas.Series([1, 2], dtype="category"), pandas.Series([], dtype=float), pandas.MultiIndex.from_tuples([(1, 2)])]
    found += [pandas.interval_range(0, 2), pandas.date_range("2026", periods=2), pandas.array([1, None]), pandas.array([1.0])]
    found += [pandas.arrays.SparseArray([0, 1]), pandas.DataFrame({0: [1, 2]})]
    return found + [Values.of(DType.I64, [1, 2]), Nullable([1], [0]), Nullable(5, 5)]


class WantedRows(unittest.TestCase):
    """From the container to the answer: no zone with a wanted row is skipped."""

    S, A = Column("c", DType.UTF8, True), Column("c", DType.I64, True)

    def answer(self, column: Column, container: object, predicate: Predicate) -> Answer:
        return Footers.measure([column], [{"c": container}]).prune(predicate)[0]

    def test_null_among_objects_is_not_skipped(self) -> None:
        items: Items = ["x", None]
        for null in (None, pandas.NA, pandas.NaT, math.nan):
            items = ["x", null]
            for container in (objects(items), pandas.Series(objects(items)), deque(items), (item for item in items), pandas.Index(objects(items))):
                footers = Footers.measure([self.S], [{"c": container}])
                self.assertEqual(footers.at(0)["c", Stat.NULL_COUNT], (Precision.EXACT, 1))
                self.assertEqual(footers.at(0)["c", Stat.MIN], (Precision.EXACT, "x"))
                self.assertEqual(footers.prune(col("c").is_null())[0], Answer.READ)

    def test_second_column_of_a_matrix_is_not_skipped(self) -> None:
        with self.assertRaisesRegex(ValueFault, "column c: an array of values in 2 dimensions; expected one dimension"):
            self.answer(self.A, numpy.array([[1, 9], [2, 9]]), col("c") == 9)

    def test_masked_row_is_null(self) -> None:
        masked_ = numpy.ma.array([1, 99], mask=[0, 1])
        self.assertEqual(self.answer(self.A, masked_, col("c").is_null()), Answer.READ)
        self.assertEqual(self.answer(self.A, masked_, col("c") == 99), Answer.SKIP)
        self.assertEqual(self.answer(self.A, masked_, col("c").is_not_null()), Answer.READ)

    def test_arrays_of_any_layout_with_scalars(self) -> None:
        whole = numpy.arange(0, 60, 10)
        for container in (
            whole[::2], whole[::-2], whole.astype(">i8")[::2], frozen(whole[::2].copy()), pandas.Series(whole[::2]), pandas.Index(whole[::2]),
            range(0, 60, 20),
        ):
            footers = Footers.measure([self.A], [{"c": container}])
            for value in (numpy.int64(container[1]), numpy.uint8(container[1]), int(container[1])):
                self.assertEqual(footers.prune(col("c") == value)[0], Answer.READ)
                self.assertEqual(footers.prune(col("c").is_in([value, 1000]))[0], Answer.READ)
            self.assertEqual(footers.prune(col("c") > numpy.int64(51))[0], Answer.SKIP)

    def test_times_and_floats_refused_with_what_to_do(self) -> None:
        for container, words in [
            (numpy.zeros(2, "M8[ns]"), "declare the column Date\\(\\) or Timestamp\\(..\\), or hand in .view"), (numpy.array([1.0, math.nan]), "declare the column Float32\\(\\)"),
            (pandas.Series([1, None]), "or cast them"),
        ]:
            with self.assertRaisesRegex(ValueFault, f"column c: an array of (datetime64|float64).*{words}"):
                self.answer(self.A, container, col("c") == 1)

    def test_row_count_of_a_zone_is_checked(self) -> None:
        footers = Footers([self.A], [2])
        self.assertEqual(footers.check(0, {"c": numpy.arange(3)}), ("c", "rows"))
        self.assertIsNone(footers.check(0, {"c": numpy.arange(2)}))


class Odd(unittest.TestCase):
    """Whatever is handed in, the errors are those that are promised."""

    def answered(self, call: Callable[[], object]) -> None:
        try:
            call()
        except ValueFault as fault:
            self.assertIn(fault.column, (None, "c"))
            self.assertIn("expected", str(fault))
        except (FooterError, PredicateError, Refused):
            pass

    def test_items_are_read_or_refused(self) -> None:
        for dtype, nullable in itertools.product(DType, (False, True)):
            column = Column("c", dtype, nullable)
            footers = Footers([column], [1])
            for item in odd_items():
                held_in = [[item], [item, None], deque([item]), Nullable([item, item], [0, 1]), objects([item]), pandas.Series(objects([item]))]
                for container in held_in:
                    self.answered(lambda: Footers.measure([column], [{"c": container}]))
                c = col("c")
                for make in (lambda: c == item, lambda: c.is_in([item]), lambda: c.between(item, item), lambda: c.like(item)):
                    self.answered(lambda: footers.prune(make()))
                    self.answered(lambda: make().sql([column]))
                    self.answered(lambda: (repr(make()), hash(make()), make() == make()))

    def test_containers_are_read_or_refused(self) -> None:
        for dtype, nullable in itertools.product(DType, (False, True)):
            column = Column("c", dtype, nullable)
            for container in odd_containers():
                self.answered(lambda: Footers.measure([column], [{"c": container}]))
                self.answered(lambda: Footers.measure([column], [{"c": Nullable(container, [0, 1])}]))
                self.answered(lambda: Footers.measure([column], [{"c": Nullable([None, None], container)}]))
                self.answered(lambda: Footers([column], [2]).check(0, {"c": container}))
                self.answered(lambda: Footers([column], container))
                self.answered(lambda: Footers.of_values([column], [1, 1], {("c", Stat.MIN): (container, 1)}))
                self.answered(lambda: Footers.of_values([column], [1, 1], {("c", Stat.MIN): ([None, None], container)}))
                self.answered(lambda: Footers([column], [1]).prune(col("c").is_in(container)))


class Containers(unittest.TestCase):
    @seed(SEED)
    @EXAMPLES
    @given(st.data())
    def test_measured_as_the_model(self, data: Any) -> None:
        column = data.draw(columns())
        items = data.draw(items_of(column))
        footers = Footers.measure([column], [{"c": held(data.draw, column, items)}], WANTED)
        self.assertEqual(list(footers.rows), [len(items)])
        told = {stat: found for (_, stat), found in footers.at(0).items()}
        self.assertEqual(told, {stat: (Precision.EXACT, value) for stat, value in facts(column.dtype, items).items()})

    def test_measured_the_same_in_every_container(self) -> None:
        for dtype in DType:
            some = {
                DType.NULL: [None, None], DType.BOOL: [True, None, False], DType.UTF8: ["b", None, "é", ""], DType.BINARY: [b"b", None, b"\xff"],
            }.get(dtype, [1, None, 5, 0])
            for items in (some, [item for item in some if item is not None], []):
                for name, build in builders(dtype, items).items():
                    with self.subTest(dtype=dtype, items=items, container=name):
                        found = Footers.measure([Column("c", dtype, dtype != DType.NULL)], [{"c": build(dtype, list(items))}], WANTED)
                        told = {stat: value for (_, stat), (_, value) in found.at(0).items()}
                        self.assertEqual((told, list(found.rows)), (facts(dtype, items), [len(items)]))

    def test_frame_is_a_chunk(self) -> None:
        table = [Column("a b", DType.I64, True), Column("s", DType.UTF8, True)]
        frame = pandas.DataFrame({"a b": pandas.array([3, None, 5], dtype="Int64"), "s": ["x", None, "y"], 7: [0.5] * 3}, index=[9, 9, 9])
        footers = Footers.measure(table, [frame, frame[:0]], PRUNING)
        self.assertEqual(list(footers.rows), [3, 0])
        for name, items in [("a b", [3, None, 5]), ("s", ["x", None, "y"])]:
            told = {stat: value for (of, stat), (_, value) in footers.at(0).items() if of == name}
            self.assertEqual(told, facts(DType.BINARY, items))
        self.assertIsNone(footers.check(0, frame))
        twice = pandas.concat([frame, frame], axis=1)
        with self.assertRaisesRegex(ValueFault, "column a b: a frame has 2 dimensions"):
            Footers.measure(table, [twice])

    @seed(SEED)
    @EXAMPLES
    @given(st.data())
    def test_null_refused_where_the_column_has_none(self, data: Any) -> None:
        column = Column("c", data.draw(st.sampled_from([dtype for dtype in DType if dtype != DType.NULL])))
        items = data.draw(st.lists(st.one_of(st.none(), values_of(column.dtype)), min_size=1, max_size=6))
        container = held(data.draw, column, items)
        if None not in items:
            Footers.measure([column], [{"c": container}])
            return
        with self.assertRaises(ValueFault) as told:
            Footers.measure([column], [{"c": container}])
        self.assertEqual((told.exception.column, told.exception.row), ("c", items.index(None)))

    @seed(SEED)
    @EXAMPLES
    @given(st.data())
    def test_checked_as_the_model(self, data: Any) -> None:
        column = data.draw(columns())
        items = data.draw(items_of(column))
        others = data.draw(st.one_of(st.just(items), st.permutations(items), st.just(items[:-1]), st.just([*items, *items[:1]]), items_of(column)))
        footers = Footers.measure([column], [{"c": held(data.draw, column, items)}], PRUNING)
        found = footers.check(0, {"c": held(data.draw, column, others)})
        told, true = facts(column.dtype, items), facts(column.dtype, others)
        untrue = {stat for stat in PRUNING if stat in told and (stat not in true or true[stat] != told[stat])}
        # Of no values at all each bound is true.
        untrue -= {Stat.MIN, Stat.MAX} if Stat.MIN not in true else set()
        if len(others) != len(items):
            self.assertIsNotNone(found)
            self.assertIn(found.what, {*untrue, "rows"})  # type: ignore[union-attr]
        elif untrue:
            self.assertIn(found.what if found else None, untrue)
        else:
            self.assertIsNone(found)

    @seed(SEED)
    @EXAMPLES
    @given(st.data())
    def test_pruned_as_the_model(self, data: Any) -> None:
        column = data.draw(columns())
        zones = data.draw(st.lists(items_of(column), max_size=4))
        footers = Footers.measure([column], [{"c": held(data.draw, column, items)} for items in zones], PRUNING)
        predicate, test = some_predicate(data.draw, column.dtype)
        for normalize in (False, True):
            for answer, items in zip(footers.prune(predicate, normalize), zones, strict=True):
                event(answer.name)
                wanted = sum(test(item) is True for item in items)
                if answer == Answer.SKIP:
                    self.assertEqual(wanted, 0)
                if answer == Answer.WHOLE:
                    self.assertEqual(wanted, len(items))

    @seed(SEED)
    @EXAMPLES
    @given(st.data())
    def test_comparison_skips_as_the_bounds_allow(self, data: Any) -> None:
        column = data.draw(columns().filter(lambda it: it.dtype != DType.NULL))
        items, value = data.draw(items_of(column)), data.draw(values_of(column.dtype))
        footers = Footers.measure([column], [{"c": held(data.draw, column, items)}], PRUNING)
        told = facts(column.dtype, items)
        if Stat.MIN in told:
            low, high, given_value = order(told[Stat.MIN]), order(told[Stat.MAX]), order(value)
            for predicate, skipped in [
                (col("c") > value, high <= given_value), (col("c") < value, low >= given_value),
                (col("c") == value, not low <= given_value <= high),
            ]:
                self.assertEqual(footers.prune(predicate)[0] == Answer.SKIP, skipped, predicate)

    @seed(SEED)
    @EXAMPLES
    @given(st.data())
    def test_merged_as_the_model(self, data: Any) -> None:
        column = data.draw(columns())
        zones = data.draw(st.lists(items_of(column), min_size=1, max_size=6))
        footers = Footers.measure([column], [{"c": held(data.draw, column, items)} for items in zones], WANTED)
        items = [item for zone in zones for item in zone]
        merged = footers.merged()
        self.assertEqual(list(merged.rows), [len(items)])
        self.assertIsNone(merged.check(0, {"c": held(data.draw, column, items)}))
        one_by_one = footers.slice(0, 1)
        for zone in range(1, len(zones)):
            one_by_one = one_by_one.merge(footers.slice(zone, zone + 1))
        self.assertEqual(merged, one_by_one)
        if all(any(item is not None for item in zone) for zone in zones):
            told = {stat: value for (_, stat), (_, value) in merged.at(0).items() if stat in PRUNING}
            self.assertEqual(told, {stat: value for stat, value in facts(column.dtype, items).items() if stat in PRUNING})

    @seed(SEED)
    @EXAMPLES
    @given(st.data())
    def test_null_bound_is_absent_in_every_container(self, data: Any) -> None:
        dtype = data.draw(st.sampled_from([dtype for dtype in DType if dtype != DType.NULL]))
        column = Column("c", dtype, True)
        bounds = data.draw(st.lists(st.one_of(st.none(), values_of(dtype)), max_size=5))
        footers = Footers.of_values([column], [1] * len(bounds), {("c", Stat.MIN): (held(data.draw, column, bounds), Precision.EXACT)})
        told = [footers.at(zone).get(("c", Stat.MIN)) for zone in range(len(bounds))]
        self.assertEqual(told, [None if bound is None else (Precision.EXACT, bound) for bound in bounds])

    @seed(SEED)
    @EXAMPLES
    @given(
        st.lists(st.one_of(st.none(), st.booleans(), st.integers(), st.floats(), st.text(), st.binary(), st.lists(st.integers())), max_size=4),
        st.data(),
    )
    def test_any_items_are_read_or_refused_by_row(self, items: Items, data: Any) -> None:
        column = data.draw(columns())
        build = data.draw(st.sampled_from([tuple, deque, list, objects, lambda them: pandas.Series(objects(them), dtype=object)]))
        try:
            footers = Footers.measure([column], [{"c": build(items)}], PRUNING)
        except ValueFault as fault:
            self.assertEqual(fault.column, "c")
            self.assertIsNotNone(fault.row)
            return
        there = [item for item in items if item is not None and item == item]
        self.assertEqual(footers.at(0)["c", Stat.NULL_COUNT][1], len(items) - len(there))
        if there:
            bound = footers.at(0)["c", Stat.MAX][1]
            self.assertEqual((type(bound), bound), (type(there[0]), max(there, key=order)))


if __name__ == "__main__":
    unittest.main()
