# SPDX-License-Identifier: Apache-2.0
"""Containers read into values and nulls: each exactly, or refused by the column, the row and what was expected."""
import ctypes
import math
import unittest
from array import array
from collections import deque
from typing import Any

from foalmorrow import Column, DType, Nullable, ValueFault, Values
from foalmorrow.arrays import joined
from foalmorrow.reading import Where, read, read_column

try:
    import numpy
except ImportError:
    numpy = None

try:
    import pandas
except ImportError:
    pandas = None

A, S, B = Column("a", DType.I64, True), Column("s", DType.UTF8, True), Column("b", DType.BOOL, True)
X, Z = Column("x", DType.BINARY, True), Column("z", DType.NULL, True)
U = Column("u", DType.U8)
NAN = math.nan


def items(column: Column, given: object) -> list:
    """The values of a column, None being null."""
    found = read_column(column, given)
    marks = found.nulls if found.nulls is not None else bytes(len(found.values))
    return [None if null else found.values[row] for row, null in enumerate(marks)]


class Refusing(unittest.TestCase):
    def refused(self, column: Column, given: Any, words: str, row: int | None = None) -> None:
        with self.assertRaisesRegex(ValueFault, words) as told:
            read_column(column, given)
        self.assertEqual((told.exception.column, told.exception.row), (column.name, row), told.exception)
        self.assertIn(f"column {column.name}", str(told.exception))


class Plain(Refusing):
    def test_iterables_keep_each_item(self) -> None:
        for given in (
            [1, None, -3], (1, None, -3), deque([1, None, -3]), iter([1, None, -3]), (it for it in [1, None, -3]),
            {0: 1, 1: None, 2: -3}.values(),
        ):
            self.assertEqual(items(A, given), [1, None, -3])
        for given in (["x", None, ""], deque(["x", None, ""]), iter(("x", None, ""))):
            self.assertEqual(items(S, given), ["x", None, ""])
        self.assertEqual(items(A, range(3, -3, -2)), [3, 1, -1])
        self.assertEqual(items(B, [True, None, False]), [True, None, False])
        self.assertEqual(items(X, [b"\xff", None, bytearray(b"a")]), [b"\xff", None, b"a"])
        self.assertEqual(items(Z, [None, None]), [None, None])
        self.assertEqual([items(column, []) for column in (A, S, B, X, Z)], [[]] * 5)

    def test_nan_among_objects_is_null(self) -> None:
        for column, value in [(A, 5), (S, "x"), (B, True), (X, b"x")]:
            self.assertEqual(items(column, [NAN, value, None, float("nan")]), [None, value, None, None])
        self.assertEqual(items(Z, [NAN, None]), [None, None])

    def test_null_refused_where_not_nullable(self) -> None:
        self.refused(U, [1, 2, None], "row 2: null is no value of u8; expected a whole number from 0 to 255", 2)
        self.refused(Column("s", DType.UTF8), iter(["a", NAN]), "row 1: null is no value of utf8", 1)
        self.refused(U, Nullable([1, 2], [0, 1]), "row 1: null", 1)

    def test_other_values_refused_by_row(self) -> None:
        self.refused(U, [1, 256], "column u, row 1: 256 is no u8; expected a whole number from 0 to 255", 1)
        self.refused(U, [1, -1], "row 1: -1 is no u8", 1)
        self.refused(U, [10**5000], "row 0: a value of type int is no u8", 0)
        for column, bad in [
            (A, True), (A, 1.0), (A, "1"), (A, b"1"), (A, 1j), (B, 1), (B, 0), (B, "true"), (S, b"x"), (S, 1), (X, "x"), (X, 1), (Z, 0),
            (Z, False), (S, ["x"]), (A, object()),
        ]:
            self.refused(column, [None, bad], f"row 1: .* is no {column.dtype.word}; expected ", 1)
        self.refused(S, ["a", "\ud800"], "row 1: .* is no utf8", 1)

    def test_item_that_cannot_be_shown_refused(self) -> None:
        nested: list = []
        for _ in range(100_000):
            nested = [nested]
        self.refused(A, [nested], "row 0: .* is no i64", 0)
        looped: list = []
        looped.append(looped)
        self.refused(A, looped, "row 0: .* is no i64", 0)

    def test_no_column_refused(self) -> None:
        for bad in ("abc", {"a": 1}, {1, 2}, frozenset(), 5, None, object(), Nullable(Nullable([1], [0]), [0])):
            self.refused(A, bad, "expected")
        self.refused(S, "abc", "'abc' is no column")
        self.refused(S, b"abc", "one bytes is no column of utf8")
        self.refused(X, b"abc", "one bytes is no column of binary")


class Marked(Refusing):
    def test_marks_of_each_form(self) -> None:
        for nulls in (
            [False, True], (0, 1), b"\0\1", bytearray(b"\0\7"), memoryview(b"\0\1"), array("i", [0, 300]), iter([False, True]),
            memoryview(b"\0\1").cast("?"),
        ):
            self.assertEqual(items(A, Nullable([4, 5], nulls)), [4, None])
        self.assertEqual(items(A, Nullable(array("q", [4, 5]), [0, 0])), [4, 5])
        self.assertEqual(items(S, Nullable(["a", "b"], [1, 0])), [None, "b"])

    def test_null_row_is_not_read(self) -> None:
        self.assertEqual(items(A, Nullable(["any", 5, None], [1, 0, 0])), [None, 5, None])
        self.assertEqual(items(S, Nullable(Values.of_heap(DType.UTF8, b"a\xff", array("Q", [1, 2])), b"\0\1")), ["a", None])

    def test_other_lengths_refused(self) -> None:
        for nulls in ([], [0], [0, 0, 0], b"\0", array("b", [1] * 3)):
            self.refused(A, Nullable([4, 5], nulls), "2 values and . marks for null; expected one for each row")

    def test_other_marks_refused(self) -> None:
        self.refused(A, Nullable([4, 5], [0, None]), "nulls, row 1: None doesn't say whether a value is null", 1)
        self.refused(A, Nullable([4, 5], ["no", "yes"]), "nulls, row 0: 'no'", 0)
        self.refused(A, Nullable([4, 5], [0.0, 1.0]), "nulls, row 0: 0.0", 0)
        self.refused(A, Nullable([4, 5], array("d", [0, 1])), "nulls: items of form 'd'")
        self.refused(A, Nullable([4, 5], 1), "nulls: 1 is no column")


class Buffers(Refusing):
    def test_own_form_is_not_copied(self) -> None:
        given = array("q", [1, -2])
        self.assertEqual(items(A, given), [1, -2])
        self.assertEqual(items(U, b"\1\xff"), [1, 255])
        self.assertEqual(items(B, memoryview(b"\0\1").cast("?")), [False, True])
        self.assertEqual(items(A, memoryview(given)), [1, -2])
        found = read_column(A, given)
        given[0] = 9
        self.assertEqual(found.values[0], 9)

    def test_other_widths_of_an_array_that_fit(self) -> None:
        self.assertEqual(items(A, array("b", [-1, 2])), [-1, 2])
        self.assertEqual(items(A, array("Q", [1, 2**63 - 1])), [1, 2**63 - 1])
        self.assertEqual(items(U, array("q", [0, 255])), [0, 255])
        self.refused(A, array("Q", [1, 2**63]), "row 1: 9223372036854775808 is no i64", 1)
        self.refused(U, array("h", [256]), "row 0: 256 is no u8", 0)

    def test_strides_and_orders(self) -> None:
        self.assertEqual(items(A, memoryview(array("q", range(6)))[::2]), [0, 2, 4])
        self.assertEqual(items(A, memoryview(array("q", range(3)))[::-1]), [2, 1, 0])
        self.assertEqual(items(U, memoryview(b"abcd")[::3]), [97, 100])
        swapped = (ctypes.c_int64.__ctype_be__ * 2)(1, -2)
        self.assertEqual(items(A, swapped), [1, -2])
        self.assertEqual(items(A, (ctypes.c_int64 * 2)(1, -2)), [1, -2])

    def test_other_forms_refused(self) -> None:
        for column, given in [(A, array("d", [1])), (A, array("f", [1])), (B, array("B", [1])), (S, array("q", [1])), (Z, array("q", [1]))]:
            with self.assertRaisesRegex(ValueFault, f"column {column.name}.* is no {column.dtype.word}"):
                read_column(column, given)
        self.refused(A, b"12345678", "items of form 'B' are no i64")
        self.refused(B, b"\1", "items of form 'B' are no bool")
        self.refused(A, memoryview(bytes(16)).cast("q", (1, 2)), "2 dimensions; expected one")
        for given in (ctypes.c_int64(5), Nullable(ctypes.c_int64(5), []), ((ctypes.c_int64 * 2) * 3)()):
            self.refused(A, given, "dimensions; expected one")
        self.refused(A, memoryview(bytes(8)).cast("d"), "items of form 'd' are no i64")

    def test_values_of_one_type_alone(self) -> None:
        self.assertEqual(items(A, Values.of(DType.I64, [1, 2])), [1, 2])
        self.refused(A, Values.of(DType.I32, [1]), "values of i32 are no i64")
        with self.assertRaisesRegex(ValueFault, "row 1: null is no value"):
            Values.of(DType.I64, [1, None])

    def test_heap_longer_than_its_last_end(self) -> None:
        long = Values.of_heap(DType.UTF8, b"abMORE", array("Q", [1, 2]))
        for found in (joined([long, long]), joined([long.slice(0, 1), long.slice(1, 2), long]), joined([long.take(range(2)), long])):
            self.assertEqual([found[row] for row in range(4)], ["a", "b", "a", "b"])
        self.assertEqual(items(S, Nullable(long, [0, 1])), ["a", None])
        self.assertEqual([long.take(range(1, 2))[0], long.slice(1, 2)[0]], ["b", "b"])

    def test_torn_heap_is_not_joined(self) -> None:
        whole = Values.of(DType.BINARY, [b"cdefg"])
        for ends in ([3, 2], [1, 5], [2**64 - 1, 1], [1, 2**63]):
            torn = Values.of_heap(DType.BINARY, b"ab", array("Q", ends))
            for make in (lambda it: joined([it, whole]), lambda it: joined([whole, it]), lambda it: it.take(range(2)), lambda it: it.slice(1, 2)):
                with self.assertRaisesRegex(ValueFault, "row .: a text begins behind its end, or ends behind the heap"):
                    make(torn)

    def test_heaps(self) -> None:
        self.assertEqual(items(S, Values.of_heap(DType.UTF8, b"abc", array("Q", [1, 1, 3]))), ["a", "", "bc"])
        for heap, ends in [
            ("abc", array("Q", [3])), (b"abc", [3]), (b"abc", array("i", [3])), (b"abc", array("d", [3])), (array("i", [1]), array("Q", [4])),
        ]:
            with self.assertRaisesRegex(ValueFault, "expected"):
                Values.of_heap(DType.UTF8, heap, ends)
        with self.assertRaises(ValueFault):
            Values.of_heap(DType.I64, b"", array("Q"))
        torn = Values.of_heap(DType.UTF8, b"\xc3\xa9", array("Q", [1, 2]))
        with self.assertRaisesRegex(ValueFault, "row 0: a text isn't UTF-8"):
            torn[0]
        with self.assertRaisesRegex(ValueFault, "row 1: a text begins behind its end"):
            Values.of_heap(DType.BINARY, b"ab", array("Q", [2, 1]))[1]


@unittest.skipIf(numpy is None, "numpy isn't installed")
class Numpy(Refusing):
    def test_object_arrays_with_none(self) -> None:
        self.assertEqual(items(S, numpy.array(["x", None], dtype=object)), ["x", None])
        self.assertEqual(items(A, numpy.array([5, None, numpy.int8(3), NAN], dtype=object)), [5, None, 3, None])
        self.assertEqual(items(B, numpy.array([True, None, numpy.bool_(False)], dtype=object)), [True, None, False])
        self.assertEqual(items(X, numpy.array([b"a\0", None], dtype=object)), [b"a\0", None])
        self.refused(S, numpy.array(["x", 5], dtype=object), "row 1: 5 is no utf8", 1)
        self.refused(A, numpy.array([1, True], dtype=object), "row 1: True is no i64", 1)

    def test_nulls_of_numpy(self) -> None:
        self.assertEqual(
            items(A, [numpy.float64("nan"), numpy.float32("nan"), numpy.ma.masked, numpy.datetime64("NaT"), numpy.int64(4)]), [None] * 4 + [4],
        )

    def test_scalars_in_lists(self) -> None:
        self.assertEqual(items(A, [numpy.int64(-1), numpy.uint8(7), 3]), [-1, 7, 3])
        self.assertEqual(items(B, [numpy.bool_(True), False]), [True, False])
        self.assertEqual(items(S, [numpy.str_("é"), "x"]), ["é", "x"])
        self.assertEqual(items(X, [numpy.bytes_(b"a")]), [b"a"])
        for column, bad in [
            (A, numpy.bool_(True)), (B, numpy.int64(1)), (A, numpy.float64(1)), (A, numpy.timedelta64(5, "s")), (A, numpy.datetime64(5, "s")),
            (A, numpy.array(5)), (A, numpy.array([5])),
        ]:
            self.refused(column, [bad], "row 0: .*; expected", 0)

    def test_two_dimensions_refused(self) -> None:
        for given in (
            numpy.zeros((2, 2), "i8"), numpy.zeros((2, 1), "i8"), numpy.zeros((0, 2), "i8"), numpy.array([[None]], dtype=object),
            numpy.ma.zeros((2, 2), "i8"),
        ):
            self.refused(A, given, "an array of values in 2 dimensions; expected one dimension")
        for given in (numpy.array(5), numpy.int64(5), numpy.str_("x"), numpy.ma.masked):
            self.refused(A, given, "an array of one value; expected one dimension")

    def test_mask_is_the_nulls(self) -> None:
        self.assertEqual(items(A, numpy.ma.array([1, 2, 3], mask=[0, 1, 0])), [1, None, 3])
        self.assertEqual(items(A, numpy.ma.array([1, 2, 3])), [1, 2, 3])
        self.assertEqual(items(A, numpy.ma.array([1, 2], mask=True)), [None, None])
        self.assertEqual(items(S, numpy.ma.array(["a", "b"], mask=[1, 0])), [None, "b"])
        self.assertEqual(items(A, numpy.ma.array([1, 300, None], mask=[0, 1, 0], dtype=object)), [1, None, None])
        self.assertEqual(items(Column("n", DType.U8, True), numpy.ma.array([1, 300], mask=[0, 1])), [1, None])
        self.assertEqual(items(A, Nullable(numpy.ma.array([1, 2, 3], mask=[0, 1, 0]), [1, 0, 0])), [None, None, 3])
        self.assertEqual(items(A, numpy.ma.array(range(6), mask=[0, 1] * 3)[::2]), [0, 2, 4])
        self.refused(U, numpy.ma.array([1, 2], mask=[0, 1]), "row 1: null is no value of u8", 1)

    def test_marks_in_arrays(self) -> None:
        for nulls in (
            numpy.array([False, True]), numpy.array([0, 5]), numpy.array([0, 1], "u1"), numpy.array([1, 0, 1, 0], bool)[1::-1],
            numpy.array([False, True], dtype=object),
        ):
            self.assertEqual(items(A, Nullable([4, 5], nulls)), [4, None])
        others = [numpy.array([0.0, 1.0]), numpy.array([0, 1], "M8[ns]"), numpy.zeros((1, 2), bool), numpy.array(["", "x"])]
        for nulls in (*others, numpy.ma.array([0, 1], mask=[1, 0]), numpy.array(True)):
            with self.assertRaisesRegex(ValueFault, "column a, nulls"):
                read_column(A, Nullable([4, 5], nulls))

    def test_strided_swapped_and_read_only(self) -> None:
        whole = numpy.arange(-3, 3)
        frozen = whole.copy()
        frozen.setflags(write=False)
        for given in (
            whole[::2], whole[::-1], whole.astype(">i8"), whole.astype(">i4"), whole.astype("i2"), frozen, frozen[::2],
            whole.reshape(2, 3)[:, 1], numpy.asfortranarray(whole),
        ):
            self.assertEqual(items(A, given), given.tolist())
        self.assertEqual(items(B, numpy.array([True, False, True])[::2]), [True, True])
        for kind in ("u1", "u2", "u4", "u8", ">u8", "i1", "i4"):
            self.assertEqual(items(A, numpy.array([0, 100], kind)), [0, 100])
            self.assertEqual(items(U, numpy.array([0, 100], kind)), [0, 100])
        self.assertEqual(items(A, numpy.array([], "i8")), [])

    def test_own_width_is_not_copied(self) -> None:
        given = numpy.arange(5)
        self.assertTrue(numpy.shares_memory(numpy.frombuffer(read_column(A, given).values.data, "<i8"), given))

    def test_other_widths_that_do_not_fit_refused(self) -> None:
        self.refused(U, numpy.array([1, 256]), "row 1: 256 is no u8; expected a whole number from 0 to 255", 1)
        self.refused(U, numpy.array([-1], "i1"), "row 0: -1 is no u8", 0)
        self.refused(A, numpy.array([2**63], "u8"), "row 0: 9223372036854775808 is no i64", 0)
        self.refused(Column("c", DType.U64), numpy.array([0, -1]), "row 1: -1 is no u64", 1)
        self.assertEqual(items(Column("c", DType.U64), numpy.array([2**64 - 1], ">u8")), [2**64 - 1])
        self.assertEqual(items(Column("c", DType.I8), numpy.array([-128, 127])), [-128, 127])

    def test_other_dtypes_refused_by_name(self) -> None:
        times = numpy.array(["2026-01-01"], "M8[s]")
        self.refused(A, times, r"an array of datetime64\[s\] is no i64; .*view\('i8'\)")
        self.refused(A, times - times, r"timedelta64\[s\] is no i64")
        for kind in ("f2", "f4", "f8"):
            self.refused(A, numpy.array([1], kind), f"an array of {numpy.dtype(kind)} is no i64; .*declare the column Float32")
        self.refused(A, numpy.array([]), "an array of float64 is no i64")
        for column, given in [
            (A, numpy.array([1j])), (A, numpy.array([True])), (B, numpy.array([1])), (B, numpy.array([1], "u1")), (S, numpy.array([1])),
            (X, numpy.array([1], "u1")), (Z, numpy.array([1])), (A, numpy.zeros(1, "V4")), (A, numpy.zeros(1, "i4,i4")),
        ]:
            self.refused(column, given, f"an array of .* is no {column.dtype.word}; expected")

    def test_texts_and_bytes(self) -> None:
        self.assertEqual(items(S, numpy.array(["é", "", "long text"])), ["é", "", "long text"])
        self.assertEqual(items(S, numpy.array(["a", "b", "c"])[::2]), ["a", "c"])
        self.assertEqual(items(S, numpy.array(["a"]).astype(">U1")), ["a"])
        self.assertEqual(items(X, numpy.array([b"a", b"\xff"])), [b"a", b"\xff"])
        self.refused(S, numpy.array([b"a"]), "row 0: b'a' is no utf8; expected a str", 0)
        self.refused(X, numpy.array(["a"]), "row 0: 'a' is no binary; expected bytes", 0)
        self.refused(A, numpy.array(["1"]), "row 0: '1' is no i64", 0)

    def test_filled_place_of_a_null_is_zero_in_every_width(self) -> None:
        for dtype in DType:
            if dtype.range is not None:
                column = Column("c", dtype, True)
                least, greatest = dtype.range
                self.assertEqual(items(column, [None, least, None, greatest, None]), [None, least, None, greatest, None])


@unittest.skipIf(pandas is None, "pandas isn't installed")
class Pandas(Refusing):
    def test_series_of_numpy_types(self) -> None:
        self.assertEqual(items(A, pandas.Series([1, 2, 3])), [1, 2, 3])
        self.assertEqual(items(A, pandas.Series([1, 2, 3], index=[9, 9, 0])[::2]), [1, 3])
        self.assertEqual(items(A, pandas.Index([1, 2])), [1, 2])
        self.assertEqual(items(A, pandas.RangeIndex(3)), [0, 1, 2])
        self.assertEqual(items(U, pandas.Series([1, 255], dtype="uint8")), [1, 255])
        self.assertEqual(items(B, pandas.Series([True, False])), [True, False])
        self.refused(U, pandas.Series([1, 256]), "row 1: 256 is no u8", 1)

    def test_objects_with_each_null(self) -> None:
        given = pandas.Series(["x", None, pandas.NA, pandas.NaT, NAN, ""], dtype=object)
        self.assertEqual(items(S, given), ["x", None, None, None, None, ""])
        self.assertEqual(items(S, pandas.Index(given)), ["x", None, None, None, None, ""])
        self.assertEqual(items(S, list(given)), ["x", None, None, None, None, ""])
        self.assertEqual(items(A, pandas.Series([1, None, pandas.NA], dtype=object)), [1, None, None])

    def test_types_with_null(self) -> None:
        self.assertEqual(items(A, pandas.Series([2**62 + 1, None, -3], dtype="Int64")), [2**62 + 1, None, -3])
        self.assertEqual(items(A, pandas.Series([1, 2], dtype="Int64")), [1, 2])
        self.assertEqual(items(A, pandas.Series([5, None], dtype="UInt8")), [5, None])
        self.assertEqual(items(A, pandas.array([1, None], dtype="Int32")), [1, None])
        self.assertEqual(items(B, pandas.Series([True, None], dtype="boolean")), [True, None])
        self.assertEqual(items(S, pandas.Series(["a", None, "b"], dtype="string")), ["a", None, "b"])
        self.assertEqual(items(A, Nullable(pandas.Series([1, None, 3], dtype="Int64"), [0, 0, 1])), [1, None, None])
        self.assertEqual(items(A, pandas.Series([None, None], dtype="Int64")), [None, None])
        self.refused(Column("u", DType.U8, True), pandas.Series([None, 1, 256], dtype="Int64"), "row 2: 256 is no u8", 2)
        self.refused(U, pandas.Series([1, None], dtype="Int64"), "row 1: null is no value", 1)

    def test_categories_and_types_of_others_by_their_items(self) -> None:
        self.assertEqual(items(S, pandas.Series(["b", None, "a", "b"], dtype="category")), ["b", None, "a", "b"])
        self.assertEqual(items(A, pandas.CategoricalIndex([7, 5, 7])), [7, 5, 7])
        self.assertEqual(items(S, Nullable(pandas.Categorical(["b", "a"]), [1, 0])), [None, "a"])
        self.assertEqual(items(A, pandas.arrays.SparseArray([0, 1, 0])), [0, 1, 0])
        # A category that no row has may be anything.
        self.assertEqual(items(U, pandas.Categorical([1, 1], [1, 300])), [1, 1])
        self.refused(U, pandas.Categorical([1, 300]), "row 1: 300 is no u8", 1)

    def test_marks_in_series(self) -> None:
        for dtype in (bool, "boolean", object):
            self.assertEqual(items(A, Nullable([4, 5], pandas.Series([False, True], dtype=dtype))), [4, None])
        self.refused(A, Nullable([4, 5], pandas.Series([False, None], dtype="boolean")), "nulls, row 1: <NA> doesn't say", 1)
        self.refused(A, Nullable([4, 5], pandas.DataFrame({0: [0, 0], 1: [1, 1]})), "nulls: a frame has 2 dimensions")

    def test_other_types_refused_by_name(self) -> None:
        times = pandas.to_datetime(["2026-01-01", None])
        self.refused(A, pandas.Series(times), r"datetime64\[ns\] is no i64")
        self.refused(A, times.tz_localize("UTC"), r"pandas' type datetime64\[ns, UTC\] are no i64")
        self.refused(A, pandas.Series([1, None]), "float64 is no i64; .*declare the column Float32")
        self.refused(A, pandas.Series([1.5, None], dtype="Float64"), "pandas' type Float64 are no i64")
        self.refused(A, pandas.Series(["a", "b"], dtype="category"), "row 0: 'a' is no i64", 0)
        self.refused(A, pandas.Series([pandas.Timestamp(0)], dtype=object), "row 0: .* is no i64", 0)
        self.refused(A, pandas.period_range("2026", periods=2), r"row 0: Period\(.* is no i64", 0)
        self.refused(A, pandas.DataFrame({"a": [1]}), "a frame has 2 dimensions; expected one")
        self.refused(A, pandas.MultiIndex.from_tuples([(1, 2)]), "row 0: .* is no i64", 0)
        self.refused(A, pandas.Series(["a"], dtype="string"), "row 0: 'a' is no i64", 0)
        self.refused(S, pandas.Series([1], dtype="Int64"), "is no utf8")


class WithoutAColumn(unittest.TestCase):
    def test_fault_names_the_row_alone(self) -> None:
        with self.assertRaisesRegex(ValueFault, "^row 1: 'x' is no i64") as told:
            read(DType.I64, [1, "x"], Where())
        self.assertEqual((told.exception.column, told.exception.row), (None, 1))


if __name__ == "__main__":
    unittest.main()
