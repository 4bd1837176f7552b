# SPDX-License-Identifier: Apache-2.0
"""Footers: made, kept in a file, refused and measured."""
import os
import random
import tempfile
import unittest
from array import array

from foalmorrow import Column, DType, FooterError, Footers, Nullable, Overlap, Precision, Refused, Stat, Untrue, ValueFault, Values
from foalmorrow import col, run, version

A, S = Column("a", DType.I64, True), Column("s", DType.UTF8)


def two_zones() -> Footers:
    """The two parts of the first example, as zones."""
    return Footers.of_values([A], [3, 3], {("a", Stat.MIN): ([1, 8], Precision.EXACT), ("a", Stat.MAX): ([10, 25], bytes([1, 2]))})


class Files(unittest.TestCase):
    def test_round_trip(self) -> None:
        footers = Footers.of_values([A, S], [1, 2], {("a", Stat.SUM): ([-1, 2], 1), ("s", Stat.MAX): (["", "é"], bytes([2, 1]))})
        with tempfile.TemporaryDirectory() as folder:
            path = os.path.join(folder, "footers")
            footers.save(path, "a note")
            self.assertEqual(Footers.load_with_note(path), (footers, "a note"))
            self.assertEqual(os.listdir(folder), ["footers"])

    def test_spoilt(self) -> None:
        data = two_zones().to_bytes()
        for spoilt in [b"", data[:-1], data[:30], b"x" + data[1:], data[:-9] + bytes([data[-9] ^ 1]) + data[-8:], data + b"\0"]:
            with self.assertRaises(FooterError):
                Footers.from_bytes(spoilt)

    def test_misfits(self) -> None:
        for given in [{("b", Stat.MIN): ([1], 1)}, {("s", Stat.SUM): ([1], 1)}, {("a", Stat.MIN): ([1, 2], 1)}]:
            with self.assertRaises(FooterError):
                Footers.of_values([A, S], [1], given)
        with self.assertRaises(ValueFault):
            Footers.of_values([A], [1], {("a", Stat.MIN): (array("d", [1]), 1)})
        with self.assertRaises(FooterError):
            Footers([A, A], [])
        with self.assertRaises(FooterError):
            Footers.joined([two_zones(), Footers([S], [1])])


class OfValues(unittest.TestCase):
    def test_none_in_an_exact_bound_is_absent(self) -> None:
        given = {("a", Stat.MIN): ([None, 8], Precision.EXACT), ("a", Stat.MAX): ([None, 9], bytes([1, 2]))}
        footers = Footers.of_values([A], [1, 1], given)
        self.assertEqual((footers.at(0), footers.at(1)), ({}, {("a", Stat.MIN): (1, 8), ("a", Stat.MAX): (2, 9)}))
        self.assertEqual(list(footers.prune(col("a") == -5)), [0, 1])

    def test_how_a_value_is_known(self) -> None:
        for known in (Precision.INEXACT, 2, [Precision.INEXACT], [2], b"\2", bytearray(b"\2"), array("B", [2]), iter([2])):
            self.assertEqual(Footers.of_values([A], [1], {("a", Stat.MIN): ([5], known)}).at(0), {("a", Stat.MIN): (2, 5)})
        for known in (3, -1, 10**5000, True, 1.0, "1", None, [3], [None], [True], b"\3", [1.5]):
            with self.assertRaisesRegex(ValueFault, "column a, min", msg=type(known)):
                Footers.of_values([A], [1], {("a", Stat.MIN): ([5], known)})
        with self.assertRaisesRegex(FooterError, "column a, min: 1 values, of which 2"):
            Footers.of_values([A], [1], {("a", Stat.MIN): ([5], [1, 1])})

    def test_value_of_another_type_refused_by_zone(self) -> None:
        for values, zone in [([1, 2.5], 1), ([True, 1], 0), ([1, 2**63], 1), (["1", 2], 0)]:
            with self.assertRaisesRegex(ValueFault, f"column a, min, zone {zone}: .* is no i64; expected") as told:
                Footers.of_values([A], [1, 1], {("a", Stat.MIN): (values, 1)})
            self.assertEqual((told.exception.column, told.exception.row), ("a", zone))

    def test_rows_of_each_form(self) -> None:
        for rows in ([3, 4], (3, 4), range(3, 5), array("i", [3, 4]), iter([3, 4])):
            self.assertEqual(list(Footers([A], rows).rows), [3, 4])
        for rows in ([-1], [1.0], [True], [2**64], [None], "1", 5, None):
            with self.assertRaisesRegex(ValueFault, "^rows", msg=repr(rows)):
                Footers([A], rows)

    def test_columns_that_are_none_refused(self) -> None:
        for column in [Column(5, DType.I64), Column("a", 9), Column("a", DType.I64, 1.5), Column("a", DType.I64, None)]:
            with self.assertRaisesRegex(FooterError, "is no column"):
                Footers([column], [1])
        with self.assertRaisesRegex(FooterError, "is no Stat"):
            Footers.of_values([A], [1], {("a", 4): ([1], 1)})


class Overlaps(unittest.TestCase):
    def bounds(self, *pairs: tuple[int, int]) -> Footers:
        given = {("a", Stat.MIN): ([it[0] for it in pairs], 1), ("a", Stat.MAX): ([it[1] for it in pairs], 2)}
        return Footers.of_values([A], [1] * len(pairs), given)

    def test_sorted_and_mixed(self) -> None:
        self.assertEqual(self.bounds((0, 4), (5, 9), (10, 12)).overlap("a"), Overlap(1.0, 1))
        self.assertEqual(self.bounds((0, 9), (5, 9), (9, 12)).overlap("a"), Overlap(2.0, 3))
        self.assertEqual(self.bounds((0, 9), (0, 9)).overlap("a"), Overlap(2.0, 2))

    def test_unknown(self) -> None:
        self.assertEqual(Footers([A], [1, 1]).overlap("a"), Overlap(2.0, 2))
        self.assertEqual(Footers([A], []).overlap("a"), Overlap(0.0, 0))
        with self.assertRaisesRegex(FooterError, "no column b"):
            Footers([A], [1]).overlap("b")

    def test_each_type_as_by_counting(self) -> None:
        rng = random.Random(1)
        for dtype in DType:
            if dtype == DType.NULL:
                continue
            some = {
                DType.BOOL: [False, True], DType.UTF8: ["", "a", "é", "\U0010ffff", "\uffff"], DType.BINARY: [b"", b"a", b"\xff"],
            }.get(dtype, dtype.range and [*dtype.range, 0, 5])
            for _ in range(20):
                count = rng.randrange(9)
                bounds = [(rng.choice(some), rng.choice(some)) for _ in range(count)]
                known = [bytes(rng.choice([0, 1, 2, 2]) for _ in range(count)) for _ in range(2)]
                given = {("c", Stat.MIN): ([it[0] for it in bounds], known[0]), ("c", Stat.MAX): ([it[1] for it in bounds], known[1])}
                found = Footers.of_values([Column("c", dtype)], [1] * count, given).overlap("c")
                there = [it for it, *codes in zip(bounds, *known) if all(codes) and it[0] <= it[1]]
                anywhere = count - sum(all(codes) for codes in zip(*known))
                depths = [anywhere + sum(low <= value <= high for low, high in there) for value, _ in there] or [anywhere]
                self.assertEqual(found, Overlap(sum(depths) / len(depths), max(depths)), (dtype, bounds, known))


class Program(unittest.TestCase):
    def test_answers(self) -> None:
        self.assertEqual(run(b"column a i64\npart\nrow 1\nwhere eq col a lit i64 1\n"), (0, b"skipped\nrows 0:0\n"))
        self.assertEqual(run(b""), (2, b"line 1: bad\n"))

    def test_long_answers(self) -> None:
        text = b"column a i64\npart\n" + b"row 11\n" * 2000 + b"where gt col a lit i64 10\n"
        status, answer = run(text)
        self.assertEqual((status, answer.endswith(b" 0:1999\n")), (0, True))


    def test_version_of_the_library(self) -> None:
        self.assertRegex(version(), r"^0\.3\.\d+$")


class Measuring(unittest.TestCase):
    def test_each_type(self) -> None:
        for dtype in DType:
            if dtype.range is not None:
                least, greatest = dtype.range
                footers = Footers.measure([Column("c", dtype)], [{"c": [least, greatest]}])
                self.assertEqual(footers.at(0)["c", Stat.MIN], (Precision.EXACT, least))
                self.assertEqual(footers.at(0)["c", Stat.MAX], (Precision.EXACT, greatest))
        truths = Footers.measure([Column("c", DType.BOOL)], [{"c": [True, False]}])
        self.assertEqual(truths.at(0)["c", Stat.SUM], (Precision.EXACT, 1))
        nulls = Footers.measure([Column("c", DType.NULL)], [{"c": [None, None]}])
        self.assertEqual(nulls.at(0)["c", Stat.NULL_COUNT], (Precision.EXACT, 2))
        data = Footers.measure([Column("c", DType.BINARY)], [{"c": [b"\xff", b""]}])
        self.assertEqual(data.at(0)["c", Stat.MAX], (Precision.EXACT, b"\xff"))

    def test_nulls(self) -> None:
        footers = Footers.measure([A, Column("t", DType.UTF8, True)], [{"a": Nullable(array("q", [5, 7]), [1, 0]), "t": ["x", None]}])
        self.assertEqual(footers.at(0)["a", Stat.MIN], (Precision.EXACT, 7))
        self.assertEqual(footers.at(0)["t", Stat.NULL_COUNT], (Precision.EXACT, 1))
        self.assertEqual(list(footers.rows), [2])

    def test_long_texts(self) -> None:
        footers = Footers.measure([S], [{"s": ["a" * 5000, "b" * 9000]}])
        self.assertEqual(footers.at(0)["s", Stat.MAX], (Precision.EXACT, "b" * 9000))

    def test_no_rows(self) -> None:
        self.assertNotIn(("a", Stat.MIN), Footers.measure([A], [{"a": []}]).at(0))

    def test_misfits(self) -> None:
        with self.assertRaises(FooterError):
            Footers.measure([A, S], [{"a": [1]}])
        with self.assertRaises(FooterError):
            Footers.measure([A, S], [{"a": [1], "s": []}])
        with self.assertRaises(ValueFault):
            Footers.measure([S], [{"s": [None]}])
        with self.assertRaises(ValueFault):
            Footers.measure([A], [{"a": [2**63]}])

    def test_checked(self) -> None:
        footers = two_zones()
        self.assertIsNone(footers.check(0, {"a": [1, 5, 10]}))
        self.assertEqual(footers.check(0, {"a": [1, 5, 11]}), ("a", Stat.MAX))
        self.assertEqual(footers.check(1, {"a": [9, None, 20]}), ("a", Stat.MIN))
        self.assertIsNone(footers.check(1, {"a": [8, None, 20]}))

    def test_row_count_is_checked(self) -> None:
        footers = two_zones()
        for chunk in ([1, 10], [1, 5, 6, 10]):
            self.assertEqual(footers.check(0, {"a": chunk}), Untrue("a", "rows"))
        self.assertEqual(Footers([A], [2]).check(0, {"a": [1, 2, 3]}), Untrue("a", "rows"))
        self.assertIsNone(Footers([A], [3]).check(0, {"a": [1, 2, 3]}))
        nulls = Footers.measure([Column("z", DType.NULL)], [{"z": [None] * 2}])
        self.assertEqual(nulls.check(0, {"z": [None] * 3}), Untrue("z", "rows"))
        self.assertEqual(Footers([Column("z", DType.NULL)], [2]).check(0, {"z": [None] * 3}), Untrue("z", "rows"))

    def test_check_of_a_zone_that_is_not_there(self) -> None:
        for zone in (-1, 2):
            with self.assertRaises(IndexError):
                two_zones().check(zone, {"a": []})

    def test_longer_column_is_named(self) -> None:
        with self.assertRaisesRegex(FooterError, "column s has 2 rows, and column a has 1"):
            Footers.measure([A, S], [{"a": [1], "s": ["x", "y"]}])

    def test_chunk_that_names_no_columns_refused(self) -> None:
        for chunk in ([1], "a", b"a", None, 5, [("a", [1])]):
            with self.assertRaisesRegex(FooterError, "names no columns"):
                Footers.measure([A], [chunk])  # type: ignore[list-item]
        with self.assertRaisesRegex(FooterError, "names no columns"):
            Footers.measure([A], {"a": [1]})  # type: ignore[arg-type]

    def test_heap_that_is_no_text_refused(self) -> None:
        with self.assertRaisesRegex(Refused, "column s, row 1"):
            Footers.measure([S], [{"s": Values.of_heap(DType.UTF8, b"a\xff", array("Q", [1, 2]))}])

    def test_array_longer_or_shorter_than_its_rows_refused(self) -> None:
        lengths = [(DType.I64, 24, 0), (DType.I64, 8, 0), (DType.I64, 16, 16), (DType.UTF8, 5, 8), (DType.UTF8, 5, 24), (DType.NULL, 2, 0)]
        for dtype, data, ends in lengths:
            with self.assertRaisesRegex(ValueFault, "bytes .*for 2 values of .*; expected"):
                Values(dtype, memoryview(bytes(data)), memoryview(bytes(ends)), 2)


class NullCounts(unittest.TestCase):
    """Columns that aren't nullable have no null, whatever the footers leave out."""

    def footers(self, nullable: bool, given: dict | None = None, rows: tuple = (1, 2, 0)) -> Footers:
        return Footers.of_values([Column("c", DType.I64, nullable)], rows, given or {})

    def test_exact_zero_where_nothing_is_known(self) -> None:
        self.assertEqual(list(self.footers(False).prune(col("c").is_null())), [1, 1, 0])
        self.assertEqual(list(self.footers(False).prune(col("c").is_not_null())), [2, 2, 0])
        self.assertEqual(list(self.footers(True).prune(col("c").is_null())), [0, 0, 0])

    def test_whole_without_a_null_count(self) -> None:
        given = {("c", Stat.MIN): ([5, 5, 5], 1), ("c", Stat.MAX): ([9, 9, 9], 1)}
        self.assertEqual(list(self.footers(False, given).prune(col("c") > 1)), [2, 2, 0])
        self.assertEqual(list(self.footers(True, given).prune(col("c") > 1)), [0, 0, 0])

    def test_zones_that_know_it_keep_it(self) -> None:
        given = {("c", Stat.NULL_COUNT): ([7, 1, None], bytes([0, 2, 0]))}
        footers = self.footers(False, given, (1, 1, 1))
        self.assertEqual(list(footers.prune(col("c").is_not_null())), [2, 0, 2])
        self.assertEqual(footers.at(0), {})

    def test_explained(self) -> None:
        told = self.footers(False).explain(col("c").is_null())
        self.assertEqual(
            [[key[1] for key in told[zone].leaves[0].missing] for zone in (0, 2)], [[Stat.MIN, Stat.MAX], [Stat.MIN, Stat.MAX, Stat.NULL_COUNT]],
        )

    def test_columns_of_nulls_gain_none(self) -> None:
        footers = Footers([Column("z", DType.NULL)], [3])
        self.assertNotEqual(list(footers.prune(col("z").is_null())), [1])


if __name__ == "__main__":
    unittest.main()
