# SPDX-License-Identifier: Apache-2.0
"""Pruning, merging, explaining: beside a direct filter of the rows, and of every field and type."""
import io
import os
import pickle
import random
import re
import threading
import unittest
from array import array
from collections.abc import Callable

from foalmorrow import PRUNING, Answer, Answers, Column, DType, FooterError, Footers, Precision, Predicate, PredicateError, Refused, Stat
from foalmorrow import Statistic, ValueFault, Values, col
from foalmorrow.predicate import Compared

try:
    import numpy
except ImportError:
    numpy = None

SEED = int(os.environ.get("FOALMORROW_SEED", "1"))
COLUMNS = [Column("i", DType.I64, True), Column("u", DType.U8), Column("s", DType.UTF8, True), Column("b", DType.BOOL, True), Column("x", DType.BINARY)]
TEXTS = ["", "a", "ab", "b", "ba", "é", "\U0010ffff", 'q"\\']
Row = dict[str, object]
Test = Callable[[Row], "bool | None"]
TESTS = {"==": lambda a, b: a == b, "!=": lambda a, b: a != b, ">": lambda a, b: a > b, ">=": lambda a, b: a >= b, "<": lambda a, b: a < b, "<=": lambda a, b: a <= b}


def a_text(rng: random.Random, base: int) -> str:
    return "abc"[base % 3] + rng.choice(TEXTS)


def some_rows(rng: random.Random) -> list[Row]:
    """Rows of a zone lie near one another, so that some zones can be skipped."""
    base, nulls = rng.randrange(20), rng.choice([0, 0, 0.2, 0.9])
    rows = []
    for _ in range(rng.randrange(5)):
        row: Row = {"i": base + rng.randrange(4) - 10, "u": base + rng.randrange(3), "s": a_text(rng, base), "b": rng.random() < 0.5, "x": a_text(rng, base).encode()}
        rows.append({name: None if name in "isb" and rng.random() < nulls else value for name, value in row.items()})
    return rows


def chunk_of(columns: list[Column], rows: list[Row]) -> dict[str, list]:
    return {column.name: [row[column.name] for row in rows] for column in columns}


def comparison(name: str, word: str, other: object) -> tuple[Predicate, Test]:
    def test(row: Row) -> bool | None:
        return None if row[name] is None or other is None else TESTS[word](row[name], other)

    if other is None:
        return Compared({"==": "eq", "!=": "ne", ">": "gt", ">=": "ge", "<": "lt", "<=": "le"}[word], name, None), test
    return TESTS[word](col(name), other), test


def a_leaf(rng: random.Random) -> tuple[Predicate, Test]:
    number, word = rng.randrange(24), rng.choice(list(TESTS))
    kind = rng.randrange(11)
    if kind < 3:
        return comparison("i", word, number - 11)
    if kind == 3:
        return comparison("u", word, number)
    if kind == 4:
        return comparison("s", word, a_text(rng, number))
    if kind == 5:
        return comparison("b", word, rng.random() < 0.5)
    if kind == 6:
        return comparison("x", word, a_text(rng, number).encode())
    if kind == 7:
        low, high, strict = number - 12, number - 9, rng.random() < 0.5
        return col("i").between(low, high, low_strict=strict), lambda row: None if row["i"] is None else (low < row["i"] if strict else low <= row["i"]) and row["i"] <= high
    if kind == 8:
        name = rng.choice("isbu")
        return (col(name).is_null(), lambda row: row[name] is None) if rng.random() < 0.5 else (col(name).is_not_null(), lambda row: row[name] is not None)
    if kind == 9:
        return comparison("i", word, None)
    prefix, negated = rng.choice("abc") + rng.choice(["", "b", "é"]), rng.random() < 0.3
    expression = re.compile(re.escape(prefix) + ".*", re.DOTALL)
    return col("s").like(prefix + "%", negated=negated), lambda row: None if row["s"] is None else (expression.fullmatch(row["s"]) is not None) != negated


def a_predicate(rng: random.Random, depth: int = 3) -> tuple[Predicate, Test]:
    kind = rng.randrange(4) if depth else 3
    if kind == 3:
        return a_leaf(rng)
    left, left_test = a_predicate(rng, depth - 1)
    if kind == 2:
        return ~left, lambda row: None if left_test(row) is None else not left_test(row)
    right, right_test = a_predicate(rng, depth - 1)
    decides = kind == 0

    def joined(row: Row) -> bool | None:
        sides = (left_test(row), right_test(row))
        return decides if decides in sides else None if None in sides else not decides

    return (left | right if decides else left & right), joined


def weakened(rng: random.Random, footers: Footers) -> Footers:
    """The same footers with bounds that are wider, inexact or absent."""
    statistics = {}
    for key, it in footers.statistics.items():
        known = bytes(rng.choice([code, code, 2 if key[1] in PRUNING else 0, 0]) if code else 0 for code in it.known)
        statistics[key] = Statistic(memoryview(known), it.values)
    return Footers(footers.columns, footers.rows, statistics)


class RandomTables(unittest.TestCase):
    def compare(self, answers: Answers, zones: list[list[Row]], test: Test, place: object) -> None:
        self.assertEqual(len(answers), len(zones))
        for answer, rows in zip(answers, zones):
            wanted = sum(test(row) is True for row in rows)
            if answer == Answer.SKIP:
                self.assertEqual(wanted, 0, (SEED, place, rows))
            if answer == Answer.WHOLE:
                self.assertEqual(wanted, len(rows), (SEED, place, rows))

    def test_no_wanted_row_is_lost(self) -> None:
        rng, counts = random.Random(SEED), [0, 0, 0]
        for table in range(10_000):
            zones = [some_rows(rng) for _ in range(rng.randrange(4))]
            predicate, test = a_predicate(rng)
            footers = Footers.measure(COLUMNS, [chunk_of(COLUMNS, rows) for rows in zones], PRUNING)
            footers = weakened(rng, footers) if table % 4 == 0 else footers
            answers = footers.prune(predicate)
            self.compare(answers, zones, test, (table, predicate))
            self.assertEqual(footers.prune(predicate, normalize=True), answers)
            for answer in answers:
                counts[answer] += 1
        self.assertGreater(min(counts), 500, counts)

    def test_merged_as_from_left_to_right(self) -> None:
        rng = random.Random(SEED)
        for table in range(500):
            zones = [some_rows(rng) for _ in range(rng.randrange(1, 9))]
            footers = Footers.measure(COLUMNS, [chunk_of(COLUMNS, rows) for rows in zones], list(Stat))
            footers = weakened(rng, footers) if table % 3 == 0 else footers
            one_by_one = footers.slice(0, 1)
            for zone in range(1, len(footers)):
                one_by_one = one_by_one.merge(footers.slice(zone, zone + 1))
            self.assertEqual(footers.merged(), one_by_one, (SEED, table))
            rows = [row for zone in zones for row in zone]
            self.assertIsNone(footers.only(PRUNING).merged().check(0, chunk_of(COLUMNS, rows)), (SEED, table))
            predicate, test = a_predicate(rng)
            self.compare(footers.merged().prune(predicate), [rows], test, (table, predicate))

    def test_pieces_answer_the_same(self) -> None:
        rng = random.Random(SEED)
        zones = [some_rows(rng) for _ in range(200)]
        footers = Footers.measure(COLUMNS, [chunk_of(COLUMNS, rows) for rows in zones])
        for _ in range(100):
            predicate, _ = a_predicate(rng)
            whole = footers.prune(predicate)
            for size in (1, 7, 64):
                codes = b"".join(piece.prune(predicate).codes for piece in footers.shards(size))
                self.assertEqual(Answers(codes), whole)


#: Of each type a least value, a greatest one, and one between them that the greatest reaches and the least doesn't.
ENDS = {
    DType.BOOL: (False, True, True),
    DType.U8: (0, 255, 255),
    DType.U16: (256, 65535, 257),
    DType.U32: (1, 2**31, 2**31),
    DType.U64: (2**32, 2**64 - 1, 2**64 - 1),
    DType.I8: (-128, 127, -127),
    DType.I16: (-32768, -1, -1),
    DType.I32: (-5, 2**30, 0),
    DType.I64: (-(2**63), 2**63 - 1, 0),
    DType.UTF8: ('a "b" \\', "é" * 300, 'a "b" \\\x01'),
    DType.BINARY: (b"", b"\xff\x00", b"\xff"),
}


class EachType(unittest.TestCase):
    def test_pruned_and_merged(self) -> None:
        for dtype, (low, high, limit) in ENDS.items():
            for nullable in (False, True):
                column = Column("c", dtype, nullable)
                given = {("c", Stat.MIN): ([low, low, high], 1), ("c", Stat.MAX): ([low, high, high], 2), ("c", Stat.NULL_COUNT): ([0, 0, 0], 1)}
                footers = Footers.of_values([column], [7, 8, 9], given)
                self.assertEqual(list(footers.prune(col("c") >= limit)), [Answer.SKIP, Answer.READ, Answer.WHOLE], dtype)
                merged = footers.merge(footers)
                self.assertEqual(merged.at(1), {("c", Stat.MIN): (1, low), ("c", Stat.MAX): (2, high), ("c", Stat.NULL_COUNT): (1, 0)}, dtype)
                self.assertEqual(list(merged.rows), [14, 16, 18])
                loaded, _ = Footers.from_bytes(merged.to_bytes("a note of any length"))
                self.assertEqual(loaded.prune(col("c") >= limit), footers.prune(col("c") >= limit))
                self.assertEqual(merged.take(range(0, 3, 2)).at(1)["c", Stat.MIN], (1, high))

    def test_nulls(self) -> None:
        footers = Footers.measure([Column("z", DType.NULL)], [{"z": [None] * 3}, {"z": []}])
        self.assertEqual(footers.prune(col("z").is_null())[0], Answer.WHOLE)
        self.assertEqual(footers.prune(col("z").is_not_null())[0], Answer.SKIP)
        self.assertEqual(footers.merged().at(0)["z", Stat.NULL_COUNT], (1, 3))

    def test_every_statistic_is_merged(self) -> None:
        column, every = Column("c", DType.I32, True), list(Stat)
        left, right = [1, 2], [3, 5]
        chunks = [Footers.measure([column], [{"c": values}], every) for values in (left, right, left + right)]
        merged, direct = chunks[0].merge(chunks[1]).at(0), chunks[2].at(0)
        self.assertEqual({key[1] for key in merged}, set(every))
        for key in direct:
            self.assertEqual(merged[key], direct[key], key)

    def test_every_form_takes_part(self) -> None:
        column = Column("c", DType.I64, True)
        footers = Footers.measure([column], [{"c": [None, None]}, {"c": [1, 20]}], PRUNING)
        no_nulls, empty = (col("c") != 3) & col("c").is_not_null(), (col("c") > 9) & (col("c") < 3)
        self.assertEqual(list(footers.prune(no_nulls)), [Answer.SKIP, Answer.READ])
        self.assertEqual(list(footers.prune(empty)), [Answer.SKIP, Answer.SKIP])
        self.assertEqual(list(footers.prune(col("c") > 3)), [Answer.SKIP, Answer.READ])

    def test_bounds_that_no_value_leaves(self) -> None:
        column = Column("c", DType.I64, True)
        given = {("c", Stat.MIN): ([2**63 - 1], 2), ("c", Stat.MAX): ([-(2**63)], 2), ("c", Stat.NULL_COUNT): ([1], 1)}
        footers = Footers.of_values([column], [1], given)
        self.assertIsNone(footers.check(0, {"c": [None]}))
        for wanted in [col("c") == 3, col("c") > 3, col("c") < 3, col("c").between(1, 9), col("c").is_not_null()]:
            self.assertEqual(list(footers.prune(wanted)), [Answer.SKIP])
        self.assertEqual(list(footers.prune(col("c").is_null())), [Answer.WHOLE])


class Named(unittest.TestCase):
    """Columns of any name are pruned by, and only those that the predicate names are handed over."""

    def footers(self, *names: str) -> Footers:
        given = {(name, stat): ([place, place + 5], 1) for place, name in enumerate(names) for stat in (Stat.MIN, Stat.MAX)}
        return Footers.of_values([Column(name, DType.I64) for name in names], [1, 1], given)

    def test_names_that_the_language_lacks(self) -> None:
        names = ["a b", "a.b", "é", "a" * 65, "", "1", "col", "c1", "c0", 'q"', "a\nb", "\x00", "\U0010ffff"]
        footers = self.footers(*names)
        for place, name in enumerate(names):
            self.assertEqual(list(footers.prune(col(name) == place)), [Answer.WHOLE, Answer.SKIP], name)
            self.assertEqual(footers.explain(col(name) > place)[0].leaves[0].answer, Answer.SKIP)
        every = col(names[0]) == 0
        for place, name in enumerate(names):
            every = every & (col(name) == place)
        self.assertEqual(list(footers.prune(every)), [Answer.WHOLE, Answer.SKIP])
        self.assertEqual(list(footers.prune(col("c0") < col("c1"))), [Answer.SKIP, Answer.SKIP])

    def test_words_know_the_names_of_the_language(self) -> None:
        footers = self.footers("a b", "a", "é")
        self.assertEqual(list(footers.prune_where("gt col a lit i64 3")), [Answer.SKIP, Answer.WHOLE])
        with self.assertRaises(PredicateError):
            footers.prune_where("gt col é lit i64 3")

    def test_other_columns_are_not_read(self) -> None:
        torn = Statistic(memoryview(b"\7\7"), Values(DType.UTF8, memoryview(b"\xff"), memoryview(bytes(16)), 2))
        footers = self.footers("a")
        both = Footers([*footers.columns, Column("s", DType.UTF8)], [1, 1], {**footers.statistics, ("s", Stat.MIN): torn})
        self.assertEqual(list(both.prune(col("a") > 3)), [Answer.SKIP, Answer.WHOLE])
        with self.assertRaisesRegex(Refused, "column s, zone 0, min"):
            both.prune(col("s") > "")
        with self.assertRaisesRegex(Refused, "column s, zone 0, min"):
            both.prune((col("a") > 3) & (col("s") > ""))

    def test_what_is_no_predicate_refused(self) -> None:
        for wanted in (col("a"), True, None, 5, b"isnull col a"):
            with self.assertRaisesRegex(TypeError, "is no predicate"):
                self.footers("a").prune(wanted)  # type: ignore[arg-type]

    def test_literal_with_a_line_feed(self) -> None:
        column = Column("s", DType.UTF8)
        footers = Footers.measure([column], [{"s": ["a\nb"]}, {"s": ["a\nc"]}])
        self.assertEqual(list(footers.prune(col("s") == "a\nb")), [Answer.WHOLE, Answer.SKIP])


class Deep(unittest.TestCase):
    """Chains of any length are answered; what nests deeper than the limit is refused in words."""

    def setUp(self) -> None:
        self.footers = Footers.measure([Column("a", DType.I64)], [{"a": [1, 5]}, {"a": [200_000]}])

    def test_chain_of_ten_thousand(self) -> None:
        left = right = col("a") >= 0
        for place in range(10_000):
            left, right = left & (col("a") > -place), (col("a") > -place) & right
        for made in (left, right):
            self.assertEqual(list(self.footers.prune(made)), [Answer.WHOLE, Answer.WHOLE])

    def test_list_of_a_hundred_thousand(self) -> None:
        self.assertEqual(list(self.footers.prune(col("a").is_in(range(10, 100_010)))), [Answer.SKIP, Answer.SKIP])
        self.assertEqual(list(self.footers.prune(col("a").is_in(range(100_000)))), [Answer.WHOLE, Answer.SKIP])

    def test_chain_of_two_hundred_thousand(self) -> None:
        made = col("a") == 0
        for place in range(-200_000, 0):
            made = made | (col("a") == place)
        self.assertEqual(list(self.footers.prune(made)), [Answer.SKIP, Answer.SKIP])

    def test_deeper_than_the_limit_refused(self) -> None:
        for count in (129, 5_000, 100_000):
            made = col("a") > 0
            for _ in range(count):
                made = ~made
            with self.assertRaisesRegex(PredicateError, "nests deeper than 128 levels"):
                self.footers.prune(made)
            self.assertEqual(len(self.footers.prune(made.without_not())), 2)
        mixed = col("a") > 0
        for place in range(5000):
            mixed = (mixed & (col("a") > place)) | (col("a") < -place)
        with self.assertRaisesRegex(PredicateError, "nests deeper than 128 levels"):
            self.footers.prune(mixed)

    def test_last_level_answered_on_a_small_stack(self) -> None:
        made = col("a") > 0
        for _ in range(127):
            made = ~made
        with self.assertRaisesRegex(PredicateError, "nests deeper than 128 levels"):
            self.footers.prune(~made)
        told: list[object] = []
        old = threading.stack_size(256 * 1024)
        thread = threading.Thread(target=lambda: told.append(list(self.footers.prune(made))))
        thread.start()
        thread.join()
        threading.stack_size(old)
        self.assertEqual(told, [[Answer.SKIP, Answer.SKIP]])


class ManyZones(unittest.TestCase):
    def footers(self, count: int) -> Footers:
        numbers = array("q", range(count))
        return Footers.of_values([Column("a", DType.I64)], array("Q", [10]) * count, {("a", Stat.MIN): (numbers, 1), ("a", Stat.MAX): (numbers, 1)})

    def test_answers(self) -> None:
        answers = self.footers(1000).prune((col("a") < 10) | (col("a") >= 998))
        self.assertEqual(list(answers.kept), [*range(10), 998, 999])
        self.assertEqual(len(answers.skipped), 988)
        self.assertEqual(answers.runs(), [(0, 10), (998, 1000)])
        self.assertEqual(answers[-1], answers[999])
        self.assertEqual(list(answers[9:11]), [Answer.WHOLE, Answer.SKIP])
        self.assertEqual(list(Answers(b"\0\1\2\2").whole), [2, 3])
        self.assertIn("988 skipped", repr(answers))
        self.assertEqual(Answers(b"\0\0\1\2\2") | Answers(b"\0\1\0\0\2"), Answers(b"\0\1\1\2\2"))
        self.assertEqual((list(answers), answers.index(Answer.SKIP)), ([answers[place] for place in range(1000)], 10))
        with self.assertRaises(ValueError):
            Answers(b"\0") | Answers(b"")
        with self.assertRaises(ValueError):
            Answers(b"\0\3")

    @unittest.skipIf(numpy is None, "numpy isn't installed")
    def test_numpy(self) -> None:
        low, high, known = numpy.arange(5), numpy.arange(5) + 1, numpy.ones(5, numpy.uint8)
        footers = Footers.of_values([Column("a", DType.I64)], array("Q", [1] * 5), {("a", Stat.MIN): (low, known), ("a", Stat.MAX): (high, known)})
        # The arrays are the caller's own, and so are the answers' codes.
        self.assertTrue(numpy.shares_memory(numpy.frombuffer(footers.statistics["a", Stat.MIN].values.data, "<i8"), low))
        answers = footers.prune(col("a") > 3)
        self.assertEqual(numpy.asarray(answers).tolist(), [1, 1, 1, 0, 2])
        self.assertTrue(numpy.shares_memory(numpy.asarray(answers), numpy.frombuffer(answers.codes, "u1")))
        low[4] = 9
        self.assertEqual(footers.at(4)["a", Stat.MIN], (1, 9))

    def test_no_zones(self) -> None:
        footers = self.footers(0)
        self.assertEqual((len(footers.prune(col("a") > 3)), len(footers.merged()), len(footers.merge(footers))), (0, 0, 0))


class Refusals(unittest.TestCase):
    def known(self, dtype: DType, values: Values, code: int = 1) -> Footers:
        count = len(values)
        return Footers([Column("c", dtype)], [1] * count, {("c", Stat.MAX): Statistic(memoryview(bytes([1] * (count - 1) + [code])), values)})

    def test_predicates(self) -> None:
        footers = Footers([Column("c", DType.I64)], [1])
        words = ["gt col d lit i64 3", "gt col c lit i32 3", "gt col c", "col c", "lit bool true true", "gt col c lit i64 3\n", "", "\udc80"]
        for wanted in [col("d") > 1, col("c") > "1", col("c") > 2**63, col("c").like("a"), *words]:
            with self.assertRaises(PredicateError, msg=repr(wanted)):
                footers.prune(wanted)

    def test_places(self) -> None:
        heap, ends = b"ab\xff", array("Q", [1, 2, 3])
        with self.assertRaisesRegex(Refused, "column c, zone 2, max: a text isn't UTF-8") as told:
            self.known(DType.UTF8, Values.of_heap(DType.UTF8, heap, ends)).prune(col("c") > "a")
        self.assertEqual((told.exception.column, told.exception.zone, told.exception.stat), ("c", 2, Stat.MAX))
        with self.assertRaisesRegex(Refused, "column c, zone 1, max: a text begins behind its end"):
            self.known(DType.BINARY, Values.of_heap(DType.BINARY, heap, array("Q", [2, 1, 3]))).prune(col("c") > b"a")
        with self.assertRaisesRegex(Refused, "column c, zone 2, max: a byte above 2"):
            self.known(DType.I64, Values.of(DType.I64, [1, 2, 3]), 3).prune(col("c") > 1)
        with self.assertRaisesRegex(Refused, "column c, zone 1, max: .* a truth is above 1"):
            self.known(DType.BOOL, Values(DType.BOOL, memoryview(b"\0\2"), memoryview(b""), 2)).prune(col("c") == True)  # noqa: E712
        wrong = self.known(DType.UTF8, Values.of_heap(DType.UTF8, heap, ends))
        right = self.known(DType.UTF8, Values.of(DType.UTF8, ["a", "b", "c"]))
        with self.assertRaisesRegex(Refused, "column c, zone 2, max, of the left footers: a text isn't UTF-8"):
            wrong.merge(right)
        with self.assertRaisesRegex(Refused, "column c, zone 2, max, of the right footers: a text isn't UTF-8"):
            right.merge(wrong)
        with self.assertRaisesRegex(Refused, "column c, row 1: a text isn't UTF-8"):
            Footers.measure([Column("c", DType.UTF8)], [{"c": Values.of_heap(DType.UTF8, b"a\xff", array("Q", [1, 2]))}])

    def test_errors_travel(self) -> None:
        for make in (lambda: self.known(DType.I64, Values.of(DType.I64, [1, 2]), 3).prune(col("c") > 1), lambda: Values.of(DType.I64, [1, "x"])):
            with self.assertRaises((Refused, ValueFault)) as told:
                make()
            same = pickle.loads(pickle.dumps(told.exception))
            self.assertEqual((type(same), str(same), vars(same)), (type(told.exception), str(told.exception), vars(told.exception)))

    def test_misfits(self) -> None:
        one, two = Footers([Column("c", DType.I64)], [1]), Footers([Column("c", DType.I64)], [1, 1])
        for left, right in [(one, two), (one, Footers([Column("d", DType.I64)], [1]))]:
            with self.assertRaises(FooterError):
                left.merge(right)
        with self.assertRaisesRegex(FooterError, "64 bits"):
            most = Footers([Column("c", DType.I64)], [2**64 - 1])
            most.merge(one)


class Mutations(unittest.TestCase):
    """Each byte of the arrays changed in turn: every call answers, or refuses by an error of its own."""

    COLUMNS = [Column("a", DType.I16, True), Column("s", DType.UTF8, True), Column("b", DType.BOOL)]
    ROWS = [{"a": [1, None], "s": ["é", "b"], "b": [True, False]}, {"a": [7], "s": [None], "b": [True]}]
    WANTED = (col("a") > 3) & (col("s") >= "b") | (col("b") == True)  # noqa: E712

    def answered(self, footers: Footers) -> None:
        for call in (
            lambda: footers.prune(self.WANTED), lambda: footers.merge(footers), footers.merged, lambda: footers.check(0, self.ROWS[0]),
            lambda: footers.overlap("s"), lambda: footers.at(0), lambda: Footers.from_bytes(footers.to_bytes()),
        ):
            try:
                call()
            except (Refused, FooterError, ValueFault):
                pass

    def test_changed_bytes_are_answered_or_refused(self) -> None:
        footers = Footers.measure(self.COLUMNS, self.ROWS)
        for key, it in footers.statistics.items():
            arrays = [bytes(it.known), bytes(it.values.data), bytes(it.values.ends)]
            for which, array_ in enumerate(arrays):
                for at in range(len(array_)):
                    for value in {0, 1, 2, 3, 127, 128, 195, 255, array_[at] ^ 1}:
                        changed = [memoryview(data) for data in arrays]
                        changed[which] = memoryview(array_[:at] + bytes([value]) + array_[at + 1 :])
                        values = Values(it.values.dtype, changed[1], changed[2], 2)
                        self.answered(Footers(footers.columns, footers.rows, {**footers.statistics, key: Statistic(changed[0], values)}))


class Explained(unittest.TestCase):
    def footers(self, count: int = 3) -> Footers:
        given = {("a", Stat.MIN): (list(range(0, 10 * count, 10)), 1), ("a", Stat.MAX): (list(range(9, 10 * count, 10)), bytes([1] * (count - 1) + [0]))}
        return Footers.of_values([Column("a", DType.I64, True), Column("s", DType.UTF8, True)], range(1, count + 1), given)

    def test_as_data(self) -> None:
        told = self.footers().explain((col("a") < 5) & col("s").is_null())
        self.assertEqual(list(told.answers), [Answer.READ, Answer.SKIP, Answer.SKIP])
        self.assertEqual([leaf.text for leaf in told.leaves], ['("a" < 5)', '("s" IS NULL)'])
        zone = told[0]
        self.assertEqual((zone.zone, zone.rows, zone.answer), (0, 1, Answer.READ))
        self.assertEqual([leaf.answer for leaf in zone.leaves], [Answer.READ, Answer.READ])
        self.assertEqual(zone.leaves[1].missing, (("s", Stat.MIN), ("s", Stat.MAX), ("s", Stat.NULL_COUNT)))
        self.assertIn(("a", Stat.MAX), told[-1].leaves[0].missing)
        self.assertEqual((told.rows(Answer.SKIP), told.strip()), (5, "r.."))
        self.assertIn("zone 1, 2 rows: skip", str(told))

    def test_of_many_zones(self) -> None:
        told = self.footers(120).explain(col("a") > 700)
        page = str(told).split("\n")
        self.assertEqual(page[4], "." * 70 + "r" * 50)
        self.assertEqual(told.most_tested()[0].zone, 119)
        self.assertEqual(sum(line.startswith("zone") for line in page), 10)


try:
    import matplotlib
except ImportError:
    matplotlib = None


@unittest.skipIf(matplotlib is None, "matplotlib isn't installed")
class Pictures(unittest.TestCase):
    def test_a_bar_a_zone(self) -> None:
        matplotlib.use("Agg")
        given = {("a", Stat.MIN): ([0, 10, 20, 30], 1), ("a", Stat.MAX): ([9, 19, 29, 30], bytes([1, 1, 0, 1])), ("a", Stat.NULL_COUNT): ([0] * 4, 1)}
        footers = Footers.of_values([Column("a", DType.I64), Column("s", DType.UTF8)], [5] * 4, given)
        axes = footers.plot("a", col("a") >= 15)
        bars = {it.get_label(): [path.get_extents().get_points().tolist() for path in it.get_paths()] for it in axes.collections}
        self.assertEqual(bars["skipped (1)"], [[[-0.4, 0], [0.4, 9]]])
        self.assertEqual(bars["to be read (1)"], [[[0.6, 10], [1.4, 19]]])
        self.assertEqual(bars["whole (2)"], [[[2.6, 30], [3.4, 30]]])
        words = [text.get_text() for text in axes.get_legend().get_texts()]
        self.assertIn("bounds not known", words)
        self.assertIn("the predicate's values", words)
        with self.assertRaises(PredicateError):
            footers.plot("b", col("a") >= 15)
        axes.figure.savefig(io.BytesIO())
        Footers([Column("s", DType.UTF8)], [1]).plot("s", col("s") > "a").figure.savefig(io.BytesIO())


class Ranges(unittest.TestCase):
    def test_of_a_column(self) -> None:
        from foalmorrow.plot import ranges

        a, b = col("a"), col("b")
        for predicate, wanted in [
            ((a > 3) & (a < 9), [(3, 9)]),
            ((a < 3) | (a >= 9), [(None, 3), (9, None)]),
            (~((a < 3) | (a >= 9)), [(3, 9)]),
            ((a < 3) | (b > 4), [(None, None)]),
            ((a < 3) & (b > 4), [(None, 3)]),
            ((a == 3) | (a == 5) | a.between(4, 8), [(3, 3), (4, 8)]),
            (~a.between(4, 8), [(None, 4), (8, None)]),
            (a != 3, [(None, None)]),
            (~(a != 3), [(3, 3)]),
            (a.is_null(), []),
            (~a.is_null(), [(None, None)]),
            (a.like("pre%"), [("pre", "pre\U0010ffff")]),
            (a.like("pre%", negated=True), [(None, None)]),
            ((a > 5) & (a < 3), []),
        ]:
            self.assertEqual(ranges(predicate, "a"), wanted, predicate)


if __name__ == "__main__":
    unittest.main()
