# SPDX-License-Identifier: Apache-2.0
"""Conditions in SQL beside a direct filter of the rows, in which tests that aren't read mean anything."""
from __future__ import annotations

import atexit
import datetime
import itertools
import tempfile
import unittest
import warnings
from collections.abc import Callable, Mapping
from typing import Any, NamedTuple

from hypothesis import configuration, given, settings
from hypothesis import strategies as st

from foalmorrow import (
    PRUNING, Answer, Column, Date, Decimal, DType, Enum, Float64, Footers, PredicateError, Refused, SqlError, Stat, Statistic, Time, Timestamp, UnreadWarning, Uuid, Values, col,
)
from foalmorrow import clickhouse
from foalmorrow.sql import underlined

_HOME = tempfile.TemporaryDirectory()
atexit.register(_HOME.cleanup)
configuration.set_hypothesis_home_dir(_HOME.name)
Truth = bool | None
Row = Mapping[str, Any]

COLUMNS = [Column("n", DType.I8, True), Column("m", DType.I8, True), Column("s", DType.UTF8, True), Column("t", DType.BOOL, True), Column("day", Date(), True)]


class Condition(NamedTuple):
    """A condition: its text, its truth on a row, and the texts of its tests that aren't read."""

    text: str
    truth: Callable[[Row], Truth]
    unread: tuple[str, ...] = ()


def both(left: Truth, right: Truth) -> Truth:
    return False if False in (left, right) else None if None in (left, right) else True


def negated(truth: Truth) -> Truth:
    return None if truth is None else not truth


def known(*values: Any) -> bool:
    return all(value is not None for value in values)


NUMBERS = st.integers(-6, 6)
TEXTS = st.sampled_from(["", "a", "ab", "b", "it's", "é", "a%", "\\"])
COMPARISONS: list[tuple[str, Callable[[Any, Any], bool]]] = [
    ("=", lambda a, b: a == b), ("<>", lambda a, b: a != b), ("!=", lambda a, b: a != b), ("<", lambda a, b: a < b), ("<=", lambda a, b: a <= b),
    (">", lambda a, b: a > b), (">=", lambda a, b: a >= b),
]


def quoted(text: str) -> str:
    return "'" + text.replace("'", "''") + "'"


def compared(left: Any, sign: str, right: Any, spelled: tuple[str, str]) -> Condition:
    """Compares what two operands are of a row: names of columns, or literals in a tuple."""
    compare = dict(COMPARISONS)[sign]

    def value(row: Row, it: Any) -> Any:
        return it[0] if isinstance(it, tuple) else row[it]

    def truth(row: Row) -> Truth:
        a, b = value(row, left), value(row, right)
        return compare(a, b) if known(a, b) else None

    return Condition(f"{spelled[0]} {sign} {spelled[1]}", truth)


def comparisons(name: str, literals: st.SearchStrategy[Any], spell: Callable[[Any], str]) -> st.SearchStrategy[Condition]:
    def make(sign: str, literal: Any, in_front: bool) -> Condition:
        spelled = spell(literal) if literal is not None else "NULL"
        return compared((literal,), sign, name, (spelled, name)) if in_front else compared(name, sign, (literal,), (name, spelled))

    return st.builds(make, st.sampled_from([sign for sign, _ in COMPARISONS]), st.one_of(literals, st.none()), st.booleans())


def between(low: int, high: int, symmetric: bool, is_not: bool) -> Condition:
    def truth(row: Row) -> Truth:
        least, most = (min(low, high), max(low, high)) if symmetric else (low, high)
        found = None if row["n"] is None else least <= row["n"] <= most
        return negated(found) if is_not else found

    return Condition(f"n {'NOT ' * is_not}BETWEEN {'SYMMETRIC ' * symmetric}{low} AND {high}", truth)


def among(values: list[int | None], is_not: bool) -> Condition:
    def truth(row: Row) -> Truth:
        found: Truth = None if row["n"] is None else row["n"] in values or (None if None in values else False)
        return negated(found) if is_not else found

    return Condition(f"n {'NOT ' * is_not}IN ({', '.join('NULL' if it is None else str(it) for it in values)})", truth)


def like(prefix: str, is_not: bool) -> Condition:
    pattern = prefix.replace("\\", "\\\\").replace("%", "\\%") + "%"

    def truth(row: Row) -> Truth:
        found = None if row["s"] is None else row["s"].startswith(prefix)
        return negated(found) if is_not else found

    return Condition(f"s {'NOT ' * is_not}LIKE {quoted(pattern)}", truth)


def fraction(whole: int, sign: str) -> Condition:
    return compared("n", sign, (whole + 0.5,), ("n", f"{whole + 0.5:.1f}"))


def null_test(name: str, is_not: bool) -> Condition:
    return Condition(f"{name} IS {'NOT ' * is_not}NULL", lambda row: (row[name] is None) != is_not)


def unread(place: int) -> Condition:
    text = f"f({place}, ')') = 'é'"
    return Condition(text, lambda row: row["hidden"][place], (text,))


def of_day(sign: str, literal: str) -> Condition:
    """A test of a column of dates against what is no date that is read."""
    return Condition(f"day {sign} {literal}", lambda row: row["hidden"][0], (f"day {sign} {literal}",))


#: Tests of columns whose cells are the values themselves, and tests that aren't read.
PLAIN_LEAVES = [
    comparisons("n", st.integers(-9, 9) | st.sampled_from([-129, 128, 10**30]), str),
    comparisons("s", TEXTS, quoted),
    comparisons("t", st.booleans(), lambda it: str(it).upper()),
    st.builds(lambda sign: compared("n", sign, "m", ("n", "m")), st.sampled_from([sign for sign, _ in COMPARISONS])),
    st.builds(fraction, NUMBERS, st.sampled_from([sign for sign, _ in COMPARISONS])),
    st.builds(between, NUMBERS, NUMBERS, st.booleans(), st.booleans()),
    st.builds(among, st.lists(NUMBERS | st.none(), min_size=1, max_size=4), st.booleans()),
    st.builds(like, TEXTS, st.booleans()),
    st.builds(null_test, st.sampled_from(["n", "s", "t"]), st.booleans()),
    st.just(Condition("t", lambda row: row["t"])),
    st.builds(unread, st.sampled_from([0, 1])),
]


def joined(is_and: bool, left: Condition, right: Condition) -> Condition:
    def truth(row: Row) -> Truth:
        a, b = left.truth(row), right.truth(row)
        return both(a, b) if is_and else negated(both(negated(a), negated(b)))

    return Condition(f"({left.text}) {'AND' if is_and else 'or'} ({right.text})", truth, left.unread + right.unread)


def tested(it: Condition, word: str, wanted: Truth, is_not: bool) -> Condition:
    return Condition(f"({it.text}) IS {'NOT ' * is_not}{word}", lambda row: (it.truth(row) is wanted) != is_not, it.unread)


def extended(inner: st.SearchStrategy[Condition]) -> st.SearchStrategy[Condition]:
    tests = st.sampled_from([("TRUE", True), ("FALSE", False), ("UNKNOWN", None)])
    return st.one_of(
        st.builds(joined, st.booleans(), inner, inner),
        inner.map(lambda it: Condition(f"NOT ({it.text})", lambda row: negated(it.truth(row)), it.unread)),
        st.builds(lambda it, test, is_not: tested(it, *test, is_not), inner, tests, st.booleans()),
    )


def conditions_of(*leaves: st.SearchStrategy[Condition]) -> st.SearchStrategy[Condition]:
    return st.recursive(st.one_of(*leaves), extended, max_leaves=6)


CONDITIONS = conditions_of(*PLAIN_LEAVES, st.builds(of_day, st.sampled_from(["=", ">", "<>"]), st.sampled_from(["DATE '2026-02-30'", "'x'", "f(1)"])))
TRUTHS = st.sampled_from([True, False, None])


@st.composite
def zones(draw: st.DrawFn) -> list[list[Row]]:
    found = []
    for _ in range(draw(st.integers(1, 3))):
        base, has_null = draw(st.integers(-5, 4)), draw(st.sampled_from([0, 1, 3]))

        def cell(values: st.SearchStrategy[Any]) -> Any:
            return None if has_null and draw(st.integers(0, 3)) < has_null else draw(values)

        found.append([
            {
                "n": cell(st.integers(base, base + 2)), "m": cell(st.integers(base - 1, base + 1)), "s": cell(TEXTS), "t": cell(st.booleans()),
                "day": None, "hidden": (draw(TRUTHS), draw(TRUTHS)),
            }
            for _ in range(draw(st.integers(0, 4)))
        ])
    return found


def footers_of(rows: list[list[Row]]) -> Footers:
    return Footers.measure(COLUMNS, [{column.name: [row[column.name] for row in zone] for column in COLUMNS} for zone in rows])


class BesideAModel(unittest.TestCase):
    @settings(max_examples=3000, deadline=None, database=None)
    @given(CONDITIONS, zones())
    def test_no_row_is_lost(self, wanted: Condition, rows: list[list[Row]]) -> None:
        footers = footers_of(rows)
        with warnings.catch_warnings(record=True) as told:
            warnings.simplefilter("always")
            answers = footers.prune(wanted.text)
        for answer, zone in zip(answers, rows, strict=True):
            truths = {wanted.truth(row) is True for row in zone}
            self.assertTrue(answer != Answer.SKIP or truths <= {False}, wanted.text)
            self.assertTrue(answer != Answer.WHOLE or truths <= {True}, wanted.text)
        self.assertEqual(answers.unread, wanted.unread)
        self.assertEqual([it.category for it in told], [UnreadWarning] if wanted.unread else [])

    @settings(max_examples=500, deadline=None, database=None)
    @given(zones(), st.integers(-9, 9), TEXTS)
    def test_is_as_sharp_as_predicates(self, rows: list[list[Row]], limit: int, text: str) -> None:
        footers = footers_of(rows)
        pairs = [
            (f"n > {limit} AND s = {quoted(text)}", (col("n") > limit) & (col("s") == text)),
            (f"NOT (n BETWEEN {limit} AND {limit + 2} OR s IS NULL)", ~(col("n").between(limit, limit + 2) | col("s").is_null())),
        ]
        for condition, predicate in pairs:
            self.assertEqual(list(footers.prune(condition)), list(footers.prune(predicate)), condition)

    @settings(max_examples=1000, deadline=None, database=None)
    @given(st.text(alphabet="nst0. ='\"()<>-ANDORé\\$/*", max_size=24))
    def test_any_text_is_answered_or_refused(self, text: str) -> None:
        footers = footers_of([[]])
        with warnings.catch_warnings():
            warnings.simplefilter("ignore")
            try:
                self.assertEqual(len(footers.prune(text)), 1)
            except SqlError as fault:
                self.assertTrue(0 <= fault.start <= fault.end <= len(text), text)


class Underlines(unittest.TestCase):
    """Conditions whose unread tests are given by their bytes."""

    def test_each_line_has_its_marks(self) -> None:
        self.assertEqual(underlined("f(1) AND\n\n a > 3\nAND g(2)", [(0, 4), (21, 25)]), "f(1) AND\n~~~~ not read\n\n a > 3\nAND g(2)\n    ~~~~ not read")

    def test_a_test_over_lines_is_marked_on_each(self) -> None:
        self.assertEqual(underlined("a > 3 AND f(1,\r\n\t2)", [(10, 19)]), "a > 3 AND f(1,\n          ~~~~ not read\n\t2)\n\t~~ not read")

    def test_tabs_stay_tabs(self) -> None:
        self.assertEqual(underlined("a\t>\t3 AND\tf(1,\t2)", [(10, 17)]), "a\t>\t3 AND\tf(1,\t2)\n \t \t     \t~~~~\t~~ not read")

    def test_places_stand_for_marks_that_may_not_line_up(self) -> None:
        self.assertEqual(underlined("a = 'é' AND f(1)", [(13, 17)]), "a = 'é' AND f(1)\nnot read, at character 12: f(1)")
        self.assertEqual(underlined("f('\x1b') AND g(é)", [(0, 6), (11, 16)]), "f('\x1b') AND g(é)\nnot read, at character 0: f('\x1b')\nnot read, at character 11: g(é)")
        wide = f"a = '{'x' * 120}' AND f(1)"
        self.assertEqual(underlined(wide, [(131, 135)]), f"{wide}\nnot read, at character 131: f(1)")

    def test_all_tests_are_read(self) -> None:
        self.assertEqual([underlined(it, []) for it in ("", "a > 3", "a = 'é'")], ["", "a > 3", "a = 'é'"])


class Texts(unittest.TestCase):
    FOOTERS = Footers.measure([Column("qty", DType.I64), Column("a b", DType.I64)], [{"qty": [1, 5], "a b": [1, 5]}, {"qty": [7, 9], "a b": [7, 9]}])

    def test_unread_tests_are_told_once(self) -> None:
        with self.assertWarns(UnreadWarning) as told:
            answers = self.FOOTERS.prune("qty > 6 AND f(é) = 'ü' AND \"a b\" > 3")
        self.assertEqual(list(answers), [Answer.SKIP, Answer.READ])
        self.assertEqual(answers.unread, ("f(é) = 'ü'", '"a b" > 3'))
        self.assertEqual((answers[1:].unread, (answers | answers).unread), (answers.unread, 2 * answers.unread))
        self.assertEqual(told.filename, __file__)
        with warnings.catch_warnings():
            warnings.simplefilter("error")
            self.assertEqual(self.FOOTERS.prune("qty > 6").unread, ())
            with self.assertRaisesRegex(UnreadWarning, "2 tests aren't read, .*: f\\(1\\) = 1; g\\(2\\) = 2"):
                self.FOOTERS.prune("f(1) = 1 AND g(2) = 2")

    def test_unread_tests_are_underlined(self) -> None:
        with self.assertWarns(UnreadWarning):
            answers = self.FOOTERS.prune("qty > 6\n\tAND f(1) = 'u' AND \"a b\" > 3")
        shown = "qty > 6\n\tAND f(1) = 'u' AND \"a b\" > 3\n\t    ~~~~~~~~~~     ~~~~~~~~~ not read"
        self.assertEqual(answers.explained(), shown)
        self.assertEqual((answers[1:].explained(), (answers | answers).explained()), (shown, f"{shown}\n{shown}"))
        self.assertEqual(self.FOOTERS.prune("qty > 6").explained(), "qty > 6")
        self.assertEqual(self.FOOTERS.prune(col("qty") > 6).explained(), "")

    def test_names_of_several_parts(self) -> None:
        with self.assertWarns(UnreadWarning):
            self.assertEqual(list(self.FOOTERS.prune("t.qty > 6")), [Answer.READ, Answer.READ])
        self.assertEqual(list(self.FOOTERS.prune("t.qty > 6", last_names=True)), [Answer.SKIP, Answer.WHOLE])

    def test_faults_have_their_characters(self) -> None:
        cases = {
            "é = > 3": (4, 4, "no rule reads"), "qty >": (5, 5, "ends too soon"), "qty = 'é": (6, 6, "a quote isn't closed"),
            "'é' = 'é' OR qty = 'x'": (13, 22, "types of qty = 'x' don't fit"), "qty > 3AND": (6, 6, "a number runs into"), "qty > 1 -- é": (8, 8, "a comment"),
            "qty = $1": (6, 6, "a dollar sign"), "c = E'x'": (4, 4, "a word stands right before"), "c = 'x' 'y'": (8, 8, "right behind another"),
            "": (0, 0, "ends too soon"), "(" * 99 + "qty > 1" + ")" * 99: (64, 64, "deeper than 64"),
        }
        for text, (start, end, words) in cases.items():
            with self.assertRaisesRegex(SqlError, words) as told:
                self.FOOTERS.prune(text)
            self.assertEqual((told.exception.start, told.exception.end), (start, end), text)
        with self.assertRaisesRegex(PredicateError, "no Unicode text"):
            self.FOOTERS.prune("qty = '\ud800'")

    def test_no_column_is_named(self) -> None:
        self.assertEqual(list(self.FOOTERS.prune("1 = 2")), [Answer.SKIP, Answer.SKIP])
        self.assertEqual(list(Footers([], [3]).prune("1 = 1")), [Answer.WHOLE])
        with self.assertWarns(UnreadWarning):
            self.assertEqual(list(Footers([], [3]).prune("_0 = 1")), [Answer.READ])

    def test_many_tests_are_not_read(self) -> None:
        with self.assertWarnsRegex(UnreadWarning, "and 997 more"):
            found = self.FOOTERS.prune(" AND ".join(["qty > 6", *["f(1)"] * 1000]))
        self.assertEqual((len(found.unread), list(found)), (1000, [Answer.SKIP, Answer.READ]))

    def test_other_columns_are_not_read(self) -> None:
        torn = Statistic(memoryview(b"\7\7"), Values(DType.UTF8, memoryview(b"\xff"), memoryview(bytes(16)), 2))
        both = Footers([*self.FOOTERS.columns, Column("s", DType.UTF8)], self.FOOTERS.rows, {**self.FOOTERS.statistics, ("s", Stat.MIN): torn})
        self.assertEqual(list(both.prune("qty > 6")), [Answer.SKIP, Answer.WHOLE])
        with self.assertRaisesRegex(Refused, "column s, zone 0, min"):
            both.prune("s > ''")


class OfClickHouse(unittest.TestCase):
    """Conditions that the server answers otherwise where a value is null."""

    COLUMNS = [Column("x", DType.I64, True), Column("y", DType.I64, True), Column("n", DType.I64)]
    CHUNKS = [{"x": [None], "y": [None], "n": [9]}, {"x": [1], "y": [1], "n": [9]}, {"x": [2], "y": [2], "n": [3]}]

    def pruned(self, condition: str, footers: Footers | None = None) -> tuple[list[Answer], tuple[str, ...]]:
        with warnings.catch_warnings():
            warnings.simplefilter("ignore", UnreadWarning)
            answers = (footers or clickhouse._served(Footers.measure(self.COLUMNS, self.CHUNKS))).prune(condition)
        return list(answers), answers.unread

    def test_in_is_left_unread(self) -> None:
        for test, within in (
            ("y NOT IN (1, NULL)", ""), ("x NOT IN (1)", ""), ("x in(1)", ""), ("x NOT IN (NULL)", ""), ("3 NOT IN (1, NULL)", ""),
            ("NOT (x IN (1))", "x IN (1)"), ("(x IN (1)) IS NULL", "x IN (1)"), ("(x IN (1)) IS NOT TRUE", "x IN (1)"),
        ):
            self.assertEqual(self.pruned(test), ([Answer.READ] * 3, (within or test,)), test)
        rest = "n > 5 AND y NOT IN (1, NULL)"
        self.assertEqual(self.pruned(rest), ([Answer.READ, Answer.READ, Answer.SKIP], ("y NOT IN (1, NULL)",)))
        many = "'é IN' <> 'in' AND x IN (1) AND lower('é') = 'é' AND n > 5 AND y not in (2, NULL) AND f(\"é\")"
        self.assertEqual(self.pruned(many), ([Answer.READ, Answer.READ, Answer.SKIP], ("x IN (1)", "lower('é') = 'é'", "y not in (2, NULL)", 'f("é")')))

    def test_nothing_is_read_below_not_and_is_above_or(self) -> None:
        for condition in ("NOT (x = 1 OR y = 1)", "(x = 1 OR y = 1) IS NULL", "n > 5 AND NOT (x = 1)", "NOT (x = 1 AND y = 1)", "(x = 1 AND y = 1) ISNULL"):
            self.assertEqual(self.pruned(condition), ([Answer.READ] * 3, (condition,)))

    def test_other_conditions_are_read(self) -> None:
        plain = Footers.measure(self.COLUMNS, self.CHUNKS)
        for condition in ("x = 1", "x IS NOT NULL AND n > 5", "x = 1 OR y = 2", "NOT (x = 1)", "x <> 1", "(x = 1) IS NULL", "NOT x IS NULL", "'in' = 'NOT (' AND n > 5"):
            self.assertEqual(self.pruned(condition), self.pruned(condition, plain), condition)
            self.assertEqual(self.pruned(condition)[1], ())

    def test_refusals_have_their_characters(self) -> None:
        with self.assertRaises(SqlError) as told:
            self.pruned("x IN (1) AND n IN ('a')")
        self.assertEqual((told.exception.start, told.exception.end), (13, 23))

    def test_pieces_of_such_footers_are_such(self) -> None:
        served = clickhouse._served(Footers.measure(self.COLUMNS, self.CHUNKS))
        pieces = [served.slice(0, 2), served.take(range(0, 2)), served.only(PRUNING), served.merged(), served.slice(0, 1).merge(served.slice(1, 2)), *served.shards(2)]
        for it in [*pieces, clickhouse.ServedFooters.joined(list(served.shards(1)))]:
            self.assertEqual(set(self.pruned("x NOT IN (1)", it)[0]), {Answer.READ})


def aware(moment: datetime.datetime) -> datetime.datetime:
    return moment.replace(tzinfo=datetime.timezone.utc)


class LogicalTypes(unittest.TestCase):
    """Columns of logical types are never compared by the numbers and bytes that they are kept as."""

    def test_each_is_left_unread(self) -> None:
        made = {
            Decimal(9, 2): (["0.01"], "'1'"), Enum(): (["a"], "'a'"), Float64(): ([1.0], "1"),
            Uuid(): (["00000000-0000-0000-0000-000000000000"], "X'00000000000000000000000000000000'"),
        }
        for kind, (values, stored) in made.items():
            footers = Footers.measure([Column("c", kind), Column("n", DType.I64)], [{"c": values, "n": [1]}])
            for condition in (f"c = {stored}", f"c < {stored}", f"NOT c <> {stored}", f"c IN ({stored})"):
                with self.assertWarns(UnreadWarning):
                    self.assertEqual(list(footers.prune(condition)), [Answer.READ], f"{kind}: {condition}")
                with self.assertWarns(UnreadWarning):
                    self.assertEqual(list(footers.prune(f"n > 3 AND {condition}")), [Answer.SKIP], f"{kind}: {condition}")

    def test_values_of_another_type_are_refused(self) -> None:
        kinds = {"day": Date(), "at": Timestamp("us"), "p": Decimal(9, 2), "t": Time("s"), "z": Timestamp("us", "UTC")}
        footers = Footers([Column(name, kind) for name, kind in kinds.items()], [3])
        refused = ["day = 1", "1 <> day", "day IN (DATE '1970-01-01', 2)", "day BETWEEN 1 AND 2", "at > 1.5", "t < 1", "z = 0", "at = TIME '00:00:00'",
                   "p > DATE '1970-01-01'", "p LIKE '1'", "day LIKE '1%'", "day = TRUE", "day = X'00'"]
        for test in refused:
            with self.assertRaisesRegex(SqlError, "the types of .* don't fit") as told:
                footers.prune(f"1 = 1 AND {test} OR 1 = 1")
            self.assertEqual((told.exception.start, told.exception.end), (10, 10 + len(test)), test)

    def test_literals_of_another_writing_are_left_unread(self) -> None:
        kinds = {"day": Date(), "at": Timestamp("us"), "p": Decimal(9, 2), "z": Timestamp("us", "UTC"), "f": Float64()}
        footers = Footers([Column(name, kind) for name, kind in kinds.items()], [3])
        unread = [
            "day = '1970-01-02 00:00'", "day = DATE '1970-01-02 00:00'", "day = DATE '1970-02-30'", "day = DATE '70-01-02'", "day > at", "day + 1 = DATE '1970-01-02'",
            "at = TIMESTAMP '1970-01-01 00:00:00.0000000001'", "at = TIMESTAMP '1970-01-01 00:00:00+01'", "at = TIMESTAMPTZ '1970-01-01 00:00:00+01'", "at < z",
            "z = TIMESTAMP '1970-01-01 00:00:00'", "z = '1970-01-01 00:00:00'", "p = '1.5'", "p = 1 + 1", "f = 1.5", "f IN (1, 2)", "day BETWEEN DATE '1970-01-01' AND at",
        ]
        for condition in unread:
            with self.assertWarns(UnreadWarning):
                answers = footers.prune(f"1 = 1 AND {condition}")
            self.assertEqual(answers.unread, (condition,))

    def test_words_of_calls_are_no_columns(self) -> None:
        kinds = {Date(): ("1999-01-01", "DATE '2020-01-01'"), Timestamp("us"): ("1999-01-01", "TIMESTAMP '2020-01-01'"), Decimal(9, 2): ("1.50", "7")}
        words = ["current_date", "current_timestamp", "localtimestamp", "current_time", "localtime", "current_user", "session_user", "user", "current_role",
                 "current_catalog", "current_schema", "CURRENT_DATE", "LocalTimestamp"]
        for (kind, (value, literal)), word in itertools.product(kinds.items(), words):
            footers = Footers.measure([Column(word, kind, True), Column("n", DType.I64)], [{word: [value], "n": [1]}])
            for test in (f"{word} >= {literal}", f"{literal} <= {word}", f"{word} IN ({literal})", f"{word} BETWEEN {literal} AND {literal}", f"{word} IS NULL"):
                quoted = test.replace(word, f'"{word}"')
                with self.subTest(test, kind=kind.word), self.assertWarns(UnreadWarning):
                    answers = footers.prune(f"n = 1 AND {test}")
                self.assertEqual((list(answers), answers.unread), ([Answer.READ], (test,)))
                self.assertEqual(list(footers.prune(f"n = 1 AND {quoted}")), [Answer.SKIP], quoted)
            with self.assertWarns(UnreadWarning):
                answers = footers.prune(f'"{word}" >= {literal} AND {word} >= {literal}')
            self.assertEqual((list(answers), answers.unread), ([Answer.SKIP], (f"{word} >= {literal}",)))

    @settings(max_examples=1500, deadline=None, database=None)
    @given(st.data())
    def test_dates_timestamps_and_decimals_beside_a_model(self, data: st.DataObject) -> None:
        day, instant, price = (
            st.dates(datetime.date(1969, 12, 28), datetime.date(1970, 1, 4)),
            st.datetimes(datetime.datetime(1969, 12, 31, 23, 59, 57), datetime.datetime(1970, 1, 1, 0, 0, 3)).map(lambda it: it.replace(microsecond=it.microsecond // 500000 * 500000)),
            st.decimals(-3, 3, places=1),
        )
        columns = [Column("day", Date(), True), Column("at", Timestamp("s"), True), Column("p", Decimal(9, 0), True), Column("n", DType.I64, True),
                   Column("z", Timestamp("s", "UTC"), True), Column("t", Time("s"), True)]
        seconds = instant.map(lambda it: it.replace(microsecond=0))
        values = {"day": day, "at": seconds, "p": st.integers(-3, 3), "n": NUMBERS, "z": seconds.map(aware), "t": seconds.map(datetime.datetime.time)}
        rows = data.draw(st.lists(st.fixed_dictionaries({name: it | st.none() for name, it in values.items()}), min_size=1, max_size=3))
        footers = Footers.measure(columns, [{column.name: [row[column.name] for row in rows] for column in columns}])

        def literal(name: str) -> tuple[Any, str]:
            if name == "day":
                value = data.draw(day)
                return value, data.draw(st.sampled_from([f"DATE '{value}'", f"'{value}'", f"date  '{value}'"]))
            if name == "at":
                moment = data.draw(instant)
                return moment, data.draw(st.sampled_from([f"TIMESTAMP '{moment}'", f"'{moment.isoformat()}'"]))
            if name == "z":
                moment = data.draw(instant.map(aware))
                return moment, data.draw(st.sampled_from([f"TIMESTAMPTZ '{moment}'", f"'{moment.astimezone(datetime.timezone(datetime.timedelta(hours=2)))}'"]))
            if name == "t":
                clock = data.draw(instant).time()
                return clock, data.draw(st.sampled_from([f"TIME '{clock}'", f"'{clock}'"]))
            number = data.draw(price)
            return number, f"{number:f}"

        def leaf() -> Condition:
            name = data.draw(st.sampled_from(["day", "at", "p", "z", "t"]))
            (a, spelled), (b, other) = literal(name), literal(name)
            sign, compare = data.draw(st.sampled_from(COMPARISONS))
            forms: list[tuple[str, Callable[[Any], bool]]] = [
                (f"{name} {sign} {spelled}", lambda value: compare(value, a)), (f"{spelled} {sign} {name}", lambda value: compare(a, value)),
                (f"{name} NOT BETWEEN {spelled} AND {other}", lambda value: not a <= value <= b),
                (f"{name} BETWEEN SYMMETRIC {spelled} AND {other}", lambda value: min(a, b) <= value <= max(a, b)),
                (f"{name} IN ({spelled}, {other})", lambda value: value in (a, b)), (f"{name} NOT IN ({spelled})", lambda value: value != a),
            ]
            text, test = data.draw(st.sampled_from(forms))
            return Condition(text, lambda row: None if row[name] is None else test(row[name]))

        wanted = leaf()
        for _ in range(data.draw(st.integers(0, 2))):
            nulls = Condition("at IS NOT NULL", lambda row: row["at"] is not None)
            wanted = joined(data.draw(st.booleans()), wanted, data.draw(st.sampled_from([leaf(), nulls, compared("n", ">", (1,), ("n", "1"))])))
        if data.draw(st.booleans()):
            inner = wanted
            wanted = Condition(f"NOT ({inner.text})", lambda row: negated(inner.truth(row)))
        with warnings.catch_warnings():
            warnings.simplefilter("error")
            answers = footers.prune(wanted.text)
        truths = {wanted.truth(row) is True for row in rows}
        self.assertTrue(answers[0] != Answer.SKIP or truths == {False}, wanted.text)
        self.assertTrue(answers[0] != Answer.WHOLE or truths == {True}, wanted.text)

    def test_dates_skip(self) -> None:
        footers = Footers.measure([Column("day", Date()), Column("n", DType.I64)], [{"day": ["2026-01-01"], "n": [1]}, {"day": ["2026-02-01"], "n": [2]}])
        self.assertEqual(list(footers.prune("day >= DATE '2026-01-15' AND n > 0")), [Answer.SKIP, Answer.WHOLE])
        with self.assertWarnsRegex(UnreadWarning, "f\\(day\\) = 1"):
            answers = footers.prune("(day >= '2026-01-15' OR f(day) = 1) AND n < 2")
        self.assertEqual((list(answers), answers.unread), ([Answer.READ, Answer.SKIP], ("f(day) = 1",)))


if __name__ == "__main__":
    unittest.main()
