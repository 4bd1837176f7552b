# SPDX-License-Identifier: Apache-2.0
"""Predicates and their texts."""
import copy
import datetime
import decimal
import doctest
import pickle
import threading
import unittest

import foalmorrow.predicate
from foalmorrow import Column, DType, Predicate, PredicateError, col, opaque
from foalmorrow import Float64
from foalmorrow.predicate import Compared, Dialect

try:
    import numpy
except ImportError:
    numpy = None

COLUMNS = [Column("n", DType.U8, True), Column("s", DType.UTF8), Column("b", DType.BOOL), Column("x", DType.BINARY), Column("z", DType.NULL)]


def load_tests(_: object, tests: unittest.TestSuite, __: object) -> unittest.TestSuite:
    """The examples of the module's own page too."""
    tests.addTests(doctest.DocTestSuite(foalmorrow.predicate))
    return tests


class PredicateTexts(unittest.TestCase):
    def test_each_comparison(self) -> None:
        for made, word in [
            (col("n") == 3, "eq"), (col("n") != 3, "ne"), (col("n") > 3, "gt"), (col("n") >= 3, "ge"), (col("n") < 3, "lt"),
            (col("n") <= 3, "le"),
        ]:
            self.assertEqual(made.text(COLUMNS), f"{word} col n lit u8? 3")

    def test_joined(self) -> None:
        made = ((col("n") > 3) & (col("b") == True)) | ~col("s").is_null()  # noqa: E712
        self.assertEqual(made.text(COLUMNS), "or and gt col n lit u8? 3 eq col b lit bool true not isnull col s")

    def test_ranges(self) -> None:
        self.assertEqual(col("n").between(1, 9).text(COLUMNS), "between <= <= col n lit u8? 1 lit u8? 9")
        self.assertEqual(col("n").between(1, 9, low_strict=True, high_strict=True).text(COLUMNS), "between < < col n lit u8? 1 lit u8? 9")

    def test_texts_and_bytes(self) -> None:
        self.assertEqual((col("s") == 'a "b" \\').text(COLUMNS), 'eq col s lit utf8 "a \\"b\\" \\\\"')
        self.assertEqual((col("x") == b"\x00\xff").text(COLUMNS), "eq col x lit binary x00ff")
        self.assertEqual(col("s").like("a%", negated=True, ignore_case=True).text(COLUMNS), 'notilike col s lit utf8 "a%"')

    def test_null(self) -> None:
        self.assertEqual(Compared("eq", "s", None).text(COLUMNS), "eq col s lit utf8? null")
        self.assertEqual(Compared("eq", "z", None).text(COLUMNS), "eq col z lit null null")
        self.assertEqual(col("n").is_not_null().text(COLUMNS), "notnull col n")

    def test_two_columns(self) -> None:
        self.assertEqual((col("n") < col("n")).text(COLUMNS), "lt col n col n")

    def test_without_not(self) -> None:
        n, s = col("n"), col("s")
        for made, plain in [
            (~(n > 3), "le col n lit u8? 3"),
            (~~(n == 3), "eq col n lit u8? 3"),
            (~((n < 3) | s.is_null()), "and ge col n lit u8? 3 notnull col s"),
            (~(~(n <= 3) & s.is_not_null()), "or le col n lit u8? 3 isnull col s"),
            (~n.between(1, 9), "or lt col n lit u8? 1 gt col n lit u8? 9"),
            (n.between(1, 9), "between <= <= col n lit u8? 1 lit u8? 9"),
            (~s.like("a%"), 'notlike col s lit utf8 "a%"'),
            ((n != 3) & ~(n >= 4), "and ne col n lit u8? 3 lt col n lit u8? 4"),
        ]:
            self.assertEqual(made.without_not().text(COLUMNS), plain)

    def test_sql(self) -> None:
        made = ~((col("n") > 3) | col("s").like("it's%")) & (col("b") == True) & (col("x") != b"\x01")  # noqa: E712
        self.assertEqual(made.sql(COLUMNS), """((NOT (("n" > 3) OR ("s" LIKE 'it''s%'))) AND ("b" = true) AND ("x" <> '\\x01'))""")
        self.assertEqual((col("n") < col("n")).sql(COLUMNS), '("n" < "n")')

    def test_many_values(self) -> None:
        made = col("n").is_in(range(200))
        self.assertEqual(len(made.leaves()), 200)
        self.assertEqual(made.text(COLUMNS).count("or"), 199)

    def test_refused(self) -> None:
        for made in [
            col("m") > 3, col("n") > 256, col("n") > -1, col("n") > "3", col("s") > 3, col("b") == 1, col("n").like("a"), col("n") < col("m"),
        ]:
            with self.assertRaises(PredicateError):
                made.text(COLUMNS)

    def test_literals_of_any_python_value_refused_by_name(self) -> None:
        for value in [1.5, float("nan"), [1], {}, object(), 10**5000, -(10**5000), "x", b"x", True, (1,), 1j]:
            for made in (col("n") == value, col("n").between(value, 1), col("n").is_in([value])):
                for spell in (made.text, made.sql):
                    with self.assertRaisesRegex(PredicateError, "column n: .* is no u8; expected a whole number from 0 to 255"):
                        spell(COLUMNS)
                self.assertTrue(repr(made).startswith("n "))
        for made in [col("b") == 1, col("b") == 0, col("s") == b"x", col("x") == "x", col("z") == 0, col("s") == "\ud800", col("s").like(5)]:
            with self.assertRaises(PredicateError):
                made.text(COLUMNS)

    def test_lists_that_are_none_refused(self) -> None:
        for values in ("abc", b"abc", 5, None, memoryview(bytes(4)).cast("B", (2, 2))):
            with self.assertRaisesRegex(PredicateError, "is_in takes a list"):
                col("s").is_in(values)

    def test_list_of_no_values_is_false(self) -> None:
        for values in ([], (), iter([]), range(0)):
            self.assertEqual((col("s").is_in(values).text(COLUMNS), (~col("s").isin(values)).without_not().text(COLUMNS)), ("lit bool false", "lit bool true"))

    def test_null_refused_with_what_to_write(self) -> None:
        n = col("n")
        for make in (
            lambda: n == None, lambda: n != None, lambda: n > None, lambda: None == n, lambda: n.is_in([1, None]), lambda: n.between(None, 1),  # noqa: E711
            lambda: n.between(1, None),
        ):
            with self.assertRaisesRegex(PredicateError, r"write col\('n'\).is_null\(\) or col\('n'\).is_not_null\(\)"):
                make()

    def test_closed_ends(self) -> None:
        for closed, signs in (("both", "<= <="), ("left", "<= <"), ("right", "< <="), ("neither", "< <")):
            self.assertEqual(col("n").between(1, 9, closed=closed).text(COLUMNS), f"between {signs} col n lit u8? 1 lit u8? 9")
        with self.assertRaisesRegex(PredicateError, "says nothing of ends"):
            col("n").between(1, 9, closed="inclusive")

    def test_startswith(self) -> None:
        for prefix, pattern in (("a", "a%"), ("", "%"), ("50%_\\", "50\\%\\_\\\\%")):
            self.assertEqual(col("s").startswith(prefix), col("s").like(pattern))
        for prefix in (b"a", None, 5, ("a", "b")):
            with self.assertRaisesRegex(PredicateError, "startswith takes one str"):
                col("s").startswith(prefix)

    def test_dialect_without_null_keeps_not_before_floats(self) -> None:
        class Plain(Dialect):
            has_null = False

        columns = [Column("x", Float64(), True), Column("n", DType.U8)]
        # Of NaN a comparison and its opposite may both be false.
        made = ~((col("x") > 1.5) | (col("n") > 3) | (col("x") == 2.5))
        self.assertEqual(made.sql(columns, Plain()), '((NOT ("x" > 1.5)) AND ("n" <= 3) AND ("x" <> 2.5))')

    def test_opaque(self) -> None:
        made = (col("n") > 3) & ~opaque("lower(s) = 'x'")
        self.assertEqual((repr(made), made.names()), ("n > 3 AND (NOT (lower(s) = 'x'))", ["n"]))
        self.assertEqual(made.sql(COLUMNS), """(("n" > 3) AND (NOT (lower(s) = 'x')))""")
        self.assertEqual(made.without_not().sql(COLUMNS), """(("n" > 3) AND (NOT (lower(s) = 'x')))""")
        with self.assertRaisesRegex(PredicateError, "is opaque"):
            made.text(COLUMNS)
        with self.assertRaises(PredicateError):
            opaque(5)

    def test_name_that_the_language_lacks_refused_in_a_text(self) -> None:
        for name in ("a b", "a.b", "é", "1a", "", "a" * 65, "a\n", "a lit i64 3"):
            columns = [Column(name, DType.I64)]
            with self.assertRaisesRegex(PredicateError, "a name in a text"):
                (col(name) > 3).text(columns)
            self.assertEqual((col(name) > 3).text(columns, {name: "c0"}), "gt col c0 lit i64 3")

    def test_line_feed_in_a_literal(self) -> None:
        self.assertEqual((col("s") == "a\nb").text(COLUMNS), 'eq col s lit utf8 "a\nb"')


class Misuse(unittest.TestCase):
    """Python's own words and signs say what to write."""

    def refused(self, words: str, *made: object) -> None:
        for make in made:
            with self.assertRaisesRegex(TypeError, words):
                make()  # type: ignore[operator]

    def test_truth_beside_a_predicate(self) -> None:
        p = col("n") > 3
        self.refused("leave out True, or write the predicate alone", lambda: p & True, lambda: True & p, lambda: p | True, lambda: True | p)
        self.refused("None is none", lambda: p & None, lambda: None | p)
        self.refused("put comparisons beside it in parentheses", lambda: p & 3, lambda: 3 | p)

    def test_words_of_python(self) -> None:
        p, q = col("n") > 3, col("n") < 9
        self.refused("write p & q for p and q, p | q for p or q, ~p for not p", lambda: p and q, lambda: p or q, lambda: not p, lambda: bool(p))
        self.refused(r"between\(low, high\)", lambda: 3 < col("n") < 9)

    def test_column_as_a_predicate(self) -> None:
        p, b = col("n") > 3, col("b")
        self.refused(
            r"write \(col\('b'\) == True\)", lambda: p & b, lambda: b & p, lambda: p | b, lambda: b | p, lambda: ~b, lambda: not b,
            lambda: b and p,
        )
        self.refused("in parentheses", lambda: col("n") > 3 & col("b"))


class Trees(unittest.TestCase):
    """Predicates of any depth take no stack: each runs in a thread with a small one."""

    def in_a_thread(self, work: object) -> None:
        faults: list[BaseException] = []

        def run() -> None:
            try:
                work()  # type: ignore[operator]
            except BaseException as fault:  # noqa: BLE001
                faults.append(fault)

        old = threading.stack_size(256 * 1024)
        self.addCleanup(threading.stack_size, old)
        thread = threading.Thread(target=run)
        thread.start()
        thread.join()
        threading.stack_size(old)
        if faults:
            raise faults[0]

    def walked(self, made: Predicate, leaves: int) -> None:
        columns = [Column("n", DType.I64)]
        self.assertEqual((len(made.leaves()), len(made.names())), (leaves, leaves))
        text = made.text(columns)
        self.assertEqual(text.count("col"), leaves)
        self.assertEqual(made.sql(columns).count("("), made.sql(columns).count(")"))
        self.assertEqual(repr(made).count("n "), leaves)
        self.assertNotIn("not", made.without_not().text(columns).replace("notnull", ""))
        for same in (pickle.loads(pickle.dumps(made)), copy.copy(made), copy.deepcopy(made)):
            self.assertEqual((same, hash(same)), (made, hash(made)))
        self.assertNotEqual(made, ~made)

    def test_chain_to_the_left(self) -> None:
        def work() -> None:
            made = col("n") == 0
            for place in range(1, 20_000):
                made = made | (col("n") == place)
            self.walked(made, 20_000)

        self.in_a_thread(work)

    def test_chain_to_the_right(self) -> None:
        def work() -> None:
            made = col("n") == 0
            for place in range(1, 20_000):
                made = (col("n") == place) & made
            self.walked(made, 20_000)

        self.in_a_thread(work)

    def test_nots(self) -> None:
        def work() -> None:
            made = col("n") == 0
            for _ in range(50_001):
                made = ~made
            self.walked(made, 1)
            self.assertEqual(made.without_not().text([Column("n", DType.I64)]), "ne col n lit i64 0")

        self.in_a_thread(work)

    def test_and_in_or_in_and(self) -> None:
        def work() -> None:
            made = col("n") == 0
            for place in range(5000):
                made = ~((col("n") > place) & (made | (col("n") < -place)))
            self.walked(made, 10_001)

        self.in_a_thread(work)

    def test_two_hundred_thousand_built_and_dropped(self) -> None:
        def work() -> None:
            made = col("n") == 0
            for place in range(200_000):
                made = made | (col("n") == place)
            self.assertEqual(len(made.leaves()), 200_001)
            del made

        self.in_a_thread(work)

    def test_list_of_a_hundred_thousand(self) -> None:
        made = col("n").is_in(range(100_000))
        self.assertEqual(made.text([Column("n", DType.I64)]).count("or "), 99_999)

    def test_same_trees_alone_are_equal(self) -> None:
        n, s = col("n"), col("s")
        different = [
            n == 1, n == True, n == "1", Compared("eq", "n", None), n != 1, s == 1, n == s, n == n, s == n,  # noqa: E712
            n.between(1, 2), n.between(1, 2, low_strict=True),
            n.is_null(), n.is_not_null(), s.like("a"), s.like("a", negated=True), s.like("a", ignore_case=True), ~(n == 1),
            (n == 1) & (n == 2), (n == 2) & (n == 1), (n == 1) | (n == 2), (n == 1) & (n == 2) & (n == 3), (n == 1) & ((n == 2) & (n == 3)),
        ]
        for i, left in enumerate(different):
            for k, right in enumerate(different):
                self.assertEqual(left == right, i == k, (left, right))
            self.assertEqual((left, hash(left)), (pickle.loads(pickle.dumps(left)), hash(left)))
            self.assertNotEqual(left, 5)
        self.assertEqual(len(set(different)), len(different))

    def test_shown_as_sql(self) -> None:
        n, s = col("n"), col("s")
        for made, text in [
            ((n > 3) & ~(s.like("a%", negated=True) | n.is_null()), "n > 3 AND (NOT (s NOT LIKE 'a%' OR n IS NULL))"),
            (n.between(1, 2, closed="left") | (n == s), "(n >= 1 AND n < 2) OR n = s"), (n.between(1, 2), "n BETWEEN 1 AND 2"),
            (~((s != "it's") & n.is_not_null()), "(NOT (s <> 'it''s' AND n IS NOT NULL))"), (col("a b") == True, '"a b" = TRUE'),  # noqa: E712
            ((col("x") == b"a") | s.like("A", ignore_case=True), "x = X'61' OR s ILIKE 'A'"), (n.isin([]), "FALSE"),
            (col("d") >= datetime.date(2026, 1, 2), "d >= DATE '2026-01-02'"), (col("f", "ieee") < 1.5, "f < 1.5 /* NaN: ieee */"),
            (col("t") < datetime.datetime(2026, 1, 2, 3), "t < TIMESTAMP '2026-01-02 03:00:00'"), (n == decimal.Decimal("1.50"), "n = 1.50"),
        ]:
            self.assertEqual(repr(made), text)


@unittest.skipIf(numpy is None, "numpy isn't installed")
class Scalars(unittest.TestCase):
    def test_of_numpy_on_either_side(self) -> None:
        for made, plain in [
            (col("n") > numpy.int64(3), "gt col n lit u8? 3"),
            (numpy.int64(3) < col("n"), "gt col n lit u8? 3"),
            (numpy.uint8(3) == col("n"), "eq col n lit u8? 3"),
            (col("b") == numpy.bool_(True), "eq col b lit bool true"),
            (col("s") == numpy.str_("a"), 'eq col s lit utf8 "a"'),
            (col("x") == numpy.bytes_(b"a"), "eq col x lit binary x61"),
            (col("n").between(numpy.int8(1), numpy.int64(2)), "between <= <= col n lit u8? 1 lit u8? 2"),
            (col("n").is_in(numpy.array([1, 2])), "or eq col n lit u8? 1 eq col n lit u8? 2"),
            (col("n").is_in([numpy.int64(1), 2]), "or eq col n lit u8? 1 eq col n lit u8? 2"),
        ]:
            self.assertEqual(made.text(COLUMNS), plain)
        self.assertEqual(col("n") > numpy.int64(3), col("n") > 3)

    def test_of_numpy_refused(self) -> None:
        for value in [numpy.float64(3), numpy.bool_(True), numpy.timedelta64(3, "s"), numpy.datetime64(3, "s"), numpy.array([3]), numpy.array(3)]:
            with self.assertRaisesRegex(PredicateError, "column n: .* is no u8"):
                (col("n") == value).text(COLUMNS)
        with self.assertRaises(PredicateError):
            (col("b") == numpy.int64(1)).text(COLUMNS)
        with self.assertRaisesRegex(PredicateError, "nothing is equal to null"):
            col("n") == numpy.datetime64("NaT")
        with self.assertRaises(TypeError):
            numpy.bool_(True) & (col("n") > 3)


if __name__ == "__main__":
    unittest.main()
