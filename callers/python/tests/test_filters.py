# SPDX-License-Identifier: Apache-2.0
"""Filter tuples as predicates: the trees, what they mean beside pyarrow's rules, and what is refused."""
import itertools
import random
import unittest

from foalmorrow import Predicate, PredicateError, col
from foalmorrow.filters import of_filters
from foalmorrow.predicate import Compared, NullTest

VALUES = [None, 1, 2, 3]


def truth(predicate: Predicate, row: dict) -> bool | None:
    """What a predicate is of a row, in three truths."""

    def leaf(it: Predicate) -> bool | None:
        value = row[it.names()[0]]
        if isinstance(it, NullTest):
            return (value is None) == it.wanted
        assert isinstance(it, Compared)
        return None if value is None or it.other is None else COMPARE[it.operator](value, it.other)

    def joined(word: str, left: bool | None, right: bool | None) -> bool | None:
        strong = word == "or"
        return strong if strong in (left, right) else None if None in (left, right) else not strong

    return predicate.folded(leaf, joined, lambda it: None if it is None else not it)


COMPARE = {
    "eq": lambda a, b: a == b, "ne": lambda a, b: a != b, "lt": lambda a, b: a < b,
    "le": lambda a, b: a <= b, "gt": lambda a, b: a > b, "ge": lambda a, b: a >= b,
}
WORDS = {"=": "eq", "==": "eq", "!=": "ne", "<": "lt", "<=": "le", ">": "gt", ">=": "ge"}


def arrow(it: tuple, row: dict) -> bool:
    """Whether pyarrow keeps a row under one filter: it asks whether the value is in the list, null being a value there."""
    name, word, wanted = it
    value = row[name]
    if word in ("in", "not in"):
        return (value in wanted) == (word == "in")
    if word in ("is", "is not"):
        return (value is None) == (word == "is")
    return value is not None and COMPARE[WORDS[word]](value, wanted)


class Filters(unittest.TestCase):
    def test_trees(self) -> None:
        a, b = col("a"), col("b")
        self.assertEqual(of_filters([("a", ">", 3)]), a > 3)
        self.assertEqual(of_filters([[("a", "=", 1), ("b", "<=", 2)], [("a", "!=", 3)]]), (a == 1) & (b <= 2) | (a != 3))
        self.assertEqual(of_filters([("a", "in", (1, 2))]), a.is_in([1, 2]))
        self.assertEqual(of_filters([("a", "in", {1, None})]), a.is_in([1]) | a.is_null())
        self.assertEqual(of_filters([("a", "not in", [1])]), ~a.is_in([1]) | a.is_null())
        self.assertEqual(of_filters([("a", "is", None), ("b", "is not", None)]), a.is_null() & b.is_not_null())
        self.assertEqual(of_filters((("a", "<", 1),)), a < 1)

    def test_not_in_selects_null(self) -> None:
        # As ~field.isin([1]) of pyarrow does. Read as NOT IN of SQL, null would be lost.
        self.assertIs(truth(of_filters([("a", "not in", [1])]), {"a": None}), True)
        self.assertIs(truth(~col("a").is_in([1]), {"a": None}), None)

    def test_each_filter_beside_arrow(self) -> None:
        lists = [list(it) for size in range(4) for it in itertools.combinations(VALUES, size)]
        every = [("a", word, value) for word in WORDS for value in (1, 2, 3)] + [("a", word, it) for word in ("in", "not in") for it in lists]
        for it in [*every, ("a", "is", None), ("a", "is not", None)]:
            for value in VALUES:
                self.assertEqual(truth(of_filters([it]), {"a": value}) is True, arrow(it, {"a": value}), (it, value))

    def test_random_filters(self) -> None:
        rng = random.Random(1)
        for _ in range(500):
            def one() -> tuple:
                word = rng.choice([*WORDS, "in", "not in", "is", "is not"])
                value = None if word.startswith("is") else rng.choice([1, 2, 3]) if word in WORDS else rng.sample(VALUES, rng.randrange(4))
                return (rng.choice("ab"), word, value)

            filters = [[one() for _ in range(rng.randrange(1, 4))] for _ in range(rng.randrange(1, 4))]
            predicate = of_filters(filters)
            for row in ({"a": a, "b": b} for a in VALUES for b in VALUES):
                wanted = any(all(arrow(it, row) for it in every) for every in filters)
                self.assertEqual(truth(predicate, row) is True, wanted, (filters, row))

    def test_long_lists_are_not_deep(self) -> None:
        of_filters([("a", "==", value) for value in range(5000)])
        of_filters([[("a", "==", value)] for value in range(5000)])

    def test_refusals(self) -> None:
        for given, words in (
            ([], "are no filters"),
            ("a > 3", "are no filters"),
            (("a", ">", 3), "are no filters"),
            ([[]], "a list of filters is empty"),
            ([("a", ">", 3), [("b", ">", 3)]], "tuples and lists stand in one list"),
            ([["a", ">", 3]], "'a' is no filter"),
            ([("a", ">")], "is no filter"),
            ([(3, ">", 3)], "is no filter"),
            ([("a", "~", 3)], "column a: '~' is no operator; expected one of =, ==, "),
            ([("a", ["in"], 3)], "column a: .'in'. is no operator"),
            ([("a", "in", "abc")], "column a: in takes a list of values, and 'abc' is none"),
            ([("a", "not in", 3)], "column a: not in takes a list"),
            ([("a", "==", [1])], "column a: == compares with one value"),
            ([("a", "==", None)], "column a: == with null selects no row; expected 'is' or 'is not'"),
            ([("a", "is", 3)], "column a: is tests for null alone"),
        ):
            with self.subTest(given), self.assertRaisesRegex(PredicateError, words):
                of_filters(given)


if __name__ == "__main__":
    unittest.main()
