# SPDX-License-Identifier: Apache-2.0
"""An ideal pruner by brute force: which zones hold no row that may satisfy a predicate, and which hold none that may fail it.

A predicate is a tree of tuples, as ``("and", ("lt", ("col", "a"), ("lit", "i32?", 3)), ("isnull", ("col", "b")))``, whose words are those of
the program's language beside ``in``. It is tried on every row of a grid: the values of each column around the literals and bounds that
are used, with the ends of its type, and null. A zone allows of each column the values within its bounds, and null by its null count.
"""
from __future__ import annotations

import operator
import re
from dataclasses import dataclass

import numpy

ROWS = 10
#: Numbers that stand for all others: literals and bounds lie from 0 to 10 or at the ends, and three columns fit between any two of them.
NUMBERS = sorted({*range(-3, 14), *(end + step for end in (-(2**31), -1000, 1000) for step in range(3)), *(2**31 - 1 - step for step in range(3))})
#: Texts of up to four of these letters. Literals, bounds and patterns have the middle three, and two or fewer of them.
LETTERS = "`abcd"
COMPARISONS = {word: getattr(operator, word) for word in ("eq", "ne", "gt", "ge", "lt", "le")}
ENDS = {"<": operator.lt, "<=": operator.le}


def texts() -> list[str]:
    found = [""]
    for _ in range(4):
        found = sorted({text + letter for text in ["", *found] for letter in LETTERS} | set(found))
    return found


DOMAINS = {"i32?": NUMBERS, "bool?": [False, True], "utf8?": texts()}


@dataclass(frozen=True)
class Told:
    """What is known of a column of a zone: a bound is a value and whether it is exact, or None; so is the null count."""

    least: tuple[object, bool] | None
    greatest: tuple[object, bool] | None
    nulls: tuple[int, bool] | None

    def allows(self, domain: list) -> numpy.ndarray:
        """Returns which values of a domain a row may have, and last whether it may be null."""
        all_null = self.nulls == (ROWS, True)
        found = [not all_null and not (self.least and value < self.least[0]) and not (self.greatest and value > self.greatest[0]) for value in domain]
        return numpy.array([*found, self.nulls is None or self.nulls[0] > 0])


class Grid:
    """All rows of some columns, each along an axis of its own."""

    def __init__(self, columns: dict[str, str]):
        self.columns = columns
        self.places = {name: place for place, name in enumerate(columns)}

    def along(self, name: str, items: list) -> numpy.ndarray:
        shape = [1] * len(self.columns)
        shape[self.places[name]] = len(items)
        return numpy.array(items, dtype=object if isinstance(items[0], str) else None).reshape(shape)

    def value(self, operand: tuple) -> tuple[numpy.ndarray, numpy.ndarray]:
        """Returns what an operand is on each row, and where it is null."""
        one = (1,) * len(self.columns)
        if operand[0] == "col":
            domain = DOMAINS[self.columns[operand[1]]]
            return self.along(operand[1], [*domain, domain[0]]), self.along(operand[1], [False] * len(domain) + [True])
        if operand[0] == "lit":
            null = operand[2] is None
            items = numpy.empty(one, dtype=object)
            items[...] = DOMAINS[operand[1]][0] if null else operand[2]
            return items if operand[1] == "utf8?" else items.astype(int), numpy.full(one, null)
        true, null = self.truth(operand)
        return true, null

    def truth(self, tree: tuple) -> tuple[numpy.ndarray, numpy.ndarray]:
        """Returns where a predicate is true, and where it is null."""
        word = tree[0]
        if word in ("col", "lit"):
            found, null = self.value(tree)
            return found.astype(bool) & ~null, null
        if word == "not":
            true, null = self.truth(tree[1])
            return ~true & ~null, null
        if word in ("and", "or"):
            (left, left_null), (right, right_null) = self.truth(tree[1]), self.truth(tree[2])
            if word == "or":
                true = left | right
                return true, ~true & (left_null | right_null)
            false = (~left & ~left_null) | (~right & ~right_null)
            return left & right, ~false & (left_null | right_null)
        if word in ("isnull", "notnull"):
            null = self.value(tree[1])[1]
            return null if word == "isnull" else ~null, numpy.zeros_like(null)
        if word == "in":
            return self.truth(any_of([("eq", tree[1], item) for item in tree[2]]))
        if word == "between":
            _, lower, upper, x, low, high = tree
            return self.both(self.compared(ENDS[lower], low, x), self.compared(ENDS[upper], x, high))
        if word in COMPARISONS:
            return self.compared(COMPARISONS[word], tree[1], tree[2])
        return self.like(word, tree[1], tree[2])

    @staticmethod
    def both(left: tuple, right: tuple) -> tuple[numpy.ndarray, numpy.ndarray]:
        false = (~left[0] & ~left[1]) | (~right[0] & ~right[1])
        return left[0] & right[0], ~false & (left[1] | right[1])

    def compared(self, compare: object, left: tuple, right: tuple) -> tuple[numpy.ndarray, numpy.ndarray]:
        (x, x_null), (y, y_null) = self.value(left), self.value(right)
        null = x_null | y_null
        return compare(x, y).astype(bool) & ~null, null

    def like(self, word: str, operand: tuple, pattern: str) -> tuple[numpy.ndarray, numpy.ndarray]:
        items, null = self.value(operand)
        pieces = "".join({"%": ".*", "_": "."}.get(it) or re.escape(it[-1]) for it in re.findall(r"\\.|.", pattern))
        reads = re.compile(pieces, re.DOTALL | (re.IGNORECASE | re.ASCII) * ("ilike" in word))
        true = numpy.array([(reads.fullmatch(item) is not None) != word.startswith("not") for item in items.ravel()]).reshape(items.shape)
        return true & ~null, null

    def verdicts(self, tree: tuple, zones: list[dict[str, Told]]) -> list[tuple[bool, bool]]:
        """Returns of each zone whether no row that it allows satisfies the predicate, and whether each does."""
        true, found = self.truth(tree)[0], []
        for zone in zones:
            rows = true
            for name, place in self.places.items():
                if true.shape[place] > 1:
                    rows = numpy.compress(zone[name].allows(DOMAINS[self.columns[name]]), rows, axis=place)
            found.append((not rows.any(), bool(rows.all())))
        return found


def any_of(trees: list[tuple]) -> tuple:
    """Returns the trees joined by OR."""
    found = trees[0]
    for tree in trees[1:]:
        found = ("or", found, tree)
    return found


def all_of(trees: list[tuple]) -> tuple:
    """Returns the trees joined by AND."""
    found = trees[0]
    for tree in trees[1:]:
        found = ("and", found, tree)
    return found


def words(tree: tuple) -> str:
    """Returns a predicate in the program's language."""
    word = tree[0]
    if word == "col":
        return f"col {tree[1]}"
    if word == "lit":
        value = tree[2]
        told = "null" if value is None else str(value).lower() if isinstance(value, bool) else f'"{value}"' if isinstance(value, str) else str(value)
        return f"lit {tree[1]} {told}"
    if word == "in":
        return words(any_of([("eq", tree[1], item) for item in tree[2]]))
    if word == "between":
        return f"between {tree[1]} {tree[2]} {' '.join(map(words, tree[3:]))}"
    if isinstance(tree[-1], str):
        return f'{word} {words(tree[1])} lit utf8? "{tree[2]}"'
    return " ".join([word, *map(words, tree[1:])])


def sql(tree: tuple) -> str:
    """Returns a predicate as PostgreSQL writes it."""
    word = tree[0]
    if word == "col":
        return tree[1]
    if word == "lit":
        kind = {"i32?": "int", "bool?": "boolean", "utf8?": "text"}[tree[1]]
        return f"NULL::{kind}" if tree[2] is None else f"'{tree[2]}'" if isinstance(tree[2], str) else str(tree[2]).upper()
    if word == "in":
        return f"({sql(tree[1])} IN ({', '.join(map(sql, tree[2]))}))"
    if word == "between":
        signs = {"<": ">", "<=": ">="}
        return f"({sql(tree[3])} {signs[tree[1]]} {sql(tree[4])} AND {sql(tree[3])} {tree[2]} {sql(tree[5])})"
    if word in ("isnull", "notnull"):
        return f"({sql(tree[1])} IS {'NOT ' * (word == 'notnull')}NULL)"
    if word == "not":
        return f"(NOT {sql(tree[1])})"
    if word in ("and", "or"):
        return f"({sql(tree[1])} {word.upper()} {sql(tree[2])})"
    if word in COMPARISONS:
        sign = {"eq": "=", "ne": "<>", "gt": ">", "ge": ">=", "lt": "<", "le": "<="}[word]
        return f"({sql(tree[1])} {sign} {sql(tree[2])})"
    return f"({sql(tree[1])} {'NOT ' * word.startswith('not')}{'ILIKE' if 'ilike' in word else 'LIKE'} '{tree[2]}')"
