#!/usr/bin/env python3
# SPDX-License-Identifier: Apache-2.0
"""Random predicates of each kind over zones with random statistics: how many zones pruning reads that an ideal pruner leaves out, and
how many that are whole it doesn't name; and beside PostgreSQL, which parts its constraint exclusion leaves out.

usage: checks/power.py [PREDICATES] [SEED]     by default 200 of each kind, over 25 zones each

The ideal pruner tries each predicate on all rows that a zone's statistics allow (checks/ideal.py). Pruning goes through the Python
package and the shared library that checks/callers.sh builds. Fails where a zone is skipped, or named whole, that isn't. PostgreSQL has
each zone of two columns as a table with its bounds as CHECK constraints, and leaves it out where the plan doesn't scan that table. Fails
where it leaves out a zone by statistics that pruning keeps, or one in 20 of all that it leaves out. Says so where it isn't installed.
"""
from __future__ import annotations

import importlib.util
import os
import random
import re
import sys
from collections.abc import Callable

# Debian's numpy is seen by Debian's own python3 alone.
DEBIAN = "/usr/bin/python3"
if importlib.util.find_spec("numpy") is None:
    if os.path.realpath(sys.executable) == os.path.realpath(DEBIAN) or not os.path.exists(DEBIAN):
        sys.exit("numpy isn't installed: apt-get install python3-numpy")
    os.execv(DEBIAN, [DEBIAN, *sys.argv])

TOP = os.path.dirname(os.path.dirname(os.path.abspath(__file__)))
sys.path.insert(0, f"{TOP}/callers/python")
sys.path.insert(0, f"{TOP}/checks")
sys.dont_write_bytecode = True
os.environ.setdefault("FOALMORROW_LIBRARY", f"{TOP}/callers/out/libvortex_ffi.so")

from foalmorrow import Answer, Column, DType, Footers, Precision, Stat, brin  # noqa: E402
from ideal import COMPARISONS, ROWS, Grid, Told, all_of, any_of, sql, words  # noqa: E402
from tests.systems.servers import postgres, postgres_folder  # noqa: E402

ZONES = 25
PARTS = 50
GREATEST = 10
TYPES = {"i32?": DType.I32, "bool?": DType.BOOL, "utf8?": DType.UTF8}
NUMBERS = {"a": "i32?", "b": "i32?", "c": "i32?", "t": "bool?"}
TEXTS = {"s": "utf8?"}
Random = random.Random
Tree = tuple

# -- predicates


def column(rng: Random) -> Tree:
    return "col", rng.choice("aabc")


def number(rng: Random) -> Tree:
    kind = rng.random()
    if kind < 0.02:
        return "lit", "i32?", None
    return "lit", "i32?", rng.choice([2**31 - 1, -(2**31)]) if kind < 0.04 else rng.randint(0, GREATEST)


def comparison(rng: Random) -> Tree:
    sides = [column(rng), number(rng)]
    rng.shuffle(sides)
    return rng.choice(list(COMPARISONS)), *sides


def one_of(rng: Random) -> Tree:
    return "in", column(rng), [number(rng) for _ in range(rng.choice([1, 2, 4, 8]))]


def between(rng: Random) -> Tree:
    return "between", rng.choice(["<", "<="]), rng.choice(["<", "<="]), column(rng), number(rng), number(rng)


def between_columns(rng: Random) -> Tree:
    operands = [column(rng), column(rng), rng.choice([column, number])(rng)]
    rng.shuffle(operands)
    return "between", rng.choice(["<", "<="]), rng.choice(["<", "<="]), *operands


def columns_compared(rng: Random) -> Tree:
    return rng.choice(list(COMPARISONS)), column(rng), column(rng)


def null_test(rng: Random) -> Tree:
    return rng.choice(["isnull", "notnull"]), rng.choice([column(rng), ("col", "t")])


def leaf(rng: Random) -> Tree:
    kinds = [comparison, comparison, comparison, one_of, between, between_columns, columns_compared, null_test, truth_column]
    return rng.choice(kinds)(rng)


def truth_column(rng: Random) -> Tree:
    kind = rng.randrange(3)
    if kind == 0:
        return "col", "t"
    return rng.choice(list(COMPARISONS)), ("col", "t"), ("lit", "bool?", rng.choice([False, True]))


def truth_of_predicate(rng: Random) -> Tree:
    inner = tree_of(rng, 1, simple)
    if rng.random() < 0.5:
        return rng.choice(["isnull", "notnull"]), inner
    return rng.choice(["eq", "ne"]), inner, ("lit", "bool?", rng.choice([False, True]))


def simple(rng: Random) -> Tree:
    return rng.choice([comparison, comparison, null_test, truth_column])(rng)


def tree_of(rng: Random, depth: int, leaf_of: Callable[[Random], Tree]) -> Tree:
    kind = rng.random()
    if depth == 0 or kind < 0.2:
        return leaf_of(rng)
    if kind < 0.35:
        return "not", tree_of(rng, depth - 1, leaf_of)
    return "and" if kind < 0.75 else "or", tree_of(rng, depth - 1, leaf_of), tree_of(rng, depth - 1, leaf_of)


def clauses(rng: Random, inner: Callable, outer: Callable) -> Tree:
    return outer([inner([simple(rng) for _ in range(rng.randint(1, 3))]) for _ in range(rng.randint(1, 3))])


def text(rng: Random) -> str:
    return "".join(rng.choice("abc") for _ in range(rng.randint(0, 2)))


def text_compared(rng: Random) -> Tree:
    return rng.choice(list(COMPARISONS)), ("col", "s"), ("lit", "utf8?", text(rng))


def like(*patterns: str) -> Callable[[Random], Tree]:
    """Returns what makes LIKEs of these patterns, in which x is a text."""

    def made(rng: Random) -> Tree:
        pattern = rng.choice(patterns).replace("x", text(rng) or "a")
        return "like", ("col", "s"), pattern

    return made


def negated(like_of: Callable[[Random], Tree]) -> Callable[[Random], Tree]:
    return lambda rng: ("notlike", *like_of(rng)[1:])


KINDS: dict[str, tuple[dict[str, str], Callable[[Random], Tree]]] = {
    "comparison with a number": (NUMBERS, comparison),
    "NOT of AND and OR of comparisons": (NUMBERS, lambda rng: ("not", tree_of(rng, 2, comparison))),
    "IN": (NUMBERS, one_of),
    "BETWEEN numbers": (NUMBERS, between),
    "BETWEEN with columns": (NUMBERS, between_columns),
    "column with column": (NUMBERS, columns_compared),
    "null test": (NUMBERS, null_test),
    "truth column": (NUMBERS, truth_column),
    "truth or null test of a predicate": (NUMBERS, truth_of_predicate),
    "AND of ORs": (NUMBERS, lambda rng: clauses(rng, any_of, all_of)),
    "OR of ANDs": (NUMBERS, lambda rng: clauses(rng, all_of, any_of)),
    "all kinds, nested": (NUMBERS, lambda rng: tree_of(rng, rng.randint(1, 4), leaf)),
    "text compared": (TEXTS, text_compared),
    "LIKE one text": (TEXTS, like("x")),
    "LIKE a beginning": (TEXTS, like("x%")),
    "LIKE '%' and 'ab%%'": (TEXTS, like("%", "%%", "x%%")),
    "LIKE an end, within, one character": (TEXTS, like("%x", "%x%", "x_", "_x", "x%x")),
    "ILIKE": (TEXTS, lambda rng: ("ilike", *like("x", "x%", "%x")(rng)[1:])),
    "NOT LIKE": (TEXTS, negated(like("x", "x%", "%", "%x"))),
    "texts, nested": (TEXTS, lambda rng: tree_of(rng, 2, rng.choice([text_compared, like("x", "x%", "%x"), negated(like("x%"))]))),
}

# -- zones


def told(rng: Random, dtype: str) -> Told:
    """Returns random statistics of a column of ten rows, which some rows have."""
    if rng.random() < 0.1:
        return Told(None, None, (ROWS, True))
    if dtype == "bool?":
        ends = sorted(rng.choice([False, True]) for _ in range(2))
    elif dtype == "utf8?":
        ends = sorted(text(rng) for _ in range(2))
    else:
        low = rng.randint(0, GREATEST)
        ends = [low, min(GREATEST, low + rng.choice([0, 0, 1, 3, 8]))]
    bounds = [None if rng.random() < 0.15 else (end, rng.random() < 0.7) for end in ends]
    return Told(*bounds, rng.choice([(0, True), (0, True), (2, True), (0, False), (3, False), None]))


def footers_of(columns: dict[str, str], zones: list[dict[str, Told]]) -> Footers:
    """Returns the zones' statistics as the library takes them."""
    given = {}
    for name in columns:
        of_column = [zone[name] for zone in zones]
        for stat, facts in ((Stat.MIN, [it.least for it in of_column]), (Stat.MAX, [it.greatest for it in of_column]), (Stat.NULL_COUNT, [it.nulls for it in of_column])):
            known = [Precision.ABSENT if it is None else Precision.EXACT if it[1] else Precision.INEXACT for it in facts]
            given[name, stat] = ([None if it is None else it[0] for it in facts], known)
    return Footers.of_values([Column(name, TYPES[dtype], True) for name, dtype in columns.items()], [ROWS] * len(zones), given)


# -- beside the ideal pruner


class Count:
    """How many zones an ideal pruner skips and finds whole, and how many of them pruning misses."""

    def __init__(self) -> None:
        self.ideal = [0, 0]
        self.missed = [0, 0]
        self.wrong: list[str] = []

    def add(self, tree: Tree, zone: dict[str, Told], answer: Answer, ideal: tuple[bool, bool]) -> None:
        for place, (wanted, name) in enumerate(zip(ideal, (Answer.SKIP, Answer.WHOLE))):
            # A zone that is both is skipped.
            counts = wanted and not (place and ideal[0])
            self.ideal[place] += counts
            self.missed[place] += counts and answer != name
            if answer == name and not wanted:
                self.wrong.append(f"{name.name.lower()}: {words(tree)} over {zone}")

    def row(self, kind: str) -> str:
        cells = [f"{ideal} | {100 * missed / max(1, ideal):.1f}%" for ideal, missed in zip(self.ideal, self.missed)]
        return f"| {kind} | {' | '.join(cells)} |"


def beside_ideal(rng: Random, kind: str, predicates: int) -> Count:
    columns, tree_of_kind = KINDS[kind]
    zones = [{name: told(rng, dtype) for name, dtype in columns.items()} for _ in range(ZONES)]
    footers, grid, count = footers_of(columns, zones), Grid(columns), Count()
    for _ in range(predicates):
        tree = tree_of_kind(rng)
        answers = footers.prune_where(words(tree))
        for zone, answer, ideal in zip(zones, answers, grid.verdicts(tree, zones)):
            count.add(tree, zone, answer, ideal)
    return count


# -- beside PostgreSQL


def bounded(rng: Random) -> dict[str, Told]:
    lows = {name: rng.randint(0, GREATEST) for name in "ab"}
    return {name: Told((low, True), (min(GREATEST, low + rng.choice([0, 1, 3, 8])), True), None) for name, low in lows.items()}


def make_tables(query: Callable, zones: list[dict[str, Told]]) -> None:
    lines = ["CREATE TABLE parts (a int, b int);"]
    for place, zone in enumerate(zones):
        checks = ", ".join(f"CHECK ({name} >= {it.least[0]} AND {name} <= {it.greatest[0]})" for name, it in zone.items())
        lines.append(f"CREATE TABLE part_{place} ({checks}) INHERITS (parts);")
    query("\n".join(lines))


def kept_by_plan(query: Callable, condition: str) -> tuple[set[int], bool]:
    """Returns the zones whose tables the plan scans, and whether it scans the table without constraints."""
    plan = "\n".join(row[0] for row in query(f"EXPLAIN (COSTS OFF) SELECT 1 FROM parts WHERE {condition}"))
    return {int(it) for it in re.findall(r"on part_(\d+)", plan)}, re.search(r"on parts\b", plan) is not None


def over_two(tree: object) -> object:
    """Returns a predicate with column b where it names c."""
    if tree == ("col", "c"):
        return "col", "b"
    return type(tree)(map(over_two, tree)) if isinstance(tree, (tuple, list)) else tree


def beside_postgres(rng: Random, predicates: int) -> bool:
    zones = [bounded(rng) for _ in range(PARTS)]
    kinds = [comparison, comparison, one_of, between, columns_compared, lambda rng: (rng.choice(["isnull", "notnull"]), column(rng))]
    counts = dict.fromkeys(("ours", "theirs", "ours alone", "theirs alone by statistics", "theirs alone by contradiction"), 0)
    footers = footers_of({"a": "i32?", "b": "i32?"}, zones)
    with postgres() as folder:
        query = brin.psql(folder, user="postgres")
        make_tables(query, zones)
        for _ in range(predicates):
            tree = over_two(tree_of(rng, rng.randint(1, 4), lambda rng: rng.choice(kinds)(rng)))
            ours = {place for place, it in enumerate(footers.prune_where(words(tree))) if it == Answer.SKIP}
            kept, some = kept_by_plan(query, sql(tree))
            theirs = set(range(PARTS)) - kept
            found = {"ours": ours, "theirs": theirs, "ours alone": ours - theirs}
            found["theirs alone by statistics" if some else "theirs alone by contradiction"] = theirs - ours
            for name, it in found.items():
                counts[name] += len(it)
    print(f"\nbeside PostgreSQL, {predicates} predicates over {PARTS} zones")
    for name, count in counts.items():
        print(f"left out, {name}: {count}")
    alone = counts["theirs alone by statistics"] + counts["theirs alone by contradiction"]
    return not counts["theirs alone by statistics"] and alone * 20 < max(1, counts["theirs"])


def main() -> int:
    given = [int(it) for it in sys.argv[1:]]
    predicates, seed = given[0] if given else 200, given[1] if len(given) > 1 else 1
    print(f"seed {seed}, {predicates} predicates of each kind over {ZONES} zones\n")
    print("| predicate | skipped by the ideal | kept | whole by the ideal | not named |\n|---|---|---|---|---|")
    wrong = []
    for kind in KINDS:
        count = beside_ideal(Random(f"{seed} {kind}"), kind, predicates)
        print(count.row(kind), flush=True)
        wrong += count.wrong
    for line in wrong[:20]:
        print(f"wrong: {line}")
    if postgres_folder() is None:
        print("PostgreSQL isn't installed, so nothing is compared with it: apt-get install postgresql")
        return 1 if wrong else 0
    return 0 if beside_postgres(Random(seed), predicates) and not wrong else 1


if __name__ == "__main__":
    sys.exit(main())
