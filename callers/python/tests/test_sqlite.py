# SPDX-License-Identifier: Apache-2.0
"""Conditions in SQL beside SQLite, which tells of each row of a zone whether it satisfies one."""
from __future__ import annotations

import os
import random
import sqlite3
import unittest
import warnings
from collections.abc import Callable

from foalmorrow import Answer, Column, DType, Footers

SEED = int(os.environ.get("FOALMORROW_SEED", "1"))
#: How many tables of zones are tried, and under how many conditions each.
TABLES, CONDITIONS = 150, 10
COLUMNS = [Column("a", DType.I32, nullable=True), Column("b", DType.I32, nullable=True), Column("s", DType.UTF8, nullable=True)]
NUMBERS = [-3, -1, 0, 1, 2, 3, 5, 7, 2147483647, -2147483648, 3.5, -0.5, "NULL"]
TEXTS = ["", "a", "ab", "abc", "b", "ba", "é", "a%", "a_"]
PATTERNS = ["%", "%%", "a%", "ab%%", "_", "a_", "%b", "a%c", "abc", "", "_%", "%a%"]

Row = tuple[int | None, int | None, str | None]


class Writer:
    """Writes conditions by choices of its own."""

    def __init__(self, rng: random.Random):
        self.rng = rng
        self.leaves: list[Callable[[], str]] = [
            lambda: f"{self.name()} {self.sign()} {self.number()}",
            lambda: f"{self.number()} {self.sign()} {self.name()}",
            lambda: f"a {self.sign()} b",
            lambda: f"{self.name()} {self.negated()}IN ({self.list(self.number)})",
            lambda: f"{self.name()} {self.negated()}BETWEEN {self.number()} AND {self.number()}",
            lambda: f"{rng.choice('abs')} IS {self.negated()}NULL",
            lambda: f"s {self.sign()} {self.text()}",
            lambda: f"s {self.negated()}LIKE '{rng.choice(PATTERNS)}'",
            lambda: f"s {self.negated()}IN ({self.list(self.text)})",
            lambda: f"length(s) > {rng.randrange(3)}",
            lambda: f"(a {self.sign()} {self.number()}) IS {self.negated()}{rng.choice(['TRUE', 'FALSE'])}",
        ]

    def name(self) -> str:
        return self.rng.choice("ab")

    def sign(self) -> str:
        return self.rng.choice(["=", "<>", "!=", "<", "<=", ">", ">="])

    def number(self) -> str:
        return str(self.rng.choice(NUMBERS))

    def text(self) -> str:
        return f"'{self.rng.choice(TEXTS)}'"

    def negated(self) -> str:
        return self.rng.choice(["", "NOT "])

    def list(self, item: Callable[[], str]) -> str:
        return ", ".join(item() for _ in range(self.rng.randrange(1, 5)))

    def condition(self, depth: int) -> str:
        if depth == 0 or self.rng.random() < 0.3:
            return self.rng.choice(self.leaves)()
        if self.rng.random() < 0.2:
            return f"NOT ({self.condition(depth - 1)})"
        return f"({self.condition(depth - 1)} {self.rng.choice(['AND', 'OR'])} {self.condition(depth - 1)})"

    def zone(self) -> list[Row]:
        base, texts = self.rng.choice([-3, 0, 3]), [*TEXTS, None]
        numbers, few = self.rng.choice([[None], [base, base + 1, None], [base]]), texts[: self.rng.randrange(1, len(texts) + 1)]
        return [(self.rng.choice(numbers), self.rng.choice([base, base + 2, 7, None]), self.rng.choice(few)) for _ in range(self.rng.randrange(4))]


class BesideSqlite(unittest.TestCase):
    def test_no_wanted_row_is_skipped_and_each_of_a_whole_zone_is_wanted(self) -> None:
        writer = Writer(random.Random(SEED))
        base = sqlite3.connect(":memory:")
        self.addCleanup(base.close)
        base.execute("PRAGMA case_sensitive_like = ON")
        skipped = whole = 0
        for _ in range(TABLES):
            zones = [writer.zone() for _ in range(8)]
            chunks = [{name: [row[place] for row in zone] for place, name in enumerate("abs")} for zone in zones]
            footers = Footers.measure(COLUMNS, chunks)
            for _ in range(CONDITIONS):
                condition = writer.condition(writer.rng.randrange(4))
                with warnings.catch_warnings():
                    warnings.simplefilter("ignore")
                    answers = footers.prune(condition)
                for zone, answer in zip(zones, answers):
                    if answer != Answer.READ and zone:
                        told = self.told(base, condition, zone)
                        self.assertEqual([it == 1 for it in told], [answer == Answer.WHOLE] * len(zone), (condition, zone))
                        skipped, whole = skipped + (answer == Answer.SKIP), whole + (answer == Answer.WHOLE)
        self.assertGreater(min(skipped, whole), TABLES * CONDITIONS // 10)

    def told(self, base: sqlite3.Connection, condition: str, zone: list[Row]) -> list[int | None]:
        """Returns what SQLite tells of each row: 1 where it satisfies the condition."""
        rows = " UNION ALL ".join("SELECT ? AS a, ? AS b, ? AS s" for _ in zone)
        return [told for (told,) in base.execute(f"SELECT ({condition}) FROM ({rows})", [value for row in zone for value in row])]


if __name__ == "__main__":
    unittest.main()
