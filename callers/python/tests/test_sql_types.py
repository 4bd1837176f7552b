# SPDX-License-Identifier: Apache-2.0
"""Conditions in SQL over columns of logical types: the cases that Rust answers alike, callers/cases/sql_types.tsv."""
import csv
import pathlib
import unittest
import warnings
from typing import Any

from foalmorrow import Answer, Column, Footers, SqlError, UnreadWarning
from foalmorrow.arrays import of_numbers
from foalmorrow.kinds import Logical
from foalmorrow.types import of_word

CASES = pathlib.Path(__file__).parents[2] / "cases" / "sql_types.tsv"
ANSWERS = {Answer.READ: "read", Answer.SKIP: "skip", Answer.WHOLE: "whole"}


def zone(kind: Logical, least: str, greatest: str) -> Footers:
    """Footers of one zone of two rows: of these two numbers, or of values that aren't known."""
    column = Column("c", kind)
    if not least:
        return Footers([column], [2])
    values: Any = of_numbers(kind.dtype, [int(least), int(greatest)])
    return Footers.measure([column], [{"c": values}])


def answered(footers: Footers, condition: str) -> str:
    with warnings.catch_warnings(record=True) as told:
        warnings.simplefilter("always")
        try:
            answers = footers.prune(condition)
        except SqlError as fault:
            return "misfit" if (fault.start, fault.end) == (0, len(condition)) else str(fault)
    if answers.unread:
        is_told = answers.unread == (condition,) and [it.category for it in told] == [UnreadWarning] and list(answers) == [Answer.READ]
        return "unread" if is_told else repr(answers)
    return ANSWERS[answers[0]]


class SharedCases(unittest.TestCase):
    def test_each_is_answered_so(self) -> None:
        with open(CASES, encoding="utf-8") as file:
            cases = list(csv.DictReader(file, delimiter="\t"))
        self.assertGreater(len(cases), 400)
        for case in cases:
            kind = of_word(case["type"])
            assert kind is not None
            with self.subTest(case["condition"], type=case["type"]):
                self.assertEqual(answered(zone(kind, case["least"], case["greatest"]), case["condition"]), case["answer"])


if __name__ == "__main__":
    unittest.main()
