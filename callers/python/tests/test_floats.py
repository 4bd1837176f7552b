# SPDX-License-Identifier: Apache-2.0
"""Columns of floats in Parquet footers by conditions in SQL, beside a direct filter of the rows under both meanings of NaN."""
from __future__ import annotations

import math
import os
import random
import struct
import unittest
import warnings
from collections.abc import Callable, Sequence

from foalmorrow import Answer, SqlError, UnreadWarning, parquet
from tests.parquet_footers_of import Wide, struct_of
from tests.systems.parquet_writer import Raw, thrift

SEED = int(os.environ.get("FOALMORROW_SEED", "1"))
EXAMPLES = int(os.environ.get("FOALMORROW_EXAMPLES", "3000"))

FLOAT, DOUBLE = 4, 5
#: A truth of a row under a meaning of NaN: whether NaN is the greatest.
Truth = Callable[[float | None, bool], bool | None]
NUMBERS = ["0", "-0.0", "1", "1.5", "-2", "0.1", "1e3", "-1e-320", "16777217", "1e400", "-7.25"]
VALUES = [0.0, -0.0, 1.0, 1.5, -2.0, 0.1, 1e3, -7.25, math.inf, -math.inf, 5e-324, math.nan, 16777216.0, 3.0]


def packed(physical: int, value: float) -> bytes:
    return struct.pack("<f" if physical == FLOAT else "<d", value)


def short(value: float) -> float:
    """The float of 32 bits that is nearest."""
    return struct.unpack("<f", struct.pack("<f", value))[0] if math.isfinite(value) else value


def rank(value: float, is_greatest: bool) -> tuple[int, float]:
    return (1, 0.0) if math.isnan(value) and is_greatest else (0, value)


def compared(sign: str, number: float) -> Truth:
    def truth(value: float | None, is_greatest: bool) -> bool | None:
        if value is None:
            return None
        if math.isnan(value) and not is_greatest:
            return sign == "<>"
        left, right = rank(value, is_greatest), (0, number)
        return {"<": left < right, "<=": left <= right, ">": left > right, ">=": left >= right, "=": left == right, "<>": left != right}[sign]

    return truth


def either(first: Truth, second: Truth) -> Truth:
    def truth(value: float | None, is_greatest: bool) -> bool | None:
        found = {first(value, is_greatest), second(value, is_greatest)}
        return True if True in found else None if None in found else False

    return truth


def opposite(first: Truth) -> Truth:
    def truth(value: float | None, is_greatest: bool) -> bool | None:
        found = first(value, is_greatest)
        return None if found is None else not found

    return truth


def leaf(rng: random.Random) -> tuple[str, Truth]:
    sign, word = rng.choice(["<", "<=", ">", ">=", "=", "<>"]), rng.choice(NUMBERS)
    turned = {"<": ">", "<=": ">=", ">": "<", ">=": "<=", "=": "=", "<>": "<>"}
    match rng.randrange(6):
        case 0:
            return f"{word} {sign} x", compared(turned[sign], float(word))
        case 1:
            other = rng.choice(NUMBERS)
            return f"x IN ({word}, {other})", either(compared("=", float(word)), compared("=", float(other)))
        case 2:
            return "x IS NULL", lambda value, _: value is None
        case 3:
            differs = compared("<>", float(word))
            return f"x IS DISTINCT FROM {word}", lambda value, is_greatest: True if value is None else differs(value, is_greatest)
        case 4:
            other = rng.choice(NUMBERS)
            low, high = opposite(compared(">=", float(word))), opposite(compared("<=", float(other)))
            return f"x BETWEEN {word} AND {other}", opposite(either(low, high))
        case _:
            return f"x {sign} {word}", compared(sign, float(word))


def condition(rng: random.Random, depth: int = 2) -> tuple[str, Truth]:
    if depth == 0 or rng.random() < 0.4:
        return leaf(rng)
    text, first = condition(rng, depth - 1)
    if rng.random() < 0.3:
        return f"NOT ({text})", opposite(first)
    more, second = condition(rng, depth - 1)
    if rng.random() < 0.5:
        return f"({text}) OR ({more})", either(first, second)
    return f"({text}) AND ({more})", opposite(either(opposite(first), opposite(second)))


def statistics(physical: int, values: Sequence[float | None], rng: random.Random) -> list[tuple[int, object]]:
    """NaN is left out of the bounds, which a writer may cut, or leave out; a zero has either sign."""
    present = [value for value in values if value is not None and not math.isnan(value)]
    nulls = Wide(sum(value is None for value in values)) if rng.random() < 0.8 else None
    if not present or rng.random() < 0.1:
        return [(3, nulls)]
    least, greatest = min(present), max(present)
    least = rng.choice([0.0, -0.0]) if least == 0 else least
    greatest = rng.choice([0.0, -0.0]) if greatest == 0 else greatest
    if rng.random() < 0.05:
        least = greatest = math.nan
    old = [(1, packed(physical, greatest)), (2, packed(physical, least))] if rng.random() < 0.3 else []
    return [*old, (3, nulls), (5, packed(physical, greatest)), (6, packed(physical, least)), (7, rng.random() < 0.5), (8, rng.random() < 0.5)]


def file_of(physical: int, groups: Sequence[Sequence[float | None]], rng: random.Random) -> parquet.File:
    elements = [Raw(struct_of((4, b"root"), (5, 1))), Raw(struct_of((1, physical), (3, 1), (4, b"x")))]
    told = []
    for values in groups:
        meta = struct_of((1, physical), (5, Wide(len(values))), (12, Raw(struct_of(*statistics(physical, values, rng)))))
        told.append(Raw(struct_of((1, [Raw(struct_of((3, Raw(meta))))]), (3, Wide(len(values))))))
    orders = [Raw(thrift((1, Raw(thrift()))))] if rng.random() < 0.8 else None
    return parquet.File(struct_of((2, elements), (3, Wide(sum(map(len, groups)))), (4, told), (7, orders)))


def pruned(file: parquet.File, text: str) -> parquet.RowGroups:
    with warnings.catch_warnings():
        warnings.simplefilter("ignore", UnreadWarning)
        return file.prune(text)


def group(least: float, greatest: float, physical: int = DOUBLE) -> parquet.File:
    """A file of a row group without nulls between these bounds."""
    elements = [Raw(struct_of((4, b"root"), (5, 1))), Raw(struct_of((1, physical), (3, 1), (4, b"x")))]
    told = struct_of((3, Wide(0)), (5, packed(physical, greatest)), (6, packed(physical, least)))
    meta = struct_of((1, physical), (12, Raw(told)))
    groups = [Raw(struct_of((1, [Raw(struct_of((3, Raw(meta))))]), (3, Wide(4))))]
    return parquet.File(struct_of((2, elements), (4, groups), (7, [Raw(thrift((1, Raw(thrift()))))])))


class BesideAModel(unittest.TestCase):
    def test_no_row_is_lost(self) -> None:
        rng, found = random.Random(SEED), {Answer.READ: 0, Answer.SKIP: 0, Answer.WHOLE: 0}
        for _ in range(EXAMPLES):
            physical = rng.choice([FLOAT, DOUBLE])
            values = [short(value) if physical == FLOAT else value for value in VALUES]
            groups = [[rng.choice([*values, None]) for _ in range(rng.randrange(1, 5))] for _ in range(2)]
            text, truth = condition(rng)
            for answer, rows in zip(pruned(file_of(physical, groups, rng), text), groups, strict=True):
                truths = {truth(row, is_greatest) is True for row in rows for is_greatest in (False, True)}
                self.assertTrue(answer != Answer.SKIP or truths <= {False}, (text, rows))
                self.assertTrue(answer != Answer.WHOLE or truths <= {True}, (text, rows))
                found[answer] += 1
        self.assertTrue(all(count > EXAMPLES // 50 for count in found.values()), found)


class Bounds(unittest.TestCase):
    def test_least_bounds_prune(self) -> None:
        cases = {
            "x < 1.5": Answer.SKIP, "x < 1.5625": Answer.READ, "x <= 1.46875": Answer.SKIP, "x = 1": Answer.SKIP, "x <> 1": Answer.WHOLE, "x IN (1, -2e3)": Answer.SKIP,
            "1.5 > x": Answer.SKIP, "NOT (x < 1.5)": Answer.WHOLE, "x IS NULL": Answer.SKIP, "x IS DISTINCT FROM 1": Answer.WHOLE, "x < -1e400": Answer.READ, "x BETWEEN 0 AND 1": Answer.SKIP, "x NOT BETWEEN 0 AND 1": Answer.WHOLE,
            "x BETWEEN SYMMETRIC 1 AND 0": Answer.SKIP, "x BETWEEN 1 AND 2": Answer.READ,
        }
        for physical in (FLOAT, DOUBLE):
            for text, answer in cases.items():
                self.assertEqual(list(pruned(group(1.5, 2.5, physical), text)), [answer], text)

    def test_greatest_bounds_tell_nothing(self) -> None:
        # NaN may stand above them, and nobody says what a comparison with it means.
        for text in ("x > 3", "x >= 3", "3 < x", "x BETWEEN 3 AND NULL"):
            found = pruned(group(1.5, 2.5), text)
            self.assertEqual((list(found), found.unread), ([Answer.READ], (text,)), text)
        for text in ("x = 3", "x IN (3)", "NOT (x <= 2.5)", "x BETWEEN 3 AND 4"):
            found = pruned(group(1.5, 2.5), text)
            self.assertEqual((list(found), found.unread), ([Answer.READ], ()), text)

    def test_a_number_that_engines_round_apart_is_left_unread(self) -> None:
        self.assertEqual(list(pruned(group(1.5, 2.5), "x < 0.1")), [Answer.SKIP])
        found = pruned(group(1.5, 2.5, FLOAT), "x < 0.1")
        self.assertEqual((list(found), found.unread), ([Answer.READ], ("x < 0.1",)))

    def test_zeros_are_one_number(self) -> None:
        for zero in (0.0, -0.0):
            self.assertEqual(list(pruned(group(zero, 1.0), "x < 0")), [Answer.SKIP])
            self.assertEqual(list(pruned(group(zero, 1.0), "x < -0.0")), [Answer.SKIP])
            self.assertEqual(list(pruned(group(zero, 1.0), "x <= 0")), [Answer.READ])

    def test_bounds_that_are_none(self) -> None:
        self.assertEqual(list(pruned(group(math.nan, math.nan), "x < -1e300")), [Answer.READ])
        self.assertEqual(list(pruned(group(-math.inf, 1.0), "x < -1e300")), [Answer.READ])

    def test_other_literals(self) -> None:
        found = pruned(group(1.5, 2.5), "x = '1.5'")
        self.assertEqual((list(found), found.unread), ([Answer.READ], ("x = '1.5'",)))
        for text in ("x = TRUE", "x < DATE '2026-01-01'"):
            with self.assertRaises(SqlError):
                group(1.5, 2.5).prune(text)


if __name__ == "__main__":
    unittest.main()
