# SPDX-License-Identifier: Apache-2.0
"""The tester of frames beside the library's own scan: of the same random tables and predicates both select the same rows."""
import functools
import operator
import os
import random
import unittest

from foalmorrow import Column, DType, FooterError, Nullable, Predicate, PredicateError, ValueFault, col, run
from foalmorrow.predicate import Between, Compared

try:
    import pandas

    from foalmorrow import frames
except ImportError:
    pandas = None

SEED = int(os.environ.get("FOALMORROW_SEED", "1"))
KINDS = [dtype for dtype in DType]
TEXTS = ["", "a", "A", "ab", "aB", "b%", "a_b", "é", "É", "ß", "\u212a", "k", "\U0010ffff", 'q"\\', "\\", "a\tb", "\r", "\x00", "\u2028", "%"]
PATTERNS = [
    "", "%", "_", "a%", "%b", "_b", "a_%", "%a%b%", "\\%", "b\\%", "a\\_b", "\\\\", "\\", "a\\", "%\\", "é", "É%", "__", "k", "\\a%", "%%",
    "_%_", "ß",
]
OPERATORS = ["__eq__", "__ne__", "__gt__", "__ge__", "__lt__", "__le__"]


def a_value(rng: random.Random, dtype: DType) -> object:
    if dtype == DType.BOOL:
        return rng.random() < 0.5
    if dtype.range is not None:
        least, greatest = dtype.range
        return rng.choice([least, least + 1, greatest - 1, greatest, 0, 1, 2, 3, rng.randrange(least, greatest + 1)])
    text = rng.choice(TEXTS)
    return text if dtype == DType.UTF8 else text.encode() + rng.choice([b"", b"\xff"])


def a_column(rng: random.Random, column: Column, rows: int) -> list:
    nulls = rng.choice([0, 0.3, 1]) if column.nullable else 0
    return [None if column.dtype == DType.NULL or rng.random() < nulls else a_value(rng, column.dtype) for _ in range(rows)]


def a_leaf(rng: random.Random, columns: list[Column]) -> Predicate:
    column = rng.choice(columns)
    kind = rng.randrange(10)
    value = (lambda: None) if column.dtype == DType.NULL else (lambda: None if rng.random() < 0.1 else a_value(rng, column.dtype))
    if kind == 0:
        return col(column.name).is_null() if rng.random() < 0.5 else col(column.name).is_not_null()
    if kind < 3 and column.dtype == DType.UTF8:
        pattern = rng.choice(PATTERNS + TEXTS)
        return col(column.name).like(pattern, negated=rng.random() < 0.4, ignore_case=rng.random() < 0.4)
    if kind == 3:
        return Between(column.name, value(), value(), rng.random() < 0.5, rng.random() < 0.5)
    if kind == 4:
        return functools.reduce(operator.or_, [Compared("eq", column.name, value()) for _ in range(rng.randrange(1, 4))])
    if kind == 5:
        other = rng.choice([it for it in columns if it.dtype == column.dtype])
        return getattr(col(column.name), rng.choice(OPERATORS))(col(other.name))
    # A null literal is written by no operator of a column.
    return Compared(rng.choice(OPERATORS).strip("_"), column.name, value())


def a_predicate(rng: random.Random, columns: list[Column], depth: int = 3) -> Predicate:
    kind = rng.randrange(4) if depth else 3
    if kind == 3:
        return a_leaf(rng, columns)
    left = a_predicate(rng, columns, depth - 1)
    if kind == 2:
        return ~left
    right = a_predicate(rng, columns, depth - 1)
    return left & right if kind else left | right


def word(dtype: DType, value: object) -> str:
    """A value as the program's language spells it."""
    if value is None:
        return "null"
    if isinstance(value, bool):
        return str(value).lower()
    if isinstance(value, str):
        return '"' + value.replace("\\", "\\\\").replace('"', '\\"') + '"'
    return "x" + value.hex() if isinstance(value, bytes) else str(value)


def scanned(columns: list[Column], chunk: dict[str, list], rows: int, predicate: Predicate) -> list[int]:
    """The rows that the program selects of one part without statistics."""
    lines = [f"column {column.name} {column.word}" for column in columns] + ["part"]
    for row in range(rows):
        lines.append("row " + " ".join(word(column.dtype, chunk[column.name][row]) for column in columns))
    status, answer = run("\n".join([*lines, f"where {predicate.text(columns)}", ""]).encode())
    told = {line.split()[0]: line.split()[1:] for line in answer.decode().splitlines()}
    if status != 0 or set(told) - {"skipped", "rows", "whole"}:
        raise AssertionError((status, answer, predicate, lines))
    return [int(place.split(":")[1]) for place in told["rows"]]


@unittest.skipIf(pandas is None, "pandas isn't installed")
class Tester(unittest.TestCase):
    def test_selects_the_rows_of_the_scan(self) -> None:
        rng, selected, left = random.Random(SEED), 0, 0
        for table in range(2500):
            columns = [Column(
                f"c{place}", dtype := rng.choice(KINDS), dtype != DType.NULL and rng.random() < 0.6,
            ) for place in range(rng.randrange(1, 4))]
            rows = rng.randrange(9)
            chunk = {column.name: a_column(rng, column, rows) for column in columns}
            predicate = a_predicate(rng, columns)
            wanted = scanned(columns, chunk, rows, predicate)
            found = frames.rows(predicate, columns, frames.frame_of(columns, chunk))
            self.assertEqual(list(found.index), wanted, (SEED, table, predicate, chunk))
            selected, left = selected + len(wanted), left + rows - len(wanted)
        self.assertGreater(min(selected, left), 2000)

    def test_each_pattern_selects_the_rows_of_the_scan(self) -> None:
        columns, chunk = [Column("s", DType.UTF8, True)], {"s": [*TEXTS, None]}
        frame = frames.frame_of(columns, chunk)
        for pattern in {*PATTERNS, *TEXTS}:
            for negated in (False, True):
                for ignore_case in (False, True):
                    predicate = col("s").like(pattern, negated=negated, ignore_case=ignore_case)
                    found = list(frames.rows(predicate, columns, frame).index)
                    self.assertEqual(found, scanned(columns, chunk, len(TEXTS) + 1, predicate), predicate)

    def test_zero_at_the_end_of_a_text_is_told_apart(self) -> None:
        columns, chunk = [Column("s", DType.UTF8), Column("x", DType.BINARY)], {"s": ["", "\0", "a", "a\0"], "x": [b"", b"\0", b"a", b"a\0"]}
        frame = frames.frame_of(columns, chunk)
        for name in "sx":
            for value in chunk[name]:
                for predicate in (col(name) == value, col(name) != value, col(name) > value, col(name) <= value):
                    self.assertEqual(list(frames.rows(predicate, columns, frame).index), scanned(columns, chunk, 4, predicate), predicate)

    def test_frame_holds_what_is_measured(self) -> None:
        columns = [Column("a", DType.U64, True), Column("s", DType.UTF8, True), Column("x", DType.BINARY, True), Column("b", DType.BOOL)]
        chunk = {"a": Nullable([2**64 - 1, 5], [0, 1]), "s": pandas.Series(["x", pandas.NA], dtype=object), "x": [None, b"\xff"], "b": [True, False]}
        frame = frames.frame_of(columns, chunk)
        self.assertEqual([frame[name].isna().tolist() for name in "asxb"], [[False, True], [False, True], [True, False], [False, False]])
        self.assertEqual((frame["a"][0], frame["s"][0], frame["x"][1]), (2**64 - 1, "x", b"\xff"))
        with self.assertRaises(FooterError):
            frames.frame_of(columns, {})
        with self.assertRaisesRegex(ValueFault, "column a, row 0: 1.5"):
            frames.frame_of(columns[:1], {"a": [1.5]})

    def test_deep_predicates_take_no_stack(self) -> None:
        columns = [Column("a", DType.I64)]
        frame = frames.frame_of(columns, {"a": [0, 1, 2]})
        predicate = col("a") > 0
        for _ in range(3000):
            predicate = ~predicate & (col("a") > 0)
        self.assertLess(len(frames.rows(predicate, columns, frame)), 3)

    def test_what_does_not_fit_refused(self) -> None:
        columns = [Column("a", DType.I64), Column("s", DType.UTF8)]
        frame = frames.frame_of(columns, {"a": [0], "s": [""]})
        for wanted in [col("b") > 1, col("a") > "x", col("a").like("x"), col("a") == col("s"), col("a").is_in([2**63])]:
            with self.assertRaises(PredicateError):
                frames.rows(wanted, columns, frame)


if __name__ == "__main__":
    unittest.main()
