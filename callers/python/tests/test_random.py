# SPDX-License-Identifier: Apache-2.0
"""Random columns of each type, measured by the library and by plain Python."""
import os
import random
import unittest
from array import array

from foalmorrow import ALL, PRUNING, Column, DType, Footers, Nullable, Precision, Stat

try:
    import numpy
except ImportError:
    numpy = None

TEXTS = ["", "a", "ab", "b", "é", "\U0010ffff", "a" * 40]


def a_value(rng: random.Random, dtype: DType) -> object:
    if dtype == DType.NULL:
        return None
    if dtype == DType.BOOL:
        return rng.random() < 0.5
    if dtype.range is not None:
        least, greatest = dtype.range
        return rng.choice([least, greatest, rng.randrange(least, greatest + 1), max(least, -1), 0, 1])
    text = rng.choice(TEXTS)
    return text if dtype == DType.UTF8 else text.encode()


def expected(dtype: DType, values: list) -> dict[Stat, object]:
    """What plain Python finds of a column's values."""
    present = [value for value in values if value is not None]
    key = (lambda value: value.encode()) if dtype == DType.UTF8 else (lambda value: value)
    found: dict[Stat, object] = {Stat.NULL_COUNT: len(values) - len(present)}
    if present:
        found[Stat.MIN], found[Stat.MAX] = min(present, key=key), max(present, key=key)
    if not dtype.has_ends and dtype != DType.NULL:
        total = sum(present)
        low, high = (-(2**63), 2**63) if DType.I8 <= dtype <= DType.I64 else (0, 2**64)
        if low <= total < high:
            found[Stat.SUM] = total
    return found


class RandomColumns(unittest.TestCase):
    def test_each_type(self) -> None:
        seed = int(os.environ.get("FOALMORROW_SEED", "1"))
        rng = random.Random(seed)
        for _ in range(3000):
            dtype = rng.choice(list(DType))
            column = Column("c", dtype, dtype != DType.NULL)
            values = [None if rng.random() < 0.2 else a_value(rng, dtype) for _ in range(rng.randrange(6))]
            wanted = expected(dtype, values)
            for stats in (ALL, PRUNING):
                told = Footers.measure([column], [{"c": values}], stats).at(0)
                for stat in {*PRUNING, Stat.SUM}.intersection(stats):
                    found = told.get(("c", stat))
                    self.assertEqual(found, (Precision.EXACT, wanted[stat]) if stat in wanted else None, (seed, dtype, values, stats, stat))

    @unittest.skipIf(numpy is None, "numpy isn't installed")
    def test_numpy(self) -> None:
        column = Column("c", DType.I64, True)
        values = numpy.arange(-5, 5)
        told = Footers.measure([column], [{"c": values}, {"c": Nullable(values, values < 0)}])
        self.assertEqual([told.at(zone)["c", Stat.MIN][1] for zone in (0, 1)], [-5, 0])
        self.assertEqual(told.at(1)["c", Stat.NULL_COUNT][1], 5)
        self.assertEqual(Footers.measure([column], [{"c": array("q", values)}]).at(0), told.slice(0, 1).at(0))


if __name__ == "__main__":
    unittest.main()
