# SPDX-License-Identifier: Apache-2.0
"""How long the calls over many zones take: merging, overlap, explaining, listing answers, and pruning by one of many columns.

usage: bench/zones.py [ZONES]    by default 1,000,000 zones of one I64 column with min, max and null count; needs numpy
"""
import sys
import time
from collections.abc import Callable

import numpy

from foalmorrow import Column, DType, Footers, Precision, Stat, col

#: How often each call is timed; the least time is told.
TRIES = 3


def footers(zones: int, columns: int) -> Footers:
    """Zones that overlap a few hundred times, the same for each column."""
    given = {}
    for place in range(columns):
        low = numpy.arange(zones) * 3
        given[f"c{place}", Stat.MIN] = (low, Precision.EXACT)
        given[f"c{place}", Stat.MAX] = (low + 1000, Precision.EXACT)
        given[f"c{place}", Stat.NULL_COUNT] = (numpy.zeros(zones, "u8"), Precision.EXACT)
    return Footers.of_values([Column(f"c{place}", DType.I64, True) for place in range(columns)], numpy.full(zones, 1000, "u8"), given)


def timed(name: str, call: Callable[[], object]) -> None:
    seconds = []
    for _ in range(TRIES):
        start = time.perf_counter()
        call()
        seconds.append(time.perf_counter() - start)
    print(f"| {name} | {min(seconds):.3f} s |", flush=True)


def main(zones: int) -> None:
    table, wanted = footers(zones, 1), (col("c0") > zones) & (col("c0") < 2 * zones)
    answers = table.prune(wanted)
    timed(f"prune, {zones:,} zones", lambda: table.prune(wanted))
    timed("merged", table.merged)
    timed("overlap", lambda: table.overlap("c0"))
    timed("explain, as a page", lambda: str(table.explain(wanted)))
    timed("list of answers", lambda: list(answers))
    few = zones // 100
    for columns in (1, 100):
        wide = footers(few, columns)
        timed(f"prune by one of {columns} columns, {few:,} zones", lambda wide=wide: wide.prune(wanted))


if __name__ == "__main__":
    main(int(sys.argv[1]) if len(sys.argv) > 1 else 1_000_000)
