# SPDX-License-Identifier: Apache-2.0
"""How long a cluster takes to prune the footers of many zones and to measure files, and what memory it takes.

usage: bench/cluster.py [ZONES ..]    by default 1,000,000 and 10,000,000; prints a row for each number of zones, columns and workers
"""
import os
import pathlib
import re
import sys
import tempfile
import time

import numpy
from distributed import Client, LocalCluster

from foalmorrow import PRUNING, Answer, Column, DType, Footers, Precision, Predicate, Stat, cluster, col

SEED = 1
# Rows of each column of a partition, and partitions.
ROWS, PARTS = 1_000_000, 12


def columns(count: int) -> list[Column]:
    return [Column(f"c{place}", DType.I64, True) for place in range(count)]


def footers(zones: int, count: int) -> Footers:
    """Zones that lie along a line, each column shuffled more than the one before, with a null count of each."""
    random = numpy.random.default_rng(SEED)
    given = {}
    for place, column in enumerate(columns(count)):
        low = numpy.arange(zones) * 100 + random.integers(0, 10_000 * 100**place, zones)
        given[column.name, Stat.MIN] = (low, Precision.EXACT)
        given[column.name, Stat.MAX] = (low + 1000, Precision.EXACT)
        given[column.name, Stat.NULL_COUNT] = (random.integers(0, 2, zones).astype("u8"), Precision.EXACT)
    return Footers.of_values(columns(count), numpy.full(zones, 1000, "u8"), given)


def wanted(zones: int, count: int) -> Predicate:
    """A comparison of each column, joined by AND."""
    found = col("c0") > zones * 50
    for place in range(1, count):
        found = found & (col(f"c{place}") > zones * 40)
    return found


def peak() -> int:
    """The most memory that this process has taken, in bytes: what Linux tells of it, since getrusage tells a child of its parent's."""
    return 1024 * int(re.search(r"VmHWM:\s*(\d+)", pathlib.Path("/proc/self/status").read_text())[1])  # type: ignore[index]


def pruned(zones: int, count: int, workers: int) -> str:
    table, predicate = footers(zones, count), wanted(zones, count)
    before = peak()
    settings = {"threads_per_worker": 1, "host": "127.0.0.1", "dashboard_address": None}
    with tempfile.TemporaryDirectory() as own, LocalCluster(workers, local_directory=own, **settings) as local, Client(local) as client:
        cluster.prune(client, table.slice(0, 1000), predicate, shard=500)
        start = time.perf_counter()
        answers = cluster.prune(client, table, predicate)
        seconds = time.perf_counter() - start
        of_workers = client.run(peak)
    travels = len(table.slice(0, 10_000).only(PRUNING).to_bytes()) / 10_000 + 1
    start = time.perf_counter()
    alone = table.prune(predicate)
    by_itself = time.perf_counter() - start
    assert answers == alone
    megabytes = f"{max(peak() - before, 0) / 1e6:.0f} MB over the {before / 1e6:.0f} MB of the footers, {max(of_workers.values()) / 1e6:.0f} MB"
    cells = [f"{zones:,}", count, workers, f"{seconds:.1f} s", f"{by_itself:.1f} s", megabytes, f"{travels:.0f}", f"{answers.count(Answer.SKIP) / zones:.0%}"]
    return f"| {' | '.join(map(str, cells))} |"


def measured(folder: str) -> str:
    """How much of the time of measuring a folder of arrays isn't reading it."""
    random, names = numpy.random.default_rng(SEED), columns(3)
    for part in range(PARTS):
        os.mkdir(f"{folder}/{part:02}")
        for column in names:
            numpy.save(f"{folder}/{part:02}/{column.name}.npy", random.integers(0, 10**9, ROWS))
    table = cluster.npy_table(folder, names)
    start = time.perf_counter()
    chunks = [cluster.read_npy(file, table.columns) for file in table.files]
    reading = time.perf_counter() - start
    start = time.perf_counter()
    Footers.measure(names, chunks, PRUNING)
    measuring = time.perf_counter() - start
    start = time.perf_counter()
    for chunk in chunks:
        for values in chunk.values():
            values.min(), values.max()  # type: ignore[attr-defined]
    plain = time.perf_counter() - start
    share = measuring / (reading + measuring)
    told = f"reading {reading:.2f} s, statistics {measuring:.2f} s ({share:.0%}); numpy's min and max {plain:.2f} s"
    return f"measure of {PARTS * ROWS * 3:,} I64 of files in the cache: {told}"


def main() -> None:
    for zones in [int(word) for word in sys.argv[1:]] or [1_000_000, 10_000_000]:
        for count, workers in [(1, 2), (3, 1), (3, 2)]:
            print(pruned(zones, count, workers), flush=True)
    with tempfile.TemporaryDirectory() as folder:
        print(measured(str(pathlib.Path(folder))))


if __name__ == "__main__":
    main()
