#!/usr/bin/env python3
# SPDX-License-Identifier: Apache-2.0
"""How long the library takes to prune by a great Parquet footer, beside a plain reader in Rust (bench/plain/parquet.rs).

usage: callers/python/bench/parquet.py [GROUPS] [COLUMNS] [RUNS]

FOALMORROW_LIBRARY names the library. Prints the footer's size, and for each condition the least time of RUNS calls of either, and the memory
that the library's calls take at most, by the process's own count.
"""
import os
import pathlib
import resource
import struct
import subprocess
import sys
import tempfile
import time

TOP = pathlib.Path(__file__).resolve().parents[3]
sys.path.insert(0, str(TOP / "callers/python"))

from foalmorrow import Answer  # noqa: E402
from foalmorrow.parquet_calls import prune_footer  # noqa: E402
from tests.parquet_footers_of import Wide, struct_of  # noqa: E402
from tests.systems.parquet_writer import Raw, thrift  # noqa: E402

ROWS = 100_000


def footer(groups: int, columns: int) -> bytes:
    """A footer of columns of numbers, as writers of today make them: the values of column c of group g lie from g to g + 1000."""
    elements = [struct_of((4, b"schema"), (5, columns)), *(struct_of((1, 2), (3, 1), (4, f"column{c}".encode())) for c in range(columns))]
    told = []
    for g in range(groups):
        ends = struct.pack("<q", g + 1000), struct.pack("<q", g)
        chunks = []
        for c in range(columns):
            told_of = struct_of((1, ends[0]), (2, ends[1]), (3, Wide(c)), (5, ends[0]), (6, ends[1]), (7, True), (8, True))
            sizes = ((5, Wide(ROWS)), (6, Wide(800_000)), (7, Wide(400_000)), (9, Wide(4 + 400_000 * (g * columns + c))))
            meta = struct_of((1, 2), (2, [0, 3, 8]), (3, [f"column{c}".encode()]), (4, 1), *sizes, (12, Raw(told_of)))
            chunks.append(Raw(struct_of((2, Wide(4)), (3, Raw(meta)))))
        told.append(Raw(struct_of((1, chunks), (2, Wide(800_000 * columns)), (3, Wide(ROWS)), (6, Wide(400_000 * columns)))))
    orders = [Raw(thrift((1, Raw(thrift())))) for _ in range(columns)]
    return struct_of((1, 2), (2, [Raw(it) for it in elements]), (3, Wide(ROWS * groups)), (4, told), (7, orders))


def main() -> None:
    given = [int(it) for it in sys.argv[1:]]
    groups, columns, runs = [*given, *(10_000, 20, 9)[len(given) :]]
    data = footer(groups, columns)
    print(f"{groups} row groups of {columns} columns: {len(data) / 1e6:.1f} MB")
    with tempfile.TemporaryDirectory() as room:
        plain, file = f"{room}/parquet", f"{room}/footer"
        subprocess.run(["rustc", "--edition", "2021", "-C", "opt-level=3", "-C", "target-cpu=native", str(TOP / "bench/plain/parquet.rs"), "-o", plain], check=True)
        pathlib.Path(file).write_bytes(data)
        for column in (0, columns - 1):
            limit = groups * 9 // 10 + 1000
            said = subprocess.run([plain, file, f"column{column}", str(limit), str(runs)], capture_output=True, text=True, check=True).stdout.split()
            before, least = resource.getrusage(resource.RUSAGE_SELF).ru_maxrss, float("inf")
            for _ in range(runs):
                start = time.perf_counter()
                told = prune_footer(data, f"column{column} > {limit}", False, groups)
                least = min(least, time.perf_counter() - start)
            more = resource.getrusage(resource.RUSAGE_SELF).ru_maxrss - before
            kept = sum(code != Answer.SKIP for code in told.codes)
            assert kept == int(said[1]), (kept, said)
            print(f"column{column} > {limit}: {1000 * least:.1f} ms, plain {float(said[0]):.1f} ms, {float(said[0]) / 1000 / least:.2f} of its speed; {more / 1024:.0f} MB more; {kept} kept")


if __name__ == "__main__":
    os.environ.setdefault("FOALMORROW_LIBRARY", str(TOP / "callers/out/libvortex_ffi.so"))
    main()
