#!/usr/bin/env python3
# SPDX-License-Identifier: Apache-2.0
"""Runs programs on an input: the least processor time of some runs of each, and the most memory that one held.

usage: measure.py RUNS INPUT PROGRAM [PLAIN]      with PLAIN, both have to print the same
"""
import filecmp
import os
import subprocess
import sys


def run(program, path, printed):
    """The processor time in milliseconds and the peak of memory in bytes of one run."""
    with open(path, "rb") as given, open(printed, "wb") as out:
        started = subprocess.Popen([program], stdin=given, stdout=out)
        _, status, used = os.wait4(started.pid, 0)
    started.returncode = os.waitstatus_to_exitcode(status)
    if started.returncode != 0:
        sys.exit(f"{program} on {path}: status {started.returncode}")
    return 1000 * (used.ru_utime + used.ru_stime), 1024 * used.ru_maxrss


def best(program, path, printed, runs):
    times, peaks = zip(*(run(program, path, printed) for _ in range(runs)))
    return min(times), max(peaks)


def shown(size, time, peak):
    """A large input's memory is told beside its size; that of a small one says nothing."""
    memory = f", {peak / 1e6:.0f} MB ({peak / size:.1f} times the input)" if size > 1e6 else ""
    return f"{time:.0f} ms{memory}"


def main():
    runs, path, programs = int(sys.argv[1]), sys.argv[2], sys.argv[3:]
    size = os.path.getsize(path)
    stem = path.removesuffix(".txt")
    outs = [f"{stem}.{name}.out" for name in ("ours", "plain")[: len(programs)]]
    found = [best(program, path, out, runs) for program, out in zip(programs, outs)]
    line = f"{os.path.basename(stem)}: {shown(size, *found[0])}"
    if len(found) == 2:
        if not filecmp.cmp(*outs, shallow=False):
            sys.exit(f"{path}: the two programs print different answers")
        line += f"; plain Rust {shown(size, *found[1])}; ratio {100 * found[0][0] / found[1][0]:.0f}%"
    print(line, flush=True)


main()
