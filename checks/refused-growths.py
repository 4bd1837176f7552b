#!/usr/bin/env python3
# SPDX-License-Identifier: Apache-2.0
# Refuses the Nth request for memory of the built program on each example, N = 1, 2, .. until a run meets no refusal.
# Each refused run has to print `memory` with status 1, and the last one the example's answer.
# usage: checks/refused-growths.py
import glob
import os
import sys

import shim
from both import PROGRAM, TOP, build_program, shown

SECONDS = 20


def read(path):
    with open(path, "rb") as file:
        return file.read()


def refused_runs(library, path):
    """How many runs were refused, and what is wrong with one, if anything is."""
    data, answer = read(path), read(path.removesuffix(".txt") + ".out")
    count = 0
    while True:
        count += 1
        status, printed = shim.run(library, PROGRAM, data, SECONDS, REFUSED_REQUEST=str(count))
        if printed == answer:
            return count - 1, None
        if (status, printed) != (1, b"memory\n"):
            return count - 1, f"at request {count} {shown((status, printed))}"


def main():
    build_program()
    library = shim.build()
    paths = sorted(glob.glob(os.path.join(TOP, "examples/*.txt")))
    refused = failed = 0
    for path in paths:
        count, fault = refused_runs(library, path)
        refused += count
        failed += fault is not None
        if fault:
            print(f"failed: {os.path.basename(path)}: {fault}")
    print(f"{len(paths) - failed} passed, {failed} failed: {refused} requests refused, each said memory, on {len(paths)} inputs")
    sys.exit(failed > 0)


main()
