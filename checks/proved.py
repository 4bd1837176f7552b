#!/usr/bin/env python3
# SPDX-License-Identifier: Apache-2.0
"""Says what proved the library's files: the commit, the toolchain, the proved functions of each crate and the files' checksums.

usage: checks/proved.py --count CRATE..    checks these crates and those below them, and prints commit, toolchain and functions as JSON
       checks/proved.py COUNTS FILE..      prints what --count has printed to the file COUNTS, with a checksum of each FILE

A count stays known in the crate's out/, where `checks/build.py` notes it too, until its sources, a crate below it or the toolchain changes.
"""
import hashlib
import json
import os
import re
import subprocess
import sys
from concurrent.futures import ThreadPoolExecutor

import build

# How many crates are looked at side by side, each by one process.
BESIDE = 2


def told_by(*words, where=build.TOP):
    return subprocess.run(words, cwd=where, stdout=subprocess.PIPE, stderr=subprocess.STDOUT, text=True, errors="replace", check=False).stdout


def count_of(name):
    """The number of functions of a crate that are proved, by the last line of its check, or None where one isn't."""
    kept, stamp = build.kept_count(name)
    known = (build.text_of(kept) or "").split()
    if known[:1] == [stamp]:
        return int(known[1])
    told = told_by("rt", "check", "--jobs", "1", where=f"{build.TOP}/crates/{name}")
    found = re.search(r"^logic=proved functions=(\d+) ", told, re.M)
    if not found:
        print(f"proved: {name} isn't proved:\n{told[-2000:]}", file=sys.stderr)
        return None
    build.note_count(name, found[1])
    return int(found[1])


def counts(names):
    """What is told of the commit and of the crates, or None where one of them isn't proved."""
    crates = build.crates_below(*names)
    with ThreadPoolExecutor(BESIDE) as pool:
        found = dict(zip(crates, pool.map(count_of, crates)))
    if None in found.values():
        return None
    changed = told_by("git", "status", "--porcelain", "--untracked-files=no").strip()
    return {
        "commit": told_by("git", "rev-parse", "HEAD").strip(),
        "changed_since_commit": bool(changed),
        "toolchain": told_by("rt", "version").strip(),
        "proved_functions": found,
        "proved_functions_in_all": sum(found.values()),
    }


def checksum(file):
    with open(file, "rb") as it:
        return hashlib.sha256(it.read()).hexdigest()


def main(words):
    if words[:1] == ["--count"]:
        found = counts(words[1:])
    else:
        with open(words[0], encoding="utf-8") as it:
            found = json.load(it)
        found["sha256"] = {os.path.basename(file): checksum(file) for file in words[1:]}
    if found:
        print(json.dumps(found, indent=2))
    return 0 if found else build.NOT_BUILT


if __name__ == "__main__":
    sys.exit(main(sys.argv[1:]))
