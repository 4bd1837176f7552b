#!/usr/bin/env python3
# SPDX-License-Identifier: Apache-2.0
# Refuses the Nth request for memory of each test of a library that is named for refusals, N = 1, 2, .. until it meets none.
# Such a test accepts a refusal within the call that it tests, with what the call has to leave behind; one that comes
# while the test builds its values ends it with an error, which says nothing. A failed assertion is a wrong answer.
# usage: checks/refused-growths-of-tests.py [--built] CRATE ..    --built takes the programs that the gate left here in
# place of proving and building them anew
import os
import subprocess
import sys

import shim
from both import TOP

SECONDS = 60


def built_tests(crate, is_built):
    """The built tests of a crate, by name."""
    folder = os.path.join(TOP, "crates", crate)
    program = os.path.join(folder, "out", f"{crate}_tests")
    if not is_built:
        subprocess.run(["rt", "test", "--jobs", "2"], cwd=folder, stdout=subprocess.DEVNULL, stderr=subprocess.DEVNULL, check=True)
    listed = subprocess.run([program, "--list"], capture_output=True, check=True, text=True).stdout
    names = [line.removesuffix(": test") for line in listed.splitlines() if line.endswith(": test")]
    return program, [name for name in names if "refused" in name]


def refusals(library, program, name):
    """How many refusals a test accepted, how many ended it before its call, and what was wrong, if anything was."""
    accepted = ended = count = 0
    while True:
        count += 1
        status, said, came = shim.refused(library, [program, name], count, SECONDS)
        if status not in (0, 101) or (status == 101 and not came):
            return accepted, ended, f"at request {count}: {said[:300]!r}"
        if not came:
            return accepted, ended, None
        accepted += status == 0
        ended += status == 101


def main():
    library = shim.build()
    passed = failed = 0
    words = sys.argv[1:]
    for crate in [word for word in words if word != "--built"]:
        program, names = built_tests(crate, "--built" in words)
        for name in names:
            accepted, ended, fault = refusals(library, program, name)
            passed += fault is None
            failed += fault is not None
            print(f"{crate} {name}: " + (fault or f"{accepted} refusals accepted, {ended} while it built its values"), flush=True)
    print(f"{passed} passed, {failed} failed")
    sys.exit(failed > 0 or passed == 0)


main()
