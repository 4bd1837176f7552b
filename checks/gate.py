#!/usr/bin/env python3
# SPDX-License-Identifier: Apache-2.0
"""Runs the gate and, over what it has proved, the wrong bodies of the specification, the layout, the examples of the pages and the callers.

usage: checks/tests.sh --prove    RT_JOBS says how many proofs go on at a time, by default one a processor,
                                  and GATE_MINUTES how long all of it may take, by default 150

`rt ci` proves every crate and its tests from nothing, and runs the tests and the programs. It leaves the built libraries and programs in the
crates' out/, without the marks by which `rt` and checks/build.py know what they are built of. Where it has passed, and the sources are those
that it began with, these marks are written, so that nothing is proved twice but crates/vortex_ffi, of which the gate keeps no archive.
The last line counts what passed and failed: the gate's own, each wrong body, the layout, the examples, and the tests of the callers. What is
left out for want of a compiler, another tool or time is told, and is no failure; the wrong bodies, which take longest, come last.
"""
import os
import re
import signal
import subprocess
import sys
import threading
import time

sys.dont_write_bytecode = True
import build

TOP = build.TOP
#: When the gate has to have ended, by the clock of time.monotonic().
END = time.monotonic() + 60 * float(os.environ.get("GATE_MINUTES", "150"))


def run(*words, end=None, **env):
    """Runs a command whose lines are passed on, until a time by the clock if one is given, and returns its status and what it told."""
    how = {"stdin": subprocess.DEVNULL, "stdout": subprocess.PIPE, "stderr": subprocess.STDOUT, "text": True, "errors": "replace", "start_new_session": end is not None}
    with subprocess.Popen(words, cwd=TOP, env={**os.environ, **env}, **how) as process:
        stop = threading.Timer(max(end - time.monotonic(), 0), os.killpg, (process.pid, signal.SIGKILL)) if end is not None else None
        if stop:
            stop.start()
        told = []
        for line in process.stdout:
            print(line, end="", flush=True)
            told.append(line)
        if stop:
            stop.cancel()
    return process.returncode, "".join(told)


def counted(told):
    """How many passed and failed, by the last line of the gate."""
    found = re.search(r"^(\d+) passed, (\d+) failed\s*\Z", told, re.M)
    return (int(found[1]), int(found[2])) if found else (0, 1)


def of_toolchain():
    """The toolchain's own reading of the crates, which knows how it marks a built library."""
    start_page = subprocess.run(["rt", "doc"], stdout=subprocess.PIPE, text=True, check=True).stdout.split("\n")[0]
    sys.path.insert(0, f"{os.path.dirname(start_page)}/bin")
    import rtlib

    return rtlib


def mark_libraries(began):
    """Marks each library that was built since a time with the sum of its sources by which `rt` takes it as built.

    The gate's libraries hold statements that fit those alone which they were built over. They are marked only where all were built by one
    gate, so that they fit each other.
    """
    rtlib = of_toolchain()
    crates = [it for it in rtlib.crates_below(TOP) if os.path.isdir(it.rlib)]
    if all(os.path.getmtime(it.rlib) >= began for it in crates):
        for it in crates:
            with open(f"{it.folder}/out/rlib/stamp", "w", encoding="utf-8") as stamp:
                stamp.write(it.stamp())


def mark_programs(began):
    """Notes for each program that was built since a time of which sources it is, as checks/build.py does."""
    for name in build.listed_crates():
        program = build.file_of(name)
        if os.path.isfile(program) and os.path.getmtime(program) >= began:
            with open(f"{program}.sum", "w", encoding="utf-8") as it:
                it.write(build.sum_of(build.crates_below(name), program))


def note_counts(told):
    """Keeps how many functions of each crate the gate has proved, by what it told of each."""
    for name, said in re.findall(r"^== (\w+)\n(.*?)^rt: \1 proved$", told, re.M | re.S):
        found = re.search(r"^logic=proved functions=(\d+) ", said, re.M)
        if found and os.path.isdir(f"{TOP}/crates/{name}/out"):
            build.note_count(name, found[1])


def marked(told, began):
    """Marks what the gate has built, and returns whether it could. A toolchain that keeps its marks in another way isn't marked for."""
    try:
        mark_libraries(began)
        mark_programs(began)
        note_counts(told)
    except (AttributeError, ImportError, OSError, TypeError, ValueError) as fault:
        print(f"gate: what it has built can't be marked, so what stands on it is left out: {fault!r}", flush=True)
        return False
    return True


def gate():
    """Runs `rt ci`, and where it passes marks what it has built. Returns what passed and failed, and whether all is marked."""
    crates = build.crates_below(*build.listed_crates())
    before, began = build.sum_of(crates), time.time()
    status, told = run("rt", "ci", RT_JOBS=os.environ.get("RT_JOBS") or str(build.processors()))
    passed, failed = counted(told)
    is_whole = status == 0 and failed == 0 and build.sum_of(crates) == before
    return passed, failed + (status != 0 and failed == 0), is_whole and marked(told, began)


def wrong_bodies():
    status, told = run("checks/edits.py", "--named", end=END)
    if status == -signal.SIGKILL and time.monotonic() >= END:
        print("gate: the wrong bodies that weren't tried yet are left out: its time is over", flush=True)
        return 0, 0
    found = re.search(r"^(\d+) of (\d+) edits refused at their clause", told, re.M)
    passed, count = (int(found[1]), int(found[2])) if found else (0, 0)
    return passed, count - passed if found else 1


def layout():
    status, _ = run("checks/layout.py")
    return int(status == 0), int(status != 0)


def callers():
    """The tests of the callers, counted by what the runners of Rust and Python tell, and one for all others."""
    status, told = run("checks/callers.sh")
    tests = sum(map(int, re.findall(r"^Ran (\d+) tests? in ", told, re.M))) + sum(map(int, re.findall(r"^test result: ok\. (\d+) passed", told, re.M)))
    return tests + (status == 0), int(status != 0)


def examples():
    if not os.path.isfile(f"{TOP}/callers/out/libvortex_ffi.so"):
        print("gate: the examples of the pages left out: the library for the callers isn't built")
        return 0, 0
    status, _ = run("checks/examples.py")
    return int(status == 0), int(status != 0)


def main():
    passed, failed, is_marked = gate()
    steps = (layout, callers, examples, wrong_bodies) if is_marked else (layout,)
    for step in () if failed else steps:
        name, began = step.__name__.replace("_", " "), time.monotonic()
        if began >= END:
            print(f"gate: {name} left out: its time is over", flush=True)
            continue
        more, less = step()
        print(f"gate: {name}: {more} passed, {less} failed, {time.monotonic() - began:.0f} s", flush=True)
        passed, failed = passed + more, failed + less
    print(f"{passed} passed, {failed} failed")
    return 1 if failed else 0


if __name__ == "__main__":
    sys.exit(main())
