# SPDX-License-Identifier: Apache-2.0
# The built program and the plain one of bench/plain, run on the same bytes: what checks that compare them share.
import os
import subprocess
import sys
from concurrent.futures import ThreadPoolExecutor

TOP = os.path.dirname(os.path.dirname(os.path.abspath(__file__)))
BUILT = os.path.join(TOP, "crates/vortex_scan/out/vortex_scan")
PROGRAM = os.environ.get("PROGRAM", BUILT)
PLAIN = os.path.join(TOP, "bench/data/plain")
# How many runs go on side by side.
WORKERS = 2


def build_program():
    """Proves and builds the program where its sources have changed, unless another one is to be run."""
    if PROGRAM == BUILT:
        subprocess.run([os.path.join(TOP, "scan"), "--build"], check=True)


def build():
    """Builds both programs; the proved one only where its sources have changed."""
    build_program()
    os.makedirs(os.path.dirname(PLAIN), exist_ok=True)
    main = os.path.join(TOP, "bench/plain/main.rs")
    subprocess.run(["rustc", "--edition", "2021", "-O", main, "-o", PLAIN], check=True)


def answer(program, data, seconds, **settings):
    """The status and what is printed, or that no answer came in time."""
    try:
        run = subprocess.run([program], input=data, stdout=subprocess.PIPE, stderr=subprocess.DEVNULL, timeout=seconds, **settings)
    except subprocess.TimeoutExpired:
        return f"no answer in {seconds} s"
    return run.returncode, run.stdout


def shown(said):
    text = repr(said)
    return text if len(text) <= 200 else text[:200] + " .."


def differs(name, data, seconds, answer_of=answer):
    """What the two programs answer to an input, if it isn't the same or isn't an answer."""
    ours, theirs = answer_of(PROGRAM, data, seconds), answer(PLAIN, data, seconds)
    if ours == theirs and ours[0] in (0, 1, 2):
        return None
    told = f"{name}: {shown(ours)}, plain Rust {shown(theirs)}"
    return f"{told}, input {data!r}" if len(data) <= 2000 else told


def faults_of(inputs, seconds, answer_of=answer):
    """Compares both programs on named inputs: how they differ, and how many inputs there were."""
    inputs = list(inputs)
    with ThreadPoolExecutor(WORKERS) as pool:
        told = list(pool.map(lambda it: differs(*it, seconds, answer_of), inputs))
    return [fault for fault in told if fault], len(inputs)


def end(passed, failed):
    print(f"{passed} passed, {failed} failed")
    sys.exit(failed > 0)
