#!/usr/bin/env python3
# SPDX-License-Identifier: Apache-2.0
"""Runs the gate in a clone of the last commit, and prints what it cost: processor minutes of each crate's proof, tests and wrong bodies.

usage: checks/gate-cost.py

It looks at the processes of the gate once a second, so of a process that ends less than a second is lost. It takes as long as
the gate, and fails if the gate fails. Where `rt` keeps what an earlier run on this machine passed, that costs nothing.
"""
import collections
import os
import re
import subprocess
import sys
import tempfile
import time

TOP = os.path.dirname(os.path.dirname(os.path.abspath(__file__)))
TICKS = os.sysconf("SC_CLK_TCK")


def process(pid):
    """A process: its parent, its own time with that of its ended children in seconds, its command, its folder and when it began."""
    try:
        with open(f"/proc/{pid}/stat") as stat, open(f"/proc/{pid}/cmdline") as cmdline:
            fields = stat.read().rpartition(") ")[2].split()
            command = cmdline.read().replace("\0", " ")
        return int(fields[1]), sum(map(int, fields[11:15])) / TICKS, command, os.readlink(f"/proc/{pid}/cwd"), fields[19]
    except OSError:
        return None


def below(gate):
    """The runs of the prover below the gate: what each cost so far with all below it, its command, its folder and when it began."""
    seen = {int(pid): process(pid) for pid in os.listdir("/proc") if pid.isdigit()}
    seen = {pid: found for pid, found in seen.items() if found}
    children = collections.defaultdict(list)
    for pid, found in seen.items():
        children[found[0]].append(pid)
    spent = lambda pid: seen[pid][1] + sum(spent(child) for child in children[pid])
    return {pid: (spent(pid), *seen[pid][2:]) for pid in provers(gate, seen, children)}


def provers(pid, seen, children):
    """The processes below one that work on a crate, without those that they have begun."""
    for child in children[pid]:
        if " --crate-name " in seen[child][2]:
            yield child
        else:
            yield from provers(child, seen, children)


def kind(command):
    """The crate that a command is for, and which of the three kinds of work it is: a try of a wrong body looks at some functions alone."""
    crate = re.search(r"--crate-name (\S+)", command)
    if not crate:
        return "other", 0
    if " --only " in command:
        return crate.group(1), 2
    return crate.group(1), 1 if " --test" in command else 0


def watch(gate):
    """The seconds of each crate and kind of work, until the gate ends."""
    latest = {}
    while gate.poll() is None:
        for pid, (seconds, command, _, start) in below(gate.pid).items():
            if "rattle" in command:
                latest[pid, start, kind(command)] = seconds
        time.sleep(1)
    cost = collections.defaultdict(lambda: [0.0, 0.0, 0.0])
    for (_, _, (crate, which)), seconds in latest.items():
        cost[crate][which] += seconds
    return cost


def row(name, kinds):
    cells = [f"{seconds / 60:.1f}" for seconds in (*kinds, sum(kinds))]
    return f"| {name} | " + " | ".join(cells) + " |"


def main():
    with tempfile.TemporaryDirectory() as room:
        clone = os.path.join(room, "repository")
        subprocess.run(["git", "clone", "-q", TOP, clone], check=True)
        with open(os.path.join(room, "log"), "w+") as log:
            began = time.time()
            gate = subprocess.Popen([".ci/run"], cwd=clone, stdout=log, stderr=subprocess.STDOUT)
            cost = watch(gate)
            minutes = (time.time() - began) / 60
            log.seek(0)
            told = log.read().rstrip()
    print("| crate | proof | tests | edits | minutes |\n|---|---|---|---|---|")
    for crate in sorted(cost):
        print(row(f"`{crate}`", cost[crate]))
    print(row("all", [sum(kinds[i] for kinds in cost.values()) for i in range(3)]))
    last = told.rpartition("\n")[2]
    print(f"{last}; {minutes:.0f} minutes on {os.cpu_count()} cores")
    if gate.returncode:
        print(told, file=sys.stderr)
    sys.exit(gate.returncode)


main()
