# SPDX-License-Identifier: Apache-2.0
"""Reads which goals a check of `rt` left open, and which clause of a contract each of them stands for.

A goal is named after the branch and the clause, as `returns-in-Err-clause-refused`. A goal of a branch that an edit made or renamed has no
answer, so it stays open whether or not a clause refuses the edit: the goals that functions have as they stand tell such a branch.
"""
import glob
import os
import re
import subprocess

import sources

# How `rt check` tells an open goal: by the proof of its function, or by a line of the function.
OF_PROOF = re.compile(r"(?:\./)?proofs/(\S+)/\w+\.antt:\d+:\d+: error: `([^`]+)`:")
OF_LINE = re.compile(r"note: src/(\S+)\.rt:(\d+):\d+: .*\(`([^`]+)`\)")
RETURNS = re.compile(r"returns(?:-.*)?")
LOOP = re.compile(r"(?:loop-)?(.+?)-(?:init|preserved)(?:-.*)?")
REQUIRES = re.compile(r"(\w+)(?:-.*?)?-requires(?:-.*)?")
INVARIANT = re.compile(r"invariant_of-(\w+)(?:-.*)?")
SAFETY = re.compile(r"(overflow_\w+|nonzero_\w+|bounds|slice_bounds|offset_bounds|prove)-.*")
MEASURE = re.compile(r"(?:.+-)?smaller(?:-.*)?|decreases.*")


def open_goals(crate, told, texts):
    """The goals that a check left open, by the functions that have them, as a check of these texts told them."""
    found = [(path.replace("/", "::"), goal) for path, goal in OF_PROOF.findall(told)]
    for file, line, goal in (it for it in OF_LINE.findall(told) if f"src/{it[0]}.rt" in texts):
        # The line may be one of an attribute above the function.
        ends = [(end, name) for name, (_, end) in sources.functions_in(file, texts[f"src/{file}.rt"]).items() if end >= int(line) - 1]
        found += [(sources.placed(crate, name), goal) for _, name in sorted(ends)[:1]]
    goals = {}
    for name, goal in found:
        goals.setdefault(name, set()).add(goal)
    return goals


def goals_at(function, goals):
    """The goals of a function that are open, of those told by functions: the proof of a cycle has a folder of its own, where
    they begin with the function's name unless it calls itself alone."""
    module, _, own = function.rpartition("::")
    alone = goals.get(f"{module}::+{own}".removeprefix("::"), set())
    shared = {goal for name, its in goals.items() if "+" in name for goal in its if goal.startswith(f"{own}-")}
    return goals.get(function, set()) | alone | shared


def type_of(variable, function, lines):
    """The type of a value of a function: that which the function belongs to, or the one that its head gives the value."""
    given = re.search(rf"\b{variable}: (?:&(?:'\w+ )?)?(?:mut )?(\w+)", "\n".join(lines))
    return given[1] if given and variable not in ("self", "result") else function.split("::")[-2] if "::" in function else variable


def clauses_of(goal, function, ensures, lines=()):
    """The clauses that a goal of a function stands for: more than one where it covers all that the function ensures."""
    own = function.rpartition("::")[2]
    rest = goal.removeprefix(f"{own}-") if re.match(rf"{own}-(returns|\w+-requires|\w+-(?:init|preserved|smaller)|loop|overflow|decreases|invariant_of)", goal) else goal
    rest, _, clause = rest.partition("-clause-")
    for form, clauses in (
        (RETURNS, lambda it: {clause} if clause else set(ensures) or {"ensures"}),
        (MEASURE, lambda it: {"safety measure"}),
        (SAFETY, lambda it: {f"safety {it[1]}"}),
        (INVARIANT, lambda it: {f"{type_of(it[1], function, lines)}#{clause or 'invariant'}"}),
        (LOOP, lambda it: {"loop" if it[1] == "loop" else f"loop {it[1]}"}),
        (REQUIRES, lambda it: {f"{it[1]}#{clause or 'requires'}"}),
    ):
        told = form.fullmatch(rest)
        if told:
            return clauses(told)
    return {f"goal {goal}"}


def listed(crate, functions, top, room):
    """The goals of some functions of a crate that stands below `top`, or what was told where they can't be listed."""
    words = ["rt", "check", "--generated", room, *(it for name in functions for it in ("--start", name))]
    run = subprocess.run(words, cwd=f"{top}/crates/{crate}", stdin=subprocess.DEVNULL, stdout=subprocess.PIPE, stderr=subprocess.STDOUT, text=True, check=False)
    files = glob.glob(f"{room}/Rattle-{crate}-proofs/**/Goals.antt", recursive=True)
    found = {}
    for it in files:
        with open(it, encoding="utf-8") as text:
            goals = set(re.findall(r"^abbrev pub ([a-z]\S*) :", text.read(), re.M))
        found[os.path.relpath(os.path.dirname(it), f"{room}/Rattle-{crate}-proofs")] = goals
    return (found, "") if found else (None, run.stdout[-1000:])


def goals_of(functions, folders):
    """The goals of some functions, of those listed by the folders of their proofs: a function of a cycle has the cycle's."""
    paths = ["/" + "/".join(name.split("::")) for name in functions]
    exact = [it for it in folders if any(f"/{it}".endswith(path) for path in paths)]
    cycles = [it for it in folders if "/+" in f"/{it}"]
    return {goal for it in (exact or cycles) for goal in folders[it]}


def is_listed(goal, standing):
    """Whether a goal is one of those listed: one of several clauses may be listed whole or by its clauses, and be left open in the other way."""
    return bool({goal, goal.partition("-clause-")[0]} & standing) or any(it.startswith(f"{goal}-clause-") for it in standing)
