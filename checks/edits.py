#!/usr/bin/env python3
# SPDX-License-Identifier: Apache-2.0
"""Tries wrong bodies: the prover has to refuse each by the clause that it names, and by no other.

usage: checks/edits.py [--named] [--clauses] [--jobs N] [CRATE..]
    --named tries those of the specification alone, which the bodies of checks/ledger.tsv name, and lists no goals of the crates
    --clauses prints for each edit the clauses that it leaves open, and judges none
    --jobs tries those of N crates side by side, in place of as many as processors and memory allow

checks/edit.py says what an edit names. The crates below are built first. Edits of different functions are tried at once, in a copy of the
crate, since a proof rests on the contracts of other functions and not on their bodies: `rt check --only` lists the goals of the turned
functions that stay open, and each stands for a clause. One that isn't refused so beside others is tried alone. The twin of an edit is tried
likewise, and everything has to be proved of it. An edit without a twin has to leave goals open that the function has as the crate stands.
One that was refused is not tried again while it, the sources that its crate stands on and the toolchain stay as they are, so an
interrupted run goes on where it was. Prints a line for each crate and for each edit that isn't refused so, and last how many are.
"""
import argparse
import concurrent.futures
import hashlib
import os
import re
import shutil
import subprocess
import sys
import tempfile
import time
from dataclasses import dataclass

sys.dont_write_bytecode = True
import build
import edit as edits
import goals
import ledger
import sources

TOP = build.TOP
# The memory that a try takes at most.
BYTES_A_CRATE = 5_000_000_000


@dataclass(frozen=True)
class Try:
    """An edit that is made in a copy of its crate, or its twin, of which nothing may stay open."""

    edit: edits.Edit
    is_twin: bool = False

    def made_over(self, texts):
        return self.edit.made_over(texts, self.is_twin)

    def wanted(self):
        return frozenset() if self.is_twin else self.edit.clauses


def replace(file, text):
    """Writes a file anew, which may share its bytes with that of the repository."""
    os.remove(file)
    with open(file, "w", encoding="utf-8") as it:
        it.write(text)


def without_answer(text, goal):
    """A proof file without the answer to a goal, so that the prover tries each clause of it by itself."""
    return re.sub(rf"^pub {re.escape(goal)} : goal\..*\n(?:(?!pub |-- ----).*\n)*", "", text, flags=re.M)


class Crate:
    """A crate whose edits are tried, with those that were refused before on the same sources."""

    def __init__(self, name, found, lists):
        self.name, self.edits, self.lists = name, found, lists
        self.below = build.crates_below(name)
        self.kept, stand = f"{TOP}/out/refused-edits/{name}", build.sum_of(self.below)
        self.sums = {it: hashlib.sha256(f"{stand}\n{one.text}".encode()).hexdigest() for it, one in found.items()}
        before = set((build.text_of(self.kept) or "").split())
        self.left = [one for it, one in found.items() if self.sums[it] not in before]
        self.goals = {}

    def cost(self):
        """What its edits cost beside those of others: each takes longer the longer the crate is."""
        files = [f"{at}/{it}" for part in build.SOURCES for at, _, names in os.walk(f"{TOP}/crates/{self.name}/{part}") for it in names]
        return sum(map(os.path.getsize, files)) * len(self.left)

    def copy_to(self, room):
        """Copies the crate, and what a check of it kept, to a folder in which its edits are tried."""
        build.copy_beside(self.below, self.name, room)
        kept = f"{TOP}/crates/{self.name}/out/incremental"
        if os.path.isdir(kept):
            shutil.copytree(kept, f"{room}/crates/{self.name}/out/incremental")

    def texts(self):
        """The texts of the files that the edits turn."""
        files = {pair[0] for it in self.edits.values() for pair in it.pairs}
        return {it: build.text_of(f"{TOP}/crates/{self.name}/{it}") for it in files}

    def rounds(self, tries):
        """Tries, in rounds: those of one turn different functions, and each can be made over those before it."""
        rounds, texts = [], self.texts()
        for it in tries:
            for made in rounds:
                functions = {name for other in made[0] for name in other.edit.functions}
                after = None if functions & {*it.edit.functions} else it.made_over(made[1])
                if after:
                    made[0].append(it)
                    made[1] = after
                    break
            else:
                rounds.append([[it], it.made_over(texts)])
        return [made[0] for made in rounds]

    def checked(self, functions, texts, room):
        """What a check of these functions tells, with these texts in place of the crate's own."""
        for file, text in texts.items():
            replace(f"{room}/crates/{self.name}/{file}", text)
        words = ["rt", "check", "--jobs", "1", *(it for name in functions for it in ("--only", name))]
        how = {"stdin": subprocess.DEVNULL, "stdout": subprocess.PIPE, "stderr": subprocess.STDOUT}
        told = subprocess.run(words, cwd=f"{room}/crates/{self.name}", text=True, check=False, **how).stdout
        return told if re.search(r"^only=\d+ proved=", told, re.M) else None, told

    def clauses_of(self, it, open_goals, texts, room):
        """The clauses that a try left open. A goal that an answer takes for several clauses at once is tried again without that answer."""
        found = set()
        for name in it.edit.functions:
            lines, ensures = self.lines_of(name, texts), sources.ensured(self.name, name)
            for goal in goals.goals_at(name, open_goals):
                clauses = goals.clauses_of(goal, name, ensures, lines)
                found |= clauses if len(clauses) == 1 else self.parted(name, goal, texts, room)
        return frozenset(found)

    def lines_of(self, function, texts):
        for file, text in texts.items():
            for name, (start, end) in sources.functions_in(file[len("src/") : -len(".rt")], text).items():
                if sources.placed(self.name, name) == function:
                    return text.split("\n")[start : end + 1]
        return []

    def parted(self, function, goal, texts, room):
        """The clauses of one goal that stay open where each is a goal of its own."""
        file = f"{room}/crates/{self.name}/proofs/{'/'.join(function.split('::'))}/Answers.antt"
        kept, ensures = build.text_of(file), sources.ensured(self.name, function)
        if kept is None or without_answer(kept, goal) == kept:
            return set(ensures)
        replace(file, without_answer(kept, goal))
        _, told = self.checked([function], texts, room)
        replace(file, kept)
        found = {it for it in goals.goals_at(function, goals.open_goals(self.name, told, texts)) if goals.RETURNS.fullmatch(it)}
        return set().union(*(goals.clauses_of(it, function, ensures) for it in found))

    def found_by(self, tries, room):
        """Tries edits at once, and returns the clauses that each left open, or why none was tried. Those of a text that can't be read are
        tried by halves."""
        texts = self.texts()
        for it in tries:
            texts = it.made_over(texts)
        told, said = self.checked(sorted({name for it in tries for name in it.edit.functions}), texts, room)
        if told is None and len(tries) > 1:
            halves = tries[: len(tries) // 2], tries[len(tries) // 2 :]
            return {it: why for half in halves for it, why in self.found_by(half, room).items()}
        if told is None:
            return {tries[0]: f"no proof was tried of it: {said[-500:]}"}
        found = goals.open_goals(self.name, told, texts)
        self.goals.update({it: {goal for name in it.edit.functions for goal in goals.goals_at(name, found)} for it in tries})
        left = {it: self.clauses_of(it, found, texts, room) for it in tries}
        # A goal may stay unlooked at where a function that it rests on isn't proved, so such an edit is tried alone.
        again = [it for it in tries if len(tries) > 1 and left[it] != it.wanted()]
        return {**left, **{it: clauses for each in again for it, clauses in self.found_by([each], room).items()}}

    def all_found(self, room):
        """The clauses that each edit which is left, and each twin, left open, and how many rounds that took."""
        tries = [Try(it) for it in self.left] + [Try(it, True) for it in self.left if it.has_twin()]
        rounds = self.rounds(tries)
        return {it: found for made in rounds for it, found in self.found_by(made, room).items()}, len(rounds)

    def own_branches(self, tries, room):
        """Of edits without a twin, why one isn't refused at a goal that its function has as the crate stands."""
        alone = [it for it in tries if not it.is_twin and not it.edit.has_twin()]
        if not alone or not self.lists:
            return {}
        for file, text in self.texts().items():
            replace(f"{room}/crates/{self.name}/{file}", text)
        folders, told = goals.listed(self.name, sorted({name for it in alone for name in it.edit.functions}), room, f"{room}/goals")
        if folders is None:
            return {it: f"the goals of the crate as it stands can't be listed: {told}" for it in alone}
        stands = lambda it: any(goals.is_listed(goal, goals.goals_of(it.edit.functions, folders)) for goal in self.goals.get(it, ()))
        return {it: f"no goal that it leaves open is one of the function as it stands ({', '.join(sorted(self.goals.get(it, ())))}): it wants a twin" for it in alone if not stands(it)}

    def faults_of(self, found, room):
        """Of the edits that were tried, why one isn't refused by its clauses alone."""
        name = lambda it: f"{self.name}/{it.edit.name}" + (", its twin" if it.is_twin else "")
        said = lambda it: it if isinstance(it, str) else f"open are {', '.join(sorted(it)) or 'none'}"
        wrong = {it: said(left) for it, left in found.items() if left != it.wanted()}
        wrong = {**self.own_branches([it for it in found if it not in wrong], room), **wrong}
        return {it.edit.name for it in wrong}, [f"{name(it)}: {why}" for it, why in wrong.items()]

    def try_left(self, prints):
        """Tries the edits that are left, and returns the names of those that aren't refused so, and what is told of these and of the run."""
        began = time.monotonic()
        with tempfile.TemporaryDirectory() as room:
            self.copy_to(room)
            found, rounds = self.all_found(room)
            wrong, lines = (set(), []) if prints else self.faults_of(found, room)
        if prints:
            return set(), [f"{self.name}/{it.edit.name}\t{'twin' if it.is_twin else 'edit'}\t{left if isinstance(left, str) else ', '.join(sorted(left))}\t{' '.join(sorted(self.goals.get(it, ())))}" for it, left in found.items()]
        os.makedirs(os.path.dirname(self.kept), exist_ok=True)
        with open(self.kept, "a", encoding="utf-8") as kept:
            kept.writelines(f"{self.sums[it.name]}\n" for it in self.left if it.name not in wrong)
        minutes = (time.monotonic() - began) / 60
        return wrong, [*lines, f"{self.name}: {len(self.left)} tried in {rounds} rounds and {minutes:.0f} minutes"]


def named_edits():
    """The names of the edits that the bodies of the ledger name, by their crates."""
    found = {}
    for it in ledger.named_edits():
        crate, _, name = it.partition("/")
        found.setdefault(crate, set()).add(name)
    return found


def processes_that_fit():
    return int(max(1, min(build.processors(), build.free_bytes() // BYTES_A_CRATE)))


def crates_of(asked):
    """The crates whose edits are asked for."""
    named = named_edits()
    chosen = lambda crate: {it: one for it, one in edits.edits_of(crate).items() if not asked.named or it in named.get(crate, ())}
    return [Crate(it, chosen(it), not asked.named) for it in asked.crates or edits.crates_with_edits()]


def main():
    words = argparse.ArgumentParser(usage=__doc__.partition("usage: ")[2].partition("\n\n")[0])
    words.add_argument("--named", action="store_true")
    words.add_argument("--clauses", action="store_true")
    words.add_argument("--jobs", type=int)
    words.add_argument("crates", nargs="*")
    asked = words.parse_args()
    unknown = [it for it in asked.crates if it not in build.listed_crates()]
    if unknown:
        sys.exit(f"edits: there is no crate {unknown[0]}")
    crates = crates_of(asked)
    count = sum(len(it.edits) for it in crates)
    if not count:
        sys.exit("edits: there is no edit to try")
    left = sorted((it for it in crates if it.left), key=Crate.cost, reverse=True)
    below = {name for it in left for name in it.below if name != it.name}
    with build.alone():
        if below and not build.are_built(build.crates_below(*sorted(below)), build.jobs_that_fit()):
            return 1
    faults = 0
    with concurrent.futures.ThreadPoolExecutor(asked.jobs or processes_that_fit()) as pool:
        for done in concurrent.futures.as_completed([pool.submit(it.try_left, asked.clauses) for it in left]):
            wrong, lines = done.result()
            faults += len(wrong)
            print(*lines, sep="\n", flush=True)
    tried = sum(len(it.left) for it in left)
    print(f"{count - faults} of {count} edits refused at their clause, {count - tried} of them before, on the same sources")
    return 1 if faults else 0


sys.exit(main())
