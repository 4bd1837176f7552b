#!/usr/bin/env python3
# SPDX-License-Identifier: Apache-2.0
"""Looks at checks/ledger.tsv, which says for each named case of the specification what shows it.

usage: checks/ledger.py    prints what is wrong, one line each, and fails if anything is

A line has a kind, a name, and three cells of places, several of them parted by a blank; `-` stands for none:
    clause  clauses of contracts, as vortex_prune::part::Part::join#joined, named as in checks/sources.py. A clause that cites a record
            may be followed by facts of the record, each behind a dot: vortex_prune::scan::scan#answered.found.skipped
    row     worked rows that the prover computes, as vortex_stats:proofs/WorkedRows/StatRows#names: a file of the crate without its
            ending, and a name in it; a field of a record stands behind its name, parted by a dot
    test    tests that are run, as vortex_base_tests::values::scalars_are_read, and wrong bodies that are refused, as
            edit:vortex_prune/scan_skips_nothing.edit
A wrong body has an edit, but for those that tests alone can refuse; a worked row or a row of a table has a row or a test. Every line
stands by itself. A commit that takes a line out changes nothing else but what the line names, and its title begins with `ledger:`.
"""
import re
import subprocess
import sys

import sources

LEDGER = "checks/ledger.tsv"
HEAD = ["kind", "name", "clause", "row", "test"]
KINDS = ("definition", "clause", "table", "row", "refusal", "body", "upstream")
# A body that no contract can refuse, since the allocator doesn't say that it refused: tests alone do.
BY_TESTS = {"always Memory"}


def file_of_edit(place):
    """The file of an edit, named by its crate and name, or None."""
    crate, _, name = place.removeprefix("edit:").partition("/")
    found = f"checks/edits/{crate}/{name}"
    return found if found in sources.tracked() else None


def file_of_test(place):
    """The file in which a test stands, or None."""
    crate, *path, name = place.split("::")
    for end in range(len(path), 0, -1):
        f = f"crates/{crate}/src/{'/'.join(path[:end])}.rt"
        if re.search(rf"#\[test\]\n\s*fn {name}\(", sources.texts().get(f, "")):
            return f
    return None


def file_of_row(place):
    """The file in which a worked row stands, or None."""
    found = re.fullmatch(r"(\w+):((?:proofs|specs)/[\w/]+)#([\w-]+)(?:\.(\w+))?", place)
    f = found and f"crates/{found[1]}/{found[2]}.antt"
    if not f or f not in sources.texts():
        return None
    text, name, field = sources.texts()[f], re.escape(found[3]), found[4]
    record = re.search(rf"^pub record {name} .*\n((?:  .*\n|\n)+)", text, re.M)
    if field:
        return f if record and re.search(rf"^  pub {field} :", record[1], re.M) else None
    return f if record or re.search(rf"^(?:pub )?{name} : ", text, re.M) else None


def is_clause(place):
    """Whether a clause of a contract, or a member of a type or an interface, is there."""
    crate, _, rest = place.partition("::")
    function, _, names = rest.partition("#")
    first, *facts = names.split(".")
    if f"{function}#{first}" in sources.members(crate):
        return not facts
    named = {name for _, name, _ in sources.functions(crate).get(function, [])}
    return first in named and set(facts) <= sources.facts(crate)


def place_faults(row):
    """Places of a line that aren't there."""
    yield from (f"there is no clause {it}" for it in row["clause"] if not is_clause(it))
    yield from (f"there is no row {it}" for it in row["row"] if not file_of_row(it))
    yield from (f"there is no edit {it}" for it in row["test"] if it.startswith("edit:") and not file_of_edit(it))
    yield from (f"there is no test {it}" for it in row["test"] if not it.startswith("edit:") and not file_of_test(it))


def kind_faults(row):
    """What a line of its kind lacks."""
    has_edit = any(it.startswith("edit:") for it in row["test"])
    if row["kind"] not in KINDS:
        yield f"no kind is {row['kind']}"
    elif not any(row[it] for it in HEAD[2:]):
        yield "nothing shows it"
    elif row["kind"] == "body" and not has_edit and not (row["name"] in BY_TESTS and row["test"]):
        yield "a wrong body wants an edit"
    elif row["kind"] in ("row", "table", "upstream") and not row["row"] and not row["test"]:
        yield "it wants a row that is computed or a test that is run"


def row_of(line):
    """A line by its cells, or None where it has another number of them or an empty one."""
    cells = line.split("\t")
    if len(cells) != len(HEAD) or not all(it and it == it.strip() for it in cells):
        return None
    return dict(zip(HEAD, [*cells[:2], *([] if it == "-" else it.split(" ") for it in cells[2:])]))


def line_faults(text):
    """Faults of the lines, each by its number."""
    lines, names = text.removesuffix("\n").split("\n"), set()
    if lines[0].split("\t") != HEAD:
        yield 1, f"the first line names the cells: {', '.join(HEAD)}"
    for number, line in enumerate(lines[1:], 2):
        row = row_of(line)
        if not row:
            yield number, f"a line has {len(HEAD)} cells, parted by tabs, and none is empty"
            continue
        if row["name"] in names:
            yield number, f"{row['name']} has a line above"
        names.add(row["name"])
        yield from ((number, f"{row['name']}: {it}") for it in [*kind_faults(row), *place_faults(row)])


def git(*words):
    return subprocess.run(["git", *words], cwd=sources.TOP, capture_output=True, text=True, check=False).stdout


def rows_at(commit):
    """The lines of the ledger at a commit, by their names."""
    found = [row_of(line) for line in git("show", f"{commit}:{LEDGER}").split("\n")[1:]]
    return {row["name"]: row for row in found if row}


def may_change(row):
    """The files that a commit may change with the ledger which takes a line out: those of the rows, tests and edits that it names."""
    paths = {LEDGER}
    for it in [*row["row"], *row["test"]]:
        if it.startswith("edit:"):
            crate, _, name = it.removeprefix("edit:").partition("/")
            paths.add(f"checks/edits/{crate}/{name}")
        elif "#" in it:
            crate, _, rest = it.partition(":")
            paths.add(f"crates/{crate}/{rest.partition('#')[0]}.antt")
        else:
            crate, *path, _ = it.split("::")
            paths |= {f"crates/{crate}/src/{'/'.join(path[:end])}.rt" for end in range(1, len(path) + 1)}
    return paths


def removal_fault(title, changed, gone):
    """Why a commit may not take lines out of the ledger, or None: its title, the files that it changes and the lines that it takes out."""
    allowed = set().union(*map(may_change, gone))
    names = ", ".join(row["name"] for row in gone)
    if not title.startswith("ledger:"):
        return f"takes out {names}, and its title doesn't begin with ledger:"
    others = sorted(set(changed) - allowed)
    return f"takes out {names}, and changes {others[0]} too" if others else None


def history_faults():
    """Commits that took a line out of the ledger beside other changes, where git knows the commits."""
    for line in git("log", "--no-merges", "--format=%H %s", "--", LEDGER).splitlines():
        commit, _, title = line.partition(" ")
        before, after = rows_at(f"{commit}~1"), rows_at(commit)
        gone = [row for name, row in before.items() if name not in after]
        changed = git("diff-tree", "--no-commit-id", "--name-only", "-r", commit).split() if gone else []
        fault = removal_fault(title, changed, gone) if gone else None
        if fault:
            yield f"{commit[:10]} {fault}"


def named_edits():
    """The edits that the lines of wrong bodies name, each by its crate and name."""
    rows = [row_of(line) for line in sources.read(LEDGER).split("\n")[1:]]
    return [it.removeprefix("edit:") for row in rows if row and row["kind"] == "body" for it in row["test"] if it.startswith("edit:")]


def faults():
    """What is wrong with the ledger and with the commits that changed it."""
    yield from (f"{LEDGER}:{number}: {it}" for number, it in line_faults(sources.read(LEDGER)))
    yield from (f"{LEDGER}: {it}" for it in history_faults())


def main():
    found = list(faults())
    print("\n".join(found) or f"ledger: {len(sources.read(LEDGER).splitlines()) - 1} lines are in order")
    return 1 if found else 0


if __name__ == "__main__":
    sys.exit(main())
