#!/usr/bin/env python3
# SPDX-License-Identifier: Apache-2.0
"""Looks at the layout of the repository: its files, imports, pages, links, edits, its ledger, and the pages that scripts write.

usage: checks/layout.py          says what is wrong, one line each, and fails if anything is
       checks/layout.py --map    prints docs/MAP.md, which checks/pages.py writes
"""
import functools
import os
import re
import subprocess
import sys

import edit
import ledger
import pages
import sources
import words
from sources import read

os.chdir(sources.TOP)

TRACKED = sources.tracked()
TEXTS = sources.texts()
SOURCES = list(TEXTS)
CODE = {f: text for f, text in TEXTS.items() if f.endswith(".rt")}
# A trait may be imported for its methods alone.
TRAITS = {"BufRead", "Read", "ToSpan", "Write"} | {name for text in CODE.values() for name in re.findall(r"^pub trait (\w+)", text, re.M)}
# The crates whose public clauses have a witness wherever they have a premise.
WITNESSED = ("vortex_zone_map", "vortex_prune", "vortex_predicates", "vortex_capi", "vortex_text")


def is_listed(f):
    """Whether the map has a row for a file: what a function's proof needs is in a folder of its name, and Lib.antt lists the files beside it."""
    return not re.search(r"/(Lib|Answers|Invariants|Proof)\.antt$", f)


def imports(text):
    """The names that each import brings, by the place that it begins at; those that are handed on are no import."""
    form = r"^\s*(?:pub )?(?:ghost )?use ([^;{\n]*?)(?:\.|::)?(?:\{([^}]*)\}|(\w+))?(?: as (\w+))?\s*;?$"
    for found in re.finditer(form, text, re.M):
        path, names, last, alias = found.groups()
        if found.group(0).lstrip().startswith("pub "):
            continue
        given = [alias or last or path] if names is None else [it.strip() for it in names.split(",") if it.strip()]
        yield found, [it.split(" as ")[-1].split("::")[-1] for it in given]


def is_used(name, rest):
    # The notation `do` stands for this operator.
    if name == "◌>>=◌" and re.search(r"\bdo\b", rest):
        return True
    parts = [it for it in name.split("◌") if it] if "◌" in name else [name]
    return all(re.search(r"(?<![\w-])" + re.escape(it) + r"(?![\w-])" if re.match(r"\w", it) else re.escape(it), rest) for it in parts)


def import_faults(f):
    """Imports that nothing uses, those of `ghost use` among them."""
    text = TEXTS[f]
    # Modules below may take what this one imports, by `super::*`.
    below = "".join(text for it, text in TEXTS.items() if it.startswith(f[:-3] + "/")) if f.endswith(".rt") else ""
    for found, names in imports(text):
        rest = text[: found.start()] + text[found.end() :] + below
        number = text[: found.start()].count("\n") + 1
        for name in names:
            if name not in ("*", "self", "") and re.match(r"[\w◌]", name) and name not in TRAITS and not is_used(name, rest):
                yield f"{f}:{number}: nothing uses {name}"


def source_faults():
    for f, text in TEXTS.items():
        if is_listed(f) and not pages.first_sentence(f):
            yield f"{f}:1: no first sentence that says what lives there"
        for number, line in enumerate(text.split("\n"), 1):
            if f.endswith(".rt") and len(line) > 100 and not re.match(r"\s*(ghost use|///)", line):
                yield f"{f}:{number}: {len(line)} columns"
        if len(text.split("\n")) > 801:
            yield f"{f}: over 800 lines"
        if not f.endswith("/Lib.antt"):
            yield from import_faults(f)


def rows_of(document):
    """The rows of a document's tables: their line numbers and cells."""
    for number, row in enumerate(read(document).split("\n"), 1):
        cells = [it.strip() for it in re.split(r"(?<!\\)\|", row)[1:-1]]
        if len(cells) > 1 and not set(cells[0]) <= set("-: "):
            yield number, cells


def promise_faults():
    """Contracts and clauses that the promises cite and that don't exist."""
    named = set(re.findall(r"\b(?:fn|struct|enum|trait|mod|type|const) (\w+)", "".join(CODE.values())))
    named |= {re.sub(r"\.rt$", "", part) for f in CODE for part in f.split("/")}
    clauses = set(re.findall(r"\b(?:ensures|requires|ghost) (\w+) [={]", "".join(CODE.values())))
    clauses |= set(re.findall(r"\bghost (\w+)", "".join(CODE.values())))
    clauses |= {fact for crate in WITNESSED for record in promised(crate).values() for fact, _ in record}
    variants = set(re.findall(r"^    (\w+)(?:\(|,| \{)", "".join(CODE.values()), re.M))
    pages = ["docs/PROMISES.md", *(it for it in TRACKED if re.fullmatch(r"crates/\w+/README\.md", it))]
    for f, number, cells in ((f, *row) for f in pages for row in rows_of(f)):
        for cited in re.findall(r"`([^`]+)`", cells[-1]):
            plain = re.sub(r"<[^>]*>", "", cited)
            for name in re.findall(r"\w+", plain.split("::", 1)[1] if "::" in plain else plain):
                if name not in named | clauses | variants | {"for", "rt", "Model", "Display", "IntoIterator", "Iterator", "From"}:
                    yield f"{f}:{number}: there is no {name}, of {cited}"


def public_files(crate):
    """The files of a crate that callers reach: each module on the way is declared as public."""
    left, found = [(f"crates/{crate}/src/lib.rt", f"crates/{crate}/src")], []
    while left:
        f, folder = left.pop()
        found.append(f)
        for name in re.findall(r"^pub mod (\w+);", CODE.get(f, ""), re.M):
            if f"{folder}/{name}.rt" in CODE:
                left.append((f"{folder}/{name}.rt", f"{folder}/{name}"))
    return found


def contracts(f):
    """The public functions of a file, each by its type and name with the lines of its contract."""
    owner, lines = "", CODE[f].split("\n")
    for number, line in enumerate(lines):
        of_type = re.match(r"impl(?:<[^>]*>)? (\w+)(?:<[^>]*>)? \{", line)
        owner = f"{of_type.group(1)}::" if of_type else "" if line.startswith("}") else owner
        found = re.match(r"( *)pub fn (\w+)", line)
        if found:
            rest = lines[number + 1 :]
            ends = (at for at, it in enumerate(rest) if it in (f"{found.group(1)}{{", f"{found.group(1)}{{}}") or it.endswith(") {"))
            contract = [] if line.endswith("{") else rest[: next(ends, 0)]
            yield owner + found.group(2), [it for it in contract if not it.lstrip().startswith("//")]


def offered(crate):
    """The functions that a crate offers, with their files and the lines of their contracts: those of public files, and the methods of the types there."""
    files = public_files(crate)
    types = {it for f in files for it in re.findall(r"^pub (?:struct|enum) (\w+)", CODE[f], re.M)}
    for f in (it for it in CODE if it.startswith(f"crates/{crate}/")):
        yield from ((f, *it) for it in contracts(f) if (it[0].split("::")[0] in types if "::" in it[0] else f in files))


@functools.cache
def stated(f):
    """What a file of specs defines, by name: a record by its facts and their names, and another definition by its equations, under no name."""
    text = TEXTS.get(f, "")
    records = re.findall(r"^pub record (\w+).*? where\n((?:  .*\n)+)", text, re.M)
    found = {name: re.findall(r"^  pub (\w+) : (.*?)(?=^  (?:pub|--) |\Z)", facts, re.M | re.S) for name, facts in records}
    others = re.findall(r"^( *)(?:abbrev |unfoldable )?pub (\w+) : .*Type 0\n((?:\1\2\b.*\n(?:\1 .*\n)*)+)", text, re.M)
    return found | {name: [("", equations)] for _, name, equations in others}


def is_record(facts):
    return facts[0][0] != ""


def promised(crate):
    """The records of promises of a crate, by their names: the facts of each, with their names."""
    files = (f for f in TEXTS if re.fullmatch(rf"crates/{crate}/specs/(?:\w+/)*Promises\.antt", f))
    return {name: facts for f in files for name, facts in stated(f).items() if is_record(facts)}


def cited(f, text):
    """What a text of a file cites of the specs of the witnessed crates: the file, the name and the facts of each definition."""
    form = rf"^(?:ghost )?use Rattle\.((?:{'|'.join(WITNESSED)})\.specs\.[\w.]+?)(?:\.\{{([^}}]*)\}}| as (\w+));?$"
    names = {(f, name): name for name in stated(f)}
    for module, items, alias in re.findall(form, TEXTS[f], re.M):
        place = f"crates/{module.replace('.', '/')}.antt"
        names |= {(place, name): rf"{alias}\.{name}" for name in stated(place)} if alias else {}
        names |= {(place, it.split(" as ")[0]): it.split(" as ")[-1] for it in items.split(", ") if it.split(" as ")[0] in stated(place)}
    return [(*it, stated(it[0])[it[1]]) for it, written in names.items() if re.search(rf"(?<![\w.]){written}\b", text)]


def concluded(f, text):
    """What a text cites behind its last premise."""
    return cited(f, text.rpartition("→")[2])


def is_conditional(text):
    """Whether a text has a premise: an arrow behind more than what it ranges over."""
    return "→" in re.sub(r"\([\w ]+ : (?:[^()]|\([^()]*\))*\)(?: →)?", "", text)


def has_premise(f, text):
    """Whether a text of a file has a premise, or the definition does that it concludes with."""
    return is_conditional(text) or any(is_conditional(fact) for *_, facts in concluded(f, text) for _, fact in facts)


def facts_of(clause, f, text, said=""):
    """A clause of a file with what it says, or in its place the facts of each record that it concludes with, if that is one of promises or one of its facts has a premise."""
    records = [it for it in concluded(f, text) if is_record(it[2]) and (it[0].endswith("/Promises.antt") or any(has_premise(it[0], fact) for _, fact in it[2]))]
    if not records:
        yield clause, (said + text, is_conditional(said) or has_premise(f, text))
    for place, record, facts in records:
        for name, fact in facts:
            yield from facts_of(f"{clause}.{name}", place, fact, re.sub(rf"\b{record}\b", "", said + text))


def public_clauses():
    """The clauses of what the witnessed crates offer, and for a record those of its facts: their names, what they say, and whether they have a premise."""
    form = r"^\s*ensures(?: (\w+))? \{(.*?)(?=^\s*(?:ensures|requires)\b|\Z)"
    for crate in WITNESSED:
        for f, function, contract in offered(crate):
            for name, text in re.findall(form, "\n".join(contract), re.M | re.S):
                yield from facts_of(f"{crate}::{function}" + (f".{name}" if name else ""), f, text)


def relations(text):
    """The relations that a clause or a statement names."""
    return set(re.findall(r"\b(?:Is|Are|Has)[A-Z]\w*", text)) - {"IsTrue", "IsOk"}


def witness_fault(clause, text, witness):
    """Why a witness, which is cited by its module and name, is none of the clause, or None."""
    module, _, name = witness.partition(".")
    files = [f for f in TEXTS if f.startswith(f"crates/{clause.split('::')[0]}/proofs/") and f.endswith(f"/{module}.antt")]
    found = [it for f in files for it in re.findall(rf"^(?:pub )?{re.escape(name)} : (.*?)^(?:unfolding|{re.escape(name)}) ", TEXTS[f], re.M | re.S)]
    if len(found) != 1 or "IsWitness" not in found[0]:
        return f"there is no witness {witness}"
    missing = relations(text) - relations(found[0])
    return f"{witness} says nothing of {', '.join(sorted(missing))}, as {clause} does" if missing else None


def witness_faults():
    """Public clauses with a premise for which no witness is named, and lines that name a clause or a witness that isn't there."""
    page, clauses, named, used = "docs/WITNESSES.md", dict(public_clauses()), set(), set()
    for number, cells in rows_of(page):
        if not cells[0].startswith("`"):
            continue
        clause, witness = cells[0].strip("`"), cells[-1].strip("`")
        named.add(clause)
        fault = None if witness.startswith("none: ") else witness_fault(clause, clauses.get(clause, ("", False))[0], witness)
        if clause not in clauses:
            fault = f"there is no clause {clause}"
        elif (clause.split("::")[0], witness) in used:
            fault = f"{witness} is named twice"
        if fault:
            yield f"{page}:{number}: {fault}"
        if not witness.startswith("none: "):
            used.add((clause.split("::")[0], witness))
    yield from (f"{page}: no witness is named for {it}" for it in sorted(clauses) if clauses[it][1] and it not in named)


def leads_somewhere(f, link):
    """Whether a link of a page leads to a file, and to a heading of it where it names one."""
    path, _, anchor = link.partition("#")
    target = os.path.join(os.path.dirname(f), path) if path else f
    if not os.path.exists(target) or not anchor:
        return os.path.exists(target)
    slugs = [re.sub(r"[^\w\- ]", "", it.lower()).replace(" ", "-") for it in re.findall(r"^#+ (.*)", read(target), re.M)]
    return anchor in slugs


def link_faults():
    """Links of the documents that lead nowhere, and paths that they name and that don't exist."""
    for f in (it for it in TRACKED if it.endswith(".md")):
        for number, line in enumerate(read(f).split("\n"), 1):
            for link in (it for it in re.findall(r"\]\(([^)\s]+)\)", line) if not it.startswith(("http://", "https://"))):
                if not leads_somewhere(f, link):
                    yield f"{f}:{number}: nothing is at {link}"
            for path in re.findall(r"`([\w./-]+\.(?:rt|antt|edit|py|sh|rs))`", line):
                if not any(it == path or it.endswith(f"/{path}") for it in TRACKED) and not os.path.exists(path) and "MODULE" not in path:
                    yield f"{f}:{number}: no file is {path}"
            for path in re.findall(r"(?<![\w/])(?:docs|checks|examples|bench|callers)/[\w./-]*\w", line):
                if not os.path.exists(path) and not os.path.exists(os.path.join(os.path.dirname(f), path)) and "/NAME" not in path and "/CRATE" not in path and not path.startswith("callers/out"):
                    yield f"{f}:{number}: nothing is at {path}"


def quote_faults():
    """Code of the pages that doesn't stand in the file which its first line names."""
    for f in (it for it in TRACKED if it.endswith(".md")):
        for place, code in re.findall(r"```(?:rust|text)\n(?://|--) (crates/\S+)\n(.*?)```", read(f), re.S):
            if place not in TEXTS or code not in TEXTS[place]:
                yield f"{f}: the code that is said to be of {place} doesn't stand there"
        for place, text in re.findall(r"^```text (\S+)\n(.*?)^```", read(f), re.S | re.M):
            if not os.path.exists(place) or read(place) != text:
                yield f"{f}: the text that is said to be {place} isn't that"


def format_faults():
    """Files that the gate would refuse since they aren't formatted."""
    start_page = subprocess.run(["rt", "doc"], capture_output=True, text=True, check=True).stdout.split("\n")[0]
    words = [f"{os.path.dirname(start_page)}/bin/rattle", "fmt", "--check"]
    for crate in sorted({f.split("/")[1] for f in SOURCES}):
        files = [f for f in SOURCES if f.split("/")[1] == crate]
        if subprocess.run([*words, *files], capture_output=True, check=False).returncode:
            yield f"crates/{crate}: not formatted; rt fmt in its folder formats it"


def main():
    if sys.argv[1:] == ["--map"]:
        print(pages.the_map(), end="")
        return 0
    faults = [*source_faults(), *promise_faults(), *witness_faults(), *link_faults(), *quote_faults(), *edit.faults(), *ledger.faults(), *pages.faults(), *words.faults(), *format_faults()]
    print("\n".join(faults) or "layout: every file is in order")
    return 1 if faults else 0


sys.exit(main())
