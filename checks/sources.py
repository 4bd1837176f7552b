# SPDX-License-Identifier: Apache-2.0
"""Reads the files of the repository, and the functions of the crates with the clauses of their contracts.

A function is named as `rt check --only` names it, by its module, the type that it belongs to and its name: scan::marks::gather,
stats_set::StatsSet::merge_ordered. A clause is named behind it, as `stats_set::StatsSet::merge_ordered#merged`; one without a name is
`#ensures` or `#requires`, and a member of a type or an interface, written by `ghost`, is one of it: `stats_set::StatsSet#invariant`.
"""
import functools
import os
import re
import subprocess

TOP = os.path.dirname(os.path.dirname(os.path.abspath(__file__)))
HEAD = re.compile(r"( *)(?:pub(?:\(\w+\))? )?(?:const )?(?:unsafe )?(?:extern \"C\" )?fn (\w+)")
OWNER = re.compile(r"(?:unsafe )?(?:pub(?:\(\w+\))? )?(impl|trait)\b(.*)")
CLAUSE = re.compile(r"^\s*(ensures|requires)(?: (\w+))? \{(.*?)(?=^\s*(?:ensures|requires)\b|\Z)", re.M | re.S)


def read(f):
    with open(os.path.join(TOP, f), encoding="utf-8") as file:
        return file.read()


@functools.cache
def tracked():
    told = subprocess.run(["git", "ls-files"], cwd=TOP, capture_output=True, text=True, check=True).stdout
    return [f for f in told.split("\n") if f and os.path.exists(os.path.join(TOP, f))]


@functools.cache
def texts():
    """The sources of the crates, by their files."""
    return {f: read(f) for f in sorted(tracked()) if f.startswith("crates/") and f.endswith((".rt", ".antt"))}


def split_at(text, mark):
    """The parts of a text at a mark that stands in no brackets."""
    depth, parts = 0, [""]
    for it in text:
        depth += (it in "<(") - (it in ">)")
        parts = [*parts, ""] if it == mark and not depth else [*parts[:-1], parts[-1] + it]
    return [it.strip() for it in parts]


def name_of(written, own):
    """How `rt` names a type or a trait: with its parameters behind it, without those that are the impl's own and without lifetimes."""
    head, _, inner = written.strip().lstrip("&").partition("<")
    name = head.strip().rpartition("::")[2]
    if name in own or name.startswith("'"):
        return ""
    return name[:1].upper() + name[1:] + "".join(name_of(it, own) for it in split_at(inner.rpartition(">")[0], ",") if it)


def owner_of(kind, rest):
    """How `rt` names what an impl or a trait stands for: the type, and behind it the trait."""
    own, rest = [], rest.partition("{")[0].partition(" where ")[0].strip()
    if kind == "trait":
        return re.match(r"\w+", rest)[0]
    if rest.startswith("<"):
        end = next(i for i in range(len(rest)) if rest[: i + 1].count("<") == rest[: i + 1].count(">"))
        own, rest = [it.partition(":")[0].strip() for it in split_at(rest[1:end], ",")], rest[end + 1 :]
    return "".join(name_of(it, own) for it in reversed(rest.split(" for ")))


def module_of(file):
    """The module of a file below src without its ending, with `::` behind it."""
    return "" if file in ("lib", "main") else file.replace("/", "::") + "::"


def owned_lines(file, text):
    """The lines of a file, each with the type or interface that it stands in, by its module and name."""
    module, owner = module_of(file), ""
    for line in text.split("\n"):
        told = OWNER.match(line)
        if told:
            name = owner_of(told[1], told[2])
            # The methods of a type stand in the type's module, and those of a trait where they are written.
            is_here = told[1] == "trait" or " for " in told[2] or any(re.search(rf"(struct|enum) {it}\b", text) for it in re.findall(r"\b[A-Z]\w*", told[2]))
            owner = f"{module if is_here else ''}{name}"
        yield owner, line


def functions_in(file, text):
    """The functions of a file, by their names as `rt` has them: the lines from which and to which each stands."""
    lines, found = list(owned_lines(file, text)), {}
    for i, (owner, line) in enumerate(lines):
        head = HEAD.match(line)
        if head:
            ends = (j for j in range(i + 1, len(lines)) if lines[j][1] in (head[1] + "}", head[1] + "{}"))
            found[f"{owner}::{head[2]}" if head[1] else f"{module_of(file)}{head[2]}"] = (i, next(ends, len(lines)))
    return found


def contract_of(lines):
    """The lines of a contract, of those from a function's first on."""
    indent = HEAD.match(lines[0])[1]
    for end, line in enumerate(lines):
        if line in (f"{indent}{{", f"{indent}{{}}") or (end == 0 and line.endswith(("{", ";", "{}"))) or line.startswith(f"{indent}) ") and line.endswith("{"):
            return lines[1:end]
        if line.startswith(f"{indent}    ") and line.endswith(";"):
            return lines[1 : end + 1]
    return []


def clauses_of(lines):
    """The clauses of a function of these lines: the kind of each, its name, or the kind where it has none, and its text."""
    contract = "\n".join(it for it in contract_of(lines) if not it.lstrip().startswith("//"))
    return [(kind, name or kind, text) for kind, name, text in CLAUSE.findall(contract)]


def code_of(crate):
    """The files of a crate's code, without what stands before and behind their module, and their texts."""
    front = f"crates/{crate}/src/"
    return [(f[len(front) : -len(".rt")], text) for f, text in texts().items() if f.startswith(front) and f.endswith(".rt")]


@functools.cache
def types(crate):
    """The types of a crate with the module of each, which another file may have methods of."""
    return {name: module_of(file) for file, text in code_of(crate) for name in re.findall(r"^pub(?:\(\w+\))? (?:struct|enum) (\w+)", text, re.M)}


def placed(crate, name):
    """A name with the module of its type, where it begins with a type."""
    owner = name.partition("::")[0]
    return f"{types(crate)[owner]}{name}" if owner in types(crate) else name


@functools.cache
def functions(crate):
    """The clauses of each function of a crate, by its name as `rt` has it."""
    found = {}
    for file, text in code_of(crate):
        lines = text.split("\n")
        found.update({placed(crate, name): clauses_of(lines[start : end + 1]) for name, (start, end) in functions_in(file, text).items()})
    return found


@functools.cache
def members(crate):
    """The members that types and interfaces of a crate write by `ghost`, each as its owner and name."""
    lines = (it for file, text in code_of(crate) for it in owned_lines(file, text))
    found = ((owner, re.match(r"    ghost (?!use )(\w+)", line)) for owner, line in lines)
    return {f"{owner}#{told[1]}" for owner, told in found if told}


@functools.cache
def facts(crate):
    """The fields of the records in the definitions of a crate, which a clause that cites such a record states."""
    files = (text for f, text in texts().items() if f.startswith(f"crates/{crate}/specs/"))
    return {name for text in files for name in re.findall(r"^  (?:pub )?(\w+) :", text, re.M)}


def ensured(crate, function):
    """The names of what a function of a crate ensures: a method of an interface has them from there, and none where that isn't of the crate."""
    owner, _, own = function.rpartition("::")
    given = [it for it in functions(crate) if it.rpartition("::")[2] == own and owner.endswith(it.rpartition("::")[0].rpartition("::")[2])]
    found = ([name for kind, name, _ in functions(crate).get(it, []) if kind == "ensures"] for it in [function, *sorted(given, key=len, reverse=True)])
    return next((it for it in found if it), [])
