#!/usr/bin/env python3
# SPDX-License-Identifier: Apache-2.0
"""Writes docs/STATEMENT.md and docs/STATEMENT_REST.md: the contracts of prune, scan and run and every definition they rest on.

usage: checks/statement.py           writes both pages
       checks/statement.py --check   fails where a page is stale
"""
import glob
import os
import re
import sys
from dataclasses import dataclass, field

os.chdir(os.path.dirname(os.path.dirname(os.path.abspath(__file__))))

MAIN, REST = "docs/STATEMENT.md", "docs/STATEMENT_REST.md"
# Each call with its file, and the clauses that make up the headline.
CALLS = {
    "prune": ("crates/vortex_prune/src/scan/prune.rt", "prune", ("plain", "fits", "sound", "complete")),
    "scan": ("crates/vortex_prune/src/scan.rt", "scan", ("binders", "plain", "fits", "selected", "complete")),
    "run": ("crates/vortex_text/src/program.rt", "run", ("answered", "lossless")),
}
# The interfaces that users implement: a premise of a clause may name their members.
TRAITS = {
    "StatsRewriteRule": ("crates/vortex_rewrite/src/rewrite/rule.rt", MAIN),
    "StatBinder": ("crates/vortex_prune/src/bind/stat_binder.rt", MAIN),
    "Source": ("crates/vortex_text/src/streams.rt", MAIN),
    "Sink": ("crates/vortex_text/src/streams.rt", MAIN),
}
# The first page names these and the second defines them: reading and printing the program's text, and the tables of the rules.
LATER = {
    ("Rattle.vortex_text.specs.Naming", "named"),
    ("Rattle.vortex_text.specs.Printing", "scan_text"),
    ("Rattle.vortex_text.specs.Printing", "bad_text"),
    ("Rattle.vortex_rewrite.specs.Rewriting.Falsifiers", "falsifier"),
    ("Rattle.vortex_rewrite.specs.Rewriting.Falsifiers", "satisfier"),
}
HEAD = re.compile(r"( *)(?:(?:abbrev|unfoldable) )?(?:pub )?(?:(?:record|data) )?(\S+)(?= |$)")
START = re.compile(r"( *)(?:(?:abbrev|unfoldable|record|data) |pub (?!mod))")
# A lemma beside the definitions has no word before its name.
BARE = re.compile(r"( *)[^\s:()]+ : ")


def read(f):
    with open(f, encoding="utf-8") as file:
        return file.read()


@dataclass
class Definition:
    """A definition of an .antt file, with the comment above it and the parameters of its module block."""

    module: str
    name: str
    comment: list
    lines: list = field(default_factory=list)
    block: str = ""


@dataclass
class Module:
    """A file of definitions: what it imports, and the names that stand for whole modules."""

    file: str
    names: dict = field(default_factory=dict)
    aliases: dict = field(default_factory=dict)
    order: list = field(default_factory=list)


def indent(line):
    return len(line) - len(line.lstrip())


def imported(module, line):
    """Takes an import of an .antt file or of a `ghost use`, and tells whether the line is one."""
    found = re.match(r"\s*(?:pub |ghost )?use ([\w.]+?)(?:\.\{([^}]*)\})?(?: as (\w+))?;?$", line)
    if not found:
        return False
    path, names, alias = found.groups()
    if names is None:
        module.aliases[alias or path.split(".")[-1]] = path
    for name in (it.strip() for it in (names or "").split(",")):
        first, _, last = name.partition(" as ")
        module.names[last or first] = (path, first)
    return True


def parse(name, f, definitions, members):
    """Takes an .antt file apart into its definitions."""
    module, comment, current, block = Module(f), [], None, ""
    for line in read(f).split("\n"):
        opened = re.match(r"module _ (.*) where$", line)
        if imported(module, line) or not line.strip():
            comment, current = [], None
        elif opened:
            comment, current, block = [], None, opened.group(1)
        elif re.match(r" *--", line) and not (current and indent(line) > indent(current.lines[0])):
            comment, current = comment + [line.strip()], None
        elif (START.match(line) or (not current and BARE.match(line))) and (line[0] != " " or (block and line[:3].strip())):
            found = HEAD.match(line)
            block = block if found.group(1) else ""
            current = Definition(name, found.group(2), [it for it in comment if not it.startswith("-- ----")], [], block)
            definitions[(name, current.name)] = current
            module.order.append(current.name)
            comment = []
        elif not current and re.match(r"[^\W\d]|  \S", line) and not re.match(r"(pub mod|infix[lr]?) ", line):
            raise SystemExit(f"{f}: a line that no definition has: {line}")
        if current:
            current.lines.append(line)
            made = re.match(r" +(\w+) :", line) if current.lines[0].startswith("pub data") else None
            if made:
                members[(name, made.group(1))] = (name, current.name)
    return module


def parse_all():
    definitions, members, modules = {}, {}, {}
    for f in sorted(glob.glob("crates/*/specs/**/*.antt", recursive=True)):
        name = "Rattle." + f[len("crates/") : -len(".antt")].replace("/", ".")
        modules[name] = parse(name, f, definitions, members)
    return definitions, members, modules


DEFINITIONS, MEMBERS, MODULES = parse_all()


def words(text):
    """The names of a text, without those of fields and those between quotes."""
    return re.findall(r"(?<![\w'.])([^\W\d][\w']*)", re.sub(r'"[^"]*"|--.*', "", text))


def named_in(text, module):
    """What a text names, by the imports of the module that it stands in: modules and names."""
    found = [module.names[it] for it in words(text) if it in module.names]
    found += [it for name, it in module.names.items() if "◌" in name and is_applied(name, text)]
    for alias, path in module.aliases.items():
        found += [(path, it) for it in re.findall(rf"(?<![\w.]){re.escape(alias)}\.(\w+)", text)]
    return [MEMBERS.get(it, it) for it in found]


def is_applied(operator, text):
    """Whether a text applies an operator; the notation `do` stands for one."""
    signs = [it for it in operator.split("◌") if it]
    return all(it in text for it in signs) or (operator == "◌>>=◌" and re.search(r"\bdo\b", text) is not None)


def rests_on(key):
    """What a definition names."""
    it = DEFINITIONS[key]
    text = "\n".join(it.lines) + "\n" + it.block
    own = [(it.module, word) for word in words(text) if (it.module, word) in DEFINITIONS or (it.module, word) in MEMBERS]
    own += [(it.module, name) for name in MODULES[it.module].order if "◌" in name and name != it.name and is_applied(name, text)]
    return [MEMBERS.get(it, it) for it in own + named_in(text, MODULES[it.module])]


def closure(roots, until=()):
    """All definitions that some rest on, and what else they name; it goes no further at some of them."""
    inner, outer, left = set(), set(), list(roots)
    while left:
        key = left.pop()
        if key in inner or key in outer:
            continue
        (inner if key in DEFINITIONS and key not in until else outer).add(key)
        left += rests_on(key) if key in inner else []
    return inner, outer


def rust_names(f):
    module = Module(f)
    for line in read(f).split("\n"):
        imported(module, line)
    return module


def contract(call):
    """The text of a call up to its body, and its clauses: each with its comment, kind, name and text."""
    f, name, _ = CALLS[call]
    found = re.search(rf"((?:^///.*\n)+)^pub fn {name}[<(].*?(?=^\{{)", read(f), re.M | re.S)
    signature, *rest = re.split(r"^(?=    (?:requires|ensures|//))", found.group(0)[len(found.group(1)) :], flags=re.M)
    clauses, comment = [], ""
    for it in rest:
        kind = re.match(r" +(requires|ensures) (\w+)", it)
        if kind:
            clauses.append((comment + it, kind.group(1), kind.group(2)))
        comment = "" if kind else comment + it
    return signature.rstrip(), clauses


def trait_members(name):
    """The ghost members of an interface, with their comments."""
    text = re.search(rf"^pub trait {name}\b.*?^\}}", read(TRAITS[name][0]), re.M | re.S).group(0)
    return re.findall(r"((?:^    //[^/].*\n)*^    ghost \w+: \{.*?\};)\n", text, re.M | re.S)


def roots_of(texts, f):
    module = rust_names(f)
    return {it for text in texts for it in named_in(text, module)}


def headline_roots(page):
    roots = set()
    for call, (f, _, headline) in CALLS.items():
        roots |= roots_of([text for text, _, name in contract(call)[1] if page == REST or name in headline], f)
    for name, (f, place) in TRAITS.items():
        roots |= roots_of(trait_members(name), f) if page in (place, REST) else set()
    return roots


def first_sentence(f):
    lines = []
    for line in read(f).split("\n"):
        if not line.startswith("-- "):
            break
        lines.append(line[3:])
    return re.match(r"(.*?)[.:](?: |$)", " ".join(lines) + " ").group(1) + "."


def worked_rows():
    """For each definition the worked rows that begin with it: what they say, and how many of their names no page has."""
    rows = {}
    for f in sorted(glob.glob("crates/*/proofs/WorkedRows/*.antt") + glob.glob("crates/*/specs/Worked/*.antt")):
        module = Module(f)
        for line in read(f).split("\n"):
            imported(module, line)
            found = re.match(r"(?:  pub )?\w+ : ((\w+) .*≡ .*)$", line)
            key = module.names.get(found.group(2)) if found and len(line) < 130 and "{" not in line else None
            if key in DEFINITIONS:
                said = found.group(1)
                strange = [it for it in words(said) if it not in module.names]
                # A row that gives an empty list shows little.
                rows.setdefault(key, []).append((said.endswith("≡ []"), len(strange), len(said), said))
    return {key: min(some)[-1] for key, some in rows.items()}


ROWS = worked_rows()


def shown(it):
    """A definition as the pages show it: without the words that only the prover reads."""
    indent = "  " if it.block else ""
    lines = [line[len(indent) :] for line in it.lines]
    lines = [re.sub(r"^(  )?(?:abbrev |unfoldable )?(?:pub )?", r"\1", line) for line in lines]
    lead = it.comment + ([f"-- for all {it.block}"] if it.block else [])
    row = ROWS.get((it.module, it.name))
    return "\n".join(lead + lines + ([f"-- worked row: {row}"] if row else []))


def section(name, keys):
    module = MODULES[name]
    crate = name.split(".")[1]
    kept = [it for it in module.order if (name, it) in keys]
    code = "\n\n".join(shown(DEFINITIONS[(name, it)]) for it in kept)
    title = f"{crate}: {'.'.join(name.split('.')[3:])}"
    return f"### {title}\n\n[{first_sentence(module.file)}](../{module.file})\n\n```text\n{code}\n```\n"


def ordered(keys):
    """The modules of some definitions, each behind those that it rests on, layer by layer."""
    layers = ["vortex_base", "vortex_expr", "vortex_stats", "vortex_rewrite", "vortex_zone_map", "vortex_prune", "vortex_syntax", "vortex_text"]
    below, out = {}, []
    for key in keys:
        below.setdefault(key[0], set()).update(it[0] for it in rests_on(key) if it in keys and it[0] != key[0])

    def put(name):
        if name not in out:
            for it in sorted(below[name]):
                put(it)
            if name not in out:
                out.append(name)

    for name in sorted(below, key=lambda it: (layers.index(it.split(".")[1]), it)):
        put(name)
    return out


def declared(outer):
    """The types that are declared in Rust and named here: each with its file, and its variants or fields in a line."""
    lines = []
    for path in sorted({it[0] for it in outer if ".specs.declared." in it[0] and it[0].startswith("Rattle.vortex")}):
        crate, rest = re.match(r"Rattle\.(\w+)\.specs\.declared\.(.*)", path).groups()
        place, _, name = re.sub(r"\.TheVariants$", "", rest).rpartition(".")
        f = f"crates/{crate}/src/{place.replace('.', '/')}.rt"
        found = re.search(rf"^pub (?:enum|struct) {name}\b[^{{;]*\{{(.*?)^\}}", read(f), re.M | re.S) if os.path.exists(f) else None
        if found:
            body = re.sub(r"//.*|#\[.*?\]|\bpub(\(\w+\))? ", "", found.group(1))
            lines.append(f"| `{name}` | `{' '.join(body.split()).rstrip(',')}` | [{place}](../{f}) |")
    return "| type | its variants, or its fields | file |\n|---|---|---|\n" + "\n".join(dict.fromkeys(lines)) + "\n"


def std_names(outer):
    """The names of std and of the kit that are used, by module."""
    by_module = {}
    for path, name in sorted(outer):
        if path.startswith(("Rattle.std.", "lib.")) and "◌" not in name:
            by_module.setdefault(path, []).append(name)
    return "\n".join(f"- `{path}`: {', '.join(f'`{it}`' for it in names)}" for path, names in by_module.items()) + "\n"


def other_names(keys):
    """The names that files use in place of others, for definitions and for the variants of a type."""
    found = set()
    for name in {it[0] for it in keys}:
        module, used = MODULES[name], set()
        for key in keys:
            used |= set(words("\n".join(DEFINITIONS[key].lines))) if key[0] == name else set()
        found |= {f"`{alias}` is `{it[1]}`" for alias, it in module.names.items() if alias != it[1] and alias in used}
        found |= {f"`{alias}.X` is the variant X of `{path.split('.')[-2]}`" for alias, path in module.aliases.items() if path.endswith(".TheVariants") and alias in used}
        found |= {f"`{alias}.ghosts.eq` is the `==` of `{path.split('.')[-2].removesuffix('PartialEq')}`" for alias, path in module.aliases.items() if path.endswith(".TheImpl") and alias in used}
    return "; ".join(sorted(found)) + "."


def clauses_of(call, page):
    signature, clauses = contract(call)
    headline = CALLS[call][2]
    kept = [text for text, _, name in clauses if (name in headline) == (page == MAIN)]
    return f"### `{call}`\n\n[{CALLS[call][0]}](../{CALLS[call][0]})\n\n```rust\n{signature}\n{''.join(kept).rstrip()}\n```\n"


def interfaces(page):
    out = ""
    for name, (f, place) in TRAITS.items():
        if place == page:
            members = "\n".join(trait_members(name))
            out += f"### `{name}`\n\n[{f}](../{f})\n\n```rust\npub trait {name} {{\n{members}\n}}\n```\n\n"
    return out


def count(keys):
    return f"{len(keys)} definitions in {sum(len(DEFINITIONS[it].lines) for it in keys)} lines"


def pages():
    """Both pages, by their paths."""
    keys, outer = closure(headline_roots(MAIN), LATER)
    every, rest_outer = closure(headline_roots(REST))
    rest = every - keys
    parts = {
        "count": count(keys),
        "rest_count": count(rest),
        "declared": declared(outer),
        "names": other_names(keys),
        "std": std_names(outer),
        "definitions": "\n".join(section(it, keys) for it in ordered(keys)),
        "interfaces": interfaces(MAIN),
        "contracts": "\n".join(clauses_of(it, MAIN) for it in CALLS),
    }
    more = {
        "rest_count": count(rest),
        "declared": declared(rest_outer - outer),
        "names": other_names(rest),
        "std": std_names(rest_outer - outer),
        "definitions": "\n".join(section(it, rest) for it in ordered(rest)),
        "contracts": "\n".join(clauses_of(it, REST) for it in CALLS),
    }
    return {MAIN: filled("checks/frames/statement.txt", parts), REST: filled("checks/frames/statement_rest.txt", more)}


def filled(f, parts):
    """A page by its frame, in which `{{name}}` stands for what is made here."""
    return re.sub(r"\{\{(\w+)\}\}", lambda found: parts[found.group(1)].rstrip("\n"), read(f))


def faults():
    """Pages that are stale, and names that neither page defines."""
    for path, name in sorted(closure(headline_roots(REST))[1]):
        if path.startswith("Rattle.vortex") and not re.search(r"\.specs\.(declared|contracts)\.", path):
            yield f"{MAIN}: nothing defines {name} of {path}"
    for f, text in pages().items():
        if not os.path.exists(f) or read(f) != text:
            yield f"{f}: stale; checks/statement.py writes it anew"


def main():
    if sys.argv[1:] == ["--check"]:
        found = list(faults())
        print("\n".join(found) or "statement: both pages are in step with the definitions")
        return 1 if found else 0
    for f, text in pages().items():
        with open(f, "w", encoding="utf-8") as file:
            file.write(text)
        print(f"{f}: {len(text.encode())} bytes")
    return 0


if __name__ == "__main__":
    sys.exit(main())
