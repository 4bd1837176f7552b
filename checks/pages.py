#!/usr/bin/env python3
# SPDX-License-Identifier: Apache-2.0
"""Writes the pages that are made of the sources: docs/MAP.md, docs/STATEMENT.md, docs/STATEMENT_REST.md and the pictures.

usage: checks/pages.py           writes them
       checks/pages.py --check   fails where one is stale
"""
import os
import re
import subprocess
import sys

import picture
import statement

os.chdir(os.path.dirname(os.path.dirname(os.path.abspath(__file__))))

MAP = "docs/MAP.md"
KNOWN = {
    "docs/MAP.md": "this map",
    "README.md": "what the product is for, how to install and call it, what is proved",
    "HANDLES": "which handles to the outside the gate allows: none",
    "LICENSE": "the licence",
    "NOTICE": "what was taken from the ported crate",
    "checks/ledger.tsv": "what shows each named case of the specification: clauses, computed rows, tests and wrong bodies",
    "crates.txt": "the crates and what each stands on",
    "CHANGELOG.md": "what each version brings, changes and removes",
    "CITATION.cff": "how to cite the software",
    "CONTRIBUTING.md": "set-up, checks, and how a change lands",
    "REUSE.toml": "the licence of the files that don't name it themselves",
    "SECURITY.md": "what a hostile input may do, and how to report a fault",
    "packaging/debian/copyright": "the licence, as Debian's packages name it",
    "packaging/debian/foalmorrow.control": "the Debian package of the program and the shared object",
    "packaging/debian/libfoalmorrow-dev.control": "the Debian package of the header and the libraries for C",
    "packaging/foalmorrow.1": "the program's page for man",
    "packaging/foalmorrow.pc.in": "what pkg-config says of the library",
    "packaging/pages/Doxyfile": "how doxygen writes the pages of the header",
    "pyproject.toml": "the Python package",
}
HEAD = """# Map

`checks/pages.py` writes this page from the first sentence of each file. Beside the files listed here a crate has

- `proofs/MODULE/FUNCTION/Answers.antt`: the goals of a function that need help; `Invariants.antt`: what its loops keep
- other folders of `proofs/`: lemmas by concern, and the rows that the prover computes in `WorkedRows`
- `checks/edits/CRATE/`: wrong bodies, which `checks/edits.py` tries

"""


def read(f):
    with open(f, encoding="utf-8") as file:
        return file.read()


def tracked():
    told = subprocess.run(["git", "ls-files"], capture_output=True, text=True, check=True).stdout
    return [f for f in told.split("\n") if f and os.path.exists(f)]


def first_sentence(f):
    """The first sentence of a file's first comment, without a mark-up, or nothing."""
    lines = []
    for line in read(f).split("\n"):
        found = re.match(r"(?://!|//|--)(?: (\S.*))?$", line)
        if not found or not found.group(1):
            break
        lines.append(found.group(1))
    found = re.match(r"(.*?)[.:](?: |$)", " ".join(lines))
    return found.group(1) + "." if found else ""


def heading(f):
    """The first line of a script or a page that says what it is for."""
    for line in read(f).split("\n")[:4]:
        found = re.match(r'(?:# |""")(\S.*)', line)
        if found and not line.startswith("#!") and "SPDX-License-Identifier" not in line:
            return found.group(1).removesuffix('"""')
    return ""


def table(rows):
    return "| path | what it is |\n|---|---|\n" + "".join(f"| `{path}` | {what} |\n" for path, what in rows)


def the_map():
    files = tracked()
    of_top = r"([A-Z]+\.md|docs/[^/]*$|checks/[^/]*\.(py|sh)$|bench/[^/]*$|examples/[^/]*\.sh|scan$|\.ci/run|packaging/|setup\.py)"
    tops = [(f, KNOWN.get(f) or heading(f)) for f in files if re.match(of_top, f)]
    listed = {f for f, _ in tops}
    tops += [(f, what) for f, what in KNOWN.items() if f not in listed]
    out = HEAD + table(tops)
    for line in read("crates.txt").split("\n"):
        if ":" in line.partition("#")[0]:
            name = line.split(":")[0].split()[0]
            front = f"crates/{name}/"
            of_crate = [f for f in files if re.match(rf"{front}(src|specs)/.*\.(rt|antt)$", f) and not f.endswith("/Lib.antt")]
            out += f"\n## crates/{name}\n\n" + table([(f[len(front) :], first_sentence(f)) for f in of_crate])
    return out


def pages():
    return {MAP: the_map(), **statement.pages(), **picture.pictures()}


def faults():
    """Pages that are stale, and what the statement lacks."""
    yield from statement.faults()
    yield from picture.faults()
    if not os.path.exists(MAP) or read(MAP) != the_map():
        yield f"{MAP}: stale; checks/pages.py writes it anew"


def main():
    if sys.argv[1:] == ["--check"]:
        found = list(faults())
        print("\n".join(found) or "pages: all that scripts write are in step with the sources")
        return 1 if found else 0
    for f, text in pages().items():
        with open(f, "w", encoding="utf-8") as file:
            file.write(text)
    return 0


if __name__ == "__main__":
    sys.exit(main())
