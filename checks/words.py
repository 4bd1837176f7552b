#!/usr/bin/env python3
# SPDX-License-Identifier: Apache-2.0
"""Looks for lines that can't be read without the one above: comments, and sentences of pages, that begin with That, The same, Those or What.

usage: checks/words.py    prints each of them, and fails if there is one
"""
import os
import re
import subprocess
import sys

os.chdir(os.path.dirname(os.path.dirname(os.path.abspath(__file__))))

MADE = ("docs/MAP.md", "docs/STATEMENT.md", "docs/STATEMENT_REST.md", "docs/WITNESSES.md")
SENTENCE = re.compile(r"(?:^|[.!?] |^- |^\| )(?:That|The same|Those|What|Of) ")
WORST = re.compile(r"(That|The same|Those|What)\b")
ITEM = re.compile(r"\s*(#\[|pub\b|fn\b|struct\b|enum\b|trait\b|impl\b|const\b|mod\b|macro_rules!)")


def read(f):
    with open(f, encoding="utf-8") as file:
        return file.read()


def sources():
    told = subprocess.run(["git", "ls-files", "crates/*.rt"], capture_output=True, text=True, check=True).stdout
    return sorted(f for f in told.split("\n") if f and os.path.exists(f))


def first_lines(text):
    """The first line of each doc comment, and of each other comment that stands above an item: number and text."""
    lines, start = text.split("\n"), None
    for number, line in enumerate(lines):
        found = re.match(r"\s*//([/!]?) (.*)", line)
        if not found:
            if start and (start[2] or ITEM.match(line)):
                yield start[0], start[1]
            start = None
        elif not start:
            start = (number + 1, found.group(2), found.group(1))


def worst_of(f):
    return [(number, line) for number, line in first_lines(read(f)) if WORST.match(line)]


def sentences_of_pages():
    """The sentences of the pages that begin so, by their page and line; those that scripts write are left out."""
    told = subprocess.run(["git", "ls-files", "README.md", "docs/*.md", "crates/*/README.md"], capture_output=True, text=True, check=True).stdout
    for f in (it for it in told.split() if it not in MADE and os.path.exists(it)):
        for number, line in enumerate(read(f).split("\n"), 1):
            if SENTENCE.search(line) and not line.startswith("#"):
                yield f, number, line


def faults():
    """Where such a line stands, and the line."""
    for f in sources():
        yield from (f"{f}:{number}: a comment begins with a word that needs the line above: {line}" for number, line in worst_of(f))
    yield from (f"{f}:{number}: a sentence begins with a word that needs the one before: {line[:100]}" for f, number, line in sentences_of_pages())


def main():
    wrong = list(faults())
    print("\n".join(wrong) or "words: no line needs the one above")
    return 1 if wrong else 0


if __name__ == "__main__":
    sys.exit(main())
