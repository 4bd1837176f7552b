# SPDX-License-Identifier: Apache-2.0
"""Reads wrong bodies: the files checks/edits/CRATE/NAME.edit, which CONTRIBUTING.md describes.

function: the function that the edit turns, as `rt check --only` names it; several are parted by a blank
clause: the clauses that the edit breaks, and no others, parted by commas: an `ensures` by its name, or `ensures` where it has none;
    `f#NAME` or `f#requires`, what a called function f asks for; `TYPE#NAME` or `TYPE#invariant`, what always holds of a type;
    `loop LABEL`, what a loop keeps; `safety WORD`, what no call may do, such as `safety overflow_add`
file: the file, below the crate, in which the lines below stand, then pairs of lines
old: a text that stands in the file once
new: the wrong text in its place
twin: a right text of the same shape, where the wrong one adds a branch or renames one: with it every goal has to be proved, since a
    branch without an answer of its own stays open whatever its function promises
"""
import functools
import os
import re
from dataclasses import dataclass

import sources

FOLDER = "checks/edits"
WORDS = ("function", "clause", "file", "old", "new", "twin")
SAFETY = {"overflow_add", "overflow_sub", "overflow_mul", "overflow_shl", "overflow_shr", "overflow_cast", "overflow_step", "nonzero_div", "nonzero_rem"}
SAFETY |= {"bounds", "slice_bounds", "offset_bounds", "prove", "measure"}


@dataclass(frozen=True)
class Edit:
    """A wrong body: its name below its crate, the functions that it turns, the clauses that it breaks, and its texts."""

    crate: str
    name: str
    text: str
    functions: tuple
    clauses: frozenset
    # Of each replaced text: its file, itself, the wrong text and, where there is one, the right text of the same shape.
    pairs: tuple

    def has_twin(self):
        return all(it[3] is not None for it in self.pairs)

    def made_over(self, texts, is_twin=False):
        """The texts of files with the edit made in them, or with its twin, or None where a text of it doesn't stand there once."""
        texts = dict(texts)
        for file, old, new, twin in self.pairs:
            if texts.get(file, "").count(old) != 1:
                return None
            texts[file] = texts[file].replace(old, twin if is_twin else new)
        return texts


def parted(text, mark):
    return [it.strip() for it in text.split(mark) if it.strip()]


def parsed(crate, name, text):
    """An edit, of the text of its file; what is missing in that stays empty."""
    functions, clauses, pairs, file = [], [], [], ""
    for line in text.split("\n"):
        word, _, rest = line.partition(":")
        rest = rest.removeprefix(" ")
        if word == "function":
            functions += parted(rest, " ")
        elif word == "clause":
            clauses += parted(rest, ",")
        elif word == "file":
            file = rest
        elif word == "old":
            pairs.append((file, rest, None, None))
        elif word in ("new", "twin") and pairs:
            at = 2 if word == "new" else 3
            pairs[-1] = (*pairs[-1][:at], rest, *pairs[-1][at + 1 :])
    return Edit(crate, name, text, tuple(functions), frozenset(clauses), tuple(pairs))


@functools.cache
def edits_of(crate):
    """The edits of a crate, by their names."""
    folder = os.path.join(sources.TOP, FOLDER, crate)
    names = sorted(it for it in os.listdir(folder) if it.endswith(".edit")) if os.path.isdir(folder) else []
    return {it: parsed(crate, it, sources.read(f"{FOLDER}/{crate}/{it}")) for it in names}


def crates_with_edits():
    return sorted(it for it in os.listdir(os.path.join(sources.TOP, FOLDER)) if edits_of(it))


def functions_at(crate, file, old):
    """The functions in which a text of a crate's file stands, or else those that name what its line declares."""
    text = sources.read(f"crates/{crate}/{file}")
    module = file.removeprefix("src/").removesuffix(".rt")
    lines, found = text.split("\n"), sources.functions_in(module, text)
    at = text[: text.index(old)].count("\n")
    within = [name for name, (start, end) in found.items() if start <= at <= end]
    declared = re.search(r"(?:const|static) (\w+)", lines[at]) or re.search(r"(\w+)", lines[at])
    using = [name for name, (start, end) in found.items() if re.search(rf"\b{declared[1]}\b", "\n".join(lines[start:end]))]
    return [sources.placed(crate, it) for it in within or using]


def is_there(crate, function, clause):
    """Whether a clause is one that the function could break, as far as its text tells."""
    named = sources.ensured(crate, function)
    if "#" in clause:
        return bool(re.fullmatch(r"\w+#\w+", clause))
    is_other = clause.startswith("loop") or clause.removeprefix("safety ") in SAFETY
    # A method of an interface of another library has its contract there.
    return is_other or clause in named or (not named and bool(re.fullmatch(r"\w+", clause)))


def faults_of(edit):
    """What is wrong with the file of an edit."""
    if not edit.functions or not edit.clauses:
        yield "it names no function or no clause"
    if not edit.pairs or any(it[2] is None or not it[0] for it in edit.pairs):
        yield "a text has no file, or nothing stands in its place"
        return
    if any(it[3] for it in edit.pairs) and not edit.has_twin():
        yield "a text has a twin, and another none"
    texts = {it[0]: sources.texts().get(f"crates/{edit.crate}/{it[0]}", "") for it in edit.pairs}
    if edit.made_over(texts) is None:
        yield "a text of it doesn't stand in its file once"
        return
    stand = functions_at(edit.crate, *edit.pairs[0][:2])
    yield from (f"it doesn't turn {it}, but {', '.join(stand) or 'no function'}" for it in edit.functions if it not in stand)
    for clause in sorted(edit.clauses):
        if not any(is_there(edit.crate, it, clause) for it in edit.functions):
            yield f"{', '.join(edit.functions)} has no clause {clause}"


def faults():
    """What is wrong with the files of all edits."""
    for crate in crates_with_edits():
        for name, edit in edits_of(crate).items():
            yield from (f"{FOLDER}/{crate}/{name}: {it}" for it in faults_of(edit))
