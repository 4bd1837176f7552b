#!/usr/bin/env python3
# SPDX-License-Identifier: Apache-2.0
# Compares the built program with the plain one on random inputs of the language, good ones and spoilt ones.
# usage: checks/random-inputs.py [COUNT] [SEED]        the same seed gives the same inputs
import random
import sys

from both import build, end, faults_of

WHOLE = {"u8": (0, 2**8 - 1), "u16": (0, 2**16 - 1), "u32": (0, 2**32 - 1), "u64": (0, 2**64 - 1),
         "i8": (-(2**7), 2**7 - 1), "i16": (-(2**15), 2**15 - 1), "i32": (-(2**31), 2**31 - 1), "i64": (-(2**63), 2**63 - 1)}
KINDS = [*WHOLE, "bool", "utf8", "binary", "null"]
TEXTS = ["", "a", "ab", "abc", "b", "B", "ba", "%", "_", "\\", "\"", "a b", "null", "\u00e9", "\ud7ff", "\uffff", "\U0010ffff", "a%"]
PATTERNS = ["%", "a%", "%b", "_", "a_", "ab", "\\%%", "a\\", "", "A%", "a%b%", "__", "\ud7ff%", "a\U0010ffff%", "\\_b", "%%", "b%"]
COMPARISONS = ["eq", "ne", "gt", "ge", "lt", "le"]
LIKES = ["like", "notlike", "ilike", "notilike"]
ODD_WORDS = ["null", "true", "x", "x0", "-0", "-1", "+1", "007", "\"", "\"a", "\"a\"b", "part", "col", "row", "where", "18446744073709551616",
             "-9223372036854775809", "exact", "min", "a", "b", "zz", "<", "<=", "i64?", "null?", "\u00a0", "\"\\n\"", "0x1", "join", "0"]
# Each input is small, so an answer comes at once.
SECONDS = 20
ODD_BYTES = [b"\"", b"\\", b"\0", b"\n", b"\r", b" ", b"\xff", b"7", b"\r\n", b"\xc0\x80", b"\t", b"-", b"?"]


def quoted(text):
    return '"' + text.replace("\\", "\\\\").replace('"', '\\"') + '"'


class Input:
    """One random input: its columns, its parts and a predicate."""

    def __init__(self, rng):
        self.rng = rng
        count = rng.choice([1, 1, 2, 2, 3, 5])
        self.columns = [(rng.choice("abcdef_") + str(place), *self.a_type()) for place in range(count)]
        self.lines = [f"column {name} {self.spelled(kind, nullable)}" for name, kind, nullable in self.columns]

    def a_type(self):
        kind = self.rng.choice(KINDS + ["i32", "utf8", "bool"])
        return kind, kind != "null" and self.rng.random() < 0.5

    def spelled(self, kind, nullable):
        return kind + "?" * nullable

    def plain_value(self, kind):
        """A value that isn't null, near those of the other calls."""
        rng = self.rng
        if kind in WHOLE:
            least, greatest = WHOLE[kind]
            number = rng.choice([0, 1, 2, 3, 4, 5, -1, -2, least, greatest, least + 1, greatest - 1])
            number = min(max(number, least), greatest)
            return ("-" if number < 0 else "") + "0" * rng.choice([0, 0, 0, 2]) + str(abs(number))
        if kind == "bool":
            return rng.choice(["true", "false"])
        if kind == "utf8":
            return quoted(rng.choice(TEXTS))
        return "x" + rng.choice(["", "00", "01", "0100", "ff", "FF", "aB"])

    def value(self, kind, nullable):
        if kind == "null" or (nullable and self.rng.random() < 0.3):
            return "null"
        return self.plain_value(kind)

    def add_stat(self):
        rng = self.rng
        name, kind, _ = rng.choice(self.columns)
        stat = rng.choice(["min", "max", "min", "max", "null_count", "null_count", "sum", "is_constant", "is_sorted", "is_strict_sorted", "uncompressed_size_in_bytes"])
        if stat in ("min", "max"):
            value = self.plain_value(kind) if kind != "null" else "0"
        elif stat in ("null_count", "uncompressed_size_in_bytes"):
            value = rng.choice(["0", "1", "2", "3", "18446744073709551615"])
        elif stat == "sum":
            value = self.plain_value("u64" if kind.startswith("u") or kind == "bool" else "i64")
        else:
            value = rng.choice(["true", "false"])
        if (kind, stat) in (("null", "min"), ("null", "max")) or (stat == "sum" and kind in ("null", "utf8", "binary")):
            return
        self.lines.append(f"stat {name} {stat} {rng.choice(['exact', 'inexact'])} {value}")

    def add_parts(self):
        rng = self.rng
        parts = rng.choice([0, 1, 1, 2, 2, 3, 6])
        joined = 0
        for number in range(parts):
            self.lines.append("part")
            for _ in range(rng.choice([0, 1, 2, 4, 7])):
                self.add_stat()
            for _ in range(rng.choice([0, 1, 2, 3])):
                self.lines.append("row " + " ".join(self.value(kind, nullable) for _, kind, nullable in self.columns))
            while number + 1 - joined >= 2 and rng.random() < 0.3:
                self.lines.append(f"join {rng.randrange(number - joined)}")
                joined += 1

    def operand(self, kind, depth):
        """An expression of a kind."""
        rng = self.rng
        if kind == "bool" and depth > 0 and rng.random() < 0.5:
            return self.predicate(depth - 1)
        names = [name for name, it, _ in self.columns if it == kind]
        if names and rng.random() < 0.65:
            return f"col {rng.choice(names)}"
        nullable = kind != "null" and rng.random() < 0.4
        return f"lit {self.spelled(kind, nullable)} {self.value(kind, nullable)}"

    def any_kind(self):
        return self.rng.choice([kind for _, kind, _ in self.columns] * 4 + KINDS)

    def a_range(self, depth):
        kind, rng = self.any_kind(), self.rng
        ends = [self.operand(kind, depth) if rng.random() < 0.3 else f"lit {kind} {self.value(kind, False)}" for _ in range(2)]
        return f"between {rng.choice(['<', '<='])} {rng.choice(['<', '<='])} {self.operand(kind, depth)} {ends[0]} {ends[1]}"

    def a_like(self):
        pattern = f"lit utf8 {quoted(self.rng.choice(PATTERNS))}" if self.rng.random() < 0.85 else self.operand("utf8", 0)
        return f"{self.rng.choice(LIKES + ['like', 'like'])} {self.operand('utf8', 0)} {pattern}"

    def predicate(self, depth):
        rng = self.rng
        form = rng.choice(["compare", "compare", "and", "or", "not", "between", "between", "null", "like", "leaf"])
        if depth > 0 and form in ("and", "or"):
            return f"{form} {self.predicate(depth - 1)} {self.predicate(depth - 1)}"
        if depth > 0 and form == "not":
            return f"not {self.predicate(depth - 1)}"
        if form == "between":
            return self.a_range(depth)
        if form == "null":
            return f"{rng.choice(['isnull', 'notnull'])} {self.operand(self.any_kind(), depth)}"
        if form == "like":
            return self.a_like()
        if form == "leaf":
            return self.operand("bool", 0)
        kind = self.any_kind()
        return f"{rng.choice(COMPARISONS)} {self.operand(kind, depth)} {self.operand(kind, depth)}"

    def whole(self):
        self.add_parts()
        is_other = self.rng.random() < 0.03
        self.lines.append("where " + (self.operand(self.any_kind(), 0) if is_other else self.predicate(self.rng.choice([0, 1, 2, 3, 4]))))
        return self.lines


def spoilt_words(rng, lines):
    """The lines with one word or line gone, doubled or another."""
    lines = list(lines)
    place = rng.randrange(len(lines))
    words = lines[place].split(" ")
    at = rng.randrange(len(words))
    form = rng.choice(["drop", "double", "other", "insert", "line", "away", "swap"])
    if form == "drop":
        del words[at]
    elif form == "double":
        words.insert(at, words[at])
    elif form == "other":
        words[at] = rng.choice(ODD_WORDS)
    elif form == "insert":
        words.insert(at, rng.choice(ODD_WORDS + [""]))
    lines[place] = " ".join(words)
    if form == "line":
        lines.insert(place, lines[rng.randrange(len(lines))])
    elif form == "away":
        del lines[place]
    elif form == "swap":
        other = rng.randrange(len(lines))
        lines[place], lines[other] = lines[other], lines[place]
    return lines


def spoilt_bytes(rng, data):
    at = rng.randrange(len(data) + 1)
    return data[:at] + rng.choice(ODD_BYTES) + data[at + rng.choice([0, 1]):]


def random_input(seed, number):
    rng = random.Random(f"{seed} {number}")
    lines = Input(rng).whole()
    if rng.random() < 0.35:
        lines = spoilt_words(rng, lines)
    data = ("\n".join(lines) + rng.choice(["\n", "\n", "", "\r\n", "\n \n"])).encode("utf-8")
    if rng.random() < 0.15:
        data = spoilt_bytes(rng, data)
    return data


def main():
    count = int(sys.argv[1]) if len(sys.argv) > 1 else 4000
    seed = int(sys.argv[2]) if len(sys.argv) > 2 else 1
    build()
    faults, _ = faults_of(((f"input {number} of seed {seed}", random_input(seed, number)) for number in range(count)), SECONDS)
    for fault in faults:
        print(f"failed: {fault}")
    end(count - len(faults), len(faults))


if __name__ == "__main__":
    main()
