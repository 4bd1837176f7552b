#!/usr/bin/env python3
# SPDX-License-Identifier: Apache-2.0
# Compares the built program with the plain one on hostile inputs: cut and spoilt ones, very long ones, very deep ones.
# Each check prints one line. Each answer has to come within the seconds and the memory that its check allows.
# usage: checks/hostile-input.py
import os
import random
import resource
import subprocess
import time

import shim
from both import PROGRAM, TOP, answer, build, end, faults_of, shown

LIMIT = 16_777_216
STACK = 8 << 20
SPOILERS = [b'"', b"\\", b"\0", b"\n", b"\r", b" ", b"\xff", b"7"]


def every_line():
    """An input of 40 lines with every line and operator of the language."""
    with open(os.path.join(TOP, "examples/every-line.txt"), "rb") as file:
        return file.read()


def prefixes():
    whole = every_line()
    return [(f"the first {size} bytes", whole[:size]) for size in range(len(whole) + 1)]


def replaced_bytes():
    whole = every_line()
    return [(f"byte {at} is {byte!r}", whole[:at] + byte + whole[at + 1:]) for at in range(len(whole)) for byte in SPOILERS]


def long_numbers():
    """Numbers of a million digits: many zeros in front, or too large."""
    front = b"column a i64\ncolumn d u8\npart\n"
    fine, large = b"0" * 999_999 + b"7", b"9" * 1_000_000
    where = b"where eq col a lit i64 7\n"
    for name, number in (("with zeros in front", fine), ("too large", large)):
        yield f"a row {name}", front + b"row " + number + b" 0\n" + where
        yield f"a row below zero {name}", front + b"row -" + number + b" 0\n" + where
        yield f"a row of a small type {name}", front + b"row 7 " + number + b"\n" + where
        yield f"a statistic {name}", front + b"stat a max exact " + number + b"\n" + where
        yield f"a count {name}", front + b"stat a null_count inexact " + number + b"\n" + where
        yield f"a literal {name}", front + b"row 7 7\nwhere eq col a lit i64 " + number + b"\n"
        yield f"a join {name}", front + b"part\njoin " + number + b"\n" + where


def long_lines():
    """A line of 16 million bytes without a word's end, and what else a line can be long in."""
    size = 16_000_000
    yield "one plain word", b"a" * size
    yield "one quoted word without its end", b"column s utf8\npart\nrow \"" + b"a" * size
    yield "one quoted word", b"column s utf8\npart\nrow \"" + b"a" * size + b"\"\nwhere like col s lit utf8 \"a%\"\n"
    yield "one quoted word of escapes", b"column s utf8\npart\nrow \"" + b"\\\\" * (size // 2) + b"\"\nwhere like col s lit utf8 \"_%\"\n"
    yield "one quoted word in the predicate", b"column s utf8\npart\nrow \"b\"\nwhere lt col s lit utf8 \"" + b"a" * size + b"\"\n"
    yield "one number", b"column a u8\npart\nrow " + b"0" * size + b"\nwhere eq col a lit u8 0\n"
    yield "one word of digits of bytes", b"column x binary\npart\nrow x" + b"0" * size + b"\nwhere gt col x lit binary x\n"
    yield "one name", b"column " + b"a" * size + b" i64\n"
    yield "spaces alone", b" " * size + b"\ncolumn t bool\nwhere col t\n"
    yield "spaces between words", b"column t bool\npart\nrow" + b" " * size + b"true\nwhere col t\n"
    yield "words of a predicate", b"column t bool\nwhere" + b" not" * (size // 4) + b" col t\n"
    yield "words of a row", b"column t bool\npart\nrow" + b" true" * (size // 5) + b"\nwhere col t\n"
    yield "empty lines", b"\n" * size + b"column t bool\nwhere col t\n"


def deep_predicates():
    """Predicates of 4,096 words in each shape, and of one level more."""
    front = b"column t bool?\npart\nstat t max exact true\nrow true\nrow null\nrow false\npart\nstat t max exact false\nrow false\nwhere "
    shapes = [("not", b"not ", b"col t", b"", 4094), ("null tests", b"isnull ", b"col t", b"", 4094),
              ("not around a comparison", b"not ", b"eq col t lit bool true", b"", 4090),
              ("AND at the left", b"and ", b"col t", b" col t", 1364), ("AND at the right", b"and col t ", b"col t", b"", 1364),
              ("OR at the left", b"or ", b"col t", b" lit bool false", 1023), ("OR at the right", b"or lit bool false ", b"col t", b"", 1023),
              ("comparisons at the left", b"eq ", b"col t", b" lit bool true", 1023), ("comparisons at the right", b"eq col t ", b"col t", b"", 1364),
              ("ANDs of comparisons at the left", b"and ", b"eq col t lit bool true", b" eq col t lit bool true", 584),
              ("BETWEEN in its operand", b"between <= <= ", b"col t", b" col t lit bool true", 511),
              ("BETWEEN in its lower end", b"between <= < lit bool false ", b"col t", b" lit bool true", 454),
              ("BETWEEN in its upper end", b"between < <= col t lit bool false ", b"col t", b"", 511)]
    for name, before, middle, behind, times in shapes:
        yield name, front + before * times + middle + behind * times + b"\n"
        yield name + ", a level more", front + before * (times + 1) + middle + behind * (times + 1) + b"\n"


def escapes():
    """A backslash before every byte in a quoted word, and texts of the two escapes in many orders."""
    front = b"column s utf8\npart\nrow "
    where = b"\nwhere like col s lit utf8 \"%\\\\_%\"\n"
    for byte in range(256):
        yield f"a backslash before {byte}", front + b'"\\' + bytes([byte]) + b'"' + where
    for number in range(256):
        text = b"".join([b'\\"', b"\\\\", b"a", b" "][number >> 2 * place & 3] for place in range(4))
        yield f"escapes {number}", front + b'"' + text + b'"' + where


def many_columns():
    count = 65_535
    names = b"".join(b"column c%d u8\n" % place for place in range(count))
    row = b"row" + b" 7" * count + b"\n"
    yield "65,535 columns", names + b"part\nstat c65534 max exact 7\n" + row + b"part\n" + row + b"where eq col c65534 lit u8 7\n"
    yield "65,535 columns and a name used before", names + b"column c0 u8\n"


def columns_of(count):
    return b"".join(b"column c%d u8\n" % place for place in range(count))


def joined_columns():
    """Parts of 100,000 columns, joined."""
    count = 100_000
    names, where = columns_of(count), b"where eq col c99999 lit u8 7\n"
    seven, eight = b"part\nrow" + b" 7" * count + b"\n", b"part\nrow" + b" 8" * count + b"\n"
    stats = b"".join(b"stat c%d max exact 9\n" % place for place in range(count))
    yield "parts without rows", names + b"part\npart\njoin 0\n" + where
    yield "parts of one row", names + seven + eight + b"join 0\n" + seven + b"join 0\n" + where
    yield "parts of one row with statistics", names + seven + stats + eight + stats + b"join 0\n" + where


def late_statistics():
    """65,535 columns, each with a statistic in the last part alone."""
    count = 65_535
    row = b"part\nrow" + b" 7" * count + b"\n"
    stats = b"".join(b"stat c%d max exact 7\nstat c%d null_count exact 0\n" % (place, place) for place in range(count))
    yield "65,535 columns with late statistics", columns_of(count) + row + b"part\n" + stats + b"where gt col c65534 lit u8 7\n"


def names_looked_up():
    """Names of columns looked up hundreds of thousands of times, short ones and long ones that begin alike."""
    count = 65_535
    lines = b"".join(b"stat c%d max exact 7\n" % (place * 7919 % count) for place in range(600_000))
    yield "600,000 of 65,535 names", columns_of(count) + b"part\n" + lines + b"where gt col c65534 lit u8 7\n"
    yield "a million of one name", b"column c u8\npart\n" + b"stat c max exact 7\n" * 800_000 + b"where gt col c lit u8 7\n"
    long = [b"c" * 58 + b"%06d" % place for place in range(65_535)]
    names = b"".join(b"column " + name + b" u8\n" for name in long)
    lines = b"".join(b"stat " + long[place * 7919 % count] + b" max exact 7\n" for place in range(120_000))
    yield "120,000 of 65,535 names of 64 bytes", names + b"part\n" + lines + b"where gt col " + long[0] + b" lit u8 7\n"


def long_patterns():
    """LIKE where a search that goes back takes the pattern's length times the text's."""
    texts = b"column s utf8\npart\nrow \"%s\"\nwhere %s col s lit utf8 \"%s\"\n"
    runs = [("a run that is nowhere", b"a" * 40_000, b"%" + b"a" * 20_000 + b"b%"),
            ("the same of megabytes", b"a" * 8_000_000, b"%" + b"a" * 4_000_000 + b"b%"),
            ("a run at the very end", b"a" * 4_000_000 + b"b", b"%" + b"a" * 2_000_000 + b"b%"),
            ("a last run that is elsewhere", b"a" * 4_000_000 + b"b", b"%" + b"a" * 4_000_000),
            ("a last run with any characters", b"a" * 4_000_000 + b"b", b"%" + b"a_" * 1_000_000),
            ("a run of escapes", b"a" * 4_000_000, b"%" + b"\\\\a" * 1_000_000 + b"b%"),
            ("runs of two letters", b"ab" * 2_000_000, b"%" + b"ab" * 500_000 + b"aa%" + b"ba" * 500_000 + b"%"),
            ("many short runs", b"ab" * 4_000_000, b"%" + b"aab%" * 1_000_000),
            ("letters of two and four bytes", "\u00e9\U0001F600".encode() * 600_000, b"%" + "\u00e9\U0001F600".encode() * 300_000 + b"b%")]
    for name, text, pattern in runs:
        yield name, texts % (text, b"like", pattern)
        yield name + ", of either case", texts % (text, b"ilike", pattern.upper())
    rows = b"row \"aaaa\"\n" * 500_000
    yield "a long pattern and many short rows", b"column s utf8\npart\n" + rows + b"where like col s lit utf8 \"%" + b"a" * 9_000_000 + b"b%\"\n"


def many_tests():
    """As many LIKEs and BETWEENs as a line holds, over one long text."""
    text = b"column s utf8\npart\nrow \"" + b"aab" * 50_000 + b"\"\nwhere "
    likes = [b"like col s lit utf8 \"%%%sbb%d%%\"" % (b"a" * (place % 9), place) for place in range(584)]
    betweens = [b"between <= <= col s lit utf8 \"%s\" lit utf8 \"%s%d\"" % (b"aab" * 4_000 + b"b", b"aab" * 4_000 + b"b", place) for place in range(341)]
    yield "584 LIKEs", text + b"or " * 583 + b" ".join(likes) + b"\n"
    yield "341 BETWEENs", text + b"or " * 340 + b" ".join(betweens) + b"\n"


def many_parts():
    count = 1_000_000
    yield "a million parts", b"column a i64\n" + b"part\n" * count + b"where eq col a lit i64 7\n"
    yield "three million parts", b"column a i64\n" + b"part\n" * (3 * count) + b"where eq col a lit i64 7\n"
    yield "a million rows", b"column a i64\npart\n" + b"row 7\n" * count + b"where eq col a lit i64 7\n"
    yield "a million statistics", b"column a i64\npart\n" + b"stat a max exact 7\n" * (count * 4 // 5) + b"where gt col a lit i64 7\n"
    yield "parts joined one after the other", b"column a i64\npart\nrow 7\n" + b"part\njoin 0\n" * count + b"where eq col a lit i64 7\n"


def parts_of_a_row(count):
    return b"column a i64\n" + b"part\nrow 7\n" * count


def at_both_ends(count, times):
    """Joins of the first two of so many parts and of the last two in turn."""
    return b"".join(b"join 0\njoin %d\n" % (count - 3 - 2 * turn) for turn in range(times))


def joins_apart():
    """Joins that stand far apart, one after the other."""
    count, where = 200_000, b"where eq col a lit i64 7\n"
    yield "joins at both ends in turn", parts_of_a_row(count) + at_both_ends(count, 2_500) + where
    order = random.Random(7)
    places = b"".join(b"join %d\n" % order.randrange(count - 1 - turn) for turn in range(2_500))
    yield "joins in any order", parts_of_a_row(count) + places + where
    yield "a join behind the last pair", parts_of_a_row(count) + at_both_ends(count, 1_000) + b"join 197999\n" + where


def limits():
    front = b"column a i64\npart\nrow 7\nwhere eq col a lit i64 7\n"
    yield "16,777,216 bytes", front + b"\n" * (LIMIT - len(front))
    yield "16,777,217 bytes", front + b"\n" * (LIMIT + 1 - len(front))
    yield "17,000,000 bytes, bad from the first", b"x\n" * 8_500_000


def streams():
    """What the program does where its input or its output fails: how that differs from what it has to do."""
    whole = every_line()
    full, closed = open("/dev/full", "wb"), "exec \"$0\" >&-"
    runs = [("an input that is a folder", [PROGRAM], {"stdin": os.open("/", os.O_RDONLY), "stdout": subprocess.PIPE}, (1, b"read\n")),
            ("an input that is closed", ["sh", "-c", "exec \"$0\" <&-", PROGRAM], {"stdout": subprocess.PIPE}, (1, b"read\n")),
            ("no input", [PROGRAM], {"stdin": subprocess.DEVNULL, "stdout": subprocess.PIPE}, (2, b"line 1: bad\n")),
            ("an output that is full", [PROGRAM], {"input": whole, "stdout": full}, (1, None)),
            ("an output that is closed", ["sh", "-c", closed, PROGRAM], {"input": whole}, (1, None))]
    faults = []
    for name, command, given, wanted in runs:
        run = subprocess.run(command, stderr=subprocess.DEVNULL, timeout=20, **given)
        if (run.returncode, run.stdout) != wanted:
            faults.append(f"{name}: {run.returncode} {run.stdout!r}")
    return faults, len(runs)


# Inputs for both programs by their name, the seconds that each may take, and the MiB that the proved one may ask for.
INPUTS = [("every prefix of an input of 40 lines", prefixes, 20, 100),
          ("every byte of it replaced by eight others", replaced_bytes, 20, 100),
          ("numbers of a million digits", long_numbers, 20, 100),
          ("lines of 16 million bytes", long_lines, 60, 200),
          ("deep predicates on 8 MiB of stack", deep_predicates, 20, 100),
          ("escapes", escapes, 20, 100),
          ("65,535 columns", many_columns, 20, 300),
          ("100,000 columns joined", joined_columns, 20, 500),
          ("65,535 columns with late statistics", late_statistics, 20, 500),
          ("names of columns", names_looked_up, 20, 300),
          ("long patterns", long_patterns, 20, 200),
          ("many LIKEs and BETWEENs", many_tests, 60, 100),
          ("a million parts, rows and statistics", many_parts, 60, 700),
          ("joins far apart", joins_apart, 40, 100),
          ("inputs at the limit", limits, 60, 300)]


def joined_to_two():
    """200,000 parts joined at both ends in turn until two are left, which is fast wherever joins stand."""
    count = 200_000
    half = count // 2
    data = parts_of_a_row(count) + at_both_ends(count, half - 1) + b"where eq col a lit i64 7\n"
    rows = [b"%d:%d" % (part, row) for part in range(2) for row in range(half)]
    wanted = 0, b"skipped\nrows " + b" ".join(rows) + b"\n"
    said = answer(PROGRAM, data, 3)
    return [] if said == wanted else [f"joined to two: {shown(said)}"], 1


def byte_by_byte():
    """All of these again, where each read gives a byte and each write takes one."""
    library = shim.build()

    def answer_of(program, data, seconds):
        try:
            return shim.run(library, program, data, seconds, ONE_BYTE="1")
        except subprocess.TimeoutExpired:
            return f"no answer in {seconds} s"

    told = [faults_of(inputs(), 180, answer_of) for _, inputs, _, _ in INPUTS]
    return [fault for faults, _ in told for fault in faults], sum(count for _, count in told)


def within(mebibytes):
    """An answer of a program that gets no more memory than this: it would say that memory was refused."""
    room = mebibytes << 20

    def answer_of(program, data, seconds):
        return answer(program, data, seconds, preexec_fn=lambda: resource.setrlimit(resource.RLIMIT_AS, (room, room)))

    return answer_of


def compared(inputs, seconds, mebibytes):
    return lambda: faults_of(inputs(), seconds, within(mebibytes))


# Each check by its name; it gives what is wrong, and how many inputs there were.
CHECKS = [(name, compared(inputs, seconds, mebibytes)) for name, inputs, seconds, mebibytes in INPUTS]
CHECKS += [("200,000 parts joined to two in 3 s", joined_to_two),
           ("all of these, one byte a read and a write", byte_by_byte),
           ("inputs and outputs that fail", streams)]


def main():
    build()
    hard = resource.getrlimit(resource.RLIMIT_STACK)[1]
    resource.setrlimit(resource.RLIMIT_STACK, (STACK if hard == resource.RLIM_INFINITY else min(STACK, hard), hard))
    failed = 0
    for name, check in CHECKS:
        start = time.monotonic()
        faults, count = check()
        failed += bool(faults)
        said = "failed" if faults else "passed"
        print(f"{said}: {name}, {count} inputs, {time.monotonic() - start:.1f} s", flush=True)
        for fault in faults[:20]:
            print(f"  {fault}", flush=True)
    end(len(CHECKS) - failed, failed)


if __name__ == "__main__":
    main()
