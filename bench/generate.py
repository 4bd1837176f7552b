#!/usr/bin/env python3
# SPDX-License-Identifier: Apache-2.0
"""Writes a large input for the program, of 14 to 16 MB.

usage: generate.py KIND
  rows     one column, 3 parts of very many small rows; all parts are kept
  leaves   mixed columns with texts, 10 parts, a predicate of 64 leaves; all parts are kept
  parts    parts of 20 rows with short values; one part in a hundred is kept
  columns  parts of 50 rows in 30 columns, each with bounds; one part in ten is kept
  singles  200,000 parts of one row; one part in a hundred is kept
  texts    one part of long texts, and LIKE
  whole    one column, parts of 20,000 rows which all satisfy the predicate, as their statistics prove
  tested   the same rows without their statistics, so that each is tested
"""
import random
import sys

LIMIT = 16_777_216
# A generator of its own, so that an input is the same each time.
RNG = random.Random(7)
WORDS = "amber birch cedar delta ember fjord grove heath islet jetty kiosk ledge maple north ocean pearl".split()

# How a long text ends: some with an escape.
ENDS = ["", ' \\"', " \\\\"]


def rows(room):
    """Values from 0 to 999, one in ten null."""
    out = ["column a i64?\n"]
    where = "where ge col a lit i64 500\n"
    room -= len(out[0]) + len(where)
    for part in range(3):
        front = "part\nstat a min exact 0\nstat a max exact 999\n"
        body, size = [front], len(front)
        while True:
            line = "row null\n" if RNG.random() < 0.1 else f"row {RNG.randrange(1000)}\n"
            if size + len(line) > room // 3:
                break
            body.append(line)
            size += len(line)
        out.append("".join(body))
    return "".join(out) + where


def leaves(room):
    """Numbers, truths, texts and bytes, and an OR of 16 ANDs of 4 leaves each."""
    head = "column id i64\ncolumn small u8?\ncolumn flag bool\ncolumn name utf8\ncolumn note utf8?\ncolumn code binary\n"
    terms = []
    for k in range(16):
        low = 1_000_000 * k
        leaves = [f"ge col id lit i64 {low}", f"lt col small lit u8? {16 * k + 8}",
                  f"le col name lit utf8 \"{WORDS[k]}\"", f"ne col code lit binary x{k:02x}{k:02x}"]
        terms.append("and " * 3 + " ".join(leaves))
    where = "where " + "or " * 15 + " ".join(terms) + "\n"
    out = [head]
    room -= len(head) + len(where)
    number = 0
    while True:
        text = "part\nstat id min exact 0\nstat id max exact 20000000\n" if number % 20_000 == 0 else ""
        name = f"{RNG.choice(WORDS)} {RNG.choice(WORDS)}"
        small = "null" if RNG.random() < 0.1 else RNG.randrange(256)
        note = "null" if RNG.random() < 0.5 else f"\"{RNG.choice(WORDS)}\""
        flag = RNG.choice(["true", "false"])
        text += f"row {RNG.randrange(20_000_000)} {small} {flag} \"{name}\" {note} x{RNG.randrange(65536):04x}\n"
        if len(text) > room:
            break
        room -= len(text)
        out.append(text)
        number += 1
    return "".join(out) + where


def counting(room, per_part, base, most):
    """Parts that count upwards; every hundredth one lies above the literal."""
    head = "column a i64?\n"
    where = f"where gt col a lit i64 {base + 1_000_000}\n"
    out = [head]
    room -= len(head) + len(where)
    number = 0
    while number < most:
        low = base + (2_000_000 if number % 100 == 0 else number % 1000)
        values = [low + (row * 7) % (per_part + 1) for row in range(per_part)]
        text = f"part\nstat a min exact {min(values)}\nstat a max exact {max(values)}\n"
        text += "".join(f"row {value}\n" if (place + 1) % 10 else "row null\n" for place, value in enumerate(values))
        if len(text) > room:
            break
        room -= len(text)
        out.append(text)
        number += 1
    return "".join(out) + where


def columns(room):
    """30 columns of numbers, each with its bounds; the predicate names three of them."""
    names = [f"c{k}" for k in range(30)]
    head = "".join(f"column {name} i32\n" for name in names)
    where = "where and gt col c3 lit i32 900000 and ge col c17 lit i32 10 le col c29 lit i32 999999\n"
    out = [head]
    room -= len(head) + len(where)
    number = 0
    while True:
        base = 900_000 if number % 10 == 0 else 1000 * (number % 500)
        lines = [[base + RNG.randrange(1000) for _ in names] for _ in range(50)]
        text = "part\n"
        for place, name in enumerate(names):
            column = [line[place] for line in lines]
            text += f"stat {name} min exact {min(column)}\nstat {name} max exact {max(column)}\n"
        text += "".join("row " + " ".join(map(str, line)) + "\n" for line in lines)
        if len(text) > room:
            break
        room -= len(text)
        out.append(text)
        number += 1
    return "".join(out) + where


def texts(room):
    """Texts of 1,000 to 3,000 letters, some with an escape."""
    head = "column s utf8\npart\n"
    where = "where or like col s lit utf8 \"amber%pearl%ocean%\" like col s lit utf8 \"%north maple ledge north%\"\n"
    out = [head]
    room -= len(head) + len(where)
    while True:
        text = " ".join(RNG.choice(WORDS) for _ in range(RNG.randrange(170, 500)))
        line = f'row "{text}{RNG.choice(ENDS)}"\n'
        if len(line) > room:
            break
        room -= len(line)
        out.append(line)
    return "".join(out) + where


def satisfying(room, known):
    """Values from 0 to 999, of which each is at least 0; the statistics say so of each part, or nothing is known."""
    head, where = "column a i64?\n", "where ge col a lit i64 0\n"
    front = "part\n" + "stat a min exact 0\nstat a null_count exact 0\n"
    out = [head]
    room -= len(head) + len(where)
    while True:
        rows = "".join(f"row {RNG.randrange(1000)}\n" for _ in range(20_000))
        if len(front) + len(rows) > room:
            break
        room -= len(front) + len(rows)
        out.append((front if known else "part\n") + rows)
    return "".join(out) + where


KINDS = {
    "rows": rows,
    "leaves": leaves,
    "parts": lambda room: counting(room, 20, 0, 100_000),
    "columns": columns,
    "singles": lambda room: counting(room, 1, 100_000_000, 200_000),
    "texts": texts,
    "whole": lambda room: satisfying(room, True),
    "tested": lambda room: satisfying(room, False),
}


def main():
    if len(sys.argv) != 2 or sys.argv[1] not in KINDS:
        sys.exit(__doc__)
    sys.stdout.write(KINDS[sys.argv[1]](LIMIT))


main()
