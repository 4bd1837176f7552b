# SPDX-License-Identifier: Apache-2.0
"""A writer of Parquet footers of rows, from the format's specification: no page of data, and statistics by choices of its own."""
from __future__ import annotations

import random
import struct
from collections.abc import Callable, Mapping, Sequence
from typing import Any

from tests.systems.parquet_writer import Raw, thrift

Row = Mapping[str, Any]

INT32, INT64, BYTES, FIXED, BOOLEAN = 1, 2, 6, 7, 0
#: The newer annotation of decimals of 18 digits, none of them behind the point.
DECIMAL = b"\x15\0\x15\x24\0"
#: Of whole numbers the physical type, the older annotation and the newer one.
NUMBERS = [
    (INT32, None, None), (INT64, None, None), (INT32, 15, None), (INT32, 16, None), (INT64, 18, None), (INT32, None, b"\x13\x08\x11\0"), (INT32, 15, b"\x13\x20\x11\0"),
    (INT32, 11, b"\x13\x08\x11\0"), (INT64, None, b"\x13\x40\x11\0"), (BYTES, 5, None), (FIXED, 5, None), (BYTES, None, DECIMAL), (FIXED, 5, DECIMAL),
]


class Column:
    """A column of the first level: how its values are written, and whether the older bounds are in their order."""

    def __init__(
        self, name: str, physical: int, older: int | None, newer: tuple[int, bytes] | None, plain: Callable[[Any], bytes], is_signed: bool, length: int | None = None
    ):
        self.name, self.physical, self.older, self.newer, self.plain, self.is_signed, self.length = name, physical, older, newer, plain, is_signed, length
        self.is_text = plain is str.encode
        self.is_decimal = physical in (BYTES, FIXED) and not self.is_text


def whole(name: str, kind: tuple[int, int | None, bytes | None]) -> Column:
    physical, older, newer = kind
    if physical in (BYTES, FIXED):
        length = None if physical == BYTES else 1 + 5 * (ord(name) % 4)
        return Column(name, physical, older, None if newer is None else (5, newer), lambda it: decimal(it, length), False, length)
    code = "<i" if physical == INT32 else "<q"
    return Column(name, physical, older, None if newer is None else (10, newer), lambda it: struct.pack(code, it), True)


def decimal(number: int, length: int | None) -> bytes:
    """A decimal in two's complement, the highest byte first: in so many bytes, or in any number that holds it."""
    return number.to_bytes(length or number.bit_length() // 8 + 1 + 4 * (number % 4), "big", signed=True)


def columns(rng: random.Random) -> list[Column]:
    """The columns of the rows of tests.test_sql: two of numbers of one type, one of texts, one of truths and one of dates."""
    kind = rng.choice(NUMBERS)
    text = rng.choice([(0, None), (None, (1, b"\0")), (4, (1, b"\0"))])
    return [
        whole("n", kind), whole("m", kind),
        Column("s", BYTES, text[0], text[1], str.encode, False),
        Column("t", BOOLEAN, None, None, lambda it: bytes([it]), True),
        Column("day", INT32, 6, rng.choice([None, (6, b"\0")]), lambda it: struct.pack("<i", it), True),
    ]


#: Fields of a column chunk behind its metadata, by its column, its values and whether the newer bounds are in their order.
Behind = Callable[["Column", Sequence[Any], bool], list[tuple[int, object]]]


def footer(groups: Sequence[Sequence[Row]], rng: random.Random, behind: Behind | None = None) -> bytes:
    """The footer of row groups of these rows."""
    made, is_ordered = columns(rng), rng.random() < 0.7
    rng.shuffle(made)
    elements = [Raw(struct_of((4, b"root"), (5, len(made)))), *(element_of(it) for it in made)]
    told = [Raw(group_of(rows, made, is_ordered, rng, behind)) for rows in groups]
    orders = [Raw(thrift((1, Raw(thrift())))) for _ in made] if is_ordered else None
    return struct_of((1, 1), (2, elements), (3, Wide(sum(map(len, groups)))), (4, told), (6, b"a writer for tests"), (7, orders))


class Wide(int):
    """A number of 64 bits."""


def struct_of(*fields: tuple[int, object]) -> bytes:
    """A struct whose numbers are i32, but for those that are wide."""
    out, last = bytearray(), 0
    for number, value in fields:
        if value is None:
            continue
        data = thrift((1, value))[:-1]
        kind = data[0] & 15
        if type(value) is int:
            kind = 5
        if isinstance(value, list) and value and type(value[0]) is int:
            # A short list tells the kind of its items in its first byte.
            data = data[:1] + bytes([data[1] & 0xF0 | 5]) + data[2:]
        out += bytes([number - last << 4 | kind]) + data[1:]
        last = number
    return bytes(out) + b"\0"


def element_of(it: Column) -> Raw:
    annotation = None if it.newer is None else Raw(thrift((it.newer[0], Raw(it.newer[1]))))
    return Raw(struct_of((1, it.physical), (2, it.length), (3, 1), (4, it.name.encode()), (6, it.older), (8, 18 if it.is_decimal else None), (10, annotation)))


def group_of(rows: Sequence[Row], made: Sequence[Column], is_ordered: bool, rng: random.Random, behind: Behind | None) -> bytes:
    chunks = [Raw(chunk_of(it, [row[it.name] for row in rows], is_ordered, rng, behind)) for it in made]
    size = rng.choice([None, Wide(100 * len(rows) + 7)])
    return struct_of((1, chunks), (2, Wide(0)), (3, Wide(len(rows))), (6, size))


def chunk_of(it: Column, values: Sequence[Any], is_ordered: bool, rng: random.Random, behind: Behind | None) -> bytes:
    told = Raw(struct_of(*statistics_of(it, values, is_ordered, rng))) if rng.random() < 0.9 else None
    # A chunk of another physical type than the schema's tells nothing that is used.
    physical = it.physical if rng.random() < 0.95 else 3
    path = [it.name.encode()]
    meta = struct_of((1, physical), (2, [0]), (3, path), (4, 0), (5, Wide(len(values))), (6, Wide(0)), (7, Wide(0)), (9, Wide(4)), (12, told))
    return struct_of((2, Wide(4)), (3, Raw(meta) if rng.random() < 0.97 else None), *(behind(it, values, is_ordered) if behind else ()))


def statistics_of(it: Column, values: Sequence[Any], is_ordered: bool, rng: random.Random) -> list[tuple[int, object]]:
    present = [value for value in values if value is not None]
    count = len(values) - len(present)
    nulls = rng.choice([Wide(count), Wide(count), Wide(count), None, Wide(-1) if rng.random() < 0.1 else None])
    if not present:
        return [(3, nulls)]
    order = str.encode if it.is_text else int
    least, greatest = it.plain(min(present, key=order)), it.plain(max(present, key=order))
    is_cut = it.is_text and rng.random() < 0.3
    newer = [greatest + b"~" if is_cut else greatest, least[:1] if is_cut and least[:1].isascii() else least]
    if it.is_decimal and rng.random() < 0.2:
        # Bounds that don't fit 64 bits are bounds all the same.
        is_cut, newer = True, [rng.choice([greatest, decimal(2 ** rng.choice([63, 70]), 16)]), rng.choice([least, decimal(-(2**63) - rng.choice([1, 2**60]), 16)])]
    flags: list[tuple[int, object]] = [] if is_cut or rng.random() < 0.5 else [(7, rng.random() < 0.8), (8, rng.random() < 0.8)]
    # Without an order the newer bounds may be anything, and so may the older ones of values that aren't in the order of signed numbers.
    newer = newer if is_ordered else newer[::-1]
    older = [greatest, least] if it.is_signed else [least, greatest]
    if rng.random() < 0.5:
        older = [None, None]  # type: ignore[list-item]
    if rng.random() < 0.1:
        newer = [None, None]  # type: ignore[list-item]
    return [(1, older[0]), (2, older[1]), (3, nulls), (5, newer[0]), (6, newer[1]), *flags]


def file_of(data: bytes) -> bytes:
    """A file of a footer alone."""
    return b"PAR1" + data + struct.pack("<I", len(data)) + b"PAR1"
