# SPDX-License-Identifier: Apache-2.0
"""A writer of Parquet files of page indexes and a footer, from the format's specification: no page of data, and cuts and bounds by choices of its own."""
from __future__ import annotations

import random
import struct
from collections.abc import Sequence
from typing import Any

from tests.parquet_footers_of import Column, Row, Wide, footer
from tests.systems.parquet_writer import varint

I32, I64, BINARY, LIST, STRUCT = 5, 6, 8, 9, 12


class PagedFile:
    """The bytes of a file, and where its page indexes begin and end."""

    def __init__(self, groups: Sequence[Sequence[Row]], rng: random.Random):
        # Bytes of data, which nobody reads.
        self.rng, self.data = rng, bytearray(b"PAR1" + rng.randbytes(rng.randrange(40)))
        self.begin = len(self.data)
        told = footer(groups, rng, self.indexes)
        self.end = len(self.data)
        self.data += told + struct.pack("<I", len(told)) + b"PAR1"

    def indexes(self, it: Column, values: Sequence[Any], is_ordered: bool) -> list[tuple[int, object]]:
        """Writes the indexes of a column chunk, and returns the fields that tell where they stand. A chunk may have none, or one of the two."""
        firsts = [at for at in range(len(values)) if not at or self.rng.random() < 0.4]
        pages = [values[start:stop] for start, stop in zip(firsts, [*firsts[1:], len(values)])]
        offsets, columns = self.put(offset_index(firsts, self.rng)), self.put(column_index(it, pages, is_ordered, self.rng))
        has = self.rng.choice([(True, True)] * 6 + [(True, False), (False, True), (False, False)])
        return [*zip((4, 5), offsets if has[0] else (None, None)), *zip((6, 7), columns if has[1] else (None, None))]

    def put(self, data: bytes) -> tuple[Wide, int]:
        place = len(self.data)
        self.data += data
        return Wide(place), len(data)


def zigzag(number: int) -> bytes:
    return varint(number << 1 if number >= 0 else (-number << 1) - 1)


def struct_by(*fields: tuple[int, int, bytes]) -> bytes:
    """A struct of fields: the number, the kind and the bytes of each."""
    out, last = bytearray(), 0
    for number, kind, data in fields:
        out += bytes([number - last << 4 | kind]) + data
        last = number
    return bytes(out) + b"\0"


def list_by(kind: int, items: Sequence[bytes]) -> bytes:
    head = bytes([len(items) << 4 | kind]) if len(items) < 15 else bytes([0xF0 | kind]) + varint(len(items))
    return head + b"".join(items)


def offset_index(firsts: Sequence[int], rng: random.Random) -> bytes:
    place, found = 4, []
    for first in firsts:
        size = rng.randrange(1, 500)
        found.append(struct_by((1, I64, zigzag(place)), (2, I32, zigzag(size)), (3, I64, zigzag(first))))
        place += size
    return struct_by((1, LIST, list_by(STRUCT, found)))


def column_index(it: Column, pages: Sequence[Sequence[Any]], is_ordered: bool, rng: random.Random) -> bytes:
    null_pages, least, greatest, nulls = [], [], [], []
    for values in pages:
        present = [value for value in values if value is not None]
        null_pages.append(bytes([2 - (not present) if rng.random() < 0.9 else int(not present)]))
        low, high = bounds(it, present, is_ordered, rng)
        least.append(varint(len(low)) + low)
        greatest.append(varint(len(high)) + high)
        nulls.append(zigzag(rng.choice([len(values) - len(present)] * 9 + [-1])))
    truth = rng.choice([1, 2])
    counts = [(5, LIST, list_by(I64, nulls))] if rng.random() < 0.8 else []
    return struct_by(
        (1, LIST, list_by(truth, null_pages)), (2, LIST, list_by(BINARY, least)), (3, LIST, list_by(BINARY, greatest)), (4, I32, zigzag(rng.randrange(3))),
        *counts,
    )


def bounds(it: Column, present: Sequence[Any], is_ordered: bool, rng: random.Random) -> tuple[bytes, bytes]:
    """The bounds of a page as they are written; of a page of nulls, and without an order, they may be anything."""
    if not present:
        return rng.choice([(b"", b""), (b"\x01\0\0\0", b"\x02\0\0\0"), (b"zz", b"a")])
    order = str.encode if it.is_text else int
    low, high = it.plain(min(present, key=order)), it.plain(max(present, key=order))
    if it.is_text and rng.random() < 0.3:
        low, high = low[:1] if low[:1].isascii() else low, high + b"~"
    return (low, high) if is_ordered else (high, low)
