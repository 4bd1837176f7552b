# SPDX-License-Identifier: Apache-2.0
"""Footers that ``foalmorrow.parquet`` reads by proof beside Thrift's own decoder (Debian: python3-thrift), and the file of pandas."""
from __future__ import annotations

import importlib.util
import os
import pathlib
import random
import struct
import unittest
import warnings
from typing import Any

from foalmorrow import Answer, SqlError, parquet
from foalmorrow.parquet_values import ParquetFault
from tests.parquet_footers_of import footer
from tests.systems.table_rows import HAS_LIBRARY, SEED

HAS_THRIFT = importlib.util.find_spec("thrift") is not None
#: How many footers are written, and how many are made of each by changes of bytes.
FOOTERS, CHANGES = int(os.environ.get("FOALMORROW_FOOTERS", "1000")), 10


def decoded(data: bytes) -> dict[int, Any]:
    """Returns the fields of the struct with which bytes begin, by Thrift's own decoder: those of one identifier by their kinds."""
    from thrift.protocol.TCompactProtocol import TCompactProtocol
    from thrift.transport.TTransport import TMemoryBuffer

    return _struct(TCompactProtocol(TMemoryBuffer(data)))


def _struct(protocol: Any) -> dict[Any, Any]:
    from thrift.Thrift import TType

    found: dict[Any, Any] = {}
    protocol.readStructBegin()
    while True:
        _, kind, number = protocol.readFieldBegin()
        if kind == TType.STOP:
            break
        found[number, kind] = _value(protocol, kind)
        protocol.readFieldEnd()
    protocol.readStructEnd()
    return found


def _value(protocol: Any, kind: int) -> Any:
    from thrift.Thrift import TType

    if kind == TType.STRUCT:
        return _struct(protocol)
    if kind in (TType.LIST, TType.SET):
        inner, count = protocol.readListBegin()
        found = [_value(protocol, inner) for _ in range(count)]
        protocol.readListEnd()
        return inner, found
    if kind == TType.MAP:
        key, value, count = protocol.readMapBegin()
        pairs = [(_value(protocol, key), _value(protocol, value)) for _ in range(count)]
        protocol.readMapEnd()
        return key, value, pairs
    read = {TType.BOOL: protocol.readBool, TType.BYTE: protocol.readByte, TType.I16: protocol.readI16, TType.I32: protocol.readI32, TType.I64: protocol.readI64,
            TType.DOUBLE: protocol.readDouble, TType.STRING: protocol.readBinary}
    return read[kind]()


BYTE, I32, I64, TEXT, STRUCT, LIST, TRUTH = 3, 8, 10, 11, 12, 15, 2


def groups_of(told: dict[Any, Any]) -> list[dict[Any, Any]]:
    inner, found = told.get((4, LIST), (STRUCT, []))
    return found if inner == STRUCT else []


def greatest(told: dict[Any, Any], group: dict[Any, Any], name: bytes) -> int | None:
    """Returns the greatest number of a column of a row group, as the format's rules let it be used; a column of texts has none."""
    elements = told[2, LIST][1][1:]
    place = [it[4, TEXT] for it in elements].index(name)
    element, meta = elements[place], group[1, LIST][1][place].get((3, STRUCT))
    if meta is None or meta.get((1, I32)) != element[1, I32] or (12, STRUCT) not in meta:
        return None
    statistics = meta[12, STRUCT]
    kind, orders = told.get((7, LIST), (STRUCT, []))
    newer, older = element.get((10, STRUCT), {}).get((10, STRUCT), {}), element.get((6, I32))
    is_unsigned = newer.get((2, TRUTH)) is False or (not newer and older in (11, 12, 13, 14))
    is_ordered = kind == STRUCT and place < len(orders) and (1, STRUCT) in orders[place]
    bytes_of = statistics.get((5, TEXT)) if is_ordered else None
    is_decimal = element[1, I32] in (6, 7)
    if bytes_of is None and not is_unsigned and not is_decimal:
        bytes_of = statistics.get((1, TEXT))
    if bytes_of is None or (not bytes_of if is_decimal else len(bytes_of) != (4 if element[1, I32] == 1 else 8)):
        return None
    number = int.from_bytes(bytes_of, "big" if is_decimal else "little", signed=not is_unsigned)
    bits = newer.get((1, BYTE)) or {11: 8, 12: 16, 13: 32, 15: 8, 16: 16, 17: 32}.get(0 if newer else older, 32 if element[1, I32] == 1 else 64)
    # One that isn't of the column's type bounds nothing.
    return number if -(2 ** (bits - 1)) <= number < 2 ** (bits - 1) or (is_unsigned and 0 <= number < 2**bits) else None


def all_null(told: dict[Any, Any], group: dict[Any, Any], name: bytes) -> bool:
    """Whether the statistics say of a column of a row group that each row is null."""
    place = [it[4, TEXT] for it in told[2, LIST][1][1:]].index(name)
    meta = group[1, LIST][1][place].get((3, STRUCT), {})
    return meta.get((12, STRUCT), {}).get((3, I64)) == group[3, I64]


def rows_of(rng: random.Random) -> list[dict[str, Any]]:
    base = rng.randrange(0, 9)
    return [
        {"n": rng.choice([base, base + 1, None]), "m": base, "s": rng.choice(["", "ab", "é", None]), "t": rng.random() < 0.5, "day": None}
        for _ in range(rng.randrange(4))
    ]


@unittest.skipUnless(HAS_LIBRARY, "the library isn't there")
@unittest.skipUnless(HAS_THRIFT, "python3-thrift isn't installed")
class BesideThrift(unittest.TestCase):
    def test_footers(self) -> None:
        rng = random.Random(SEED)
        skipped = 0
        for _ in range(FOOTERS):
            data = footer([rows_of(rng) for _ in range(rng.randrange(4))], rng)
            told, limit = decoded(data), rng.randrange(12)
            found = pruned(data, f"n > {limit}")
            self.same_groups(found, told)
            bounds = [greatest(told, group, b"n") for group in groups_of(told)]
            for answer, bound in zip(found, bounds):
                self.assertEqual(answer == Answer.SKIP or bound is None or bound > limit, True, (bound, limit))
                # A column of nulls alone is skipped without a bound.
                self.assertTrue(answer != Answer.SKIP or bound is None or bound <= limit, (bound, limit))
            skipped += len(found.skipped)
        self.assertGreater(skipped, FOOTERS // 20)

    def test_changed_footers(self) -> None:
        rng = random.Random(SEED + 1)
        answered = compared = 0
        for _ in range(FOOTERS):
            whole = footer([rows_of(rng) for _ in range(rng.randrange(1, 4))], rng)
            schema = decoded(whole)[2, LIST]
            for _ in range(CHANGES):
                data = bytearray(whole)
                for _ in range(rng.randrange(1, 3)):
                    data[rng.randrange(len(data))] = rng.randrange(256)
                try:
                    found = pruned(bytes(data), "1 = 1")
                except (ParquetFault, SqlError):
                    continue
                try:
                    told = decoded(bytes(data))
                except KeyError as unknown:
                    # Thrift 0.17 doesn't know the kind of UUIDs, whose code is 13, and reads no empty list of a kind that isn't there.
                    self.assertIn(unknown.args, [(13,), (14,), (15,)])
                    continue
                answered += 1
                self.same_groups(found, told)
                compared += told.get((2, LIST)) == schema and self.same_bounds(bytes(data), told, rng.randrange(12))
        print(f"parquet: {answered} of {FOOTERS * CHANGES} changed footers are read, and the bounds of {compared} row groups are compared")
        self.assertGreater(answered, FOOTERS)
        self.assertGreater(compared, FOOTERS)

    def same_bounds(self, data: bytes, told: dict[Any, Any], limit: int) -> int:
        """Compares what is done with row groups by the greatest number of a column, and returns how many have one that isn't told to be all null."""
        try:
            found = pruned(data, f"n > {limit}")
        except ParquetFault:
            return 0
        compared = 0
        for answer, group in zip(found, groups_of(told), strict=True):
            bound = greatest(told, group, b"n")
            if bound is not None and not all_null(told, group, b"n"):
                self.assertEqual(answer == Answer.SKIP, bound <= limit, (data, bound, limit))
                compared += 1
        return compared

    def same_groups(self, found: parquet.RowGroups, told: dict[Any, Any]) -> None:
        groups = groups_of(told)
        self.assertEqual(list(found.rows), [group[3, I64] for group in groups])
        self.assertEqual(list(found.sizes), [max(group.get((6, I64), 0), 0) for group in groups])


def pruned(data: bytes, condition: str) -> parquet.RowGroups:
    with warnings.catch_warnings():
        warnings.simplefilter("ignore")
        return parquet.File(data).prune(condition)


@unittest.skipUnless(HAS_LIBRARY, "the library isn't there")
class TheFileOfPandas(unittest.TestCase):
    @unittest.skipIf(importlib.util.find_spec("pandas") is None, "pandas isn't installed: apt-get install python3-pandas")
    def test_it_is_pruned(self) -> None:
        path = pathlib.Path(importlib.util.find_spec("pandas").origin).parent / "tests/io/data/parquet/simple.parquet"
        if not path.exists():
            self.skipTest("pandas' own tests aren't installed")
        file = parquet.open(path)
        answers = {"A > 3": Answer.SKIP, "A >= 1 AND B >= 'foo'": Answer.WHOLE, "A = 2": Answer.READ, "B LIKE 'g%'": Answer.SKIP, "A IS NULL": Answer.SKIP}
        for condition, answer in answers.items():
            found = file.prune(condition)
            self.assertEqual((list(found), found.unread, len(found.rows)), ([answer], (), 1), condition)
        with path.open("rb") as stream:
            stream.seek(-8, os.SEEK_END)
            (length,) = struct.unpack("<I", stream.read(4))
        self.assertEqual(len(file.footer), length)


if __name__ == "__main__":
    unittest.main()
