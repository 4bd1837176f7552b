# SPDX-License-Identifier: Apache-2.0
"""Footers of Parquet files by a writer of its own: what is read of them beside the rows, and that no row group is skipped that has a wanted row."""
import datetime
import importlib.util
import math
import pathlib
import random
import struct
import unittest

from foalmorrow import Footers, Stat, col, dataset, parquet_footers
from foalmorrow.parquet_footers import ParquetFault
from tests.systems.parquet_writer import Raw, thrift
from tests.systems.table_rows import HAS_LIBRARY, SEED, TableTests, a_value, examples, lost, order, some_filters, untrue

_UNIT = {"ms": Raw(thrift((1, Raw(thrift())))), "us": Raw(thrift((2, Raw(thrift()))))}
#: Of each column its values in the tests, its physical type, the older annotation, and the newer one.
KINDS = {
    "n": ("long", 2, None, None), "i": ("int", 1, None, None), "b": ("byte", 1, 15, None), "u8": ("u8", 1, 11, None), "u64": ("u64", 2, 14, None),
    "s": ("short", 1, None, (10, "16 with a sign")), "d": ("date", 1, 6, None), "at": ("timestamptz", 2, 10, None),
    "local": ("timestamp_ntz", 2, None, (8, "us, local")), "p": ("decimal(9,2)", 1, 5, None), "q": ("decimal(18,4)", 2, None, (5, "18, 4")),
    "x": ("double", 5, None, None), "y": ("float", 4, None, None), "t": ("string", 6, 0, None), "raw": ("binary", 6, None, None),
    "f": ("decimal(9,2)", 7, 5, None), "v": ("decimal(18,4)", 6, None, (5, "18, 4")), "w": ("decimal(18,4)", 7, 5, (5, "18, 4")),
    "ok": ("boolean", 0, None, None), "u": ("uuid", 7, None, (14, "")), "odd": ("int96", 3, None, None),
}
SIGNED = {"n", "i", "b", "s", "d", "at", "local", "p", "q", "ok"}


def byte(value: int) -> bytes:
    return bytes([value])


def element(name: str) -> Raw:
    """A column of the schema."""
    kind, physical, older, newer = KINDS[name]
    digits = [int(it) for it in kind[8:-1].split(",")] if kind.startswith("decimal") else None
    logical = None
    if newer is not None:
        inside = {
            # A number of 8 bits is a byte of its own kind in the protocol, and a truth stands in the head of its field.
            10: Raw(b"\x13\x10\x11\0"), 8: Raw(thrift((1, False), (2, _UNIT["us"]))), 14: Raw(thrift()),
            5: Raw(thrift((1, digits[1]), (2, digits[0])) if digits else b"\0"),
        }[newer[0]]
        logical = Raw(thrift((newer[0], inside)))
    length = 16 if kind == "uuid" or name == "w" else 4 if physical == 7 else None
    scale = (7, digits[1] if digits else None), (8, digits[0] if digits else None)
    return Raw(thrift((1, physical), (2, length), (3, 1), (4, name.encode()), (6, older), *scale, (10, logical)))


def plain(name: str, value: object) -> bytes:
    """A value as bounds have it."""
    kind, physical = KINDS[name][:2]
    if kind.startswith("decimal"):
        value = int(value.scaleb(int(kind[8:-1].split(",")[1])))
    if isinstance(value, (datetime.date, datetime.datetime)):
        value = order(value)
    if physical in (6, 7) and kind.startswith("decimal"):
        # In two's complement, the highest byte first: in as few bytes as hold it, or in as many as the column has.
        width = value.bit_length() // 8 + 1 if physical == 6 else 16 if name == "w" else 4
        return value.to_bytes(width, "big", signed=True)
    if physical in (4, 5):
        return struct.pack("<f" if physical == 4 else "<d", value)
    if physical in (1, 2):
        width = 4 if physical == 1 else 8
        return (value % 2 ** (8 * width)).to_bytes(width, "little")
    if kind == "boolean":
        return byte(value)
    return value.encode() if kind == "string" else value.bytes if kind == "uuid" else value


def signed(name: str, value: object) -> object:
    """The order of the older bounds: numbers with their signs, and bytes too."""
    data = plain(name, value)
    if KINDS[name][1] in (1, 2):
        return int.from_bytes(data, "little", signed=True)
    return order(value) if KINDS[name][1] in (0, 4, 5) else [it - 256 * (it > 127) for it in data]


class Writer:
    """Writes footers of rows by choices of its own."""

    def __init__(self, rng: random.Random, names: list[str]):
        self.rng, self.names = rng, names

    def file(self, groups: list[list[dict]]) -> bytes:
        is_ordered = self.rng.random() < 0.7
        elements = [Raw(thrift((4, b"root"), (5, len(self.names)))), *(element(name) for name in self.names)]
        told = [Raw(thrift((1, [self.chunk(name, rows, is_ordered) for name in self.names]), (2, 0), (3, len(rows)))) for rows in groups]
        orders = [Raw(thrift((1, Raw(thrift())))) for _ in self.names] if is_ordered else None
        footer = thrift((1, 1), (2, elements), (3, sum(map(len, groups))), (4, told), (7, orders))
        return b"PAR1" + footer + struct.pack("<I", len(footer)) + b"PAR1"

    def chunk(self, name: str, rows: list[dict], is_ordered: bool) -> Raw:
        statistics = Raw(thrift(*self.statistics(name, [row[name] for row in rows], is_ordered))) if self.rng.random() < 0.9 else None
        sizes = ((5, len(rows)), (6, 0), (7, 0))
        meta = thrift((1, KINDS[name][1]), (2, [0]), (3, [name.encode()]), (4, 0), *sizes, (9, 4), (12, statistics))
        return Raw(thrift((2, 4), (3, Raw(meta))))

    def statistics(self, name: str, values: list, is_ordered: bool) -> list[tuple[int, object]]:
        present = [it for it in values if it is not None and not (isinstance(it, float) and math.isnan(it))]
        nulls = (3, values.count(None) if self.rng.random() < 0.8 else None)
        if not present:
            return [nulls]
        least, greatest = (self.cut(name, plain(name, extreme(present, key=order)), side) for side, extreme in enumerate((min, max)))
        older = [plain(name, extreme(present, key=lambda it: signed(name, it))) for extreme in (max, min)]
        older = older if self.rng.random() < 0.5 or not is_ordered else [None, None]
        exact = self.rng.random() < 0.5 and KINDS[name][0] not in ("string", "binary")
        # Without an order the newer bounds may be anything.
        newer = [greatest, least] if is_ordered else [least, greatest]
        flags = [(7, exact), (8, exact)] if self.rng.random() < 0.5 else []
        return [*zip((1, 2), older), nulls, *zip((5, 6), newer), *flags]

    def cut(self, name: str, data: bytes, side: int) -> bytes | None:
        """The first two bytes of a text, and of a greatest one the next that is above, or none."""
        if KINDS[name][0] not in ("string", "binary") or len(data) <= 2:
            return data
        if not side:
            return data[:2]
        stem = data[:2].rstrip(b"\xff")
        return stem[:-1] + byte(stem[-1] + 1) if stem else None


class Files(TableTests):
    def test_no_wanted_row_is_skipped(self) -> None:
        skipped = []
        path = pathlib.Path(self.folder) / "a.parquet"

        @examples(150)
        def one(rng: random.Random) -> None:
            names = rng.sample(sorted(KINDS), rng.randrange(1, 8))
            nulls = {name: rng.choice([0, 0.3, 1]) for name in names}
            groups = [
                [{name: None if rng.random() < nulls[name] else a_cell(rng, KINDS[name][0]) for name in names} for _ in range(rng.randrange(4))]
                for _ in range(rng.randrange(1, 4))
            ]
            path.write_bytes(Writer(rng, names).file(groups))
            table, rows = dataset.read(self.folder), {("a.parquet", place): it for place, it in enumerate(groups)}
            self.assertEqual(untrue(table, rows), [])
            kinds = {name: KINDS[name][0] for name in names if KINDS[name][0] in PRUNED}
            for _ in range(10 * HAS_LIBRARY * bool(kinds)):
                filters = some_filters(rng, kinds, [row for it in groups for row in it])
                self.assertEqual(lost(table, rows, filters), [], filters)
                skipped.append(len(table.prune(filters).skipped))

        one()
        self.assertTrue(sum(skipped) > 100 or not HAS_LIBRARY, sum(skipped))

    def test_types(self) -> None:
        path = pathlib.Path(self.folder) / "a.parquet"
        path.write_bytes(Writer(random.Random(1), list(KINDS)).file([[]]))
        words = [column.word for column in parquet_footers.read(path).columns]
        wanted = ["i64", "i32", "i8", "u8", "u64", "i16", "date", "timestamp[us, UTC]", "timestamp[us]", "decimal(9, 2)", "decimal(18, 4)", "float64"]
        wanted += ["float32", "utf8", "binary", "decimal(9, 2)", "decimal(18, 4)", "decimal(18, 4)", "bool", "uuid", "unmapped(Parquet type 3)"]
        self.assertEqual(words, [f"{word}?" for word in wanted])

    def test_bounds_by_another_order(self) -> None:
        # The older bounds of texts are those of signed bytes, and é is less than a there.
        self.assertEqual(self.told("t", (1, b"a"), (2, "é".encode()), (3, 0)), [(("t", Stat.NULL_COUNT), 0)])
        self.assertEqual(self.told("u8", (1, plain("u8", 1)), (2, plain("u8", 200))), [])
        self.assertEqual(dict(self.told("n", (1, plain("n", 5)), (2, plain("n", -5)))), {("n", Stat.MIN): -5, ("n", Stat.MAX): 5})

    def test_decimals_in_bytes(self) -> None:
        def told(*bounds: bytes, is_ordered: bool = True) -> dict:
            found = self.told("v", (5, bounds[1]), (6, bounds[0]), is_ordered=is_ordered)
            return {key: int(value.scaleb(4)) for key, value in found}

        self.assertEqual(told(b"\xff\x38", b"\x01\x2c"), {("v", Stat.MIN): -200, ("v", Stat.MAX): 300})
        self.assertEqual(told(b"\xff" * 15 + b"\x9c", bytes(15) + b"\x05"), {("v", Stat.MIN): -100, ("v", Stat.MAX): 5})
        self.assertEqual(told(b"\xff\x7f" + b"\xff" * 7, b"\0\x7f" + b"\xff" * 7), {("v", Stat.MAX): 2**63 - 1})
        self.assertEqual(told(b"", b"\0\x80" + bytes(7)), {})
        # Without an order, and of the older bounds, nothing is known: they may have been compared byte by byte.
        self.assertEqual(told(b"\xff\x38", b"\x01\x2c", is_ordered=False), {})
        self.assertEqual(self.told("v", (1, b"\x01"), (2, b"\xff"), is_ordered=True), [])

    def test_text_that_is_cut_within_a_character(self) -> None:
        self.assertEqual(dict(self.told("t", (5, b"z"), (6, "é".encode()[:1]), is_ordered=True)), {("t", Stat.MAX): "z"})

    def test_floating_numbers(self) -> None:
        found = dict(self.told("x", (5, struct.pack("<d", 2.0)), (6, struct.pack("<d", 0.0)), (7, True), (8, True), is_ordered=True))
        self.assertEqual(found, {("x", Stat.MIN): 0.0})
        self.assertEqual(self.told("x", (5, struct.pack("<d", 2.0)), (6, struct.pack("<d", math.nan)), is_ordered=True), [])

    def told(self, name: str, *statistics: tuple[int, object], is_ordered: bool = False, rows: int = 3) -> list:
        path = pathlib.Path(self.folder) / "a.parquet"
        meta = thrift((1, KINDS[name][1]), (5, rows), (12, Raw(thrift(*statistics))))
        orders = [Raw(thrift((1, Raw(thrift()))))] if is_ordered else None
        group = Raw(thrift((1, [Raw(thrift((3, Raw(meta))))]), (3, rows)))
        footer = thrift((2, [Raw(thrift((4, b"r"), (5, 1))), element(name)]), (4, [group]), (7, orders))
        path.write_bytes(b"PAR1" + footer + struct.pack("<I", len(footer)) + b"PAR1")
        return [(key, value) for key, (_, value) in parquet_footers.read(path).at(0).items()]

    def test_statistics_that_cannot_be_are_unknown(self) -> None:
        for given in (
            [(3, 4)], [(3, -1)], [(1, b"abc"), (3, 0)], [(1, plain("n", 1)), (2, plain("n", 2)), (3, 0)], [(3, True)], [(3, b"1")], [(1, 7), (3, 0)],
        ):
            with self.subTest(given):
                self.assertEqual(self.told("n", *given), [])
        self.assertEqual(self.told("u8", (3, 0), (5, plain("u8", 300)), is_ordered=True), [])
        self.assertEqual(self.told("ok", (1, b"\2"), (3, 0)), [])

    def two_columns(self, *columns: tuple[Raw, bytes], rows: int = 3) -> Footers:
        """Footers of columns, each with its element of the schema and its statistics."""
        chunks = [Raw(thrift((3, Raw(thrift((1, 2), (5, rows), (12, Raw(told))))))) for _, told in columns]
        group = Raw(thrift((1, chunks), (3, rows)))
        footer = thrift((2, [Raw(thrift((4, b"r"), (5, len(columns)))), *(it for it, _ in columns)]), (4, [group]))
        path = pathlib.Path(self.folder) / "a.parquet"
        path.write_bytes(b"PAR1" + footer + struct.pack("<I", len(footer)) + b"PAR1")
        return parquet_footers.read(path)

    def test_columns_that_nobody_names_refuse_no_file(self) -> None:
        good = element("n"), thrift((1, plain("n", 9)), (2, plain("n", 5)), (3, 0))
        some = thrift((1, plain("i", 9)), (2, plain("i", 5)), (3, 0))
        text = Raw(thrift((1, 6), (3, 1), (4, b"i"), (6, 0)))

        def annotated(number: int) -> Raw:
            """A column of 64 bits whose annotation lacks what it has to say."""
            return Raw(thrift((1, 2), (3, 1), (4, b"i"), (10, Raw(thrift((number, Raw(thrift((2, Raw(thrift()))))))))))

        for bad, word in (
            ([(element("i"), some), (text, thrift((1, b"x"), (2, b"a"), (3, 0)))], "unmapped(one of several)?"),
            ([(text, thrift((1, b"x"), (2, b"a"), (3, 0))), (element("i"), some)], "unmapped(one of several)?"),
            ([(element("i"), thrift((1, plain("i", 1)), (2, plain("i", 2)), (3, 0)))], "i32?"),
            *(([(annotated(number), some)], "unmapped(unknown)?") for number in (5, 7, 8, 10)),
            ([(Raw(thrift((1, 7), (3, 1), (4, b"i"))), some)], "unmapped(unknown)?"),
            ([(Raw(thrift((3, 1), (4, b"i"))), some)], "unmapped(unknown)?"),
        ):
            for columns in ([good, *bad], [*bad, good]):
                found = self.two_columns(*columns)
                self.assertEqual({column.name: column.word for column in found.columns}, {"n": "i64?", "i": word})
                self.assertEqual({(name, stat) for name, stat in found.at(0)} - {("i", Stat.NULL_COUNT)}, {("n", stat) for stat in (Stat.MIN, Stat.MAX, Stat.NULL_COUNT)})
                self.assertEqual(("i", Stat.NULL_COUNT) in found.at(0), word == "unmapped(unknown)?")
                if HAS_LIBRARY:
                    wanted = col("i") == "x" if word.startswith("unmapped") else col("i") == 7
                    self.assertEqual([list(found.prune(it)) for it in (col("n") > 9, wanted, (col("n") > 9) & wanted)], [[1], [0], [1]])
        name = self.two_columns(good, (Raw(thrift((1, 1), (3, 1), (4, b"\xff"))), some))
        self.assertEqual([column.name for column in name.columns], ["n", "\\xff"])

    def test_each_byte(self) -> None:
        path = pathlib.Path(self.folder) / "a.parquet"
        whole = Writer(random.Random(SEED), ["n", "t", "d"]).file([[{"n": 1, "t": "abc", "d": None}], []])
        for data, words in ((b"PAR1", "doesn't end"), (whole[:-4] + b"PARE", "encrypted"), (whole[:4] + whole[-8:], "longer than the file")):
            path.write_bytes(data)
            with self.assertRaisesRegex(ParquetFault, words):
                parquet_footers.read(path)
        for place in range(4, len(whole)):
            for value in (0, 1, 255, whole[place] ^ 1, whole[place] ^ 16):
                path.write_bytes(whole[:place] + byte(value) + whole[place + 1 :])
                try:
                    parquet_footers.read(path)
                except ParquetFault:
                    pass

    @unittest.skipIf(importlib.util.find_spec("pandas") is None, "pandas isn't installed: apt-get install python3-pandas")
    def test_the_file_of_pandas(self) -> None:
        path = pathlib.Path(importlib.util.find_spec("pandas").origin).parent / "tests/io/data/parquet/simple.parquet"
        if not path.exists():
            self.skipTest("pandas' own tests aren't installed")
        footers = parquet_footers.read(path)
        self.assertEqual([(column.name, column.word) for column in footers.columns], [("A", "i64?"), ("B", "utf8?")])
        self.assertEqual({key: value for key, (_, value) in footers.at(0).items()}, {
            ("A", Stat.MIN): 1, ("A", Stat.MAX): 3, ("A", Stat.NULL_COUNT): 0, ("B", Stat.MIN): "foo", ("B", Stat.MAX): "foo", ("B", Stat.NULL_COUNT): 0,
        })


PRUNED = {kind for kind, *_ in KINDS.values()} - {"u8", "u64", "int96"}


def a_cell(rng: random.Random, kind: str) -> object:
    if kind in ("u8", "u64"):
        return rng.choice([0, 1, 127, 128, 255]) if kind == "u8" else rng.choice([0, 2**63 - 1, 2**63, 2**64 - 1])
    return bytes(12) if kind == "int96" else a_value(rng, kind)


if __name__ == "__main__":
    unittest.main()
