# SPDX-License-Identifier: Apache-2.0
"""Directories of files: what their footers say beside the rows, what their folders are named for, and which files are read anew."""
import datetime
import json
import os
import pathlib
import random
import tempfile
import time
import unittest
import urllib.parse

from foalmorrow import Column, DType, FooterError, Footers, Precision, Stat, dataset, stamps
from foalmorrow.dataset import DatasetError
from foalmorrow.types import Date
from tests.systems.table_rows import HAS_LIBRARY, TableTests, a_value, examples, lost, some_filters, untrue

KINDS = {"n": "long", "t": "string", "ok": "boolean"}
TYPES = {"long": DType.I64, "string": DType.UTF8, "boolean": DType.BOOL, "int": DType.I32}
READ: list[str] = []


def read_rows(path: str) -> Footers:
    """The footers of a file that holds its columns and the rows of its groups as JSON: exact bounds and counts of nulls."""
    READ.append(os.path.basename(path))
    with open(path, encoding="utf-8") as file:
        told = json.load(file)
    columns = [Column(name, TYPES[kind], nullable) for name, kind, nullable in told["columns"]]
    given = {}
    for column in columns:
        groups = [[row[column.name] for row in rows if row[column.name] is not None] for rows in told["groups"]]
        key = str.encode if column.dtype == DType.UTF8 else None
        given[column.name, Stat.MIN] = ([min(values, key=key, default=None) for values in groups], Precision.EXACT)
        given[column.name, Stat.MAX] = ([max(values, key=key, default=None) for values in groups], Precision.EXACT)
        if column.nullable:
            given[column.name, Stat.NULL_COUNT] = ([len(rows) - len(values) for rows, values in zip(told["groups"], groups)], Precision.EXACT)
    return Footers.of_values(columns, [len(rows) for rows in told["groups"]], given)


class Directories(TableTests):
    def setUp(self) -> None:
        super().setUp()
        self.rows: dict[object, list[dict]] = {}
        READ.clear()

    def write(self, path: str, *groups: list[dict], kinds: dict[str, str] | None = None, nullable: bool = True, **constants: object) -> None:
        """A file with these rows, whose folders are named for the constants."""
        file = pathlib.Path(self.folder) / path
        file.parent.mkdir(parents=True, exist_ok=True)
        columns = [[name, kind, nullable] for name, kind in (kinds or {"n": "long"}).items()]
        file.write_text(json.dumps({"columns": columns, "groups": groups}))
        for place, rows in enumerate(groups):
            self.rows[path, place] = [{**row, **constants} for row in rows]

    def read(self, **options: object) -> dataset.Table:
        """The directory as a table, whose footers are true."""
        table = dataset.read(self.folder, reader=read_rows, suffix=".rows", **options)
        rows = {(file.path, file.row_group) for file in table.files}
        self.assertEqual(untrue(table, {key: it for key, it in self.rows.items() if key in rows}), [])
        return table


class Reading(Directories):
    def test_row_groups_of_files(self) -> None:
        self.write("b/two.rows", [{"n": 5}])
        self.write("a.rows", [{"n": 1}, {"n": None}], [], [{"n": 3}])
        for name in ("_log.rows", ".a.rows.rows", "a.csv"):
            self.write(name, [])
        found = [(file.path, file.row_group, file.rows) for file in self.read().files]
        self.assertEqual(found, [("a.rows", 0, 2), ("a.rows", 1, 0), ("a.rows", 2, 1), ("b/two.rows", 0, 1)])

    def test_folders_as_columns(self) -> None:
        self.write("day=2024-01-02/city=K%C3%B6ln %25/a.rows", [{"n": 1}], day=datetime.date(2024, 1, 2), city="Köln %")
        self.write("day=__HIVE_DEFAULT_PARTITION__/city=007/a.rows", [{"n": 2}, {"n": 2}], day=None, city="007")
        table = self.read(partitions={"day": Date()})
        self.assertEqual([column.word for column in table.columns], ["i64?", "date?", "utf8"])
        told = table.footers.at(0)
        self.assertEqual([told["city", stat] for stat in (Stat.MIN, Stat.MAX)], [(Precision.EXACT, "Köln %")] * 2)
        self.assertEqual(table.footers.at(1)["day", Stat.NULL_COUNT], (Precision.EXACT, 2))

    def test_columns_that_files_lack(self) -> None:
        self.write("a.rows", [{"n": 1}], kinds={"n": "long"}, nullable=False)
        self.write("b.rows", [{"n": 2, "t": "x"}], kinds={"n": "long", "t": "string"}, nullable=False)
        table = self.read()
        self.assertEqual([column.word for column in table.columns], ["i64", "utf8?"])
        # The file that lacks it has nulls alone, although the column has none where it is.
        self.assertEqual(table.footers.at(0), {("n", stat): (Precision.EXACT, value) for stat, value in zip((Stat.MAX, Stat.MIN, Stat.NULL_COUNT), (1, 1, 0))})
        self.assertEqual(table.footers.at(1)["t", Stat.NULL_COUNT], (Precision.EXACT, 0))
        if HAS_LIBRARY:
            for wanted in ([("t", "is", None)], "t IS NULL"):
                self.assertEqual([file.path for file in table.files_for(wanted)], ["a.rows"])

    def test_refusals(self) -> None:
        def refused(words: str, *paths: str, **options: object) -> None:
            for path in paths:
                self.write(path, [{"n": 1}])
            with self.assertRaisesRegex(DatasetError, words):
                dataset.read(self.folder, reader=read_rows, suffix=".rows", **options)
            for path in paths:
                (pathlib.Path(self.folder) / path).unlink()

        refused("no file whose name ends with '.rows'")
        refused("are named for different columns", "a=1/x.rows", "b=1/x.rows")
        refused("are named for different columns", "a=1/x.rows", "x.rows")
        refused("'a%zz' in the name of a folder is no URI", "a%zz=1/x.rows")
        refused("'%ff' in the name of a folder isn't UTF-8", "a=%ff/x.rows")
        refused("'' in the name of a folder is no utf8", "a=/x.rows")
        refused("'x' in the name of a folder is no i32", "a=x/x.rows", partitions={"a": DType.I32})
        refused("'2147483648' in the name of a folder is no i32", "a=2147483648/x.rows", partitions={"a": DType.I32})
        refused("'1.5' in the name of a folder is no date", "a=1.5/x.rows", partitions={"a": Date()})
        refused("no folder is named for the column 'z'", "a=1/x.rows", partitions={"z": DType.I32})
        refused("or two are", "a=1/a=2/x.rows")
        refused("is more than 64 folders deep", "f/" * 70 + "x.rows")
        with self.assertRaisesRegex(DatasetError, "none.? can't be read"):
            dataset.read(self.folder + "/none")

    def test_folders_in_a_circle(self) -> None:
        self.write("a/x.rows", [{"n": 1}])
        os.symlink(self.folder, os.path.join(self.folder, "a", "up"))
        with self.assertRaisesRegex(DatasetError, "leads back into a folder above it"):
            self.read()

    def test_column_of_folders_and_of_files_is_unknown(self) -> None:
        self.write("n=1/x.rows", [{"n": 1, "m": 5}], kinds={"n": "long", "m": "long"})
        table = self.read(partitions={"n": DType.I64})
        self.assertEqual([(it.name, it.word) for it in table.columns], [("m", "i64?"), ("n", "unmapped(of folders and files)?")])
        self.assertEqual({name for name, _ in table.footers.at(0)}, {"m"})
        if HAS_LIBRARY:
            answers = [len(table.files_for(wanted)) for wanted in ([("m", ">", 5)], [("n", ">", 5)], [("n", "is not", None)], [("n", "is", None)])]
            self.assertEqual(answers, [0, 1, 1, 1])

    def test_types_that_differ_are_unknown_where_they_do(self) -> None:
        both = {"n": "long", "m": "long"}
        self.write("a.rows", [{"n": 1, "m": 1}], kinds={"n": "int", "m": "long"}, nullable=False)
        self.write("b.rows", [{"n": 2, "m": 2}], kinds=both, nullable=False)
        self.write("c.rows", [{"n": 3, "m": 3}], kinds=both)
        self.write("d.rows", [{"n": "x", "m": 4}], kinds={"n": "string", "m": "long"})
        kept = os.path.join(self.folder, "_footers")
        self.addCleanup(setattr, stamps, "SETTLED", stamps.SETTLED)
        stamps.SETTLED = 0
        for _ in range(2):
            table = self.read(footers=kept)
            self.assertEqual([column.word for column in table.columns], ["i64?", "i64?"])
            known = [{name for name, stat in table.footers.at(zone) if stat != Stat.NULL_COUNT} for zone in range(4)]
            self.assertEqual(known, [{"m"}, {"n", "m"}, {"n", "m"}, {"m"}])
            self.assertEqual([table.footers.at(zone)["n", Stat.NULL_COUNT] for zone in range(4)], [(Precision.EXACT, 0)] * 4)
            if HAS_LIBRARY:
                self.assertEqual([it.path for it in table.files_for([("n", "==", 3)])], ["a.rows", "c.rows", "d.rows"])
                self.assertEqual([it.path for it in table.files_for([("m", "==", 3)])], ["c.rows"])
                self.assertEqual(table.files_for([("n", "is", None)]), [])

    def test_column_of_the_null_type_is_null_where_it_is(self) -> None:
        kinds = iter([DType.NULL, DType.I64, DType.I64, DType.NULL, DType.I64, DType.I64])

        def reader(path: str) -> Footers:
            kind = next(kinds)
            return Footers([Column("n", kind)], [3], {})

        for name in "abc":
            self.write(f"{name}.rows", [{"n": 1}])
        kept = os.path.join(self.folder, "_footers")
        self.addCleanup(setattr, stamps, "SETTLED", stamps.SETTLED)
        stamps.SETTLED = 0
        for _ in range(2):
            table = dataset.read(self.folder, reader=reader, suffix=".rows", footers=kept, map=lambda work, paths: [work(path) for path in paths])
            self.assertEqual([column.word for column in table.columns], ["i64?"])
            self.assertEqual([("n", Stat.NULL_COUNT) in table.footers.at(zone) for zone in range(3)], [False, True, True])

    def test_without_a_reader(self) -> None:
        self.write("a.parquet", [{"n": 1}])
        with self.assertRaisesRegex((DatasetError, ValueError), "Parquet"):
            dataset.read(self.folder)

    def test_reader_that_gives_no_footers(self) -> None:
        self.write("a.rows", [{"n": 1}])
        with self.assertRaisesRegex(DatasetError, "the reader gave 3; expected Footers"):
            dataset.read(self.folder, reader=lambda path: 3, suffix=".rows")

    def test_file_that_changes_meanwhile(self) -> None:
        self.write("a.rows", [{"n": 1}])

        def reader(path: str) -> Footers:
            found = read_rows(path)
            self.write("a.rows", [{"n": 2}, {"n": 3}])
            return found

        with self.assertRaisesRegex(DatasetError, "a.rows was changed while its footers were read"):
            dataset.read(self.folder, reader=reader, suffix=".rows")


class KeptFooters(Directories):
    def setUp(self) -> None:
        super().setUp()
        self.kept = os.path.join(self.folder, "_footers")
        # Files that were changed within the last seconds are read anew.
        self.addCleanup(setattr, stamps, "SETTLED", stamps.SETTLED)
        stamps.SETTLED = 0

    def names(self) -> list[str]:
        """The files that are read."""
        READ.clear()
        self.read(footers=self.kept)
        return sorted(READ)

    def test_changed_files_alone(self) -> None:
        for name in "abc":
            self.write(f"{name}.rows", [{"n": 1}], [{"n": 2}])
        self.assertEqual([self.names(), self.names()], [["a.rows", "b.rows", "c.rows"], []])
        self.write("b.rows", [{"n": 7}])
        self.write("d.rows", [{"n": 8, "t": "x"}], kinds={"n": "long", "t": "string"})
        (pathlib.Path(self.folder) / "c.rows").unlink()
        self.assertEqual([self.names(), self.names()], [["b.rows", "d.rows"], []])
        # A column that no file has any more is gone.
        (pathlib.Path(self.folder) / "d.rows").unlink()
        self.assertEqual([column.name for column in self.read(footers=self.kept).columns], ["n"])

    def test_same_size_and_time_of_content(self) -> None:
        self.write("a.rows", [{"n": 1}])
        file = pathlib.Path(self.folder) / "a.rows"
        self.names()
        told = file.stat()
        time.sleep(0.02)
        self.write("a.rows", [{"n": 9}])
        os.utime(file, ns=(told.st_atime_ns, told.st_mtime_ns))
        self.assertEqual(self.names(), ["a.rows"])

    def test_file_that_was_just_changed(self) -> None:
        stamps.SETTLED = 2 * 10**9
        self.write("a.rows", [{"n": 1}])
        self.assertEqual([self.names(), self.names()], [["a.rows"], ["a.rows"]])

    def test_nulls_of_columns_that_are_kept(self) -> None:
        self.write("a.rows", [{"n": 1}], nullable=False)
        self.write("b.rows", [{"n": 1}, {"n": None}])
        self.names()
        table = self.read(footers=self.kept)
        self.assertEqual([table.footers.at(zone)["n", Stat.NULL_COUNT] for zone in (0, 1)], [(1, 0), (1, 1)])

    def test_footers_of_another_directory(self) -> None:
        self.write("a.rows", [{"n": 1}])
        self.names()
        footers, note = Footers.load_with_note(self.kept)
        for wrong, words in (
            (note.replace(os.path.realpath(self.folder), "/x"), "has the footers of '/x', not of"),
            ("", "of no directory"),
            ("[]", "of no directory"),
            ("[" * 100_000, "of no directory"),
            (note.replace(', 1, 0]', ', 2, 0]'), "of other files"),
            (note.replace(', 1, 0]', ', 1, 7]'), "of no directory"),
            (note.replace('"n"', '"m"'), "of other columns"),
        ):
            footers.save(self.kept, wrong)
            with self.subTest(words), self.assertRaisesRegex(FooterError, words):
                self.read(footers=self.kept)
        pathlib.Path(self.kept).write_bytes(b"foalmorrow footers 1\n")
        with self.assertRaises(FooterError):
            self.read(footers=self.kept)


class RandomDirectories(Directories):
    def test_no_wanted_row_is_skipped(self) -> None:
        skipped = []
        home = self.folder
        self.addCleanup(setattr, stamps, "SETTLED", stamps.SETTLED)
        stamps.SETTLED = 0

        @examples(50)
        def one(rng: random.Random) -> None:
            self.folder, self.rows = tempfile.mkdtemp(dir=home), {}
            for place in range(rng.randrange(1, 5)):
                self.write_one(rng, place)
            for _ in range(2):
                table = self.read(partitions={"year": DType.I32}, footers=f"{self.folder}.footers")
            kinds = {column.name: {"city": "string", "year": "int"}.get(column.name) or KINDS[column.name] for column in table.columns}
            for _ in range(10 * HAS_LIBRARY):
                filters = some_filters(rng, kinds, [row for rows in self.rows.values() for row in rows])
                self.assertEqual(lost(table, self.rows, filters), [], filters)
                skipped.append(len(table.prune(filters).skipped))

        one()
        self.assertTrue(sum(skipped) > 100 or not HAS_LIBRARY, sum(skipped))

    def write_one(self, rng: random.Random, place: int) -> None:
        kinds = {name: kind for name, kind in KINDS.items() if name == "n" or rng.random() < 0.7}
        groups = [
            [{name: a_value(rng, kind) if rng.random() < 0.8 else None for name, kind in kinds.items()} for _ in range(rng.randrange(4))]
            for _ in range(rng.randrange(1, 3))
        ]
        city, year = rng.choice([None, "a", "é%", "a b"]), rng.randrange(3)
        name = "__HIVE_DEFAULT_PARTITION__" if city is None else urllib.parse.quote(city)
        self.write(f"city={name}/year={year}/{place}.rows", *groups, kinds=kinds, city=city, year=year)


if __name__ == "__main__":
    unittest.main()
