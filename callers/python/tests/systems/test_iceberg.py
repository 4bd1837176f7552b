# SPDX-License-Identifier: Apache-2.0
"""Tables of Iceberg by a writer of its own: what their footers say beside the rows, and that no file is skipped that has a wanted row."""
from __future__ import annotations

import datetime
import json
import math
import pathlib
import random
import shutil
import struct
import unittest
import unittest.mock
import uuid

from foalmorrow import Precision, Stat
from tests.systems.table_rows import HAS_LIBRARY, SEED, UTC, TableTests, a_value, examples, lost, some_filters, untrue

try:
    from foalmorrow import avro_file, iceberg
    from foalmorrow.iceberg import IcebergError
    from tests.systems.iceberg_writer import LIST, IcebergWriter
except ImportError:
    iceberg = None

KINDS = {
    "n": "long", "i": "int", "t": "string", "d": "date", "at": "timestamptz", "local": "timestamp", "clock": "time", "p": "decimal(9,2)",
    "q": "decimal(18,4)", "x": "double", "y": "float", "raw": "binary", "ok": "boolean", "u": "uuid",
}
#: The same types by the names that the tests' values have: a timestamp has no zone here.
VALUES = {name: {"timestamp": "timestamp_ntz"}.get(kind, kind) for name, kind in KINDS.items()}


class Tables(TableTests):
    def writer(self, kinds: dict[str, str], **options: object) -> IcebergWriter:
        shutil.rmtree(pathlib.Path(self.folder) / "metadata", ignore_errors=True)
        return IcebergWriter(self.folder, kinds, **options)

    def table(self, writer: IcebergWriter, *files: dict, deletes: int = 0) -> object:
        """The table of one snapshot, of which each footer is true."""
        manifests = [writer.manifest(*files)] + [writer.manifest(writer.delete_file("gone", deletes), content=1)] * bool(deletes)
        writer.snapshot(*manifests)
        table = iceberg.read(writer.save())
        self.assertEqual(untrue(table, writer.rows), [])
        return table


@unittest.skipIf(iceberg is None, "Avro isn't installed: apt-get install python3-avro")
class Snapshots(Tables):
    def paths(self, *words: object) -> list[str]:
        return [file.path for file in iceberg.read(self.folder, *words).files]

    def test_replay(self) -> None:
        for version in (1, 2, 3):
            writer = self.writer({"n": "long"}, version=version)
            writer.save()
            self.assertEqual((self.paths(), len(iceberg.read(self.folder).footers)), ([], 0))
            first = writer.manifest(writer.data_file("a", [{"n": 1}]), writer.data_file("b", [{"n": 2}]))
            old = writer.snapshot(first)
            writer.save()
            rewritten = writer.manifest(writer.data_file("a", [{"n": 1}]), status=0, sequence=1)
            removed = writer.manifest(writer.data_file("b", [{"n": 2}]), status=2, sequence=1)
            writer.snapshot(rewritten, removed, writer.manifest(writer.data_file("c", [{"n": 3}])))
            writer.save()
            self.assertEqual([self.paths(old), self.paths(), self.paths("main")], [["a", "b"], ["a", "c"], ["a", "c"]])
            self.assertEqual(untrue(iceberg.read(self.folder), writer.rows), [])

    def test_metadata_of_a_later_version_than_the_hint(self) -> None:
        writer = self.writer({"n": "long"})
        writer.save()
        writer.snapshot(writer.manifest(writer.data_file("a", [{"n": 1}])))
        writer.save()
        (writer.folder / "version-hint.text").write_text("1")
        self.assertEqual(self.paths(), ["a"])

    def test_files_elsewhere(self) -> None:
        writer = self.writer({"n": "long"})
        writer.snapshot(writer.manifest(writer.data_file("a", [{"n": 1}])))
        path = writer.save()
        self.assertEqual([file.path for file in iceberg.read("s3://b/" + path, open=lambda it: iceberg.local(it.removeprefix("s3://b/"))).files], ["a"])
        self.assertEqual([file.path for file in iceberg.read("file://" + path).files], ["a"])
        with self.assertRaisesRegex(IcebergError, "s3://b/t isn't a file of this machine"):
            iceberg.read("s3://b/t")

    def test_first_version_without_lists(self) -> None:
        writer = self.writer({"n": "long"}, version=1)
        manifest = writer.manifest(writer.data_file("a", [{"n": 1}]))
        writer.snapshot(manifest)
        writer.snapshots[0] = {"snapshot-id": 7, "manifests": [manifest["manifest_path"]]}
        told = writer.metadata()
        told["schema"] = told.pop("schemas")[0]
        told["partition-spec"] = told.pop("partition-specs")[0]["fields"]
        path = writer.folder / "v1.metadata.json"
        path.write_text(json.dumps({key: value for key, value in told.items() if not key.startswith("current-schema")}))
        self.assertEqual(untrue(iceberg.read(path), writer.rows), [])

    def test_columns_by_their_numbers(self) -> None:
        writer = self.writer({"a": "long", "b": "long"})
        writer.snapshot(writer.manifest(writer.data_file("f", [{"a": 1, "b": 9}])))
        fields = writer.metadata()["schemas"][0]["fields"]
        fields[0]["name"], fields[1]["name"] = "b", "a"
        table = iceberg.read(writer.save(schemas=[{"schema-id": 0, "type": "struct", "fields": fields}]))
        self.assertEqual(untrue(table, {"f": [{"a": 9, "b": 1}]}), [])

    def test_columns_that_had_a_narrower_type(self) -> None:
        old = {"n": "int", "x": "float", "at": "date", "p": "decimal(4,2)"}
        writer = self.writer(old)
        rows = [{"n": -5, "x": 0.5, "at": datetime.date(2024, 1, 2), "p": a_value(random.Random(1), "decimal(4,2)")}]
        writer.snapshot(writer.manifest(writer.data_file("f", rows, nan_value_counts=[{"key": 2, "value": 0}])))
        writer.kinds = {"n": "long", "x": "double", "at": "timestamp", "p": "decimal(9,2)"}
        table = iceberg.read(writer.save())
        self.assertEqual(untrue(table, {"f": [{**rows[0], "at": datetime.datetime(2024, 1, 2)}]}), [])
        self.assertEqual(len(table.footers.at(0)), 12)

    def test_fields_of_structs(self) -> None:
        writer = self.writer({"s.c": "long", "l": "list"})
        writer.snapshot(writer.manifest(writer.data_file("f", [], record_count=2, **writer.metrics([{"s.c": 2}]))))
        inner = {"type": "struct", "fields": [{"id": 1, "name": "c", "required": True, "type": "long"}]}
        items = {"type": "list", "element-id": 9, "element": "int", "element-required": True}
        fields = [{"id": 8, "name": "s", "required": False, "type": inner}, {"id": 2, "name": "l", "required": False, "type": items}]
        table = iceberg.read(writer.save(schemas=[{"schema-id": 0, "type": "struct", "fields": fields}]))
        self.assertEqual([(it.name, it.word) for it in table.columns], [("s.c", "i64?"), ("l", "unmapped(list)?")])
        # The writer counted the rows alone in which the struct isn't null.
        self.assertEqual(untrue(table, {"f": [{"s.c": 2}, {}]}), [])
        self.assert_kept(table, [("s.c", "is", None)], "s.c", {Stat.NULL_COUNT: 0})


@unittest.skipIf(iceberg is None, "Avro isn't installed: apt-get install python3-avro")
class InexactStatistics(Tables):
    """Each statistic that is less than exact, and a row that would be lost if it were taken for the value."""

    def test_bounds_are_never_exact(self) -> None:
        writer = self.writer(KINDS)
        table = self.table(writer, writer.data_file("f", [{name: a_value(random.Random(2), kind) for name, kind in VALUES.items()}]))
        known = {stat: code for (_, stat), (code, _) in table.footers.at(0).items()}
        self.assertEqual(known, {Stat.MIN: Precision.INEXACT, Stat.MAX: Precision.INEXACT, Stat.NULL_COUNT: Precision.EXACT})

    def test_cut_text(self) -> None:
        writer = self.writer({"t": "string"})
        table = self.table(writer, writer.data_file("f", [{"t": "abcd"}, {"t": "abc\ud7ffx"}]))
        self.assertEqual(table.footers.at(0)["t", Stat.MAX], (Precision.INEXACT, "abd"))
        self.assert_kept(table, [("t", "==", "abcd")], "t", {Stat.MAX: "abc"})

    def test_null_count_under_deletes(self) -> None:
        for content in (1, 2):
            writer = self.writer({"n": "long"})
            file = writer.data_file("f", [{"n": None}, {"n": None}, {"n": 3}])
            writer.rows["f"] = [{"n": None}, {"n": 3}]
            table = self.table(writer, file, deletes=content)
            self.assertEqual((table.files[0].rows, table.files[0].has_deletes), (None, True))
            self.assertNotIn(("n", Stat.NULL_COUNT), table.footers.at(0))
            self.assert_kept(table, [("n", "is not", None)], "n", {Stat.NULL_COUNT: 2}, rows=2)

    def test_deletes_before_the_file(self) -> None:
        writer = self.writer({"n": "long"})
        deletes = writer.manifest(writer.delete_file("gone", 1), content=1)
        writer.snapshot(deletes, writer.manifest(writer.data_file("f", [{"n": None}, {"n": 3}])))
        table = iceberg.read(writer.save())
        self.assertEqual((untrue(table, writer.rows), table.files[0].rows), ([], 2))
        self.assertEqual(table.footers.at(0)["n", Stat.NULL_COUNT], (Precision.EXACT, 1))

    def test_partition_under_deletes(self) -> None:
        writer = self.writer({"n": "long"}, partitions={"n": "identity"})
        table = self.table(writer, writer.data_file("f", [{"n": 3}]), deletes=1)
        told = table.footers.at(0)
        self.assertEqual(told, {("n", Stat.MIN): (2, 3), ("n", Stat.MAX): (2, 3), ("n", Stat.NULL_COUNT): (1, 0)})

    def test_partition_by_a_transform(self) -> None:
        writer = self.writer({"n": "long"}, partitions={"n": "bucket[8]"})
        table = self.table(writer, writer.data_file("f", [{"n": 5}, {"n": 9}]))
        self.assert_kept(table, [("n", "==", 5)], "n", {Stat.MIN: 3, Stat.MAX: 3})

    def test_floating_numbers_without_nan(self) -> None:
        writer = self.writer({"x": "double"})
        table = self.table(writer, writer.data_file("f", [{"x": 1.0}, {"x": math.nan}]))
        self.assert_kept(table, [("x", ">", 2.0)], "x", {Stat.MAX: 1.0})

    def test_floating_bound_that_is_nan(self) -> None:
        writer = self.writer({"x": "double"})
        bound = [{"key": 1, "value": struct.pack("<d", math.nan)}]
        table = self.table(writer, writer.data_file("f", [{"x": 1.0}, {"x": math.nan}], lower_bounds=bound, upper_bounds=bound))
        self.assert_kept(table, [("x", "==", 1.0)], "x", {Stat.MIN: math.nan, Stat.MAX: math.nan})

    def test_uuids_in_the_order_of_java(self) -> None:
        low, middle, high = uuid.UUID(int=1), uuid.UUID(int=2**126), uuid.UUID(int=2**127)
        writer = self.writer({"u": "uuid"})
        writer.java_uuids = True
        table = self.table(writer, writer.data_file("f", [{"u": low}, {"u": middle}, {"u": high}]))
        self.assertEqual(list(table.footers.at(0)), [("u", Stat.NULL_COUNT)])
        self.assert_kept(table, [("u", "==", low)], "u", {Stat.MIN: high, Stat.MAX: middle})

    def test_timestamps_that_were_dates(self) -> None:
        writer = self.writer({"at": "date"})
        writer.snapshot(writer.manifest(writer.data_file("f", [{"at": datetime.date(2024, 1, 2)}])))
        writer.kinds = {"at": "timestamptz"}
        table, at = iceberg.read(writer.save()), datetime.datetime(2024, 1, 2, tzinfo=UTC)
        self.assertEqual(untrue(table, {"f": [{"at": at}]}), [])
        wrong = datetime.datetime(1970, 1, 1, microsecond=19724, tzinfo=UTC)
        self.assert_kept(table, [("at", "==", at)], "at", {Stat.MIN: wrong, Stat.MAX: wrong})


@unittest.skipIf(iceberg is None, "Avro isn't installed: apt-get install python3-avro")
class HostileTables(Tables):
    def refused(self, words: str, path: str | None = None, snapshot: object = None) -> None:
        with self.assertRaisesRegex(IcebergError, words):
            iceberg.read(path or self.folder, snapshot)

    def refused_metadata(self, words: str, **changed: object) -> None:
        writer = self.writer({"n": "long"})
        writer.snapshot(writer.manifest(writer.data_file("f", [{"n": 1}])))
        self.refused(words, writer.save(**changed))

    def test_metadata(self) -> None:
        self.refused("doesn't tell its last metadata file by itself")
        self.refused_metadata("format version 4; 1 to 3 are known", **{"format-version": 4})
        self.refused_metadata("format-version is 'x'", **{"format-version": "x"})
        self.refused_metadata("has no snapshots 3", **{"current-snapshot-id": 3})
        self.refused_metadata("has no schemas 3", **{"current-schema-id": 3})
        self.refused_metadata("spec 0 stands twice", **{"partition-specs": [{"spec-id": 0, "fields": []}] * 2})
        self.refused_metadata("there is no partition spec 0", **{"partition-specs": []})
        self.refused_metadata("snapshots is .3.", snapshots=[3])
        for text, words in (("[]", "is no metadata"), ("[" * 100_000, "nest too deep"), ('{"a": 1, "a": 2}', "'a' stands twice"), ("\xff", "isn't UTF-8")):
            path = pathlib.Path(self.folder) / "x.json"
            path.write_bytes(text.encode("latin-1"))
            self.refused(words, str(path))

    def test_schemas(self) -> None:
        def refused(words: str, *fields: object) -> None:
            self.refused_metadata(words, schemas=[{"schema-id": 0, "type": "struct", "fields": fields}])

        def one(name: str, number: int, kind: object = "long") -> dict:
            return {"id": number, "name": name, "required": False, "type": kind}

        refused("more than 8192 columns", *(one(f"c{place}", place) for place in range(10_000)))
        deep: object = "long"
        for number in range(80):
            deep = {"type": "struct", "fields": [one("s", number, deep)]}
        refused("nests more than 64 levels deep", one("s", 99, deep))
        refused("column a: two columns have this name", one("a", 1), one("a", 2))
        refused("the number 1 belongs to two columns", one("a", 1), one("b", 1))
        refused("id is -1", one("a", -1))
        refused("fields is .3.", 3)
        refused("required isn't there", {"id": 1, "name": "a", "type": "long"})

    def refused_file(self, words: str, kind: str = "long", partitions: dict | None = None, status: int = 1, **changed: object) -> None:
        writer = self.writer({"n": kind}, partitions=partitions)
        changed = {name: [{"key": 1, "value": value}] if name.endswith(("bounds", "counts")) else value for name, value in changed.items()}
        file = {**writer.data_file("f", [{"n": None}], record_count=3, value_counts=[{"key": 1, "value": 3}]), **changed}
        writer.snapshot(writer.manifest(file, status=status))
        self.refused(words, writer.save())

    def test_files(self) -> None:
        self.refused_file("the status is 7", status=7)
        self.refused_file("content 1 in a manifest of data", content=1)
        self.refused_file("sequence_number isn't there", status=0)
        self.refused_file("file_size_in_bytes is -1", file_size_in_bytes=-1)

    def unknown_file(self, kind: str = "long", rows: int | None = 3, **changed: object) -> None:
        """Of a column whose metrics can't be nothing is known in its file, and the other columns and files are pruned by."""
        writer = self.writer({"n": kind, "m": "long"})
        bad = writer.data_file("bad", [{"n": None, "m": 5}], record_count=3)
        for name, value in changed.items():
            if not name.endswith(("bounds", "counts")):
                bad[name] = value
                continue
            pairs = value if isinstance(value, list) else [{"key": 1, "value": value}]
            bad[name] = [*pairs, *(it for it in bad[name] if it["key"] != 1)]
        writer.snapshot(writer.manifest(bad, writer.data_file("good", [{"n": None, "m": 9}])))
        table = iceberg.read(writer.save())
        told = table.footers.at(0)
        self.assertEqual((table.files[0].rows, [key for key in told if key[0] == "n"], ("m", Stat.MIN) in told), (rows, [], rows is not None))
        self.assertEqual(table.footers.at(1)["n", Stat.NULL_COUNT], (Precision.EXACT, 1))
        if HAS_LIBRARY:
            self.assertEqual([it.path for it in table.files_for([("n", "is not", None)])], ["bad"])
            self.assertEqual([it.path for it in table.files_for([("m", "==", 9)])], ["good"] if ("m", Stat.MIN) in told else ["bad", "good"])

    def test_metrics_that_cannot_be_are_unknown(self) -> None:
        for kind, changed in (
            ("long", {"lower_bounds": b"123"}), ("time", {"lower_bounds": b"1234"}), ("time", {"lower_bounds": (86_400 * 10**6).to_bytes(8, "little")}),
            ("string", {"upper_bounds": b"\xff"}), ("boolean", {"lower_bounds": b"\2"}), ("decimal(4,2)", {"lower_bounds": b"\x7f\xff"}),
            ("decimal(4,2)", {"lower_bounds": b""}), ("fixed[2]", {"lower_bounds": b"abc"}), ("uuid", {"lower_bounds": b"abc", "upper_bounds": b"abc"}),
            ("long", {"lower_bounds": bytes([2] * 8), "upper_bounds": bytes([1] * 8)}), ("long", {"value_counts": 3, "null_value_counts": 4}),
        ):
            with self.subTest(kind, **changed):
                self.unknown_file(kind, **changed)

    def test_file_whose_numbers_cannot_be_is_unknown(self) -> None:
        for changed in ({"value_counts": -1}, {"record_count": -1}, {"value_counts": [{"key": 1, "value": 3}] * 3}):
            with self.subTest(**changed):
                self.unknown_file(rows=None, **changed)

    def test_entries(self) -> None:
        writer = self.writer({"n": "long"})
        file = writer.data_file("f", [{"n": 1}])
        writer.snapshot(writer.manifest(file, file))
        self.refused("the file f stands twice", writer.save())
        manifest = writer.manifest(file)
        writer.snapshot(manifest, manifest)
        self.refused("the manifest .* stands twice", writer.save())
        # A list that names itself.
        writer.snapshot(writer.manifest(file))
        path = writer.snapshots[-1]["manifest-list"]
        writer.avro(pathlib.Path(path).name, LIST, [{**manifest, "manifest_path": path}])
        self.refused("is no manifest", writer.save())
        writer.snapshots[-1]["manifest-list"] = self.folder + "/gone.avro"
        self.refused("gone.avro isn't there", writer.save())

    def test_partition_of_another_type(self) -> None:
        writer = self.writer({"n": "date"}, partitions={"n": "identity"})
        writer.snapshot(writer.manifest(writer.data_file("f", [{"n": datetime.date(2024, 1, 2)}])))
        self.assertEqual(untrue(iceberg.read(writer.save()), writer.rows), [])
        writer.kinds = {"n": "timestamp"}
        self.refused("the partition has a int for a timestamp", writer.save())

    def test_bytes_of_manifests(self) -> None:
        writer = self.writer({"n": "long"})
        manifest = pathlib.Path(writer.manifest(writer.data_file("f", [{"n": 1}]))["manifest_path"])
        whole = manifest.read_bytes()
        rng = random.Random(SEED)
        for _ in range(300):
            data = bytearray(whole)
            for _ in range(rng.randrange(1, 3)):
                data[rng.randrange(len(data))] = rng.randrange(256)
            del data[rng.choice([len(data), rng.randrange(len(data))]) :]
            try:
                found = avro_file.read(bytes(data), "m")
                self.assertLessEqual(len(found.rows), 1)
            except avro_file.AvroFault:
                pass
        self.assertEqual(len(avro_file.read(whole, "m").rows), 1)

    def test_huge(self) -> None:
        writer = self.writer({"n": "long"})
        writer.snapshot(writer.manifest(*(writer.data_file(f"f{place}", [{"n": 1}]) for place in range(100))))
        path = writer.save()
        with unittest.mock.patch.object(avro_file, "MOST_BYTES", 1000):
            self.refused("its rows have more than 1000 bytes", path)
        with unittest.mock.patch.object(iceberg, "MOST_BYTES", 100):
            self.refused("has more than 100 bytes", path)

    def test_schemas_of_avro(self) -> None:
        def refused(words: str, kind: object, payload: bytes, codec: str = "null", count: int = 1) -> None:
            schema = {"type": "record", "name": "r", "fields": [{"name": "a", "type": kind}]}
            with self.assertRaisesRegex(avro_file.AvroFault, words):
                avro_file.read(avro_bytes(schema, payload, codec, count), "m")

        refused("take no bytes", {"type": "array", "items": "null"}, b"\x80\x80\x80\x80\x80\x80\x80\x80\x40")
        refused("nests too deep|aren't records|RecursionError", "r", b"")
        refused("place -1 of 2 branches", ["null", "long"], b"\1")
        refused("place 2 of 2 branches", ["null", "long"], b"\4")
        refused("2 is no truth", "boolean", b"\2")
        refused("more than 64 bits", "long", b"\xff" * 9 + b"\2")
        refused("is no number of 32 bits", "int", b"\x80\x80\x80\x80\x20")
        refused("a block of 1 bytes has 9 rows", "long", b"\2", count=9)
        refused("bytes stand behind the rows", "long", b"\2\2")
        refused("its codec is 'snappy'", "long", b"\2", "snappy")
        refused("a block is cut short", "long", b"\x4b", "deflate")


def avro_bytes(schema: object, payload: bytes, codec: str, count: int) -> bytes:
    """A file of Avro with one block of so many rows."""

    def number(value: int) -> bytes:
        value, found = value << 1, bytearray()
        while value > 127:
            found.append(value & 127 | 128)
            value >>= 7
        return bytes([*found, value])

    def text(value: bytes) -> bytes:
        return number(len(value)) + value

    meta = number(2) + text(b"avro.schema") + text(json.dumps(schema).encode()) + text(b"avro.codec") + text(codec.encode()) + number(0)
    return b"Obj\1" + meta + bytes(16) + number(count) + text(payload) + bytes(16)


@unittest.skipIf(iceberg is None, "Avro isn't installed: apt-get install python3-avro")
class RandomTables(Tables):
    def test_no_wanted_row_is_skipped(self) -> None:
        skipped = []

        @examples(100)
        def one(rng: random.Random) -> None:
            names = rng.sample(sorted(KINDS), rng.choice([0, 0, 1, 2]))
            partitions = {name: rng.choice(["identity", "identity", "truncate[2]", "void"]) for name in names}
            writer = self.writer(KINDS, partitions=partitions, version=rng.choice([2, 3]), cut=rng.randrange(1, 4))
            writer.java_uuids, writer.codec = rng.random() < 0.5, rng.choice(["null", "deflate"])
            manifests = []
            for place in range(rng.randrange(1, 5)):
                manifests.append(writer.manifest(writer.data_file(f"é {place}", self.rows(rng, partitions))))
                if rng.random() < 0.3:
                    manifests.append(writer.manifest(writer.delete_file("gone", rng.choice([1, 2])), content=1))
                    writer.rows = {path: [row for row in kept if rng.random() < 0.8] for path, kept in writer.rows.items()}
            writer.snapshot(*manifests)
            table = iceberg.read(writer.save())
            self.assertEqual(untrue(table, writer.rows), [])
            for _ in range(10 * HAS_LIBRARY):
                filters = some_filters(rng, VALUES, [row for rows in writer.rows.values() for row in rows])
                self.assertEqual(lost(table, writer.rows, filters), [], filters)
                skipped.append(len(table.prune(filters).skipped))

        one()
        self.assertTrue(sum(skipped) > 100 or not HAS_LIBRARY, sum(skipped))

    def rows(self, rng: random.Random, partitions: dict[str, str]) -> list[dict]:
        constant = {name: a_value(rng, VALUES[name]) if rng.random() < 0.8 else None for name, kind in partitions.items() if kind == "identity"}
        nulls = {name: rng.choice([0, 0.3, 1]) for name in KINDS}
        made = [{name: a_value(rng, kind) if rng.random() >= nulls[name] else None for name, kind in VALUES.items()} for _ in range(rng.randrange(5))]
        return [{**row, **constant} for row in made]


if __name__ == "__main__":
    unittest.main()
