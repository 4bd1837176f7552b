# SPDX-License-Identifier: Apache-2.0
"""Tables of Delta by a writer of its own: what their footers say beside the rows, and that no file is skipped that has a wanted row."""
import datetime
import json
import math
import pathlib
import random
import shutil
import unittest
import unittest.mock
from decimal import Decimal

from foalmorrow import Precision, Stat, col, delta
from foalmorrow.delta import DeltaError
from foalmorrow.tables import Table
from tests.systems.delta_writer import DeltaWriter
from tests.systems.parquet_writer import CHECKPOINT, ParquetWriter, as_row, snappy
from tests.systems.table_rows import HAS_LIBRARY, UTC, TableTests, a_value, examples, lost, single, some_filters, untrue

KINDS = {
    "n": "long", "b": "byte", "t": "string", "d": "date", "at": "timestamp", "local": "timestamp_ntz", "p": "decimal(9,2)", "q": "decimal(18,4)",
    "x": "double", "y": "float", "raw": "binary", "ok": "boolean",
}


class Tables(TableTests):
    def writer(self, kinds: dict[str, str], **options: object) -> DeltaWriter:
        """A table without a version yet, in a folder of its own."""
        shutil.rmtree(pathlib.Path(self.folder) / "_delta_log", ignore_errors=True)
        return DeltaWriter(self.folder, kinds, **options)

    def table(self, writer: DeltaWriter, *actions: dict, **options: object) -> Table:
        """The table of one commit, of which each footer is true."""
        writer.commit(*writer.begin(), *actions)
        table = delta.read(self.folder, **options)
        self.assertEqual(untrue(table, writer.rows), [])
        return table


class Snapshots(Tables):
    def paths(self, version: int | None = None) -> list[str]:
        return [file.path for file in delta.read(self.folder, version).files]

    def test_replay(self) -> None:
        writer = self.writer({"n": "long"})
        rows = [{"n": 1}]
        writer.commit(*writer.begin(), writer.add("a b", rows), writer.add("ö%", rows))
        writer.commit(writer.remove("a b"), writer.add("c", rows))
        writer.commit(writer.add("a b", [{"n": 2}]), writer.remove("gone"))
        self.assertEqual([self.paths(0), self.paths(1), self.paths()], [["a b", "ö%"], ["ö%", "c"], ["ö%", "c", "a b"]])
        self.assertEqual(delta.read(self.folder).footers.at(2)["n", Stat.MIN], (Precision.EXACT, 2))
        if HAS_LIBRARY:
            table = delta.read(self.folder)
            for wanted in (col("n") > 1, [("n", ">", 1)], "n > 1"):
                self.assertEqual([file.path for file in table.files_for(wanted)], ["a b"])
        with self.assertRaisesRegex(DeltaError, "no version 3: its log has 0 to 2"):
            delta.read(self.folder, 3)

    def test_file_with_and_without_deletion_vector(self) -> None:
        writer = self.writer({"n": "long"})
        writer.commit(*writer.begin(), writer.add("a", [{"n": 1}, {"n": 2}]))
        added = writer.add_deleted("a", [{"n": 1}, {"n": 2}], {0})
        writer.commit(writer.remove("a"), added)
        self.assertEqual([(file.path, file.rows, file.has_deletes) for file in delta.read(self.folder).files], [("a", 1, True)])
        writer.commit(writer.remove("a", added["add"]["deletionVector"]))
        self.assertEqual(self.paths(), [])

    def test_commit_that_comes_meanwhile(self) -> None:
        writer = self.writer({"n": "long"})
        writer.commit(*writer.begin(), writer.add("a", [{"n": 1}]))
        (writer.log / f"{1:020}.json.tmp").write_text("{")
        (writer.log / f"{0:020}.crc").write_text("{")
        inner = delta._actions

        def slow(log: pathlib.Path, name: str) -> object:
            if writer.version == 0:
                writer.commit(writer.remove("a"))
            return inner(log, name)

        delta._actions = slow
        self.addCleanup(setattr, delta, "_actions", inner)
        table = delta.read(self.folder)
        self.assertEqual((table.version, [file.path for file in table.files]), (0, ["a"]))
        self.assertEqual((delta.read(self.folder).version, self.paths()), (1, []))

    def test_checkpoints_in_json(self) -> None:
        writer, begin = self.three_commits()
        plain = [{"checkpointMetadata": {"version": 1}}, *begin[1:], writer.add("a", [{"n": 1}]), writer.add("b", [{"n": 2}])]
        (writer.log / f"{0:020}.json").unlink()
        with self.assertRaisesRegex(DeltaError, "version 0 isn't in the log, and no whole checkpoint from it to version 2 is"):
            delta.read(self.folder)
        checkpoint = writer.log / f"{1:020}.checkpoint.0a0b0c0d-0000-0000-0000-000000000000.json"
        checkpoint.write_text("\n".join(json.dumps(it) for it in plain))
        self.assertEqual(self.paths(), ["a", "b", "c"])
        sidecar = {"sidecar": {"path": "s.parquet", "sizeInBytes": 1, "modificationTime": 0}}
        checkpoint.write_text("\n".join(json.dumps(it) for it in [*plain[:-1], sidecar]))
        with self.assertRaisesRegex(DeltaError, "s.parquet isn't there"):
            delta.read(self.folder)
        (writer.log / "_sidecars").mkdir()
        rows = [[as_row(plain[-1])], [as_row({"remove": {"path": "z", "dataChange": True}})]]
        (writer.log / "_sidecars" / "s.parquet").write_bytes(ParquetWriter(CHECKPOINT, random.Random(1)).file(rows))
        self.assertEqual(self.paths(), ["a", "b", "c"])
        checkpoint.write_text('{"sidecar": {"path": "../../s.parquet"}}')
        with self.assertRaisesRegex(DeltaError, "'../../s.parquet' is no file of a checkpoint"):
            delta.read(self.folder)

    def three_commits(self) -> tuple[DeltaWriter, list[dict]]:
        writer = self.writer({"n": "long"})
        begin = writer.begin()
        for place, name in enumerate("abc"):
            writer.commit(*(begin if not place else []), writer.add(name, [{"n": place + 1}]))
        return writer, begin

    def test_checkpoints_in_parquet(self) -> None:
        for codec in ["none", "gzip"] + ["snappy"] * (snappy is not None):
            self.compare_checkpoints(codec)

    def compare_checkpoints(self, codec: str) -> None:
        @examples(20)
        def one(rng: random.Random) -> None:
            writer = self.writer(KINDS, partitions=("t", "d"))
            writer.commit(*writer.begin())
            for place in range(rng.randrange(1, 5)):
                rows = [{name: a_value(rng, kind) if rng.random() < 0.8 else None for name, kind in KINDS.items()} for _ in range(2)]
                rows = [{**row, "t": rows[0]["t"] or None, "d": rows[0]["d"]} for row in rows]
                deleted = {0} if rng.random() < 0.3 else set()
                writer.commit(writer.add_deleted(f"é {place}", rows, deleted) if deleted else writer.add(f"é {place}", rows))
            self.assert_same_from_checkpoint(writer, rng, codec)

        one()

    def assert_same_from_checkpoint(self, writer: DeltaWriter, rng: random.Random, codec: str) -> None:
        """A checkpoint, in one or two parts, says what the commits before it say."""
        wanted = delta.read(self.folder)
        self.assertEqual(untrue(wanted, writer.rows), [])
        actions = [json.loads(line) for path in sorted(writer.log.glob("*.json")) for line in path.read_text().splitlines()]
        rng.shuffle(actions)
        rows = [as_row(it) for it in actions if "commitInfo" not in it]
        parts = [rows] if rng.random() < 0.5 else [rows[:2], rows[2:]]
        for place, part in enumerate(parts, 1):
            name = "" if len(parts) == 1 else f".{place:010}.{len(parts):010}"
            cut = rng.randrange(len(part) + 1)
            data = ParquetWriter(CHECKPOINT, rng, codec).file([part[:cut], part[cut:]])
            (writer.log / f"{writer.version:020}.checkpoint{name}.parquet").write_bytes(data)
        (writer.log / f"{0:020}.json").unlink()
        table = delta.read(self.folder)
        self.assertEqual(untrue(table, writer.rows), [])
        known = {file: wanted.footers.at(zone) for zone, file in enumerate(wanted.files)}
        self.assertEqual({file: table.footers.at(zone) for zone, file in enumerate(table.files)}, known)

    def test_checkpoint_of_which_a_part_is_missing(self) -> None:
        writer, begin = self.three_commits()
        (writer.log / f"{0:020}.json").unlink()
        (writer.log / f"{1:020}.checkpoint.{1:010}.{2:010}.parquet").write_bytes(b"")
        with self.assertRaisesRegex(DeltaError, "no whole checkpoint"):
            delta.read(self.folder)

    def test_hostile_checkpoints(self) -> None:
        writer, begin = self.three_commits()
        (writer.log / f"{0:020}.json").unlink()
        file = writer.log / f"{1:020}.checkpoint.parquet"
        rows = [as_row(it) for it in [*begin[1:], writer.add("a", [{"n": 1}]), writer.add("b", [{"n": 2}])]]
        whole = ParquetWriter(CHECKPOINT, random.Random(1)).file([rows])
        for data, words in (
            (b"PAR1", "doesn't begin and end"),
            (whole[:-1], "doesn't begin and end"),
            (whole[:4] + whole[-8:], "its footer is longer than the file"),
            (whole[:40] + whole[41:], "footer can't be read|can't be read"),
            (b"PAR1" + b"\x1c" * 100 + b"\x64\0\0\0PAR1", "structs nest more than 32 levels deep"),
        ):
            file.write_bytes(data)
            with self.subTest(words), self.assertRaisesRegex(DeltaError, words):
                delta.read(self.folder)
        rng = random.Random(2)
        for _ in range(200):
            data = bytearray(whole)
            data[rng.randrange(len(data))] = rng.randrange(256)
            file.write_bytes(bytes(data))
            try:
                delta.read(self.folder)
            except DeltaError:
                pass

    def test_columns_by_their_names_in_the_files(self) -> None:
        writer = self.writer({"a": "long", "b": "long"})
        names = {"a": {"delta.columnMapping.physicalName": "b"}, "b": {"delta.columnMapping.physicalName": "a"}}
        schema = writer.schema(**names)
        file = writer.add("f", [{"a": 1, "b": 9}])
        writer.commit(*writer.begin({"delta.columnMapping.mode": "name"}, schema), file)
        self.assertEqual(untrue(delta.read(self.folder), {"f": [{"a": 9, "b": 1}]}), [])

    def test_fields_of_structs(self) -> None:
        inner = {"type": "struct", "fields": [{"name": "c", "type": "long", "nullable": False, "metadata": {}}]}
        fields = [{"name": "s", "type": inner, "nullable": True, "metadata": {}}, {"name": "l", "type": {"type": "array"}, "nullable": True}]
        writer = self.writer({})
        stats = {"numRecords": 3, "minValues": {"s": {"c": 2}}, "maxValues": {"s": {"c": 5}}, "nullCount": {"s": {"c": 1}, "l": 3}}
        schema = json.dumps({"type": "struct", "fields": fields})
        writer.commit(*writer.begin(schema=schema), writer.add("f", [], stats=json.dumps(stats)))
        table = delta.read(self.folder)
        self.assertEqual([(it.name, it.word) for it in table.columns], [("s.c", "i64?"), ("l", "unmapped(array)?")])
        self.assertEqual(untrue(table, {"f": [{"s.c": 2}, {"s.c": 5}, {}]}), [])
        if HAS_LIBRARY:
            # A condition on a column without a mapping may be anything, and the rest still prunes.
            self.assertEqual([len(table.files_for([("l", "==", b""), ("s.c", ">", low)])) for low in (4, 5)], [1, 0])
        self.assertEqual(table.footers.at(0)["l", Stat.NULL_COUNT], (Precision.EXACT, 3))


class InexactStatistics(Tables):
    """Each statistic that is less than exact, and a row that would be lost if it were taken for the value."""

    def test_text_is_cut(self) -> None:
        writer = self.writer({"t": "string"})
        table = self.table(writer, writer.add("f", [{"t": "abc"}, {"t": "abcd"}]))
        self.assert_kept(table, [("t", "==", "abcd")], "t", {Stat.MAX: "abc"})

    def test_text_of_greatest_characters_has_no_bound(self) -> None:
        writer = self.writer({"t": "string"}, cut=1)
        table = self.table(writer, writer.add("f", [{"t": "\U0010ffff\U0010ffff"}]))
        self.assert_kept(table, [("t", ">", "\U0010ffff")], "t", {Stat.MAX: "\U0010ffff"})

    def test_timestamp_is_cut_to_milliseconds(self) -> None:
        for kind, zone in (("timestamp", UTC), ("timestamp_ntz", None)):
            at = datetime.datetime(2024, 5, 1, 12, 0, 0, 123_456, tzinfo=zone)
            writer = self.writer({"at": kind}, offset=-480)
            table = self.table(writer, writer.add("f", [{"at": at}]))
            self.assert_kept(table, [("at", "==", at)], "at", {Stat.MAX: at.replace(microsecond=123_000)})

    def test_old_offset_is_cut_to_minutes(self) -> None:
        # The clocks of Los Angeles were 7:52:58 behind UTC, and a text says -07:52.
        at = datetime.datetime(1880, 1, 1, 12, 0, tzinfo=UTC)
        writer = self.writer({"at": "timestamp"})
        shown = "1880-01-01T04:07:02.000-07:52"
        stats = {"numRecords": 1, "minValues": {"at": shown}, "maxValues": {"at": shown}, "nullCount": {"at": 0}}
        table = self.table(writer, writer.add("f", [{"at": at}], stats=json.dumps(stats)))
        self.assert_kept(table, [("at", "==", at)], "at", {Stat.MAX: at - datetime.timedelta(seconds=58)})

    def test_old_days_of_another_calendar(self) -> None:
        # The day that the Gregorian calendar calls 1500-01-10 was 1500-01-01 in the Julian one.
        day = datetime.date(1500, 1, 10)
        writer = self.writer({"d": "date"})
        stats = {"numRecords": 1, "minValues": {"d": "1500-01-01"}, "maxValues": {"d": "1500-01-01"}, "nullCount": {"d": 0}}
        table = self.table(writer, writer.add("f", [{"d": day}], stats=json.dumps(stats)))
        self.assert_kept(table, [("d", "==", day)], "d", {Stat.MAX: datetime.date(1500, 1, 1)})

    def test_partition_has_a_clock_without_a_zone(self) -> None:
        at = datetime.datetime(2024, 5, 1, 20, 0, tzinfo=UTC)
        writer = self.writer({"at": "timestamp"}, partitions=("at",))
        table = self.table(writer, writer.add("f", [{"at": at}], partitionValues={"at": "2024-05-01 12:00:00"}))
        self.assert_kept(table, [("at", "==", at)], "at", {Stat.MAX: datetime.datetime(2024, 5, 1, 12, tzinfo=UTC)})

    def test_decimal_went_through_a_double(self) -> None:
        value = Decimal("75624738108576.2037")
        writer = self.writer({"q": "decimal(18,4)"})
        table = self.table(writer, writer.add("f", [{"q": value}]))
        told = json.loads(writer.stats([{"q": value}]), parse_float=Decimal)["maxValues"]["q"]
        self.assertLess(told, value)
        self.assert_kept(table, [("q", "==", value)], "q", {Stat.MAX: told})

    def test_floating_numbers_without_nan(self) -> None:
        writer = self.writer({"x": "double"})
        table = self.table(writer, writer.add("f", [{"x": 1.0}, {"x": math.nan}]))
        self.assert_kept(table, [("x", ">", 2.0)], "x", {Stat.MAX: 1.0})

    def test_floating_numbers_that_are_wider_now(self) -> None:
        value = single(0.7)
        writer = self.writer({"x": "double"})
        schema = writer.schema(x={"delta.typeChanges": [{"fromType": "float", "toType": "double"}]})
        stats = {"numRecords": 1, "minValues": {"x": 0.7}, "maxValues": {"x": 0.7}, "nullCount": {"x": 0}}
        writer.commit(*writer.begin(schema=schema), writer.add("f", [{"x": value}], stats=json.dumps(stats)))
        table = delta.read(self.folder, nan_free=["x"])
        self.assertEqual(untrue(table, writer.rows), [])
        self.assert_kept(table, [("x", "==", value)], "x", {Stat.MIN: 0.7})

    def test_null_count_of_rows_that_were_deleted(self) -> None:
        writer = self.writer({"n": "long"})
        table = self.table(writer, writer.add_deleted("f", [{"n": None}, {"n": None}, {"n": 3}], {0}))
        self.assert_kept(table, [("n", "is not", None)], "n", {Stat.NULL_COUNT: 2})
        self.assertNotIn(("n", Stat.NULL_COUNT), table.footers.at(0))

    def test_null_count_without_rows(self) -> None:
        writer = self.writer({"n": "long"})
        stats = {"minValues": {"n": 3}, "maxValues": {"n": 3}, "nullCount": {"n": 1}}
        table = self.table(writer, writer.add("f", [{"n": None}, {"n": 3}], stats=json.dumps(stats)))
        self.assert_kept(table, [("n", "is not", None)], "n", {Stat.NULL_COUNT: 1})


class HostileLogs(Tables):
    def refused(self, words: str, *lines: str, features: list[str] | None = None, begin: bool = True) -> None:
        writer = self.writer({"n": "long", "t": "string", "at": "timestamp", "x": "float", "p": "decimal(4,2)"})
        writer.commit(*(writer.begin(features=features) if begin else []))
        with (writer.log / f"{0:020}.json").open("ab") as file:
            file.write(b"\n".join(it if isinstance(it, bytes) else it.encode() for it in lines))
        with self.assertRaisesRegex(DeltaError, words):
            delta.read(self.folder)

    def test_lines(self) -> None:
        self.refused("line 4: this is no JSON", '{"add": ')
        self.refused("line 4: byte 10 isn't UTF-8", b'{"add": {"\xff": 1}}')
        self.refused("nest too deep", '{"add": ' + '{"a": ' * 100_000 + "1" + "}" * 100_001)
        self.refused("the field 'path' stands twice", '{"add": {"path": "a", "path": "b"}}')
        self.refused("is no action", '{"add": {}, "remove": {}}')
        self.refused("is no action", "[]")
        self.refused("add is 3; expected an object", '{"add": 3}')
        self.refused("NaN is no number", '{"add": {"size": NaN}}')
        self.refused("a number has 5000 digits", '{"add": {"size": ' + "9" * 5000 + "}}")
        self.refused("exponent of 1e99999999999999999999", '{"add": {"size": 1e99999999999999999999}}')

    def added(self, **changed: object) -> str:
        fields = {"path": "a", "partitionValues": {}, "size": 1, "modificationTime": 0, "dataChange": True, **changed}
        return json.dumps({"add": fields})

    def test_files(self) -> None:
        self.refused("line 5: .'a', None. stands twice", self.added(), self.added())
        self.refused("line 5: .'a', None. stands twice", self.added(), '{"remove": {"path": "%61"}}')
        self.refused("path isn't there", '{"add": {"path": null}}')
        self.refused("the path 'a%zz' is no URI", self.added(path="a%zz"))
        self.refused("the path 'a%ff' isn't UTF-8", self.added(path="a%ff"))
        self.refused("size is -1", self.added(size=-1))
        self.refused("size is True", self.added(size=True))
        self.refused("partitionValues is .'a'.", self.added(partitionValues=["a"]))
        self.refused("cardinality isn't there", self.added(deletionVector={"storageType": "u", "pathOrInlineDv": "a"}))

    def test_actions_that_are_not_known_are_passed_over(self) -> None:
        writer = self.writer({"n": "long"})
        writer.commit(*writer.begin(), {"erase": {}}, writer.add("a", [{"n": 1}]), {"erased": 3})
        table = delta.read(self.folder)
        self.assertEqual([file.path for file in table.files], ["a"])

    def unknown(self, wanted: set[str], rows: int | None = 3, **changed: object) -> None:
        """Of the columns but the wanted ones nothing is known in a file, and of another file all is."""
        kinds = {"n": "long", "m": "long", "t": "string", "at": "timestamp", "x": "float", "p": "decimal(4,2)"}
        writer = self.writer(kinds)
        good = dict.fromkeys(kinds) | {"m": 9}
        writer.commit(*writer.begin(), json.loads(self.added(**changed)), writer.add("good", [good]))
        table = delta.read(self.folder)
        self.assertEqual((table.files[0].rows, {name for name, _ in table.footers.at(0)}), (rows, wanted))
        self.assertEqual(table.footers.at(1)["n", Stat.NULL_COUNT], (Precision.EXACT, 1))
        if HAS_LIBRARY:
            for name in kinds.keys() - wanted - {"m"}:
                self.assertEqual([it.path for it in table.files_for([(name, "is not", None)])], ["a"], name)
            self.assertEqual([it.path for it in table.files_for([("m", "==", 9)])], ["good"] if "m" in wanted else ["a", "good"])

    def test_statistics_that_cannot_be_are_unknown(self) -> None:
        for name, stats in (
            ("n", {"maxValues": {"n": 2**63}}), ("n", {"minValues": {"n": "x"}}), ("n", {"minValues": {"n": True}}), ("n", {"minValues": {"n": 1.0}}),
            ("n", {"minValues": {"n": 2}, "maxValues": {"n": 1}}), ("n", {"minValues": {"n": 2}, "nullCount": {"n": 4}}), ("n", {"nullCount": {"n": {"a": 1}}}),
            ("t", {"minValues": {"t": 3}}), ("t", {"minValues": {"t": "\ud800"}}), ("at", {"minValues": {"at": "yesterday"}}), ("at", {"maxValues": {"at": "+999999999-01-01T00:00:00Z"}}),
            ("x", {"minValues": {"x": 1e39}}), ("x", {"minValues": {"x": "nan"}}), ("p", {"minValues": {"p": 100}}),
        ):
            told: dict = {"numRecords": 3, "minValues": {"m": 5}, "maxValues": {"m": 6}, "nullCount": dict.fromkeys(("n", "m", "t", "at", "x", "p"), 1)}
            for word, values in stats.items():
                told[word] |= values
            with self.subTest(name, stats=stats):
                self.unknown({"n", "m", "t", "at", "x", "p"} - {name}, stats=json.dumps(told))

    def test_file_whose_statistics_cannot_be_read_is_unknown(self) -> None:
        nulls = {"nullCount": {"n": 0, "m": 0}}
        vector = {"storageType": "u", "pathOrInlineDv": "a", "sizeInBytes": 1, "cardinality": 2}
        stats = [{"numRecords": 2**63}, {"numRecords": 1.5}, {"minValues": 3}, {"tightBounds": 1}]
        for text in ("{", "[1]", '{"numRecords": 3, "numRecords": 3}', *(json.dumps({"numRecords": 3, **nulls, **it}) for it in stats)):
            with self.subTest(text):
                self.unknown(set(), None, stats=text)
        self.unknown(set(), None, stats=json.dumps({"numRecords": 1, **nulls}), deletionVector=vector)

    def test_tables(self) -> None:
        self.refused("the log has no protocol", "", begin=False)
        self.refused("needs a reader of 'catalogManaged'", features=["catalogManaged"])
        self.refused("'protocol' stands twice", '{"protocol": {"minReaderVersion": 1}}')
        metadata = '{"metaData": {"schemaString": "{}"}}'
        self.refused("needs a reader of version 9", '{"protocol": {"minReaderVersion": 9}}', metadata, begin=False)
        with self.assertRaisesRegex(DeltaError, "is no table of Delta"):
            delta.read(self.folder + "/none")

    def test_schemas(self) -> None:
        def refused(words: str, fields: object, configuration: dict | None = None, partitions: tuple[str, ...] = ()) -> None:
            writer = self.writer({}, partitions=partitions)
            writer.commit(*writer.begin(configuration, json.dumps({"type": "struct", "fields": fields})))
            with self.assertRaisesRegex(DeltaError, words):
                delta.read(self.folder)

        def one(name: str, kind: object = "long", **more: object) -> dict:
            return {"name": name, "type": kind, "nullable": True, "metadata": more}

        refused("more than 8192 columns", [one(f"c{place}") for place in range(10_000)])
        deep: object = "long"
        for _ in range(80):
            deep = {"type": "struct", "fields": [one("s", deep)]}
        refused("nests more than 64 levels deep", [one("s", deep)])
        refused("column a: two columns have this name", [one("a"), one("a")])
        refused("column a.b: two columns have this name", [one("a.b"), one("a", {"type": "struct", "fields": [one("b")]})])
        refused("name is 3", [{"name": 3, "type": "long", "nullable": True}])
        refused("fields is 3", 3)
        refused("no column 'z', by which", [one("a")], partitions=("z",))
        refused("column a: delta.columnMapping.physicalName isn't there", [one("a")], {"delta.columnMapping.mode": "name"})
        twice = {"delta.columnMapping.physicalName": "p"}
        refused("the columns a and b have one name in the files", [one("a", **twice), one("b", **twice)], {"delta.columnMapping.mode": "id"})

    def test_huge(self) -> None:
        with unittest.mock.patch.object(delta, "MOST_BYTES", 100):
            self.refused("has more than 100 bytes", "{}")

    def test_gap(self) -> None:
        writer = self.writer({"n": "long"})
        writer.commit(*writer.begin())
        writer.commit()
        writer.commit()
        (writer.log / f"{1:020}.json").unlink()
        with self.assertRaisesRegex(DeltaError, "version 1 isn't in the log, and no whole checkpoint from it to version 2 is"):
            delta.read(self.folder)
        self.assertEqual(delta.read(self.folder, 0).version, 0)


class RandomTables(Tables):
    def test_no_wanted_row_is_skipped(self) -> None:
        skipped = []

        @examples(150)
        def one(rng: random.Random) -> None:
            partitions = tuple(rng.sample(sorted(KINDS), rng.choice([0, 0, 1, 2])))
            offset, nan_is_told = rng.choice([0, 0, 330, -480]), rng.random() < 0.5
            writer = self.writer(KINDS, partitions=partitions, cut=rng.randrange(1, 4), offset=offset, nan_is_told=nan_is_told)
            writer.commit(*writer.begin())
            for place in range(rng.randrange(1, 5)):
                rows = self.rows(rng, partitions)
                deleted = {row for row in range(len(rows)) if rng.random() < 0.3} if rng.random() < 0.3 else set()
                name = f"p={place}/é {place}"
                writer.commit(writer.add_deleted(name, rows, deleted) if deleted else writer.add(name, rows))
            table = delta.read(self.folder)
            self.assertEqual(untrue(table, writer.rows), [])
            for _ in range(10 * HAS_LIBRARY):
                filters = some_filters(rng, KINDS, [row for rows in writer.rows.values() for row in rows])
                self.assertEqual(lost(table, writer.rows, filters), [], filters)
                skipped.append(len(table.prune(filters).skipped))

        one()
        self.assertTrue(sum(skipped) > 200 or not HAS_LIBRARY, sum(skipped))

    def rows(self, rng: random.Random, partitions: tuple[str, ...]) -> list[dict]:
        constant = {name: a_value(rng, KINDS[name]) if rng.random() < 0.8 else None for name in partitions}
        # An empty text is a null of a partition.
        constant = {name: None if value in ("", b"") else value for name, value in constant.items()}
        nulls = {name: rng.choice([0, 0.3, 1]) for name in KINDS}
        made = [{name: a_value(rng, kind) if rng.random() >= nulls[name] else None for name, kind in KINDS.items()} for _ in range(rng.randrange(5))]
        return [{**row, **constant} for row in made]


if __name__ == "__main__":
    unittest.main()
