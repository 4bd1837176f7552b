# SPDX-License-Identifier: Apache-2.0
"""A cluster of two workers: a table measured, merged, pruned and read where its partitions lie, also where a worker dies."""
from __future__ import annotations

import csv
import datetime
import decimal
import json
import os
import pathlib
import random
import signal
import tempfile
import threading
import time
import unittest
import unittest.mock

from foalmorrow import Column, DType, Date, Decimal, FixedBinary, Float64, FooterError, Footers, Predicate, PredicateError, Stat, Timestamp, col

try:
    import dask
    from distributed import Client, LocalCluster

    from foalmorrow import cluster, dataset, stamps
    from tests.systems.test_dataset import read_rows
except ImportError:
    dask = None  # type: ignore[assignment]

SEED = int(os.environ.get("FOALMORROW_SEED", "1"))
COLUMNS = (Column("k", DType.I64), Column("s", DType.UTF8), Column("n", DType.I32, True))
PARTS, ROWS = 12, 400


def write(folder: str, part: int, start: int) -> None:
    with open(f"{folder}/part-{part:03}.csv", "w", newline="", encoding="utf-8") as file:
        writer = csv.writer(file)
        writer.writerow(["k", "s", "n"])
        for i in range(start, start + ROWS):
            writer.writerow([i, f"t{i // 100}", "" if i % 5 == 0 else i % 7])


def slow(file: str, columns: tuple[Column, ...]) -> object:
    time.sleep(0.2)
    return cluster.read_csv(file, columns)


def slowly(work: object) -> object:
    """The same work, after a while."""

    def late(*given: object) -> object:
        time.sleep(0.2)
        return work(*given)  # type: ignore[operator]

    return late


def a_predicate(rng: random.Random) -> Predicate:
    number = rng.randrange(-100, PARTS * ROWS + 100)
    leaves = [col("k") > number, col("k").between(number, number + 500), col("s") == f"t{number // 100}"]
    leaves += [col("s").like("t1%"), col("n").is_null(), col("n") >= number % 9]
    found = rng.choice(leaves[:3])
    for _ in range(rng.randrange(3)):
        other = rng.choice(leaves)
        found = rng.choice([found & other, found | other, ~found, found & ~other])
    return found


@unittest.skipIf(dask is None, "Dask isn't installed: apt-get install python3-distributed python3-dask python3-pandas")
class Clusters(unittest.TestCase):
    @classmethod
    def setUpClass(cls) -> None:
        cls.folder = tempfile.TemporaryDirectory(prefix="foalmorrow-dask-")
        here = str(pathlib.Path(__file__).parents[2])
        os.environ["PYTHONPATH"] = here
        dask.config.set({"temporary-directory": cls.folder.name, "distributed.worker.daemon": True})
        cls.cluster = LocalCluster(n_workers=2, threads_per_worker=1, host="127.0.0.1", dashboard_address=None, local_directory=cls.folder.name)
        cls.client = Client(cls.cluster)

    @classmethod
    def tearDownClass(cls) -> None:
        cls.client.close()
        cls.cluster.close()
        cls.folder.cleanup()

    def setUp(self) -> None:
        # Partitions that were changed within the last seconds are measured anew.
        self.addCleanup(setattr, stamps, "SETTLED", stamps.SETTLED)
        stamps.SETTLED = 0
        self.table_folder = tempfile.TemporaryDirectory()
        for part in range(PARTS):
            write(self.table_folder.name, part, part * ROWS)
        self.table = cluster.csv_table(self.table_folder.name, COLUMNS)

    def tearDown(self) -> None:
        self.table_folder.cleanup()

    def kill_a_worker(self) -> None:
        os.kill(next(iter(self.client.run(os.getpid).values())), signal.SIGKILL)

    def direct(self) -> Footers:
        return Footers.measure(COLUMNS, [cluster.read_csv(file, COLUMNS) for file in self.table.files])

    def test_measured_where_they_lie(self) -> None:
        seen: list[int] = []
        kept, fresh = cluster.measure(self.client, self.table, watch=lambda tasks: seen.append(len(tasks)))
        self.assertEqual((fresh, seen), (list(self.table.files), [PARTS]))
        self.assertEqual(kept.footers, self.direct())

    def test_changed_partition(self) -> None:
        kept, _ = cluster.measure(self.client, self.table)
        path = f"{self.table_folder.name}/.footers"
        kept.save(path)
        write(self.table_folder.name, 3, 90_000)
        again, fresh = cluster.measure(self.client, self.table, cluster.Kept.load(path))
        self.assertEqual(fresh, [self.table.files[3]])
        self.assertEqual(again.footers.at(3)["k", Stat.MIN][1], 90_000)

    def columns_of(self, arrays: dict[str, list[int]]) -> cluster.Table:
        """A table of one partition, a folder of arrays."""
        import numpy

        folder = pathlib.Path(self.table_folder.name, "arrays", "0")
        folder.mkdir(parents=True)
        for name, values in arrays.items():
            numpy.save(folder / f"{name}.npy", numpy.array(values, "i8"))
        return cluster.npy_table(folder.parent, [Column(name, DType.I64) for name in arrays])

    def test_replaced_array_with_its_times_kept(self) -> None:
        import numpy

        table = self.columns_of({"a": [1, 2, 3], "b": [7, 8, 9]})
        kept, _ = cluster.measure(self.client, table)
        file = pathlib.Path(table.files[0], "a.npy")
        told = file.stat()
        time.sleep(0.02)
        numpy.save(file, numpy.array([50, 60, 70]))
        os.utime(file, ns=(told.st_atime_ns, told.st_mtime_ns))
        found = cluster.select(self.client, table, kept, col("a") > 40)
        self.assertEqual((found.files, found.changed), ([table.files[0]], [table.files[0]]))
        again, fresh = cluster.measure(self.client, table, kept)
        self.assertEqual((fresh, again.footers.at(0)["a", Stat.MAX][1]), ([table.files[0]], 70))

    def test_swapped_arrays(self) -> None:
        table = self.columns_of({"a": [1, 2, 3], "b": [7, 8, 9]})
        kept, _ = cluster.measure(self.client, table)
        time.sleep(0.02)
        for source, goal in (("a", "c"), ("b", "a"), ("c", "b")):
            os.rename(f"{table.files[0]}/{source}.npy", f"{table.files[0]}/{goal}.npy")
        found = cluster.select(self.client, table, kept, col("a") > 6)
        self.assertEqual(found.files, [table.files[0]])
        self.assertEqual(sorted(found.frame().compute()["a"]), [7, 8, 9])
        again, fresh = cluster.measure(self.client, table, kept)
        self.assertEqual((fresh, again.footers.at(0)["a", Stat.MIN][1]), ([table.files[0]], 7))

    def test_partition_that_was_just_changed(self) -> None:
        stamps.SETTLED = 2 * 10**9
        kept, _ = cluster.measure(self.client, self.table)
        found = cluster.select(self.client, self.table, kept, col("k") < 0)
        self.assertEqual((found.files, found.changed), ([*self.table.files], [*self.table.files]))
        self.assertEqual(cluster.measure(self.client, self.table, kept)[1], [*self.table.files])

    def test_partition_that_changes_while_it_is_measured(self) -> None:
        def late(_: object) -> None:
            write(self.table_folder.name, 3, 90_000)

        with self.assertRaisesRegex(cluster.TableError, "part-003.csv was changed while it was measured"):
            cluster.measure(self.client, self.table, watch=late)

    def test_a_worker_dies_in_measure(self) -> None:
        table = cluster.Table(COLUMNS, self.table.files, slow)
        threading.Timer(0.5, self.kill_a_worker).start()
        kept, _ = cluster.measure(self.client, table)
        self.assertEqual(kept.footers, self.direct())

    def test_merged_whatever_the_shape(self) -> None:
        direct = self.direct()
        wanted = direct.only(cluster.SHAPELESS)
        one_by_one = wanted.slice(0, 1)
        for zone in range(1, len(wanted)):
            one_by_one = one_by_one.merge(wanted.slice(zone, zone + 1))
        for shard, fan in [(100, 2), (1, 2), (1, 3), (2, 2), (5, 8), (7, 2)]:
            self.assertEqual(cluster.merge(self.client, direct, shard=shard, fan=fan), one_by_one, (shard, fan))
        self.assertEqual(one_by_one.at(0)["n", Stat.NULL_COUNT][1], PARTS * ROWS // 5)
        every = cluster.merge(self.client, direct, list(Stat)).at(0)
        self.assertEqual(every["k", Stat.SUM][1], sum(range(PARTS * ROWS)))
        self.assertEqual(len(cluster.merge(self.client, Footers(COLUMNS, []))), 0)

    def test_a_worker_dies_in_merge(self) -> None:
        direct, merged = self.direct().only(cluster.SHAPELESS), cluster._merged
        with unittest.mock.patch.object(cluster, "_merged", slowly(merged)):
            threading.Timer(0.5, self.kill_a_worker).start()
            self.assertEqual(cluster.merge(self.client, direct, shard=1, fan=2), direct.merged())

    def test_pruned_in_shards(self) -> None:
        direct, rng = self.direct(), random.Random(SEED)
        for _ in range(20):
            predicate = a_predicate(rng)
            for shard in (1, 5, 100):
                self.assertEqual(cluster.prune(self.client, direct, predicate, shard=shard), direct.prune(predicate), (SEED, predicate))
        with self.assertRaises(PredicateError):
            cluster.prune(self.client, direct, col("nothing") > 3, shard=1)

    def test_a_worker_dies_in_prune(self) -> None:
        direct, pruned, wanted = self.direct(), cluster._pruned, col("k") > 2000
        with unittest.mock.patch.object(cluster, "_pruned", slowly(pruned)):
            threading.Timer(0.5, self.kill_a_worker).start()
            self.assertEqual(cluster.prune(self.client, direct, wanted, shard=1), direct.prune(wanted))

    def full(self, predicate: Predicate) -> list:
        """What the filter of all partitions answers."""
        frames = [cluster._filtered(cluster.read_csv, COLUMNS, file, predicate) for file in self.table.files]
        return sorted(int(key) for frame in frames for key in frame["k"])

    def test_selected(self) -> None:
        kept, rng, files = cluster.measure(self.client, self.table)[0], random.Random(SEED), 0
        for _ in range(40):
            predicate = a_predicate(rng)
            found = cluster.select(self.client, self.table, kept, predicate)
            files += len(found.files)
            self.assertEqual(sorted(int(key) for key in found.frame().compute(scheduler=self.client)["k"]), self.full(predicate), (SEED, predicate))
            self.assertEqual(found.changed, [])
        self.assertLess(files, 40 * PARTS * 3 // 4)
        print(f"seed {SEED}: 40 predicates, {files} of {40 * PARTS} partitions read")

    def test_selected_and_gone_on_with(self) -> None:
        kept, _ = cluster.measure(self.client, self.table)
        found = cluster.select(self.client, self.table, kept, col("k") >= (PARTS - 1) * ROWS)
        self.assertEqual(found.files, [self.table.files[-1]])
        self.assertEqual(int(found.frame().groupby("s").k.count().compute().sum()), ROWS)
        none = cluster.select(self.client, self.table, kept, col("k") < 0)
        self.assertEqual((none.files, len(none.frame().compute())), ([], 0))
        self.assertEqual(list(none.frame().columns), ["k", "s", "n"])

    def test_a_worker_dies_in_select(self) -> None:
        kept, _ = cluster.measure(self.client, self.table)
        table = cluster.Table(COLUMNS, self.table.files, slow)
        found = cluster.select(self.client, table, kept, col("k") > 1000)
        threading.Timer(0.5, self.kill_a_worker).start()
        self.assertEqual(sorted(int(key) for key in found.frame().compute()["k"]), list(range(1001, PARTS * ROWS)))

    def test_a_changed_partition_is_read(self) -> None:
        kept, _ = cluster.measure(self.client, self.table)
        write(self.table_folder.name, 3, 90_000)
        write(self.table_folder.name, PARTS, 90_400)
        table = cluster.csv_table(self.table_folder.name, COLUMNS)
        found = cluster.select(self.client, table, kept, col("k") >= 90_000)
        self.assertEqual(found.changed, [self.table.files[3], table.files[-1]])
        self.assertEqual(found.files, found.changed)
        self.assertEqual(len(found.frame().compute()), 2 * ROWS)

    def test_arrays(self) -> None:
        import numpy

        columns = (Column("k", DType.I64), Column("n", DType.U8, True), Column("b", DType.BOOL), Column("s", DType.UTF8))
        with tempfile.TemporaryDirectory() as folder:
            for part in range(3):
                os.mkdir(f"{folder}/{part}")
                numbers = numpy.arange(part * 10, part * 10 + 10)
                arrays = {"k": numbers, "n": numbers.astype("u1"), "n.null": numbers % 2 == 0, "b": numbers > 15, "s": numbers.astype("U2")}
                for name, values in arrays.items():
                    numpy.save(f"{folder}/{part}/{name}.npy", values)
            table = cluster.npy_table(folder, columns)
            kept, _ = cluster.measure(self.client, table)
            self.assertEqual([kept.footers.at(zone)["k", Stat.MIN][1] for zone in (0, 1, 2)], [0, 10, 20])
            self.assertEqual(kept.footers.at(1)["n", Stat.MIN][1], 11)
            found = cluster.select(self.client, table, kept, (col("n") > 12) & (col("b") == True) & (col("s") < "19"))  # noqa: E712
            self.assertEqual(list(found.frame().compute()["k"]), [17])
            self.assertEqual(found.files, [table.files[1]])
            others = [(numpy.arange(3, dtype="i4"), "no i64"), (numpy.arange(3.0), "no i64"), (numpy.arange(9), "rows")]
            for values, cause in [*others, (numpy.zeros((10, 2), "i8"), "2 dimensions")]:
                numpy.save(f"{folder}/1/k.npy", values)
                with self.assertRaisesRegex(cluster.TableError, cause):
                    cluster.measure(self.client, table)
            pathlib.Path(f"{folder}/1/k.npy").write_bytes(b"\x93NUMPY\x01\x00")
            with self.assertRaisesRegex(cluster.TableError, "/1"):
                cluster.measure(self.client, table)
            os.unlink(f"{folder}/1/k.npy")
            with self.assertRaisesRegex(cluster.TableError, "no file k.npy"):
                cluster.measure(self.client, table)

    def test_refused(self) -> None:
        with self.assertRaises(cluster.TableError):
            cluster.csv_table("/", COLUMNS)
        kept, _ = cluster.measure(self.client, self.table)
        with self.assertRaises(PredicateError):
            cluster.select(self.client, self.table, kept, col("nothing") > 3)
        with self.assertRaisesRegex(FooterError, "other columns"):
            cluster.select(self.client, cluster.csv_table(self.table_folder.name, COLUMNS[:2]), kept, col("k") > 3)
        with open(self.table.files[0], "a", encoding="utf-8") as file:
            file.write("x,y,z\n")
        with self.assertRaisesRegex(cluster.TableError, "row 400, column k: 'x' is no i64"):
            cluster.measure(self.client, self.table)
        with open(self.table.files[1], "w", encoding="utf-8") as file:
            file.write("k,s,n\n1,a,2147483648\n")
        with self.assertRaisesRegex(cluster.TableError, "column n"):
            cluster.measure(self.client, cluster.Table(COLUMNS, self.table.files[1:2], cluster.read_csv))
        os.unlink(self.table.files[0])
        with self.assertRaisesRegex(cluster.TableError, "part-000.csv is gone"):
            cluster.select(self.client, self.table, kept, col("k") > 3)

    def test_csv_read_exactly_or_refused_by_row(self) -> None:
        columns = (Column("n", DType.I32, True), Column("s", DType.UTF8), Column("x", DType.BINARY))
        path = f"{self.table_folder.name}/one.csv"

        def read(text: str) -> object:
            pathlib.Path(path).write_text(text, encoding="utf-8", newline="")
            return cluster.read_csv(path, columns)

        self.assertEqual(read('x,n,s\n00ff,-5,"a,\nb"\n,,\n'), {"n": [-5, None], "s": ["a,\nb", ""], "x": [b"\0\xff", b""]})
        for text, cause in [
            ("x,n,s\n,1\n", "row 0: 2 cells; expected 3"), ("x,n,s\n,1,a\n,1,a,b\n", "row 1: 4 cells"), ("x,n,s\n\n", "row 0: 0 cells"),
            ("x,n,s\n,1_0,a\n", "column n: '1_0' is no i32"), ("x,n,s\n, 1,a\n", "' 1' is no i32"), ("x,n,s\n,+1,a\n", "is no i32"),
            ("x,n,s\n,\u0661,a\n", "is no i32"), ("x,n,s\n0 0,1,a\n", "column x: '0 0' is no binary"), ("x,n,n,s\n,1,1,a\n", "2 columns n"),
            ("", "no header line"), ('x,n,s\n"a"b,1,a\n', "is no CSV file"), ("x,n,s\n,2147483648,a\n", "expected a whole number from -2147483648"),
        ]:
            with self.assertRaisesRegex(cluster.TableError, cause):
                read(text)
        pathlib.Path(path).write_bytes(b"x,n,s\n,1,\xff\n")
        with self.assertRaisesRegex(cluster.TableError, "isn't UTF-8"):
            cluster.read_csv(path, columns)

    def test_csv_of_logical_types(self) -> None:
        columns = (Column("day", Date(), True), Column("at", Timestamp("us", "UTC")), Column("d", Decimal(5, 2)), Column("x", Float64()), Column("b", FixedBinary(2)))
        path = f"{self.table_folder.name}/logical.csv"

        def found(rows: list[str]) -> dict[str, object]:
            with open(path, "w") as file:
                file.write("day,at,d,x,b\n" + "\n".join(rows) + "\n")
            return cluster.read_csv(path, columns)

        footers = Footers.measure(columns, [found(["2026-01-02,2026-01-02T00:00Z,1.5,nan,6162", ",2026-01-03 01:00+01:00,-2,1e3,ffff"])])
        told = {name: value for (name, stat), (_, value) in footers.at(0).items() if stat == Stat.MIN}
        self.assertEqual((told["day"], told["d"], told["x"], told["b"]), (datetime.date(2026, 1, 2), decimal.Decimal("-2.00"), 1000.0, b"ab"))
        good = ["2026-01-02", "2026-01-02T00:00Z", "1.5", "1", "6162"]
        for place, text in ((0, "20260102"), (0, "12345"), (1, "2026-01-02"), (2, "1.555"), (2, "1e9"), (3, "one"), (3, ""), (4, "61"), (4, "6g")):
            row = [*good[:place], text, *good[place + 1 :]]
            with self.assertRaisesRegex(cluster.TableError, f"row 0, column {columns[place].name}"):
                found([",".join(row)])

    def test_notes_that_are_none_refused(self) -> None:
        path = f"{self.table_folder.name}/.footers"
        stamped = [("a", '1, 2, 3, ""'), (["a"], '1, 2, 3.5, ""'), (["a"], '1, 2, true, ""'), (["a"], "1, 2, 3, 4"), ([1], '1, 2, 3, ""'), (["a"], "1, 2, 3")]
        notes = [f'{{"files": {json.dumps(files)}, "stamps": [[{stamp}]]}}' for files, stamp in [*stamped, ({"a": 1}, '1, 2, 3, ""')]]
        notes += ["[" * 100_000, "5"]
        for note in notes:
            Footers(COLUMNS, [1]).save(path, note)
            with self.assertRaisesRegex(FooterError, "no table of files"):
                cluster.Kept.load(path)
        Footers(COLUMNS, [1]).save(path, '{"files": ["a"], "stamps": [[1, 2, 3, ""]]}')
        self.assertEqual(cluster.Kept.load(path).stamps, [stamps.Stamp(1, 2, 3)])

    def test_files_that_are_no_footers(self) -> None:
        kept, _ = cluster.measure(self.client, self.table)
        path = pathlib.Path(self.table_folder.name) / "footers"
        kept.save(path)
        data = path.read_bytes()
        others = [Footers(COLUMNS, []).to_bytes(note) for note in ("", '{"files": ["a"], "stamps": []}', "[]")]
        for spoilt in [data[:-9], data.replace(b"footers 1", b"footers 9", 1), *others]:
            path.write_bytes(spoilt)
            with self.assertRaises(FooterError):
                cluster.Kept.load(path)

    def test_footers_of_a_directory(self) -> None:
        folder = pathlib.Path(self.table_folder.name) / "rows"
        for year in range(6):
            (folder / f"year={year}").mkdir(parents=True)
            told = {"columns": [["n", "long", True]], "groups": [[{"n": 10 * year}, {"n": None}], [{"n": 10 * year + 5}]]}
            (folder / f"year={year}" / "a.rows").write_text(json.dumps(told))
        options = {"reader": read_rows, "suffix": ".rows", "partitions": {"year": DType.I32}}
        spread = dataset.read(folder, map=cluster.spread(self.client), **options)
        self.assertEqual(spread.footers, dataset.read(folder, **options).footers)
        found = [(file.path, file.row_group) for file in spread.files_for([("year", ">", 3), ("n", "<", 45)])]
        self.assertEqual(found, [("year=4/a.rows", 0)])

    def test_nothing_half_written(self) -> None:
        kept, _ = cluster.measure(self.client, self.table)
        path = pathlib.Path(self.table_folder.name) / "footers"
        kept.save(path)
        before, there = path.read_bytes(), sorted(os.listdir(path.parent))
        with unittest.mock.patch("os.fsync", side_effect=OSError("no space")), self.assertRaises(OSError):
            kept.save(path)
        self.assertEqual((path.read_bytes(), sorted(os.listdir(path.parent))), (before, there))


@unittest.skipIf(dask is None, "Dask isn't installed: apt-get install python3-distributed python3-dask python3-pandas")
class ClustersThatGo(unittest.TestCase):
    def test_goes_away(self) -> None:
        with tempfile.TemporaryDirectory() as folder:
            write(folder, 0, 0)
            table = cluster.csv_table(folder, COLUMNS)
            gone = LocalCluster(n_workers=1, threads_per_worker=1, host="127.0.0.1", dashboard_address=None, local_directory=folder)
            client = Client(gone, timeout="2s")
            gone.close()
            with self.assertRaises(ConnectionError):
                cluster.measure(client, table)
            client.close()


if __name__ == "__main__":
    unittest.main()
