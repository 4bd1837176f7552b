# SPDX-License-Identifier: Apache-2.0
"""A ClickHouse server's primary index as footers, and footers of columns that it keeps nothing of; what is read by them beside the server."""
import os
import pathlib
import random
import shutil
import tempfile
import unittest
import warnings

from foalmorrow import PRUNING, Answer, FooterError, Footers, Precision, Predicate, PredicateError, Stat, UnreadWarning, clickhouse, col
from tests.systems.servers import clickhouse_server

SEED = int(os.environ.get("FOALMORROW_SEED", "1"))
ROWS = 20_000
WORDS = ["__eq__", "__ne__", "__gt__", "__ge__", "__lt__", "__le__"]
MAKE = [
    "CREATE TABLE t (k Int64, a Int64, n Nullable(Int32), s String) ENGINE = MergeTree PARTITION BY intDiv(k, 20000) ORDER BY k SETTINGS index_granularity = 1000",
    "INSERT INTO t SELECT number * 3, intDiv(number, 100) + number % 50, if(number % 9 = 0, NULL, intDiv(number, 1000)), "
    f"concat('s', toString(intDiv(number, 5000))) FROM system.numbers LIMIT {ROWS}",
    "CREATE TABLE logs (k Int64) ENGINE = Log",
    "CREATE TABLE pairs (a Int64, b Int64) ENGINE = MergeTree ORDER BY (a, b) SETTINGS index_granularity = 1000",
    "INSERT INTO pairs SELECT intDiv(number, 2500), number % 2500 * 2 FROM system.numbers LIMIT 20000",
    "CREATE TABLE triples (d Date, f Float64, s String, k Int32) ENGINE = MergeTree PARTITION BY toYYYYMM(d) ORDER BY (d, f, s, k) "
    "SETTINGS index_granularity = 50",
    "INSERT INTO triples SELECT toDate(17000 + intDiv(number, 1000)), intDiv(number, 500) / 2, toString(intDiv(number, 100) % 5), number % 100 "
    "FROM system.numbers LIMIT 4000",
    "CREATE TABLE spoken (s String, k Int64) ENGINE = MergeTree ORDER BY (lower(s), k) SETTINGS index_granularity = 1000",
    "CREATE TABLE words (s String) ENGINE = MergeTree ORDER BY s SETTINGS index_granularity = 1000",
    "INSERT INTO words SELECT toString(number) FROM system.numbers LIMIT 5000",
    "CREATE TABLE days (d Date, note String) ENGINE = MergeTree PARTITION BY toYYYYMM(d) ORDER BY d SETTINGS index_granularity = 100",
    r"INSERT INTO days SELECT toDate(17000 + intDiv(number, 20)), concat('a\\b', toString(number % 3)) FROM system.numbers LIMIT 5000",
    "CREATE TABLE floats (f Float64) ENGINE = MergeTree ORDER BY f SETTINGS index_granularity = 1000",
]


def joined(rng: random.Random, leaf: Predicate, make: object, depth: int = 2) -> Predicate:
    """A leaf, or one joined with others."""
    kind = rng.randrange(4) if depth else 3
    if kind == 3:
        return leaf
    other = joined(rng, make(), make, depth - 1)  # type: ignore[operator]
    return ~other if kind == 2 else leaf & other if kind else leaf | other


@unittest.skipIf(shutil.which("clickhouse-server") is None, "ClickHouse isn't installed: apt-get install clickhouse-server")
class ClickHouseTables(unittest.TestCase):
    @classmethod
    def setUpClass(cls) -> None:
        cls.server = clickhouse_server()
        cls.url = cls.server.__enter__()
        cls.query = staticmethod(clickhouse.http(cls.url))
        cls.addClassCleanup(cls.server.__exit__, None, None, None)
        for sql in MAKE:
            cls.query(sql)

    def test_each_granule_bounds_its_keys(self) -> None:
        granules = clickhouse.granules(self.query, "default", "t")
        self.assertEqual(sum(granules.footers.rows), ROWS)
        start: dict[str, int] = {}
        for zone, part in enumerate(granules.parts):
            told = self.query(f"SELECT k FROM t WHERE _part = '{part}' FORMAT TabSeparated").split()
            first = start.get(part, 0)
            keys = [int(key) for key in told[first : first + granules.footers.rows[zone]]]
            start[part] = first + granules.footers.rows[zone]
            known = granules.footers.at(zone)
            self.assertEqual(known["k", Stat.MIN], (Precision.EXACT, min(keys)))
            self.assertGreaterEqual(known["k", Stat.MAX][1], max(keys))
        self.assertGreater(len(granules.parts), ROWS // 1000)

    def test_a_key_of_texts(self) -> None:
        granules = clickhouse.granules(self.query, "default", "words")
        self.assertEqual(granules.footers.at(0)["s", Stat.MIN], (Precision.EXACT, "0"))
        told = self.query("SELECT s FROM words ORDER BY s FORMAT TabSeparated").decode().split()
        self.assertEqual([granules.footers.at(zone)["s", Stat.MIN][1] for zone in range(5)], told[::1000])
        self.assertNotIn(("s", Stat.MAX), granules.footers.at(4))

    def test_a_key_of_several_columns(self) -> None:
        for table, names in (("pairs", ["a", "b"]), ("triples", ["d", "s", "k"])):
            granules = clickhouse.granules(self.query, "default", table)
            self.assertEqual([column.name for column in granules.footers.columns], names)
            starts: dict[str, int] = {}
            bounded = dict.fromkeys(names, 0)
            for zone, part in enumerate(granules.parts):
                rows, start = granules.footers.rows[zone], starts.get(part, 0)
                starts[part] = start + rows
                for name in names:
                    column = f"toInt64({name})" if name != "s" else name
                    told = self.query(f"SELECT {column} FROM {table} WHERE _part = '{part}' LIMIT {start}, {rows} FORMAT TabSeparated").decode().split()
                    values = told if name == "s" else [int(it) for it in told]
                    known = granules.footers.at(zone)
                    self.assertEqual((len(values), known[name, Stat.NULL_COUNT]), (rows, (Precision.EXACT, 0)))
                    if (name, Stat.MIN) in known:
                        self.assertEqual(known[name, Stat.MIN], (Precision.EXACT, min(values)), (table, zone, name))
                    if (name, Stat.MAX) in known:
                        bounded[name] += 1
                        self.assertEqual(known[name, Stat.MAX][0], Precision.INEXACT)
                        self.assertLessEqual(max(values), known[name, Stat.MAX][1], (table, zone, name))
            # A column behind others has bounds where these don't change up to the next mark.
            self.assertGreater(min(bounded.values()), 5, (table, bounded))

    def test_other_columns(self) -> None:
        kept = clickhouse.PartFooters.of(self.query, "default", "t", ["a", "n", "s"])
        fresh, gone = kept.refresh(self.query)
        self.assertEqual((sorted(fresh), gone), (sorted(kept.parts), []))
        for zone, part in enumerate(kept.parts):
            told = self.query(f"SELECT min(a), max(a), countIf(isNull(n)), min(n), max(s) FROM t WHERE _part = '{part}' FORMAT TabSeparated").decode().split()
            known = kept.footers.at(zone)
            keys = [("a", Stat.MIN), ("a", Stat.MAX), ("n", Stat.NULL_COUNT), ("n", Stat.MIN), ("s", Stat.MAX)]
            self.assertEqual([str(known[key][1]) for key in keys], told)
        self.assertEqual(kept.refresh(self.query), ([], []))
        with tempfile.TemporaryDirectory() as folder:
            kept.save(f"{folder}/t")
            loaded = clickhouse.PartFooters.load(f"{folder}/t", "default", "t")
            self.assertEqual((loaded.parts, loaded.footers), (kept.parts, kept.footers))
            with self.assertRaises(FooterError):
                clickhouse.PartFooters.load(f"{folder}/t", "default", "u")

    def test_merged_parts(self) -> None:
        self.query("CREATE TABLE m (k Int64, a Int64) ENGINE = MergeTree ORDER BY k SETTINGS index_granularity = 1000")
        for i in range(3):
            self.query(f"INSERT INTO m SELECT number, number + {i * 1000} FROM system.numbers LIMIT 1000")
        kept = clickhouse.PartFooters.of(self.query, "default", "m", ["a"])
        self.assertEqual(len(kept.refresh(self.query)[0]), 3)
        self.query("OPTIMIZE TABLE m FINAL")
        fresh, gone = kept.refresh(self.query)
        self.assertEqual((len(fresh), len(gone)), (1, 3))
        self.assertEqual(kept.footers.at(0)["a", Stat.MAX][1], 2999)

    def beside_the_server(self, table: str, leaf: object, times: int) -> None:
        """No more rows are left than the server reads, and none that it finds is left out."""
        rng, granules = random.Random(SEED), clickhouse.granules(self.query, "default", table)
        spelling = clickhouse.spelling(self.query, "default", table)
        total, left, by_server, fewer = sum(granules.footers.rows), 0, 0, 0
        for _ in range(times):
            predicate = joined(rng, leaf(rng), lambda: leaf(rng))  # type: ignore[operator]
            condition = predicate.sql(granules.footers.columns, spelling)
            answers = granules.footers.prune(predicate)
            kept = sum(rows for rows, answer in zip(granules.footers.rows, answers) if answer != Answer.SKIP)
            whole = sum(rows for rows, answer in zip(granules.footers.rows, answers) if answer == Answer.WHOLE)
            told = clickhouse.count(self.query, table, condition)
            self.assertLessEqual(kept, told.read, (SEED, table, condition))
            self.assertTrue(whole <= told.rows <= kept, (SEED, table, condition, whole, told, kept))
            left, by_server, fewer = left + kept, by_server + told.read, fewer + (kept < told.read)
        print(f"seed {SEED}, {table}: {times} predicates, of {times * total} rows {left} are left, the server reads {by_server}; fewer {fewer} times")
        self.assertLess(left, times * total)

    def test_numbers_beside_the_server(self) -> None:
        def leaf(rng: random.Random) -> Predicate:
            low = rng.randrange(-1000, 3 * ROWS + 1000)
            if rng.random() < 0.4:
                return col("k").between(low, low + rng.randrange(-1, 9000), low_strict=rng.random() < 0.5)
            return getattr(col("k"), rng.choice(WORDS))(low)

        self.beside_the_server("t", leaf, 300)

    def test_texts_beside_the_server(self) -> None:
        def leaf(rng: random.Random) -> Predicate:
            text = str(rng.randrange(6000))
            return col("s").like(text[: rng.randrange(1, 4)] + "%") if rng.random() < 0.4 else getattr(col("s"), rng.choice(WORDS))(text)

        self.beside_the_server("words", leaf, 100)

    def test_days_beside_the_server(self) -> None:
        self.beside_the_server("days", lambda rng: getattr(col("d"), rng.choice(WORDS))(17000 + rng.randrange(-5, 260)), 100)

    def test_left_out_by_footers(self) -> None:
        rng, kept = random.Random(SEED), clickhouse.PartFooters.of(self.query, "default", "t", ["a", "n", "s"])
        kept.refresh(self.query, PRUNING)

        def leaf() -> Predicate:
            name = rng.choice("aans")
            if name == "s":
                return col("s").like(f"s{rng.randrange(5)}%") if rng.random() < 0.4 else getattr(col("s"), rng.choice(WORDS))(f"s{rng.randrange(5)}")
            if name == "n" and rng.random() < 0.3:
                return col("n").is_null() if rng.random() < 0.5 else col("n").is_not_null()
            return getattr(col(name), rng.choice(WORDS))(rng.randrange(260) if name == "a" else rng.randrange(22))

        with_footers = without = 0
        for _ in range(300):
            predicate = joined(rng, leaf(), leaf)
            full = clickhouse.count(self.query, "t", predicate.sql(kept.columns, clickhouse.Spelling()))
            pruned = clickhouse.count(self.query, "t", kept.condition(self.query, predicate))
            self.assertEqual(full.rows, pruned.rows, (SEED, predicate))
            self.assertLessEqual(pruned.read, full.read)
            with_footers, without = with_footers + pruned.read, without + full.read
        print(f"seed {SEED}: 300 predicates on columns without an index, the server reads {without} rows, and {with_footers} with footers")
        self.assertLess(with_footers, without * 0.9)

    def test_texts_with_nulls_beside_the_server(self) -> None:
        """No part is skipped that has rows which the server finds, and none is whole that has others."""
        self.query("CREATE TABLE nulls (p Int64, x Nullable(Int32), y Nullable(Int32)) ENGINE = MergeTree PARTITION BY p ORDER BY p SETTINGS index_granularity = 1000")
        values = [(None, None), (None, 1), (1, None), (1, 1), (1, 2), (2, None), (2, 1)]
        for place, (x, y) in enumerate(values):
            self.query(f"INSERT INTO nulls VALUES ({place}, {'NULL' if x is None else x}, {'NULL' if y is None else y})")
        kept = clickhouse.PartFooters.of(self.query, "default", "nulls", ["x", "y"])
        kept.refresh(self.query)
        tests = ["x = 1", "x <> 1", "x IN (1)", "y NOT IN (1, NULL)", "x NOT IN (1)", "x IS NULL", "(x IN (1)) IS NULL", "(x = 1) IS NULL", "x IN (NULL)"]
        joints = [f"{left} {word} {right}" for word in ("AND", "OR") for left in tests for right in tests]
        skipped = 0
        for condition in [*tests, *(f"NOT ({it})" for it in tests), *joints, *(f"NOT ({it})" for it in joints), *(f"({it}) IS NULL" for it in joints)]:
            with warnings.catch_warnings():
                warnings.simplefilter("ignore", UnreadWarning)
                answers = kept.prune(condition)
            found = set(self.query(f"SELECT DISTINCT _part FROM nulls WHERE {condition} FORMAT TabSeparated").decode().split())
            for part, answer in zip(kept.parts, answers):
                self.assertTrue(answer == Answer.READ or (answer == Answer.WHOLE) == (part in found), (condition, part, answer))
            skipped += len(answers.skipped)
        self.assertGreater(skipped, 100)

    def test_parts_that_come_after_the_footers(self) -> None:
        self.query("CREATE TABLE g (k Int64, a Int64) ENGINE = MergeTree ORDER BY k SETTINGS index_granularity = 1000")
        for i in range(4):
            self.query(f"INSERT INTO g SELECT number, number + {i * 1000} FROM system.numbers LIMIT 1000")
        kept = clickhouse.PartFooters.of(self.query, "default", "g", ["a"])
        kept.refresh(self.query)
        wanted = col("a") >= 3000
        condition = kept.condition(self.query, wanted)
        self.assertEqual(clickhouse.count(self.query, "g", condition), clickhouse.Counted(1000, 1000))
        # A part that came since, and one that others were merged to, are read: a condition names the parts that need not be.
        self.query("INSERT INTO g SELECT number, number + 5000 FROM system.numbers LIMIT 10")
        self.assertEqual(clickhouse.count(self.query, "g", condition).rows, 1010)
        self.query("OPTIMIZE TABLE g FINAL")
        self.assertEqual(clickhouse.count(self.query, "g", condition).rows, 1010)

    def test_another_table_of_the_name(self) -> None:
        make = "CREATE TABLE h (k Int64) ENGINE = MergeTree ORDER BY k SETTINGS index_granularity = 1000"
        self.query(make)
        self.query("INSERT INTO h SELECT number FROM system.numbers LIMIT 1000")
        kept = clickhouse.PartFooters.of(self.query, "default", "h", ["k"])
        kept.refresh(self.query)
        self.query("DROP TABLE h")
        self.query(make)
        self.query("INSERT INTO h SELECT number + 7000 FROM system.numbers LIMIT 999")
        self.assertEqual([len(it) for it in kept.refresh(self.query)], [1, 1])
        self.assertEqual(clickhouse.count(self.query, "h", kept.condition(self.query, col("k") > 7000)).rows, 998)
        self.query("DROP TABLE h")
        self.query(make.replace("Int64", "Int32"))
        with self.assertRaisesRegex(clickhouse.ClickHouseError, "column k .* of another type"):
            kept.refresh(self.query)

    def test_texts_with_backslashes(self) -> None:
        kept = clickhouse.PartFooters.of(self.query, "default", "days", ["d", "note"])
        kept.refresh(self.query)
        note, cased = col("note"), col("note").like("A\\\\B_", ignore_case=True)
        for wanted, rows in [(note == "a\\b1", 1667), (note.like("a\\\\b2%"), 1666), (note.like("a\\b%"), 0), (cased, 5000)]:
            self.assertEqual(clickhouse.count(self.query, "days", kept.condition(self.query, wanted)).rows, rows, wanted)
        with self.assertRaisesRegex(PredicateError, "ends with a backslash"):
            kept.condition(self.query, col("note").like("a\\"))

    def test_files_of_another_form(self) -> None:
        folder = pathlib.Path(self.query("SELECT path FROM system.parts WHERE table = 'words' AND active FORMAT TabSeparated").decode().strip())
        marks = (folder / "primary.idx").read_bytes()
        try:
            for spoilt, cause in [(marks[:-1], "cut short"), (marks + b"\x01a", "marks"), (b"\x01\xff" * 5, "UTF-8"), (None, "no plain")]:
                (folder / "primary.idx").unlink()
                if spoilt is not None:
                    (folder / "primary.idx").write_bytes(spoilt)
                with self.assertRaisesRegex(clickhouse.ClickHouseError, cause):
                    clickhouse.granules(self.query, "default", "words")
                (folder / "primary.idx").write_bytes(marks)
        finally:
            (folder / "primary.idx").write_bytes(marks)

    def test_strings_that_are_no_texts(self) -> None:
        self.query("CREATE TABLE raw (s String) ENGINE = MergeTree ORDER BY s SETTINGS index_granularity = 1000")
        self.query("INSERT INTO raw SELECT unhex('FF') FROM system.numbers LIMIT 3")
        kept = clickhouse.PartFooters.of(self.query, "default", "raw", ["s"])
        with self.assertRaisesRegex(clickhouse.ClickHouseError, "column s, row 0: a text isn't UTF-8"):
            kept.refresh(self.query)
        self.assertEqual((kept.parts, kept.footers), ([], None))

    def test_kept_footers_that_do_not_fit(self) -> None:
        kept = clickhouse.PartFooters.of(self.query, "default", "t", ["a"])
        with self.assertRaises(FooterError), tempfile.TemporaryDirectory() as folder:
            kept.save(f"{folder}/none")
        kept.refresh(self.query)
        with tempfile.TemporaryDirectory() as folder:
            kept.save(f"{folder}/t")
            data = pathlib.Path(f"{folder}/t").read_bytes()
            another = Footers(kept.columns, [1]).to_bytes('{"database": "default", "table": "t"}')
            for spoilt in [data[:-7], data.replace(b"footers 1", b"footers 9", 1), another]:
                pathlib.Path(f"{folder}/t").write_bytes(spoilt)
                with self.assertRaises(FooterError):
                    clickhouse.PartFooters.load(f"{folder}/t", "default", "t")
        with self.assertRaises(PredicateError):
            kept.condition(self.query, col("nothing") > 3)

    def test_refused(self) -> None:
        for table, cause in [("logs", "Log"), ("spoken", "lower"), ("floats", "counterpart"), ("nothing", "no table")]:
            with self.assertRaisesRegex(clickhouse.ClickHouseError, cause):
                clickhouse.granules(self.query, "default", table)
        with self.assertRaises(clickhouse.ClickHouseError):
            clickhouse.PartFooters.of(self.query, "default", "floats", ["f"])
        with self.assertRaises(ConnectionError):
            clickhouse.http("http://127.0.0.1:9")("SELECT 1")
        with self.assertRaisesRegex(clickhouse.ClickHouseError, "nothing"):
            self.query("SELECT nothing FROM t")


@unittest.skipIf(shutil.which("clickhouse-server") is None, "ClickHouse isn't installed: apt-get install clickhouse-server")
class ServersThatGo(unittest.TestCase):
    def test_goes_away(self) -> None:
        with clickhouse_server() as url:
            query = clickhouse.http(url)
            query("CREATE TABLE t (k Int64) ENGINE = MergeTree ORDER BY k SETTINGS index_granularity = 1000")
            query("INSERT INTO t SELECT number FROM system.numbers LIMIT 1000")
            kept = clickhouse.PartFooters.of(query, "default", "t", ["k"])
        with self.assertRaises(ConnectionError):
            kept.refresh(query)
        self.assertEqual((kept.parts, kept.footers), ([], None))
        with self.assertRaises(ConnectionError):
            clickhouse.granules(query, "default", "t")


if __name__ == "__main__":
    unittest.main()
