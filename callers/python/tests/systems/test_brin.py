# SPDX-License-Identifier: Apache-2.0
"""A PostgreSQL server's BRIN index as footers, range by range beside the rows that stand there, and what is read by it beside the server."""
import datetime
import decimal
import os
import random
import unittest
import uuid

from foalmorrow import Answer, Column, DType, Footers, Precision, Predicate, PredicateError, Stat, brin, col
from tests.systems.servers import postgres, postgres_folder

SEED = int(os.environ.get("FOALMORROW_SEED", "1"))
ROWS = 50_000
MAKE = f"""
CREATE EXTENSION pageinspect;
CREATE TABLE sales (day int NOT NULL, qty bigint, name text);
INSERT INTO sales SELECT i / 500, CASE WHEN i % 7 = 0 AND i > 10000 OR i BETWEEN 25000 AND 35000 THEN NULL ELSE i / 20 + i % 11 END,
  'n' || lpad((i / 250)::text, 4, '0') FROM generate_series(1, {ROWS}) i;
CREATE INDEX sales_brin ON sales USING brin (day, qty, name) WITH (pages_per_range = 8);
CREATE INDEX sales_lower ON sales USING brin (lower(name));
CREATE TABLE notes (day int NOT NULL, note text, "Mixed" int);
INSERT INTO notes SELECT i / 100, E'a\\r.. .. ' || i || E'\\t\\x01 .. b', -i FROM generate_series(1, 5000) i;
CREATE INDEX notes_brin ON notes USING brin (day, note, "Mixed") WITH (pages_per_range = 4);
CREATE TABLE moments (d date, at timestamp, z timestamptz, p numeric(12,3), u uuid, n int, f double precision, t text COLLATE "und-x-icu", big numeric);
INSERT INTO moments SELECT '2024-01-01'::date + i / 100, '2024-01-01 00:00:00.123456'::timestamp + i * interval '1 hour',
  '2024-01-01 00:00:00+00'::timestamptz + i * interval '1 minute', CASE WHEN i / 200 = 3 THEN 'NaN' ELSE i / 8.0 END,
  ('00000000-0000-0000-0000-' || lpad(to_hex(i), 12, '0'))::uuid, NULLIF(i / 100, 7), i, 't' || i, i FROM generate_series(1, 5000) i;
INSERT INTO moments SELECT * FROM (VALUES ('infinity'::date, '-infinity'::timestamp, 'infinity'::timestamptz, -1.5, NULL::uuid, 1),
  ('0044-03-15 BC'::date, '12024-01-01'::timestamp, '1890-01-01 00:00:00+00'::timestamptz, NULL, NULL, 2)) v, generate_series(1, 200);
CREATE INDEX moments_brin ON moments USING brin (d, at, z, lower(t), p, u, n, f, t, big) WITH (pages_per_range = 2);
CREATE TABLE others (f double precision, t text COLLATE "und-x-icu", k int, j int);
CREATE INDEX others_f ON others USING brin (f);
CREATE INDEX others_t ON others USING brin (t);
CREATE INDEX others_k ON others USING brin (k int4_minmax_multi_ops);
CREATE INDEX others_half ON others USING brin (j) WHERE k > 3;
CREATE INDEX others_tree ON others (k);
"""


def a_leaf(rng: random.Random) -> Predicate:
    kind, word = rng.randrange(9), rng.choice(["__eq__", "__ne__", "__gt__", "__ge__", "__lt__", "__le__"])
    if kind < 2:
        return getattr(col("day"), word)(rng.randrange(-2, 103))
    if kind < 4:
        return getattr(col("qty"), word)(rng.randrange(-5, 2520))
    if kind == 4:
        return getattr(col("name"), word)(f"n{rng.randrange(210):04}")
    if kind == 5:
        low = rng.randrange(100)
        return col("day").between(low, low + rng.randrange(-1, 9), low_strict=rng.random() < 0.3)
    if kind == 6:
        low = rng.randrange(2500)
        return col("qty").between(low, low + rng.randrange(300))
    if kind == 7:
        return col("name").like(f"n{rng.randrange(210):04}"[: rng.randrange(2, 6)] + "%", negated=rng.random() < 0.2)
    return col(rng.choice(["day", "qty", "name"])).is_null() if rng.random() < 0.5 else col(rng.choice(["qty", "name"])).is_not_null()


def a_predicate(rng: random.Random, depth: int = 2) -> Predicate:
    kind = rng.randrange(4) if depth else 3
    if kind == 3:
        return a_leaf(rng)
    left = a_predicate(rng, depth - 1)
    return ~left if kind == 2 else left & a_predicate(rng, depth - 1) if kind else left | a_predicate(rng, depth - 1)


@unittest.skipIf(postgres_folder() is None, "PostgreSQL isn't installed: apt-get install postgresql")
class BrinIndexes(unittest.TestCase):
    @classmethod
    def setUpClass(cls) -> None:
        cls.server = postgres()
        cls.folder = cls.server.__enter__()
        cls.addClassCleanup(cls.server.__exit__, None, None, None)
        cls.query = staticmethod(brin.psql(cls.folder, user="postgres"))
        cls.query(MAKE)

    def rows_of(self, index: brin.Brin, zone: int) -> dict[str, list]:
        """The rows that stand in a zone's pages, column by column."""
        start, end = index.pages_of(zone)
        rows = self.query(f"SELECT day, qty, name FROM sales WHERE ctid >= '({start},0)'::tid AND ctid < '({end},0)'::tid")
        numbers = [[None if cell is None else int(cell) for cell in column] for column in list(zip(*rows))[:2]]
        return {"day": numbers[0], "qty": numbers[1], "name": [row[2] for row in rows]}

    def test_each_range_bounds_its_rows(self) -> None:
        index = brin.read(self.query, "sales_brin")
        self.assertEqual([column.word for column in index.footers.columns], ["i32", "i64?", "utf8?"])
        bounds = index.footers.statistics
        nulls_alone = 0
        for zone in range(len(index.footers)):
            rows = self.rows_of(index, zone)
            for column in index.footers.columns:
                present = [value for value in rows[column.name] if value is not None]
                least, greatest = bounds[column.name, Stat.MIN].at(zone), bounds[column.name, Stat.MAX].at(zone)
                self.assertEqual((least[0], greatest[0]), (Precision.INEXACT, Precision.INEXACT))
                if present:
                    self.assertEqual((least[1], greatest[1]), (min(present), max(present)))
                else:
                    self.assertGreater(least[1], greatest[1])
                    nulls_alone += 1
                counted = bounds[column.name, Stat.NULL_COUNT].at(zone)
                if counted[0]:
                    self.assertEqual(counted[1] == 0, len(present) == len(rows[column.name]))
        self.assertGreater(nulls_alone, 0)

    def test_rows_that_go_and_come(self) -> None:
        self.query("DELETE FROM sales WHERE day = 3; INSERT INTO sales VALUES (-7, 9, 'a')")
        self.query("SELECT brin_summarize_new_values('sales_brin')")
        index = brin.read(self.query, "sales_brin")
        for zone in range(len(index.footers)):
            days = [day for day in self.rows_of(index, zone)["day"] if day is not None]
            least, greatest = (index.footers.statistics["day", stat].at(zone) for stat in (Stat.MIN, Stat.MAX))
            if least[0] and days:
                self.assertLessEqual(least[1], min(days))
                self.assertGreaterEqual(greatest[1], max(days))

    def test_read_by_ranges(self) -> None:
        rng, skipped, fewer, compared = random.Random(SEED), 0, 0, 0
        with brin.session(self.folder, user="postgres") as query:
            index = brin.read(query, "sales_brin")
            for _ in range(300):
                predicate = a_predicate(rng)
                condition = predicate.sql(index.footers.columns)
                found = brin.select(query, index, predicate, ["ctid::text"])
                wanted = query(f"SELECT ctid::text FROM sales WHERE {condition}")
                self.assertEqual(sorted(found.rows), sorted(wanted), (SEED, condition))
                by_server = brin.server_pages(query, "sales", condition)
                skipped += index.pages - found.pages
                if by_server is not None:
                    self.assertLessEqual(found.pages, by_server, (SEED, condition))
                    compared, fewer = compared + 1, fewer + by_server - found.pages
        print(f"seed {SEED}: 300 predicates, {skipped} pages of {300 * index.pages} skipped; {compared} times the server used the index, and read {fewer} pages more")
        self.assertGreater(compared, 100)
        self.assertGreater(skipped, 300 * index.pages // 4)

    def test_texts_with_separators(self) -> None:
        with brin.session(self.folder, user="postgres") as query:
            index = brin.read(query, "notes_brin")
            self.assertEqual(brin._bounds(DType.UTF8, "{x .. .. y}"), ("x", "y"))
            for wanted in [col("note") == "a\r.. .. 7\t\x01 .. b", col("note") >= "a\r.. .. 5", col("Mixed") < -4900, col("note").like("a\r%")]:
                condition = wanted.sql(index.footers.columns)
                found = brin.select(query, index, wanted, ["note", '"Mixed"'])
                self.assertEqual(sorted(found.rows), sorted(query(f'SELECT note, "Mixed" FROM notes WHERE {condition}')))
                self.assertGreater(len(found.rows), 0)
            self.assertLess(brin.select(query, index, col("Mixed") < -4900).pages, index.pages)

    def test_types_and_columns_that_are_left_out(self) -> None:
        at = datetime.datetime(2024, 1, 3, 4, 5, tzinfo=datetime.timezone.utc)
        local = datetime.datetime(2024, 1, 20, 16, 0, 0, 123_456)
        wanted = [col("d") == datetime.date(2024, 1, 17), col("d") < datetime.date(1, 1, 1), col("at") == local, col("at") > datetime.datetime(9999, 1, 1)]
        wanted += [col("z") == at, col("z").between(at, at + datetime.timedelta(hours=1)), col("z") < datetime.datetime(1900, 1, 1, tzinfo=at.tzinfo)]
        wanted += [col("p") == decimal.Decimal("12.5"), col("p") > decimal.Decimal("624.9"), col("p") < 0, col("u") == uuid.UUID(int=77), col("n") == 9]
        with brin.session(self.folder, user="postgres") as query:
            index = brin.read(query, "moments_brin")
            words = ["date?", "timestamp[us]?", "timestamp[us, UTC]?", "decimal(12, 3)?", "uuid?", "i32?"]
            words += [f"unmapped({name})?" for name in ("double precision", "text", "numeric")]
            self.assertEqual([column.word for column in index.footers.columns], words)
            for predicate in wanted:
                condition = predicate.sql(index.footers.columns, brin.POSTGRES)
                found = brin.select(query, index, predicate, ["ctid::text"])
                self.assertEqual(sorted(found.rows), sorted(query(f"SELECT ctid::text FROM moments WHERE {condition}")), condition)
                self.assertGreater(len(found.rows), 0, condition)
                self.assertLess(found.pages, index.pages // 2, condition)
            nan_or_more = col("p") > 10**8
            self.assertEqual(len(index.footers.prune(nan_or_more).kept), len(index.footers.prune(col("p") > 9 * 10**8).kept))
            zones = {zone for zone in range(len(index.footers)) if self.has_nan(query, index, zone)}
            self.assertTrue(zones and zones <= set(index.footers.prune(nan_or_more).kept))
            query("SET datestyle = 'German'")
            with self.assertRaisesRegex(brin.BrinError, "column d: the setting DateStyle is German"):
                brin.read(query, "moments_brin")
            query("SET datestyle = 'ISO'; SET timezone = 'Asia/Tokyo'")
            with self.assertRaisesRegex(brin.BrinError, "column z: the setting TimeZone is Asia/Tokyo"):
                brin.read(query, "moments_brin")

    def test_literals_past_the_mapping(self) -> None:
        self.query("CREATE TABLE late (i int, at timestamp)")
        self.query("INSERT INTO late SELECT i, CASE WHEN i < 3000 THEN timestamp '2024-01-01' ELSE '294260-01-01' END FROM generate_series(1, 5000) i")
        self.query("CREATE INDEX late_brin ON late USING brin (at) WITH (pages_per_range = 2)")
        with brin.session(self.folder, user="postgres") as query:
            index = brin.read(query, "moments_brin")
            for predicate in (col("p") > 10**20, ~(col("p") < 10**20), col("p") != 10**20, ~col("p").between(0, 10**20)):
                condition = predicate.sql(index.footers.columns, brin.POSTGRES)
                found, wanted = brin.select(query, index, predicate, ["ctid::text"]), query(f"SELECT ctid::text FROM moments WHERE {condition}")
                self.assertEqual(sorted(found.rows), sorted(wanted), condition)
                self.assertGreater(len(wanted), 0, condition)
            late = brin.read(query, "late_brin")
            for predicate, rows in ((col("at") > "2025-01-01", 2001), (col("at") < "2025-01-01", 2999)):
                self.assertEqual(len(brin.select(query, late, predicate).rows), rows)
            kept = {place for place, answer in enumerate(late.footers.prune(col("at") > "+294250-01-01")) if answer == Answer.READ}
            rows = query("SELECT DISTINCT (ctid::text::point)[0]::int FROM late WHERE at > '294250-01-01'")
            self.assertTrue({int(page or 0) // 2 for (page,) in rows} <= kept)

    def has_nan(self, query: brin.Query, index: brin.Brin, zone: int) -> bool:
        start, end = index.pages_of(zone)
        ((found,),) = query(f"SELECT count(*) FROM moments WHERE p = 'NaN' AND ctid >= '({start},0)'::tid AND ctid < '({end},0)'::tid")
        return found != "0"

    def test_rows_that_others_write(self) -> None:
        with brin.session(self.folder, user="postgres") as query:
            index = brin.read(query, "sales_brin")
            self.query("INSERT INTO sales VALUES (-77, 9, 'a')")
            self.assertEqual(brin.select(query, index, col("day") == -77).rows, [])
            self.assertEqual(query("SELECT day FROM sales WHERE day = -77"), [])
        with brin.session(self.folder, user="postgres") as query:
            self.assertEqual(brin.select(query, brin.read(query, "sales_brin"), col("day") == -77).rows, [["-77", "9", "a"]])
            # Rows of an index that was read in another transaction may be missing.
            with self.assertRaisesRegex(brin.BrinError, "another transaction"):
                brin.select(query, index, col("day") == -77)
        with self.assertRaisesRegex(brin.BrinError, "one session"):
            brin.select(self.query, brin.read(self.query, "sales_brin"), col("day") == -77)
        self.query("DELETE FROM sales WHERE day = -77")

    def test_a_predicate_that_does_not_fit(self) -> None:
        with brin.session(self.folder, user="postgres") as query:
            index = brin.read(query, "sales_brin")
            for wanted in [col("nothing") > 3, col("day") > 2**31, col("name") > 3]:
                with self.assertRaises(PredicateError):
                    brin.select(query, index, wanted)
            self.assertEqual(len(brin.select(query, index, col("day") == 3, ["day"], also="qty > 0").rows), 500)
            with self.assertRaisesRegex(brin.BrinError, "nothing"):
                brin.select(query, index, col("day") == 3, ["nothing"])

    def test_no_value_is_null_alone(self) -> None:
        """The bounds of a range of nulls alone are true of nulls, of each type."""
        for dtype in (DType.I16, DType.I32, DType.I64, DType.UTF8, DType.BINARY):
            least, greatest = brin._none_between(dtype)
            given = {("c", Stat.MIN): ([least], 2), ("c", Stat.MAX): ([greatest], 2), ("c", Stat.NULL_COUNT): ([1], 1)}
            self.assertIsNone(Footers.of_values([Column("c", dtype, True)], [1], given).check(0, {"c": [None]}))

    def test_refused(self) -> None:
        causes = {"tree": "btree", "f": "double precision", "t": "collation", "k": "operator class", "half": "partial"}
        for index, cause in [("sales_lower", "expression"), *((f"others_{name}", cause) for name, cause in causes.items())]:
            with self.assertRaisesRegex(brin.BrinError, cause):
                brin.read(self.query, index)
        with self.assertRaises(brin.BrinError):
            brin.read(self.query, "nothing")
        with self.assertRaises(ConnectionError):
            brin.psql("/nowhere")("SELECT 1")
        with self.assertRaises(ConnectionError), brin.session("/nowhere"):
            pass


@unittest.skipIf(postgres_folder() is None, "PostgreSQL isn't installed: apt-get install postgresql")
class ServersThatGo(unittest.TestCase):
    def test_goes_away(self) -> None:
        with postgres() as folder, self.assertRaises(ConnectionError), brin.session(folder, user="postgres") as query:
            ((process,),) = query("SELECT pg_backend_pid()")
            brin.psql(folder, user="postgres")(f"SELECT pg_terminate_backend({process})")
            query("SELECT 1")


if __name__ == "__main__":
    unittest.main()
