# SPDX-License-Identifier: Apache-2.0
"""ClickHouse: what the server's own index leaves of a table, and footers of columns that it keeps nothing of.

usage: examples/clickhouse.py URL    the server's HTTP interface; it runs on the server's machine, whose files it reads
"""
import os
import sys
import tempfile

from foalmorrow import Answer, clickhouse, col

MAKE = [
    "DROP TABLE IF EXISTS visits",
    "CREATE TABLE visits (day Date, user UInt32, ms Nullable(Int32)) ENGINE = MergeTree PARTITION BY toYYYYMM(day) ORDER BY day "
    "SETTINGS index_granularity = 256",
    "INSERT INTO visits SELECT toDate(17532 + intDiv(number, 400)), intDiv(number, 8), if(number % 9 = 0, NULL, number % 50 + intDiv(number, 100)) "
    "FROM system.numbers LIMIT 60000",
]


def main(url: str) -> None:
    query = clickhouse.http(url)
    for sql in MAKE:
        query(sql)

    # By the key: the granules that are left are those that the server reads.
    granules = clickhouse.granules(query, "default", "visits")
    wanted = col("day").between(17540, 17545)
    answers = granules.footers.prune(wanted)
    left = sum(rows for rows, answer in zip(granules.footers.rows, answers) if answer != Answer.SKIP)
    told = clickhouse.count(query, "visits", wanted.sql(granules.footers.columns, clickhouse.spelling(query, "default", "visits")))
    print(f"by the key: {told.rows} rows in granules of {left}, of which the server reads {told.read}")

    # By other columns: measured part by part, kept in a file, and brought up to date before a query.
    with tempfile.TemporaryDirectory() as folder:
        path = os.path.join(folder, "visits.footers")
        kept = clickhouse.PartFooters.of(query, "default", "visits", ["user", "ms"])
        kept.refresh(query)
        kept.save(path)
        kept = clickhouse.PartFooters.load(path, "default", "visits")
        fresh, gone = kept.refresh(query)
        wanted = (col("user") > 6500) & (col("ms") < 590) | col("ms").between(120, 130)
        full = clickhouse.count(query, "visits", wanted.sql(kept.columns, clickhouse.Spelling()))
        pruned = clickhouse.count(query, "visits", kept.condition(query, wanted))
        assert full.rows == pruned.rows
        print(f"{len(kept.parts)} parts, {len(fresh)} measured anew: {pruned.rows} rows")
        print(f"the server reads {full.read} rows without footers, {pruned.read} with them")


if __name__ == "__main__":
    main(sys.argv[1])
