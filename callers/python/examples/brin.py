# SPDX-License-Identifier: Apache-2.0
"""PostgreSQL: the rows of a table read by its BRIN index, and how many pages the server reads for them itself.

usage: examples/brin.py FOLDER [USER]    the folder of the server's socket, and a user who may read pages (pageinspect)
"""
import sys

from foalmorrow import brin, col

MAKE = """
CREATE EXTENSION IF NOT EXISTS pageinspect;
DROP TABLE IF EXISTS readings;
CREATE TABLE readings (day int NOT NULL, station text COLLATE "C", value bigint);
INSERT INTO readings SELECT i / 500, 's' || lpad((i / 3000)::text, 3, '0'), CASE WHEN i % 9 > 0 THEN i / 7 + i % 40 END FROM generate_series(1, 60000) i;
CREATE INDEX readings_brin ON readings USING brin (day, station, value) WITH (pages_per_range = 8);
"""


def main(folder: str, user: str | None = None) -> None:
    brin.psql(folder, user=user)(MAKE)

    # The index and the rows in one transaction: what others write meanwhile changes neither.
    with brin.session(folder, user=user) as query:
        index = brin.read(query, "readings_brin")
        print(f"{len(index.footers)} ranges of {index.pages_per_range} pages")
        for wanted in [
            (col("day") < 20) & (col("value") > 1000),
            col("station").like("s01%") & ~col("value").between(4000, 6000),
            (col("day") == 3) | (col("value") > 8550),
        ]:
            found = brin.select(query, index, wanted)
            condition = wanted.sql(index.footers.columns)
            by_server = brin.server_pages(query, "readings", condition)
            ((count,),) = query(f"SELECT count(*) FROM readings WHERE {condition}")
            assert len(found.rows) == int(count or 0)
            print(f"{condition}: {len(found.rows)} rows from {found.pages} of {index.pages} pages, the server reads {by_server}")


if __name__ == "__main__":
    main(*sys.argv[1:])
