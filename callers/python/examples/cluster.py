# SPDX-License-Identifier: Apache-2.0
"""Dask: a folder of CSV files and one of numpy's arrays, measured, pruned and read by a cluster's workers."""
import csv
import os
import tempfile
import time

import numpy
from distributed import Client, LocalCluster

from foalmorrow import Column, DType, Stat, cluster, col

COLUMNS = [Column("k", DType.I64), Column("price", DType.I32, nullable=True)]


def write(folder: str) -> None:
    """Twenty partitions of each form: a CSV file, and a folder of a file for each column."""
    for part in range(20):
        keys = numpy.arange(part * 500, part * 500 + 500)
        prices, nulls = (keys // 3 + keys % 40).astype("i4"), keys % 9 == 0
        with open(f"{folder}/{part:02}.csv", "w", newline="", encoding="utf-8") as file:
            csv.writer(file).writerows([["k", "price"], *([key, "" if null else price] for key, price, null in zip(keys, prices, nulls))])
        os.mkdir(f"{folder}/{part:02}")
        for name, values in [("k", keys), ("price", prices), ("price.null", nulls)]:
            numpy.save(f"{folder}/{part:02}/{name}.npy", values)


def main() -> None:
    with tempfile.TemporaryDirectory() as folder, tempfile.TemporaryDirectory() as own:
        write(folder)
        # A partition that was changed less than two seconds before it is measured is measured anew the next time.
        time.sleep(2.1)
        # On the loopback alone, and with the workers' own files in a folder that goes with them.
        settings = {"host": "127.0.0.1", "dashboard_address": None, "local_directory": own}
        with LocalCluster(n_workers=2, threads_per_worker=1, **settings) as local, Client(local) as client:
            for word, table in [("CSV files", cluster.csv_table(folder, COLUMNS)), ("arrays", cluster.npy_table(folder, COLUMNS))]:
                path = os.path.join(folder, f"{word}.footers")
                cluster.measure(client, table)[0].save(path)
                # Later: what was changed since is measured anew.
                kept, fresh = cluster.measure(client, table, cluster.Kept.load(path))
                found = cluster.select(client, table, kept, (col("price") > 3200) & (col("k") < 9900))
                rows = found.frame()
                told = f"{len(fresh)} partitions measured anew, {len(found.files)} of {len(table.files)} read"
                print(f"{word}: {told}, {len(rows)} rows, mean price {rows.price.mean().compute():.1f}")
                print("the greatest price of all:", cluster.merge(client, kept.footers).at(0)["price", Stat.MAX][1])


if __name__ == "__main__":
    main()
