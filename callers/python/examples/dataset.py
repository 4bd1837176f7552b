# SPDX-License-Identifier: Apache-2.0
"""A directory of CSV files in folders by year: the footers of each file measured once, kept, and the files named that have to be read."""
import csv
import pathlib
import sys
import tempfile

from foalmorrow import Column, DType, Footers, col, dataset


def footers_of(path: str) -> Footers:
    """Measures a file: its footers are true of its rows by proof."""
    # Files are read by several threads, so a line goes out in one piece.
    sys.stdout.write(f"measured: {pathlib.Path(path).name}\n")
    with open(path, newline="", encoding="utf-8") as file:
        rows = list(csv.DictReader(file))
    return Footers.measure([Column("qty", DType.I64)], [{"qty": [int(row["qty"]) for row in rows]}])


with tempfile.TemporaryDirectory() as folder:
    for year in (2022, 2023, 2024):
        file = pathlib.Path(folder, f"year={year}", f"sales-{year}.csv")
        file.parent.mkdir()
        file.write_text("\n".join(["qty", *map(str, range(year, year + 50))]))

    # Kept footers are used again once a file hasn't changed for two seconds, which these have.
    options = {"suffix": ".csv", "reader": footers_of, "partitions": {"year": DType.I32}, "footers": folder + "/_footers"}
    for wanted in ((col("year") >= 2023) & (col("qty") < 2040), col("qty") == 2073):
        table = dataset.read(folder, **options)
        print(f"{wanted}: {[file.path for file in table.files_for(wanted)]}")
