# SPDX-License-Identifier: Apache-2.0
"""Delta Lake: the files of a table that a condition leaves to be read, by its log alone."""
import datetime
import json
import pathlib
import tempfile

from foalmorrow import col, delta

FIELDS = [{"name": name, "type": kind, "nullable": True, "metadata": {}} for name, kind in (("day", "date"), ("price", "decimal(9,2)"))]


def add(month: int) -> dict:
    """What the log has of a file: its path, and the bounds of its columns."""
    least, greatest = {"day": f"2024-{month:02}-01", "price": 100 * month}, {"day": f"2024-{month:02}-28", "price": 100 * month + 50.25}
    stats = {"numRecords": 1000, "minValues": least, "maxValues": greatest, "nullCount": {"day": 0, "price": 3}}
    return {"add": {"path": f"part-{month:02}.parquet", "partitionValues": {}, "size": 9000, "dataChange": True, "stats": json.dumps(stats)}}


with tempfile.TemporaryDirectory() as folder:
    log = pathlib.Path(folder, "_delta_log")
    log.mkdir()
    schema = {"schemaString": json.dumps({"type": "struct", "fields": FIELDS}), "partitionColumns": []}
    actions = [{"protocol": {"minReaderVersion": 1, "minWriterVersion": 2}}, {"metaData": schema}, *map(add, range(1, 13))]
    (log / f"{0:020}.json").write_text("\n".join(map(json.dumps, actions)))

    table = delta.read(folder)
    for wanted in (col("day") > datetime.date(2024, 10, 28), [("price", ">=", 1000), ("price", "<", 1100)]):
        print(f"{wanted}: {[file.path for file in table.files_for(wanted)]} of {len(table)} files")
