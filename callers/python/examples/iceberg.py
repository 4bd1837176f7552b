# SPDX-License-Identifier: Apache-2.0
"""Apache Iceberg: the data files of a table's current snapshot that filters leave to be read, by its manifests alone.

usage: examples/iceberg.py METADATA FILTERS    a metadata file or a folder with version-hint.text; a JSON list as [["qty", ">", 3]]
"""
import json
import sys

from foalmorrow import iceberg


def main(metadata: str, filters: str) -> None:
    table = iceberg.read(metadata)
    print(f"{table}: {', '.join(f'{column.name} {column.word}' for column in table.columns)}")

    wanted = table.files_for([tuple(it) for it in json.loads(filters)])
    for file in wanted:
        print(f"{file.path}: {file.rows} rows{', some of which may be deleted' if file.has_deletes else ''}")
    print(f"{len(wanted)} of {len(table)} files have to be read, {sum(file.size for file in wanted)} of {sum(file.size for file in table.files)} bytes")


if __name__ == "__main__":
    main(*sys.argv[1:])
