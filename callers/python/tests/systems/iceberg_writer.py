# SPDX-License-Identifier: Apache-2.0
"""A small writer of Iceberg's metadata and manifests, from the specification, by python3-avro."""
import datetime
import json
import math
import pathlib
import struct
import uuid
import warnings
from decimal import Decimal

import avro.datafile
import avro.io
import avro.schema

from tests.systems.table_rows import order

DAY = 86_400 * 10**6


class IcebergWriter:
    """A table's folder, of which metadata and manifests are written: the rows of its files stand in ``rows``, by their paths."""

    def __init__(self, folder: str, kinds: dict[str, str], partitions: dict[str, str] | None = None, version: int = 2, cut: int = 3):
        self.folder = pathlib.Path(folder) / "metadata"
        self.folder.mkdir(exist_ok=True)
        self.kinds, self.version, self.cut = kinds, version, cut
        self.ids = {name: place for place, name in enumerate(kinds, 1)}
        #: The transform of each column by which the table is partitioned.
        self.partitions = partitions or {}
        self.rows: dict[str, list[dict]] = {}
        self.java_uuids = False
        self.codec = "deflate"
        self.sequence = 0
        self.snapshots: list[dict] = []
        self.files = self.saved = 0

    # -- metadata

    def metadata(self, **changed: object) -> dict:
        fields = [{"id": self.ids[name], "name": name, "required": False, "type": kind} for name, kind in self.kinds.items()]
        spec = [
            {"name": f"part_{name}", "transform": transform, "source-id": self.ids[name], "field-id": 1000 + place}
            for place, (name, transform) in enumerate(self.partitions.items())
        ]
        schema = {"type": "struct", "schema-id": 0, "fields": fields}
        told = {
            "format-version": self.version, "table-uuid": "0", "location": str(self.folder.parent), "last-sequence-number": self.sequence,
            "schemas": [schema], "current-schema-id": 0, "partition-specs": [{"spec-id": 0, "fields": spec}], "default-spec-id": 0,
            "snapshots": self.snapshots, "current-snapshot-id": self.snapshots[-1]["snapshot-id"] if self.snapshots else -1,
            "refs": {"main": {"snapshot-id": self.snapshots[-1]["snapshot-id"], "type": "branch"}} if self.snapshots else {},
        }
        return {**told, **changed}

    def save(self, **changed: object) -> str:
        """Writes the metadata, as the next version of a table without a catalog."""
        self.saved += 1
        path = self.folder / f"v{self.saved}.metadata.json"
        path.write_text(json.dumps(self.metadata(**changed)))
        (self.folder / "version-hint.text").write_text(str(self.saved))
        return str(path)

    def snapshot(self, *manifests: dict) -> int:
        """Writes a list of manifests, and makes it the current snapshot."""
        number = 5_000_000_000 + len(self.snapshots)
        path = self.avro(f"snap-{number}.avro", LIST, list(manifests))
        self.snapshots.append({"snapshot-id": number, "timestamp-ms": 0, "manifest-list": path, "schema-id": 0, "summary": {"operation": "append"}})
        return number

    def avro(self, name: str, schema: dict, rows: list[dict], **meta: str) -> str:
        path = self.folder / name
        with warnings.catch_warnings():
            # The package warns of the logical types that it doesn't know, as map.
            warnings.simplefilter("ignore")
            parsed = avro.schema.parse(json.dumps(schema))
        with avro.datafile.DataFileWriter(path.open("wb"), avro.io.DatumWriter(), parsed, codec=self.codec) as writer:
            for key, value in meta.items():
                writer.set_meta(key.replace("_", "-"), value.encode())
            for row in rows:
                writer.append(row)
        return str(path)

    # -- manifests

    def manifest(self, *files: dict, content: int = 0, status: int = 1, sequence: int | None = None) -> dict:
        """Writes a manifest of files. They have its sequence number, or the one that is given."""
        self.sequence += 1
        self.files += 1
        entries = [{"status": status, "snapshot_id": 1, "sequence_number": sequence, "file_sequence_number": sequence, "data_file": it} for it in files]
        name = f"m{self.files}.avro"
        path = self.avro(name, self.entry_schema(), entries, partition_spec_id="0", content="deletes" if content else "data")
        counts = {f"{word}_{what}_count": 0 for word in ("added", "existing", "deleted") for what in ("files", "rows")}
        return {
            "manifest_path": path, "manifest_length": (self.folder / name).stat().st_size, "partition_spec_id": 0, "content": content,
            "sequence_number": self.sequence, "min_sequence_number": self.sequence, "added_snapshot_id": 1, **counts,
        }

    def entry_schema(self) -> dict:
        partition = [
            {"name": f"part_{name}", "type": ["null", self.avro_type(name, transform)], "default": None, "field-id": 1000 + place}
            for place, (name, transform) in enumerate(self.partitions.items())
        ]
        return entry_schema({"type": "record", "name": "r102", "fields": partition})

    def avro_type(self, name: str, transform: str) -> object:
        kind = self.kinds[name]
        if transform != "identity":
            return "int"
        if kind.startswith("decimal"):
            precision, scale = (int(word) for word in kind[8:-1].split(","))
            return {"type": "fixed", "name": f"d_{name}", "size": 8, "logicalType": "decimal", "precision": precision, "scale": scale}
        if kind == "uuid":
            return {"type": "fixed", "name": f"u_{name}", "size": 16}
        if kind == "date":
            return {"type": "int", "logicalType": "date"}
        return {"binary": "bytes", "timestamp": "long", "timestamptz": "long", "time": "long"}.get(kind, kind)

    def data_file(self, path: str, rows: list[dict], **changed: object) -> dict:
        """A data file with these rows."""
        self.rows[path] = rows
        partition = {}
        for name, transform in self.partitions.items():
            value = rows[0][name] if rows else None
            partition[f"part_{name}"] = None if value is None else 3 if transform != "identity" else self.avro_value(name, value)
        found: dict = {"content": 0, "file_path": path, "file_format": "PARQUET", "partition": partition, "record_count": len(rows)}
        found |= {"file_size_in_bytes": 100, "equality_ids": None, **self.metrics(rows)}
        return {**found, **changed}

    def delete_file(self, path: str, content: int) -> dict:
        """A file of positions (1) or of keys (2) of rows that are deleted."""
        found = self.data_file(path, [])
        del self.rows[path]
        return {**found, "content": content, "partition": {name: None for name in found["partition"]}}

    def avro_value(self, name: str, value: object) -> object:
        kind = self.kinds[name]
        if isinstance(value, (datetime.datetime, datetime.time)):
            return micros(value)
        return value.bytes if kind == "uuid" else value

    def metrics(self, rows: list[dict]) -> dict:
        counts: dict[str, dict[int, int]] = {"value_counts": {}, "null_value_counts": {}, "nan_value_counts": {}}
        bounds: dict[str, dict[int, bytes]] = {"lower_bounds": {}, "upper_bounds": {}}
        for name, kind in self.kinds.items():
            number, values = self.ids[name], [row[name] for row in rows if row.get(name) is not None]
            counts["value_counts"][number], counts["null_value_counts"][number] = len(rows), len(rows) - len(values)
            told = [it for it in values if not (isinstance(it, float) and math.isnan(it))]
            if kind in ("float", "double"):
                counts["nan_value_counts"][number] = len(values) - len(told)
            if told:
                key = java_order if kind == "uuid" and self.java_uuids else order
                bounds["lower_bounds"][number] = single_value(kind, self.shorter(min(told, key=key)))
                upper = self.longer(max(told, key=key))
                if upper is not None:
                    bounds["upper_bounds"][number] = single_value(kind, upper)
        return {name: [{"key": key, "value": it} for key, it in told.items()] for name, told in {**counts, **bounds}.items()}

    def shorter(self, value: object) -> object:
        return value[: self.cut] if isinstance(value, (str, bytes)) else value

    def longer(self, value: object) -> object:
        """The least text, or bytes, of so many characters that is above all that begin as this one does; None where there is none."""
        if not isinstance(value, (str, bytes)) or len(value) <= self.cut:
            return value
        for place in range(self.cut - 1, -1, -1):
            if isinstance(value, bytes) and value[place] < 255:
                return value[:place] + bytes([value[place] + 1])
            if isinstance(value, str) and value[place] != "\U0010ffff":
                return value[:place] + ("\ue000" if value[place] == "\ud7ff" else chr(ord(value[place]) + 1))
        return None


def java_order(value: uuid.UUID) -> tuple[int, int]:
    """A UUID as two signed numbers, by which Java compares it."""
    return struct.unpack(">qq", value.bytes)


def micros(value: datetime.datetime | datetime.time) -> int:
    if isinstance(value, datetime.time):
        return ((value.hour * 60 + value.minute) * 60 + value.second) * 10**6 + value.microsecond
    return int(order(value))


def single_value(kind: str, value: object) -> bytes:
    """A value in the single-value binary form."""
    if kind == "boolean":
        return b"\1" if value else b"\0"
    if kind in ("int", "long", "date", "time", "timestamp", "timestamptz"):
        number = micros(value) if isinstance(value, (datetime.datetime, datetime.time)) else order(value)
        return number.to_bytes(4 if kind in ("int", "date") else 8, "little", signed=True)
    if kind in ("float", "double"):
        return struct.pack("<f" if kind == "float" else "<d", value)
    if kind == "string":
        return value.encode()
    if kind == "uuid":
        return value.bytes
    if isinstance(value, Decimal):
        number = int(value.scaleb(-value.as_tuple().exponent)) * 10 ** (int(kind[8:-1].split(",")[1]) + value.as_tuple().exponent)
        return number.to_bytes((8 + (number + (number < 0)).bit_length()) // 8, "big", signed=True)
    assert kind == "binary"
    return value


def _map(name: str, number: int, kind: str) -> dict:
    pair = [{"name": "key", "type": "int", "field-id": number}, {"name": "value", "type": kind, "field-id": number + 1}]
    return {"type": "array", "logicalType": "map", "items": {"type": "record", "name": name, "fields": pair}}


def entry_schema(partition: dict) -> dict:
    """The schema of a manifest's entries, as the second version of the format has it."""

    def one(name: str, number: int, kind: object, optional: bool = False) -> dict:
        found = {"name": name, "type": ["null", kind] if optional else kind, "field-id": number}
        return {**found, "default": None} if optional else found

    data_file = [
        one("content", 134, "int"), one("file_path", 100, "string"), one("file_format", 101, "string"), one("partition", 102, partition),
        one("record_count", 103, "long"), one("file_size_in_bytes", 104, "long"),
        one("value_counts", 109, _map("k119_v120", 119, "long"), True), one("null_value_counts", 110, _map("k121_v122", 121, "long"), True),
        one("nan_value_counts", 137, _map("k138_v139", 138, "long"), True), one("lower_bounds", 125, _map("k126_v127", 126, "bytes"), True),
        one("upper_bounds", 128, _map("k129_v130", 129, "bytes"), True),
        one("equality_ids", 135, {"type": "array", "items": "int", "element-id": 136}, True),
    ]
    entry = [
        one("status", 0, "int"), one("snapshot_id", 1, "long", True), one("sequence_number", 3, "long", True),
        one("file_sequence_number", 4, "long", True), one("data_file", 2, {"type": "record", "name": "r2", "fields": data_file}),
    ]
    return {"type": "record", "name": "manifest_entry", "fields": entry}


LIST = {
    "type": "record",
    "name": "manifest_file",
    "fields": [
        {"name": "manifest_path", "type": "string", "field-id": 500},
        {"name": "manifest_length", "type": "long", "field-id": 501},
        {"name": "partition_spec_id", "type": "int", "field-id": 502},
        {"name": "content", "type": "int", "field-id": 517},
        {"name": "sequence_number", "type": "long", "field-id": 515},
        {"name": "min_sequence_number", "type": "long", "field-id": 516},
        {"name": "added_snapshot_id", "type": "long", "field-id": 503},
        *({"name": f"{word}_{what}_count", "type": "long"} for word in ("added", "existing", "deleted") for what in ("files", "rows")),
    ],
}
