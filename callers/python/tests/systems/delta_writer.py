# SPDX-License-Identifier: Apache-2.0
"""A small writer of Delta's log, from the protocol's text: what stands in a commit, and statistics in the forms that writers have."""
import datetime
import json
import math
import pathlib
import urllib.parse
from decimal import Decimal

from tests.systems.table_rows import order

FEATURES = ["columnMapping", "deletionVectors", "timestampNtz", "typeWidening"]


class DeltaWriter:
    """A table's folder, of which only the log is written: the rows of its files stand in ``rows``, by their paths."""

    def __init__(self, folder: str, kinds: dict[str, str], partitions: tuple[str, ...] = (), cut: int = 3, offset: int = 0, nan_is_told: bool = False):
        self.log = pathlib.Path(folder) / "_delta_log"
        self.log.mkdir(exist_ok=True)
        self.folder, self.kinds, self.partitions = folder, kinds, partitions
        #: How many characters of a text are told, the minutes by which told clocks are ahead of UTC, and whether NaN is told as the greatest.
        self.cut, self.offset, self.nan_is_told = cut, offset, nan_is_told
        self.version = -1
        self.rows: dict[str, list[dict]] = {}

    def schema(self, **metadata: dict) -> str:
        fields = [{"name": name, "type": kind, "nullable": True, "metadata": metadata.get(name, {})} for name, kind in self.kinds.items()]
        return json.dumps({"type": "struct", "fields": fields})

    def begin(self, configuration: dict | None = None, schema: str | None = None, features: list[str] | None = None) -> list[dict]:
        protocol = {"minReaderVersion": 3, "minWriterVersion": 7, "readerFeatures": FEATURES if features is None else features, "writerFeatures": []}
        metadata = {
            "id": "0", "format": {"provider": "parquet", "options": {}}, "schemaString": schema or self.schema(),
            "partitionColumns": list(self.partitions), "configuration": configuration or {},
        }
        return [{"commitInfo": {"operation": "WRITE"}}, {"protocol": protocol}, {"metaData": metadata}]

    def commit(self, *actions: dict) -> int:
        self.version += 1
        text = "".join(json.dumps(it, allow_nan=False) + "\n" for it in actions)
        (self.log / f"{self.version:020}.json").write_text(text)
        return self.version

    def add(self, path: str, rows: list[dict], **changed: object) -> dict:
        """An add action of a file with these rows."""
        self.rows[path] = rows
        partition = {name: None if not rows or rows[0][name] is None else as_text(rows[0][name]) for name in self.partitions}
        fields = {
            "path": urllib.parse.quote(path), "partitionValues": partition, "size": 100, "modificationTime": 0, "dataChange": True,
            "stats": self.stats(rows),
        }
        return {"add": {**fields, **changed}}

    def add_deleted(self, path: str, rows: list[dict], deleted: set[int], name: str = "u1") -> dict:
        """An add action of a file of whose rows some are deleted by a deletion vector. The statistics stay those of all rows."""
        stats = {**json.loads(self.stats(rows)), "tightBounds": False}
        vector = {"storageType": "u", "pathOrInlineDv": name, "offset": 1, "sizeInBytes": 4, "cardinality": len(deleted)}
        found = self.add(path, rows, stats=json.dumps(stats), deletionVector=vector)
        self.rows[path] = [row for place, row in enumerate(rows) if place not in deleted]
        return found

    def remove(self, path: str, vector: dict | None = None) -> dict:
        fields = {"path": urllib.parse.quote(path), "deletionTimestamp": 0, "dataChange": True}
        return {"remove": fields if vector is None else {**fields, "deletionVector": vector}}

    def stats(self, rows: list[dict]) -> str:
        least, greatest, nulls = {}, {}, {}
        for name, kind in self.kinds.items():
            if name in self.partitions:
                continue
            values = [row[name] for row in rows if row.get(name) is not None]
            nulls[name] = len(rows) - len(values)
            if kind == "binary" or not values:
                continue
            told = values if self.nan_is_told else [it for it in values if not (isinstance(it, float) and math.isnan(it))]
            if told:
                least[name], greatest[name] = (self.told(kind, extreme(told, key=order)) for extreme in (min, max))
        return _json({"numRecords": len(rows), "minValues": least, "maxValues": greatest, "nullCount": nulls})

    def told(self, kind: str, value: object) -> object:
        if kind == "string":
            return str(value)[: self.cut]
        if isinstance(value, datetime.datetime):
            return clock(value, self.offset)
        if isinstance(value, datetime.date):
            return value.isoformat()
        if isinstance(value, Decimal):
            # A writer that has doubles, of which numbers of up to 15 digits come back as they were.
            return float(value.scaleb(-value.as_tuple().exponent)) / 10.0 ** -value.as_tuple().exponent
        if isinstance(value, float) and not math.isfinite(value):
            return {math.inf: "Infinity", -math.inf: "-Infinity"}.get(value, "NaN")
        return _Single(value) if kind == "float" else value


def clock(value: datetime.datetime, offset: int = 0) -> str:
    """An instant cut to milliseconds: with the clock of a zone that is so many minutes ahead of UTC, or without one."""
    zone = "" if value.tzinfo is None else "Z" if not offset else f"{'-' if offset < 0 else '+'}{abs(offset) // 60:02}:{abs(offset) % 60:02}"
    shown = value.replace(tzinfo=None) + datetime.timedelta(minutes=offset if value.tzinfo is not None else 0)
    return f"{shown:%Y-%m-%dT%H:%M:%S}.{shown.microsecond // 1000:03}{zone}".replace(f"{shown:%Y}", f"{shown.year:04}", 1)


def as_text(value: object) -> str:
    """A partition's value as a text."""
    if isinstance(value, bool):
        return str(value).lower()
    if isinstance(value, datetime.datetime):
        shown = f"{value.year:04}-{value:%m-%d}"
        return f"{shown}T{value:%H:%M:%S}.{value.microsecond:06}Z" if value.tzinfo is not None else f"{shown} {value:%H:%M:%S}.{value.microsecond:06}"
    if isinstance(value, float):
        return {math.inf: "Infinity", -math.inf: "-Infinity"}.get(value, "NaN" if math.isnan(value) else repr(value))
    return value.decode("latin-1") if isinstance(value, bytes) else str(value)


class _Single(float):
    """A floating number of 32 bits, which is written by as few digits as tell it from its neighbours."""

    def __repr__(self) -> str:
        import struct

        return next(word for digits in range(1, 10) if struct.pack("<f", float(word := f"{float(self):.{digits}g}")) == struct.pack("<f", float(self)))


def _json(value: object) -> str:
    if isinstance(value, dict):
        return "{" + ", ".join(f"{json.dumps(name)}: {_json(it)}" for name, it in value.items()) + "}"
    return repr(value) if isinstance(value, _Single) else json.dumps(value, allow_nan=False)
