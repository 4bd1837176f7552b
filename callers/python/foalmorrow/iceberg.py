# SPDX-License-Identifier: Apache-2.0
"""Apache Iceberg: the data files of one snapshot of a table as zones, by its metadata and manifests (Debian: python3-avro).

>>> table = read("/data/sales/metadata/00003-7e.metadata.json")      # doctest: +SKIP
>>> [file.path for file in table.files_for(col("qty") > 3)]          # doctest: +SKIP

docs/SYSTEMS.md says what is taken as exact.
"""
from __future__ import annotations

import os
import pathlib
import urllib.parse
from collections.abc import Callable, Iterator
from dataclasses import dataclass, field as own
from typing import Any

from .iceberg_values import Floating, avro_types, form_of
from .items import shown
from .kinds import Column
from .strict_json import JsonFault, count, field, objects, parsed
from .tables import DataFile, Form, Table, ToldFault, Zones
from .types import Unmapped

__all__ = ["IcebergError", "local", "read"]

#: Brings the bytes of a file by the location that the table names.
Open = Callable[[str], bytes]

#: Bytes of the greatest file that is read, columns of the widest table, and levels of the deepest.
MOST_BYTES, MOST_COLUMNS, MOST_LEVELS = 2**30, 8192, 64


class IcebergError(ValueError):
    """A table that isn't read: of a version that isn't known, with files that are gone or cut short, or that say what can't be."""


def local(location: str) -> bytes:
    """Reads a file of this machine by its path or its ``file:`` URI. IcebergError where it is elsewhere, gone, or has more than 2^30 bytes."""
    scheme = urllib.parse.urlsplit(location).scheme
    if scheme not in ("", "file"):
        raise IcebergError(f"{location} isn't a file of this machine; expected a function for its bytes as open=")
    path = pathlib.Path(urllib.parse.unquote(urllib.parse.urlsplit(location).path) if scheme else location)
    try:
        if path.stat().st_size > MOST_BYTES:
            raise IcebergError(f"{location} has more than {MOST_BYTES} bytes")
        return path.read_bytes()
    except (OSError, ValueError) as fault:
        raise fault if isinstance(fault, IcebergError) else IcebergError(f"{location} isn't there, or can't be read: {fault}") from fault


def read(metadata: str | os.PathLike[str], snapshot: int | str | None = None, *, open: Open = local) -> Table:
    """Reads a snapshot of a table by its metadata file: by its number, or by the name of a branch or a tag; by default the current one.

    In place of the metadata file the folder of a table without a catalog may stand, which has ``metadata/version-hint.text``. Of a table in a
    catalog the catalog alone knows which metadata file is the last one.

    Where the metrics of a data file say what can't be, nothing is known of the column there, or of the file. IcebergError where the snapshot isn't
    there, or a file is of another version or says otherwise what can't be; ImportError without python3-avro.
    """
    place = os.fspath(metadata)
    try:
        place = _current(pathlib.Path(place)) if open is local and os.path.isdir(place) else place
        told = parsed(open(place), place)
        if not isinstance(told, dict):
            raise IcebergError(f"{place}: {shown(told)} is no metadata of a table")
        return _Metadata(place, told).table(snapshot, open)
    except (JsonFault, ToldFault) as fault:
        raise IcebergError(str(fault)) from None


def _current(folder: pathlib.Path) -> str:
    """Returns the last metadata file of a table without a catalog."""
    hint = folder / "metadata" / "version-hint.text"
    try:
        word = hint.read_text().strip()
    except (OSError, UnicodeDecodeError) as fault:
        raise IcebergError(f"{folder} doesn't tell its last metadata file by itself: {fault}; name the file that its catalog points to") from fault
    if not word.isdecimal() or len(word) > 9:
        raise IcebergError(f"{hint} says {shown(word)}; expected the number of a version")
    version = int(word)
    # The hint is written behind the metadata, so there may be later ones.
    while (folder / "metadata" / f"v{version + 1}.metadata.json").exists():
        version += 1
    return str(folder / "metadata" / f"v{version}.metadata.json")


# -- metadata


@dataclass(frozen=True)
class _Leaf:
    """A column without fields of its own: its number, and how its values are written."""

    column: Column
    id: int
    form: Form


@dataclass(frozen=True)
class _Constant:
    """A field of a partition that is a column's own value: its number, and the column."""

    id: int
    leaf: _Leaf


class _Metadata:
    """The metadata of a table."""

    def __init__(self, place: str, told: dict[str, Any]):
        self.place, self.told = place, told
        self.version = count(told, "format-version", place)
        if not 1 <= self.version <= 3:
            raise IcebergError(f"{place}: format version {self.version}; 1 to 3 are known")

    def table(self, wanted: int | str | None, open: Open) -> Table:
        """Returns the data files of a snapshot."""
        snapshot = self._snapshot(wanted)
        leaves = self._leaves(None if wanted is None or snapshot is None else snapshot.get("schema-id"))
        zones = Zones(leaf.column for leaf in leaves)
        if snapshot is None:
            return Table(self.place, None, [], zones)
        number = field(snapshot, "snapshot-id", int, self.place)
        reading = _Files(zones, leaves, self._partitions(leaves))
        manifests = list(self._manifests(snapshot, open))
        for manifest in manifests:
            reading.add(manifest, open)
        return Table(self.place, number, reading.told(), zones)

    def _snapshot(self, wanted: int | str | None) -> dict[str, Any] | None:
        snapshots = objects(self.told, "snapshots", self.place, [])
        number = wanted
        if isinstance(wanted, str):
            ref = field(field(self.told, "refs", dict, self.place, {}), wanted, dict, f"{self.place}, refs")
            number = field(ref, "snapshot-id", int, f"{self.place}, refs")
        elif wanted is None:
            number = field(self.told, "current-snapshot-id", int, self.place, -1)
            if number == -1:
                return None
        found = [it for it in snapshots if field(it, "snapshot-id", int, self.place) == number]
        if len(found) != 1:
            raise IcebergError(f"{self.place} has {len(found) or 'no'} snapshots {shown(number)}")
        return found[0]

    def _leaves(self, schema_id: Any) -> tuple[_Leaf, ...]:
        schemas = objects(self.told, "schemas", self.place, [])
        wanted = field(self.told, "current-schema-id", int, self.place, None) if schema_id is None else schema_id
        if not schemas or wanted is None:
            schema = field(self.told, "schema", dict, self.place)
        else:
            found = [it for it in schemas if field(it, "schema-id", int, self.place) == wanted]
            if len(found) != 1:
                raise IcebergError(f"{self.place} has {len(found) or 'no'} schemas {shown(wanted)}")
            schema = found[0]
        reading = _Schema(self.place)
        reading.fields(schema, "", 0, False)
        return tuple(reading.leaves.values())

    def _partitions(self, leaves: tuple[_Leaf, ...]) -> dict[int, tuple[_Constant, ...]]:
        """Returns the fields of each partition spec that are a column's own values."""
        by_id = {leaf.id: leaf for leaf in leaves}
        specs = objects(self.told, "partition-specs", self.place, None) if self.told.get("partition-specs") is not None else None
        if specs is None:
            specs = [{"spec-id": 0, "fields": field(self.told, "partition-spec", list, self.place, [])}]
        found: dict[int, tuple[_Constant, ...]] = {}
        for spec in specs:
            number = count(spec, "spec-id", self.place)
            if number in found:
                raise IcebergError(f"{self.place}: the partition spec {number} stands twice")
            found[number] = tuple(self._constants(objects(spec, "fields", self.place), by_id))
        return found

    def _constants(self, fields: list[dict[str, Any]], by_id: dict[int, _Leaf]) -> Iterator[_Constant]:
        for place, it in enumerate(fields):
            transform = field(it, "transform", str, self.place)
            # A transform of several columns, as format version 3 has it, names no single source.
            leaf = by_id.get(count(it, "source-id", self.place, -1))
            if transform == "identity" and leaf is not None:
                yield _Constant(count(it, "field-id", self.place, 1000 + place), leaf)

    def _manifests(self, snapshot: dict[str, Any], open: Open) -> Iterator[_Manifest]:
        location = field(snapshot, "manifest-list", str, self.place, None)
        seen: set[str] = set()
        if location is None:
            listed = ({"manifest_path": path} for path in field(snapshot, "manifests", list, self.place))
            location = self.place
        else:
            listed = _avro(location, open).rows
        for row in listed:
            found = _Manifest.of(row, location)
            if found.path in seen:
                raise IcebergError(f"{location}: the manifest {found.path} stands twice")
            seen.add(found.path)
            yield found


@dataclass
class _Schema:
    """A schema that is read field by field."""

    place: str
    leaves: dict[str, _Leaf] = own(default_factory=dict)
    ids: set[int] = own(default_factory=set)

    def fields(self, struct: dict[str, Any], prefix: str, level: int, nullable: bool) -> None:
        if level >= MOST_LEVELS:
            raise IcebergError(f"{self.place}: the schema nests more than {MOST_LEVELS} levels deep")
        for it in objects(struct, "fields", self.place):
            self.one(it, prefix, level, nullable)

    def one(self, it: dict[str, Any], prefix: str, level: int, nullable: bool) -> None:
        name = prefix + field(it, "name", str, self.place)
        place = f"{self.place}, column {name}"
        number, kind = count(it, "id", place), field(it, "type", (str, dict), place)
        nullable = not field(it, "required", bool, place) or nullable
        if number in self.ids:
            raise IcebergError(f"{place}: the number {number} belongs to two columns")
        self.ids.add(number)
        if isinstance(kind, dict) and kind.get("type") == "struct":
            self.fields(kind, f"{name}.", level + 1, nullable)
            return
        word = field(kind, "type", str, place) if isinstance(kind, dict) else kind
        form = Form(Unmapped(word), word) if isinstance(kind, dict) else form_of(word)
        if name in self.leaves:
            raise IcebergError(f"{place}: two columns have this name")
        if len(self.leaves) >= MOST_COLUMNS:
            raise IcebergError(f"{self.place}: the table has more than {MOST_COLUMNS} columns")
        self.leaves[name] = _Leaf(Column(name, form.type, nullable), number, form)


# -- manifests


def _avro(location: str, open: Open) -> Any:
    from .avro_file import AvroFault, read

    try:
        return read(open(location), location)
    except AvroFault as fault:
        raise IcebergError(str(fault)) from None


@dataclass(frozen=True)
class _Manifest:
    """A manifest as the list of a snapshot's manifests has it. Of a table of the first version its files have no order."""

    path: str
    spec: int | None
    has_deletes: bool
    sequence: int

    @classmethod
    def of(cls, row: dict[str, Any], place: str) -> _Manifest:
        path = field(row, "manifest_path", str, place)
        content = field(row, "content", int, place, 0)
        if content not in (0, 1):
            raise IcebergError(f"{place}: the manifest {path} has the content {content}; 0 and 1 are known")
        spec = field(row, "partition_spec_id", int, place, None)
        return cls(path, spec, content == 1, count(row, "sequence_number", place, 0))


@dataclass(frozen=True)
class _Entry:
    """A data file of a manifest."""

    place: str
    fields: dict[str, Any]
    spec: int
    sequence: int
    #: The types of Avro and the values of its partition, by the fields' numbers.
    partition: dict[int, tuple[str, Any]]


class _Files:
    """The files of a snapshot, as its manifests are read."""

    def __init__(self, zones: Zones, leaves: tuple[_Leaf, ...], partitions: dict[int, tuple[_Constant, ...]]):
        self.zones, self.leaves, self.partitions = zones, leaves, partitions
        self.entries: dict[str, _Entry] = {}
        #: The last sequence number of a delete file: each earlier file may have lost rows.
        self.last_delete = -1

    def add(self, manifest: _Manifest, open: Open) -> None:
        """Takes the files of a manifest that are there."""
        file = _avro(manifest.path, open)
        spec = manifest.spec
        if spec is None:
            word = file.meta.get("partition-spec-id", b"0").decode(errors="replace")
            spec = int(word) if word.isdecimal() and len(word) < 10 else -1
        if spec not in self.partitions:
            raise IcebergError(f"{manifest.path}: there is no partition spec {spec}")
        numbers = _partition_fields(file.schema, manifest.path)
        for place, row in enumerate(file.rows):
            where = f"{manifest.path}, entry {place}"
            status = field(row, "status", int, where)
            if status not in (0, 1, 2):
                raise IcebergError(f"{where}: the status is {status}; 0 to 2 are known")
            if status != 2:
                self._live(manifest, row, spec, numbers, where)

    def _live(self, manifest: _Manifest, row: dict[str, Any], spec: int, numbers: dict[str, tuple[int, str]], where: str) -> None:
        fields = field(row, "data_file", dict, where)
        content = field(fields, "content", int, where, 0)
        if content not in (0, 1, 2) or (content > 0) != manifest.has_deletes:
            raise IcebergError(f"{where}: a file of content {content} in a manifest of {'deletes' if manifest.has_deletes else 'data'}")
        sequence = count(row, "sequence_number", where, None)
        if sequence is None:
            # A file that was added with its manifest has the manifest's number. Of an older one it has to be told.
            if manifest.sequence and row["status"] == 0:
                raise IcebergError(f"{where}: sequence_number isn't there")
            sequence = manifest.sequence
        if content:
            self.last_delete = max(self.last_delete, sequence)
            return
        path = field(fields, "file_path", str, where)
        if path in self.entries:
            raise IcebergError(f"{where}: the file {path} stands twice")
        values = field(fields, "partition", dict, where, {})
        partition = {number: (kind, values.get(name)) for name, (number, kind) in numbers.items()}
        self.entries[path] = _Entry(where, fields, spec, sequence, partition)

    def told(self) -> list[DataFile]:
        """Tells what is known of each file, and returns the files."""
        return [self._file(path, entry) for path, entry in self.entries.items()]

    def _file(self, path: str, entry: _Entry) -> DataFile:
        where, fields = entry.place, entry.fields
        is_wide = entry.sequence <= self.last_delete
        metrics = _Metrics.of(fields, is_wide, where)
        rows = None if is_wide else metrics.rows
        self.zones.begin(rows, is_wide)
        constants = {it.leaf.id: it for it in self.partitions[entry.spec]}
        for leaf in self.leaves:
            place = f"{where}, column {leaf.column.name}"
            try:
                if leaf.id in constants:
                    self._constant(leaf, entry.partition.get(constants[leaf.id].id), place)
                else:
                    metrics.column(self.zones, leaf)
            except ToldFault as fault:
                if leaf.id in constants:
                    raise IcebergError(f"{place}: {fault}") from None
                self.zones.forget(leaf.column.name)
        return DataFile(path, count(fields, "file_size_in_bytes", where), rows, is_wide)

    def _constant(self, leaf: _Leaf, told: tuple[str, Any] | None, place: str) -> None:
        """Tells the one value that a column has in all rows of a file."""
        if told is None:
            raise IcebergError(f"{place}: the partition doesn't have it")
        kind, value = told
        if value is None:
            self.zones.all_null(leaf.column.name)
            return
        if type(leaf.form) is not Form and kind not in avro_types(leaf.form.word):
            raise IcebergError(f"{place}: the partition has a {kind} for a {leaf.form.word}")
        self.zones.bounds(leaf.column.name, *leaf.form.constant(value))
        self.zones.nulls(leaf.column.name, 0)


def _partition_fields(schema: Any, place: str) -> dict[str, tuple[int, str]]:
    """Returns the number and the type of each field of the partitions in a manifest, by its name."""
    found = {it.name: it.type for it in schema.fields}
    inner = {it.name: it.type for it in getattr(found.get("data_file"), "fields", [])}
    if "data_file" not in found or "partition" not in inner or inner["partition"].type != "record":
        raise IcebergError(f"{place} is no manifest: its rows have no partition of a data file")
    numbers: dict[str, tuple[int, str]] = {}
    for place_of, it in enumerate(inner["partition"].fields):
        number = it.get_prop("field-id")
        branches = [branch.type for branch in getattr(it.type, "schemas", [it.type]) if branch.type != "null"]
        if not isinstance(number, int | None) or len(branches) != 1:
            raise IcebergError(f"{place}: the partition's field {it.name} has no number or no one type")
        numbers[it.name] = (1000 + place_of if number is None else number, branches[0])
    if len({number for number, _ in numbers.values()}) != len(numbers):
        raise IcebergError(f"{place}: two fields of the partition have one number")
    return numbers


_METRICS = (("lower_bounds", bytes), ("upper_bounds", bytes), ("value_counts", int), ("null_value_counts", int), ("nan_value_counts", int))


def _by_id(fields: dict[str, Any], name: str, kind: type, where: str) -> dict[int, Any]:
    """Returns a map of a data file by the columns' numbers."""
    found: dict[int, Any] = {}
    for pair in objects(fields, name, where, []):
        key, value = field(pair, "key", int, f"{where}, {name}"), field(pair, "value", kind, f"{where}, {name}")
        if key in found:
            raise IcebergError(f"{where}, {name}: column number {key} stands twice")
        if kind is int and not 0 <= value < 2**63:
            raise IcebergError(f"{where}, {name}: {value} is no count")
        found[key] = value
    return found


@dataclass(frozen=True)
class _Metrics:
    """What a manifest tells of the columns of a file: by the names of its maps, and in these by the columns' numbers."""

    told: dict[str, dict[int, Any]]
    #: Rows that the file has; None where that isn't known.
    rows: int | None
    is_wide: bool

    @classmethod
    def of(cls, fields: dict[str, Any], is_wide: bool, where: str) -> _Metrics:
        """Reads the numbers and the maps of a data file. Of one in which they say what can't be nothing is known."""
        try:
            rows = count(fields, "record_count", where)
            return cls({name: _by_id(fields, name, kind, where) for name, kind in _METRICS}, rows, is_wide)
        except (IcebergError, JsonFault):
            return cls({name: {} for name, _ in _METRICS}, None, is_wide)

    def column(self, zones: Zones, leaf: _Leaf) -> None:
        """Tells what is known of a column. ToldFault where a bound is no value of its type, or a count can't be."""
        least, greatest, values, nulls, nans = (self.told[name].get(leaf.id) for name, _ in _METRICS)
        low, high = leaf.form.bounds(least, greatest)
        zones.bounds(leaf.column.name, low, None if isinstance(leaf.form, Floating) and nans != 0 else high)
        if nulls is None or values is None:
            return
        if nulls > values:
            raise ToldFault(f"{nulls} of {values} values are null")
        # A writer may leave out the rows in which a struct round the column is null.
        if values != self.rows:
            return
        if nulls == 0:
            zones.nulls(leaf.column.name, 0)
        elif nulls == self.rows:
            zones.all_null(leaf.column.name)
        elif not self.is_wide:
            zones.nulls(leaf.column.name, nulls)
