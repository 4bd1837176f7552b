# SPDX-License-Identifier: Apache-2.0
"""Delta Lake: the files of one version of a table as zones, by the commits and checkpoints of its log.

>>> table = read("/data/sales")                                      # doctest: +SKIP
>>> [file.path for file in table.files_for(col("qty") > 3)]          # doctest: +SKIP

A version is read as the log's listing has it: commits that come meanwhile belong to later versions. docs/SYSTEMS.md says what is taken as exact.
"""
from __future__ import annotations

import dataclasses
import os
import pathlib
import re
import urllib.parse
from collections.abc import Collection, Iterator
from dataclasses import dataclass
from typing import Any

from . import delta_checkpoint
from .delta_values import form_of
from .items import shown
from .kinds import Column
from .strict_json import JsonFault, count, field, objects, parsed, texts
from .tables import DataFile, Form, Table, ToldFault, Zones
from .types import Unmapped

__all__ = ["DeltaError", "read"]


class DeltaError(ValueError):
    """A log that isn't read: of a table with features that aren't known, with a gap, cut short, or that says what can't be."""


#: What a reader has to know of a table; the last ones change nothing that stands in the log.
_FEATURES = frozenset(
    "columnMapping deletionVectors timestampNtz typeWidening typeWidening-preview v2Checkpoint vacuumProtocolCheck "
    "variantType variantType-preview variantShredding-preview".split()
)
#: The actions that are read. A reader passes over others: what it has to know the protocol names among its features.
_ACTIONS = frozenset("add remove metaData protocol sidecar".split())
_COMMIT = re.compile(r"([0-9]{20})\.json")
_CHECKPOINT = re.compile(r"([0-9]{20})\.checkpoint(?:\.([0-9]{10})\.([0-9]{10})|\.[0-9a-fA-F-]{36})?\.(json|parquet)")
#: Bytes of the greatest file of the log that is read, columns of the widest table, and levels of the deepest.
MOST_BYTES, MOST_COLUMNS, MOST_LEVELS = 2**31, 8192, 64


def read(path: str | os.PathLike[str], version: int | None = None, *, nan_free: Collection[str] = ()) -> Table:
    """Reads a version of the table in a folder, by default the last one.

    A writer may leave NaN out of the greatest value of a floating column, so none is told but of the columns ``nan_free``, which hold no NaN.

    Where the statistics of a file say what can't be, nothing is known of the column there, or of the file. DeltaError where the folder has no log, the
    version isn't there, the table needs what isn't known, or the log says otherwise what can't be: the file, the line and the column are told.
    """
    folder = pathlib.Path(path)
    versions, found = _Log(folder).versions(version)
    snapshot = _Snapshot(str(folder))
    try:
        for names in versions:
            snapshot.apply(names[0], (it for name in names for it in _actions(folder / "_delta_log", name)))
        return snapshot.table(found, frozenset(nan_free))
    except JsonFault as fault:
        raise DeltaError(str(fault)) from None


class _Log:
    """The files of a log, as one listing has them."""

    def __init__(self, folder: pathlib.Path):
        self.place = str(folder)
        try:
            names = os.listdir(folder / "_delta_log")
        except OSError as fault:
            raise DeltaError(f"{folder} is no table of Delta: {fault}") from fault
        self.commits = {int(found[1]): found[0] for name in names if (found := _COMMIT.fullmatch(name))}
        self.checkpoints: dict[int, list[str]] = {}
        for name in names:
            found = _CHECKPOINT.fullmatch(name)
            if found is not None:
                self.checkpoints.setdefault(int(found[1]), []).append(name)

    def versions(self, version: int | None) -> tuple[list[list[str]], int]:
        """Returns the files of each version that make up one, in their order, and its number."""
        known = self.commits.keys() | self.checkpoints.keys()
        if not known:
            raise DeltaError(f"{self.place} has no version in its log")
        wanted = max(known) if version is None else version
        if wanted not in known:
            raise DeltaError(f"{self.place} has no version {shown(version)}: its log has {min(known)} to {max(known)}")
        first = wanted
        while first in self.commits:
            first -= 1
        if first == -1:
            return [[self.commits[number]] for number in range(wanted + 1)], wanted
        whole = [number for number in self.checkpoints if first <= number <= wanted and self._checkpoint(number)]
        if not whole:
            raise DeltaError(f"{self.place}: version {first} isn't in the log, and no whole checkpoint from it to version {wanted} is")
        start = max(whole)
        return [self._checkpoint(start), *([self.commits[number]] for number in range(start + 1, wanted + 1))], wanted

    def _checkpoint(self, number: int) -> list[str]:
        """Returns the files of a whole checkpoint, in JSON where there is one; none where a part of it isn't there."""
        parts: dict[str, list[str]] = {}
        names = sorted(self.checkpoints[number])
        for name in names:
            found = _CHECKPOINT.fullmatch(name)
            assert found is not None
            if found[3] is not None:
                parts.setdefault(found[3], []).append(name)
            elif name.endswith(".json"):
                return [name]
        single = [name for name in names if not any(name in it for it in parts.values())]
        complete = [it for count, it in parts.items() if len(it) == int(count)]
        return single[:1] or next(iter(complete), [])


#: Where an action stands, its name, and its fields.
_Action = tuple[str, str, dict[str, Any]]


def _bytes(file: pathlib.Path) -> bytes:
    try:
        if file.stat().st_size > MOST_BYTES:
            raise DeltaError(f"{file} has more than {MOST_BYTES} bytes")
        return file.read_bytes()
    except (OSError, ValueError) as fault:
        raise fault if isinstance(fault, DeltaError) else DeltaError(f"{file} isn't there any more, or can't be read: {fault}") from fault


def _actions(log: pathlib.Path, name: str) -> Iterator[_Action]:
    """Yields the actions of a file of the log, and those of the files that a checkpoint names."""
    file = log / name
    for place, action, fields in delta_checkpoint.actions(file, _bytes(file)) if name.endswith(".parquet") else _lines(file):
        if action != "sidecar":
            yield place, action, fields
            continue
        path = field(fields, "path", str, place)
        if not re.fullmatch(r"[A-Za-z0-9._-]+\.parquet", path) or ".checkpoint" not in name:
            raise DeltaError(f"{place}: {shown(path)} is no file of a checkpoint")
        sidecar = log / "_sidecars" / path
        yield from (it for it in delta_checkpoint.actions(sidecar, _bytes(sidecar)) if it[1] == "add")


def _lines(file: pathlib.Path) -> Iterator[_Action]:
    """Yields the actions of a file in JSON."""
    for number, line in enumerate(_bytes(file).split(b"\n"), 1):
        if not line.strip():
            continue
        place = f"{file}, line {number}"
        found = parsed(line, place)
        if not isinstance(found, dict) or len(found) != 1:
            raise DeltaError(f"{place}: {shown(found)} is no action")
        ((name, fields),) = found.items()
        if name not in _ACTIONS:
            continue
        if not isinstance(fields, dict):
            raise DeltaError(f"{place}: {name} is {shown(fields)}; expected an object")
        yield place, name, fields


# -- the snapshot


#: A file by its path and its deletion vector: what the log adds and removes.
_Logical = tuple[str, str | None]


@dataclass
class _Snapshot:
    """What stands after some commits."""

    place: str
    protocol: tuple[str, dict[str, Any]] | None = None
    metadata: tuple[str, dict[str, Any]] | None = None
    live: dict[_Logical, tuple[str, dict[str, Any]]] = dataclasses.field(default_factory=dict)

    def apply(self, name: str, actions: Iterator[_Action]) -> None:
        """Applies the actions of one version, which have no order among themselves."""
        seen: set[object] = set()
        for place, action, fields in actions:
            key = _logical(fields, place) if action in ("add", "remove") else None
            if (key or action) in seen:
                raise DeltaError(f"{place}: {shown(key or action)} stands twice in {name}")
            seen.add(key or action)
            if action == "protocol":
                self.protocol = (place, fields)
            elif key is None:
                self.metadata = (place, fields)
            elif action == "add":
                self.live[key] = (place, fields)
            else:
                self.live.pop(key, None)

    def table(self, version: int, nan_free: frozenset[str]) -> Table:
        """Returns the files that are there."""
        if self.protocol is None or self.metadata is None:
            raise DeltaError(f"{self.place}: the log has no {'protocol' if self.protocol is None else 'metaData'}")
        features = _features(*self.protocol)
        schema = _Schema.of(*self.metadata, features, nan_free)
        zones = Zones(leaf.column for leaf in schema.leaves)
        files = [_add(schema, zones, key[0], fields, place) for key, (place, fields) in self.live.items()]
        return Table(self.place, version, files, zones)


def _logical(fields: dict[str, Any], place: str) -> _Logical:
    path = field(fields, "path", str, place)
    vector = field(fields, "deletionVector", dict, place, None)
    if vector is None:
        return _decoded(path, place), None
    offset = field(vector, "offset", int, place, None)
    name: str = field(vector, "storageType", str, place) + field(vector, "pathOrInlineDv", str, place)
    return _decoded(path, place), name if offset is None else f"{name}@{offset}"


def _decoded(path: str, place: str) -> str:
    """Returns a path without the escapes of an URI."""
    if re.search(r"%(?![0-9A-Fa-f]{2})", path):
        raise DeltaError(f"{place}: the path {shown(path)} is no URI")
    try:
        return urllib.parse.unquote(path, errors="strict")
    except UnicodeDecodeError:
        raise DeltaError(f"{place}: the path {shown(path)} isn't UTF-8") from None


def _features(place: str, protocol: dict[str, Any]) -> frozenset[str]:
    """Returns the names of what a reader of the table has to know. DeltaError where one isn't known here."""
    version = count(protocol, "minReaderVersion", place)
    if not 1 <= version <= 3:
        raise DeltaError(f"{place}: the table needs a reader of version {version}; versions 1 to 3 are known")
    if version < 3:
        return frozenset(["columnMapping"] if version == 2 else [])
    found = frozenset(texts(protocol, "readerFeatures", place))
    unknown = sorted(found - _FEATURES)
    if unknown:
        raise DeltaError(f"{place}: the table needs a reader of {shown(unknown[0])}, which isn't known")
    return found


# -- the schema


@dataclass(frozen=True)
class _Leaf:
    """A column without fields of its own: its place in the statistics, by the names in the files, and how its values are written."""

    column: Column
    path: tuple[str, ...]
    form: Form


@dataclass(frozen=True)
class _Schema:
    """The columns of a table, and those of them that are the same in all rows of a file."""

    leaves: tuple[_Leaf, ...]
    partitions: frozenset[tuple[str, ...]]

    @classmethod
    def of(cls, place: str, metadata: dict[str, Any], features: frozenset[str], nan_free: frozenset[str]) -> _Schema:
        """Reads the schema of a metaData action."""
        provider = field(field(metadata, "format", dict, place, {}), "provider", str, place, "parquet")
        if provider != "parquet":
            raise DeltaError(f"{place}: the table's files are {shown(provider)}, not parquet")
        mode = field(field(metadata, "configuration", dict, place, {}), "delta.columnMapping.mode", str, place, "none")
        if mode not in ("none", "name", "id") or (mode != "none" and "columnMapping" not in features):
            raise DeltaError(f"{place}: columns are mapped by {shown(mode)}, which the table's protocol doesn't have")
        root = parsed(field(metadata, "schemaString", str, place), f"{place}, schemaString")
        reading = _Reading(place, mode != "none", nan_free)
        reading.fields(root, "", (), False)
        return reading.schema(texts(metadata, "partitionColumns", place, []))


@dataclass
class _Reading:
    """A schema that is read field by field."""

    place: str
    is_mapped: bool
    nan_free: frozenset[str]
    leaves: dict[str, _Leaf] = dataclasses.field(default_factory=dict)

    def fields(self, struct: Any, prefix: str, path: tuple[str, ...], nullable: bool) -> None:
        if not isinstance(struct, dict) or struct.get("type") != "struct":
            raise DeltaError(f"{self.place}: the schema is {shown(struct)}; expected a struct")
        if len(path) >= MOST_LEVELS:
            raise DeltaError(f"{self.place}: the schema nests more than {MOST_LEVELS} levels deep")
        for it in objects(struct, "fields", self.place):
            self.one(it, prefix, path, nullable)

    def one(self, it: dict[str, Any], prefix: str, path: tuple[str, ...], nullable: bool) -> None:
        name = prefix + field(it, "name", str, self.place)
        place = f"{self.place}, column {name}"
        metadata = field(it, "metadata", dict, place, {})
        kind = field(it, "type", (str, dict), place)
        nullable = field(it, "nullable", bool, place) or nullable
        inner = (*path, field(metadata, "delta.columnMapping.physicalName", str, place) if self.is_mapped else it["name"])
        if isinstance(kind, dict) and kind.get("type") == "struct":
            self.fields(kind, f"{name}.", inner, nullable)
            return
        if isinstance(kind, dict):
            word = field(kind, "type", str, place)
            form = Form(Unmapped(word), word)
        elif "__COLLATIONS" in metadata:
            form = Form(Unmapped("collated string"), kind)
        else:
            form = form_of(kind, name not in self.nan_free, "delta.typeChanges" in metadata)
        if name in self.leaves:
            raise DeltaError(f"{place}: two columns have this name")
        if len(self.leaves) >= MOST_COLUMNS:
            raise DeltaError(f"{self.place}: the table has more than {MOST_COLUMNS} columns")
        self.leaves[name] = _Leaf(Column(name, form.type, nullable), inner, form)

    def schema(self, partitions: list[str]) -> _Schema:
        paths: dict[tuple[str, ...], str] = {}
        for name, leaf in self.leaves.items():
            if leaf.path in paths:
                raise DeltaError(f"{self.place}: the columns {paths[leaf.path]} and {name} have one name in the files")
            paths[leaf.path] = name
        for name in partitions:
            if name not in self.leaves or len(self.leaves[name].path) != 1:
                raise DeltaError(f"{self.place}: the schema has no column {shown(name)}, by which the table is partitioned")
        return _Schema(tuple(self.leaves.values()), frozenset(self.leaves[name].path for name in partitions))


# -- what is told of a file


def _add(schema: _Schema, zones: Zones, path: str, fields: dict[str, Any], place: str) -> DataFile:
    """Takes what an add action tells of its file."""
    told = _Told.of(fields, place)
    zones.begin(told.rows, told.is_wide)
    partition = field(fields, "partitionValues", dict, place)
    for leaf in schema.leaves:
        try:
            if leaf.path in schema.partitions:
                _constant(zones, leaf, partition)
            else:
                told.column(zones, leaf)
        except ToldFault as fault:
            if leaf.path in schema.partitions:
                raise DeltaError(f"{place}, column {leaf.column.name}: {fault}") from None
            zones.forget(leaf.column.name)
    return DataFile(path, count(fields, "size", place), told.rows, told.is_wide)


def _constant(zones: Zones, leaf: _Leaf, partition: dict[str, Any]) -> None:
    """Tells the one value that a column has in all rows of a file. An empty text is null, of any type."""
    if leaf.path[0] not in partition:
        raise ToldFault("partitionValues doesn't have it")
    text = partition[leaf.path[0]]
    if not isinstance(text, str | None):
        raise ToldFault(f"the partition's value is {shown(text)}; expected a text")
    if not text:
        if not leaf.column.nullable:
            raise ToldFault("the partition is null, and the column isn't nullable")
        zones.all_null(leaf.column.name)
        return
    zones.bounds(leaf.column.name, *leaf.form.constant(text))
    zones.nulls(leaf.column.name, 0)


@dataclass(frozen=True)
class _Told:
    """The statistics of a file."""

    #: Rows that the file has; None where it isn't told.
    physical: int | None
    #: Rows that belong to the table.
    rows: int | None
    #: Whether the statistics are those of more rows than belong to the table.
    is_wide: bool
    least: Any
    greatest: Any
    nulls: Any

    @classmethod
    def of(cls, fields: dict[str, Any], place: str) -> _Told:
        """Reads the statistics of a file. Of one whose statistics say what can't be nothing is known."""
        vector = field(fields, "deletionVector", dict, place, None)
        deleted = 0 if vector is None else count(vector, "cardinality", place)
        try:
            return cls._of_stats(fields, deleted, vector, f"{place}, stats")
        except (JsonFault, ToldFault):
            return cls(None, None, vector is not None, {}, {}, {})

    @classmethod
    def _of_stats(cls, fields: dict[str, Any], deleted: int, vector: Any, where: str) -> _Told:
        text = field(fields, "stats", str, where, "")
        stats = parsed(text, where) if text else {}
        if not isinstance(stats, dict):
            raise ToldFault(f"stats is {shown(stats)}; expected an object")
        physical = count(stats, "numRecords", where, None)
        if physical is not None and deleted > physical:
            raise ToldFault(f"{deleted} of {physical} rows are deleted")
        is_wide = vector is not None or not field(stats, "tightBounds", bool, where, True)
        least, greatest, nulls = (field(stats, name, dict, where, {}) for name in ("minValues", "maxValues", "nullCount"))
        return cls(physical, None if physical is None else physical - deleted, is_wide, least, greatest, nulls)

    def column(self, zones: Zones, leaf: _Leaf) -> None:
        """Tells what is known of a column. ToldFault where it is told what can't be."""
        least, greatest = leaf.form.bounds(_at(self.least, leaf.path), _at(self.greatest, leaf.path))
        zones.bounds(leaf.column.name, least, greatest)
        nulls = _at(self.nulls, leaf.path)
        if nulls is None:
            return
        most = 2**63 - 1 if self.physical is None else self.physical
        if not isinstance(nulls, int) or isinstance(nulls, bool) or not 0 <= nulls <= most:
            raise ToldFault(f"nullCount is {shown(nulls)}; expected a number of rows")
        if nulls == 0:
            zones.nulls(leaf.column.name, 0)
        elif nulls == self.physical:
            zones.all_null(leaf.column.name)
        elif self.physical is not None and not self.is_wide:
            zones.nulls(leaf.column.name, nulls)


def _at(tree: Any, path: tuple[str, ...]) -> Any:
    """Returns what stands at a place of nested objects; None where nothing does."""
    for name in path:
        if tree is None:
            return None
        if not isinstance(tree, dict):
            raise ToldFault(f"the statistics have {shown(tree)} in place of an object")
        tree = tree.get(name)
    return tree
