# SPDX-License-Identifier: Apache-2.0
"""Checkpoints of Delta's log in Parquet: the actions that make up a version, as the JSON files have them.

Statistics are read where they stand as JSON. Of a checkpoint that has them in columns alone nothing is known of its files' columns.
"""
from __future__ import annotations

import pathlib
from collections.abc import Iterator
from typing import Any

from .parquet_values import ParquetFault, ParquetValues
from .strict_json import JsonFault

#: The names of the one group within a map, by different writers.
_MAPS = ("key_value", "map", "entries")
_LISTS = (("list", "element"), ("bag", "array_element"), ("list", "item"), ("list", "array"))

#: The columns of each action that are read.
_PLAIN = {
    "add": ("path", "size", "stats"),
    "metaData": ("schemaString",),
    "protocol": ("minReaderVersion",),
    "sidecar": ("path",),
}
_VECTOR = ("storageType", "pathOrInlineDv", "offset", "sizeInBytes", "cardinality")


def actions(file: pathlib.Path, data: bytes) -> Iterator[tuple[str, str, dict[str, Any]]]:
    """Yields where each action of a checkpoint stands, its name, and its fields. Files that were removed are left out.

    JsonFault, with the file, where it is no Parquet file, or one whose columns aren't read.
    """
    try:
        reading = _Reading(str(file), ParquetValues(data))
        found = [(row, name, fields) for name in _PLAIN for row, fields in reading.of(name)]
    except ParquetFault as fault:
        raise JsonFault(f"{file}: {fault}") from None
    for row, name, fields in sorted(found, key=lambda it: it[0]):
        yield f"{file}, row {row}", name, fields


class _Reading:
    """The columns of a checkpoint."""

    def __init__(self, place: str, values: ParquetValues):
        self.place, self.values = place, values

    def of(self, name: str) -> Iterator[tuple[int, dict[str, Any]]]:
        """Yields the rows of an action and its fields."""
        columns = {word: self._plain(name, word) for word in _PLAIN[name]}
        if name == "add":
            columns["partitionValues"] = self._map(name, "partitionValues")
            columns["deletionVector"] = self._vector()
        if name == "metaData":
            columns |= {"configuration": self._map(name, "configuration"), "partitionColumns": self._list(name, "partitionColumns")}
            columns["format"] = [None if it is None else {"provider": it} for it in self._plain(name, "format", "provider")]
        if name == "protocol":
            columns["readerFeatures"] = self._list(name, "readerFeatures")
        for row, cells in enumerate(zip(*columns.values(), strict=True)):
            # An action is there where one of its plain columns is.
            if any(columns[word][row] is not None for word in _PLAIN[name]):
                yield row, {word: cell for word, cell in zip(columns, cells) if cell is not None}

    def _plain(self, *path: str) -> list[Any]:
        return self.values.column(*path) if self.values.has(*path) else [None] * self.values.rows

    def _vector(self) -> list[Any]:
        parts = [self._plain("add", "deletionVector", word) for word in _VECTOR]
        told = ({word: cell for word, cell in zip(_VECTOR, cells) if cell is not None} for cells in zip(*parts))
        return [it or None for it in told]

    def _list(self, *path: str) -> list[Any]:
        for below in _LISTS:
            if self.values.has(*path, *below):
                return self.values.column(*path, *below)
        return [None] * self.values.rows

    def _map(self, *path: str) -> list[Any]:
        for below in _MAPS:
            if self.values.has(*path, below, "key") and self.values.has(*path, below, "value"):
                keys, values = self.values.column(*path, below, "key"), self.values.column(*path, below, "value")
                return [self._dict(*it) for it in zip(keys, values)]
        return [None] * self.values.rows

    def _dict(self, keys: list[Any], values: list[Any]) -> dict[str, Any]:
        found = dict(zip(keys, values, strict=True))
        if len(found) != len(keys):
            raise ParquetFault("a key stands twice in a map")
        return found
