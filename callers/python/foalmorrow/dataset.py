# SPDX-License-Identifier: Apache-2.0
"""A directory of files, each with footers of its own: their row groups as zones, and what its folders are named for as constant columns.

>>> table = read("/data/sales", partitions={"year": DType.I32}, footers="/data/sales.footers")     # doctest: +SKIP
>>> [(file.path, file.row_group) for file in table.files_for(col("year") == 2024)]                 # doctest: +SKIP

Footers are read side by side, and kept in one file with the size and the time of change of each data file, so that only changed files are read
anew. docs/SYSTEMS.md says what is taken as exact.
"""
from __future__ import annotations

import json
import os
import re
import time
import urllib.parse
from collections import Counter
from collections.abc import Callable, Iterable, Mapping, Sequence
from concurrent.futures import ThreadPoolExecutor
from dataclasses import dataclass
from functools import partial
from typing import Any

from . import parquet_footers
from .footers import FooterError, Footers
from .items import shown
from .kinds import Column, DType, Logical, Stat
from .stamps import Stamp, stamp_of
from .statistic import without_nulls
from .tables import Bound, DataFile, Table, Zones
from .types import Unmapped

__all__ = ["DatasetError", "read"]

#: Reads the footers of a file by its path: a zone for each row group.
Reader = Callable[[str], Footers]
#: Calls a function of each item, in their order, as Python's own map does.
Map = Callable[[Callable[[str], Any], Sequence[str]], Iterable[Any]]
Type = DType | Logical

#: What Hive names a folder for in place of null.
_NULL = "__HIVE_DEFAULT_PARTITION__"
#: Levels of the deepest folder, and files of the greatest directory.
MOST_LEVELS, MOST_FILES = 64, 10**7


class DatasetError(ValueError):
    """A directory that isn't read: whose folders lead back into themselves, or whose files or folders don't fit one another."""


def read(
    folder: str | os.PathLike[str],
    *,
    footers: str | os.PathLike[str] | None = None,
    partitions: Mapping[str, Type] | None = None,
    reader: Reader | None = None,
    suffix: str = ".parquet",
    map: Map | None = None,
) -> Table:
    """Reads the footers of the files in a directory and in the folders below it.

    Folders named ``key=value`` make columns, which are texts unless ``partitions`` says of which type they are. Names that begin with ``_`` or
    ``.`` are left out. ``footers`` is the file in which footers are kept. ``reader`` reads those of a file, by default as Parquet. ``map`` calls
    it side by side, by default in threads; ``foalmorrow.cluster.spread`` does so on a Dask cluster.

    A column that files have in several types is of the one that most files have. In the others no more is known of it than its nulls, and of a column
    that folders are named for and files have, too, nothing.

    DatasetError where folders lead back into themselves, files are named for different keys, a folder's value is none of its type, or a file changes
    while it is read; errors of the reader as they are.
    """
    place = os.fspath(folder)
    paths = _files(place, suffix)
    keys = _Keys.of(place, paths, partitions or {})
    stamps = {path: _stamp(place, path) for path in paths}
    kept = {} if footers is None or not os.path.exists(footers) else _load(footers, place)
    pieces = {path: kept[path][1] for path in paths if path in kept and kept[path][0] == stamps[path]}
    fresh = [path for path in paths if path not in pieces]
    began = time.time_ns()
    for path, data in zip(fresh, (map or _threads)(partial(_bytes_of, reader or parquet_footers.read, place), fresh), strict=True):
        if _stamp(place, path) != stamps[path]:
            raise DatasetError(f"{os.path.join(place, path)} was changed while its footers were read")
        pieces[path] = Footers.from_bytes(data)[0]
    whole = _joined(paths, pieces)
    if footers is not None and (fresh or len(kept) != len(paths)):
        _save(footers, place, whole, [(path, stamps[path], pieces[path]) for path in paths], began)
    files = [DataFile(path, stamps[path].size, rows, row_group=group) for path in paths for group, rows in enumerate(pieces[path].rows)]
    return Table(place, None, files, keys.added_to(whole, [len(pieces[path]) for path in paths]))


# -- files


def _stamp(place: str, path: str) -> Stamp:
    try:
        return stamp_of(os.path.join(place, path))
    except OSError as fault:
        raise DatasetError(f"{os.path.join(place, path)} is gone: {fault}") from fault


def _files(place: str, suffix: str) -> list[str]:
    """Returns the paths of all files below a folder, in their order."""
    found: list[str] = []
    pending: list[tuple[str, tuple[tuple[int, int], ...]]] = [("", ())]
    while pending:
        folder, above = pending.pop()
        here = os.path.join(place, folder)
        try:
            told = os.stat(here)
            entries = [it for it in os.scandir(here) if not it.name.startswith(("_", "."))]
        except OSError as fault:
            raise DatasetError(f"{here} can't be read: {fault}") from fault
        if (told.st_dev, told.st_ino) in above:
            raise DatasetError(f"{here} leads back into a folder above it")
        if len(above) >= MOST_LEVELS:
            raise DatasetError(f"{here} is more than {MOST_LEVELS} folders deep")
        for it in entries:
            _text(it.name, here)
            if it.is_dir():
                pending.append((os.path.join(folder, it.name), (*above, (told.st_dev, told.st_ino))))
            elif it.name.endswith(suffix):
                found.append(os.path.join(folder, it.name))
        if len(found) > MOST_FILES:
            raise DatasetError(f"{place} has more than {MOST_FILES} files")
    if not found:
        raise DatasetError(f"{place} has no file whose name ends with {suffix!r}")
    return sorted(found)


def _text(name: str, place: str) -> str:
    try:
        name.encode()
    except UnicodeEncodeError:
        raise DatasetError(f"{place}: the name {shown(name)} isn't UTF-8") from None
    return name


def _threads(work: Callable[[str], Any], paths: Sequence[str]) -> Iterable[Any]:
    with ThreadPoolExecutor(max_workers=min(32, 4 * (os.cpu_count() or 1))) as pool:
        return list(pool.map(work, paths))


def _bytes_of(reader: Reader, place: str, path: str) -> bytes:
    """Reads the footers of a file, in the form in which they travel."""
    found = reader(os.path.join(place, path))
    if not isinstance(found, Footers):
        raise DatasetError(f"{os.path.join(place, path)}: the reader gave {shown(found)}; expected Footers")
    return found.to_bytes()


# -- footers of files that don't have the same columns


def _joined(paths: Sequence[str], pieces: Mapping[str, Footers]) -> Footers:
    """Returns the footers of all files, one behind the other. A column that a file doesn't have is unknown there, and so are its nulls."""
    types: dict[str, Counter[Type]] = {}
    is_nullable: set[str] = set()
    for path in paths:
        for column in pieces[path].columns:
            types.setdefault(column.name, Counter())[column.type] += 1
            is_nullable |= {column.name} if column.nullable else set()
    columns = [Column(name, _common(it), name in is_nullable or it.total() < len(paths) or len(it) > 1) for name, it in types.items()]
    return Footers.joined([_with_columns(pieces[path], columns) for path in paths])


def _common(types: Counter[Type]) -> Type:
    """Returns the type that most files have, the first one of several; an unmapped one where there is no other."""
    found = Counter({kind: count for kind, count in types.items() if not isinstance(kind, Unmapped)})
    return (found or types).most_common(1)[0][0]


def _with_columns(piece: Footers, columns: Sequence[Column]) -> Footers:
    """Returns footers of a file under the columns of the table. That a column of the file isn't nullable is told as its null count, and of one that has
    another type there no more is told."""
    types = {column.name: column.type for column in columns}
    others = {column.name for column in piece.columns if column.type != types[column.name]}
    statistics = {(name, stat): it for (name, stat), it in piece.statistics.items() if name not in others or stat == Stat.NULL_COUNT}
    for column in piece.columns:
        if not column.nullable and column.dtype != DType.NULL:
            statistics[column.name, Stat.NULL_COUNT] = without_nulls(piece.rows, statistics.get((column.name, Stat.NULL_COUNT)))
    return Footers(columns, piece.rows, statistics)


# -- footers that are kept


def _save(path: str | os.PathLike[str], place: str, whole: Footers, files: Sequence[tuple[str, Stamp, Footers]], began: int) -> None:
    """Keeps the footers of all files in one. A file that may change once more within a tick of its clock is read anew the next time."""
    schemas: dict[tuple[tuple[str, bool], ...], int] = {}
    told = []
    for name, stamp, piece in files:
        # A column of nulls alone may be of another type in the table.
        number = schemas.setdefault(tuple((it.name, it.nullable or it.dtype == DType.NULL) for it in piece.columns), len(schemas))
        kept = stamp.as_kept(began)
        told.append([name, kept.size, kept.content, kept.change, len(piece), number])
    whole.save(path, json.dumps({"dataset": os.path.realpath(place), "schemas": list(schemas), "files": told}))


def _load(path: str | os.PathLike[str], place: str) -> dict[str, tuple[Stamp, Footers]]:
    """Returns the stamp and the footers of each file that are kept. FooterError where they are of another directory, or of none."""
    whole, note = Footers.load_with_note(path)
    try:
        told = json.loads(note)
        if told["dataset"] != os.path.realpath(place):
            raise FooterError(f"{path} has the footers of {shown(told['dataset'])}, not of {place}")
        schemas = [[(str(name), bool(nullable)) for name, nullable in it] for it in told["schemas"]]
        files = [
            (str(name), Stamp(int(size), int(content), int(change)), int(count), schemas[number]) for name, size, content, change, count, number in told["files"]
        ]
    except (KeyError, TypeError, ValueError, IndexError, RecursionError) as fault:
        raise fault if isinstance(fault, FooterError) else FooterError(f"{path} has the footers of no directory") from fault
    if sum(count for _, _, count, _ in files) != len(whole) or any(count < 0 for _, _, count, _ in files):
        raise FooterError(f"{path} has the footers of other files than it says")
    types = {column.name: column.type for column in whole.columns}
    found, start = {}, 0
    for name, stamp, count, schema in files:
        if any(column not in types for column, _ in schema):
            raise FooterError(f"{path} has the footers of other columns than it says")
        columns = [Column(column, types[column], nullable) for column, nullable in schema]
        names, zones = {column.name for column in columns}, whole.slice(start, start + count)
        found[name] = (stamp, Footers(columns, zones.rows, {key: it for key, it in zones.statistics.items() if key[0] in names}))
        start += count
    return found


# -- folders as columns


@dataclass(frozen=True)
class _Keys:
    """The columns that folders are named for, and the value of each in each file: None for null."""

    columns: tuple[Column, ...]
    values: tuple[tuple[bool | int | bytes | None, ...], ...]

    @classmethod
    def of(cls, place: str, paths: Sequence[str], partitions: Mapping[str, Type]) -> _Keys:
        told = [[it.split("=", 1) for it in path.split(os.sep)[:-1] if "=" in it] for path in paths]
        names = [_decoded(key, place) for key, _ in told[0]]
        for path, pairs in zip(paths, told):
            if [_decoded(key, place) for key, _ in pairs] != names:
                raise DatasetError(f"{place}: the folders of {paths[0]} and of {path} are named for different columns")
        if len(set(names)) != len(names) or not set(partitions) <= set(names):
            odd = next((name for name in partitions if name not in names), names)
            raise DatasetError(f"{place}: no folder is named for the column {shown(odd)}, or two are")
        types = [partitions.get(name, DType.UTF8) for name in names]
        values = [tuple(_value(kind, text, f"{place}, {path}") for kind, (_, text) in zip(types, pairs)) for path, pairs in zip(paths, told)]
        nullable = [any(it[at] is None for it in values) for at in range(len(names))]
        return cls(tuple(Column(*it) for it in zip(names, types, nullable)), tuple(values))

    def added_to(self, footers: Footers, counts: Sequence[int]) -> Footers:
        """Returns the footers with these columns beside the files' own. Of one that files have too nothing is known."""
        both = {column.name for column in footers.columns} & {column.name for column in self.columns}
        zones = Zones(self.columns)
        rows = iter(footers.rows)
        for values, count in zip(self.values, counts):
            for _ in range(count):
                zones.begin(next(rows))
                for column, value in zip(self.columns, values):
                    _tell(zones, column, value)
        unknown = [Column(name, Unmapped("of folders and files"), True) for name in sorted(both)]
        columns = [*(column for column in (*footers.columns, *self.columns) if column.name not in both), *unknown]
        told = {**footers.statistics, **zones.footers().statistics}
        return Footers(columns, footers.rows, {key: it for key, it in told.items() if key[0] not in both})


def _tell(zones: Zones, column: Column, value: bool | int | bytes | None) -> None:
    if value is None:
        zones.all_null(column.name)
    else:
        zones.bounds(column.name, Bound(value, True), Bound(value, True))
        zones.nulls(column.name, 0)


def _decoded(text: str, place: str) -> str:
    if re.search(r"%(?![0-9A-Fa-f]{2})", text):
        raise DatasetError(f"{place}: {shown(text)} in the name of a folder is no URI")
    try:
        return urllib.parse.unquote(text, errors="strict")
    except UnicodeDecodeError:
        raise DatasetError(f"{place}: {shown(text)} in the name of a folder isn't UTF-8") from None


def _value(kind: Type, raw: str, place: str) -> bool | int | bytes | None:
    """Returns the value that a folder is named for, as one of the physical type; None for null."""
    text = _decoded(raw, place)
    if text == _NULL:
        return None
    found: Any = None
    if isinstance(kind, Logical):
        found = kind.stored(text)
    elif kind == DType.UTF8 and text:
        found = text.encode()
    elif kind == DType.BOOL and text in ("true", "false"):
        found = text == "true"
    elif kind.range is not None and re.fullmatch(r"[+-]?[0-9]{1,40}", text) and kind.range[0] <= int(text) <= kind.range[1]:
        found = int(text)
    if found is None:
        raise DatasetError(f"{place}: {shown(text)} in the name of a folder is no {kind.word}")
    return found  # type: ignore[no-any-return]
