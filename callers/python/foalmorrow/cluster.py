# SPDX-License-Identifier: Apache-2.0
"""A cluster (Dask): a table of more files than a machine holds, measured, merged, pruned and read where its partitions lie.

Only footers travel: each worker measures its own partitions. The footers of a table stand in one file beside it; a partition that was
changed since, or less than two seconds before it was measured, is measured anew. A worker writes nothing, and what one that dies had in hand
another does again.
"""
from __future__ import annotations

import asyncio
import contextlib
import json
import os
import pathlib
import re
import time
import warnings
from collections import deque
from collections.abc import Callable, Iterator, Mapping, Sequence
from concurrent.futures import CancelledError
from dataclasses import dataclass
from typing import Any

from dask import delayed
from distributed import Client, KilledWorker

from .answers import Answers
from .footers import ALL, PRUNING, FooterError, Footers, Nullable
from .items import expected, value_of
from .kinds import Answer, Column, DType, Logical, Stat
from .predicate import Predicate
from .stamps import Stamp, stamp_of
from .types import FixedBinary, Float32, Float64

Chunk = Mapping[str, object]
#: Reads a partition to a chunk's columns.
Reader = Callable[[str, tuple[Column, ...]], Chunk]

#: Zones that are pruned or merged in one task.
_SHARD = 100_000
#: The statistics whose merge is the same whatever the tree's shape.
SHAPELESS = (*PRUNING, Stat.UNCOMPRESSED_SIZE_IN_BYTES)


class TableError(ValueError):
    """A table whose files aren't what they were taken for."""


@dataclass(frozen=True)
class Table:
    """The partitions of a table: a file each, in order, and how one is read to a chunk's columns."""

    columns: tuple[Column, ...]
    files: tuple[str, ...]
    read: Reader

    def stamps(self) -> list[Stamp]:
        """The sizes, times and names of each partition's files. TableError where one is gone."""
        return [_stamp(file) for file in self.files]


def _stamp(file: str) -> Stamp:
    try:
        return stamp_of(file)
    except OSError as fault:
        raise TableError(f"the partition {file} is gone") from fault


@dataclass
class Kept:
    """The footers of a table's partitions, a zone each, with what their files were when they were measured."""

    files: list[str]
    #: Of a partition that may change once more within a tick of its clock, the stamp of none.
    stamps: list[Stamp]
    footers: Footers

    def save(self, path: str | os.PathLike[str]) -> None:
        """Writes them to one file, whole or not at all."""
        self.footers.save(path, json.dumps({"files": self.files, "stamps": self.stamps}))

    @classmethod
    def load(cls, path: str | os.PathLike[str]) -> Kept:
        """Reads them back. FooterError as of ``Footers.load``, or where the file is of no table of files."""
        footers, note = Footers.load_with_note(path)
        try:
            told = json.loads(note)
            files, stamps = told["files"], [Stamp(size, content, change, names) for size, content, change, names in told["stamps"]]
        except (ValueError, KeyError, TypeError, RecursionError) as fault:
            raise FooterError(f"{path} has the footers of no table of files") from fault
        numbers = [number for stamp in stamps for number in stamp[:3]]
        names = [stamp.names for stamp in stamps]
        if not (isinstance(files, list) and {str} >= set(map(type, [*files, *names])) and {int} >= set(map(type, numbers))):
            raise FooterError(f"{path} has the footers of no table of files")
        if not len(files) == len(stamps) == len(footers):
            raise FooterError(f"{path} has {len(footers)} footers for {len(files)} files")
        return cls(files, stamps, footers)


@contextlib.contextmanager
def _asked() -> Iterator[None]:
    """A cluster that went away is a ConnectionError, as a server is elsewhere."""
    try:
        yield
    except (KilledWorker, CancelledError, asyncio.CancelledError, asyncio.TimeoutError) as fault:
        raise ConnectionError(f"the cluster doesn't answer: {fault!r}") from fault
    except OSError as fault:
        if isinstance(fault, (FileNotFoundError, PermissionError)):
            raise
        raise ConnectionError(f"the cluster doesn't answer: {fault!r}") from fault


@contextlib.contextmanager
def _reading(file: str) -> Iterator[None]:
    """What is wrong with a partition is told with its name."""
    try:
        yield
    except TableError:
        raise
    except (ValueError, OSError) as fault:
        raise TableError(f"{file}: {fault}") from fault


def _measured(read: Reader, columns: tuple[Column, ...], file: str, wanted: Sequence[Stat]) -> bytes:
    with _reading(file):
        return Footers.measure(columns, [read(file, columns)], wanted).to_bytes()


def measure(
    client: Client, table: Table, kept: Kept | None = None, wanted: Sequence[Stat] = ALL, watch: Callable[[list[Any]], object] | None = None
) -> tuple[Kept, list[str]]:
    """The footers of all partitions, measured where they lie, and the files that were measured now.

    A partition whose files have the names, sizes and times that they had in ``kept`` keeps its footer, unless it was changed less than two seconds
    before it was measured. What a worker that dies had measured is measured again. ``watch`` is handed the tasks before they are waited for, as
    ``distributed.progress`` takes them.

    TableError, with the file, where a partition is gone, changes while it is measured, lacks a column or has a value that isn't of its column's
    type; FooterError where ``kept`` is of other columns; ConnectionError where the cluster goes away.
    """
    began, stamps = time.time_ns(), table.stamps()
    known: dict[str, tuple[Stamp, Footers]] = {}
    if kept is not None:
        if kept.footers.columns != table.columns:
            raise FooterError("the footers are of a table with other columns")
        known = {file: (kept.stamps[i], kept.footers.slice(i, i + 1)) for i, file in enumerate(kept.files)}
    fresh = [file for file, stamp in zip(table.files, stamps) if file not in known or known[file][0] != stamp]
    with _asked():
        tasks = [client.submit(_measured, table.read, table.columns, file, tuple(wanted), pure=False) for file in fresh]
        if watch is not None:
            watch(tasks)
        told = client.gather(tasks)
    new = dict(zip(fresh, (Footers.from_bytes(data)[0] for data in told)))
    for file, stamp in zip(table.files, stamps):
        if file in new and _stamp(file) != stamp:
            raise TableError(f"{file} was changed while it was measured")
    pieces = [new[file] if file in new else known[file][1] for file in table.files]
    return Kept(list(table.files), [stamp.as_kept(began) for stamp in stamps], Footers.joined(pieces)), fresh


def merge(client: Client, footers: Footers, wanted: Sequence[Stat] = SHAPELESS, shard: int = _SHARD, fan: int = 8) -> Footers:
    """The footers of all zones as one, merged by the workers: each a shard of neighbours, and what they answer up a tree of ``fan`` at a time.

    The least and greatest values, the counts of nulls and the sizes are what merging from left to right gives, whatever the shape; of the other
    statistics, which hang on it where a sum leaves its type on the way or a chunk has no values, those alone that are ``wanted``.
    """
    if not len(footers):
        return footers.only(wanted)
    with _asked():
        level = [_sent(client, _merged, piece.to_bytes()) for piece in footers.only(wanted).shards(shard)]
        while len(level) > 1:
            level = [client.submit(_merged, *level[at : at + fan], pure=False) for at in range(0, len(level), fan)]
        return Footers.from_bytes(level[0].result())[0]


def _sent(client: Client, work: Callable[..., bytes], *given: object) -> Any:
    """Work on footers that travel with the task, so that another worker can do it again. Dask warns of arguments of more than a megabyte."""
    with warnings.catch_warnings():
        warnings.filterwarnings("ignore", message="Large object")
        return client.submit(work, *given, pure=False)


def _merged(*pieces: bytes) -> bytes:
    return Footers.joined([Footers.from_bytes(piece)[0] for piece in pieces]).merged().to_bytes()


def prune(client: Client, footers: Footers, predicate: Predicate, normalize: bool = True, shard: int = _SHARD) -> Answers:
    """What to do with each zone, as ``Footers.prune`` answers, by the workers where there are more zones than a shard.

    Of the footers what pruning reads of the predicate's columns travels, a few shards at a time. ``normalize`` is taken and has no effect.
    """
    if len(footers) <= shard:
        return footers.prune(predicate)
    # What doesn't fit the columns is refused here, and not by a worker.
    footers.slice(0, 0).prune(predicate)
    names = set(predicate.names())
    columns = [column for column in footers.columns if column.name in names]
    known = {key: it for key, it in footers.statistics.items() if key[0] in names and key[1] in PRUNING}
    pieces = Footers(columns, footers.rows, known).shards(shard)
    with _asked():
        room = 2 * max(len(client.scheduler_info()["workers"]), 1)
        pending: deque[Any] = deque()
        codes: list[bytes] = []
        for piece in pieces:
            if len(pending) == room:
                codes.append(pending.popleft().result())
            pending.append(_sent(client, _pruned, piece.to_bytes(), predicate))
        codes += [future.result() for future in pending]
    return Answers(b"".join(codes))


def _pruned(data: bytes, predicate: Predicate) -> bytes:
    return bytes(Footers.from_bytes(data)[0].prune(predicate).codes)


@dataclass(frozen=True)
class Selected:
    """The partitions that are read for a predicate, each as a delayed frame of the rows that satisfy it."""

    columns: tuple[Column, ...]
    files: list[str]
    #: Those of them that were changed since they were measured or just before, or weren't measured: read whatever is known of them.
    changed: list[str]
    parts: list[Any]

    def frame(self) -> Any:
        """All of them as one dask.dataframe."""
        import dask.dataframe

        from .frames import frame_of

        meta = frame_of(self.columns, {column.name: [] for column in self.columns})
        if not self.parts:
            return dask.dataframe.from_pandas(meta, npartitions=1)
        return dask.dataframe.from_delayed(self.parts, meta=meta, verify_meta=False)


def select(client: Client, table: Table, kept: Kept, predicate: Predicate) -> Selected:
    """The rows that satisfy a predicate, of the partitions that aren't ruled out: what a filter of all partitions answers.

    Nothing is read yet: ``frame`` and ``parts`` are Dask's, to go on with. A partition that isn't what it was when it was measured, or that was
    changed less than two seconds before, is among those that are read. PredicateError where the predicate doesn't fit the table; FooterError where ``kept`` is of other columns.
    """
    if kept.footers.columns != table.columns:
        raise FooterError("the footers are of a table with other columns")
    answers = prune(client, kept.footers, predicate)
    skipped = {(file, kept.stamps[zone]) for zone, (file, answer) in enumerate(zip(kept.files, answers)) if answer == Answer.SKIP}
    measured = set(zip(kept.files, kept.stamps))
    told = list(zip(table.files, table.stamps()))
    files = [file for file, stamp in told if (file, stamp) not in skipped]
    changed = [file for file, stamp in told if (file, stamp) not in measured]
    parts = [delayed(_filtered)(table.read, table.columns, file, predicate) for file in files]
    return Selected(table.columns, files, changed, parts)


def _filtered(read: Reader, columns: tuple[Column, ...], file: str, predicate: Predicate) -> Any:
    from .frames import frame_of, rows

    with _reading(file):
        return rows(predicate, columns, frame_of(columns, read(file, columns)))


def csv_table(folder: str | os.PathLike[str], columns: Sequence[Column]) -> Table:
    """A folder of CSV files with a header line, a partition each, by their names. An empty cell of a nullable column is null."""
    return Table(tuple(columns), _files(folder, ".csv"), read_csv)


def npy_table(folder: str | os.PathLike[str], columns: Sequence[Column]) -> Table:
    """A folder with a folder for each partition, in which each column is a file NAME.npy."""
    found = sorted(str(it) for it in pathlib.Path(folder).iterdir() if it.is_dir())
    if not found:
        raise TableError(f"{folder} has no partition")
    return Table(tuple(columns), tuple(found), read_npy)


def _files(folder: str | os.PathLike[str], ending: str) -> tuple[str, ...]:
    found = tuple(sorted(str(it) for it in pathlib.Path(folder).iterdir() if it.name.endswith(ending)))
    if not found:
        raise TableError(f"{folder} has no file that ends in {ending}")
    return found


def read_csv(file: str, columns: tuple[Column, ...]) -> Chunk:
    """Reads the columns of a CSV file with a header line.

    TableError, with the row, where a column is missing or stands twice, a row has more or fewer cells than the header, a blank line included,
    or a cell isn't of its column's type.
    """
    import csv

    try:
        with open(file, newline="", encoding="utf-8") as lines:
            header, *rows = csv.reader(lines, strict=True)
    except csv.Error as fault:
        raise TableError(f"{file} is no CSV file: {fault}") from fault
    except ValueError as fault:
        raise TableError(f"{file} has no header line, or isn't UTF-8") from fault
    places = {}
    for column in columns:
        if header.count(column.name) != 1:
            raise TableError(f"{file} has {header.count(column.name) or 'no'} columns {column.name}; expected one")
        places[column.name] = header.index(column.name)
    for i, row in enumerate(rows):
        if len(row) != len(header):
            raise TableError(f"{file}, row {i}: {len(row)} cells; expected {len(header)}")
    return {column.name: [_cell(file, i, column, row[places[column.name]]) for i, row in enumerate(rows)] for column in columns}


def _cell(file: str, row: int, column: Column, text: str) -> object:
    if text == "" and (column.nullable or column.dtype == DType.NULL):
        return None
    value: object = None
    if column.logical is not None:
        value = _logical_cell(column.logical, text)
        if value is None or column.logical.stored(value) is None:
            raise TableError(f"{file}, row {row}, column {column.name}: {text!r} is no {column.word}; expected {column.logical.expected}")
        return value
    if column.dtype.range is not None:
        value = int(text) if re.fullmatch("-?[0-9]{1,20}", text) else None
    elif column.dtype == DType.BOOL:
        value = {"true": True, "false": False}.get(text.lower())
    elif column.dtype == DType.BINARY:
        value = bytes.fromhex(text) if re.fullmatch("([0-9a-fA-F]{2})*", text) else None
    elif column.dtype == DType.UTF8:
        value = text
    if value is None or value_of(column.dtype, value) is None:
        raise TableError(f"{file}, row {row}, column {column.name}: {text!r} is no {column.word}; expected {expected(column.dtype)}")
    return value


def _logical_cell(kind: Logical, text: str) -> object:
    """Returns a cell as an item of a logical type: bytes in hexadecimal digits, floating numbers as Python writes them, and others as texts."""
    if isinstance(kind, (Float32, Float64)):
        try:
            return float(text) if re.fullmatch("[-+.0-9a-zA-Z]+", text) else None
        except ValueError:
            return None
    if isinstance(kind, FixedBinary):
        return bytes.fromhex(text) if re.fullmatch("([0-9a-fA-F]{2})*", text) else None
    return text


def read_npy(folder: str, columns: tuple[Column, ...]) -> Chunk:
    """The columns of a folder of arrays; NAME.null.npy, where it is there, says which rows of a column are null.

    TableError where an array is missing, or has items of another type than its column.
    """
    import numpy

    found: dict[str, object] = {}
    for column in columns:
        file, nulls = (pathlib.Path(folder) / f"{column.name}{ending}" for ending in (".npy", ".null.npy"))
        if not file.exists():
            raise TableError(f"{folder} has no file {file.name}")
        values = numpy.load(file)
        # What an array of a logical type may hold is looked at where it is measured.
        is_other = values.dtype.kind not in _KINDS[column.dtype] or (column.dtype.width and values.dtype.itemsize != column.dtype.width)
        if column.logical is None and is_other:
            raise TableError(f"{file}: items of form {values.dtype} are no {column.dtype.word}")
        found[column.name] = Nullable(values, numpy.load(nulls)) if nulls.exists() else values
    return found


#: The kinds of numpy's items that are values of a type.
_KINDS = {dtype: "i" if dtype >= DType.I8 else "u" for dtype in DType if dtype.range is not None}
_KINDS |= {DType.BOOL: "b", DType.UTF8: "U", DType.BINARY: "S", DType.NULL: ""}


def spread(client: Client) -> Callable[[Callable[[str], Any], Sequence[str]], list[Any]]:
    """Returns a function that calls another one of each item on the workers, as ``foalmorrow.dataset.read`` takes it for the footers of its files.

    ConnectionError where the cluster goes away.
    """

    def mapped(work: Callable[[str], Any], items: Sequence[str]) -> list[Any]:
        with _asked():
            return list(client.gather(client.map(work, list(items), pure=False)))

    return mapped
