# SPDX-License-Identifier: Apache-2.0
"""The file of footers: a header that lists arrays, the arrays, and a checksum. docs/FOOTERS.md says what stands where.

Whatever the bytes are, they are footers whose arrays can be read, or a ``FooterError``.
"""
from __future__ import annotations

import json
import os
import stat as modes
import uuid
import zlib
from array import array
from collections.abc import Mapping, Sequence
from typing import Any

from .arrays import Values, ValueFault
from .kinds import Column, DType, Logical, Precision, Stat, stat_dtype
from .statistic import FooterError, Statistic
from .types import of_word

MAGIC = b"foalmorrow footers 1\n"

Key = tuple[str, Stat]


def encoded(columns: Sequence[Column], rows: array[int], statistics: Mapping[Key, Statistic], note: str) -> bytes:
    """Returns the bytes of the file. FooterError where they couldn't be read again."""
    arrays, listed = [memoryview(rows).cast("B") if len(rows) else memoryview(b"")], []
    for (name, stat), it in statistics.items():
        _check_arrays(f"column {name}: {stat.name.lower()}", it, len(rows))
        listed.append({"column": name, "stat": stat.name, "bytes": [it.known.nbytes, it.values.data.nbytes, it.values.ends.nbytes]})
        arrays += [it.known, it.values.data, it.values.ends]
    for text in (note, *(column.name for column in columns), *(column.type.word for column in columns)):
        _check_text(text)
    for column in columns:
        if column.logical is not None and type(of_word(column.logical.word)) is not type(column.logical):
            raise FooterError(f"column {column.name}: no file holds this type: {column.logical!r}")
    told = [{"name": it.name, "type": it.dtype.name, "nullable": it.nullable} | _logical_field(it) for it in columns]
    header = json.dumps({"note": note, "zones": len(rows), "columns": told, "statistics": listed}).encode()
    body = MAGIC + len(header).to_bytes(8, "little") + header + b"".join(arrays)
    return body + zlib.crc32(body).to_bytes(4, "little")


def decoded(data: bytes) -> tuple[tuple[Column, ...], array[int], dict[Key, Statistic], str]:
    """Returns the columns, the rows of the zones, the statistics and the note that the bytes of a file hold. FooterError where they are none."""
    if not data.startswith(MAGIC):
        raise FooterError("this is no file of footers, or of another version")
    if len(data) < len(MAGIC) + 12 or zlib.crc32(data[:-4]) != int.from_bytes(data[-4:], "little"):
        raise FooterError("the file of footers is cut short or was changed")
    body = memoryview(data)[len(MAGIC) : -4]
    size = int.from_bytes(body[:8], "little")
    if size > len(body) - 8:
        raise FooterError(f"the header of the footers has {size} bytes, more than the file")
    header = _header(bytes(body[8 : 8 + size]))
    columns = _columns(header["columns"])
    taken = _Taken(body[8 + size :])
    zones = _number(header["zones"], "the number of zones")
    rows = array("Q", bytes(taken.next(8 * zones)))
    statistics = _statistics(header["statistics"], columns, zones, taken)
    if len(taken.rest):
        raise FooterError(f"{len(taken.rest)} bytes stand behind the last array")
    return columns, rows, statistics, _text(header["note"], "the note")


def _logical_field(column: Column) -> dict[str, str]:
    return {"logical": column.logical.word} if column.logical is not None else {}


def written(path: str | os.PathLike[str], data: bytes) -> None:
    """Writes a file whole or not at all. An old file's mode is kept, and a new one gets what the umask leaves."""
    path = os.fsdecode(path)
    name = os.path.join(os.path.dirname(os.path.abspath(path)), f".{uuid.uuid4().hex}.footers")
    handle = os.open(name, os.O_WRONLY | os.O_CREAT | os.O_EXCL | getattr(os, "O_CLOEXEC", 0), 0o666)
    try:
        with os.fdopen(handle, "wb") as file:
            if os.path.exists(path):
                os.chmod(name, modes.S_IMODE(os.stat(path).st_mode))
            file.write(data)
            file.flush()
            os.fsync(file.fileno())
        os.replace(name, path)
    except BaseException:
        os.unlink(name)
        raise


class _Taken:
    """Arrays that stand one behind the other."""

    def __init__(self, rest: memoryview):
        self.rest = rest

    def next(self, length: int) -> memoryview:
        if length > len(self.rest):
            raise FooterError(f"an array of {length} bytes is cut short at {len(self.rest)}")
        found, self.rest = self.rest[:length], self.rest[length:]
        return found


# -- the header


def _header(data: bytes) -> dict[str, Any]:
    try:
        header = json.loads(data.decode(), object_pairs_hook=_once, parse_int=_whole, parse_float=_none, parse_constant=_none)
    except RecursionError:
        raise FooterError("the header of the footers nests too deep") from None
    except ValueError as fault:
        raise fault if isinstance(fault, FooterError) else FooterError(f"the header of the footers isn't JSON: {fault}") from fault
    return _fields(header, "the header", ("note", "zones", "columns", "statistics"))


def _once(pairs: list[tuple[str, Any]]) -> dict[str, Any]:
    found = dict(pairs)
    if len(found) != len(pairs):
        raise FooterError("a field stands twice in an object of the header")
    return found


def _none(word: str) -> Any:
    raise FooterError(f"the header has the number {word[:40]}; expected whole numbers alone")


def _whole(word: str) -> int:
    return int(word) if word.isdigit() and len(word) < 20 else int(_none(word))


def _fields(found: Any, what: str, names: tuple[str, ...]) -> dict[str, Any]:
    if not isinstance(found, dict) or set(found) != set(names):
        raise FooterError(f"{what} of the footers hasn't the fields {', '.join(names)} alone")
    return found


def _list(found: Any, what: str) -> list[Any]:
    if not isinstance(found, list):
        raise FooterError(f"{what} of the footers are no list")
    return found


def _number(found: Any, what: str) -> int:
    if not isinstance(found, int) or isinstance(found, bool) or not 0 <= found < 2**63:
        raise FooterError(f"{what} is no count")
    return found


def _text(found: Any, what: str) -> str:
    if not isinstance(found, str):
        raise FooterError(f"{what} is no text")
    _check_text(found)
    return found


def _check_text(text: str) -> None:
    try:
        text.encode()
    except UnicodeEncodeError as fault:
        raise FooterError(f"{text[:40]!r} can't stand in a file: {fault.reason}") from fault


def _columns(told: Any) -> tuple[Column, ...]:
    columns: dict[str, Column] = {}
    for it in _list(told, "the columns"):
        names = ("name", "type", "nullable", "logical")
        found = _fields(it, "a column", names if isinstance(it, dict) and "logical" in it else names[:3])
        name, nullable, word = _text(found["name"], "a column's name"), found["nullable"], found["type"]
        if name in columns:
            raise FooterError(f"column {name} is listed twice")
        if not isinstance(word, str) or word not in DType.__members__:
            raise FooterError(f"column {name} has no type")
        if not isinstance(nullable, bool):
            raise FooterError(f"column {name}: whether it is nullable is neither true nor false")
        columns[name] = Column(name, _logical(name, DType[word], found["logical"]) if "logical" in found else DType[word], nullable)
    return tuple(columns.values())


def _logical(name: str, dtype: DType, word: Any) -> Logical:
    found = of_word(word) if isinstance(word, str) else None
    if found is None or found.dtype != dtype:
        raise FooterError(f"column {name} has no logical type over {dtype.word}")
    _check_text(found.word)
    return found


def _statistics(told: Any, columns: Sequence[Column], zones: int, taken: _Taken) -> dict[Key, Statistic]:
    types, found = {column.name: column.type for column in columns}, {}
    for it in _list(told, "the statistics"):
        fields = _fields(it, "a statistic", ("column", "stat", "bytes"))
        name, word, lengths = fields["column"], fields["stat"], _list(fields["bytes"], "the lengths of a statistic")
        if not isinstance(name, str) or name not in types:
            raise FooterError("a statistic is of a column that isn't listed")
        if not isinstance(word, str) or word not in Stat.__members__:
            raise FooterError(f"column {name} has a statistic of no kind")
        place, stat = f"column {name}: {word.lower()}", Stat[word]
        dtype = stat_dtype(stat, types[name])
        if dtype is None:
            raise FooterError(f"column {name}: {types[name].word} has no {word.lower()}")
        if (name, stat) in found:
            raise FooterError(f"{place} is listed twice")
        if len(lengths) != 3:
            raise FooterError(f"{place} has {len(lengths)} arrays, not 3")
        known, data, ends = (taken.next(_number(length, f"a length of {place}")) for length in lengths)
        if len(ends) != (8 * zones if dtype.has_ends else 0) or (not dtype.has_ends and len(data) != dtype.width * zones):
            raise FooterError(f"{place} isn't of {zones} zones")
        found[name, stat] = Statistic(known, Values(dtype, data, ends, zones))
        _check_arrays(place, found[name, stat], zones)
    return found


# -- the arrays of a statistic


def _check_arrays(place: str, it: Statistic, zones: int) -> None:
    """Refuses arrays that aren't of so many zones, or hold what can't be a value."""
    dtype, data = it.values.dtype, it.values.data
    if it.known.nbytes != zones:
        raise FooterError(f"{place} isn't of {zones} zones")
    known = bytes(it.known)
    if known.translate(None, bytes(list(Precision))):
        raise FooterError(f"{place}: a byte above 2 says how a value is known")
    is_plain = dtype != DType.BOOL or not bytes(data).translate(None, b"\0\1")
    if not is_plain and any(code and truth > 1 for code, truth in zip(known, data)):
        raise FooterError(f"{place}: a truth is above 1")
    if dtype.has_ends:
        try:
            it.values.heap_ends()
        except ValueFault as fault:
            raise FooterError(f"{place}, {str(fault).replace('row', 'zone')}") from fault
        if dtype == DType.UTF8 and not _all_text(it):
            _check_each_text(place, it, zones)


def _all_text(it: Statistic) -> bool:
    """Tells whether the heap is UTF-8 up to the last end, and no end stands within a character."""
    ends: Any = it.values.ends.cast("Q")
    if not len(ends):
        return True
    heap = bytes(it.values.data)
    try:
        heap[: ends[-1]].decode()
    except UnicodeDecodeError:
        return False
    return heap.isascii() or all(end == len(heap) or heap[end] & 0xC0 != 0x80 for end in ends)


def _check_each_text(place: str, it: Statistic, zones: int) -> None:
    ends, start = it.values.ends.cast("Q"), 0
    for zone in range(zones):
        try:
            if it.known[zone]:
                bytes(it.values.data[start : ends[zone]]).decode()
        except UnicodeDecodeError as fault:
            raise FooterError(f"{place}, zone {zone}: a text isn't UTF-8: {fault.reason}") from fault
        start = ends[zone]
