# SPDX-License-Identifier: Apache-2.0
"""The proved library's calls, by ctypes. Its page is callers/c/vortex.h; what users call stands in the other modules.

Each call takes 256 KiB of a thread's stack at the most, but ``run``.
"""
from __future__ import annotations

import ctypes
import enum
import os
import pathlib
from array import array
from collections.abc import Mapping, Sequence
from ctypes import POINTER, Structure, c_size_t, c_uint8, c_uint32, c_uint64
from functools import partial
from typing import Literal

from .arrays import Packed, Values, moved
from .kinds import Column, DType, Stat, stat_dtype
from .predicate import PredicateError
from .sql import misfit, no_condition, too_deep
from .statistic import Statistic

try:
    import numpy
except ImportError:
    numpy = None  # type: ignore[assignment]


class Status(enum.IntEnum):
    """What a call returns."""

    OK = 0
    NO_ANSWER = 1
    BAD_LINE = 2
    TOO_SHORT = 3
    NO_MEMORY = 4
    BAD_KIND = 5
    BAD_STAT = 6
    BAD_KNOWN = 7
    BAD_LENGTH = 8
    BAD_ENDS = 9
    BAD_VALUE = 10
    BAD_NULL = 11
    UNTRUE = 12
    BAD_COLUMN = 13
    BAD_NAME = 14
    NOT_A_PREDICATE = 15
    BAD_FLAG = 16
    TOO_DEEP = 17
    BAD_SQL = 18
    MISFIT = 19
    BAD_FOOTER = 20
    NOT_READ = 21


#: How deep a predicate and its normal form may nest, as VORTEX_MAX_DEPTH says.
MAX_DEPTH = 128
#: The versions of the library whose calls these are: 0.2.x.
_MAJOR_MINOR = (0, 3)
_SOURCES = "a wheel has it inside, checks/callers.sh builds it in a checkout, FOALMORROW_LIBRARY names another place"

_SENTENCES = {
    Status.BAD_LINE: "the predicate is no expression over these columns",
    Status.TOO_DEEP: f"the predicate nests deeper than {MAX_DEPTH} levels, where a chain of n takes the logarithm of n",
    Status.BAD_KIND: "there is no such type",
    Status.BAD_STAT: "the column has no such statistic",
    Status.BAD_KNOWN: "a byte above 2 says how a value is known",
    Status.BAD_LENGTH: "an array is too short or too long",
    Status.BAD_ENDS: "a text begins behind its end, or ends behind the heap",
    Status.BAD_VALUE: "a text isn't UTF-8, or a truth is above 1",
    Status.BAD_NULL: "null stands in a column that isn't nullable",
    Status.BAD_COLUMN: "a statistic is of a column that isn't there",
    Status.BAD_NAME: "a name is none, or stands twice",
    Status.NOT_A_PREDICATE: "the predicate isn't of type bool",
}

#: What a text or bytes of a statistic have room for at first.
_ROOM = 256
#: For how many tests that aren't read there is room at first.
_ROOM_UNREAD = 16
#: A kind that no column has: the library refuses it.
_NO_FIELD = (255, 0, 0, 0)
#: The flag by which a name of several parts is the column of its last one.
_LAST_NAME = 2


class LibraryError(OSError):
    """The library isn't where it is looked for, or it isn't this one.

    >>> issubclass(LibraryError, OSError)
    True
    """


class Refused(ValueError):
    """What the library refused: the status, and the place as far as there is one.

    ``row`` is a row of the values that were handed in, ``zone`` a zone of the footers, ``column`` the name of a column, ``stat`` a statistic,
    and ``side`` the footers that are merged, ``left`` or ``right``.

    >>> str(Refused(Status.BAD_VALUE, column="a", zone=3))
    "column a, zone 3: a text isn't UTF-8, or a truth is above 1"
    """

    def __init__(
        self,
        status: Status,
        *,
        column: str | None = None,
        stat: Stat | None = None,
        zone: int | None = None,
        row: int | None = None,
        side: str | None = None,
    ):
        self.status, self.column, self.stat, self.zone, self.row, self.side = status, column, stat, zone, row, side
        places = [f"{word} {found}" for word, found in [("column", column), ("row", row), ("zone", zone)] if found is not None]
        places += [stat.name.lower()] if stat is not None else []
        places += [f"of the {side} footers"] if side is not None else []
        sentence = _SENTENCES.get(status, status.name.lower())
        super().__init__(f"{', '.join(places)}: {sentence}" if places else sentence)

    def __reduce__(self) -> tuple[object, ...]:
        # A worker of a cluster sends it home.
        keywords = {"column": self.column, "stat": self.stat, "zone": self.zone, "row": self.row, "side": self.side}
        return partial(Refused, self.status, **keywords), ()


class Fault(Structure):
    _fields_ = [("row", c_size_t), ("column", c_size_t), ("entry", c_size_t)]


class CValues(Structure):
    _fields_ = [
        ("kind", c_uint8),
        ("nullable", c_uint8),
        ("rows", c_size_t),
        ("size", c_uint64),
        ("start", c_uint64),
        ("values", ctypes.c_void_p),
        ("values_len", c_size_t),
        ("ends", ctypes.c_void_p),
        ("ends_len", c_size_t),
        ("nulls", ctypes.c_void_p),
        ("nulls_len", c_size_t),
    ]


class CArrowValues(Structure):
    _fields_ = [
        ("kind", c_uint8),
        ("nullable", c_uint8),
        ("offset_width", c_uint8),
        ("rows", c_size_t),
        ("offset", c_size_t),
        ("size", c_uint64),
        ("validity", ctypes.c_void_p),
        ("validity_len", c_size_t),
        ("values", ctypes.c_void_p),
        ("values_len", c_size_t),
        ("offsets", ctypes.c_void_p),
        ("offsets_len", c_size_t),
    ]


class CStatistic(Structure):
    _fields_ = [
        ("column", c_size_t),
        ("stat", c_uint8),
        ("start", c_uint64),
        ("known", ctypes.c_void_p),
        ("known_len", c_size_t),
        ("values", ctypes.c_void_p),
        ("values_len", c_size_t),
        ("ends", ctypes.c_void_p),
        ("ends_len", c_size_t),
    ]


class CField(Structure):
    _fields_ = [
        ("name", ctypes.c_void_p), ("name_len", c_size_t), ("kind", c_uint8), ("nullable", c_uint8), ("unit", c_uint8), ("precision", c_uint8),
        ("scale", c_uint8),
    ]


class CSpan(Structure):
    _fields_ = [("start", c_size_t), ("end", c_size_t)]


class _Lent:
    """Addresses of buffers, which are kept as long as a call needs them."""

    def __init__(self) -> None:
        self.kept: list[object] = []

    def at(self, buffer: memoryview | bytes | bytearray | array[int]) -> int | None:
        """Where a buffer stands; None of an empty one. One that can't be written, and isn't ``bytes``, is copied where there is no numpy."""
        view = memoryview(buffer)
        if not view.nbytes:
            return None
        if type(buffer) is bytes:
            self.kept.append(buffer)
            return ctypes.cast(ctypes.c_char_p(buffer), ctypes.c_void_p).value
        if numpy is not None:
            lent = numpy.frombuffer(view, dtype=numpy.uint8)
            self.kept.append(lent)
            return int(lent.ctypes.data)
        if view.readonly:
            view = memoryview(bytearray(view))
        room = (c_uint8 * view.nbytes).from_buffer(view)
        self.kept.append(room)
        return ctypes.addressof(room)

    def numbers_at(self, buffer: memoryview | array[int]) -> int | None:
        """Where a buffer of 64-bit numbers stands. One that doesn't begin at a multiple of 8, as in the middle of a file, is copied."""
        found = self.at(buffer)
        return found if found is None or found % 8 == 0 else self.at(array("Q", bytes(buffer)))


def _path() -> str:
    """Where the library is: where FOALMORROW_LIBRARY says, in the package as a wheel has it, in a checkout, or where the system finds it."""
    named = os.environ.get("FOALMORROW_LIBRARY")
    if named is not None:
        return named
    here = pathlib.Path(__file__).resolve()
    places = (here.with_name("libfoalmorrow.so"), here.parents[2] / "out" / "libvortex_ffi.so")
    return next((str(it) for it in places if it.is_file()), "libfoalmorrow.so.0")


def _load() -> ctypes.CDLL:
    path = _path()
    try:
        loaded = ctypes.CDLL(path)
    except OSError as fault:
        raise LibraryError(f"the library isn't at {path}; {_SOURCES}: {fault}") from fault
    byte, size, place = ctypes.c_void_p, c_size_t, POINTER(Fault)
    calls = {
        "vortex_run": [byte, size, byte, size, POINTER(size)],
        "vortex_check": [POINTER(CValues), c_uint64, byte, size, size, place],
        "vortex_check_arrow": [POINTER(CArrowValues), c_uint64, byte, size, size, place],
        "vortex_measure": [POINTER(CValues), byte, size, byte, size, byte, size, byte, size, POINTER(size), place],
        "vortex_measure_arrow": [POINTER(CArrowValues), byte, size, byte, size, byte, size, byte, size, POINTER(size), place],
        "vortex_merge": [c_uint8, c_uint8, size, byte, size, byte, size, byte, size, byte, size, byte, size, POINTER(size), place],
        "vortex_merge_zones": [c_uint8, c_uint8, size, byte, size, byte, size, byte, size, byte, size, POINTER(size), place],
        "vortex_prune": [byte, size, byte, size, byte, size, byte, size, c_uint8, byte, size, place],
        "vortex_prune_sql": [byte, size, byte, size, byte, size, byte, size, c_uint8, byte, size, byte, size, POINTER(size), place],
        "vortex_parquet_footer": [byte, size, POINTER(size), place],
        "vortex_parquet_prune": [byte, size, byte, size, c_uint8, byte, size, byte, size, POINTER(size), POINTER(size), place],
        "vortex_parquet_indexes": [byte, size, POINTER(c_uint64), place],
        "vortex_parquet_prune_pages": [
            byte, size, byte, size, c_uint64, byte, size, c_uint8, byte, size, byte, size, POINTER(size), POINTER(size), place,
        ],
        "vortex_parquet_data_pages": [byte, size, byte, size, c_uint64, byte, size, POINTER(size), place],
    }
    for name, types in calls.items():
        call = getattr(loaded, name, None)
        if call is None:
            raise LibraryError(f"{path} has no call {name}")
        call.argtypes, call.restype = types, c_uint8
    told = _version(loaded, path)
    if told[:2] != _MAJOR_MINOR:
        raise LibraryError(f"{path} is version {'.'.join(map(str, told))}; expected {_MAJOR_MINOR[0]}.{_MAJOR_MINOR[1]}")
    return loaded


def _version(loaded: ctypes.CDLL, path: str) -> tuple[int, int, int]:
    call = getattr(loaded, "vortex_version", None)
    if call is None:
        raise LibraryError(f"{path} has no call vortex_version")
    call.argtypes, call.restype = [], c_uint32
    number = int(call())
    return number >> 16, number >> 8 & 255, number & 255


def version() -> str:
    """Returns the version of the library, as ``0.3.0``. LibraryError where it isn't there, or is another one than these calls need.

    >>> version().count(".")
    2
    """
    return ".".join(map(str, _version(_library(), "the library")))


_loaded: ctypes.CDLL | None = None


def _library() -> ctypes.CDLL:
    global _loaded
    if _loaded is None:
        _loaded = _load()
    return _loaded


#: The statuses whose fault names a row or a zone.
_PLACED = (Status.BAD_KNOWN, Status.BAD_LENGTH, Status.BAD_ENDS, Status.BAD_VALUE, Status.BAD_NULL)


def _answered(status: int, fault: Fault, column: str | None = None, stats: Sequence[Stat] = ()) -> None:
    """Nothing where a call about one column's values has answered, and else what was refused."""
    if status == Status.NO_MEMORY:
        raise MemoryError
    if status != Status.OK:
        found = Status(status)
        stat = stats[fault.entry] if found == Status.BAD_STAT and fault.entry < len(stats) else None
        raise Refused(found, column=column, stat=stat, row=fault.row if found in _PLACED else None)


def _answered_merge(status: int, fault: Fault, column: Column, stats: Sequence[Stat], side: str | None) -> None:
    """Nothing where a merge has answered, and else what was refused."""
    if status == Status.NO_MEMORY:
        raise MemoryError
    if status != Status.OK:
        found = Status(status)
        stat = stats[fault.entry] if fault.entry < len(stats) else None
        raise Refused(found, column=column.name, stat=stat, zone=fault.row if found in _PLACED else None, side=side)


def _answered_zones(status: int, fault: Fault, columns: Sequence[Column], keys: Sequence[tuple[str, Stat]]) -> None:
    """Nothing where a call about a table of zones has answered, and else what was refused."""
    if status == Status.NO_MEMORY:
        raise MemoryError
    if status == Status.OK:
        return
    found = Status(status)
    if found in (Status.BAD_LINE, Status.NOT_A_PREDICATE, Status.TOO_DEEP):
        raise PredicateError(_SENTENCES[found])
    zone = fault.row if found in _PLACED else None
    if found in (Status.BAD_KIND, Status.BAD_NAME):
        raise Refused(found, column=columns[fault.column].name)
    name, stat = keys[fault.entry] if fault.entry < len(keys) else (None, None)
    raise Refused(found, column=name, stat=stat, zone=zone)


def run(text: bytes) -> tuple[int, bytes]:
    """Answers a text as the program does: its status and its answer. A predicate of 4,096 words may take 8 MiB of stack.

    >>> run(b"column a i64\\npart\\nstat a max exact 5\\nwhere gt col a lit i64 9\\n")
    (0, b'skipped 0\\nrows\\n')
    """
    lent, length, room = _Lent(), c_size_t(), 4096
    at = lent.at(text)
    while True:
        output = bytearray(room)
        status = _library().vortex_run(at, len(text), lent.at(output), room, ctypes.byref(length))
        if status != Status.TOO_SHORT:
            return status, bytes(output[: length.value])
        room = length.value


def _values(lent: _Lent, column: Column, values: Values, nulls: bytes | None) -> CValues | CArrowValues:
    """Returns a column's values as the library takes them; those of an array of Arrow as they stand there, with its nulls."""
    if isinstance(values, Packed):
        held = values.buffers
        counts = [it for buffer in (held.validity, held.values, held.offsets) for it in (lent.at(buffer), buffer.nbytes)]
        return CArrowValues(column.dtype, column.nullable, held.offset_width, len(values), held.offset, values.size, *counts)
    none = nulls if nulls is not None else b""
    data, ends = values.data, values.ends
    counts = [data.nbytes, lent.numbers_at(ends), ends.nbytes // 8, lent.at(none), len(none)]
    return CValues(column.dtype, column.nullable, len(values), values.size, 0, lent.at(data), *counts)


def _answered_values(status: int, fault: Fault, column: Column, values: Values, stats: Sequence[Stat]) -> None:
    """Nothing where a call about a column's values has answered, and else what was refused; of an array of Arrow by what reading it tells."""
    if isinstance(values, Packed) and status == Status.BAD_ENDS:
        values.unpacked()
    _answered(status, fault, column.name, stats)


def measure(column: Column, values: Values, nulls: bytes | None, wanted: Sequence[Stat]) -> dict[Stat, Statistic]:
    """Returns the statistics of a column's values, as a table of one zone has them. What isn't known is left out."""
    lent, length, fault = _Lent(), c_size_t(), Fault()
    given = _values(lent, column, values, nulls)
    call = _library().vortex_measure_arrow if isinstance(values, Packed) else _library().vortex_measure
    known, ends, room = bytearray(len(wanted)), array("Q", bytes(8 * len(wanted))), _ROOM
    stats = bytes(wanted)
    while True:
        output = bytearray(room)
        outs = (lent.at(known), len(known), lent.at(ends), len(ends), lent.at(output), room, ctypes.byref(length), ctypes.byref(fault))
        status = call(ctypes.byref(given), lent.at(stats), len(stats), *outs)
        if status != Status.TOO_SHORT:
            break
        room = length.value
    _answered_values(status, fault, column, values, wanted)
    return {stat: it for stat, it in _of_output(column, wanted, 1, known, ends, output).items() if it.known[0]}


def _of_output(column: Column, stats: Sequence[Stat], zones: int, known: bytearray, ends: array[int], output: bytearray) -> dict[Stat, Statistic]:
    """Returns the statistics that a call has written one behind the other."""
    found, start, heap = {}, 0, memoryview(output)
    for place, stat in enumerate(stats):
        dtype, here = stat_dtype(stat, column.dtype), slice(place * zones, (place + 1) * zones)
        end = ends[here.stop - 1] if zones else start
        if dtype is not None:
            values = Values(dtype, heap[start:end], moved(ends[here], -start) if dtype.has_ends else memoryview(b""), zones)
            found[stat] = Statistic(memoryview(known)[here], values)
        start = end
    return found


def _statistic(lent: _Lent, place: int, stat: Stat, statistic: Statistic) -> CStatistic:
    it = statistic.values
    known = (lent.at(statistic.known), statistic.known.nbytes)
    return CStatistic(place, stat, 0, *known, lent.at(it.data), it.data.nbytes, lent.numbers_at(it.ends), it.ends.nbytes // 8)


def _table(statistics: Sequence[CStatistic]) -> ctypes.Array[CStatistic]:
    return (CStatistic * len(statistics))(*statistics)


def check(column: Column, values: Values, nulls: bytes | None, rows: int, known: Mapping[Stat, Statistic]) -> Stat | Literal["rows"] | None:
    """Returns the first statistic of one zone that isn't true of a column's values, or ``rows`` where they are more or fewer; None where all is."""
    lent, fault, stats = _Lent(), Fault(), list(known)
    table = _table([_statistic(lent, 0, stat, known[stat]) for stat in stats])
    given = _values(lent, column, values, nulls)
    call = _library().vortex_check_arrow if isinstance(values, Packed) else _library().vortex_check
    status = call(ctypes.byref(given), rows, table, len(stats), 0, ctypes.byref(fault))
    if status == Status.UNTRUE:
        return stats[fault.entry] if fault.entry < len(stats) else "rows"
    _answered_values(status, fault, column, values, stats)
    return None


def merge(column: Column, zones: int, left: Mapping[Stat, Statistic], right: Mapping[Stat, Statistic]) -> dict[Stat, Statistic]:
    """Returns the statistics of zones of a column, each a zone of ``left`` followed by the one of ``right`` at the same place.

    Both have the same statistics.
    """
    lent, length, fault, stats = _Lent(), c_size_t(), Fault(), list(left)
    sides = [_table([_statistic(lent, 0, stat, side[stat]) for stat in stats]) for side in (left, right)]
    known, ends = bytearray(len(stats) * zones), array("Q", bytes(8 * len(stats) * zones))
    room = sum(side[stat].values.data.nbytes for side in (left, right) for stat in stats)
    while True:
        output = bytearray(room)
        outs = (lent.at(known), len(known), lent.at(ends), len(ends), lent.at(output), room, ctypes.byref(length), ctypes.byref(fault))
        status = _library().vortex_merge(column.dtype, column.nullable, zones, sides[0], len(stats), sides[1], len(stats), *outs)
        if status != Status.TOO_SHORT:
            break
        room = length.value
    _answered_merge(status, fault, column, stats, "left" if fault.column == 0 else "right")
    return _of_output(column, stats, zones, known, ends, output)


def merge_zones(column: Column, zones: int, statistics: Mapping[Stat, Statistic]) -> dict[Stat, Statistic]:
    """Returns the statistics of all zones of a column as those of one, each zone merged to those before it."""
    lent, length, fault, stats = _Lent(), c_size_t(), Fault(), list(statistics)
    table = _table([_statistic(lent, 0, stat, statistics[stat]) for stat in stats])
    known, ends, room = bytearray(len(stats)), array("Q", bytes(8 * len(stats))), _ROOM
    while True:
        output = bytearray(room)
        outs = (lent.at(known), len(known), lent.at(ends), len(ends), lent.at(output), room, ctypes.byref(length), ctypes.byref(fault))
        status = _library().vortex_merge_zones(column.dtype, column.nullable, zones, table, len(stats), *outs)
        if status != Status.TOO_SHORT:
            break
        room = length.value
    _answered_merge(status, fault, column, stats, None)
    return _of_output(column, stats, 1, known, ends, output)


def _scope(lent: _Lent, spelled: Sequence[tuple[bytes, DType, bool]]) -> ctypes.Array[CField]:
    """Returns columns by their names, their types and whether they are nullable."""
    return (CField * len(spelled))(*[CField(lent.at(name), len(name), dtype, nullable) for name, dtype, nullable in spelled])


def _schema(lent: _Lent, columns: Sequence[Column]) -> ctypes.Array[CField]:
    """Returns columns by their names, what their values stand for, and whether they are nullable."""
    def field(column: Column) -> CField:
        name, (kind, unit, precision, scale) = column.name.encode(), column.field or _NO_FIELD
        return CField(lent.at(name), len(name), kind, column.nullable, unit, precision, scale)

    return (CField * len(columns))(*map(field, columns))


def _zones(lent: _Lent, columns: Sequence[Column], statistics: Mapping[tuple[str, Stat], Statistic]) -> ctypes.Array[CStatistic]:
    """Returns statistics of columns, each by the place of its column."""
    places = {column.name: place for place, column in enumerate(columns)}
    return _table([_statistic(lent, places[name], stat, it) for (name, stat), it in statistics.items()])


def _encoded(text: str, word: str) -> bytes:
    try:
        return text.encode()
    except UnicodeEncodeError as wrong:
        raise PredicateError(f"the {word} is no Unicode text: {wrong}") from wrong


def prune(
    columns: Sequence[Column],
    names: Sequence[str],
    rows: array[int],
    statistics: Mapping[tuple[str, Stat], Statistic],
    predicate: str,
    unknown: Sequence[str] = (),
) -> bytearray:
    """Returns what to do with each zone under a predicate, a byte each. The predicate calls the columns by ``names``.

    ``unknown`` names the columns of truths of which nothing is known, as opaque conditions are.
    """
    lent, fault, keys = _Lent(), Fault(), list(statistics)
    spelled = [(name.encode(), it.dtype, it.nullable) for name, it in zip(names, columns)]
    spelled += [(name.encode(), DType.BOOL, True) for name in unknown]
    scope, table, text = _scope(lent, spelled), _zones(lent, columns, statistics), _encoded(predicate, "predicate")
    answers = bytearray(len(rows))
    given = (scope, len(spelled), lent.at(rows), len(rows), table, len(keys), lent.at(text), len(text), 0)
    status = _library().vortex_prune(*given, lent.at(answers), len(answers), ctypes.byref(fault))
    _answered_zones(status, fault, columns, keys)
    return answers


def prune_sql(
    columns: Sequence[Column],
    rows: array[int],
    statistics: Mapping[tuple[str, Stat], Statistic],
    condition: str,
    last_names: bool,
) -> tuple[bytearray, list[tuple[int, int]]]:
    """Returns what to do with each zone under a condition in SQL, a byte each, and the bytes of its text at which the tests stand that weren't read.

    A name of several parts is the column of its last one with ``last_names``, and else it isn't read. Each column is of a type that the library knows.
    """
    lent, fault, length, keys = _Lent(), Fault(), c_size_t(), list(statistics)
    scope, table, text = _schema(lent, columns), _zones(lent, columns, statistics), _encoded(condition, "condition")
    answers, room = bytearray(len(rows)), _ROOM_UNREAD
    given = (scope, len(columns), lent.at(rows), len(rows), table, len(keys), lent.at(text), len(text), _LAST_NAME if last_names else 0)
    while True:
        unread = (CSpan * room)()
        outs = (lent.at(answers), len(answers), unread, room, ctypes.byref(length), ctypes.byref(fault))
        status = _library().vortex_prune_sql(*given, *outs)
        if status != Status.TOO_SHORT:
            break
        room = length.value
    _answered_sql(status, fault, text)
    _answered_zones(status, fault, columns, keys)
    return answers, [(it.start, it.end) for it in unread[: length.value]]


def _answered_sql(status: int, fault: Fault, text: bytes) -> None:
    """Nothing where the text is a condition, and else what was refused of it."""
    if status == Status.BAD_SQL:
        raise no_condition(text, fault.column, fault.entry)
    if status == Status.TOO_DEEP:
        raise too_deep(text, fault.entry)
    if status == Status.MISFIT:
        raise misfit(text, fault.entry, fault.row)
