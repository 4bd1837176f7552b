# SPDX-License-Identifier: Apache-2.0
"""The footer of a Parquet file as footers of its row groups: bounds and null counts as the format's rules let them be used.

It is read here in Python, for tables of many files and for ``foalmorrow.parquet.File.footers``. ``foalmorrow.parquet`` reads the footer of one
file, and a condition in SQL, by proof.
"""
from __future__ import annotations

import os
import struct
from collections import Counter
from collections.abc import Iterator
from dataclasses import dataclass
from typing import Any

from . import floats
from .footers import FooterError, Footers
from .kinds import Column, DType, Logical
from .parquet_values import ParquetFault
from .tables import Bound, ToldFault, Zones
from .thrift_compact import Thrift, ThriftFault
from .types import Date, Decimal, FixedBinary, Float32, Float64, Time, Timestamp, Unmapped, Uuid

__all__ = ["ParquetFault", "of_footer", "read"]

_BOOLEAN, _INT32, _INT64, _INT96, _FLOAT, _DOUBLE, _BYTES, _FIXED = range(8)
_UNITS = {1: "ms", 2: "us", 3: "ns"}
#: The types of whole numbers by the older annotation: those without a sign, and those with one.
_WHOLE = dict(zip(range(11, 19), (DType.U8, DType.U16, DType.U32, DType.U64, DType.I8, DType.I16, DType.I32, DType.I64)))
MOST_BYTES, MOST_COLUMNS, MOST_LEVELS = 2**30, 8192, 64
#: What is raised where a field isn't there, or is of another kind than the format says.
_MALFORMED = (IndexError, KeyError, TypeError, ValueError, AttributeError, StopIteration, OverflowError, struct.error, RecursionError)


def read(path: str | os.PathLike[str]) -> Footers:
    """Reads the end of a file: its row groups as zones, under the names of its columns, those of fields of structs with dots.

    A column that repeats, is of a type whose order isn't known, or is one of several of its name is unmapped. Of a column chunk whose statistics can't
    be, as a null count above its rows, nothing is known. ParquetFault where the bytes are no footer, or one that is encrypted, or whose schema and
    row groups don't fit each other; OSError where the file can't be read.
    """
    try:
        return of_footer(_footer(path))
    except ParquetFault as fault:
        raise ParquetFault(f"{os.fspath(path)}: {fault}") from None


def of_footer(footer: bytes) -> Footers:
    """Returns the row groups of a footer as zones, as ``read`` does: its bytes, without its length and the mark behind it. ParquetFault as there."""
    thrift = Thrift(footer)
    try:
        found = thrift.struct()
        if thrift.at != len(footer):
            raise ParquetFault("bytes stand behind its footer's last field")
        return _File(found).footers()
    except (ThriftFault, ToldFault, FooterError) as fault:
        raise ParquetFault(str(fault)) from None
    except ParquetFault:
        raise
    except _MALFORMED as fault:
        raise ParquetFault(f"its footer can't be read: {fault!r}") from None


def _footer(path: str | os.PathLike[str]) -> bytes:
    with open(path, "rb") as file:
        size = file.seek(0, os.SEEK_END)
        file.seek(max(size - 8, 0))
        tail = file.read(8)
        if tail[4:] == b"PARE":
            raise ParquetFault("its footer is encrypted")
        if size < 12 or tail[4:] != b"PAR1":
            raise ParquetFault("it doesn't end as a Parquet file does")
        (length,) = struct.unpack("<I", tail[:4])
        if length > min(size - 12, MOST_BYTES):
            raise ParquetFault(f"its footer of {length} bytes is longer than the file, or than {MOST_BYTES}")
        file.seek(size - 8 - length)
        data = file.read(length)
    if len(data) != length:
        raise ParquetFault("it was changed while it was read")
    return data


@dataclass(frozen=True)
class _Leaf:
    """A column: its place among the chunks of a row group, and how its bounds are written."""

    column: Column
    place: int
    physical: int
    repeats: bool


class _File:
    """A footer whose fields are read."""

    def __init__(self, told: dict[int, Any]):
        self.told = told
        leaves = list(_leaves(told[2]))
        #: How many column chunks a row group has.
        self.width = len(leaves)
        counts = Counter(leaf.column.name for leaf in leaves)
        columns = {leaf.column.name: leaf.column for leaf in leaves}
        #: The columns by their names. Of several of one name nothing is known.
        self.columns = [column if counts[name] == 1 else Column(name, Unmapped("one of several"), True) for name, column in columns.items()]
        self.leaves = [leaf for leaf in leaves if counts[leaf.column.name] == 1]
        orders = told.get(7)
        if orders is not None and len(orders) != self.width:
            raise ParquetFault(f"it tells the orders of {len(orders)} columns, and has {self.width}")
        #: Whether the bounds of a column are in the order of its type.
        self.is_ordered = [orders is not None and isinstance(orders[leaf.place], dict) and 1 in orders[leaf.place] for leaf in self.leaves]

    def footers(self) -> Footers:
        zones = Zones(self.columns)
        for number, group in enumerate(self.told[4]):
            rows, chunks = group[3], group[1]
            if not isinstance(rows, int) or not 0 <= rows < 2**63 or len(chunks) != self.width:
                raise ParquetFault(f"row group {number} has {len(chunks)} columns and {rows} rows")
            zones.begin(rows)
            for leaf, is_ordered in zip(self.leaves, self.is_ordered):
                try:
                    _tell(zones, leaf, chunks[leaf.place].get(3) or {}, is_ordered, rows)
                except (ToldFault, *_MALFORMED):
                    zones.forget(leaf.column.name)
        return zones.footers()


def _leaves(elements: list[dict[int, Any]]) -> Iterator[_Leaf]:
    """Yields the leaves of a schema, whose elements stand in the order of a walk from the root."""
    if len(elements) > MOST_COLUMNS:
        raise ParquetFault(f"it has more than {MOST_COLUMNS} columns")
    # The groups above: their names, whether they may be null, whether they repeat, and how many fields are left.
    pending: list[list[Any]] = [["", False, False, int(elements[0][5])]]
    place = 0
    for it in elements[1:]:
        while pending and not pending[-1][3]:
            pending.pop()
        if not pending or len(pending) > MOST_LEVELS:
            raise ParquetFault(f"its schema is no tree of at most {MOST_LEVELS} levels")
        prefix, nullable, repeats, _ = pending[-1]
        pending[-1][3] -= 1
        kind, name = it.get(3, 0), prefix + it[4].decode(errors="backslashreplace")
        nullable, repeats = nullable or kind > 0, repeats or kind == 2
        if it.get(5):
            pending.append([f"{name}.", nullable, repeats, int(it[5])])
        else:
            known = Unmapped("repeated") if repeats else _known_type(it)
            yield _Leaf(Column(name, known, nullable), place, it.get(1, -1), repeats)
            place += 1
    if any(left for _, _, _, left in pending):
        raise ParquetFault("its schema ends too soon")


def _known_type(it: dict[int, Any]) -> DType | Logical:
    """Returns the type of a column by its element of the schema; an unmapped one where that says what can't be."""
    try:
        return _type(it)
    except _MALFORMED:
        return Unmapped("unknown")


def _type(it: dict[int, Any]) -> DType | Logical:
    """Returns the type of a column by its element of the schema."""
    physical, older, newer = it[1], it.get(6), it.get(10) or {}
    if physical == _BOOLEAN:
        return DType.BOOL
    if physical in (_FLOAT, _DOUBLE):
        return Float32() if physical == _FLOAT else Float64()
    if physical in (_INT32, _INT64):
        return _whole(it, physical, older, newer)
    if physical == _BYTES and (newer.keys() & {1, 4, 12} or (not newer and older in (0, 4, 19))):
        return DType.UTF8
    if physical == _BYTES and not newer and older is None:
        return DType.BINARY
    if physical in (_BYTES, _FIXED) and _is_decimal(older, newer):
        return _decimal(it, newer, 18)
    if physical == _FIXED and 14 in newer and it.get(2) == 16:
        return Uuid()
    if physical == _FIXED and not newer and older is None:
        return FixedBinary(it[2])
    return Unmapped(f"Parquet type {physical}")


def _is_decimal(older: int | None, newer: dict[int, Any]) -> bool:
    return 5 in newer or (not newer and older == 5)


def _decimal(it: dict[int, Any], newer: dict[int, Any], most: int) -> Logical:
    """Returns the type of decimals of so many digits at most, by their element of the schema."""
    scale, precision = (newer[5].get(1, 0), newer[5][2]) if 5 in newer else (it.get(7, 0), it[8])
    return Decimal(precision, scale) if 1 <= precision <= most and 0 <= scale <= precision else Unmapped("decimal")


def _whole(it: dict[int, Any], physical: int, older: int | None, newer: dict[int, Any]) -> DType | Logical:
    own = DType.I32 if physical == _INT32 else DType.I64
    if 10 in newer:
        number = {(8, 0): 11, (16, 0): 12, (32, 0): 13, (64, 0): 14, (8, 1): 15, (16, 1): 16, (32, 1): 17, (64, 1): 18}
        older = number.get((newer[10][1], int(newer[10][2])))
    if (10 in newer or not newer) and older in _WHOLE:
        return _WHOLE[older] if (_WHOLE[older].width == 8) == (physical == _INT64) else Unmapped("whole number")
    if not newer and older is None:
        return own
    if _is_decimal(older, newer):
        return _decimal(it, newer, 9 if physical == _INT32 else 18)
    if physical == _INT32 and (6 in newer or (not newer and older == 6)):
        return Date()
    if 8 in newer or (not newer and older in (9, 10)):
        unit, zoned = (_UNITS[next(iter(newer[8][2]))], newer[8][1]) if 8 in newer else ({9: "ms", 10: "us"}[older or 9], True)
        return Timestamp(unit, "UTC" if zoned else None) if physical == _INT64 else Unmapped("timestamp")
    if 7 in newer or (not newer and older in (7, 8)):
        unit = _UNITS[next(iter(newer[7][2]))] if 7 in newer else {7: "ms", 8: "us"}[older or 7]
        return Time(unit)
    return Unmapped("whole number")


def _tell(zones: Zones, leaf: _Leaf, meta: dict[int, Any], is_ordered: bool, rows: int) -> None:
    """Tells what a chunk's statistics say, as far as the format's rules let them be used."""
    told = meta.get(12) or {}
    nulls = told.get(3)
    if leaf.repeats or not told:
        return
    if nulls is not None:
        if type(nulls) is not int or not 0 <= nulls <= rows or meta.get(5) != rows:
            raise ToldFault(f"{nulls} of {rows} rows are null, by {meta.get(5)} values")
        zones.nulls(leaf.column.name, nulls)
    if isinstance(leaf.column.logical, Unmapped):
        return
    is_signed = leaf.physical == _BOOLEAN or (leaf.physical in (_INT32, _INT64) and not DType.U8 <= leaf.column.dtype <= DType.U64)
    low, high, exact = (told.get(6), told.get(5), (told.get(8) is True, told.get(7) is True)) if is_ordered else (None, None, (False, False))
    if low is None and high is None and is_signed:
        # The older bounds are those of a comparison with signs.
        low, high = told.get(2), told.get(1)
    zones.bounds(leaf.column.name, _bound(leaf, low, exact[0]), None if _is_float(leaf) else _bound(leaf, high, exact[1]))


def _is_float(leaf: _Leaf) -> bool:
    return leaf.physical in (_FLOAT, _DOUBLE)


def _bound(leaf: _Leaf, told: bytes | None, exact: bool) -> Bound | None:
    """Returns a bound as a value of the physical type; None where there is none, or where it is no value that a bound may be."""
    if told is None:
        return None
    dtype, width = leaf.column.dtype, {_BOOLEAN: 1, _INT32: 4, _INT64: 8, _FLOAT: 4, _DOUBLE: 8}.get(leaf.physical)
    if width is not None and len(told) != width:
        raise ToldFault(f"a bound has {len(told)} bytes; expected {width}")
    if leaf.physical == _BOOLEAN:
        if told not in (b"\0", b"\1"):
            raise ToldFault(f"{told[0]} is no truth")
        return Bound(told == b"\1", exact)
    if _is_float(leaf):
        (value,) = struct.unpack("<f" if width == 4 else "<d", told)
        kind = floats.SINGLE if width == 4 else floats.DOUBLE
        return None if value != value else Bound(kind.number(value), exact and value != 0)
    if leaf.physical in (_BYTES, _FIXED) and isinstance(leaf.column.logical, Decimal):
        # A number that doesn't fit 64 bits bounds nothing that the type has, and no bytes are no number.
        number = int.from_bytes(told, "big", signed=True)
        return Bound(number, exact) if told and -(2**63) <= number < 2**63 else None
    if dtype.range is not None:
        number = int.from_bytes(told, "little", signed=dtype >= DType.I8)
        if not dtype.range[0] <= number <= dtype.range[1]:
            raise ToldFault(f"{number} is no {dtype.word}")
        return Bound(number, exact)
    if dtype == DType.UTF8:
        try:
            told.decode()
        except UnicodeDecodeError:
            # A text that was cut within a character is a bound of bytes and none of texts.
            return None
    return Bound(told, exact)
