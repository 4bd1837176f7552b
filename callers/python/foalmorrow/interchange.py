# SPDX-License-Identifier: Apache-2.0
"""Columns of the dataframe interchange protocol, which a frame offers by ``__dataframe__``.

Nulls may stand as NaN or NaT, as a value of their own, and in a mask of bits or bytes. Buffers have lengths here, and are read within them.
"""
from __future__ import annotations

import ctypes
from collections.abc import Mapping, Sequence
from typing import Any

from .arrays import ValueFault
from .kinds import Column, DType, Logical
from .reading import Read, Where

try:
    import numpy

    from .arrow import _joined, _moved
    from .layouts import NUMBERS, Laid, converted, width
except ImportError:
    numpy = None  # type: ignore[assignment]

#: The kinds of the protocol.
_INT, _UINT, _FLOAT, _BOOL, _STRING, _DATETIME, _CATEGORICAL = 0, 1, 2, 20, 21, 22, 23
#: How nulls are told.
_NO_NULLS, _NAN, _SENTINEL, _BITS, _BYTES = range(5)


def columns_of(columns: Sequence[Column], given: Any) -> Mapping[str, Read]:
    """Reads columns of a frame that offers ``__dataframe__``. ValueFault as of ``read``; KeyError names a missing column."""
    frame = given.__dataframe__()
    names = list(frame.column_names())
    for column in columns:
        if column.name not in names:
            raise KeyError(column.name)
    return {column.name: read(column.type, frame.get_column_by_name(column.name), Where(f"column {column.name}", column.name)) for column in columns}


def read(kind: DType | Logical, given: Any, where: Where) -> Read:
    """Reads a column into values of a type and nulls. ValueFault where it isn't one that the protocol allows, or isn't of the type."""
    if numpy is None:
        raise where.fault("a column of the interchange protocol is read by numpy, which isn't there; expected a list or another container")
    pieces: list[Read] = []
    try:
        for chunk in given.get_chunks() if given.num_chunks() > 1 else [given]:
            there = _moved(where, pieces)
            pieces.append(converted(kind, _laid(chunk, there), there))
    except ValueFault:
        raise
    except Exception as fault:  # noqa: BLE001  whatever the frame's own code raises
        raise where.fault(f"the frame's own code failed: {type(fault).__name__}: {fault}; expected a column") from fault
    return _joined(kind, pieces)


def _size(column: Any) -> int:
    found = column.size() if callable(column.size) else column.size
    return int(found)


def _laid(column: Any, where: Where) -> Laid:
    number, bits, form, order = column.dtype
    count, offset, buffers = _size(column), int(column.offset), column.get_buffers()
    if count < 0 or offset < 0:
        raise where.fault(f"a column has {count} rows from {offset} on; expected a length")
    if order not in ("=", "|", "<"):
        raise where.fault(f"values have the byte order {order!r}; expected this machine's")
    if int(number) == _CATEGORICAL:
        return _of_categories(column, buffers, count, offset, where)
    if int(number) == _STRING:
        items, ends = _heap(buffers, form, count, offset, where)
        return Laid("u" if form in ("u", "U") else form, count, items, ends, _there(column, buffers, None, count, offset, where))
    if int(number) == _BOOL:
        data = _bytes(buffers["data"], where)
        truths = _bits(data, count, offset, where) if bits == 1 else _cut(data, 1, count, offset, where) != 0
        return Laid("b", count, truths, None, _there(column, buffers, truths, count, offset, where))
    size = width(form)
    if size is None or size * 8 != bits:
        raise where.fault(f"values of {bits} bits of format {form!r} aren't read; expected numbers, truths, texts, instants or categories")
    held = _cut(_bytes(buffers["data"], where), size, count, offset, where)
    items = held.view(NUMBERS[form]) if form in NUMBERS else held
    return Laid(form, count, items, None, _there(column, buffers, held.view(f"<i{size}") if form not in NUMBERS else items, count, offset, where))


def _of_categories(column: Any, buffers: Any, count: int, offset: int, where: Where) -> Laid:
    told = column.describe_categorical
    told = told if isinstance(told, Mapping) else told()
    values = told.get("categories")
    if values is None or not told.get("is_dictionary"):
        raise where.fault("categories have no dictionary; expected one")
    buffer, (_, bits, form, _) = buffers["data"]
    if form not in NUMBERS or form in ("e", "f", "g"):
        raise where.fault(f"categories have places of format {form!r}; expected whole numbers")
    places = _cut(_bytes((buffer, None), where), bits // 8, count, offset, where).view(NUMBERS[form])
    return Laid(form, count, places, None, _there(column, buffers, places, count, offset, where), _laid(values, where))


def _bytes(told: Any, where: Where) -> Any:
    """Returns the bytes of a buffer, without a copy."""
    if told is None:
        raise where.fault("a buffer isn't there; expected one")
    buffer = told[0]
    if int(buffer.__dlpack_device__()[0]) != 1:
        raise where.fault("a buffer stands on another device; expected one in memory")
    size, address = int(buffer.bufsize), int(buffer.ptr)
    if size < 0 or (size and not address):
        raise where.fault(f"a buffer of {size} bytes stands at {address}; expected one in memory")
    held: Any = (ctypes.c_uint8 * size).from_address(address) if size else b""
    return numpy.frombuffer(held, numpy.uint8)


def _cut(data: Any, size: int, count: int, offset: int, where: Where) -> Any:
    """Returns a copy of so many values of so many bytes each."""
    if (offset + count) * size > len(data):
        raise where.fault(f"{len(data)} bytes hold fewer than {offset + count} values of {size}; expected as many")
    return data[offset * size : (offset + count) * size].copy()


def _bits(data: Any, count: int, offset: int, where: Where) -> Any:
    if (offset + count + 7) // 8 > len(data):
        raise where.fault(f"{len(data)} bytes hold fewer than {offset + count} bits; expected as many")
    return numpy.unpackbits(data, bitorder="little")[offset : offset + count].view(bool)


def _heap(buffers: Any, form: str, count: int, offset: int, where: Where) -> tuple[Any, Any]:
    if form not in ("u", "U") or buffers["offsets"] is None:
        raise where.fault(f"texts of format {form!r} aren't read; expected one heap with offsets")
    told = buffers["offsets"][1]
    size = int(told[1]) // 8
    if size not in (4, 8):
        raise where.fault(f"offsets have {told[1]} bits; expected 32 or 64")
    if not count:
        return numpy.zeros(0, numpy.uint8), numpy.zeros(0, "<u8")
    offsets = _cut(_bytes(buffers["offsets"], where), size, count + 1, offset, where).view(f"<i{size}").astype("<i8")
    heap = _bytes(buffers["data"], where)
    wrong = numpy.flatnonzero((offsets[1:] < offsets[:-1]) | (offsets[1:] > len(heap)) | (offsets[:-1] < 0))
    if len(wrong):
        raise where.fault("a text begins behind its end, or ends behind the heap; expected one within it", int(wrong[0]))
    return heap[offsets[0] : offsets[-1]].copy(), (offsets[1:] - offsets[0]).astype("<u8")


def _there(column: Any, buffers: Any, items: Any, count: int, offset: int, where: Where) -> Any:
    """Returns which values aren't null, or None where none is."""
    told = column.describe_null
    how, sign = told if isinstance(told, tuple) else told()
    how = int(how)
    if how == _NO_NULLS:
        there = None
    elif how == _NAN and items is not None:
        there = ~numpy.isnan(items) if items.dtype.kind == "f" else items != numpy.iinfo("<i8").min
    elif how == _SENTINEL and items is not None:
        there = items != sign
    elif how in (_BITS, _BYTES) and buffers["validity"] is not None:
        data = _bytes(buffers["validity"], where)
        marks = _bits(data, count, offset, where) if how == _BITS else _cut(data, 1, count, offset, where) != 0
        there = ~marks if int(sign) else marks
    else:
        raise where.fault(f"nulls are told in the way {how}, which isn't one of this column; expected NaN, a value, or a mask")
    nulls = 0 if there is None else count - int(numpy.count_nonzero(there))
    if column.null_count not in (None, -1, nulls):
        raise where.fault(f"{column.null_count} values are said to be null, and {nulls} are; expected the same")
    return there


__all__ = ["columns_of", "read"]
