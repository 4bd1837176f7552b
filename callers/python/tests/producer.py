# SPDX-License-Identifier: Apache-2.0
"""Arrays of Arrow's C Data Interface for tests, made by the producer of callers/c/arrow_producer.c, with any field changed."""
from __future__ import annotations

import ctypes
import os
import pathlib
import struct
from collections.abc import Callable, Sequence
from ctypes import c_char_p, c_int64, c_void_p
from typing import Any

from foalmorrow.arrow import CArray, CSchema, CStream, Structs

PATH = pathlib.Path(os.environ.get("FOALMORROW_PRODUCER", str(pathlib.Path(__file__).resolve().parents[2] / "out" / "libarrow_producer.so")))
_library: Any = ctypes.CDLL(str(PATH)) if PATH.exists() else None
if _library is not None:
    _library.producer_count.restype = c_int64
    _library.producer_schema.argtypes = [c_void_p, c_char_p, c_char_p]
    _library.producer_array.argtypes = [c_void_p, c_int64, c_int64, c_int64, c_int64, c_void_p, c_void_p]
    _library.producer_adopt.argtypes = _library.producer_index.argtypes = [c_void_p] * 4
    _library.producer_stream.argtypes = [c_void_p, c_void_p, c_void_p, c_int64, c_int64]
    for name in ("producer_schema", "producer_array", "producer_adopt", "producer_index", "producer_stream"):
        getattr(_library, name).restype = None

_NEW = ctypes.pythonapi.PyCapsule_New
_NEW.restype, _NEW.argtypes = ctypes.py_object, [c_void_p, c_char_p, c_void_p]
_NAMES = {"schema": b"arrow_schema", "array": b"arrow_array", "stream": b"arrow_array_stream"}


def is_built() -> bool:
    return _library is not None


def counts() -> tuple[int, int, int, int]:
    """How many schemas, arrays and streams were released, and how many of them again."""
    return tuple(_library.producer_count(which) for which in range(4))  # type: ignore[return-value]


def bits(truths: Sequence[object]) -> bytes:
    found = bytearray((len(truths) + 7) // 8)
    for place, truth in enumerate(truths):
        found[place // 8] |= bool(truth) << place % 8
    return bytes(found)


class Array:
    """A schema and an array. ``change`` may spoil a field of them before they are handed out."""

    def __init__(self, form: str, length: int, buffers: Sequence[bytes | None], null_count: int = -1, offset: int = 0, name: str | None = None):
        self.schema, self.array = CSchema(), CArray()
        held = [None if it is None else ctypes.create_string_buffer(it, max(len(it), 1)) for it in buffers]
        addresses = (c_void_p * max(len(held), 1))(*[None if it is None else ctypes.addressof(it) for it in held])
        sizes = (ctypes.c_size_t * max(len(held), 1))(*[0 if it is None else len(it) for it in buffers])
        _library.producer_schema(ctypes.byref(self.schema), form.encode(), None if name is None else name.encode())
        _library.producer_array(ctypes.byref(self.array), length, null_count, offset, len(held), addresses, sizes)

    def change(self, work: Callable[[Any, Any], None]) -> Array:
        work(self.schema, self.array)
        return self

    def adopt(self, child: Array) -> Array:
        _library.producer_adopt(*(ctypes.byref(it) for it in (self.schema, self.array, child.schema, child.array)))
        return self

    def with_dictionary(self, values: Array) -> Array:
        _library.producer_index(*(ctypes.byref(it) for it in (self.schema, self.array, values.schema, values.array)))
        return self

    def structs(self) -> Structs:
        return Structs(schema=ctypes.addressof(self.schema), array=ctypes.addressof(self.array))

    def __arrow_c_array__(self, requested_schema: object = None) -> tuple[object, object]:
        return tuple(_NEW(ctypes.addressof(it), _NAMES[word], None) for it, word in ((self.schema, "schema"), (self.array, "array")))  # type: ignore

    def is_released(self) -> bool:
        return not self.schema.release and not self.array.release


class Stream:
    """A stream of arrays of one schema."""

    def __init__(self, pieces: Sequence[Array], fails: int = -1):
        self.stream, chunks = CStream(), (c_void_p * max(len(pieces), 1))(*[ctypes.addressof(it.array) for it in pieces])
        schema = pieces[0].schema
        _library.producer_stream(ctypes.byref(self.stream), ctypes.byref(schema), chunks, len(pieces), fails)
        for it in pieces[1:]:
            release(it.schema)

    def structs(self) -> Structs:
        return Structs(stream=ctypes.addressof(self.stream))

    def __arrow_c_stream__(self, requested_schema: object = None) -> object:
        return _NEW(ctypes.addressof(self.stream), _NAMES["stream"], None)


def release(it: Any) -> None:
    if it.release:
        ctypes.CFUNCTYPE(None, c_void_p)(it.release)(ctypes.addressof(it))


# -- arrays of items


def numbers(form: str, code: str, items: Sequence[Any], before: int = 0, **fields: Any) -> Array:
    """Numbers, dates, times or timestamps by their struct code, with so many values in front that an offset skips."""
    listed = [1] * before + [0 if it is None else it for it in items]
    return Array(form, len(items), [validity(items, before), struct.pack(f"<{len(listed)}{code}", *listed)], offset=before, **fields)


def validity(items: Sequence[Any], before: int) -> bytes | None:
    return bits([True] * before + [it is not None for it in items]) if None in items else None


def truths(items: Sequence[Any], before: int = 0, **fields: Any) -> Array:
    return Array("b", len(items), [validity(items, before), bits([True] * before + [bool(it) for it in items])], offset=before, **fields)


def texts(form: str, items: Sequence[Any], before: int = 0, start: int = 0, **fields: Any) -> Array:
    """Texts or bytes; their offsets begin at ``start``, and a null has bytes of its own."""
    pieces = [b"zz"] * before + [b"\xff" if it is None else it.encode() if isinstance(it, str) else it for it in items]
    ends, place = [start], start
    for piece in pieces:
        place += len(piece)
        ends.append(place)
    offsets = struct.pack(f"<{len(ends)}{'i' if form in 'uz' else 'q'}", *ends)
    return Array(form, len(items), [validity(items, before), offsets, b"?" * start + b"".join(pieces) + b"rest"], offset=before, **fields)


def views(form: str, items: Sequence[Any], before: int = 0, **fields: Any) -> Array:
    """Texts or bytes in views, the longer ones in two buffers by turns."""
    pieces = [b"zz"] * before + [b"\xff" * 20 if it is None else it.encode() if isinstance(it, str) else it for it in items]
    heaps, found = [bytearray(b"?"), bytearray()], b""
    for place, piece in enumerate(pieces):
        if len(piece) <= 12:
            found += struct.pack("<i12s", len(piece), piece)
            continue
        heap = place % 2
        found += struct.pack("<i4sii", len(piece), piece[:4], heap, len(heaps[heap]))
        heaps[heap] += piece
    return Array(form, len(items), [validity(items, before), found, *map(bytes, heaps), struct.pack("<2q", *map(len, heaps))], offset=before, **fields)


def fixed(size: int, items: Sequence[Any], before: int = 0, form: str | None = None, **fields: Any) -> Array:
    listed = [b"z" * size] * before + [b"\xff" * size if it is None else it for it in items]
    return Array(form or f"w:{size}", len(items), [validity(items, before), b"".join(listed)], offset=before, **fields)


def decimals(form: str, size: int, items: Sequence[Any], before: int = 0, **fields: Any) -> Array:
    return fixed(size, [None if it is None else it.to_bytes(size, "little", signed=True) for it in items], before, form, **fields)
