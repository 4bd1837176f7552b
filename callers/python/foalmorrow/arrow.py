# SPDX-License-Identifier: Apache-2.0
"""Arrays, tables and streams of Arrow's C Data Interface, as pyarrow, polars, DuckDB and nanoarrow hand them out; none of these is needed.

A producer offers ``__arrow_c_array__`` or ``__arrow_c_stream__``; or C code hands over the addresses of its structs, as ``Structs``. What is
read is copied, and each release callback is called once: before a read returns, and after an error too. A chunk's arrays of numbers, truths,
texts and bytes are lent to the library as they are, and released once it has measured or checked them. An array's buffers have no lengths of
their own, so that a producer is trusted for them; all else that its structs say is looked at. How many buffers an array of views has is told by
the producer alone, too: where Linux shows a process its memory, what would stand outside of it is refused.
"""
from __future__ import annotations

import ctypes
from collections.abc import Callable, Iterator, Mapping, Sequence
from contextlib import contextmanager
from ctypes import POINTER, Structure, c_char_p, c_int, c_int64, c_void_p
from itertools import islice
from typing import Any

from .arrays import Buffers, Packed, joined
from .kinds import Column, DType, Logical
from .reading import Read, Where
from .types import Unmapped

try:
    import numpy

    from .layouts import NUMBERS, Laid, converted, width
except ImportError:
    numpy = None  # type: ignore[assignment]


class CSchema(Structure):
    """The struct ArrowSchema."""


class CArray(Structure):
    """The struct ArrowArray."""


class CStream(Structure):
    """The struct ArrowArrayStream."""


CSchema._fields_ = [
    ("format", c_char_p), ("name", c_char_p), ("metadata", c_void_p), ("flags", c_int64), ("n_children", c_int64),
    ("children", POINTER(POINTER(CSchema))), ("dictionary", POINTER(CSchema)), ("release", c_void_p), ("private_data", c_void_p),
]
CArray._fields_ = [
    ("length", c_int64), ("null_count", c_int64), ("offset", c_int64), ("n_buffers", c_int64), ("n_children", c_int64),
    ("buffers", POINTER(c_void_p)), ("children", POINTER(POINTER(CArray))), ("dictionary", POINTER(CArray)), ("release", c_void_p),
    ("private_data", c_void_p),
]
CStream._fields_ = [(name, c_void_p) for name in ("get_schema", "get_next", "get_last_error", "release", "private_data")]

_NONE = memoryview(b"")
_RELEASE = ctypes.CFUNCTYPE(None, c_void_p)
_FILL = ctypes.CFUNCTYPE(c_int, c_void_p, c_void_p)
_TOLD = ctypes.CFUNCTYPE(c_char_p, c_void_p)
#: No array has more values: more than an address space has bytes.
_MOST = 2**47
#: No array of views has more buffers.
_MOST_BUFFERS = 2**20
#: How deep dictionaries and structs may nest.
_DEEPEST = 16
#: The formats of arrays that the library takes as they are.
_TAKEN = {
    "c": DType.I8, "C": DType.U8, "s": DType.I16, "S": DType.U16, "i": DType.I32, "I": DType.U32, "l": DType.I64, "L": DType.U64, "b": DType.BOOL,
    "u": DType.UTF8, "U": DType.UTF8, "z": DType.BINARY, "Z": DType.BINARY,
}


class Structs:
    """An array or a stream at the addresses of its C structs, which the first read takes over and releases.

    ``Structs(schema=.., array=..)`` has the addresses of an ArrowSchema and an ArrowArray, ``Structs(stream=..)`` that of an ArrowArrayStream.
    TypeError where these are others.

    >>> Structs(schema=64)
    Traceback (most recent call last):
    ...
    TypeError: Structs takes the addresses of a schema and an array, or that of a stream
    """

    def __init__(self, *, schema: int | None = None, array: int | None = None, stream: int | None = None):
        if not ((schema and array and stream is None) or (stream and schema is None and array is None)):
            raise TypeError("Structs takes the addresses of a schema and an array, or that of a stream")
        #: The addresses: of a schema and an array, or of a stream.
        self.arrow_structs: tuple[int, ...] = (stream,) if stream is not None else (schema or 0, array or 0)


class _Owned:
    """A struct that has been moved here from its producer's, and is released once."""

    def __init__(self, kind: type[Structure], address: int | None, where: Where):
        self.struct: Any = kind()
        if address is not None:
            source: Any = kind.from_address(address)
            if not source.release:
                raise where.fault("the array of Arrow was read or released before; expected it from its producer anew")
            ctypes.memmove(ctypes.byref(self.struct), address, ctypes.sizeof(kind))
            source.release = None

    def __enter__(self) -> Any:
        return self.struct

    def __exit__(self, *_: object) -> None:
        callback = self.struct.release
        if callback:
            _RELEASE(callback)(ctypes.addressof(self.struct))
            # A producer marks the struct as released itself; one that doesn't isn't called again.
            self.struct.release = None


class _Owners:
    """Structs that are released together, the last one first, and what has to live as long as they do."""

    def __init__(self) -> None:
        self.owned: list[_Owned] = []
        self.kept: list[object] = []

    def take(self, owned: _Owned) -> Any:
        self.owned.append(owned)
        return owned.struct

    def __enter__(self) -> _Owners:
        return self

    def __exit__(self, *_: object) -> None:
        while self.owned:
            self.owned.pop().__exit__()


def _address(capsule: object, name: bytes, where: Where) -> int:
    call = ctypes.pythonapi.PyCapsule_GetPointer
    call.argtypes, call.restype = [ctypes.py_object, c_char_p], c_void_p
    try:
        return int(call(capsule, name) or 0)
    except (ValueError, TypeError) as fault:
        raise where.fault(f"{type(capsule).__name__} is no capsule {name.decode()!r} of Arrow; expected one") from fault


def _structs(given: Any, owners: _Owners, where: Where, is_table: bool = False) -> tuple[Any, ...]:
    """Takes over the structs that a container offers: a schema and an array, or a stream."""
    if numpy is None:
        raise where.fault("an array of Arrow is read by numpy, which isn't there; expected a list or another container")
    addresses: Sequence[int]
    if hasattr(given, "arrow_structs"):
        addresses = given.arrow_structs
    elif hasattr(given, "__arrow_c_array__") and not (is_table and hasattr(given, "__arrow_c_stream__")):
        capsules = given.__arrow_c_array__()
        if not isinstance(capsules, tuple) or len(capsules) != 2:
            raise where.fault("__arrow_c_array__ hands out no pair; expected the capsules of a schema and an array")
        addresses = [_address(it, name, where) for it, name in zip(capsules, (b"arrow_schema", b"arrow_array"))]
        owners.kept.append(capsules)
    else:
        capsule = given.__arrow_c_stream__()
        addresses = [_address(capsule, b"arrow_array_stream", where)]
        owners.kept.append(capsule)
    kinds = (CStream,) if len(addresses) == 1 else (CSchema, CArray)
    return tuple(owners.take(_Owned(kind, address, where)) for kind, address in zip(kinds, addresses))


def read(kind: DType | Logical, given: Any, where: Where) -> Read:
    """Reads an array, or a stream of arrays as one column, into values of a type and nulls.

    ValueFault where the structs aren't those of an array that Arrow allows, where it isn't of the type, or where the producer fails.
    """
    with _Owners() as owners:
        structs = _structs(given, owners, where)
        if len(structs) == 2:
            return _read(kind, structs[0], structs[1], where)
        schema = owners.take(_schema_of(structs[0], where))
        return _joined(kind, _pieces(kind, schema, _arrays(structs[0], where), where, []))


@contextmanager
def lent(kind: DType | Logical, given: Any, where: Where) -> Iterator[Read]:
    """Lends an array, or the only array of a stream, as it is where the library takes its layout, and else reads it. Errors are those of ``read``.

    What is lent is released at the end.
    """
    with _Owners() as owners:
        schema, first, rest = _first_arrays(_structs(given, owners, where), owners, where)
        if len(first) == 1:
            yield _lent(kind, schema, first[0], where)
            return
        pieces: list[Read] = []
        for chunk in first:
            pieces.append(_read(kind, schema, chunk, _moved(where, pieces)))
        yield _joined(kind, _pieces(kind, schema, rest, where, pieces))


def _first_arrays(structs: tuple[Any, ...], owners: _Owners, where: Where) -> tuple[Any, list[Any], Iterator[_Owned]]:
    """Returns the schema, the array or the first two arrays of a stream, which are held, and the arrays behind them."""
    if len(structs) == 2:
        return structs[0], [structs[1]], iter(())
    schema, arrays = owners.take(_schema_of(structs[0], where)), _arrays(structs[0], where)
    return schema, [owners.take(it) for it in islice(arrays, 2)], arrays


def _pieces(kind: DType | Logical, schema: Any, arrays: Iterator[_Owned], where: Where, before: list[Read]) -> list[Read]:
    """Reads the arrays of a stream behind those that were read before."""
    for array in arrays:
        with array as chunk:
            before.append(_read(kind, schema, chunk, _moved(where, before)))
    return before


def _lent(kind: DType | Logical, schema: Any, array: Any, where: Where, start: int = 0, count: int | None = None) -> Read:
    """Lends an array, or so many of its values from ``start`` on, where the library takes its layout, and else reads it."""
    form = _text(schema.format or b"")
    if isinstance(kind, DType) and _TAKEN.get(form) == kind and not schema.dictionary and not array.dictionary:
        _form(schema, array, where)
        first, length = array.offset + start, array.length if count is None else count
        found = _packed(kind, form, array, first, length, where, lambda: _read(kind, schema, array, where, start, count))
        if found is not None:
            return Read(found, None)
    return _read(kind, schema, array, where, start, count)


def _packed(kind: DType, form: str, array: Any, first: int, length: int, where: Where, unpacked: Callable[[], Read]) -> Packed | None:
    """Returns the values of an array in its own buffers; None where its last offset is none."""
    validity, size, data_size, offsets = _bitmap(array, where), width(form) or 0, kind.width * length, _NONE
    offset_width = {"u": 4, "z": 4, "U": 8, "Z": 8}.get(form, 0) if length else 0
    if offset_width:
        offsets = memoryview(_buffer(array, 1, (first + length + 1) * offset_width, where))
        begin, end = (int.from_bytes(offsets[place * offset_width :][:offset_width], "little", signed=True) for place in (first, first + length))
        if not 0 <= begin <= end <= _MOST:
            return None
        values, data_size = memoryview(_buffer(array, 2, end, where)), end - begin + 8 * length
    elif kind.has_ends:
        values = _NONE
    else:
        values = memoryview(_buffer(array, 1, (first + length) * size if size else (first + length + 7) // 8, where))
    nulls = 0 if validity is None else length - _set_bits(validity, first, length)
    buffers = Buffers(first, offset_width or 4 * kind.has_ends, memoryview(validity) if nulls else _NONE, values, offsets)
    return Packed(kind, length, data_size, nulls, buffers, unpacked)


def _read(kind: DType | Logical, schema: Any, array: Any, where: Where, start: int = 0, count: int | None = None) -> Read:
    """Reads an array, or so many of its values from ``start`` on; of an unmapped column of any layout which of them are null."""
    is_plain = schema.dictionary or array.dictionary or schema.format in (None, b"n")
    if isinstance(kind, Unmapped) and not is_plain:
        return converted(kind, _nested(schema, array, where, start, count), where)
    return converted(kind, _laid(schema, array, where, start, count), where)


def _moved(where: Where, pieces: Sequence[Read]) -> Where:
    """Names the rows of a chunk that stands behind others."""
    start = sum(len(piece.values) for piece in pieces)
    return Where(where.words, where.column, where.unit, range(start, 2**62)) if start else where


def _joined(kind: DType | Logical, pieces: Sequence[Read]) -> Read:
    if not pieces:
        from .reading import read_typed

        return read_typed(kind, [], None, Where())
    values = joined([piece.values for piece in pieces])
    if all(piece.nulls is None for piece in pieces):
        return Read(values, None)
    return Read(values, b"".join(piece.nulls or bytes(len(piece.values)) for piece in pieces))


# -- tables


def is_table(given: object) -> bool:
    """Tells whether a chunk is an array or a stream of Arrow."""
    return any(hasattr(given, name) for name in ("__arrow_c_array__", "__arrow_c_stream__", "arrow_structs"))


@contextmanager
def columns_lent(columns: Sequence[Column], given: Any) -> Iterator[Mapping[str, Read]]:
    """Lends the columns of a record batch, or of a table of one, as ``lent`` does; reads those of a table of several, which are one chunk.

    ValueFault as of ``read``; KeyError names a missing column.
    """
    where = Where("the table")
    with _Owners() as owners:
        schema, first, rest = _first_arrays(_structs(given, owners, where, is_table=True), owners, where)
        if len(first) == 1:
            yield _batch(columns, schema, first[0], {}, _lent)
            return
        pieces: dict[str, list[Read]] = {column.name: [] for column in columns}
        for chunk in first:
            _add(pieces, _batch(columns, schema, chunk, pieces))
        for array in rest:
            with array as chunk:
                _add(pieces, _batch(columns, schema, chunk, pieces))
        yield {column.name: _joined(column.type, pieces[column.name]) for column in columns}


def _add(pieces: Mapping[str, list[Read]], found: Mapping[str, Read]) -> None:
    for name, piece in found.items():
        pieces[name].append(piece)


class Batch:
    """A record batch of a stream, for the time of one chunk."""

    def __init__(self, schema: Any, array: Any):
        self._schema, self._array = schema, array

    def columns(self, columns: Sequence[Column]) -> Mapping[str, Read]:
        """Lends columns of the batch where the library takes their layouts, and else reads them. Errors are those of ``columns_lent``."""
        return _batch(columns, self._schema, self._array, {}, _lent)


def batches(given: Any) -> Iterator[Batch]:
    """Yields the record batches of a stream. ValueFault where the producer fails."""
    where = Where("the table")
    with _Owners() as owners:
        structs = _structs(given, owners, where, is_table=True)
        if len(structs) == 2:
            yield Batch(*structs)
            return
        schema = owners.take(_schema_of(structs[0], where))
        for array in _arrays(structs[0], where):
            with array as chunk:
                yield Batch(schema, chunk)


def _batch(
    columns: Sequence[Column], schema: Any, array: Any, before: Mapping[str, Sequence[Read]], take: Callable[..., Read] | None = None
) -> Mapping[str, Read]:
    """Takes columns of a batch, by reading them where nothing else is said."""
    where = Where("the table")
    if schema.format != b"+s":
        raise where.fault(f"an array of Arrow's format {_text(schema.format)!r} is no table; expected a struct of its columns")
    _checked(schema, array, 1, where)
    if array.n_children != schema.n_children or (array.n_children and not (array.children and schema.children)):
        raise where.fault(f"a table of {schema.n_children} columns has arrays of {array.n_children}; expected as many")
    if _there(array, where) is not None:
        raise where.fault("rows of the table are null as a whole; expected nulls in its columns alone")
    names = [_name(schema.children[place], where) for place in range(schema.n_children)]
    found = {}
    for column in columns:
        if names.count(column.name) != 1:
            raise KeyError(column.name) if column.name not in names else where.fault(f"{names.count(column.name)} columns are named {column.name}; expected one")
        place, of_column = names.index(column.name), _moved(Where(f"column {column.name}", column.name), before.get(column.name, ()))
        child = array.children[place]
        if not child or child.contents.length - array.offset < array.length:
            raise of_column.fault(f"the array is shorter than its table; expected {array.offset + array.length} rows")
        found[column.name] = (take or _read)(column.type, schema.children[place].contents, child.contents, of_column, array.offset, array.length)
    return found


def _name(schema: Any, where: Where) -> str:
    if not schema:
        raise where.fault("a column of the table has no schema; expected one")
    return _text(schema.contents.name or b"")


# -- streams


def _schema_of(stream: Any, where: Where) -> _Owned:
    found = _Owned(CSchema, None, where)
    _filled(stream, stream.get_schema, found, where)
    if not found.struct.release:
        raise where.fault("a stream of Arrow has a released schema; expected one")
    return found


def _arrays(stream: Any, where: Where) -> Iterator[_Owned]:
    while True:
        found = _Owned(CArray, None, where)
        _filled(stream, stream.get_next, found, where)
        if not found.struct.release:
            return
        yield found


def _filled(stream: Any, call: int | None, into: _Owned, where: Where) -> None:
    if not call:
        raise where.fault("a stream of Arrow lacks a callback; expected get_schema and get_next")
    code = _FILL(call)(ctypes.addressof(stream), ctypes.addressof(into.struct))
    if code != 0:
        told = _TOLD(stream.get_last_error)(ctypes.addressof(stream)) if stream.get_last_error else None
        into.struct.release = None
        raise where.fault(f"the producer of a stream of Arrow failed with code {code}: {_text(told or b'it says no more')}; expected an array")


# -- arrays


def _text(word: bytes) -> str:
    return word.decode("utf-8", "backslashreplace")


def _form(schema: Any, array: Any, where: Where) -> str:
    """Looks at the format and the numbers of an array, and returns the format."""
    if schema.format is None:
        raise where.fault("a schema of Arrow has no format; expected one")
    form = _text(schema.format)
    is_heap, is_view = form in ("u", "U", "z", "Z"), form in ("vu", "vz")
    if width(form) is None and not (is_heap or is_view) and form not in ("b", "n"):
        raise where.fault(f"arrays of Arrow's format {form!r} aren't read; expected numbers, truths, texts, bytes, dates, times, decimals or dictionaries")
    _checked(schema, array, max(array.n_buffers, 3) if is_view else 0 if form == "n" else 3 if is_heap else 2, where)
    if array.n_children or schema.n_children:
        raise where.fault(f"an array of Arrow's format {form!r} has {array.n_children} children; expected none")
    if bool(schema.dictionary) != bool(array.dictionary):
        raise where.fault("a schema of Arrow and its array don't agree whether there is a dictionary; expected both or none")
    return form


def _laid(schema: Any, array: Any, where: Where, start: int = 0, count: int | None = None, depth: int = 0) -> Laid:
    """Copies an array, or so many of its values from ``start`` on, and looks at all that its structs say."""
    if depth > _DEEPEST:
        raise where.fault(f"dictionaries nest deeper than {_DEEPEST}; expected fewer")
    form = _form(schema, array, where)
    size, is_heap, is_view = width(form), form in ("u", "U", "z", "Z"), form in ("vu", "vz")
    first, length = array.offset + start, array.length if count is None else count
    there = _there(array, where, first, length) if form != "n" else None
    dictionary = None
    if schema.dictionary:
        of_values = Where(f"{where.words}, dictionary", where.column, "value")
        dictionary = _laid(schema.dictionary.contents, array.dictionary.contents, of_values, depth=depth + 1)
    if form == "n":
        return Laid(form, length, None)
    if is_heap:
        heap, ends = _heap(array, 8 if form in ("U", "Z") else 4, first, length, where)
        return Laid(form, length, heap, ends, there, dictionary)
    if is_view:
        heap, ends = _views(array, first, length, there, where)
        return Laid(form[1:], length, heap, ends, there, dictionary)
    if form == "b":
        return Laid(form, length, _bits(_buffer(array, 1, (first + length + 7) // 8, where), first, length), None, there, dictionary)
    assert size is not None
    held = _buffer(array, 1, (first + length) * size, where)[first * size :].copy()
    return Laid(form, length, held.view(NUMBERS[form]) if form in NUMBERS else held, None, there, dictionary)


def _nested(schema: Any, array: Any, where: Where, start: int, count: int | None) -> Laid:
    """Looks which values of an array of any layout are null, and at nothing else of it."""
    form = _text(schema.format)
    # Unions and runs have no validity of their own.
    if form.startswith(("+u", "+r")):
        raise where.fault(f"arrays of Arrow's format {form!r} don't say which values are null; expected another layout")
    _checked(schema, array, max(array.n_buffers, 1), where)
    return Laid(form, array.length if count is None else count, None, None, _there(array, where, array.offset + start, count))


def _checked(schema: Any, array: Any, buffers: int, where: Where) -> None:
    """Refuses an array whose numbers can't be."""
    form = _text(schema.format or b"")
    if array.length < 0 or array.offset < 0 or array.length + array.offset > _MOST:
        raise where.fault(f"an array of Arrow has {array.length} values from {array.offset} on; expected a length")
    if not -1 <= array.null_count <= array.length:
        raise where.fault(f"{array.null_count} of {array.length} values are null; expected a count of them, or -1")
    if array.n_buffers != buffers:
        raise where.fault(f"an array of Arrow's format {form!r} has {array.n_buffers} buffers; expected {buffers}")
    if array.n_buffers and not array.buffers:
        raise where.fault(f"an array of Arrow has no buffers; expected {buffers}")
    if array.n_children < 0 or schema.n_children < 0:
        raise where.fault(f"an array of Arrow has {array.n_children} children; expected none or more")


def _bitmap(array: Any, where: Where) -> Any:
    """Returns the bits of validity of a whole array, or None where it has none."""
    if not array.buffers or not array.buffers[0]:
        if array.null_count > 0:
            raise where.fault(f"{array.null_count} values are null, and none is marked; expected a buffer of validity")
        return None
    packed = _buffer(array, 0, (array.offset + array.length + 7) // 8, where)
    nulls = array.length - _set_bits(packed, array.offset, array.length)
    if array.null_count not in (-1, nulls):
        raise where.fault(f"{array.null_count} values are said to be null, and {nulls} are; expected the same")
    return packed


def _set_bits(packed: Any, first: int, length: int) -> int:
    """Returns how many of so many bits from one on are 1."""
    found = int.from_bytes(packed[first // 8 : (first + length + 7) // 8].tobytes(), "little") >> first % 8
    return (found & ((1 << length) - 1)).bit_count()


def _there(array: Any, where: Where, first: int | None = None, length: int | None = None) -> Any:
    """Returns which values aren't null, or None where none is."""
    packed = _bitmap(array, where)
    if packed is None:
        return None
    there = _bits(packed, array.offset if first is None else first, array.length if length is None else length)
    return None if there.all() else there


def _bits(packed: Any, first: int, length: int) -> Any:
    """Returns truths of bits, of which the lowest one of a byte comes first."""
    skipped = first // 8
    return numpy.unpackbits(packed[skipped:], bitorder="little")[first - 8 * skipped :][:length].view(bool)


def _buffer(array: Any, place: int, size: int, where: Where) -> Any:
    """Returns so many bytes of a buffer, without a copy."""
    if not size:
        return numpy.zeros(0, numpy.uint8)
    address = array.buffers[place]
    if not address:
        raise where.fault(f"buffer {place} of an array of Arrow isn't there; expected {size} bytes")
    held: Any = (ctypes.c_uint8 * size).from_address(address)
    return numpy.frombuffer(held, numpy.uint8)


def _copied(address: int, size: int, place: int, where: Where) -> Any:
    """Returns so many bytes of a buffer as a copy. Refuses what isn't in memory, where Linux shows it."""
    found = b""
    try:
        if size and address:
            with open("/proc/self/mem", "rb") as memory:
                memory.seek(address)
                found = memory.read(size)
    except (FileNotFoundError, PermissionError):
        found = ctypes.string_at(address, size)
    except (OSError, OverflowError, ValueError):
        pass
    if len(found) != size:
        raise where.fault(f"buffer {place} of an array of Arrow isn't there; expected {size} bytes")
    return numpy.frombuffer(found, numpy.uint8)


def _heap(array: Any, size: int, first: int, length: int, where: Where) -> tuple[Any, Any]:
    """Returns the heap of texts or bytes from the first one on, and where each of them ends."""
    if not length:
        return numpy.zeros(0, numpy.uint8), numpy.zeros(0, "<u8")
    offsets = _buffer(array, 1, (first + length + 1) * size, where).view(f"<i{size}")[first:]
    falls = numpy.flatnonzero(offsets[1:] < offsets[:-1])
    if offsets[0] < 0 or len(falls):
        row = int(falls[0]) if len(falls) else 0
        raise where.fault(f"a text ends at {offsets[row + 1]} and begins at {offsets[row]}; expected offsets from 0 on that don't descend", row)
    start, end = int(offsets[0]), int(offsets[-1])
    if end > _MOST:
        raise where.fault(f"the last text ends at {end}; expected an end within memory")
    return _buffer(array, 2, end, where)[start:].copy(), (offsets[1:].astype("<i8") - start).astype("<u8")


def _views(array: Any, first: int, length: int, there: Any, where: Where) -> tuple[Any, Any]:
    """Returns the heap of texts or bytes in views of 16 bytes: a length, and up to 12 bytes or where longer ones stand."""
    views = _buffer(array, 1, (first + length) * 16, where)[first * 16 :].copy()
    fields = views.view("<i4").reshape(length, 4)
    # A null has room for no bytes, whatever its view says.
    sizes = fields[:, 0].astype("<i8") if there is None else numpy.where(there, fields[:, 0], 0).astype("<i8")
    count = array.n_buffers - 3
    if count > _MOST_BUFFERS:
        raise where.fault(f"an array of views has {array.n_buffers} buffers; expected at most {_MOST_BUFFERS}")
    addresses = _copied(ctypes.addressof(array.buffers.contents), 8 * array.n_buffers, 0, where).view("<u8").tolist()
    lengths = _copied(addresses[-1], 8 * count, count + 2, where).view("<i8")
    if ((lengths < 0) | (lengths > _MOST)).any():
        raise where.fault("a buffer of views has a length that can't be; expected one within memory")
    is_long = sizes > 12
    buffer, start = numpy.where(is_long, fields[:, 2], 0), numpy.where(is_long, fields[:, 3], 0).astype("<i8")
    wrong = (sizes < 0) | (is_long & ((buffer < 0) | (buffer >= count) | (start < 0)))
    room = numpy.concatenate([lengths, numpy.zeros(1, "<i8")])[numpy.where(wrong, count, buffer)]
    wrong |= is_long & (start + sizes > room)
    if wrong.any():
        raise where.fault("a view lies outside of its buffers; expected one within them", int(wrong.argmax()))
    # The bytes one behind the other: those of the views, and of each buffer as far as views need it.
    needed = numpy.zeros(count + 1, "<i8")
    numpy.maximum.at(needed, numpy.where(is_long, buffer, count), numpy.where(is_long, start + sizes, 0))
    bytes_of = numpy.concatenate([views, *[_copied(addresses[2 + place], int(needed[place]), 2 + place, where) for place in range(count)]])
    bases = numpy.cumsum(needed) - needed
    starts = numpy.where(is_long, len(views) + bases[numpy.where(is_long, buffer, count)] + start, numpy.arange(length, dtype="<i8") * 16 + 4)
    ends = numpy.cumsum(sizes)
    places = numpy.arange(int(ends[-1]) if length else 0, dtype="<i8") + numpy.repeat(starts - (ends - sizes), sizes)
    return bytes_of[places], ends.astype("<u8")
