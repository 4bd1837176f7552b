# SPDX-License-Identifier: Apache-2.0
"""Values as the library takes them: one buffer in the column's own type, without nulls.

Numbers are little-endian of their type's width and truths a byte each; texts and bytes are one heap, with the place where each
value ends. Buffers of ``array`` and of numpy are taken as they are, without a copy, where their items have the type's width.
"""
from __future__ import annotations

import struct
import sys
from array import array
from collections.abc import Callable, Sequence
from dataclasses import dataclass
from itertools import accumulate, chain, compress
from typing import TYPE_CHECKING, Any

from .kinds import DType

if TYPE_CHECKING:
    from .reading import Read

try:
    import numpy
except ImportError:
    numpy = None  # type: ignore[assignment]

Value = bool | int | str | bytes | None

_CODES = {DType.BOOL: "?", DType.U8: "B", DType.U16: "H", DType.U32: "I", DType.U64: "Q"}
_CODES |= {DType.I8: "b", DType.I16: "h", DType.I32: "i", DType.I64: "q"}
_NONE = memoryview(b"")
if struct.calcsize("Q") != 8 or sys.byteorder != "little":
    raise ImportError("foalmorrow needs a little-endian machine")


class ValueFault(ValueError):
    """A value, or a container of values, that isn't what it is handed in for.

    ``column`` is the name of the column and ``row`` the row, or the zone of a statistic; each is None where the fault has none.

    >>> Values.of(DType.U8, [1, 300])
    Traceback (most recent call last):
    ...
    foalmorrow.arrays.ValueFault: row 1: 300 is no u8; expected a whole number from 0 to 255
    """

    def __init__(self, sentence: str, *, column: str | None = None, row: int | None = None):
        super().__init__(sentence)
        self.column, self.row = column, row


@dataclass(frozen=True)
class Values:
    """Values of one type, one behind the other. None of them is null, but of the type null.

    ``data`` has the type's width for each value, or is the heap; ``ends`` has 8 bytes for each text or bytes, and none else. ValueFault where
    one is longer or shorter.

    >>> values = Values.of(DType.UTF8, ["a", "bc"])
    >>> len(values), values[1], bytes(values.data)
    (2, 'bc', b'abc')
    """

    dtype: DType
    data: memoryview
    ends: memoryview
    count: int

    def __post_init__(self) -> None:
        ends = 8 * self.count if self.dtype.has_ends else 0
        if not self.dtype.has_ends and self.data.nbytes != self.dtype.width * self.count:
            raise ValueFault(f"{self.data.nbytes} bytes for {self.count} values of {self.dtype.word}; expected {self.dtype.width * self.count}")
        if self.ends.nbytes != ends:
            raise ValueFault(f"{self.ends.nbytes} bytes of ends for {self.count} values of {self.dtype.word}; expected {ends}")

    @classmethod
    def of(cls, dtype: DType, values: object) -> Values:
        """Returns the values of a container, as ``foalmorrow.reading`` lists them; a buffer of the type itself isn't copied.

        ValueFault where an item is no value of the type, or is null.

        >>> bytes(Values.of(DType.I16, range(3)).data)
        b'\\x00\\x00\\x01\\x00\\x02\\x00'
        """
        from .reading import Where, read

        found = read(dtype, values, Where())
        if found.nulls is not None:
            raise ValueFault(f"row {found.nulls.index(1)}: null is no value; expected a Nullable in a chunk", row=found.nulls.index(1))
        return found.values

    @classmethod
    def of_heap(cls, dtype: DType, heap: object, ends: object) -> Values:
        """Returns texts or bytes that stand in one heap of bytes, with where each value ends as 64-bit numbers.

        ValueFault where these are no such buffers. The offsets of Arrow are 32-bit numbers, with one more in front: they aren't taken.

        >>> list(Values.of_heap(DType.UTF8, b"abc", array("Q", [1, 3])))
        ['a', 'bc']
        """
        if not dtype.has_ends:
            raise ValueFault(f"values of {dtype.word} stand in no heap; expected utf8 or binary")
        pieces, places = _buffer(heap, "the heap"), _buffer(ends, "the ends")
        if pieces.itemsize != 1:
            raise ValueFault(f"the heap has items of form {pieces.format!r}; expected bytes")
        if len(places) and (places.itemsize != 8 or places.format.lstrip("@=<") not in tuple("qQlLnN")):
            raise ValueFault(f"the ends have the form {places.format!r}; expected 64-bit numbers")
        return cls(dtype, _flat(pieces), _flat(places), len(places))

    def __len__(self) -> int:
        return self.count

    @property
    def size(self) -> int:
        """The bytes that the values take, 8 for the end of each text among them."""
        return self.data.nbytes + self.ends.nbytes

    def __getitem__(self, place: int) -> bool | int | str | bytes | None:
        """Returns the value at a place; texts as ``str`` and bytes as ``bytes``. ValueFault where a text isn't one, or has no place."""
        if not 0 <= place < self.count:
            raise IndexError(place)
        if self.dtype == DType.NULL:
            return None
        if not self.dtype.has_ends:
            found: bool | int = struct.unpack_from("<" + _CODES[self.dtype], self.data, place * self.dtype.width)[0]
            return found
        ends = self.ends.cast("Q")
        start, end = ends[place - 1] if place else 0, ends[place]
        if not start <= end <= len(self.data):
            raise ValueFault(f"row {place}: a text begins behind its end, or ends behind the heap", row=place)
        piece = bytes(self.data[start:end])
        try:
            return piece.decode() if self.dtype == DType.UTF8 else piece
        except UnicodeDecodeError as fault:
            raise ValueFault(f"row {place}: a text isn't UTF-8: {fault.reason}", row=place) from fault

    def slice(self, start: int, stop: int) -> Values:
        """Returns the values from one place up to another, without a copy but of the ends of texts.

        ValueFault where the first text begins, or the last one ends, behind the heap.

        >>> list(Values.of(DType.I64, [1, 2, 3]).slice(1, 3))
        [2, 3]
        """
        if self.dtype.has_ends:
            ends = self.ends.cast("Q")
            first = ends[start - 1] if start else 0
            last = ends[stop - 1] if stop > start else first
            if not first <= last <= self.data.nbytes:
                raise ValueFault(f"row {start}: a text begins behind its end, or ends behind the heap", row=start)
            return Values(self.dtype, self.data[first:last], moved(ends[start:stop], -first), stop - start)
        width = self.dtype.width
        return Values(self.dtype, self.data[start * width : stop * width], self.ends, stop - start)

    def take(self, places: range) -> Values:
        """Returns the values at places that ascend by one step, as a copy. ValueFault where texts are no pieces of their heap.

        >>> list(Values.of(DType.I64, [1, 2, 3]).take(range(0, 3, 2)))
        [1, 3]
        """
        if self.dtype.has_ends:
            ends = self.heap_ends()
            return of_texts(self.dtype, [bytes(self.data[ends[place - 1] if place else 0 : ends[place]]) for place in places])
        width, code = self.dtype.width, _CODES.get(self.dtype, "B")
        view = self.data.cast(code) if width else self.data
        picked = view[places.start : places.stop : places.step].tobytes() if width else b""
        return Values(self.dtype, memoryview(picked), _NONE, len(places))

    def heap_ends(self) -> memoryview:
        """Returns where each text ends. ValueFault where one ends before it begins, or behind the heap.

        >>> list(Values.of(DType.UTF8, ["a", "bc"]).heap_ends())
        [1, 3]
        """
        ends = self.ends.cast("Q")
        if numpy is not None and len(ends):
            found = numpy.frombuffer(self.ends, dtype="<u8")
            falls = numpy.flatnonzero((found[1:] < found[:-1]) | (found[1:] > self.data.nbytes)) + 1
            place = 0 if found[0] > self.data.nbytes else int(falls[0]) if len(falls) else -1
        else:
            pairs = enumerate(zip(chain([0], ends), ends))
            place = next((at for at, (start, end) in pairs if not start <= end <= self.data.nbytes), -1)
        if place >= 0:
            raise ValueFault(f"row {place}: a text begins behind its end, or ends behind the heap", row=place)
        return ends


@dataclass(frozen=True)
class Buffers:
    """The buffers of an array of Arrow as the library takes them: ``vortex_arrow_values`` of its header. The memory is the array's."""

    #: How many places stand before the first value.
    offset: int
    #: The bytes of an offset of texts and bytes, and else 0.
    offset_width: int
    #: A bit for each place, or nothing where no value is null.
    validity: memoryview
    values: memoryview
    offsets: memoryview


class Packed(Values):
    """Values in the buffers of an array of Arrow, nulls among them, while the array isn't released.

    The library measures and checks them as they are. ``unpacked`` reads them into arrays of their own, which ``data`` and ``ends`` ask for.
    """

    buffers: Buffers
    null_count: int
    unpacked: Callable[[], Read]

    def __init__(self, dtype: DType, count: int, size: int, null_count: int, buffers: Buffers, unpacked: Callable[[], Read]):
        found = {"dtype": dtype, "count": count, "_size": size, "null_count": null_count, "buffers": buffers, "unpacked": unpacked}
        for name, value in found.items():
            object.__setattr__(self, name, value)

    @property
    def size(self) -> int:
        return int(self._size)

    def __getattr__(self, name: str) -> Any:
        if name not in ("data", "ends"):
            raise AttributeError(name)
        found = self.unpacked().values
        object.__setattr__(self, "data", found.data)
        object.__setattr__(self, "ends", found.ends)
        return getattr(found, name)


def of_numbers(dtype: DType, numbers: Sequence[int]) -> Values:
    """Returns numbers or truths, each of which the type has."""
    packed: bytes | array[int] = bytes(numbers) if dtype == DType.BOOL else array(_CODES[dtype], numbers)
    return Values(dtype, memoryview(packed).cast("B"), _NONE, len(numbers))


def of_texts(dtype: DType, pieces: Sequence[bytes]) -> Values:
    """Returns texts, by their UTF-8, or bytes."""
    return Values(dtype, memoryview(b"".join(pieces)), ends_of(pieces), len(pieces))


def ends_of(pieces: Sequence[bytes | str]) -> memoryview:
    """Returns where each piece ends in what they make one behind the other."""
    if numpy is not None:
        lengths = numpy.fromiter(map(len, pieces), dtype="<u8", count=len(pieces))
        return memoryview(numpy.cumsum(lengths, dtype="<u8").tobytes())
    return memoryview(array("Q", accumulate(map(len, pieces)))).cast("B")


def spaced(present: Values, nulls: bytes) -> Values:
    """Returns the values with room at each null, where the library reads nothing: zeros for numbers and truths, no bytes for texts."""
    count, width = len(nulls), present.dtype.width
    if not any(nulls):
        return present
    if present.dtype.has_ends:
        return Values(present.dtype, present.data, _repeated(present.ends, nulls), count)
    room = bytearray(width * count)
    if numpy is not None and len(present):
        there = numpy.frombuffer(nulls, dtype=numpy.uint8) == 0
        own = numpy.dtype(f"V{width}")
        numpy.frombuffer(room, dtype=own)[there] = numpy.frombuffer(present.data, dtype=own)
    else:
        rows = compress(range(count), (not null for null in nulls))
        for place, row in enumerate(rows):
            room[row * width : (row + 1) * width] = present.data[place * width : (place + 1) * width]
    return Values(present.dtype, memoryview(room), _NONE, count)


def _repeated(ends: memoryview, nulls: bytes) -> memoryview:
    """Returns where each text ends, a null where the text before it does."""
    if numpy is not None:
        there = numpy.cumsum(numpy.frombuffer(nulls, dtype=numpy.uint8) == 0)
        return memoryview(numpy.concatenate([numpy.zeros(1, "<u8"), numpy.frombuffer(ends, dtype="<u8")])[there].tobytes())
    of_present = ends.cast("Q")
    counts = accumulate(not null for null in nulls)
    return memoryview(array("Q", (of_present[at - 1] if at else 0 for at in counts))).cast("B")


def gathered(values: Values, places: Any) -> Values:
    """Returns the values at the places of an array of numpy, as a copy; where a place is -1 room for a null.

    ValueFault where texts are no pieces of their heap.
    """
    if values.dtype.has_ends:
        ends = values.heap_ends()
        pieces = [bytes(values.data[ends[place - 1] if place else 0 : ends[place]]) for place in range(len(values))]
        pieces.append(b"")
        listed = places.tolist()
        lengths = numpy.fromiter(map(len, pieces), dtype="<u8", count=len(pieces))
        ends_there = numpy.cumsum(lengths[places], dtype="<u8")
        return Values(values.dtype, memoryview(b"".join(map(pieces.__getitem__, listed))), memoryview(ends_there.tobytes()), len(listed))
    width = values.dtype.width
    if not width:
        return Values(values.dtype, _NONE, _NONE, len(places))
    held = numpy.frombuffer(bytes(values.data) + bytes(width), dtype=f"V{width}")
    return Values(values.dtype, memoryview(held[places].tobytes()), _NONE, len(places))


def joined(pieces: Sequence[Values]) -> Values:
    """Returns the values of some pieces of one type, one piece behind the other. ValueFault where texts are no pieces of their heap."""
    dtype, count = pieces[0].dtype, sum(len(piece) for piece in pieces)
    if not dtype.has_ends:
        return Values(dtype, memoryview(b"".join(piece.data for piece in pieces)), _NONE, count)
    heaps, places, start = [], [], 0
    for piece in pieces:
        ends = piece.heap_ends()
        # Bytes behind the last end belong to no text, and would be taken for the beginning of the next one.
        heaps.append(piece.data[: ends[-1] if len(ends) else 0])
        places.append(moved(ends, start))
        start += heaps[-1].nbytes
    return Values(dtype, memoryview(b"".join(heaps)), memoryview(b"".join(places)), count)


def moved(ends: memoryview | array[int], by: int) -> memoryview:
    """Returns the ends of texts in a heap that begins so much later."""
    if not len(ends):
        return _NONE
    if numpy is not None:
        return memoryview(numpy.frombuffer(ends, dtype="<i8") + by).cast("B")  # type: ignore[arg-type]
    return memoryview(array("Q", ((end + by) % 2**64 for end in ends))).cast("B")


def _buffer(given: object, word: str) -> memoryview:
    try:
        view = memoryview(given)  # type: ignore[arg-type]
    except TypeError:
        raise ValueFault(f"{word} of type {type(given).__name__} is no buffer; expected bytes or an array") from None
    if view.ndim != 1 or not view.c_contiguous:
        raise ValueFault(f"{word} doesn't stand one item behind the other; expected one dimension, without gaps")
    return view


def _flat(view: memoryview) -> memoryview:
    return view.cast("B") if view.nbytes else _NONE
