# SPDX-License-Identifier: Apache-2.0
"""The values of some columns of a Parquet file, as the checkpoints of logs have them: texts, numbers and truths, lists and maps of texts.

Read are plain and dictionary encodings, in pages of both versions, without compression, with gzip, and with Snappy where its package is there.
What else a file may have is refused by name. docs/SYSTEMS.md says where this is used; row groups are pruned by ``foalmorrow.parquet``.
"""
from __future__ import annotations

import struct
import zlib
from collections.abc import Iterator
from dataclasses import dataclass
from typing import Any

from .thrift_compact import Thrift, ThriftFault

_BOOLEAN, _INT32, _INT64, _BYTE_ARRAY = 0, 1, 2, 6
_NAMES = {3: "INT96", 4: "FLOAT", 5: "DOUBLE", 7: "FIXED_LEN_BYTE_ARRAY"}
_PLAIN, _DICTIONARY, _RLE, _RLE_DICTIONARY = 0, 2, 3, 8
_CODECS = {0: "UNCOMPRESSED", 1: "SNAPPY", 2: "GZIP", 3: "LZO", 4: "BROTLI", 5: "LZ4", 6: "ZSTD", 7: "LZ4_RAW"}
#: Bytes of the greatest page, unpacked, and columns of the widest file.
MOST_BYTES, MOST_COLUMNS = 2**30, 100_000


class ParquetFault(ValueError):
    """A file that is no Parquet, is cut short, or has what isn't read."""


@dataclass(frozen=True)
class _Leaf:
    """A column of a file: its path, its physical type, its levels, and the definition level from which an item of a list is there."""

    path: tuple[str, ...]
    kind: int
    definition: int
    repetition: int
    item: int


class ParquetValues:
    """A file whose columns are read one by one."""

    def __init__(self, data: bytes):
        """Takes the bytes of a file. ParquetFault where they are none."""
        self.data = data
        try:
            footer = self._footer()
            self._leaves = dict(self._schema(footer[2]))
            self._groups = [(_number(it, 3), [_number_struct(chunk, 3) for chunk in _list(it, 1)]) for it in _list(footer, 4)]
        except (ThriftFault, IndexError, KeyError, TypeError, UnicodeDecodeError, RecursionError) as fault:
            raise ParquetFault(f"its footer can't be read: {fault}") from None

    def _footer(self) -> dict[int, Any]:
        if len(self.data) < 12 or self.data[:4] != b"PAR1" or self.data[-4:] != b"PAR1":
            raise ParquetFault("it doesn't begin and end as a Parquet file does")
        (length,) = struct.unpack("<I", self.data[-8:-4])
        if length > len(self.data) - 12:
            raise ParquetFault("its footer is longer than the file")
        return Thrift(self.data[-8 - length : -8]).struct()

    @property
    def rows(self) -> int:
        """The number of rows."""
        return sum(rows for rows, _ in self._groups)

    def has(self, *path: str) -> bool:
        """Tells whether the file has a column of this path."""
        return path in self._leaves

    def _schema(self, elements: list[dict[int, Any]]) -> Iterator[tuple[tuple[str, ...], _Leaf]]:
        """Yields the leaves of a schema, whose elements stand in the order of a walk from the root."""
        if len(elements) > MOST_COLUMNS:
            raise ParquetFault(f"it has more than {MOST_COLUMNS} columns")
        pending: list[tuple[tuple[str, ...], int, int, int, int]] = [((), 0, 0, 0, int(elements[0][5]))]
        for it in elements[1:]:
            while pending and not pending[-1][4]:
                pending.pop()
            path, definition, repetition, item, left = pending[-1]
            pending[-1] = (path, definition, repetition, item, left - 1)
            kind = it.get(3, 0)
            definition, repetition = definition + (kind > 0), repetition + (kind == 2)
            item, path = definition if kind == 2 else item, (*path, bytes(it[4]).decode())
            if 5 in it and it[5]:
                pending.append((path, definition, repetition, item, int(it[5])))
            else:
                yield path, _Leaf(path, int(it[1]), definition, repetition, item)

    def column(self, *path: str) -> list[Any]:
        """Returns the value of a column in each row: None for null, and a list in one that repeats.

        ParquetFault where the column isn't there, repeats within lists, or is of a type, an encoding or a codec that isn't read.
        """
        leaf = self._leaves.get(path)
        words = ".".join(path)
        if leaf is None:
            raise ParquetFault(f"it has no column {words}")
        if leaf.kind not in (_BOOLEAN, _INT32, _INT64, _BYTE_ARRAY) or leaf.repetition > 1:
            raise ParquetFault(f"the column {words} is of the type {_NAMES.get(leaf.kind, leaf.kind)}, or a list of lists, which aren't read")
        place = list(self._leaves).index(path)
        found: list[Any] = []
        try:
            for rows, chunks in self._groups:
                group = list(_rows(leaf, _Chunk(self.data, leaf, chunks[place]).triples()))
                if len(group) != rows:
                    raise ParquetFault(f"it has {len(group)} values for {rows} rows")
                found += group
        except (ThriftFault, IndexError, KeyError, TypeError, struct.error, zlib.error, UnicodeDecodeError) as fault:
            raise ParquetFault(f"the column {words} can't be read: {fault}") from None
        except ParquetFault as fault:
            raise ParquetFault(f"the column {words} can't be read: {fault}") from None
        return found


def _list(fields: dict[int, Any], number: int) -> list[Any]:
    found = fields[number]
    if not isinstance(found, list):
        raise TypeError(f"field {number} is no list")
    return found


def _number(fields: dict[int, Any], number: int) -> int:
    found = fields[number]
    if not isinstance(found, int) or found < 0:
        raise TypeError(f"field {number} is no number")
    return found


def _number_struct(fields: dict[int, Any], number: int) -> dict[int, Any]:
    found = fields.get(number)
    if not isinstance(found, dict) or fields.get(1):
        raise TypeError("a column is encrypted, or stands in another file")
    return found


def _rows(leaf: _Leaf, triples: Iterator[tuple[int, int, Any]]) -> Iterator[Any]:
    """Yields the value of each row, or the list of them in a column that repeats."""
    if not leaf.repetition:
        yield from (value for _, _, value in triples)
        return
    items: list[Any] | None = None
    for repetition, definition, value in triples:
        if not repetition:
            if items is not None:
                yield items
            items = []
        if items is None:
            raise ParquetFault("its first item belongs to no row")
        if definition >= leaf.item:
            items.append(value)
    if items is not None:
        yield items


class _Chunk:
    """The pages of a column in a row group."""

    def __init__(self, data: bytes, leaf: _Leaf, meta: dict[int, Any]):
        self.leaf, self.codec = leaf, _number(meta, 4)
        first = min(_number(meta, 9), meta[11]) if meta.get(11) else _number(meta, 9)
        size = _number(meta, 7)
        if first + size > len(data):
            raise ParquetFault("its pages pass the end of the file")
        self.thrift = Thrift(memoryview(data)[first : first + size])
        self.count = _number(meta, 5)
        self.dictionary: list[Any] | None = None

    def triples(self) -> Iterator[tuple[int, int, Any]]:
        """Yields each value with its levels; None where it is null."""
        left = self.count
        while left > 0:
            header = self.thrift.struct()
            kind, size, packed = header[1], _number(header, 2), self.thrift.bytes(_number(header, 3))
            if kind == 2:
                values = self._unpacked(packed, size)
                self.dictionary = _plain(self.leaf.kind, values, _number(header[7], 1))
                continue
            if kind not in (0, 3):
                continue
            page = _number(header[5 if kind == 0 else 8], 1)
            if not 0 < page <= left:
                raise ParquetFault(f"a page has {page} values where {left} are left")
            left -= page
            yield from self._page(header[5], packed, size, page) if kind == 0 else self._page_2(header[8], packed, size, page)

    def _unpacked(self, packed: memoryview, size: int) -> memoryview:
        """Returns the bytes of a page."""
        name = _CODECS.get(self.codec, str(self.codec))
        if size > MOST_BYTES:
            raise ParquetFault(f"a page has {size} bytes")
        if name == "UNCOMPRESSED":
            found = bytes(packed)
        elif name == "GZIP":
            found = zlib.decompressobj(31).decompress(bytes(packed), size + 1)
        elif name == "SNAPPY":
            found = _snappy(bytes(packed), size)
        else:
            raise ParquetFault(f"its codec {name} isn't read")
        if len(found) != size:
            raise ParquetFault(f"a page has {len(found)} bytes where {size} are told")
        return memoryview(found)

    def _page(self, header: dict[int, Any], packed: memoryview, size: int, count: int) -> Iterator[tuple[int, int, Any]]:
        data = self._unpacked(packed, size)
        repetitions, data = self._levels_in_front(self.leaf.repetition, data, count)
        definitions, data = self._levels_in_front(self.leaf.definition, data, count)
        yield from self._joined(repetitions, definitions, data, header[2])

    def _levels_in_front(self, most: int, data: memoryview, count: int) -> tuple[list[int], memoryview]:
        if not most:
            return [0] * count, data
        (length,) = struct.unpack("<I", data[:4])
        if length > len(data) - 4:
            raise ParquetFault("its levels pass the end of a page")
        return _hybrid(data[4 : 4 + length], most.bit_length(), count), data[4 + length :]

    def _page_2(self, header: dict[int, Any], packed: memoryview, size: int, count: int) -> Iterator[tuple[int, int, Any]]:
        first, second = _number(header, 6), _number(header, 5)
        if first + second > len(packed) or first + second > size:
            raise ParquetFault("its levels pass the end of a page")
        repetitions = _hybrid(packed[:first], self.leaf.repetition.bit_length(), count) if self.leaf.repetition else [0] * count
        definitions = _hybrid(packed[first : first + second], self.leaf.definition.bit_length(), count) if self.leaf.definition else [0] * count
        rest = packed[first + second :]
        data = self._unpacked(rest, size - first - second) if header.get(7, True) else rest
        yield from self._joined(repetitions, definitions, data, header[4])

    def _joined(self, repetitions: list[int], definitions: list[int], data: memoryview, encoding: int) -> Iterator[tuple[int, int, Any]]:
        if max(definitions, default=0) > self.leaf.definition or max(repetitions, default=0) > self.leaf.repetition:
            raise ParquetFault("a level is above the schema's")
        count = definitions.count(self.leaf.definition)
        if encoding == _PLAIN:
            values = _plain(self.leaf.kind, data, count)
        elif encoding in (_DICTIONARY, _RLE_DICTIONARY) and self.dictionary is not None:
            places = _hybrid(data[1:], data[0], count) if count else []
            values = [self.dictionary[place] for place in places]
        elif encoding == _RLE and self.leaf.kind == _BOOLEAN:
            values = [place == 1 for place in _hybrid(data[4:], 1, count)]
        else:
            raise ParquetFault(f"its encoding {encoding} isn't read, or has no dictionary")
        present = iter(values)
        for repetition, definition in zip(repetitions, definitions):
            yield repetition, definition, next(present) if definition == self.leaf.definition else None


def _snappy(packed: bytes, size: int) -> bytes:
    try:
        import snappy
    except ImportError:
        raise ParquetFault("its pages are packed by Snappy: apt-get install python3-snappy") from None
    # The length of what is unpacked stands in front, so that no more is unpacked than is told.
    if Thrift(packed).varint() != size:
        raise ParquetFault("a page has other bytes than are told")
    try:
        return bytes(snappy.uncompress(packed))
    except Exception as fault:  # noqa: BLE001  whatever the package raises of such bytes
        raise ParquetFault(f"a page can't be unpacked: {fault}") from None


def _plain(kind: int, data: memoryview, count: int) -> list[Any]:
    """Reads values in plain encoding."""
    if kind == _BOOLEAN:
        if count > 8 * len(data):
            raise ParquetFault("values pass the end of a page")
        return [bool(data[at >> 3] >> (at & 7) & 1) for at in range(count)]
    if kind in (_INT32, _INT64):
        width = 4 if kind == _INT32 else 8
        return list(struct.unpack(f"<{count}{'i' if kind == _INT32 else 'q'}", data[: width * count]))
    found, at = [], 0
    for _ in range(count):
        (length,) = struct.unpack("<I", data[at : at + 4])
        if length > len(data) - at - 4:
            raise ParquetFault("a text passes the end of a page")
        found.append(bytes(data[at + 4 : at + 4 + length]).decode())
        at += 4 + length
    return found


def _hybrid(data: memoryview, width: int, count: int) -> list[int]:
    """Reads numbers of so many bits in runs: of one number, or of eight at a time."""
    if width > 32:
        raise ParquetFault(f"a number has {width} bits")
    thrift = Thrift(data)
    found: list[int] = []
    while len(found) < count:
        head = thrift.varint()
        if head < 2:
            raise ParquetFault("a run is empty")
        left = count - len(found)
        if head & 1:
            found += _unpack(thrift.bytes((head >> 1) * width), width, min(8 * (head >> 1), left))
        else:
            found += [int.from_bytes(thrift.bytes((width + 7) // 8), "little")] * min(head >> 1, left)
    return found


def _unpack(data: memoryview, width: int, count: int) -> list[int]:
    """Reads packed numbers, eight in so many bytes as a number has bits."""
    if not width:
        return [0] * count
    found: list[int] = []
    for start in range(0, len(data), width):
        group = int.from_bytes(data[start : start + width], "little")
        found += [group >> (width * at) & (1 << width) - 1 for at in range(8)]
    return found[:count]
