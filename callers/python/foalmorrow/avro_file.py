# SPDX-License-Identifier: Apache-2.0
"""Avro's container files, by python3-avro's schemas and decoder: each row exactly as it was written, or a fault.

What that package takes for a value and the format doesn't have is refused here: places before the first branch of a union, truths other than 0
and 1, numbers of more than 64 bits. Logical types stay what they stand on, so that dates of all years are read.
"""
from __future__ import annotations

import io
import warnings
import zlib
from collections.abc import Callable, Mapping
from dataclasses import dataclass
from typing import Any

try:
    import avro.datafile
    import avro.io
    import avro.schema
except ImportError as fault:
    raise ImportError("manifests are read by python3-avro: apt-get install python3-avro") from fault

#: Bytes of a file's rows, unpacked.
MOST_BYTES = 2**30


class AvroFault(ValueError):
    """Bytes that are no file of Avro, or one that isn't read."""


@dataclass(frozen=True)
class AvroFile:
    """The rows of a file, the schema that they were written by, and what stands beside it."""

    schema: Any
    meta: Mapping[str, bytes]
    rows: list[dict[str, Any]]


def read(data: bytes, place: str) -> AvroFile:
    """Reads a file, which stands at a place. AvroFault where it is none, has another codec than ``null`` and ``deflate``, or unpacks to too much."""
    try:
        return _read(data)
    except Exception as fault:  # noqa: BLE001  whatever the package raises of such bytes
        words = "it nests too deep" if isinstance(fault, RecursionError) else str(fault)[:300]
        raise AvroFault(f"{place} is no file of Avro that can be read: {words}") from None


def _read(data: bytes) -> AvroFile:
    stream = io.BytesIO(data)
    decoder = _Decoder(stream)
    if data[:4] != avro.datafile.MAGIC:
        raise AvroFault("it begins with other bytes than one")
    header = _datum(avro.datafile.META_SCHEMA, decoder)
    meta: Mapping[str, bytes] = header["meta"]
    codec = meta.get("avro.codec", b"null").decode()
    if codec not in ("null", "deflate"):
        raise AvroFault(f"its codec is {codec[:40]!r}; null and deflate are known")
    with warnings.catch_warnings():
        # Of a logical type that isn't known the package warns, and none is looked at.
        warnings.simplefilter("ignore")
        schema = avro.schema.parse(meta["avro.schema"].decode())
    if schema.type != "record" or _is_empty(schema):
        raise AvroFault("its rows aren't records with fields")
    rows: list[dict[str, Any]] = []
    room = MOST_BYTES
    while stream.tell() < len(data):
        count, block = decoder.read_long(), decoder.read_bytes()
        if decoder.read(len(header["sync"])) != header["sync"]:
            raise AvroFault("a block doesn't end where it should")
        unpacked = _inflated(block, room) if codec == "deflate" else block
        room -= len(unpacked)
        rows += _rows(schema, count, unpacked)
    return AvroFile(schema, meta, rows)


def _inflated(block: bytes, room: int) -> bytes:
    inflating = zlib.decompressobj(-15)
    found = inflating.decompress(block, room + 1)
    if len(found) > room or not inflating.eof:
        raise AvroFault("a block is cut short" if len(found) <= room else f"its rows have more than {MOST_BYTES} bytes")
    return found


def _rows(schema: Any, count: int, block: bytes) -> list[dict[str, Any]]:
    if not 0 <= count <= len(block):
        raise AvroFault(f"a block of {len(block)} bytes has {count} rows")
    stream = io.BytesIO(block)
    decoder = _Decoder(stream)
    rows = [_datum(schema, decoder) for _ in range(count)]
    if stream.tell() != len(block):
        raise AvroFault("bytes stand behind the rows of a block")
    return rows


class _Decoder(avro.io.BinaryDecoder):  # type: ignore[misc]
    """The package's decoder, which takes no more for a value than the format has."""

    def read_boolean(self) -> bool:
        byte: int = self.read(1)[0]
        if byte > 1:
            raise AvroFault(f"{byte} is no truth")
        return byte == 1

    def read_long(self) -> int:
        number, shift = 0, 0
        while True:
            byte = self.read(1)[0]
            number |= (byte & 0x7F) << shift
            shift += 7
            if byte < 0x80:
                break
            if shift > 63:
                raise AvroFault("a number has more than 64 bits")
        if number >= 2**64:
            raise AvroFault("a number has more than 64 bits")
        return number >> 1 ^ -(number & 1)

    def read_int(self) -> int:
        found = self.read_long()
        if not -(2**31) <= found < 2**31:
            raise AvroFault(f"{found} is no number of 32 bits")
        return found


_LEAVES: dict[str, Callable[[Any], Any]] = {
    "null": lambda decoder: None,
    "boolean": _Decoder.read_boolean,
    "int": _Decoder.read_int,
    "long": _Decoder.read_long,
    "float": avro.io.BinaryDecoder.read_float,
    "double": avro.io.BinaryDecoder.read_double,
    "bytes": avro.io.BinaryDecoder.read_bytes,
    "string": avro.io.BinaryDecoder.read_utf8,
}


def _datum(schema: Any, decoder: _Decoder) -> Any:
    """Reads a value of a schema."""
    kind = schema.type
    leaf = _LEAVES.get(kind)
    if leaf is not None:
        return leaf(decoder)
    if kind == "union":
        return _datum(schema.schemas[_place(decoder, len(schema.schemas))], decoder)
    if kind == "record":
        return {field.name: _datum(field.type, decoder) for field in schema.fields}
    if kind == "array":
        return _items(schema.items, decoder, lambda: _datum(schema.items, decoder))
    if kind == "map":
        pairs = _items(None, decoder, lambda: (decoder.read_utf8(), _datum(schema.values, decoder)))
        found = dict(pairs)
        if len(found) != len(pairs):
            raise AvroFault("a key stands twice in a map")
        return found
    if kind == "fixed":
        return decoder.read(schema.size)
    if kind == "enum":
        return schema.symbols[_place(decoder, len(schema.symbols))]
    raise AvroFault(f"the type {kind!r} isn't known")


def _place(decoder: _Decoder, count: int) -> int:
    found: int = decoder.read_long()
    if not 0 <= found < count:
        raise AvroFault(f"place {found} of {count} branches")
    return found


def _items(schema: Any, decoder: _Decoder, item: Callable[[], Any]) -> list[Any]:
    """Reads blocks of items, each of which takes a byte at least."""
    if schema is not None and _is_empty(schema):
        raise AvroFault("the items of an array take no bytes")
    found: list[Any] = []
    while count := decoder.read_long():
        if count < 0:
            decoder.read_long()
        found += [item() for _ in range(abs(count))]
    return found


def _is_empty(schema: Any) -> bool:
    """Tells whether values of a schema take no bytes."""
    if schema.type == "record":
        return all(_is_empty(field.type) for field in schema.fields)
    return bool(schema.type == "null" or (schema.type == "fixed" and schema.size <= 0))
