# SPDX-License-Identifier: Apache-2.0
"""Structs in Thrift's compact protocol, as Parquet's footers and pages begin with: each field by its number, or a fault."""
from __future__ import annotations

import struct
from typing import Any

#: Levels of the deepest struct.
_LEVELS = 32
_TRUE, _FALSE, _BYTE, _I16, _I32, _I64, _DOUBLE, _BINARY, _LIST, _SET, _MAP, _STRUCT = range(1, 13)


class ThriftFault(ValueError):
    """Bytes that are no struct."""


class Thrift:
    """Bytes that are read value by value."""

    def __init__(self, data: bytes | memoryview, at: int = 0):
        self.data, self.at = memoryview(data), at

    def struct(self, level: int = 0) -> dict[int, Any]:
        """Reads a struct: a dict of its fields by their numbers. Sets are lists, and maps lists of pairs.

        ThriftFault where the bytes end before it, a number has more than 64 bits, a field stands twice, or structs nest too deep.
        """
        if level > _LEVELS:
            raise ThriftFault(f"structs nest more than {_LEVELS} levels deep")
        found: dict[int, Any] = {}
        number = 0
        while (head := self.byte()) != 0:
            number = number + (head >> 4) if head >> 4 else self.signed()
            kind = head & 15
            if number in found:
                raise ThriftFault(f"field {number} stands twice")
            found[number] = kind == _TRUE if kind in (_TRUE, _FALSE) else self._value(kind, level)
        return found

    def byte(self) -> int:
        return self.bytes(1)[0]

    def bytes(self, count: int) -> memoryview:
        if count > len(self.data) - self.at:
            raise ThriftFault("a value passes the end")
        self.at += count
        return self.data[self.at - count : self.at]

    def varint(self) -> int:
        found, shift = 0, 0
        while True:
            byte = self.byte()
            found |= (byte & 127) << shift
            shift += 7
            if byte < 128:
                break
            if shift > 63:
                raise ThriftFault("a number has more than 64 bits")
        if found >= 2**64:
            raise ThriftFault("a number has more than 64 bits")
        return found

    def signed(self) -> int:
        found = self.varint()
        return found >> 1 ^ -(found & 1)

    def _value(self, kind: int, level: int) -> Any:
        if kind in (_TRUE, _FALSE):
            return self.byte() == _TRUE
        if kind == _BYTE:
            return self.byte()
        if kind in (_I16, _I32, _I64):
            return self.signed()
        if kind == _DOUBLE:
            return struct.unpack("<d", self.bytes(8))[0]
        if kind == _BINARY:
            return bytes(self.bytes(self.varint()))
        if kind in (_LIST, _SET):
            head = self.byte()
            return self._items(head & 15, head >> 4 if head >> 4 < 15 else self.varint(), level)
        if kind == _MAP:
            return self._pairs(level)
        if kind == _STRUCT:
            return self.struct(level + 1)
        raise ThriftFault(f"{kind} is no kind of value")

    def _items(self, kind: int, count: int, level: int) -> list[Any]:
        if count > len(self.data) - self.at:
            raise ThriftFault(f"a list has {count} items, and fewer bytes follow")
        return [self._value(kind, level + 1) for _ in range(count)]

    def _pairs(self, level: int) -> list[tuple[Any, Any]]:
        count = self.varint()
        if count > len(self.data) - self.at:
            raise ThriftFault(f"a map has {count} pairs, and fewer bytes follow")
        kinds = self.byte() if count else 0
        return [(self._value(kinds >> 4, level + 1), self._value(kinds & 15, level + 1)) for _ in range(count)]
