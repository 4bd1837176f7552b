# SPDX-License-Identifier: Apache-2.0
"""A small writer of Parquet, from the format's specification: nested rows in pages of both versions, plain or with a dictionary."""
import random
import struct
import zlib

try:
    import snappy
except ImportError:
    snappy = None

KINDS = {"truth": 0, "int32": 1, "int64": 2, "text": 6}
REPETITIONS = {"required": 0, "optional": 1, "repeated": 2}
CODECS = {"none": 0, "snappy": 1, "gzip": 2}

#: A node of a schema: its repetition, and a kind of values or its fields.
Node = tuple


def varint(number: int) -> bytes:
    found = bytearray()
    while number > 127:
        found.append(number & 127 | 128)
        number >>= 7
    return bytes([*found, number])


def thrift(*fields: tuple[int, object]) -> bytes:
    """A struct: numbers are i64, or i32 as ``I32``, bytes binaries, ``Raw`` structs, and lists of any of these lists."""
    out, last = bytearray(), 0
    for number, value in fields:
        if value is None:
            continue
        kind, data = _value(value)
        out += bytes([number - last << 4 | kind]) + data
        last = number
    return bytes(out) + b"\0"


class Raw(bytes):
    """A struct that is written already."""


class I32(int):
    """A number of 32 bits."""


def _value(value: object) -> tuple[int, bytes]:
    if isinstance(value, bool):
        return (1 if value else 2), b""
    if isinstance(value, int):
        return 5 if isinstance(value, I32) else 6, varint(value << 1 if value >= 0 else (-value << 1) - 1)
    if isinstance(value, Raw):
        return 12, value
    if isinstance(value, bytes):
        return 8, varint(len(value)) + value
    items = [_value(it) for it in value]
    kind = items[0][0] if items else 6
    head = bytes([len(items) << 4 | kind]) if len(items) < 15 else bytes([0xF0 | kind]) + varint(len(items))
    return 9, head + b"".join(data for _, data in items)


class ParquetWriter:
    """Writes rows of a schema, by choices of its own between the forms that a page may have."""

    def __init__(self, schema: dict[str, Node], rng: random.Random, codec: str = "none"):
        self.schema, self.rng, self.codec = schema, rng, codec

    def file(self, groups: list[list[dict]]) -> bytes:
        out, told = bytearray(b"PAR1"), []
        for rows in groups:
            chunks = []
            for path, (kind, most, repeats, triples) in self.shredded(rows).items():
                start, dictionary, first = len(out), None, len(out)
                for page, is_dictionary in self.pages(kind, most, repeats, triples):
                    if is_dictionary:
                        dictionary, first = len(out), len(out) + len(page)
                    out += page
                sizes = ((6, len(out) - start), (7, len(out) - start))
                meta = thrift((1, KINDS[kind]), (2, [0]), (3, [it.encode() for it in path]), (4, CODECS[self.codec]), (5, len(triples)), *sizes,
                              (9, first), (11, dictionary))
                chunks.append(Raw(thrift((2, start), (3, Raw(meta)))))
            told.append(Raw(thrift((1, chunks), (2, 0), (3, len(rows)))))
        elements = [Raw(thrift((4, b"root"), (5, len(self.schema)))), *self.elements(self.schema)]
        footer = thrift((1, 1), (2, elements), (3, sum(map(len, groups))), (4, told))
        return bytes(out) + footer + struct.pack("<I", len(footer)) + b"PAR1"

    def elements(self, fields: dict[str, Node]) -> list[Raw]:
        found = []
        for name, (repetition, below) in fields.items():
            if isinstance(below, dict):
                found += [Raw(thrift((3, REPETITIONS[repetition]), (4, name.encode()), (5, len(below)))), *self.elements(below)]
            else:
                found.append(Raw(thrift((1, KINDS[below]), (3, REPETITIONS[repetition]), (4, name.encode()))))
        return found

    def shredded(self, rows: list[dict]) -> dict[tuple[str, ...], tuple[str, int, int, list]]:
        found: dict[tuple[str, ...], tuple[str, int, int, list]] = {}

        def leaves(fields: dict[str, Node], path: tuple[str, ...], most: int, repeats: int) -> None:
            for name, (repetition, below) in fields.items():
                inner = (most + (repetition != "required"), repeats + (repetition == "repeated"))
                if isinstance(below, dict):
                    leaves(below, (*path, name), *inner)
                else:
                    found[(*path, name)] = (below, *inner, [])

        def one(below: object, value: object, path: tuple[str, ...], level: int, repeat: int, depth: int) -> None:
            if isinstance(below, dict):
                for name, node in below.items():
                    put(node, value.get(name) if isinstance(value, dict) else None, (*path, name), level, repeat, depth, value is None)
            else:
                found[path][3].append((repeat, level, value))

        def put(node: Node, value: object, path: tuple[str, ...], level: int, repeat: int, depth: int, is_gone: bool) -> None:
            repetition, below = node
            if is_gone or (repetition != "required" and value in (None, [])):
                nothing(below, path, level, repeat)
            elif repetition == "repeated":
                for at, it in enumerate(value):
                    one(below, it, path, level + 1, repeat if not at else depth + 1, depth + 1)
            else:
                one(below, value, path, level + (repetition == "optional"), repeat, depth)

        def nothing(below: object, path: tuple[str, ...], level: int, repeat: int) -> None:
            if isinstance(below, dict):
                for name, node in below.items():
                    nothing(node[1], (*path, name), level, repeat)
            else:
                found[path][3].append((repeat, level, None))

        leaves(self.schema, (), 0, 0)
        for row in rows:
            one(self.schema, row, (), 0, 0, 0)
        return found

    def pages(self, kind: str, most: int, repeats: int, triples: list) -> list[tuple[bytes, bool]]:
        """The pages of a column, cut where rows begin, and whether one is a dictionary."""
        values = [value for _, level, value in triples if level == most]
        dictionary = sorted(set(values)) if values and kind != "truth" and self.rng.random() < 0.5 else None
        found = []
        if dictionary is not None:
            data = b"".join(plain(kind, value) for value in dictionary)
            found.append((self.page(2, data, (7, Raw(thrift((1, len(dictionary)), (2, 0))))), True))
        starts = [at for at, (repeat, _, _) in enumerate(triples) if not repeat and (not at or self.rng.random() < 0.3)]
        for start, stop in zip(starts, [*starts[1:], len(triples)]):
            found.append((self.data_page(kind, most, repeats, triples[start:stop], dictionary), False))
        return found

    def data_page(self, kind: str, most: int, repeats: int, triples: list, dictionary: list | None) -> bytes:
        values = [value for _, level, value in triples if level == most]
        if dictionary is not None:
            width = max(len(dictionary) - 1, 1).bit_length()
            data, encoding = bytes([width]) + self.hybrid([dictionary.index(it) for it in values], width), self.rng.choice([2, 8])
        elif kind == "truth":
            bits = sum(value << at for at, value in enumerate(values))
            data, encoding = bits.to_bytes((len(values) + 7) // 8, "little"), 0
        else:
            data, encoding = b"".join(plain(kind, value) for value in values), 0
        repetitions = self.hybrid([it[0] for it in triples], repeats.bit_length()) if repeats else b""
        definitions = self.hybrid([it[1] for it in triples], most.bit_length()) if most else b""
        if self.rng.random() < 0.5:
            levels = b"".join(struct.pack("<I", len(it)) + it for it, is_there in ((repetitions, repeats), (definitions, most)) if is_there)
            return self.page(0, levels + data, (5, Raw(thrift((1, len(triples)), (2, encoding), (3, 3), (4, 3)))))
        rows = sum(not it[0] for it in triples)
        nulls, lengths = len(triples) - len(values), ((5, len(definitions)), (6, len(repetitions)))
        header = thrift((1, len(triples)), (2, nulls), (3, rows), (4, encoding), *lengths, (7, self.codec != "none"))
        return self.page(3, data, (8, Raw(header)), repetitions + definitions)

    def page(self, kind: int, data: bytes, header: tuple[int, Raw], levels: bytes = b"") -> bytes:
        packed = levels + self.packed(data)
        return thrift((1, kind), (2, len(levels) + len(data)), (3, len(packed)), header) + packed

    def packed(self, data: bytes) -> bytes:
        if self.codec == "gzip":
            packing = zlib.compressobj(wbits=31)
            return packing.compress(data) + packing.flush()
        return snappy.compress(data) if self.codec == "snappy" else data

    def hybrid(self, numbers: list[int], width: int) -> bytes:
        """Numbers in runs of one value, or of eight of so many bits."""
        out, at = bytearray(), 0
        while at < len(numbers):
            run = next((place for place in range(at, len(numbers)) if numbers[place] != numbers[at]), len(numbers)) - at
            if run >= 8 or self.rng.random() < 0.5:
                out += varint(run << 1) + numbers[at].to_bytes((width + 7) // 8, "little")
                at += run
            else:
                # Eight at a time, and only the last ones may be filled up.
                count = self.rng.randrange(1, 3) if len(numbers) - at > 16 else -(-(len(numbers) - at) // 8)
                some = numbers[at : at + 8 * count] + [0] * (at + 8 * count - len(numbers))
                packed = sum(number << width * place for place, number in enumerate(some))
                out += varint(count << 1 | 1) + packed.to_bytes(count * width, "little")
                at += 8 * count
        return bytes(out)


def plain(kind: str, value: object) -> bytes:
    if kind == "text":
        return struct.pack("<I", len(value.encode())) + value.encode()
    return struct.pack("<i" if kind == "int32" else "<q", value)


def _map(key: str = "key_value") -> Node:
    return ("optional", {key: ("repeated", {"key": ("required", "text"), "value": ("optional", "text")})})


def _list() -> Node:
    return ("optional", {"list": ("repeated", {"element": ("optional", "text")})})


_VECTOR = {name: ("optional", kind) for name, kind in (
    ("storageType", "text"), ("pathOrInlineDv", "text"), ("offset", "int32"), ("sizeInBytes", "int32"), ("cardinality", "int64"),
)}
#: The columns of a checkpoint that are read, and some that aren't.
CHECKPOINT = {
    "txn": ("optional", {"appId": ("optional", "text"), "version": ("required", "int64")}),
    "add": ("optional", {
        "path": ("optional", "text"), "partitionValues": _map(), "size": ("required", "int64"), "modificationTime": ("required", "int64"),
        "dataChange": ("required", "truth"), "stats": ("optional", "text"), "deletionVector": ("optional", _VECTOR),
    }),
    "remove": ("optional", {"path": ("optional", "text"), "dataChange": ("required", "truth")}),
    "metaData": ("optional", {
        "id": ("optional", "text"), "format": ("optional", {"provider": ("optional", "text"), "options": _map()}),
        "schemaString": ("optional", "text"), "partitionColumns": _list(), "configuration": _map(),
    }),
    "protocol": ("optional", {"minReaderVersion": ("required", "int32"), "minWriterVersion": ("required", "int32"), "readerFeatures": _list()}),
    "sidecar": ("optional", {"path": ("optional", "text"), "sizeInBytes": ("required", "int64"), "modificationTime": ("required", "int64")}),
}


def as_row(action: dict) -> dict:
    """An action as a row of a checkpoint: maps and lists as their entries."""

    def nested(node: Node, value: object) -> object:
        below = node[1]
        if value is None or not isinstance(below, dict):
            return value
        if "key_value" in below:
            return {"key_value": [{"key": key, "value": it} for key, it in value.items()]}
        if "list" in below:
            return {"list": [{"element": it} for it in value]}
        return {name: nested(inner, value.get(name, {"size": 0, "modificationTime": 0}.get(name))) for name, inner in below.items()}

    return {name: nested(node, action.get(name)) for name, node in CHECKPOINT.items()}
