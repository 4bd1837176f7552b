# SPDX-License-Identifier: Apache-2.0
"""Writes examples/trips.parquet, the small file of the pages: four columns, three row groups, plain pages and statistics.

usage: PYTHONPATH=. python3 examples/trips.py FILE
"""
import datetime
import pathlib
import struct
import sys
from collections.abc import Callable

from tests.parquet_footers_of import Raw, Wide, struct_of

# The day, the quantity, the fare in hundredths and the city of each trip.
GROUPS = [
    [("2026-01-05", 12, 1250, "Bern"), ("2026-01-09", 340, 3120, "Rome"), ("2026-01-14", 95, 1875, "Oslo")],
    [("2026-01-15", 9100, 2240, "Riga"), ("2026-01-16", 12000, 3510, "Rome"), ("2026-01-20", 9800, 2795, "Riga"), ("2026-01-22", 9050, 2000, "Rome")],
    [("2026-01-23", 8700, 1430, "Oslo"), ("2026-01-31", 15000, 4860, "Rome")],
]
INT32, INT64, BYTES = 1, 2, 6
# The converted types of the format.
UTF8, DECIMAL, DATE = 0, 5, 6


def days(text: str) -> int:
    return (datetime.date.fromisoformat(text) - datetime.date(1970, 1, 1)).days


def number(form: str) -> Callable[[int], bytes]:
    return lambda value: struct.pack(form, value)


# Each column's name, its physical type, the bytes of a value in a bound, and what its schema says more.
COLUMNS = [
    ("day", INT32, lambda it: struct.pack("<i", days(it)), ((6, DATE),)), ("qty", INT64, number("<q"), ()),
    ("fare", INT64, number("<q"), ((6, DECIMAL), (7, 2), (8, 9))), ("city", BYTES, str.encode, ((6, UTF8),)),
]


def written() -> bytes:
    out, groups = bytearray(b"PAR1"), []
    for rows in GROUPS:
        chunks, begun = [], len(out)
        for place, (name, kind, plain, _) in enumerate(COLUMNS):
            values = [row[place] for row in rows]
            data = b"".join(struct.pack("<I", len(plain(it))) * (kind == BYTES) + plain(it) for it in values)
            header = struct_of((1, 0), (2, len(data)), (3, len(data)), (5, Raw(struct_of((1, len(values)), (2, 0), (3, 3), (4, 3)))))
            start, size = len(out), len(header) + len(data)
            out += header + data
            told = Raw(struct_of((3, Wide(0)), (5, plain(max(values))), (6, plain(min(values))), (7, True), (8, True)))
            sizes = ((5, Wide(len(values))), (6, Wide(size)), (7, Wide(size)), (9, Wide(start)))
            meta = struct_of((1, kind), (2, [0, 3]), (3, [name.encode()]), (4, 0), *sizes, (12, told))
            chunks.append(Raw(struct_of((2, Wide(start)), (3, Raw(meta)))))
        groups.append(Raw(struct_of((1, chunks), (2, Wide(len(out) - begun)), (3, Wide(len(rows))), (6, Wide(len(out) - begun)))))
    elements = [struct_of((4, b"trips"), (5, len(COLUMNS)))]
    elements += [struct_of((1, kind), (3, 0), (4, name.encode()), *more) for name, kind, _, more in COLUMNS]
    orders = [Raw(struct_of((1, Raw(b"\0")))) for _ in COLUMNS]
    rows = sum(map(len, GROUPS))
    footer = struct_of((1, 1), (2, [Raw(it) for it in elements]), (3, Wide(rows)), (4, groups), (6, b"foalmorrow's examples"), (7, orders))
    return bytes(out) + footer + struct.pack("<I", len(footer)) + b"PAR1"


if __name__ == "__main__":
    pathlib.Path(sys.argv[1]).write_bytes(written())
