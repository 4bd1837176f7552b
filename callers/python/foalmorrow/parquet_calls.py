# SPDX-License-Identifier: Apache-2.0
"""The library's calls over footers of Parquet files, by ctypes, and what they refuse."""
from __future__ import annotations

import ctypes
from array import array
from ctypes import Structure, c_size_t, c_uint8, c_uint64
from typing import Any

from .library import _LAST_NAME, _ROOM_UNREAD, CSpan, Fault, Status, _answered_sql, _encoded, _Lent, _library
from .parquet_pages import DataPages
from .parquet_values import ParquetFault
from .sql import SqlError

#: Behind the footer of a file stand its length and a mark.
TAIL = 8
#: The bytes of a footer for each of which a row group is taken into account at first, and those of page indexes for each of which a page is.
_BYTES_A_GROUP, _BYTES_A_PAGE = 256, 16
#: The bytes of page indexes for each of which a data page is taken into account at first: a location takes seven at least.
_BYTES_A_LOCATION = 7

#: The offset that is told where a footer names no page index.
_NO_INDEXES = 2**64 - 1

#: Why bytes are no footer, by the library's numbers: a name, and a sentence.
_FAULTS = (
    ("NOT_PARQUET", "it doesn't end as a Parquet file does"),
    ("ENCRYPTED", "its footer is encrypted"),
    ("FOOTER_LENGTH", "its footer is longer than the file"),
    ("SHORT", "a value of its footer passes the end"),
    ("VARINT", "a number of its footer doesn't fit 64 bits, or has more than ten bytes"),
    ("NEGATIVE", "a number of its footer is below 0"),
    ("FIELD_ID", "an identifier of a field doesn't fit 15 bits"),
    ("KIND", "a code of its footer stands for no kind of values"),
    ("LENGTH", "a list of its footer claims more items than bytes are left"),
    ("DEPTH", "its footer nests deeper than 32 levels"),
    ("MISSING", "a row group has no number of rows, a column no name, or a page no offset, size or first row"),
    ("SCHEMA", "its schema is no tree"),
    ("COLUMNS", "a row group has another number of columns than the schema"),
    ("VALUE", "a bound is no value of its column's type"),
    ("PAGES", "the pages of a column chunk are none of its rows"),
)
#: Why no test of a column could be meant, by the library's numbers.
_REASONS = ("has columns below it", "has a list of values a row", "is one of several of this name")


class FooterFault(ParquetFault):
    """Bytes that are no footer of a Parquet file. ``fault`` is the name of what is wrong with them, as ``docs/PARQUET.md`` has it in other letters.

    >>> FooterFault(1).fault, str(FooterFault(1))
    ('ENCRYPTED', 'its footer is encrypted')
    """

    def __init__(self, number: int):
        self.number = number
        self.fault, sentence = _FAULTS[number]
        super().__init__(sentence)

    def __reduce__(self) -> tuple[object, ...]:
        return FooterFault, (self.number,)


class NotReadError(SqlError):
    """A condition with a test of a column of which no test could be meant: one that is nested or repeated, or one of several of its name.

    ``start`` and ``end`` are the characters of the test, and ``reason`` says why, in words.
    """


class CRowGroup(Structure):
    _fields_ = [("rows", c_uint64), ("size", c_uint64), ("answer", c_uint8)]


class CRowRange(Structure):
    _fields_ = [("group", c_size_t), ("first", c_uint64), ("end", c_uint64), ("answer", c_uint8)]


class CDataPage(Structure):
    _fields_ = [("group", c_size_t), ("column", c_size_t), ("first", c_uint64), ("end", c_uint64), ("offset", c_uint64), ("size", c_uint64)]


class Told:
    """What the library told of the row groups of a footer: an answer, the rows and the bytes of each, and the bytes of tests that weren't read."""

    __slots__ = ("codes", "rows", "sizes", "unread")

    def __init__(self, found: ctypes.Array[CRowGroup], count: int, unread: list[tuple[int, int]]):
        (self.rows, self.sizes), self.codes = _columns(found, count)
        self.unread = unread


class ToldRanges:
    """What the library told of the stretches of rows of a file: an answer, the row group, the first row and the one behind the last of each, and the
    bytes of tests that weren't read. Rows are counted from the first of their row group.
    """

    __slots__ = ("codes", "ends", "firsts", "groups", "unread")

    def __init__(self, found: ctypes.Array[CRowRange], count: int, unread: list[tuple[int, int]]):
        (self.groups, self.firsts, self.ends), self.codes = _columns(found, count)
        self.unread = unread


def _columns(found: ctypes.Array[Any], count: int) -> tuple[list[array[int]], bytes]:
    """Returns the numbers of so many records, field by field, and their answers: records of numbers of 64 bits with an answer behind them."""
    width = len(found._type_._fields_)
    words = array("Q")
    with memoryview(found).cast("B") as data:
        words.frombytes(data[: count * width * 8])
        codes = bytes(data[width * 8 - 8 : count * width * 8 : width * 8])
    return [words[place::width] for place in range(width - 1)], codes


def footer_length(tail: bytes) -> int:
    """Returns how many bytes the footer has that stands before the last eight bytes of a file. FooterFault where they end no Parquet file."""
    lent, length, fault = _Lent(), c_size_t(), Fault()
    _answered(_library().vortex_parquet_footer(lent.at(tail), len(tail), ctypes.byref(length), ctypes.byref(fault)), fault, b"")
    return length.value


def prune_footer(footer: bytes, condition: str, last_names: bool, groups: int | None = None) -> Told:
    """Returns what to do with each row group under a condition in SQL. ``groups`` is how many there are, where that is known.

    A name of several parts is the column of its last one with ``last_names``, and else it isn't read.
    """
    lent, fault, found_len, unread_len = _Lent(), Fault(), c_size_t(), c_size_t()
    text = _encoded(condition, "condition")
    given = (lent.at(footer), len(footer), lent.at(text), len(text), _LAST_NAME if last_names else 0)
    room, room_unread = len(footer) // _BYTES_A_GROUP + 1 if groups is None else groups, _ROOM_UNREAD
    while True:
        found, unread = (CRowGroup * room)(), (CSpan * room_unread)()
        lens = (ctypes.byref(found_len), ctypes.byref(unread_len), ctypes.byref(fault))
        status = _library().vortex_parquet_prune(*given, found, room, unread, room_unread, *lens)
        if status != Status.TOO_SHORT:
            break
        room, room_unread = max(room, found_len.value), max(room_unread, unread_len.value)
    _answered(status, fault, text)
    return Told(found, found_len.value, [(it.start, it.end) for it in unread[: unread_len.value]])


def indexes_begin(footer: bytes) -> int | None:
    """Returns the byte of the file at which its first page index begins: the least offset of one that the footer names; None where it names none."""
    lent, begin, fault = _Lent(), c_uint64(), Fault()
    _answered(_library().vortex_parquet_indexes(lent.at(footer), len(footer), ctypes.byref(begin), ctypes.byref(fault)), fault, b"")
    return None if begin.value == _NO_INDEXES else begin.value


def prune_pages(footer: bytes, tail: bytes, begin: int, condition: str, last_names: bool) -> ToldRanges:
    """Returns what to do with each stretch of rows under a condition in SQL, by the page indexes among the bytes of the file from one on."""
    lent, fault, found_len, unread_len = _Lent(), Fault(), c_size_t(), c_size_t()
    text = _encoded(condition, "condition")
    given = (lent.at(footer), len(footer), lent.at(tail), len(tail), begin, lent.at(text), len(text), _LAST_NAME if last_names else 0)
    room, room_unread = len(footer) // _BYTES_A_GROUP + len(tail) // _BYTES_A_PAGE + 1, _ROOM_UNREAD
    while True:
        found, unread = (CRowRange * room)(), (CSpan * room_unread)()
        lens = (ctypes.byref(found_len), ctypes.byref(unread_len), ctypes.byref(fault))
        status = _library().vortex_parquet_prune_pages(*given, found, room, unread, room_unread, *lens)
        if status != Status.TOO_SHORT:
            break
        room, room_unread = max(room, found_len.value), max(room_unread, unread_len.value)
    _answered(status, fault, text)
    return ToldRanges(found, found_len.value, [(it.start, it.end) for it in unread[: unread_len.value]])


def data_pages(footer: bytes, tail: bytes, begin: int) -> DataPages:
    """Returns the data pages that the offset indexes tell among the bytes of the file from one on."""
    lent, fault, found_len = _Lent(), Fault(), c_size_t()
    given = (lent.at(footer), len(footer), lent.at(tail), len(tail), begin)
    room = len(tail) // _BYTES_A_LOCATION + 1
    while True:
        found = (CDataPage * room)()
        status = _library().vortex_parquet_data_pages(*given, found, room, ctypes.byref(found_len), ctypes.byref(fault))
        if status != Status.TOO_SHORT:
            break
        room = found_len.value
    _answered(status, fault, b"")
    words = array("Q")
    with memoryview(found).cast("B") as data:
        words.frombytes(data[: found_len.value * ctypes.sizeof(CDataPage)])
    return DataPages(*(words[place::6] for place in range(6)))


def _answered(status: int, fault: Fault, text: bytes) -> None:
    """Nothing where a call has answered, and else what was refused."""
    if status == Status.NO_MEMORY:
        raise MemoryError
    if status == Status.BAD_FOOTER:
        raise FooterFault(fault.column)
    if status == Status.NOT_READ:
        raise _not_read(text, fault)
    if status == Status.BAD_NAME:
        raise SqlError("a column has the name that a test which isn't read gets", "a column has the name of a test", 0, 0)
    _answered_sql(status, fault, text)
    assert status == Status.OK, status


def _not_read(text: bytes, fault: Fault) -> NotReadError:
    start, end = (len(text[:place].decode(errors="ignore")) for place in (fault.entry, fault.row))
    test = text[fault.entry : fault.row].decode(errors="replace")
    reason = f"a column of it {_REASONS[fault.column]}"
    return NotReadError(f"{test} can't be meant, at character {start}: {reason}", reason, start, end)
