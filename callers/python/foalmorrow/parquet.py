# SPDX-License-Identifier: Apache-2.0
"""Row groups and pages of one Parquet file by a condition in SQL: its footer and its page indexes are read by proof, and no page of data is read at all.

``docs/PARQUET.md`` of the repository says which statistics are used as what, and which columns are read; ``docs/SQL.md`` which conditions.

>>> import foalmorrow.parquet
>>> isinstance(foalmorrow.parquet.open, type(open))
False
"""
from __future__ import annotations

import builtins
import io
import os
from array import array
from collections.abc import Callable, Iterator, Sequence
from contextlib import AbstractContextManager, nullcontext
from typing import Any, BinaryIO

from .answers import Answers
from .footers import Footers
from .kinds import Answer
from .parquet_calls import TAIL, FooterFault, NotReadError, data_pages, footer_length, indexes_begin, prune_footer, prune_pages
from .parquet_footers import of_footer
from .parquet_pages import DataPages
from .sql import warn_of

__all__ = ["DataPages", "File", "FooterFault", "NotReadError", "RowGroups", "RowRanges", "open"]

#: Returns the file for a while.
_Opener = Callable[[], AbstractContextManager[BinaryIO]]


def open(source: str | os.PathLike[str] | bytes | bytearray | memoryview | Any) -> File:
    """Returns the footer of a file: of a path, of bytes that are the file or its end, of a file object that reads and seeks (so of fsspec, too), or
    of pyarrow's ``FileMetaData``.

    The last eight bytes are read, and then the footer before them; ``prune_pages`` reads the page indexes when it is first called, of a path from the
    file that stands there then and has to be the same, and of bytes only where they begin as a file does. A file object stays open, and stands where it stood.

    FooterFault where the bytes end no Parquet file, OSError where they can't be read, TypeError of anything else. Whether the footer itself can be
    read is seen by ``prune``.
    """
    if isinstance(source, (bytes, bytearray, memoryview)):
        whole = io.BytesIO(source)
        return _opened(lambda: nullcontext(whole), bytes(source[:4]) == b"PAR1")
    if isinstance(source, (str, os.PathLike)):
        return _opened(lambda: builtins.open(source, "rb"), True)
    if hasattr(source, "write_metadata_file"):
        told = io.BytesIO()
        source.write_metadata_file(told)
        return _opened(lambda: nullcontext(told), False)
    if not hasattr(source, "read") or not hasattr(source, "seek"):
        raise TypeError(f"{source!r} is no path, no bytes, no file that reads and seeks, and no metadata of pyarrow")
    file: BinaryIO = source
    return _opened(lambda: _Kept(file), True)


class _Kept:
    """A file object, which stands afterwards where it stood."""

    def __init__(self, file: BinaryIO):
        self.file = file

    def __enter__(self) -> BinaryIO:
        self.place = self.file.tell()
        return self.file

    def __exit__(self, *_: object) -> None:
        self.file.seek(self.place)


def _opened(opener: _Opener, is_whole: bool) -> File:
    with opener() as file:
        state, size = _state(file), _size(file)
        tail = _read(file, size, size - min(size, TAIL), size)
        length = footer_length(tail)
        if length > size - TAIL:
            raise FooterFault(2)
        begin = size - TAIL - length
        footer = _read(file, size, begin, size - TAIL)

    def fetched(start: int) -> bytes:
        with opener() as file:
            if _size(file) != size:
                raise OSError(f"the file had {size} bytes when its footer was read, and has {_size(file)}")
            found = _read(file, size, start, begin)
            if _state(file) != state:
                raise OSError("the file was changed, or replaced by another one, since its footer was read")
            return found

    return File(footer, (begin, fetched) if is_whole else None)


def _state(file: BinaryIO) -> tuple[int, ...]:
    """Returns what tells a file from another one, and from itself once it is changed; nothing of a file object that is none of the system's."""
    try:
        told = os.fstat(file.fileno())
    except (AttributeError, OSError, TypeError, ValueError):
        return ()
    return told.st_dev, told.st_ino, told.st_mtime_ns, told.st_ctime_ns


def _size(file: BinaryIO) -> int:
    size = file.seek(0, os.SEEK_END)
    return file.tell() if size is None else size


def _read(file: BinaryIO, size: int, start: int, stop: int) -> bytes:
    """Returns the bytes of a file of this size from one up to another."""
    file.seek(start)
    found: list[bytes] = []
    left = stop - start
    while left > 0:
        more = file.read(left)
        if not more:
            raise OSError(f"the file has {size} bytes, and {left} of them couldn't be read")
        found.append(more)
        left -= len(more)
    return b"".join(found)


class File:
    """The footer of a Parquet file.

    >>> len(File(b"").footer)
    0
    """

    __slots__ = ("_before", "_groups", "_indexes", "footer")

    def __init__(self, footer: bytes, before: tuple[int, Callable[[int], bytes]] | None = None):
        """Takes the bytes of a footer, without its length and the mark behind it, and where the file is at hand, at which of its bytes the footer
        begins, and a function that returns the bytes from one of them up to there.
        """
        self.footer = footer
        self._before = before
        self._groups: int | None = None
        self._indexes: tuple[int, bytes] | None = None

    @property
    def footers(self) -> Footers:
        """The statistics of the row groups as footers, for all that these do: predicates over dates, times, decimals and floating numbers too, merging,
        explaining, and files of their own. They are read in Python, by the rules of ``docs/SYSTEMS.md`` of the repository, and anew each time.

        A column that is repeated, of no known type, or one of several of its name is unmapped: no more is known of it than its nulls, if these are.
        Nothing is known of a column chunk whose statistics can't be. ParquetFault where the bytes are no footer.
        """
        return of_footer(self.footer)

    def prune(self, condition: str, *, last_names: bool = False) -> RowGroups:
        """Returns what to do with each row group under a condition in SQL, as it stands behind WHERE.

        If the statistics of the footer are true, no row of a skipped row group satisfies the condition, and each row of a whole one does, whatever
        the tests mean that aren't read, as those of a column that the file lacks, or of one whose order isn't known. One ``UnreadWarning`` tells of
        them. Dates, times, timestamps, decimals and floats are compared by what their numbers stand for; ``>`` and ``>=`` of a float aren't read, since
        nothing says what they mean of NaN. With ``last_names`` a name of several parts, as ``t.a``, is the column of its last one. The statistics of
        those columns alone are read that the condition names.

        FooterFault where the bytes are no footer; SqlError, with the place, where the text is no condition over the file's columns; of these
        NotReadError where a test names a column that is nested, repeated, or one of several of its name.
        """
        told = prune_footer(self.footer, condition, last_names, self._groups)
        self._groups = len(told.rows)
        words = [condition.encode()[start:end].decode() for start, end in told.unread]
        warn_of(words, stacklevel=2)
        return RowGroups(Answers(told.codes, words, [(condition, told.unread)]), told.rows, told.sizes)

    def prune_pages(self, condition: str, *, last_names: bool = False) -> RowRanges:
        """Returns what to do with the rows of the file under a condition in SQL, by its page indexes.

        Each row group is cut where a page of a column ends that the condition names. If the statistics of the pages are true, no row of a skipped
        stretch satisfies the condition, and each row of a whole one does, whatever the tests mean that aren't read. A column chunk without page
        indexes is one page with the statistics of the footer, so a file without any is pruned by its row groups.

        At its first call it reads the bytes from the first page index up to the footer. It refuses and warns as ``prune`` does, and FooterFault tells
        of the page indexes, too. OSError where the file can't be read any more, has another size, or was changed or replaced since its footer was read.
        """
        begin, tail = self._tail()
        told = prune_pages(self.footer, tail, begin, condition, last_names)
        words = [condition.encode()[start:end].decode() for start, end in told.unread]
        warn_of(words, stacklevel=2)
        return RowRanges(Answers(told.codes, words, [(condition, told.unread)]), told.groups, told.firsts, told.ends, self.data_pages)

    def data_pages(self) -> DataPages:
        """Returns the data pages of all columns with the rows and the bytes of each, as far as the offset indexes tell. A column chunk without an
        offset index has none here.

        It reads what ``prune_pages`` reads, and raises what that does of the footer and of the file.
        """
        begin, tail = self._tail()
        return data_pages(self.footer, tail, begin)

    def _tail(self) -> tuple[int, bytes]:
        if self._before is None:
            return 0, b""
        if self._indexes is None:
            end, fetched = self._before
            first = indexes_begin(self.footer)
            # An index that isn't named as one before the footer is none, and its column chunk is one page.
            begin = end if first is None else min(first, end)
            self._indexes = begin, fetched(begin) if begin < end else b""
        return self._indexes


class RowGroups:
    """What to do with the row groups of a file, in their order.

    >>> found = RowGroups(Answers([1, 0, 2]), array("Q", [10, 20, 30]), array("Q", [100, 200, 300]))
    >>> list(found.kept), list(found.whole), found.ranges(), found.bytes_saved
    ([1, 2], [2], [(10, 60)], 100)
    >>> found
    <3 row groups: 1 to be read, 1 skipped, 1 whole, 100 bytes saved>
    """

    __slots__ = ("answers", "rows", "sizes")

    def __init__(self, answers: Answers, rows: array[int], sizes: array[int]):
        #: An answer for each row group.
        self.answers = answers
        #: How many rows each has.
        self.rows = rows
        #: How many bytes its column chunks take in the file, or 0 where the footer doesn't tell.
        self.sizes = sizes

    def __len__(self) -> int:
        return len(self.answers)

    def __iter__(self) -> Iterator[Answer]:
        return iter(self.answers)

    def __repr__(self) -> str:
        counts = [f"{self.answers.count(answer)} {word}" for answer, word in ((Answer.READ, "to be read"), (Answer.SKIP, "skipped"), (Answer.WHOLE, "whole"))]
        return f"<{len(self)} row groups: {', '.join(counts)}, {self.bytes_saved} bytes saved>"

    @property
    def kept(self) -> array[int]:
        """The row groups that have to be fetched, as ``pyarrow.parquet.ParquetFile.read_row_groups`` takes them: those to be read, and whole ones."""
        return self.answers.kept

    @property
    def skipped(self) -> array[int]:
        """The row groups of which no row satisfies the condition."""
        return self.answers.skipped

    @property
    def whole(self) -> array[int]:
        """The row groups of which every row satisfies the condition."""
        return self.answers.whole

    @property
    def unread(self) -> tuple[str, ...]:
        """The tests of the condition that weren't read, in its order: nothing was pruned by them."""
        return self.answers.unread

    def explained(self) -> str:
        """Returns the condition, and beneath each of its lines one that marks the tests that weren't read, as ``Answers.explained`` does."""
        return self.answers.explained()

    @property
    def bytes_saved(self) -> int:
        """How many bytes the skipped row groups take in the file, as far as the footer tells."""
        return sum(self.sizes[group] for group in self.skipped)

    def ranges(self) -> list[tuple[int, int]]:
        """Returns the rows of the kept row groups, counted through the file: the first of each run of them, and the one behind its last."""
        found: list[tuple[int, int]] = []
        start = 0
        for rows, answer in zip(self.rows, self.answers.codes):
            if answer != Answer.SKIP:
                _join(found, start, start + rows)
            start += rows
        return found


def _rows(places: list[int]) -> Sequence[int]:
    """Returns places of rows as an array, or as they are where a footer tells more rows than 64 bits count."""
    return array("Q", places) if max(places, default=0) < 2**64 else places


class RowRanges:
    """What to do with the rows of a file: stretches of them, in their order, each of which lies in one page of each column that the condition names.

    >>> found = RowRanges(Answers([1, 0, 2, 1]), [0, 0, 0, 2], [0, 40, 60, 0], [40, 60, 100, 30])
    >>> found.ranges(), found.whole_ranges(), list(found.kept_groups), found.rows_skipped
    ([(40, 100)], [(60, 100)], [0], 70)
    >>> found
    <4 stretches of rows: 1 to be read, 2 skipped, 1 whole, 70 of 130 rows skipped>
    """

    __slots__ = ("_pages", "_saved", "answers", "groups", "starts", "stops")

    def __init__(
        self, answers: Answers, groups: Sequence[int], firsts: Sequence[int], ends: Sequence[int], pages: Callable[[], DataPages] | None = None
    ):
        """Takes an answer for each stretch, its row group, its first row and the one behind its last, which are counted from the first of the row
        group. The stretches of a row group are all its rows. ``pages`` returns the data pages of the file, where they are known.
        """
        self._pages = pages
        self._saved: int | None = None
        #: An answer for each stretch.
        self.answers = answers
        #: The row group of each.
        self.groups = array("Q", groups)
        #: The first row of each, counted through the file.
        self.starts: Sequence[int]
        #: The row behind the last one of each.
        self.stops: Sequence[int]
        starts, stops = [], []
        begin = last = 0
        for first, end in zip(firsts, ends):
            # The first stretch of a row group begins where the last one of the row group before it ends.
            begin = last if first == 0 else begin
            last = begin + end
            starts.append(begin + first)
            stops.append(last)
        self.starts, self.stops = _rows(starts), _rows(stops)

    def __len__(self) -> int:
        return len(self.answers)

    def __iter__(self) -> Iterator[tuple[int, int, Answer]]:
        """Yields the first row of each stretch, the one behind its last, and the answer."""
        return zip(self.starts, self.stops, self.answers)

    def __repr__(self) -> str:
        counts = [f"{self.answers.count(answer)} {word}" for answer, word in ((Answer.READ, "to be read"), (Answer.SKIP, "skipped"), (Answer.WHOLE, "whole"))]
        rows = self.stops[-1] if self.stops else 0
        return f"<{len(self)} stretches of rows: {', '.join(counts)}, {self.rows_skipped} of {rows} rows skipped>"

    @property
    def kept_groups(self) -> array[int]:
        """The row groups that have rows to be fetched, as ``pyarrow.parquet.ParquetFile.read_row_groups`` takes them."""
        return array("Q", dict.fromkeys(self.groups[place] for place in self.answers.kept))

    @property
    def unread(self) -> tuple[str, ...]:
        """The tests of the condition that weren't read, in its order: nothing was pruned by them."""
        return self.answers.unread

    def explained(self) -> str:
        """Returns the condition, and beneath each of its lines one that marks the tests that weren't read, as ``Answers.explained`` does."""
        return self.answers.explained()

    @property
    def rows_skipped(self) -> int:
        """How many rows don't satisfy the condition by the statistics."""
        return sum(self.stops[place] - self.starts[place] for place in self.answers.skipped)

    @property
    def bytes_saved(self) -> int:
        """How many bytes of the file the data pages take that have skipped rows alone, as far as the offset indexes tell: those of all columns, with
        the headers of pages. The offset indexes are read when it is first asked for, and FooterFault tells of them.
        """
        if self._saved is None:
            begins: dict[int, int] = {}
            for group, start in zip(self.groups, self.starts):
                begins.setdefault(group, start)
            self._saved = self._pages().bytes_outside(self.ranges(), begins) if self._pages is not None else 0
        return self._saved

    def ranges(self) -> list[tuple[int, int]]:
        """Returns the rows to fetch, counted through the file: the first of each run of them, and the one behind its last."""
        return self._joined(self.answers.kept)

    def whole_ranges(self) -> list[tuple[int, int]]:
        """Returns those of the rows to fetch that are known to satisfy the condition."""
        return self._joined(self.answers.whole)

    def _joined(self, places: Sequence[int]) -> list[tuple[int, int]]:
        found: list[tuple[int, int]] = []
        for place in places:
            _join(found, self.starts[place], self.stops[place])
        return found


def _join(found: list[tuple[int, int]], start: int, stop: int) -> None:
    """Adds rows behind those that were found so far."""
    if found and found[-1][1] == start:
        found[-1] = (found[-1][0], stop)
    elif start < stop:
        found.append((start, stop))
