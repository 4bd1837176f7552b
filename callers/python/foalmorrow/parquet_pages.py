# SPDX-License-Identifier: Apache-2.0
"""The data pages of a Parquet file, as its offset indexes tell them, and how many bytes of them needn't be read."""
from __future__ import annotations

from array import array
from bisect import bisect_right
from collections.abc import Mapping, Sequence


class DataPages:
    """Data pages of a file: row group by row group, in each column by column, and in each by their rows.

    >>> pages = DataPages([0, 0, 0], [0, 0, 1], [0, 60, 0], [60, 100, 100], [4, 24, 34], [20, 10, 40])
    >>> len(pages), sum(pages.sizes)
    (3, 70)
    """

    __slots__ = ("columns", "ends", "firsts", "groups", "offsets", "sizes")

    def __init__(
        self, groups: Sequence[int], columns: Sequence[int], firsts: Sequence[int], ends: Sequence[int], offsets: Sequence[int], sizes: Sequence[int]
    ):
        #: The row group of each page.
        self.groups = array("Q", groups)
        #: The column of each, by its place among all leaf columns of the schema.
        self.columns = array("Q", columns)
        #: The first row of each, counted from the first of the row group.
        self.firsts = array("Q", firsts)
        #: The row behind the last one of each.
        self.ends = array("Q", ends)
        #: The byte of the file at which each begins.
        self.offsets = array("Q", offsets)
        #: How many bytes each takes in the file, with its header.
        self.sizes = array("Q", sizes)

    def __len__(self) -> int:
        return len(self.sizes)

    def bytes_outside(self, kept: Sequence[tuple[int, int]], begins: Mapping[int, int]) -> int:
        """Returns how many bytes the pages take that have none of these rows: ascending ranges of rows counted through the file, of whose row groups
        ``begins`` has the first row.

        >>> pages = DataPages([0, 0, 0], [0, 0, 1], [0, 60, 0], [60, 100, 100], [4, 24, 34], [20, 10, 40])
        >>> [pages.bytes_outside(kept, {0: 0}) for kept in ([], [(0, 60)], [(59, 61)], [(60, 61)])]
        [70, 10, 0, 20]
        """
        stops = [stop for _, stop in kept]
        saved = 0
        for group, first, end, size in zip(self.groups, self.firsts, self.ends, self.sizes):
            begin = begins[group]
            place = bisect_right(stops, begin + first)
            if place == len(kept) or begin + end <= kept[place][0]:
                saved += size
        return saved
