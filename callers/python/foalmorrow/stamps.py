# SPDX-License-Identifier: Apache-2.0
"""Stamps of files: what tells whether a file, or a folder of files, was changed since its footers were made."""
from __future__ import annotations

import hashlib
import os
import stat
from collections.abc import Iterator
from typing import NamedTuple

__all__ = ["SETTLED", "Stamp", "stamp_of"]

#: How long a file has to be unchanged before its time of change tells it from the next change: clocks of files may tick by two seconds.
SETTLED = 2 * 10**9


class Stamp(NamedTuple):
    """The size of a file, and the nanoseconds at which its content and what is said of it changed.

    Of a folder, those of all files below it together: the sum of their sizes and their latest times. ``names`` is a digest of the name, the size and
    the times of each, and empty for a file.
    """

    size: int
    content: int
    change: int
    names: str = ""

    def as_kept(self, began: int) -> Stamp:
        """Returns the stamp that is kept of a file that was read after an instant, in nanoseconds. Where the file may change once more within a tick
        of its clock it is the stamp of no file, so that it is read anew.

        >>> Stamp(5, 10**10, 0).as_kept(12 * 10**9), Stamp(5, 10**10, 0).as_kept(12 * 10**9 - 1)
        (Stamp(size=5, content=10000000000, change=0, names=''), Stamp(size=5, content=-1, change=-1, names=''))
        """
        is_settled = max(self.content, self.change) + SETTLED <= began
        return self if is_settled else self._replace(content=-1, change=-1)


def stamp_of(path: str) -> Stamp:
    """Returns the stamp of a file, or of a folder. OSError where it is gone."""
    told = os.stat(path)
    if not stat.S_ISDIR(told.st_mode):
        return _of_file(told)
    digest, size, content, change = hashlib.sha256(), 0, 0, 0
    for name in _below(path):
        found = _of_file(os.stat(os.path.join(path, name)))
        size, content, change = size + found.size, max(content, found.content), max(change, found.change)
        digest.update(f"{len(os.fsencode(name))} ".encode() + os.fsencode(name) + f" {found[:3]}".encode())
    return Stamp(size, content, change, digest.hexdigest())


def _of_file(told: os.stat_result) -> Stamp:
    return Stamp(told.st_size, told.st_mtime_ns, told.st_ctime_ns)


def _below(path: str) -> Iterator[str]:
    """Yields the names of the files below a folder, in one order. OSError where a folder can't be read."""

    def refuse(fault: OSError) -> None:
        raise fault

    found = [os.path.relpath(os.path.join(here, name), path) for here, _, names in os.walk(path, onerror=refuse) for name in names]
    yield from sorted(found)
