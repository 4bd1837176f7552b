# SPDX-License-Identifier: Apache-2.0
"""Why a zone is read: what each comparison of a predicate tells of each zone, as data."""
from __future__ import annotations

import heapq
from collections.abc import Iterator, Sequence
from dataclasses import dataclass
from functools import cached_property
from itertools import compress
from typing import TYPE_CHECKING

from .answers import Answers
from .kinds import Answer, Precision, Stat
from .predicate import Predicate
from .statistic import Statistic

if TYPE_CHECKING:
    from .footers import Footers

_READ = (Stat.MIN, Stat.MAX, Stat.NULL_COUNT)
_LETTERS = bytes.maketrans(bytes(list(Answer)), b"r.W")
#: Of more zones a strip of letters is shown, and the zones with the most rows to be tested.
_LISTED = 50
_MOST = 10


class Leaf:
    """One comparison, range, null test or pattern of a predicate, pruned by itself when its answers are first asked for."""

    def __init__(self, footers: Footers, predicate: Predicate):
        self._footers, self._predicate = footers, predicate
        #: The columns that it names, each once.
        self.columns = tuple(dict.fromkeys(predicate.names()))

    @cached_property
    def text(self) -> str:
        """The leaf as a condition of SQL."""
        known = {column.name: column for column in self._footers.columns}
        return self._predicate.sql([known[name] for name in self.columns])

    @cached_property
    def answers(self) -> Answers:
        """What the leaf by itself tells of each zone."""
        return self._footers.prune(self._predicate)


@dataclass(frozen=True)
class LeafOfZone:
    """What a leaf by itself says of a zone, and which statistics of its columns aren't known there."""

    text: str
    answer: Answer
    missing: tuple[tuple[str, Stat], ...]


@dataclass(frozen=True)
class Zone:
    """A zone, what becomes of it, and why."""

    zone: int
    rows: int
    answer: Answer
    leaves: tuple[LeafOfZone, ...]


def _marks(answers: Answers, wanted: Answer) -> bytes:
    """Returns a byte a zone: 1 where it has an answer, and else 0."""
    return bytes(answers.codes).translate(bytes(code == wanted for code in range(256)))


class Explanation(Sequence[Zone]):
    """What a predicate does with each zone, and what each of its leaves says of it; printed, it is a page for a reader.

    >>> from foalmorrow import Column, DType, Footers, col
    >>> found = Footers.measure([Column("a", DType.I64)], [{"a": [1, 5]}, {"a": [4, 9]}]).explain(col("a") > 6)
    >>> found.strip(), found[0].answer.name, found[1].leaves[0].text
    ('.r', 'SKIP', '("a" > 6)')
    """

    def __init__(self, footers: Footers, predicate: Predicate):
        self.footers = footers
        self.text = predicate.sql(footers.columns)
        #: The answers of the predicate.
        self.answers = footers.prune(predicate)
        #: Those of each leaf by itself, which NOT doesn't turn round here.
        self.leaves = [Leaf(footers, leaf) for leaf in predicate.leaves()]
        self._known: dict[str, dict[tuple[str, Stat], Statistic]] = {}

    def __len__(self) -> int:
        return len(self.footers)

    def __getitem__(self, zone: int) -> Zone:  # type: ignore[override]
        leaves = [LeafOfZone(it.text, it.answers[zone], self._missing(it, zone)) for it in self.leaves]
        return Zone(range(len(self))[zone], self.footers.rows[zone], self.answers[zone], tuple(leaves))

    def _missing(self, leaf: Leaf, zone: int) -> tuple[tuple[str, Stat], ...]:
        wanted = [(name, stat) for name in leaf.columns for stat in _READ]
        return tuple(key for key in wanted if not self._is_known(key, zone))

    def _is_known(self, key: tuple[str, Stat], zone: int) -> bool:
        if key[0] not in self._known:
            self._known[key[0]] = self.footers._handed([self.footers._column(key[0])])
        found = self._known[key[0]].get(key)
        return found is not None and found.known[zone] != Precision.ABSENT

    def rows(self, answer: Answer) -> int:
        """Returns how many rows stand in the zones with an answer.

        >>> from foalmorrow import Column, DType, Footers, col
        >>> found = Footers.measure([Column("a", DType.I64)], [{"a": [1, 5]}, {"a": [4, 9, 9]}]).explain(col("a") > 6)
        >>> found.rows(Answer.SKIP), found.rows(Answer.READ)
        (2, 3)
        """
        return sum(compress(self.footers.rows, _marks(self.answers, answer)))

    def most_tested(self, count: int = _MOST) -> list[Zone]:
        """Returns the zones with the most rows to be tested, the largest first, and of equal ones the first.

        >>> from foalmorrow import Column, DType, Footers, col
        >>> found = Footers.measure([Column("a", DType.I64)], [{"a": [1, 5]}, {"a": [4, 9, 9]}]).explain(col("a") > 6)
        >>> [zone.zone for zone in found.most_tested()]
        [1]
        """
        read = compress(range(len(self)), _marks(self.answers, Answer.READ))
        return [self[zone] for zone in heapq.nlargest(count, read, key=self.footers.rows.__getitem__)]

    def strip(self) -> str:
        """Returns a letter a zone: ``.`` is skipped, ``W`` whole, ``r`` to be read.

        >>> from foalmorrow import Column, DType, Footers, col
        >>> found = Footers.measure([Column("a", DType.I64)], [{"a": [1, 5]}, {"a": [4, 9, 9]}]).explain(col("a") > 6)
        >>> found.strip()
        '.r'
        """
        return bytes(self.answers.codes).translate(_LETTERS).decode()

    def __str__(self) -> str:
        return "\n".join(self._lines())

    def _lines(self) -> Iterator[str]:
        yield self.text
        for word, answer in [("skipped", Answer.SKIP), ("whole", Answer.WHOLE), ("to be read", Answer.READ)]:
            yield f"{word}: {self.answers.count(answer)} zones, {self.rows(answer)} rows"
        if len(self) > _LISTED:
            yield self.strip()
        for zone in self.most_tested() if len(self) > _LISTED else self:
            yield f"zone {zone.zone}, {zone.rows} rows: {zone.answer.name.lower()}"
            for leaf in zone.leaves:
                missing = ", ".join(f"{stat.name.lower()} of {name}" for name, stat in leaf.missing)
                yield f"    {leaf.text}: {leaf.answer.name.lower()}" + (f" (not known: {missing})" if missing else "")
