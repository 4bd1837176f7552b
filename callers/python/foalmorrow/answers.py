# SPDX-License-Identifier: Apache-2.0
"""What pruning answers: a byte a zone, seen as a sequence of answers, as a numpy array, or as the zones that are to be read."""
from __future__ import annotations

from array import array
from collections.abc import Iterable, Iterator, Sequence
from itertools import compress, count
from typing import Any, overload

from .kinds import Answer
from .sql import underlined

try:
    import numpy
except ImportError:
    numpy = None  # type: ignore[assignment]


def _test(*wanted: Answer) -> bytes:
    """Maps a code to 1 where it is one of those that are wanted, and else to 0."""
    return bytes(code in wanted for code in range(256))


_ANSWERS = tuple(Answer)
_CODES = bytes(list(_ANSWERS))
_IS_SKIP, _IS_KEPT, _IS_WHOLE = _test(Answer.SKIP), _test(Answer.READ, Answer.WHOLE), _test(Answer.WHOLE)


class Answers(Sequence[Answer]):
    """What to do with each zone, in their order. ``numpy.asarray`` of it is an array of the codes, without a copy.

    >>> answers = Answers([1, 0, 2, 2])
    >>> answers, list(answers.kept), answers.runs()
    (<4 zones: 1 to be read, 1 skipped, 2 whole>, [1, 2, 3], [(1, 4)])
    """

    __slots__ = ("_conditions", "codes", "unread")

    def __init__(
        self,
        codes: bytes | bytearray | memoryview | Iterable[int],
        unread: Iterable[str] = (),
        conditions: Iterable[tuple[str, Sequence[tuple[int, int]]]] = (),
    ):
        """Takes a code for each zone, and conditions in SQL with the bytes of their tests that weren't read. ValueError where a code is no ``Answer``."""
        #: A byte a zone, an ``Answer`` each.
        self.codes = memoryview(codes if isinstance(codes, (bytes, bytearray, memoryview)) else bytes(codes))
        if bytes(self.codes).translate(None, _CODES):
            raise ValueError("a code above 2 is no answer")
        #: The tests of a condition in SQL that weren't read, in its order: nothing was pruned by them. Of a ``Predicate`` there are none.
        self.unread = tuple(unread)
        self._conditions = tuple(conditions)

    def __len__(self) -> int:
        return len(self.codes)

    @overload
    def __getitem__(self, place: int) -> Answer: ...
    @overload
    def __getitem__(self, place: slice) -> Answers: ...
    def __getitem__(self, place: int | slice) -> Answer | Answers:
        return Answers(self.codes[place], self.unread, self._conditions) if isinstance(place, slice) else Answer(self.codes[place])

    def __iter__(self) -> Iterator[Answer]:
        return map(_ANSWERS.__getitem__, self.codes)

    def __array__(self, dtype: Any = None, copy: bool | None = None) -> Any:
        found = numpy.frombuffer(self.codes, dtype=numpy.uint8)
        return found.astype(dtype or numpy.uint8, copy=bool(copy))

    def __eq__(self, other: object) -> bool:
        return isinstance(other, Answers) and self.codes == other.codes

    __hash__ = None  # type: ignore[assignment]

    def __or__(self, other: Answers) -> Answers:
        """What two answers about the same zones tell together: a zone is skipped or whole where one of them says so. What was not read of one
        condition stands before what was not read of the other one.
        """
        if len(self) != len(other):
            raise ValueError(f"answers about {len(self)} and about {len(other)} zones")
        unread, conditions = self.unread + other.unread, self._conditions + other._conditions
        if numpy is not None:
            left, right = numpy.asarray(self), numpy.asarray(other)
            return Answers(numpy.where(left == Answer.READ, right, left).tobytes(), unread, conditions)
        return Answers((a or b for a, b in zip(self.codes, other.codes)), unread, conditions)

    def __repr__(self) -> str:
        return f"<{len(self)} zones: {self.count(Answer.READ)} to be read, {self.count(Answer.SKIP)} skipped, {self.count(Answer.WHOLE)} whole>"

    def count(self, value: object) -> int:
        """How many zones have an answer.

        >>> Answers([1, 0, 1]).count(Answer.SKIP)
        2
        """
        return bytes(self.codes).count(value) if isinstance(value, Answer) else 0

    def explained(self) -> str:
        """Returns the condition in SQL, and beneath each of its lines one that marks the tests that weren't read. Of a ``Predicate`` it is empty.

        Where characters may not be one column wide, or a line is longer than 120 columns, each of these tests is told by its place.

        >>> print(Answers([0], ["f(city)"], [("qty > 3 AND f(city)", [(12, 19)])]).explained())
        qty > 3 AND f(city)
                    ~~~~~~~ not read
        """
        return "\n".join(underlined(condition, unread) for condition, unread in self._conditions)

    @property
    def skipped(self) -> array[int]:
        """The zones of which no row satisfies the predicate."""
        return self._zones(_IS_SKIP)

    @property
    def kept(self) -> array[int]:
        """The zones that aren't skipped: those that have to be fetched."""
        return self._zones(_IS_KEPT)

    @property
    def whole(self) -> array[int]:
        """The zones of which every row satisfies the predicate."""
        return self._zones(_IS_WHOLE)

    def _zones(self, test: bytes) -> array[int]:
        marks = bytes(self.codes).translate(test)
        if numpy is not None:
            return array("Q", numpy.flatnonzero(numpy.frombuffer(marks, dtype=numpy.uint8)).astype("<u8").tobytes())
        return array("Q", compress(count(), marks))

    def runs(self) -> list[tuple[int, int]]:
        """The kept zones as runs of neighbours: the first of each, and the one behind its last.

        >>> Answers([0, 2, 1, 0]).runs()
        [(0, 2), (3, 4)]
        """
        found: list[tuple[int, int]] = []
        for zone in self.kept:
            if found and found[-1][1] == zone:
                found[-1] = (found[-1][0], zone + 1)
            else:
                found.append((zone, zone + 1))
        return found
