# SPDX-License-Identifier: Apache-2.0
"""Conditions in SQL, as they stand behind WHERE: what is refused of a text, and what is said of tests that aren't read.

``docs/SQL.md`` of the repository says what is read, and how. A test that isn't read may mean anything: the rest of the condition prunes, and the
answer tells which tests those are.
"""
from __future__ import annotations

import warnings
from collections.abc import Iterator, Sequence

from .items import shown
from .predicate import PredicateError

__all__ = ["SqlError", "UnreadWarning"]


class SqlError(PredicateError):
    """A text that is no condition in SQL over the columns: ``start`` and ``end`` are the characters of the test whose types don't fit, and else
    both are the character at which what is refused begins. ``reason`` says why, in words.

    >>> footers = Footers.measure([Column("qty", DType.I64)], [{"qty": [1, 2]}])
    >>> try:
    ...     footers.prune("qty > 1 OR qty = 'many'")
    ... except SqlError as fault:
    ...     print(fault.start, fault.end, fault)
    11 23 the types of qty = 'many' don't fit, at character 11
    """

    def __init__(self, message: str, reason: str, start: int, end: int):
        super().__init__(message)
        self.reason, self.start, self.end = reason, start, end

    def __reduce__(self) -> tuple[object, ...]:
        return SqlError, (str(self), self.reason, self.start, self.end)


class UnreadWarning(UserWarning):
    """Tests of a condition in SQL that weren't read, so that nothing is pruned by them. ``unread`` has their texts.

    >>> footers = Footers.measure([Column("qty", DType.I64)], [{"qty": [1, 2]}])
    >>> with warnings.catch_warnings(record=True) as told:
    ...     warnings.simplefilter("always")
    ...     answers = footers.prune("qty > 3 AND lower(city) = 'rome'")
    >>> print(told[0].message)
    a test isn't read, and nothing is pruned by it: lower(city) = 'rome'
    """

    def __init__(self, unread: Sequence[str]):
        self.unread = tuple(unread)
        count, rest = len(self.unread), len(self.unread) - 3
        words = "a test isn't read, and nothing is pruned by it" if count == 1 else f"{count} tests aren't read, and nothing is pruned by them"
        super().__init__(f"{words}: {'; '.join(self.unread[:3])}{f'; and {rest} more' if rest > 0 else ''}")

    def __reduce__(self) -> tuple[object, ...]:
        return UnreadWarning, (self.unread,)


#: Why a text is no condition, by the library's numbers.
_REASONS = (
    "no rule reads what begins", "a quote isn't closed that begins", "a comment begins", "a word stands right before a quote", "a dollar sign stands",
    "a number runs into what follows", "a text stands right behind another one", "there is no Unicode text",
)


def no_condition(text: bytes, why: int, at: int) -> SqlError:
    """Returns the error of a text that is no condition from a byte on, by the library's number of the reason."""
    start = _characters(text, at)
    if why == 0 and at >= len(text):
        return SqlError(f"the condition ends too soon, at character {start}", "it ends too soon", start, start)
    following = text[at:].decode(errors="replace")
    return SqlError(f"{_REASONS[why]} at character {start}: {shown(following)}", _REASONS[why], start, start)


def too_deep(text: bytes, at: int) -> SqlError:
    """Returns the error of a text that nests too deep from a byte on."""
    start = _characters(text, at)
    return SqlError(f"the condition nests deeper than 64 levels at character {start}", "it nests too deep", start, start)


def misfit(text: bytes, start: int, end: int) -> SqlError:
    """Returns the error of a test whose types don't fit, by its bytes."""
    first, last = _characters(text, start), _characters(text, end)
    words = text[start:end].decode(errors="replace")
    return SqlError(f"the types of {words} don't fit, at character {first}", "the types don't fit", first, last)


#: The longest line of a condition that is underlined.
_WIDEST = 120


def underlined(condition: str, unread: Sequence[tuple[int, int]]) -> str:
    """Returns a condition with a line beneath each of its lines that marks the tests that aren't read, which are given by their bytes.

    Tabs line up. Where a character may not be one column wide, or a line is longer than 120 columns, each of these tests is told by the character
    at which it begins.
    """
    lines = [line.rstrip("\r") for line in condition.split("\n")]
    if all(len(line) <= _WIDEST and _is_plain(line) for line in lines):
        return "\n".join(_marked(condition, unread))
    text = condition.encode()
    told = (f"not read, at character {_characters(text, start)}: {text[start:end].decode()}" for start, end in unread)
    return "\n".join([condition, *told])


def _is_plain(line: str) -> bool:
    """Tells whether each character of a line takes one column, tabs aside."""
    return line.isascii() and line.replace("\t", "").isprintable()


def _marked(condition: str, unread: Sequence[tuple[int, int]]) -> Iterator[str]:
    """Returns the lines of a condition of ASCII, each with the line of its marks beneath it."""
    marks = bytearray(len(condition))
    for start, end in unread:
        marks[start:end] = b"~" * (end - start)
    at = 0
    for line in condition.split("\n"):
        plain = line.rstrip("\r")
        below = "".join("\t" if it == "\t" else "~" if mark else " " for it, mark in zip(plain, marks[at : at + len(plain)]))
        yield plain
        if "~" in below:
            yield f"{below.rstrip()} not read"
        at += len(line) + 1


def _characters(text: bytes, count: int) -> int:
    """Returns how many characters stand in so many bytes."""
    return len(text[:count].decode(errors="ignore"))


def warn_of(unread: Sequence[str], stacklevel: int) -> None:
    """Warns once of tests that aren't read, at the caller who is so many calls away."""
    if unread:
        warnings.warn(UnreadWarning(unread), stacklevel=stacklevel + 1)
