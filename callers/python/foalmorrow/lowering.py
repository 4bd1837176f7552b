# SPDX-License-Identifier: Apache-2.0
"""Predicates over logical types as predicates over their physical ones, which are true of the same rows.

A comparison with a literal is a set of the whole numbers of its column: a few ranges without gaps. Where NaN, or a literal that engines
round, leaves more than one set open, each number of them all satisfies the comparison, each one of none doesn't, and of the others the
condition is opaque.

A comparison with null is null. Where it is false of every value it may be false of null, too, as long as no NOT stands above it, or two; and
under one NOT it may be true of null: a predicate that is true by a null is true whatever stands there. So what no value satisfies is FALSE,
which needs no statistics to be skipped by, and under NOT it is ``IS NULL``.
"""
from __future__ import annotations

import itertools
from collections.abc import Mapping, Sequence
from dataclasses import replace
from typing import Any

from .kinds import Column
from .predicate import Between, ColumnOf, Compared, Constant, Like, Nan, NullTest, Opaque, Predicate, PredicateError, Value, of_prefix, sql_literal
from .spelling import shown_literal
from .types import Decimal, Enum, Float32, Float64, LiteralFault, Numbered, Spot, Timestamp, Unmapped, Written

#: Ranges of whole numbers, each from its first to its last one, that ascend and don't touch.
Ranges = tuple[tuple[int, int], ...]
Columns = Mapping[str, Column]

_FLOATS = (Float32, Float64)
_BY_ORDER = ("gt", "ge", "lt", "le")


def lowered(predicate: Predicate, columns: Columns) -> Predicate:
    """Returns a predicate over the physical values of columns. PredicateError where a literal isn't one of its column's type.

    >>> from foalmorrow import Column, Decimal, col
    >>> lowered(col("d") > "1.005", {"d": Column("d", Decimal(9, 2))})
    d > 100
    """
    if all(column.logical is None for column in columns.values()):
        return predicate
    found: list[str | Predicate] = []
    # Of each operand that is to come: whether it stands under an odd number of NOTs.
    turned = [False]
    for item in predicate.prefix():
        here = turned.pop()
        if isinstance(item, str):
            found.append(item)
            turned += [not here] if item == "not" else [here, here]
            continue
        made = _leaf(item, columns, here)
        if isinstance(made, Compared):
            found.append(made)
            continue
        if found[-1:] == ["not"] and isinstance(made, (NullTest, Constant)):
            found.pop()
            made = made._turned()
        found += made.prefix()
    return of_prefix(found)


def sql_of_logical(column: Column, value: Value) -> str:
    """Returns a literal of a logical type as SQL has it. PredicateError where it isn't one."""
    try:
        if isinstance(column.logical, Numbered):
            return column.logical.sql(value)
        if isinstance(column.logical, Written):
            return sql_literal(column.physical, column.logical.literal(value))
    except LiteralFault as fault:
        raise PredicateError(f"column {column.name}: {fault}") from None
    # An unmapped column is compared by the database alone, with what the user has written.
    return shown_literal(value)


def _leaf(leaf: Predicate, columns: Columns, turned: bool) -> Predicate:
    """Returns a leaf over physical values, ``turned`` where it stands under an odd number of NOTs."""
    named = [columns.get(name) for name in leaf.names()]
    known = [column for column in named if column is not None]
    if len(known) < len(named) or all(column.logical is None for column in known) or isinstance(leaf, NullTest):
        return leaf
    if any(isinstance(column.logical, Unmapped) for column in known):
        return Opaque(repr(leaf))
    if isinstance(leaf, Like):
        if not isinstance(known[0].logical, Enum):
            raise PredicateError(f"column {known[0].name}: {known[0].word} is no text")
        return leaf
    if isinstance(leaf, Compared) and isinstance(leaf.other, ColumnOf):
        return _of_columns(leaf, known[0], known[1], turned)
    if isinstance(leaf, Between) and (leaf.low is None or leaf.high is None or _is_open(known[0])):
        low, high = leaf.ends().leaves()
        return _leaf(low, columns, turned) & _leaf(high, columns, turned)
    if isinstance(leaf, Compared) and leaf.other is None:
        return replace(leaf, nan=None)
    assert isinstance(leaf, (Compared, Between))
    try:
        return _of_literals(leaf, known[0], turned)
    except LiteralFault as fault:
        raise PredicateError(f"column {known[0].name}: {fault}") from None


def _is_open(column: Column) -> bool:
    return isinstance(column.logical, Numbered) and column.logical.is_open


def _of_literals(leaf: Compared | Between, column: Column, turned: bool) -> Predicate:
    kind = column.logical
    if isinstance(kind, Written):
        if isinstance(kind, Enum) and (isinstance(leaf, Between) or leaf.operator in _BY_ORDER):
            raise LiteralFault("an enum has an order of its own, which isn't known; expected ==, != or isin, or a column of type UTF8 for the order of texts")
        if isinstance(leaf, Between):
            return replace(leaf, low=kind.literal(leaf.low), high=kind.literal(leaf.high), nan=None)
        return replace(leaf, other=kind.literal(leaf.other), nan=None)
    assert isinstance(kind, Numbered)
    if isinstance(leaf, Compared):
        spot = kind.spot(leaf.other)
        if not kind.decides(spot):
            return Opaque(repr(leaf))
        low, high = _limits(kind)
        if spot.exact and low <= spot.number <= high and not isinstance(kind, _FLOATS):
            return Compared(leaf.operator, leaf.name, spot.number)
        ends = [(leaf.operator, spot)]
    else:
        ends = [("gt" if leaf.low_strict else "ge", kind.spot(leaf.low)), ("lt" if leaf.high_strict else "le", kind.spot(leaf.high))]
    sets = _meanings(kind, ends, leaf.nan)
    least = sets[0]
    most = sets[0]
    for found in sets[1:]:
        least, most = _both(least, found), _either(most, found)
    strict = isinstance(leaf, Compared) and leaf.operator in ("gt", "lt")
    if least == most:
        return _within(column, least, _limits(kind), strict, turned)
    rest = _within(column, most, _limits(kind), strict, turned) & Opaque(repr(leaf))
    return rest if not least and not (turned and column.nullable) else _within(column, least, _limits(kind), strict, turned) | rest


# -- sets of numbers


def _limits(kind: Numbered) -> tuple[int, int]:
    """Returns the numbers below and above which no value is mapped."""
    if isinstance(kind, _FLOATS):
        return -kind.width.infinity - 1, kind.width.nan
    assert kind.dtype.range is not None
    return kind.dtype.range


def _meanings(kind: Numbered, ends: Sequence[tuple[str, Spot]], nan: Nan) -> list[Ranges]:
    """Returns the sets that comparisons, all of which have to hold, may mean: by what NaN means and by whether literals are rounded."""
    low, high = _limits(kind)
    if not isinstance(kind, _FLOATS):
        return [_all_of([_truths(word, spot, low, high) for word, spot in ends])]
    spots = [[spot] if spot.rounded is None else [spot, Spot(spot.rounded)] for _, spot in ends]
    found = []
    for meaning, chosen in itertools.product([nan] if nan is not None else ["greatest", "ieee"], itertools.product(*spots)):
        pairs = zip((word for word, _ in ends), chosen)
        find = _ieee_truths if meaning == "ieee" else _greatest_truths
        found.append(_all_of([find(kind, word, spot) for word, spot in pairs]))
    return found


def _greatest_truths(kind: Any, word: str, spot: Spot) -> Ranges:
    return _truths(word, spot, *_limits(kind))


def _ieee_truths(kind: Any, word: str, spot: Spot) -> Ranges:
    """Returns the numbers of which a comparison is true by IEEE 754: NaN isn't equal to anything, nor above nor below."""
    low, high = _limits(kind)
    if word == "ne":
        return ((low, high),) if spot.number == kind.width.nan else _truths(word, spot, low, high)
    return () if spot.number == kind.width.nan else _truths(word, spot, low, kind.width.infinity)


def _truths(word: str, spot: Spot, low: int, high: int) -> Ranges:
    """Returns the numbers from ``low`` to ``high`` of which a comparison with a literal is true."""
    below, above = spot.number - 1 if spot.exact else spot.number, spot.number + 1
    if word == "eq":
        return _cut((spot.number, spot.number), low, high) if spot.exact else ()
    if word == "ne":
        return _either(_cut((low, below), low, high), _cut((above, high), low, high))
    if word in ("lt", "le"):
        return _cut((low, below if word == "lt" else spot.number), low, high)
    return _cut((above if word == "gt" or not spot.exact else spot.number, high), low, high)


def _cut(range_: tuple[int, int], low: int, high: int) -> Ranges:
    first, last = max(range_[0], low), min(range_[1], high)
    return ((first, last),) if first <= last else ()


def _both(left: Ranges, right: Ranges) -> Ranges:
    """Returns the numbers of both sets."""
    return tuple(found for a in left for b in right for found in _cut(a, *b))


def _all_of(sets: Sequence[Ranges]) -> Ranges:
    found = sets[0]
    for it in sets[1:]:
        found = _both(found, it)
    return found


def _either(left: Ranges, right: Ranges) -> Ranges:
    """Returns the numbers of one of two sets, or of both."""
    found: list[tuple[int, int]] = []
    for first, last in sorted(left + right):
        if found and first <= found[-1][1] + 1:
            found[-1] = (found[-1][0], max(last, found[-1][1]))
        else:
            found.append((first, last))
    return tuple(found)


def _within(column: Column, ranges: Ranges, limits: tuple[int, int], strict: bool, turned: bool) -> Predicate:
    """Returns the test that a column's number is one of a set."""
    name = column.name
    if not ranges:
        return _never(column, turned)
    if ranges == (limits,):
        return _always(column, turned)
    if len(ranges) == 2 and (ranges[0][0], ranges[1][1]) == limits and ranges[0][1] + 2 == ranges[1][0]:
        return Compared("ne", name, ranges[0][1] + 1)
    found = [_in_range(name, range_, limits, strict) for range_ in ranges]
    return found[0] if len(found) == 1 else found[0] | found[1]


def _in_range(name: str, range_: tuple[int, int], limits: tuple[int, int], strict: bool) -> Predicate:
    first, last = range_
    if first == last:
        return Compared("eq", name, first)
    if first == limits[0]:
        return Compared("lt", name, last + 1) if strict else Compared("le", name, last)
    if last == limits[1]:
        return Compared("gt", name, first - 1) if strict else Compared("ge", name, first)
    return Between(name, first, last, False, False)


def _never(column: Column, turned: bool) -> Predicate:
    """Returns a condition that is false where a column has a value, and where it is null is as good as null."""
    return NullTest(column.name, True) if turned and column.nullable else Constant(False)


def _always(column: Column, turned: bool) -> Predicate:
    """Returns a condition that is true where a column has a value, and where it is null is as good as null."""
    return NullTest(column.name, False) if column.nullable and not turned else Constant(True)


# -- two columns


def _order(column: Column) -> object:
    """Returns what two columns have to have in common to be compared: the type, without what has no part in its order."""
    kind: Any = column.type
    if isinstance(kind, Timestamp):
        return Timestamp, kind.unit, kind.tz is None
    if isinstance(kind, Decimal):
        return Decimal, kind.scale
    return Enum if isinstance(kind, Enum) else kind


def _of_columns(leaf: Compared, left: Column, right: Column, turned: bool) -> Predicate:
    kind = left.logical
    if _order(left) != _order(right):
        raise PredicateError(f"column {left.name} is {left.word}, and column {right.name} is {right.word}")
    if isinstance(kind, Enum) and leaf.operator in _BY_ORDER:
        raise PredicateError(f"column {left.name}: an enum has an order of its own, which isn't known; expected == or !=")
    greatest = replace(leaf, nan=None)
    if not isinstance(kind, _FLOATS) or leaf.nan == "greatest":
        return greatest
    ieee = _ieee_of_columns(greatest, left, right, kind.width.infinity, turned)
    if leaf.nan == "ieee":
        return ieee
    # By IEEE 754 more pairs of numbers are unequal, and fewer are equal, below or above.
    small, large = (greatest, ieee) if leaf.operator == "ne" else (ieee, greatest)
    return small | (large & Opaque(repr(leaf)))


def _ieee_of_columns(leaf: Compared, left: Column, right: Column, infinity: int, turned: bool) -> Predicate:
    """Returns the comparison of two columns by IEEE 754: it is false where one of the two is NaN, and as good as null where one is null."""
    if leaf.operator == "ne":
        found: Predicate = leaf | Compared("gt", left.name, infinity)
        return found & _always(right, turned) if right.nullable and not turned else found
    # The greater one of the two has to be a number; where the other one is null the comparison is null all the same.
    greater, lesser = (right, left) if leaf.operator in ("lt", "le") else (left, right)
    found = leaf & Compared("le", greater.name, infinity)
    return found | _never(lesser, turned) if lesser.nullable and turned else found
