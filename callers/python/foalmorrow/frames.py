# SPDX-License-Identifier: Apache-2.0
"""Chunks as pandas frames, and the rows of a frame that satisfy a predicate (Debian: python3-pandas).

Columns have pandas' types with null (``Int64``, ``string``, ``boolean``), whose AND, OR and NOT know three truths as the library's do. Those of a
logical type hold its values, as dates and decimals, and are compared by the physical values that they are mapped onto.
"""
from __future__ import annotations

import operator
import re
from collections.abc import Callable, Mapping, Sequence
from typing import Any

import numpy
import pandas

from .footers import FooterError
from .kinds import Column, DType
from .predicate import Between, ColumnOf, Compared, Constant, Like, NullTest, Opaque, Predicate, PredicateError, literal
from .reading import read_column

_OPERATORS: dict[str, Callable[[Any, Any], Any]] = {
    word: getattr(operator, word) for word in ("eq", "ne", "gt", "ge", "lt", "le")
}


def frame_of(columns: Sequence[Column], chunk: Mapping[str, object]) -> pandas.DataFrame:
    """Returns the columns of a chunk as a frame, read as they are measured. FooterError where one is missing; ValueFault as of ``measure``.

    >>> frame_of([Column("a", DType.I8, True)], {"a": [1, None]})["a"].tolist()
    [1, <NA>]
    """
    missing = [column.name for column in columns if column.name not in chunk]
    if missing:
        raise FooterError(f"the chunk has no column {missing[0]}")
    return pandas.DataFrame({column.name: _shown(column, chunk[column.name]) for column in columns})


def _shown(column: Column, given: Any) -> pandas.Series:
    """Returns a column with the values of its own type."""
    if column.logical is None:
        return _series(column, given)
    found = read_column(column, given)
    nulls = found.nulls or bytes(len(found.values))
    items = [None if null else column.logical.shown(found.values[row]) for row, null in enumerate(nulls)]
    held = numpy.empty(len(items), dtype=object)
    held[:] = items
    return pandas.Series(held, dtype=object)


def _series(column: Column, given: Any) -> pandas.Series:
    """Returns a column with its physical values."""
    found = read_column(column, given)
    values, count = found.values, len(found.values)
    mask = numpy.zeros(count, bool) if found.nulls is None else numpy.frombuffer(found.nulls, dtype=bool).copy()
    if column.dtype == DType.NULL:
        return pandas.Series([None] * count, dtype="object")
    if column.dtype.has_ends:
        items = [None if mask[row] else values[row] for row in range(count)]
        return pandas.Series(items, dtype="string" if column.dtype == DType.UTF8 else "object")
    # By numpy's own arrays: pandas takes a list with great numbers for floating ones.
    width = "?" if column.dtype == DType.BOOL else f"<{'u' if column.dtype <= DType.U64 else 'i'}{column.dtype.width}"
    numbers = numpy.frombuffer(values.data, dtype=width).copy() if count else numpy.zeros(0, width)
    kind = pandas.arrays.BooleanArray if column.dtype == DType.BOOL else pandas.arrays.IntegerArray
    return pandas.Series(kind(numbers, mask))


def rows(predicate: Predicate, columns: Sequence[Column], frame: pandas.DataFrame) -> pandas.DataFrame:
    """Returns the rows of a frame that satisfy a predicate, which are those that the library's own scan selects.

    PredicateError where the predicate names what isn't there, compares what can't be compared, or is opaque.

    >>> columns = [Column("d", Decimal(5, 2), True)]
    >>> rows(col("d") > "1.005", columns, frame_of(columns, {"d": ["1.00", "1.01", None]})).index.tolist()
    [1]
    """
    return frame[truths(predicate, {column.name: column for column in columns}, frame).fillna(False).astype(bool)]


def truths(predicate: Predicate, columns: Mapping[str, Column], frame: pandas.DataFrame) -> pandas.Series:
    """Returns what a predicate is of each row: true, false or null."""
    named = [columns[name] for name in dict.fromkeys(predicate.names()) if name in columns]
    predicate = predicate.lowered(list(columns.values()))
    logical = [column for column in named if column.logical is not None]
    if logical:
        held = {column.name: _series(column, _items(frame[column.name])).set_axis(frame.index) for column in logical}
        frame = pandas.DataFrame({column.name: held.get(column.name, frame[column.name]) for column in named}, index=frame.index)
    columns = {name: column.physical for name, column in columns.items()}

    def leaf(it: Predicate) -> Any:
        return _leaf(it, columns, frame)

    def joined(word: str, left: Any, right: Any) -> Any:
        return left & right if word == "and" else left | right

    return predicate.folded(leaf, joined, operator.invert)


def _items(series: pandas.Series) -> Any:
    """Returns the items of a Series of objects, in which NaN is a value; another Series as it is."""
    return series.to_numpy() if series.dtype == object else series


def _leaf(leaf: Predicate, columns: Mapping[str, Column], frame: pandas.DataFrame) -> pandas.Series:
    if isinstance(leaf, Between):
        return truths(leaf.ends(), columns, frame)
    if isinstance(leaf, Opaque):
        raise PredicateError(f"{leaf!r} is opaque, and can't be tested here")
    if isinstance(leaf, Constant):
        return pandas.Series(pandas.NA if leaf.truth is None else leaf.truth, index=frame.index, dtype="boolean")
    named = [columns.get(name) for name in leaf.names()]
    if None in named:
        raise PredicateError(f"the table has no column {leaf.names()[named.index(None)]}")
    series = frame[named[0].name]  # type: ignore[union-attr]
    if isinstance(leaf, NullTest):
        return (series.isna() if leaf.wanted else series.notna()).astype("boolean")
    if isinstance(leaf, Compared):
        return _compared(leaf, named, series, frame)  # type: ignore[arg-type]
    assert isinstance(leaf, Like)
    return _like(leaf, named[0], series)  # type: ignore[arg-type]


def _compared(leaf: Compared, named: Sequence[Column], series: pandas.Series, frame: pandas.DataFrame) -> pandas.Series:
    if isinstance(leaf.other, ColumnOf):
        if named[0].dtype != named[1].dtype:
            raise PredicateError(f"column {named[0].name} is {named[0].word}, and column {named[1].name} is {named[1].word}")
        others: Any = frame[named[1].name]
    else:
        literal(named[0], leaf.other)
        others = leaf.other
    compare = _OPERATORS[leaf.operator]
    if others is None or named[0].dtype == DType.NULL:
        return pandas.Series(pandas.NA, index=frame.index, dtype="boolean")
    if not named[0].dtype.has_ends:
        return compare(series, others).astype("boolean")
    # One by one: numpy drops zeros at the end of a text, and takes "a\0" for "a".
    pairs = zip(series, others if isinstance(others, pandas.Series) else [others] * len(series))
    told = [None if pandas.isna(a) or pandas.isna(b) else compare(a, b) for a, b in pairs]
    return pandas.Series(told, index=frame.index, dtype="boolean")


def _like(leaf: Like, column: Column, series: pandas.Series) -> pandas.Series:
    if column.dtype != DType.UTF8:
        raise PredicateError(f"column {column.name}: {column.word} is no text")
    found = series.str.fullmatch(_expression(leaf.pattern), flags=re.DOTALL | (re.IGNORECASE | re.ASCII) * leaf.ignore_case)
    return ~found.astype("boolean") if leaf.negated else found.astype("boolean")


def _expression(pattern: str) -> str:
    """A pattern of LIKE as a regular expression."""
    pieces = re.findall(r"\\.|.", pattern, flags=re.DOTALL)
    words = {"%": ".*", "_": "."}
    return "".join(words.get(it) or re.escape(it[-1]) for it in pieces)
