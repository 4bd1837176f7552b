# SPDX-License-Identifier: Apache-2.0
"""Filter tuples, as pandas, pyarrow and Dask take them, read as predicates.

>>> of_filters([[("qty", ">", 3), ("city", "==", "Bern")], [("qty", "==", 0)]]) == (col("qty") > 3) & (col("city") == "Bern") | (col("qty") == 0)
True

A list of lists is an OR of ANDs, and a list of tuples is one AND. **Nulls are as pyarrow has them**, whose ``not in`` selects null where no value
of the list is null, and whose ``in`` selects it where one is. Each other comparison of a null selects nothing, so one with None is refused; Dask's
``is`` and ``is not`` test for null.
"""
from __future__ import annotations

from collections.abc import Iterable, Sequence, Set
from typing import Any

from .items import is_missing, shown
from .predicate import ColumnOf, Predicate, PredicateError, col

#: A tuple of a column's name, an operator and a value.
Filter = tuple[str, str, Any]
#: An AND of filters, or an OR of ANDs.
Filters = Sequence[Filter] | Sequence[Sequence[Filter]]

_COMPARISONS = {"=": "__eq__", "==": "__eq__", "!=": "__ne__", "<": "__lt__", "<=": "__le__", ">": "__gt__", ">=": "__ge__"}
_OPERATORS = (*_COMPARISONS, "in", "not in", "is", "is not")


def of_filters(filters: Filters) -> Predicate:
    """Returns the predicate that filter tuples are.

    PredicateError where a filter is no tuple of three, names no column, has an operator that isn't known, or where there is no filter in a list.
    """
    if not _is_list(filters) or not filters:
        raise PredicateError(f"{shown(filters)} are no filters; expected a list of tuples, or a list of such lists")
    if all(isinstance(it, tuple) for it in filters):
        return _all_of(filters)
    if not all(isinstance(it, list) for it in filters):
        raise PredicateError("tuples and lists stand in one list of filters; expected a list of tuples, or a list of such lists")
    return _joined("or", [_all_of(it) for it in filters])


def _is_list(given: object) -> bool:
    return isinstance(given, (list, tuple)) and not (isinstance(given, tuple) and given and isinstance(given[0], str))


def _all_of(filters: Sequence[Any]) -> Predicate:
    if not filters:
        raise PredicateError("a list of filters is empty; leave it out where every row is wanted")
    return _joined("and", [_one(it) for it in filters])


def _joined(word: str, pieces: list[Predicate]) -> Predicate:
    """Joins pair by pair, so that a long list doesn't nest deep."""
    while len(pieces) > 1:
        pairs = (pieces[place : place + 2] for place in range(0, len(pieces), 2))
        pieces = [pair[0] if len(pair) == 1 else pair[0] & pair[1] if word == "and" else pair[0] | pair[1] for pair in pairs]
    return pieces[0]


def _one(given: Any) -> Predicate:
    if not isinstance(given, tuple) or len(given) != 3 or not isinstance(given[0], str):
        raise PredicateError(f"{shown(given)} is no filter; expected a tuple of a column's name, an operator and a value")
    name, operator, value = given
    if operator not in _OPERATORS:
        raise PredicateError(f"column {name}: {shown(operator)} is no operator; expected one of {', '.join(_OPERATORS)}")
    column = col(name)
    if operator in _COMPARISONS:
        found: Predicate = getattr(column, _COMPARISONS[operator])(_value(name, operator, value))
        return found
    if operator in ("is", "is not"):
        if not _is_null(value):
            raise PredicateError(f"column {name}: {operator} tests for null alone, and {shown(value)} is none")
        return column.is_null() if operator == "is" else column.is_not_null()
    return _within(column, name, operator, value)


def _value(name: str, operator: str, value: Any) -> Any:
    if _is_null(value):
        raise PredicateError(f"column {name}: {operator} with null selects no row; expected 'is' or 'is not' beside None")
    if isinstance(value, (list, tuple, Set, dict)):
        raise PredicateError(f"column {name}: {operator} compares with one value, and {shown(value)} is none; expected 'in' or 'not in' beside it")
    return value


def _within(column: ColumnOf, name: str, operator: str, given: Any) -> Predicate:
    if isinstance(given, (str, bytes, bytearray, dict)) or not isinstance(given, Iterable):
        raise PredicateError(f"column {name}: {operator} takes a list of values, and {shown(given)} is none")
    values = list(given)
    present = [value for value in values if not _is_null(value)]
    # Null is in a list that has it, and not in one that hasn't.
    has_null = len(present) < len(values)
    if operator == "in":
        found = column.is_in(present) if present else None
        either = [it for it in (found, column.is_null() if has_null else None) if it is not None]
        return _joined("or", either) if either else column.is_null() & column.is_not_null()
    others = ~column.is_in(present) if present else None
    if has_null:
        return column.is_not_null() & others if others is not None else column.is_not_null()
    return others | column.is_null() if others is not None else column.is_null() | column.is_not_null()


def _is_null(value: Any) -> bool:
    return value is None or is_missing(value)
