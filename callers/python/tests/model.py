# SPDX-License-Identifier: Apache-2.0
"""What a predicate is of a row, by the tree itself: three truths, and an opaque condition as one of them."""
from __future__ import annotations

import operator
from collections.abc import Callable, Mapping
from typing import Any

from foalmorrow.predicate import Between, ColumnOf, Compared, Constant, NullTest, Opaque, Predicate

Truth = bool | None


def truth(predicate: Predicate, row: Mapping[str, Any], opaque: Truth = None) -> Truth:
    """Returns what a predicate over physical values is of a row where each opaque condition is ``opaque``."""

    def leaf(it: Predicate) -> Truth:
        return _leaf(it, row, opaque)

    def joined(word: str, left: Truth, right: Truth) -> Truth:
        decides = word == "or"
        return decides if decides in (left, right) else None if None in (left, right) else not decides

    return predicate.folded(leaf, joined, lambda it: None if it is None else not it)


def _leaf(leaf: Predicate, row: Mapping[str, Any], opaque: Truth) -> Truth:
    if isinstance(leaf, Between):
        return truth(leaf.ends(), row, opaque)
    if isinstance(leaf, NullTest):
        return (row[leaf.name] is None) == leaf.wanted
    if isinstance(leaf, (Constant, Opaque)):
        return leaf.truth if isinstance(leaf, Constant) else opaque
    assert isinstance(leaf, Compared)
    other = row[leaf.other.name] if isinstance(leaf.other, ColumnOf) else leaf.other
    compare: Callable[[Any, Any], bool] = getattr(operator, leaf.operator)
    return None if row[leaf.name] is None or other is None else compare(row[leaf.name], other)


def may_be(predicate: Predicate, row: Mapping[str, Any]) -> set[Truth]:
    """Returns what a predicate may be of a row, whatever its opaque conditions are."""
    return {truth(predicate, row, it) for it in (True, False, None)}
