# SPDX-License-Identifier: Apache-2.0
"""Single items of a column and single literals: which of them are null, which are values of a type, and how a refusal shows one.

numpy's and pandas' own nulls and scalars are known where those packages are loaded; neither is needed.
"""
from __future__ import annotations

import reprlib
import sys
from typing import Any

from .kinds import DType, Logical

try:
    import numpy
except ImportError:
    numpy = None  # type: ignore[assignment]


def is_null(item: object) -> bool:
    """Tells whether an item of a column is null: None, pandas' NA and NaT, numpy's masked item and NaT, or a floating NaN."""
    if item is None or is_missing(item):
        return True
    floating = isinstance(item, float) or (numpy is not None and isinstance(item, numpy.floating))
    return floating and bool(item != item)


def may_be_null(kind: type) -> bool:
    """Tells whether an item of a type may be null."""
    pandas = sys.modules.get("pandas")
    if kind is type(None) or issubclass(kind, float):
        return True
    if pandas is not None and kind in (type(getattr(pandas, "NA", 0)), type(getattr(pandas, "NaT", 0))):
        return True
    return numpy is not None and issubclass(kind, (numpy.floating, numpy.datetime64, numpy.timedelta64, numpy.ma.MaskedArray))


def is_missing(item: object) -> bool:
    """Tells whether an item is a null of pandas or numpy by its kind. A floating NaN isn't."""
    pandas = sys.modules.get("pandas")
    if pandas is not None and (item is getattr(pandas, "NA", pandas) or item is getattr(pandas, "NaT", pandas)):
        return True
    if numpy is None:
        return False
    return item is numpy.ma.masked or (isinstance(item, (numpy.datetime64, numpy.timedelta64)) and bool(numpy.isnat(item)))


def plain(item: Any) -> Any:
    """Returns Python's own value of a numpy scalar, of a bytearray, and of what is a number or a text by inheritance; else the item."""
    if item is None or type(item) in (bool, int, str, bytes):
        return item
    if isinstance(item, str):
        return str.__str__(item)
    if isinstance(item, (bytes, bytearray)):
        return bytes(item)
    if isinstance(item, int):
        return int(item)
    if numpy is not None:
        if isinstance(item, numpy.bool_):
            return bool(item)
        # A span of time is a number by numpy's classes, and none of a column here.
        if isinstance(item, numpy.integer) and not isinstance(item, numpy.timedelta64):
            return int(item)
    return item


def expected(dtype: DType | Logical) -> str:
    """Returns the words for the values of a type."""
    if isinstance(dtype, Logical):
        return dtype.expected
    if dtype.range is not None:
        return f"a whole number from {dtype.range[0]} to {dtype.range[1]}"
    return {DType.NULL: "null alone", DType.BOOL: "True or False", DType.UTF8: "a str", DType.BINARY: "bytes"}[dtype]


def value_of(dtype: DType, item: object) -> bool | int | bytes | None:
    """Returns an item as a value of a type, a text by its UTF-8; None where it is no value of the type."""
    value = plain(item)
    if dtype == DType.BOOL:
        return value if isinstance(value, bool) else None
    if dtype.range is not None:
        is_number = isinstance(value, int) and not isinstance(value, bool)
        return value if is_number and dtype.range[0] <= value <= dtype.range[1] else None
    if dtype == DType.BINARY:
        return value if isinstance(value, bytes) else None
    if dtype == DType.UTF8 and isinstance(value, str):
        try:
            return value.encode()
        except UnicodeEncodeError:
            return None
    return None


class _Short(reprlib.Repr):
    def __init__(self) -> None:
        super().__init__()
        self.maxstring = self.maxother = self.maxlong = 60


def shown(item: object) -> str:
    """Returns an item for a sentence, cut to some 60 characters; its type where it can't be shown."""
    try:
        return _Short().repr(item)
    except Exception:  # noqa: BLE001  whatever an item's own repr raises
        return f"a value of type {type(item).__name__}"
