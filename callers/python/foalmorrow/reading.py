# SPDX-License-Identifier: Apache-2.0
"""Reads what a user holds into values and nulls: each container exactly, or a ``ValueFault`` that names the column and the row.

A column may stand in a list, tuple, deque, range, generator or another ordered iterable; in an ``array`` or a buffer; in a numpy array
of one dimension, strided, byte-swapped and masked ones too; in a pandas Series, Index or array, also of categories; in an array or a stream of
Arrow's C Data Interface; in a column of the dataframe interchange protocol; in ``Values``; or in a ``Nullable``.

Nulls are found in the pass that reads the values: None, pandas' NA and NaT, and NaN among objects. Truths are never numbers, and numbers
never truths. Whole numbers of another width are taken where each fits. Floating numbers and times are those of columns of a logical type,
which ``foalmorrow.logical_reading`` reads, and else refused by name.

numpy itself drops zeros at the end of its own texts and bytes (``U`` and ``S``). Where these count, an array of objects keeps them.
"""
from __future__ import annotations

import operator
import struct
import sys
from array import array
from collections.abc import Mapping, Sequence, Set
from dataclasses import dataclass, replace
from itertools import compress
from typing import Any

from .arrays import Packed, ValueFault, Values, ends_of, gathered, of_numbers, of_texts, spaced
from .items import expected, is_missing, is_null, may_be_null, plain, shown, value_of
from .kinds import Column, DType, Logical

try:
    import numpy
except ImportError:
    numpy = None  # type: ignore[assignment]


@dataclass(frozen=True)
class Nullable:
    """Values of a chunk's column with a byte or a truth for each row that is null.

    What stands at a null row isn't read. A None among the values is null too.

    >>> read(DType.I8, Nullable([1, 99], [0, 1]), Where()).nulls
    b'\\x00\\x01'
    """

    values: object
    nulls: object


@dataclass(frozen=True)
class Read:
    """What a container holds: a value for each row, and a byte for each row that is 1 for null.

    ``nulls`` is None where no row is null, of the type null, of which each row is, and of ``Packed`` values, which have their own.
    """

    values: Values
    nulls: bytes | None


@dataclass(frozen=True)
class Where:
    """Names what is read, for the words of a refusal."""

    words: str = ""
    column: str | None = None
    unit: str = "row"
    #: Where the items stand in what the user holds, if some were left out.
    rows: Sequence[int] | None = None

    def fault(self, sentence: str, row: int | None = None) -> ValueFault:
        """Returns the refusal of all values, or of those of a row."""
        if row is not None and self.rows is not None:
            row = int(self.rows[row])
        places = [self.words] * bool(self.words) + ([] if row is None else [f"{self.unit} {row}"])
        return ValueFault(f"{', '.join(places)}: {sentence}" if places else sentence, column=self.column, row=row)

    def misfit(self, dtype: DType | Logical, item: object, row: int) -> ValueFault:
        """Returns the refusal of an item that is no value of a type."""
        return self.fault(f"{shown(item)} is no {dtype.word}; expected {expected(dtype)}", row)


def read_column(column: Column, given: object) -> Read:
    """Reads a chunk's column, or looks at one that is read already.

    ValueFault where an item is no value of the column, null in one that isn't nullable included.
    """
    where = Where(f"column {column.name}", column.name)
    found = given if isinstance(given, Read) else read(column.type, given, where)
    if not column.nullable and isinstance(found.values, Packed) and found.values.null_count:
        found = found.values.unpacked()
    if found.nulls is not None and not column.nullable:
        row = found.nulls.index(1)
        raise where.fault(f"null is no value of {column.word}; expected {expected(column.type)}", row)
    return found


def read(dtype: DType | Logical, given: Any, where: Where) -> Read:
    """Reads a container into values of a type and nulls, those of a logical type as what they are mapped onto.

    ValueFault where an item is neither a value nor null.

    >>> bytes(read(DType.U8, [1, None, 3], Where()).values.data)
    b'\\x01\\x00\\x03'
    """
    marks = None
    if isinstance(given, Nullable):
        given, marks = given.values, _marks(given.nulls, where)
        if isinstance(given, Nullable):
            raise where.fault("a Nullable stands in a Nullable; expected its values")
    if not _is_known(given):
        found = _of_protocols(dtype, given, marks, where)
        if found is not None:
            return found
    # What can be gone through once alone is gone through here, so that its length is known.
    container = given if _is_known(given) else _listed(dtype, given, where)
    if marks is not None and len(marks) != _length(container):
        raise where.fault(f"{_length(container)} values and {len(marks)} marks for null; expected one for each {where.unit}")
    found = read_typed(dtype, container, marks if marks is not None and any(marks) else None, where)
    has_nulls = found.nulls is not None and dtype != DType.NULL and any(found.nulls)
    return found if has_nulls else replace(found, nulls=None)


def _of_protocols(dtype: DType | Logical, given: object, marks: bytes | None, where: Where) -> Read | None:
    """Reads what offers its arrays by a protocol; None where the container offers none."""
    if is_arrow(given):
        from .arrow import read as read_protocol
    elif hasattr(given, "describe_null") and hasattr(given, "get_buffers"):
        from .interchange import read as read_protocol
    else:
        return None
    if marks is not None:
        raise where.fault("the array has nulls of its own; expected it without a Nullable")
    return read_protocol(dtype, given, where)


def is_arrow(given: object) -> bool:
    """Tells whether a container is read as an array or a stream of Arrow."""
    return not _is_known(given) and any(hasattr(given, name) for name in ("__arrow_c_array__", "__arrow_c_stream__", "arrow_structs"))


def _is_known(given: object) -> bool:
    return isinstance(given, (list, Values, array)) or is_numpy(given) or is_pandas(given) or _view(given) is not None


def _length(container: Any) -> int:
    shaped = container if hasattr(container, "ndim") else _view(container)
    return len(container) if shaped is None or shaped.ndim else 0


def read_typed(dtype: DType | Logical, given: Any, marks: bytes | None, where: Where) -> Read:
    """Reads a container that isn't a Nullable. ValueFault where an item is neither a value nor null or marked."""
    if isinstance(dtype, Logical):
        from .logical_reading import read_logical

        return read_logical(dtype, given, marks, where)
    if isinstance(given, Values):
        if given.dtype != dtype:
            raise where.fault(f"values of {given.dtype.word} are no {dtype.word}; expected {expected(dtype)}")
        return Read(given, marks)
    if isinstance(given, list):
        return _of_items(dtype, given, marks, where)
    if is_pandas(given):
        return _of_pandas(dtype, given, marks, where)
    if is_numpy(given):
        return _of_numpy(dtype, given, marks, where)
    if isinstance(given, array):
        return _of_array(dtype, given, marks, where)
    return _of_buffer(dtype, given, marks, where)


def _marks(nulls: Any, where: Where) -> bytes:
    """Reads which rows are null: truths, or numbers that are 0 for a value."""
    if isinstance(nulls, (bytes, bytearray)):
        return bytes(map(bool, nulls))
    of_nulls = replace(where, words=f"{where.words}, nulls" if where.words else "nulls")
    if is_pandas(nulls):
        if nulls.ndim != 1:
            raise of_nulls.fault("a frame has 2 dimensions; expected one")
        nulls = nulls.to_numpy() if isinstance(nulls.dtype, numpy.dtype) else list(nulls)
    if is_numpy(nulls):
        if nulls.ndim != 1 or nulls.dtype.kind not in "biuO":
            raise of_nulls.fault(f"an array of {nulls.dtype} in {nulls.ndim} dimensions; expected truths or bytes in one")
        if nulls.dtype.kind != "O" and not isinstance(nulls, numpy.ma.MaskedArray):
            return bytes((nulls != 0).tobytes())
        nulls = nulls.tolist()
    view = _view(nulls)
    items = _unpacked(view, of_nulls) if view is not None else _listed(DType.BOOL, nulls, of_nulls)
    for row, item in enumerate(items):
        if not isinstance(plain(item), int):
            raise of_nulls.fault(f"{shown(item)} doesn't say whether a value is null; expected True or False, or a byte", row)
    return bytes(map(bool, items))


# -- items one by one


def _listed(dtype: DType | Logical, given: Any, where: Where) -> list[Any]:
    """Lists the items of an iterable that has an order."""
    if isinstance(given, (str, Mapping, Set)):
        raise where.fault(f"{shown(given)} is no column; expected a list of {dtype.word} or another container with an order")
    if isinstance(given, list):
        return given
    try:
        items = iter(given)
    except TypeError:
        raise where.fault(f"{shown(given)} is no column; expected a list of {dtype.word} or another container") from None
    return list(items)


_TYPES = {DType.BOOL: bool, DType.UTF8: str, DType.BINARY: bytes}


def _of_items(dtype: DType, items: list[Any], marks: bytes | None, where: Where) -> Read:
    nulls = nulls_of(items, marks)
    if dtype == DType.NULL:
        row = (nulls if nulls is not None else bytes(len(items))).find(0)
        if row >= 0:
            raise where.misfit(dtype, items[row], row)
        return Read(Values(dtype, memoryview(b""), memoryview(b""), len(items)), None)
    present = items if nulls is None else list(compress(items, map(operator.not_, nulls)))
    values = _of_ascii(present) if dtype == DType.UTF8 else None
    if values is None:
        found = _of_plain(dtype, present)
        if found is None:
            rows = range(len(items)) if nulls is None else [row for row, null in enumerate(nulls) if not null]
            found = _one_by_one(dtype, present, replace(where, rows=rows))
        values = of_texts(dtype, found) if dtype.has_ends else of_numbers(dtype, found)
    return Read(values if nulls is None else spaced(values, nulls), nulls)


def _of_ascii(items: list[Any]) -> Values | None:
    """Returns texts of ASCII alone at once, which have a byte for each character; None where an item is anything else."""
    if set(map(type, items)) != {str}:
        return None
    joined = "".join(items)
    return Values(DType.UTF8, memoryview(joined.encode()), ends_of(items), len(items)) if joined.isascii() else None


def nulls_of(items: list[Any], marks: bytes | None, keep_nan: bool = False) -> bytes | None:
    """Returns 1 for each item that is marked or null, and else 0; None where there is none. A floating NaN is null unless it is kept."""
    odd = {kind for kind in set(map(type, items)) if may_be_null(kind) and not (keep_nan and kind is float)}
    if not odd:
        return marks
    if odd == {type(None)}:
        found = bytes([item is None for item in items])
        return found if marks is None else bytes(map(operator.or_, found, marks))
    test = (lambda item: item is None or is_missing(item)) if keep_nan else is_null
    found = bytes(type(item) in odd and test(item) for item in items)
    if marks is not None:
        found = bytes(map(operator.or_, found, marks))
    return found if any(found) else None


def _of_plain(dtype: DType, items: list[Any]) -> list[Any] | None:
    """Returns items of the type's own Python type at once, texts as UTF-8; None where one is of another type or leaves the range."""
    if not {_TYPES.get(dtype, int)} >= set(map(type, items)):
        return None
    if dtype == DType.UTF8:
        try:
            return [item.encode() for item in items]
        except UnicodeEncodeError:
            return None
    is_out = dtype.range is not None and items and not (dtype.range[0] <= min(items) and max(items) <= dtype.range[1])
    return None if is_out else items


def _one_by_one(dtype: DType, items: list[Any], where: Where) -> list[Any]:
    found = [value_of(dtype, item) for item in items]
    for row, value in enumerate(found):
        if value is None:
            raise where.misfit(dtype, items[row], row)
    return found


# -- buffers

_WHOLE = "bBhHiIlLqQnN"


def _view(given: Any) -> memoryview | None:
    try:
        return memoryview(given)
    except (TypeError, BufferError, ValueError):
        return None


def _of_array(dtype: DType, given: array[Any], marks: bytes | None, where: Where) -> Read:
    if given.typecode not in _WHOLE:
        raise where.fault(f"an array of form {given.typecode!r} is no {dtype.word}; expected {expected(dtype)}")
    if numpy is not None:
        return _of_numpy(dtype, numpy.asarray(given), marks, where)
    view = memoryview(given)
    return _of_own_buffer(dtype, view, marks) if _has_form(dtype, view) else _of_items(dtype, list(given), marks, where)


def _of_buffer(dtype: DType, given: Any, marks: bytes | None, where: Where) -> Read:
    """Reads a buffer, whose items have to be of the type itself: bytes alone don't say of what numbers they are."""
    view = memoryview(given)
    if dtype.has_ends:
        raise where.fault(f"one {type(given).__name__} is no column of {dtype.word}; expected a list, or Values.of_heap")
    if view.ndim != 1:
        raise where.fault(f"the values have {view.ndim} dimensions; expected one")
    if not _has_form(dtype, view):
        raise where.fault(f"items of form {view.format!r} are no {dtype.word}; expected a buffer of {dtype.word}, as memoryview.cast makes it")
    if view.c_contiguous and view.format[0] not in ">!":
        return _of_own_buffer(dtype, view, marks)
    return _of_items(dtype, _unpacked(view, where), marks, where)


def _has_form(dtype: DType, view: memoryview) -> bool:
    code = view.format.lstrip("@=<>!")
    if dtype == DType.BOOL:
        return code == "?"
    return dtype.range is not None and len(code) == 1 and code in _WHOLE and view.itemsize == dtype.width and code.islower() == (dtype >= DType.I8)


def _of_own_buffer(dtype: DType, view: memoryview, marks: bytes | None) -> Read:
    data = view.cast("B") if view.nbytes else memoryview(b"")
    return Read(Values(dtype, data, memoryview(b""), len(view)), marks)


def _unpacked(view: memoryview, where: Where) -> list[Any]:
    """Lists the items of a buffer of whole numbers or truths in any order of bytes."""
    order, code = view.format[0] if view.format[0] in "@=<>!" else "@", view.format.lstrip("@=<>!")
    if view.ndim != 1 or len(code) != 1 or code not in _WHOLE + "?":
        raise where.fault(f"items of form {view.format!r} in {view.ndim} dimensions; expected whole numbers or truths in one")
    return list(struct.unpack(f"{order}{len(view)}{code}", view.tobytes()))


# -- numpy


def is_numpy(given: object) -> bool:
    """Tells whether a container is an array of numpy or one of its scalars."""
    return numpy is not None and isinstance(given, (numpy.ndarray, numpy.generic))


def _of_numpy(dtype: DType, given: Any, marks: bytes | None, where: Where) -> Read:
    given, marks = unmasked(given, marks, where)
    kind = given.dtype.kind
    if kind in "OUS":
        return _of_items(dtype, given.tolist(), marks, where)
    if kind in ("b" if dtype == DType.BOOL else "iu") and not dtype.has_ends and dtype != DType.NULL:
        return Read(_numbers(dtype, given, marks, where), marks)
    raise where.fault(f"an array of {given.dtype} is no {dtype.word}; {_advice(dtype, given.dtype)}")


def unmasked(given: Any, marks: bytes | None, where: Where) -> tuple[Any, bytes | None]:
    """Returns an array of one dimension without its mask, and which rows are marked or masked."""
    if given.ndim != 1:
        what = "one value" if given.ndim == 0 else f"values in {given.ndim} dimensions"
        raise where.fault(f"an array of {what}; expected one dimension")
    if not isinstance(given, numpy.ma.MaskedArray):
        return given, marks
    masked = numpy.ma.getmaskarray(given)  # type: ignore[no-untyped-call]
    return given.data, _either(marks, masked) if masked.dtype == bool and masked.any() else marks


def _either(marks: bytes | None, masked: Any) -> bytes:
    found = masked if marks is None else masked | numpy.frombuffer(marks, dtype=bool)
    return bytes(found.tobytes())


def _numbers(dtype: DType, given: Any, marks: bytes | None, where: Where) -> Values:
    own = numpy.dtype("?" if dtype == DType.BOOL else f"<{'u' if dtype <= DType.U64 else 'i'}{dtype.width}")
    if dtype.range is not None and not numpy.can_cast(given.dtype, own):
        outside, held = numpy.zeros(len(given), bool), numpy.iinfo(given.dtype)
        # A bound that no number of the array's type can leave isn't compared: it may be none of the type itself.
        if held.min < dtype.range[0]:
            outside |= given < dtype.range[0]
        if held.max > dtype.range[1]:
            outside |= given > dtype.range[1]
        if marks is not None:
            outside &= numpy.frombuffer(marks, dtype=numpy.uint8) == 0
        if outside.any():
            row = int(outside.argmax())
            raise where.misfit(dtype, int(given[row]), row)
    data = numpy.ascontiguousarray(given.astype(own, copy=False))
    return Values(dtype, data.view(numpy.uint8).data, memoryview(b""), len(data))


def _advice(dtype: DType, kind: Any) -> str:
    letter = getattr(kind, "kind", "")
    if letter == "f":
        return f"expected {expected(dtype)}: declare the column Float32() or Float64(), or cast them, with nulls apart in a Nullable"
    if letter in ("M", "m"):
        return f"expected {expected(dtype)}: declare the column Date() or Timestamp(..), or hand in .view('i8') as i64, with NaT apart in a Nullable"
    return f"expected {expected(dtype)}"


# -- pandas


def is_pandas(given: object) -> bool:
    """Tells whether a container is one of pandas'."""
    pandas = sys.modules.get("pandas")
    if pandas is None or not hasattr(pandas, "api"):
        return False
    return isinstance(given, (pandas.Series, pandas.Index, pandas.DataFrame, pandas.api.extensions.ExtensionArray))


def _of_pandas(dtype: DType, given: Any, marks: bytes | None, where: Where) -> Read:
    import pandas

    if isinstance(given, pandas.DataFrame):
        raise where.fault("a frame has 2 dimensions; expected one")
    given = as_series(given)
    kind = given.dtype
    if isinstance(kind, numpy.dtype):
        return _of_numpy(dtype, given.to_numpy(), marks, where)
    held = given.array if isinstance(given, (pandas.Series, pandas.Index)) else given
    if isinstance(held, (pandas.arrays.IntegerArray, pandas.arrays.BooleanArray)):
        return of_masked(dtype, held, marks, where)
    if isinstance(kind, pandas.CategoricalDtype):
        return of_categories(dtype, held, marks, where)
    if isinstance(held, (pandas.arrays.FloatingArray, pandas.arrays.DatetimeArray)):
        raise where.fault(f"values of pandas' type {kind} are no {dtype.word}; {_advice(dtype, kind)}")
    # Texts, and types that a user or another package has made: by their items.
    return _of_items(dtype, numpy.asarray(held, dtype=object).tolist(), marks, where)


def as_series(given: Any) -> Any:
    """Returns a sparse array of pandas, and one that pandas holds by numpy's, as a Series with all items; another container of pandas as it is."""
    import pandas

    if isinstance(given, getattr(pandas.arrays, "NumpyExtensionArray", None) or pandas.arrays.PandasArray):
        return pandas.Series(given.to_numpy())
    # An index of several levels has no single array.
    is_single = isinstance(given, (pandas.Series, pandas.Index)) and not isinstance(given, pandas.MultiIndex)
    held = given.array if is_single else given
    if not isinstance(held, pandas.arrays.SparseArray):
        return given
    items = numpy.asarray(held)
    # A filler of another type would have numpy round the values to a type that holds both.
    return pandas.Series(items if items.dtype == held.dtype.subtype else numpy.asarray(held, dtype=object))


def of_categories(dtype: DType | Logical, held: Any, marks: bytes | None, where: Where) -> Read:
    """Reads a column of pandas' categories as the values that they stand for."""
    codes = numpy.asarray(held.codes).astype("<i8")
    there = codes >= 0
    if marks is not None:
        there &= numpy.frombuffer(marks, dtype=numpy.uint8) == 0
    # A category that isn't a value of the type is refused where it stands in a row.
    used, first, places = used_places(codes, there, len(held.categories))
    values = read(dtype, held.categories.take(used) if len(used) else [], replace(where, rows=first)).values
    return Read(gathered(values, places), None if there.all() else (~there).tobytes())


def used_places(codes: Any, there: Any, count: int) -> tuple[Any, Any, Any]:
    """Returns which of ``count`` categories are used, the first row of each, and each row's place among those that are, -1 for a null."""
    rows = numpy.flatnonzero(there)
    first = numpy.full(count, -1, "<i8")
    # Of two rows of one category the one that is written last stays: the first row.
    first[codes[rows[::-1]]] = rows[::-1]
    used = numpy.flatnonzero(first >= 0)
    among = numpy.cumsum(first >= 0) - 1
    places = numpy.full(len(codes), -1, "<i8")
    places[rows] = among[codes[rows]]
    return used, first[used], places


def of_masked(dtype: DType | Logical, held: Any, marks: bytes | None, where: Where) -> Read:
    """Reads pandas' numbers or truths with nulls."""
    masked = numpy.asarray(held.isna())
    nulls = _either(marks, masked) if masked.any() else marks
    # The marks may leave out rows that hold a value.
    there = ~masked if nulls is None else numpy.frombuffer(nulls, dtype=numpy.uint8) == 0
    present = held[there].to_numpy(dtype=held.dtype.numpy_dtype)
    values = read_typed(dtype, present, None, replace(where, rows=numpy.flatnonzero(there))).values
    return Read(values if nulls is None else spaced(values, nulls), nulls)
