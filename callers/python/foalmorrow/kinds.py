# SPDX-License-Identifier: Apache-2.0
"""Types of columns, kinds of statistics, how a value of one is known, and answers, by the numbers that the library takes."""
from __future__ import annotations

import enum
from dataclasses import dataclass
from typing import Any


class DType(enum.IntEnum):
    """The type of a column's values, nullability aside.

    >>> DType.I64.word, DType.I8.range, DType.UTF8.has_ends
    ('i64', (-128, 127), True)
    """

    NULL = 0
    BOOL = 1
    U8 = 2
    U16 = 3
    U32 = 4
    U64 = 5
    I8 = 6
    I16 = 7
    I32 = 8
    I64 = 9
    UTF8 = 10
    BINARY = 11

    @property
    def word(self) -> str:
        """The type's word in the language of predicates, as ``i64``."""
        return self.name.lower()

    @property
    def width(self) -> int:
        """How many bytes a value takes in an array; 0 for null, and for texts and bytes, which have ends beside them."""
        return _WIDTHS[self]

    @property
    def has_ends(self) -> bool:
        """Whether values are texts or bytes: one heap of bytes, with where each value ends."""
        return self in (DType.UTF8, DType.BINARY)

    @property
    def range(self) -> tuple[int, int] | None:
        """The least and the greatest number of the type, or None where it has no numbers."""
        if not DType.U8 <= self <= DType.I64:
            return None
        bits = 8 * self.width
        return (0, 2**bits - 1) if self <= DType.U64 else (-(2 ** (bits - 1)), 2 ** (bits - 1) - 1)


_WIDTHS = {
    DType.NULL: 0,
    DType.BOOL: 1,
    DType.U8: 1,
    DType.U16: 2,
    DType.U32: 4,
    DType.U64: 8,
    DType.I8: 1,
    DType.I16: 2,
    DType.I32: 4,
    DType.I64: 8,
    DType.UTF8: 0,
    DType.BINARY: 0,
}


class Stat(enum.IntEnum):
    """The kinds of statistics, by the format's numbers.

    >>> Stat(4).name
    'MIN'
    """

    IS_CONSTANT = 0
    IS_SORTED = 1
    IS_STRICT_SORTED = 2
    MAX = 3
    MIN = 4
    SUM = 5
    NULL_COUNT = 6
    UNCOMPRESSED_SIZE_IN_BYTES = 7


class Precision(enum.IntEnum):
    """How a statistic's value is known.

    >>> [it.name for it in Precision]
    ['ABSENT', 'EXACT', 'INEXACT']
    """

    ABSENT = 0
    EXACT = 1
    INEXACT = 2


class Answer(enum.IntEnum):
    """What to do with a zone under a predicate.

    >>> [it.name for it in Answer]
    ['READ', 'SKIP', 'WHOLE']
    """

    #: Rows of it may satisfy the predicate and others may not: read it and test them.
    READ = 0
    #: No row of it satisfies the predicate.
    SKIP = 1
    #: Every row of it satisfies the predicate.
    WHOLE = 2


class Logical:
    """A type of values that stand as values of a physical type, in their own order. ``foalmorrow.types`` has them all.

    >>> from foalmorrow import Date
    >>> Date().dtype.name, Date().word
    ('I32', 'date')
    """

    #: The physical type onto whose values those of this one are mapped.
    dtype: DType
    #: Whether the sum of the mapped values is the sum of the values.
    has_sum = False
    #: Whether anything but a value's being null is known by the mapped values.
    has_values = True

    @property
    def field(self) -> tuple[int, int, int, int] | None:
        """The kind, the unit, the digits and those behind the point by which the library knows the type in SQL; None of one that it doesn't know.

        >>> from foalmorrow import Decimal, Uuid
        >>> Decimal(5, 2).field, Uuid().field
        ((16, 0, 5, 2), None)
        """
        return None

    @property
    def word(self) -> str:
        """Returns the type's word, as ``timestamp[us, UTC]``; ``foalmorrow.types.of_word`` reads it."""
        raise NotImplementedError

    @property
    def expected(self) -> str:
        """Returns the words for the values that a column takes."""
        raise NotImplementedError

    def stored(self, item: Any) -> int | bytes | None:
        """Returns an item of a container as a value of the physical type, a text by its UTF-8; None where it is no value of the type.

        >>> from foalmorrow import Decimal
        >>> Decimal(5, 2).stored("1.5"), Decimal(5, 2).stored("1.005")
        (150, None)
        """
        raise NotImplementedError

    def shown(self, value: Any) -> Any:
        """Returns a value of the physical type as what it means.

        >>> from foalmorrow import Decimal
        >>> Decimal(5, 2).shown(150)
        Decimal('1.50')
        """
        raise NotImplementedError


@dataclass(frozen=True, init=False, repr=False)
class Column:
    """A column of a table: its name, its type, and whether null is a value of it.

    The type is a physical one, or a logical one of ``foalmorrow.types``, which brings its physical type along.

    >>> Column("qty", DType.I64, True).dtype.name
    'I64'
    """

    name: str
    #: The physical type.
    dtype: DType
    nullable: bool
    #: The logical type; None where the physical one is all that is meant.
    logical: Logical | None

    def __init__(self, name: str, dtype: DType | Logical, nullable: bool = False):
        is_logical = isinstance(dtype, Logical)
        fields = (name, dtype.dtype if isinstance(dtype, Logical) else dtype, nullable, dtype if is_logical else None)
        for field, value in zip(("name", "dtype", "nullable", "logical"), fields):
            object.__setattr__(self, field, value)

    def __repr__(self) -> str:
        return f"Column({self.name!r}, {self.logical or self.dtype!r}, {self.nullable!r})"

    @property
    def type(self) -> DType | Logical:
        """Returns the logical type where there is one, and else the physical one."""
        return self.logical if self.logical is not None else self.dtype

    @property
    def word(self) -> str:
        """Returns the type's word, as ``i64?`` or ``timestamp[us, UTC]?``."""
        return self.type.word + ("?" if self.nullable and self.type != DType.NULL else "")

    @property
    def field(self) -> tuple[int, int, int, int] | None:
        """Returns the kind, the unit, the digits and those behind the point by which the library knows the column in SQL, if it does.

        >>> Column("qty", DType.I64).field
        (9, 0, 0, 0)
        """
        return (int(self.dtype), 0, 0, 0) if self.logical is None else self.logical.field

    @property
    def physical(self) -> Column:
        """Returns the same column under its physical type alone."""
        return self if self.logical is None else Column(self.name, self.dtype, self.nullable)


def stat_dtype(stat: Stat, dtype: DType | Logical) -> DType | None:
    """Returns the physical type of a statistic's values for a column of this type, or None where the column has no such statistic.

    >>> stat_dtype(Stat.SUM, DType.I8).name, stat_dtype(Stat.SUM, DType.UTF8)
    ('I64', None)
    """
    if isinstance(dtype, Logical):
        is_without = (stat == Stat.SUM and not dtype.has_sum) or not (dtype.has_values or stat == Stat.NULL_COUNT)
        return None if is_without else stat_dtype(stat, dtype.dtype)
    if stat in (Stat.MAX, Stat.MIN):
        return None if dtype == DType.NULL else dtype
    if stat == Stat.SUM:
        if dtype == DType.BOOL or DType.U8 <= dtype <= DType.U64:
            return DType.U64
        return DType.I64 if DType.I8 <= dtype <= DType.I64 else None
    if stat in (Stat.NULL_COUNT, Stat.UNCOMPRESSED_SIZE_IN_BYTES):
        return DType.U64
    return DType.BOOL
