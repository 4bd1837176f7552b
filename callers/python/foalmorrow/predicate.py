# SPDX-License-Identifier: Apache-2.0
"""Predicates, built from columns by Python's operators, and their text in the language of a ``where`` line and in SQL.

>>> columns = [Column("qty", DType.I64, True), Column("name", DType.UTF8)]
>>> wanted = (col("qty") > 9000) & col("name").like("pre%")
>>> wanted.text(columns)
'and gt col qty lit i64? 9000 like col name lit utf8 "pre%"'
>>> print(wanted.sql(columns))
(("qty" > 9000) AND ("name" LIKE 'pre%'))
>>> wanted
qty > 9000 AND name LIKE 'pre%'

A literal has the type of the column that it is compared with. Nothing compares with null: ``is_null`` and ``is_not_null`` test for it.
Python's ``and``, ``or`` and ``not`` can't be given another meaning: ``&``, ``|`` and ``~`` stand for them, with parentheses round comparisons.

Predicates may nest as deep as memory allows: no method takes stack by their depth. Pruning refuses more than 128 levels. A column and a
literal have none, and each other node has one more than its deepest operand. A chain of n conditions joined by ``&``, or by ``|``, takes the
logarithm of n whatever its shape.
"""
from __future__ import annotations

import datetime
import decimal
import re
import uuid
from collections.abc import Callable, Collection, Iterable, Mapping, Sequence
from dataclasses import dataclass, replace
from typing import Any, Literal, NoReturn, TypeVar

from .items import expected, is_missing, plain, shown, value_of
from .kinds import Column, DType
from .spelling import is_name, shown_literal, shown_name, shown_nan
from .types import Float32, Float64

#: A literal: Python's own values, and those of numpy and pandas.
Value = Any
#: What a comparison with NaN means: ``greatest`` that NaN is equal to itself and above all other numbers, as in PostgreSQL, DuckDB and Spark;
#: ``ieee`` that only ``!=`` is true of it, as in ClickHouse and numpy. None leaves both open.
Nan = Literal["greatest", "ieee"] | None
#: The ends of a range that belong to it.
Closed = Literal["both", "left", "right", "neither"]
Columns = dict[str, Column]
Folded = TypeVar("Folded")

_OPERATORS = {"eq": "=", "ne": "<>", "gt": ">", "ge": ">=", "lt": "<", "le": "<="}
_TURNED = {"eq": "ne", "ne": "eq", "gt": "le", "le": "gt", "ge": "lt", "lt": "ge"}
_OTHER = {"and": "or", "or": "and"}


class PredicateError(ValueError):
    """A predicate that names what the table hasn't, compares a column with a value that isn't of its type, or nests too deep.

    >>> (col("qty") > "9").text([Column("qty", DType.U8)])
    Traceback (most recent call last):
    ...
    foalmorrow.predicate.PredicateError: column qty: '9' is no u8; expected a whole number from 0 to 255
    """


class Dialect:
    """How a database spells names, values and patterns: here as SQL and PostgreSQL do."""

    #: Whether AND, OR and NOT tell null from false. Else conditions are spelled without NOT before AND and OR, where it makes no difference.
    has_null = True

    def name(self, column: Column) -> str:
        """Returns the column's name as the database spells it."""
        return '"' + column.name.replace('"', '""') + '"'

    def literal(self, column: Column, value: Value) -> str:
        """Returns a value as a literal. PredicateError where it is none of the column's values."""
        return sql_literal(column, value)

    def like(self, column: Column, pattern: str, negated: bool, ignore_case: bool) -> str:
        """Returns the test whether a text matches a pattern, in which a backslash makes the next character plain."""
        return f"({self.name(column)} {'NOT ' * negated}{'ILIKE' if ignore_case else 'LIKE'} {self.literal(column, pattern)})"


SQL = Dialect()


class Predicate:
    """A condition on a row, that is true, false or null of it. A row is wanted where it is true.

    >>> (col("qty") > 3) & ~col("name").is_null()
    qty > 3 AND (NOT name IS NULL)
    """

    #: Leaves comparisons with numpy's scalars to the predicate.
    __array_ufunc__ = None

    def text(self, columns: Sequence[Column], names: Mapping[str, str] | None = None) -> str:
        """Returns the words of the ``where`` line over these columns, each under its own name or the one that ``names`` gives it.

        PredicateError where the predicate doesn't fit the columns, or one has a name that the language hasn't. A text with a line feed in it
        serves pruning alone: in a file of the program it would end the line.

        >>> (col("qty") > 3).text([Column("qty", DType.U8)])
        'gt col qty lit u8 3'
        """
        known = {column.name: column.physical for column in columns}
        spelled: Callable[[str], str] = names.__getitem__ if names is not None else _own_name
        return " ".join(item if isinstance(item, str) else item._text(known, spelled) for item in self.lowered(columns).prefix())

    def lowered(self, columns: Sequence[Column]) -> Predicate:
        """Returns the same condition over the physical values of columns: their literals as numbers, texts and bytes.

        PredicateError where a literal isn't one of its column's logical type.

        >>> from foalmorrow.types import Timestamp
        >>> (col("at") > "1970-01-01 00:00:12.5").lowered([Column("at", Timestamp("s"))])
        at > 12
        """
        from .lowering import lowered

        return lowered(self, {column.name: column for column in columns})

    def with_nan(self, nan: Nan) -> Predicate:
        """Returns the same condition in which comparisons that don't say what NaN means take this meaning.

        >>> ((col("x") > 1.5) & (col("y") < 2.5)).with_nan("ieee") == ((col("x", nan="ieee") > 1.5) & (col("y", nan="ieee") < 2.5))
        True
        """
        _check_nan(nan)
        is_open = (Compared, Between)
        found = [replace(it, nan=nan) if isinstance(it, is_open) and it.nan is None else it for it in self.prefix()]
        return of_prefix(found)

    def sql(self, columns: Sequence[Column], dialect: Dialect = SQL) -> str:
        """Returns the same as a condition of SQL, in which a chain of AND or of OR stands in one pair of parentheses.

        PredicateError where the predicate doesn't fit the columns.

        >>> (col("qty") > 3).sql([Column("qty", DType.U8)])
        '("qty" > 3)'
        """
        known = {column.name: column for column in columns}

        def leaf(it: Predicate) -> str:
            return it._sql(known, dialect)

        # The dialect knows what NaN means, so that NOT stays where it may make a difference.
        floating = [column.name for column in columns if column.type in (Float32(), Float64())]
        return _infix(self if dialect.has_null else self.without_not(floating), leaf)

    def without_not(self, kept: Collection[str] = ()) -> Predicate:
        """Returns the same predicate without NOT: each comparison under one is turned round, and null stays null.

        Comparisons by order of the columns ``kept`` stay under NOT: of NaN one of them may be false, and its opposite, too.

        >>> (~((col("qty") > 3) | col("name").is_null())).without_not()
        qty <= 3 AND name IS NOT NULL
        """
        found: list[str | Predicate] = []
        pending: list[tuple[Predicate, bool]] = [(self, False)]
        while pending:
            node, turned = pending.pop()
            if isinstance(node, Joined):
                found.append(_OTHER[node.word] if turned else node.word)
                pending += [(node.right, turned), (node.left, turned)]
            elif isinstance(node, Not):
                pending.append((node.of, not turned))
            elif turned and _is_by_order(node) and not set(node.names()).isdisjoint(kept):
                found += ["not", node]
            else:
                found += node._turned().prefix() if turned else [node]
        return of_prefix(found)

    def _turned(self) -> Predicate:
        """Returns this leaf turned round, without NOT."""
        raise NotImplementedError

    def prefix(self) -> list[str | Predicate]:
        """Lists the words ``and``, ``or`` and ``not`` and the leaves, each word before its operands.

        >>> ((col("a") > 3) | (col("b") < 4)).prefix()
        ['or', a > 3, b < 4]
        """
        found: list[str | Predicate] = []
        pending: list[Predicate] = [self]
        while pending:
            node = pending.pop()
            if isinstance(node, Joined):
                found.append(node.word)
                pending += [node.right, node.left]
            elif isinstance(node, Not):
                found.append("not")
                pending.append(node.of)
            else:
                found.append(node)
        return found

    def folded(self, leaf: Callable[[Any], Folded], joined: Callable[[str, Folded, Folded], Folded], turned: Callable[[Folded], Folded]) -> Folded:
        """Returns what the tree comes to by ``leaf`` of each leaf, and by ``joined`` and ``turned`` of what their operands come to.

        >>> ((col("a") > 3) | ~(col("b") < 4)).folded(lambda leaf: 1, lambda word, left, right: left + right, lambda of: of)
        2
        """
        found: list[Folded] = []
        for item in reversed(self.prefix()):
            if isinstance(item, Predicate):
                found.append(leaf(item))
            elif item == "not":
                found.append(turned(found.pop()))
            else:
                found.append(joined(item, found.pop(), found.pop()))
        return found[0]

    def leaves(self) -> list[Predicate]:
        """Lists the conditions that are joined and turned round, from left to right.

        >>> ((col("a") > 3) | ~(col("b") < 4)).leaves()
        [a > 3, b < 4]
        """
        return [item for item in self.prefix() if isinstance(item, Predicate)]

    def names(self) -> list[str]:
        """Lists the columns that are named, from left to right; a column that is named twice stands twice.

        >>> ((col("a") > 3) | (col("b") < col("a"))).names()
        ['a', 'b', 'a']
        """
        return [name for leaf in self.leaves() for name in leaf.names()]

    def _text(self, columns: Columns, spelled: Callable[[str], str]) -> str:
        raise NotImplementedError

    def _sql(self, columns: Columns, dialect: Dialect) -> str:
        raise NotImplementedError

    def _key(self) -> tuple[Any, ...]:
        """Returns what a leaf is told from other leaves by."""
        raise NotImplementedError

    def _keys(self) -> list[Any]:
        return [item if isinstance(item, str) else item._key() for item in self.prefix()]

    def __eq__(self, other: object) -> bool:
        """Tells whether both are the same tree; whether they mean the same isn't asked."""
        if not isinstance(other, Predicate):
            return NotImplemented
        return self._keys() == other._keys()

    def __hash__(self) -> int:
        return hash(tuple(self._keys()))

    def __repr__(self) -> str:
        def leaf(it: Predicate) -> str:
            return it._shown()

        return _infix(self, leaf, self.word if isinstance(self, Joined) else "")

    def _shown(self) -> str:
        raise NotImplementedError

    def __copy__(self) -> Predicate:
        return self

    def __deepcopy__(self, memo: object) -> Predicate:
        return self

    def __and__(self, other: Predicate) -> Predicate:
        return Joined("and", self, _operand("&", other))

    def __or__(self, other: Predicate) -> Predicate:
        return Joined("or", self, _operand("|", other))

    def __rand__(self, other: object) -> NoReturn:
        _operand("&", other)
        raise AssertionError

    def __ror__(self, other: object) -> NoReturn:
        _operand("|", other)
        raise AssertionError

    def __invert__(self) -> Predicate:
        return Not(self)

    def __bool__(self) -> bool:
        raise TypeError(
            "a predicate is no truth by itself: write p & q for p and q, p | q for p or q, ~p for not p, and col(..).between(low, high) for "
            "low <= col(..) <= high"
        )


def _is_by_order(leaf: Predicate) -> bool:
    return isinstance(leaf, Between) or (isinstance(leaf, Compared) and leaf.operator not in ("eq", "ne"))


def _operand(sign: str, other: object) -> Predicate:
    if isinstance(other, Predicate):
        return other
    if isinstance(other, ColumnOf):
        raise TypeError(f"{other!r} is a column and no predicate: write ({other!r} == True), and put comparisons beside {sign} in parentheses")
    what = f"leave out {other}, or write the predicate alone" if isinstance(plain(other), bool) else "put comparisons beside it in parentheses"
    raise TypeError(f"{sign} joins two predicates, and {shown(other)} is none: {what}")


def of_prefix(items: Sequence[str | Predicate]) -> Predicate:
    """Returns the predicate whose ``prefix`` these items are."""
    found: list[Predicate] = []
    for item in reversed(items):
        if isinstance(item, Predicate):
            found.append(item)
        elif item == "not":
            found.append(Not(found.pop()))
        else:
            found.append(Joined(item, found.pop(), found.pop()))
    return found[0]


def _infix(predicate: Predicate, leaf: Callable[[Any], str], outermost: str = "") -> str:
    """Returns the tree as a condition of SQL, without parentheses round a chain that stands in one of the same word."""
    words = {"and": " AND ", "or": " OR ", "not": "(NOT "}
    pieces: list[str] = []
    pending: list[str | tuple[Predicate, str]] = [(predicate, outermost)]
    while pending:
        item = pending.pop()
        if isinstance(item, str):
            pieces.append(item)
            continue
        node, outer = item
        if isinstance(node, Joined):
            inner: list[str | tuple[Predicate, str]] = [(node.left, node.word), words[node.word], (node.right, node.word)]
            pending += reversed(inner if node.word == outer else ["(", *inner, ")"])
        elif isinstance(node, Not):
            pending += [")", (node.of, "not"), words["not"]]
        else:
            pieces.append(leaf(node))
    return "".join(pieces)


@dataclass(frozen=True, eq=False, repr=False)
class Joined(Predicate):
    """Two predicates joined by AND or OR."""

    word: str
    left: Predicate
    right: Predicate

    def __reduce__(self) -> tuple[Any, ...]:
        return of_prefix, (self.prefix(),)


@dataclass(frozen=True, eq=False, repr=False)
class Not(Predicate):
    """A predicate turned round; null stays null."""

    of: Predicate

    def __reduce__(self) -> tuple[Any, ...]:
        return of_prefix, (self.prefix(),)


@dataclass(frozen=True, eq=False, repr=False)
class Constant(Predicate):
    """A condition that is true, false or null of every row."""

    truth: bool | None

    def _text(self, columns: Columns, spelled: Callable[[str], str]) -> str:
        return "lit bool? null" if self.truth is None else f"lit bool {str(self.truth).lower()}"

    def _sql(self, columns: Columns, dialect: Dialect) -> str:
        return self._shown()

    def names(self) -> list[str]:
        return []

    def _turned(self) -> Predicate:
        return Constant(None if self.truth is None else not self.truth)

    def _key(self) -> tuple[Any, ...]:
        return "constant", self.truth

    def _shown(self) -> str:
        return "NULL" if self.truth is None else str(self.truth).upper()


@dataclass(frozen=True, eq=False, repr=False)
class Opaque(Predicate):
    """A condition of which nothing is known: of each row it may be true, false or null."""

    words: str

    def _text(self, columns: Columns, spelled: Callable[[str], str]) -> str:
        raise PredicateError(f"{shown(self.words)} is opaque, and has no words in the language of predicates; prune takes it")

    def _sql(self, columns: Columns, dialect: Dialect) -> str:
        return f"({self.words})"

    def names(self) -> list[str]:
        return []

    def _turned(self) -> Predicate:
        return Opaque(f"NOT ({self.words})")

    def _key(self) -> tuple[Any, ...]:
        return "opaque", self.words

    def _shown(self) -> str:
        return f"({self.words})"


def opaque(words: str) -> Predicate:
    """Returns a condition that the library can't know, by its words in SQL or any others. By it alone no zone is skipped or whole.

    It may name any columns and be false, true or null of each row; two of the same words needn't agree. PredicateError where the words are no str.

    >>> (col("qty") > 9000) & opaque("lower(name) = 'x'")
    qty > 9000 AND (lower(name) = 'x')
    """
    if not isinstance(words, str):
        raise PredicateError(f"{shown(words)} is no condition; expected a str")
    return Opaque(plain(words))


@dataclass(frozen=True, eq=False, repr=False)
class Compared(Predicate):
    """A column compared with a value or with another column."""

    operator: str
    name: str
    other: Value | ColumnOf
    nan: Nan = None

    def _text(self, columns: Columns, spelled: Callable[[str], str]) -> str:
        column = _column(columns, self.name)
        if isinstance(self.other, ColumnOf):
            other = _column(columns, self.other.name)
            if other.dtype != column.dtype:
                raise PredicateError(f"column {column.name} is {column.word}, and column {other.name} is {other.word}")
            return f"{self.operator} col {spelled(self.name)} col {spelled(other.name)}"
        return f"{self.operator} col {spelled(self.name)} {literal(column, self.other)}"

    def _sql(self, columns: Columns, dialect: Dialect) -> str:
        column = _column(columns, self.name)
        if isinstance(self.other, ColumnOf):
            right = dialect.name(_column(columns, self.other.name))
        else:
            right = dialect.literal(column, plain(self.other))
        return f"({dialect.name(column)} {_OPERATORS[self.operator]} {right})"

    def names(self) -> list[str]:
        return [self.name, self.other.name] if isinstance(self.other, ColumnOf) else [self.name]

    def _turned(self) -> Predicate:
        return replace(self, operator=_TURNED[self.operator])

    def _key(self) -> tuple[Any, ...]:
        other = ("column", self.other.name) if isinstance(self.other, ColumnOf) else _told(self.other)
        return "compared", self.operator, self.name, other, self.nan

    def _shown(self) -> str:
        other = shown_name(self.other.name) if isinstance(self.other, ColumnOf) else shown_literal(self.other)
        return f"{shown_name(self.name)} {_OPERATORS[self.operator]} {other}{shown_nan(self.nan)}"


@dataclass(frozen=True, eq=False, repr=False)
class Between(Predicate):
    """A column lies between two values, each included unless its end is strict."""

    name: str
    low: Value
    high: Value
    low_strict: bool
    high_strict: bool
    nan: Nan = None

    def _text(self, columns: Columns, spelled: Callable[[str], str]) -> str:
        column = _column(columns, self.name)
        ends = f"{'<' if self.low_strict else '<='} {'<' if self.high_strict else '<='}"
        return f"between {ends} col {spelled(self.name)} {literal(column, self.low)} {literal(column, self.high)}"

    def _sql(self, columns: Columns, dialect: Dialect) -> str:
        low, high = self.ends().leaves()
        return f"({low._sql(columns, dialect)} AND {high._sql(columns, dialect)})"

    def ends(self) -> Predicate:
        """Returns the two comparisons that it stands for."""
        low = Compared("gt" if self.low_strict else "ge", self.name, self.low, self.nan)
        return low & Compared("lt" if self.high_strict else "le", self.name, self.high, self.nan)

    def names(self) -> list[str]:
        return [self.name]

    def _turned(self) -> Predicate:
        return (~self.ends()).without_not()

    def _key(self) -> tuple[Any, ...]:
        return "between", self.name, _told(self.low), _told(self.high), self.low_strict, self.high_strict, self.nan

    def _shown(self) -> str:
        low, high, nan = shown_literal(self.low), shown_literal(self.high), shown_nan(self.nan)
        if not (self.low_strict or self.high_strict):
            return f"{shown_name(self.name)} BETWEEN {low} AND {high}{nan}"
        name, signs = shown_name(self.name), [">" if self.low_strict else ">=", "<" if self.high_strict else "<="]
        return f"({name} {signs[0]} {low} AND {name} {signs[1]} {high}{nan})"


@dataclass(frozen=True, eq=False, repr=False)
class NullTest(Predicate):
    """A column is null, or isn't."""

    name: str
    wanted: bool

    def _text(self, columns: Columns, spelled: Callable[[str], str]) -> str:
        return f"{'isnull' if self.wanted else 'notnull'} col {spelled(_column(columns, self.name).name)}"

    def _sql(self, columns: Columns, dialect: Dialect) -> str:
        return f"({dialect.name(_column(columns, self.name))} IS {'' if self.wanted else 'NOT '}NULL)"

    def names(self) -> list[str]:
        return [self.name]

    def _turned(self) -> Predicate:
        return NullTest(self.name, not self.wanted)

    def _key(self) -> tuple[Any, ...]:
        return "null", self.name, self.wanted

    def _shown(self) -> str:
        return f"{shown_name(self.name)} IS {'' if self.wanted else 'NOT '}NULL"


@dataclass(frozen=True, eq=False, repr=False)
class Like(Predicate):
    """A text matches a pattern."""

    name: str
    pattern: str
    negated: bool
    ignore_case: bool

    def _column(self, columns: Columns) -> Column:
        column = _column(columns, self.name)
        if column.dtype != DType.UTF8:
            raise PredicateError(f"column {column.name}: {column.word} is no text")
        if not isinstance(self.pattern, str):
            raise PredicateError(f"column {column.name}: {shown(self.pattern)} is no pattern; expected a str")
        return column

    def _text(self, columns: Columns, spelled: Callable[[str], str]) -> str:
        word = ("not" if self.negated else "") + ("ilike" if self.ignore_case else "like")
        return f"{word} col {spelled(self.name)} {literal(self._column(columns), self.pattern)}"

    def _sql(self, columns: Columns, dialect: Dialect) -> str:
        return dialect.like(self._column(columns), self.pattern, self.negated, self.ignore_case)

    def names(self) -> list[str]:
        return [self.name]

    def _turned(self) -> Predicate:
        return Like(self.name, self.pattern, not self.negated, self.ignore_case)

    def _key(self) -> tuple[Any, ...]:
        return "like", self.name, _told(self.pattern), self.negated, self.ignore_case

    def _shown(self) -> str:
        word = f"{'NOT ' * self.negated}{'ILIKE' if self.ignore_case else 'LIKE'}"
        return f"{shown_name(self.name)} {word} {shown_literal(self.pattern)}"


def _told(value: object) -> tuple[Any, ...]:
    """Returns what a literal is told from others by: a number is no truth, NaN is NaN, and what can't be hashed is itself alone."""
    if isinstance(value, float) and value != value:
        return ("nan",)
    if isinstance(value, (float, decimal.Decimal)):
        return type(value), str(value)
    plain_types = (bool, int, str, bytes, uuid.UUID, datetime.date, datetime.datetime, datetime.time)
    if value is None or type(value) in plain_types:
        zone = getattr(value, "tzinfo", None)
        return type(value), value, str(zone)
    if type(value).__module__.partition(".")[0] in ("numpy", "pandas") and not hasattr(value, "__len__"):
        return type(value), str(value)
    return "other", id(value)


def _check_nan(nan: object) -> None:
    if nan not in (None, "greatest", "ieee"):
        raise PredicateError(f"{shown(nan)} is no meaning of NaN; expected 'greatest', 'ieee' or None")


@dataclass(frozen=True, eq=False, repr=False)
class ColumnOf:
    """A column in a predicate, by its name."""

    name: str
    nan: Nan = None

    __array_ufunc__ = None

    def __eq__(self, other: object) -> Predicate:  # type: ignore[override]
        return self._compared("eq", other)

    def __ne__(self, other: object) -> Predicate:  # type: ignore[override]
        return self._compared("ne", other)

    def __gt__(self, other: object) -> Predicate:
        return self._compared("gt", other)

    def __ge__(self, other: object) -> Predicate:
        return self._compared("ge", other)

    def __lt__(self, other: object) -> Predicate:
        return self._compared("lt", other)

    def __le__(self, other: object) -> Predicate:
        return self._compared("le", other)

    def _compared(self, operator: str, other: object) -> Predicate:
        nan = self.nan
        if isinstance(other, ColumnOf) and other.nan is not None and other.nan != nan:
            if nan is not None:
                raise PredicateError(f"{self!r} and {other!r} give NaN two meanings")
            nan = other.nan
        return Compared(operator, self.name, self._literal(other), nan)

    def _literal(self, value: Any) -> Any:
        """Returns a literal as Python's own value. PredicateError where it is null."""
        if value is None or is_missing(value):
            hint = f"write {self!r}.is_null() or {self!r}.is_not_null()"
            raise PredicateError(f"column {self.name}: nothing is equal to null, above it or below it; {hint}")
        return plain(value)

    __hash__ = None  # type: ignore[assignment]

    def __repr__(self) -> str:
        return f"col({self.name!r})" if self.nan is None else f"col({self.name!r}, nan={self.nan!r})"

    def __bool__(self) -> bool:
        raise TypeError(f"{self!r} is a column and no truth: write ({self!r} == True) & .. in a predicate")

    def _is_no_predicate(self, *_: object) -> NoReturn:
        raise TypeError(f"{self!r} is a column and no predicate: write ({self!r} == True), and put comparisons beside & and | in parentheses")

    __and__ = __or__ = __rand__ = __ror__ = __invert__ = _is_no_predicate

    def between(self, low: Value, high: Value, closed: Closed = "both", *, low_strict: bool = False, high_strict: bool = False) -> Predicate:
        """Returns the test that the column lies from ``low`` to ``high``; ``closed`` says which of the two ends belong to it.

        ``low_strict`` and ``high_strict`` leave out an end, too. PredicateError where ``closed`` is none of its four words.

        >>> col("qty").between(1, 9, closed="left")
        (qty >= 1 AND qty < 9)
        """
        if closed not in ("both", "left", "right", "neither"):
            raise PredicateError(f"column {self.name}: {shown(closed)} says nothing of ends; expected 'both', 'left', 'right' or 'neither'")
        strict = low_strict or closed in ("right", "neither"), high_strict or closed in ("left", "neither")
        return Between(self.name, self._literal(low), self._literal(high), *strict, self.nan)

    def is_in(self, values: Iterable[Value]) -> Predicate:
        """Returns the test that the column is one of the values. Of no values it is false of every row, also where the column is null.

        PredicateError where the values are one text or bytes, or one of them is null.

        >>> col("city").is_in(["Bern", "Basel"])
        city = 'Bern' OR city = 'Basel'
        """
        if isinstance(values, (str, bytes, bytearray)):
            raise PredicateError(f"column {self.name}: is_in takes a list of values, and {shown(values)} is one value")
        try:
            items = list(values)
        except (TypeError, NotImplementedError) as fault:
            raise PredicateError(f"column {self.name}: is_in takes a list of values, and {shown(values)} is none") from fault
        found: list[Predicate] = [self == value for value in items]
        if not found:
            return Constant(False)
        while len(found) > 1:
            # Joined pair by pair, so that a long list doesn't nest deep.
            found = [joined_by_or(found[place : place + 2]) for place in range(0, len(found), 2)]
        return found[0]

    def isin(self, values: Iterable[Value]) -> Predicate:
        """Returns what ``is_in`` does, under the name that pandas has for it.

        >>> col("qty").isin([3])
        qty = 3
        """
        return self.is_in(values)

    def is_null(self) -> Predicate:
        """Returns the test that the column is null. NaN isn't.

        >>> col("qty").is_null()
        qty IS NULL
        """
        return NullTest(self.name, True)

    def is_not_null(self) -> Predicate:
        """Returns the test that the column isn't null.

        >>> col("qty").is_not_null()
        qty IS NOT NULL
        """
        return NullTest(self.name, False)

    def like(self, pattern: str, *, negated: bool = False, ignore_case: bool = False) -> Predicate:
        """Returns the test of a text by a pattern: ``%`` is any run of characters, ``_`` any one, ``\\`` makes the next one plain.

        >>> col("name").like("pre%", negated=True)
        name NOT LIKE 'pre%'
        """
        return Like(self.name, plain(pattern), negated, ignore_case)

    def startswith(self, prefix: str) -> Predicate:
        """Returns the test that a text begins with another one. PredicateError where that is no str.

        >>> col("name").startswith("10%")
        name LIKE '10\\%%'
        """
        found = plain(prefix)
        if not isinstance(found, str):
            raise PredicateError(f"column {self.name}: {shown(prefix)} is no text; startswith takes one str")
        return Like(self.name, re.sub(r"([%_\\])", r"\\\1", found) + "%", False, False)


def joined_by_or(pair: Sequence[Predicate]) -> Predicate:
    """Returns the one predicate, or the OR of two."""
    return pair[0] if len(pair) == 1 else pair[0] | pair[1]


def col(name: str, nan: Nan = None) -> ColumnOf:
    """Returns the column of a name, to be compared. PredicateError where the name is no str, or ``nan`` no meaning.

    Of a column of floating numbers ``nan`` says what a comparison with NaN means: ``greatest`` as in PostgreSQL, DuckDB, Spark and the total
    order of Arrow, where NaN is equal to itself and above all other numbers, or ``ieee`` as in ClickHouse and numpy, where of NaN only ``!=``
    is true. Where it isn't said, a zone is skipped or whole only where both meanings agree.

    >>> (col("x", nan="ieee") > 1.5) & (col("day") >= "2026-01-01")
    x > 1.5 /* NaN: ieee */ AND day >= '2026-01-01'
    """
    if not isinstance(name, str):
        raise PredicateError(f"{shown(name)} is no name of a column; expected a str")
    _check_nan(nan)
    return ColumnOf(plain(name), nan)


def _own_name(name: str) -> str:
    if not is_name(name):
        raise PredicateError(f"column {name}: a name in a text is an ASCII letter or _, then letters, digits or _, 64 at most")
    return name


def _column(columns: Columns, name: str) -> Column:
    if name not in columns:
        raise PredicateError(f"the table has no column {name}")
    return columns[name]


def literal(column: Column, value: Value) -> str:
    """Returns a value as a literal of a column's type. PredicateError where it is none of the type's values."""
    if value is None:
        word = column.word if column.dtype == DType.NULL or column.nullable else column.word + "?"
        return f"lit {word} null"
    return f"lit {column.word} {_spelled(column, value)}"


def sql_literal(column: Column, value: Value) -> str:
    """Returns a value as a literal of SQL. PredicateError where it is none of the column's values."""
    if value is None:
        return "NULL"
    if column.logical is not None:
        from .lowering import sql_of_logical

        return sql_of_logical(column, value)
    spelled = _spelled(column, value)
    if column.dtype == DType.UTF8:
        return "'" + str(plain(value)).replace("'", "''") + "'"
    return f"'\\{spelled}'" if column.dtype == DType.BINARY else spelled


def _spelled(column: Column, value: Value) -> str:
    kind, given = column.dtype, plain(value)
    if value_of(kind, given) is None:
        raise PredicateError(f"column {column.name}: {shown(value)} is no {kind.word}; expected {expected(kind)}")
    if kind == DType.BOOL:
        return "true" if given else "false"
    if kind == DType.UTF8:
        return '"' + str(given).replace("\\", "\\\\").replace('"', '\\"') + '"'
    return f"x{given.hex()}" if kind == DType.BINARY else str(given)
