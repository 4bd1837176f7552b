# SPDX-License-Identifier: Apache-2.0
"""Names and literals for readers, as SQL spells them without a table at hand."""
from __future__ import annotations

import datetime
import decimal
import itertools
import re
import uuid
from typing import Any

from .items import shown

#: A name of a column in the language of predicates.
_NAME = re.compile(r"[A-Za-z_][A-Za-z0-9_]{0,63}")


def is_name(name: object) -> bool:
    """Tells whether the language of predicates takes the name of a column.

    >>> is_name("qty"), is_name("a b")
    (True, False)
    """
    return isinstance(name, str) and _NAME.fullmatch(name) is not None


def unnamed(text: str) -> str:
    """Returns a name that the language takes and that doesn't stand in a text.

    >>> unnamed("_0 > 3")
    '_1'
    """
    return next(name for name in map("_{}".format, itertools.count()) if name not in text)


def shown_name(name: str) -> str:
    """Returns the name of a column, between quotes where it isn't one word.

    >>> shown_name("qty"), shown_name("a b")
    ('qty', '"a b"')
    """
    return name if is_name(name) else '"' + name.replace('"', '""') + '"'


def shown_nan(nan: str | None) -> str:
    """Returns what NaN means as a comment of SQL; nothing where it isn't said.

    >>> shown_nan("ieee")
    ' /* NaN: ieee */'
    """
    return "" if nan is None else f" /* NaN: {nan} */"


def shown_literal(value: Any) -> str:
    """Returns a literal as SQL has it, and what is none as Python shows it.

    >>> shown_literal("it's"), shown_literal(datetime.date(2026, 1, 2))
    ("'it''s'", "DATE '2026-01-02'")
    """
    if value is None or isinstance(value, bool):
        return "NULL" if value is None else str(value).upper()
    if isinstance(value, str) and len(value) <= 60:
        return "'" + value.replace("'", "''") + "'"
    if isinstance(value, bytes) and len(value) <= 60:
        return f"X'{value.hex()}'"
    for kind, word in ((datetime.datetime, "TIMESTAMP"), (datetime.date, "DATE"), (datetime.time, "TIME"), (uuid.UUID, "UUID")):
        if isinstance(value, kind):
            return f"{word} '{value}'"
    return str(value) if isinstance(value, decimal.Decimal) else shown(value)
