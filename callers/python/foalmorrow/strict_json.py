# SPDX-License-Identifier: Apache-2.0
"""JSON as logs and metadata hold it: read exactly, or refused in words, whatever the bytes are.

Whole numbers are ``int`` and other numbers ``Decimal``, so that no digit is lost. A field that stands twice, ``NaN`` and ``Infinity`` as bare
words, a byte order mark and bytes that aren't UTF-8 are refused.
"""
from __future__ import annotations

import json
from decimal import Decimal
from typing import Any

from .items import shown

#: Digits of the longest number that is read. The longest of a real log are those of a double of some 310 digits.
_DIGITS = 400


class JsonFault(ValueError):
    """Bytes that are no JSON, or JSON that says what can't be."""


def parsed(data: bytes | str, place: str) -> Any:
    """Returns the value that a JSON text holds, which stands at a place.

    >>> parsed('{"a": 1.10, "b": [null, 9007199254740993]}', "here")
    {'a': Decimal('1.10'), 'b': [None, 9007199254740993]}

    JsonFault where it isn't JSON, a field stands twice, a number has more than 400 digits, or objects nest too deep for Python's own reader.
    """
    try:
        text = data if isinstance(data, str) else data.decode()
        return json.loads(text, object_pairs_hook=_once, parse_int=_whole, parse_float=_real, parse_constant=_none)
    except RecursionError:
        raise JsonFault(f"{place}: objects nest too deep") from None
    except UnicodeDecodeError as fault:
        raise JsonFault(f"{place}: byte {fault.start} isn't UTF-8") from None
    except ValueError as fault:
        raise JsonFault(f"{place}: {fault if isinstance(fault, JsonFault) else f'this is no JSON: {fault}'}") from None


_MISSING: Any = object()


def field(fields: dict[str, Any], name: str, kinds: type | tuple[type, ...], place: str, default: Any = _MISSING) -> Any:
    """Returns a field of an object, which is of one of the kinds. One that isn't there, or is null, is the default.

    JsonFault where it is of another kind, a truth where a number is expected included, or isn't there and has no default.
    """
    found = fields.get(name)
    if found is None:
        if default is _MISSING:
            raise JsonFault(f"{place}: {name} isn't there")
        return default
    if not isinstance(found, kinds) or (isinstance(found, bool) and kinds is int):
        raise JsonFault(f"{place}: {name} is {shown(found)}")
    return found


def count(fields: dict[str, Any], name: str, place: str, default: Any = _MISSING) -> Any:
    """Returns a field that is a number from 0 to 2^63 - 1. JsonFault as of ``field``, or where it is another number."""
    found = field(fields, name, int, place, default)
    if found is not default and not 0 <= found < 2**63:
        raise JsonFault(f"{place}: {name} is {shown(found)}; expected a number from 0 to 2^63 - 1")
    return found


def texts(fields: dict[str, Any], name: str, place: str, default: Any = _MISSING) -> list[str]:
    """Returns a field that is a list of texts. JsonFault as of ``field``, or where an item is no text."""
    found = field(fields, name, list, place, default)
    if not all(isinstance(it, str) for it in found):
        raise JsonFault(f"{place}: {name} is {shown(found)}; expected texts")
    return list(found)


def objects(fields: dict[str, Any], name: str, place: str, default: Any = _MISSING) -> list[dict[str, Any]]:
    """Returns a field that is a list of objects. JsonFault as of ``field``, or where an item is no object."""
    found = field(fields, name, list, place, default)
    if not all(isinstance(it, dict) for it in found):
        raise JsonFault(f"{place}: {name} is {shown(found)}; expected objects")
    return list(found)


def _once(pairs: list[tuple[str, Any]]) -> dict[str, Any]:
    found: dict[str, Any] = {}
    for name, value in pairs:
        if name in found:
            raise JsonFault(f"the field {name[:60]!r} stands twice in an object")
        found[name] = value
    return found


def _whole(word: str) -> int:
    if len(word) > _DIGITS:
        raise JsonFault(f"a number has {len(word)} digits; expected {_DIGITS} at most")
    return int(word)


def _real(word: str) -> Decimal:
    if len(word) > _DIGITS:
        raise JsonFault(f"a number has {len(word)} digits; expected {_DIGITS} at most")
    try:
        return Decimal(word)
    except ArithmeticError:
        raise JsonFault(f"the exponent of {word[:40]} is too great") from None


def _none(word: str) -> Any:
    raise JsonFault(f"{word} is no number of JSON")
