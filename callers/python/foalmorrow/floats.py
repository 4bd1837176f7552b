# SPDX-License-Identifier: Apache-2.0
"""Floating numbers in the order of their bits: a whole number of the same width for each, that ascends as they do.

-0.0 is 0.0, and every NaN is one NaN above infinity. So numbers compare by their whole numbers as PostgreSQL, DuckDB, Spark and the total
order of Arrow compare floating ones.
"""
from __future__ import annotations

import math
import struct
from decimal import Decimal
from fractions import Fraction
from typing import Any

from .kinds import DType

try:
    import numpy
except ImportError:
    numpy = None  # type: ignore[assignment]


class Width:
    """The floating numbers of one width, and their order.

    >>> DOUBLE.number(-1.0) < DOUBLE.number(-0.0) == DOUBLE.number(0.0) < DOUBLE.number(5e-324) < DOUBLE.infinity < DOUBLE.nan
    True
    """

    def __init__(self, bits: int, dtype: DType, code: str, infinity: int, nan: int):
        self.bits, self.dtype, self._mask = bits, dtype, (1 << bits - 1) - 1
        self._float, self._whole = struct.Struct(f"<{code}"), struct.Struct("<i" if bits == 32 else "<q")
        #: The whole number of infinity.
        self.infinity = infinity
        #: The whole number of NaN.
        self.nan = nan

    def number(self, value: float) -> int:
        """Returns the whole number of a floating one of this width."""
        if value != value:
            return self.nan
        found: int = self._whole.unpack(self._float.pack(value + 0.0))[0]
        return found if found >= 0 else found ^ self._mask

    def value(self, number: int) -> float:
        """Returns the floating number of a whole one.

        >>> SINGLE.value(SINGLE.number(-1.5))
        -1.5
        """
        if not -self.infinity - 1 <= number <= self.infinity:
            return math.nan
        bits = number if number >= 0 else number ^ self._mask
        found: float = self._float.unpack(self._whole.pack(bits))[0]
        return found + 0.0

    def nearest(self, literal: Any) -> float:
        """Returns the floating number of this width to which a real number is rounded.

        >>> SINGLE.nearest(Decimal("0.1")) == SINGLE.nearest(0.1) == 0.1
        False
        """
        try:
            wide = float(literal)
        except OverflowError:
            wide = math.inf if literal > 0 else -math.inf
        try:
            found: float = self._float.unpack(self._float.pack(wide))[0]
            return found
        except OverflowError:
            return math.inf if wide > 0 else -math.inf

    def numbers(self, given: Any) -> Any:
        """Returns the whole numbers of a numpy array of floating ones of this width.

        >>> numpy is None or DOUBLE.numbers(numpy.array([1.5, -0.0])).tolist() == [DOUBLE.number(1.5), 0]
        True
        """
        odd = numpy.isnan(given)
        # -0.0 becomes 0.0 by the addition, and a signalling NaN a quiet one.
        with numpy.errstate(invalid="ignore"):
            found = (given + numpy.zeros(1, f"<f{self.bits // 8}")).view(f"<i{self.bits // 8}")
        found ^= (found >> (self.bits - 1)) & self._mask
        if odd.any():
            found[odd] = self.nan
        return found


SINGLE = Width(32, DType.I32, "f", 0x7F80_0000, 0x7FC0_0000)
DOUBLE = Width(64, DType.I64, "d", 0x7FF0_0000_0000_0000, 0x7FF8_0000_0000_0000)


def real(literal: Any) -> Any:
    """Returns a literal as a real number of Python, exactly; None where it is none, as a truth or a text.

    >>> real(3), real(0.5), real("3"), real(True)
    (3, 0.5, None, None)
    """
    if isinstance(literal, bool):
        return None
    if isinstance(literal, (int, float, Fraction)) or (isinstance(literal, Decimal) and not literal.is_snan()):
        return literal
    if numpy is None or isinstance(literal, numpy.timedelta64):
        return None
    if isinstance(literal, numpy.integer):
        return int(literal)
    if isinstance(literal, numpy.floating):
        if not numpy.isfinite(literal):
            return float(literal)
        return Fraction(*literal.as_integer_ratio()) if literal.dtype.itemsize > 8 else float(literal)
    return None
