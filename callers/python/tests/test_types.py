# SPDX-License-Identifier: Apache-2.0
"""Logical types: their mappings and literals beside Python's own order, numpy's, pandas' and decimal's. No library is needed."""
import atexit
import datetime
import decimal
import doctest
import itertools
import math
import operator
import os
import struct
import tempfile
import unittest
import uuid
from fractions import Fraction
from typing import Any

import numpy
import pandas
from hypothesis import HealthCheck, configuration, given, settings
from hypothesis import strategies as st

import foalmorrow.floats
import foalmorrow.instants
import foalmorrow.lowering
import foalmorrow.types
from foalmorrow import Column, DType, Date, Decimal, Enum, FixedBinary, Float32, Float64, Predicate, PredicateError, Time, Timestamp, Unmapped, Uuid
from foalmorrow import col, opaque
from foalmorrow.floats import DOUBLE, SINGLE
from foalmorrow.instants import date_of, days_of, instant
from foalmorrow.predicate import Between, Compared, Constant, NullTest, Opaque
from foalmorrow.types import LiteralFault, Spot, of_word
from tests.model import may_be, truth

_HOME = tempfile.TemporaryDirectory()
atexit.register(_HOME.cleanup)
configuration.set_hypothesis_home_dir(_HOME.name)
EXAMPLES = settings(max_examples=int(os.environ.get("FOALMORROW_EXAMPLES", "600")), deadline=None, database=None, suppress_health_check=list(HealthCheck))
WORDS = ["eq", "ne", "lt", "le", "gt", "ge"]
UNITS = ["s", "ms", "us", "ns"]
PARTS = {"s": 1, "ms": 10**3, "us": 10**6, "ns": 10**9}
#: Every float16, as numbers of 32 bits, which they are exactly.
HALVES = numpy.arange(65536, dtype=numpy.uint16).view(numpy.float16)
STEP = int(os.environ.get("FOALMORROW_HALVES", "1"))


def load_tests(_: object, tests: unittest.TestSuite, __: object) -> unittest.TestSuite:
    """The examples of the modules' own pages too."""
    for module in (foalmorrow.floats, foalmorrow.instants, foalmorrow.lowering, foalmorrow.types):
        tests.addTests(doctest.DocTestSuite(module))
    return tests


def lowered(made: Predicate, kind: Any, nullable: bool = True) -> Predicate:
    return made.lowered([Column("c", kind, nullable), Column("d", kind, nullable)])


def compared(word: str, literal: Any, nan: Any = None) -> Predicate:
    return getattr(operator, word)(col("c", nan), literal)


def truths_of(made: Predicate, numbers: numpy.ndarray) -> numpy.ndarray:
    """Which of an array's numbers satisfy a predicate over column c, none of which is null."""
    def leaf(it: Any) -> Any:
        if isinstance(it, Compared):
            return getattr(operator, it.operator)(numbers, it.other)
        if isinstance(it, Between):
            return (numbers >= it.low) & (numbers <= it.high)
        if isinstance(it, NullTest):
            return numpy.full(len(numbers), not it.wanted)
        # Null beside a null test: it decides nothing where no value is null.
        return numpy.full(len(numbers), bool(it.truth))

    return made.folded(leaf, lambda word, a, b: a & b if word == "and" else a | b, operator.invert)


def greatest(word: str, values: numpy.ndarray, literal: Any) -> numpy.ndarray:
    """numpy's comparison, but for NaN, which is equal to itself and above all other numbers."""
    nans = numpy.isnan(values)
    if math.isnan(literal):
        return {"eq": nans, "ne": ~nans, "lt": ~nans, "le": numpy.ones(len(values), bool), "gt": nans & False, "ge": nans}[word]
    return numpy.where(nans, word in ("gt", "ge", "ne"), getattr(operator, word)(values, literal))


class Halves(unittest.TestCase):
    """All pairs of float16 through both mappings beside numpy's own comparison of float16."""

    def test_order_of_numbers_is_that_of_values(self) -> None:
        for width, values in ((SINGLE, HALVES.astype(numpy.float32)), (DOUBLE, HALVES.astype(numpy.float64))):
            numbers = width.numbers(values)
            self.assertEqual(numbers.tolist(), [width.number(float(it)) for it in values])
            back = numpy.array([width.value(int(it)) for it in numbers])
            with numpy.errstate(invalid="ignore"):
                numpy.testing.assert_array_equal(back, values + 0.0)
            # Equal values have one number, and each next value has a greater one.
            sorted_values, first = numpy.unique(values[~numpy.isnan(values)] + 0.0, return_index=True)
            sorted_numbers = numbers[~numpy.isnan(values)][first]
            self.assertTrue((numpy.diff(sorted_numbers.astype("i8")) > 0).all())
            self.assertEqual(len(numpy.unique(numbers)), len(sorted_values) + 1)
            self.assertTrue((numbers[numpy.isnan(values)] == width.nan).all() and width.nan > sorted_numbers[-1] == width.infinity)

    def test_every_pair_under_both_meanings(self) -> None:
        # NOT stands outside of a comparison, and turns its truth round: of values that aren't null that is numpy's ~ of the same array.
        values = HALVES.astype(numpy.float32)
        nans, numbers = numpy.isnan(values), SINGLE.numbers(values)
        column = [Column("c", Float32(), True)]
        for literal, half in zip(values[::STEP], HALVES[::STEP]):
            is_nan = bool(literal != literal)
            for word in WORDS:
                plain = getattr(operator, word)(values, literal)
                raised = greatest(word, values, half) if is_nan else plain | nans if word in ("gt", "ge") else plain
                for nan, wanted in (("ieee", plain), ("greatest", raised)):
                    found = truths_of(Compared(word, "c", half, nan).lowered(column), numbers)
                    self.assertTrue(numpy.array_equal(found, wanted), (word, half, nan))

    def test_every_997th_of_each_width_beside_float16_itself(self) -> None:
        for kind, values in ((Float32(), HALVES.astype(numpy.float32)), (Float64(), HALVES.astype(numpy.float64))):
            numbers, column = kind.width.numbers(values), [Column("c", kind, True)]
            for literal, word in itertools.product(HALVES[::997], WORDS):
                plain = getattr(operator, word)(HALVES, literal)
                for nan, wanted in (("ieee", plain), ("greatest", greatest(word, HALVES, literal))):
                    for made, turned in ((Compared(word, "c", literal, nan), wanted), (~Compared(word, "c", literal, nan), ~wanted)):
                        self.assertTrue(numpy.array_equal(truths_of(made.lowered(column), numbers), turned), (kind, word, literal, nan))

    def test_not_of_each_kind_of_value(self) -> None:
        some = [-math.inf, -1.5, -0.0, 0.0, 2.0**-24, 1.0, 65504.0, math.inf, math.nan, None]
        for kind, value, literal, word in itertools.product((Float32(), Float64()), some, some[:-1], WORDS):
            number = None if value is None else kind.width.number(value)
            plain = None if value is None else bool(getattr(operator, word)(numpy.float64(value), numpy.float64(literal)))
            raised = None if value is None else bool(greatest(word, numpy.array([value]), literal)[0])
            for nullable in (True, False) if value is not None else (True,):
                for nan, wanted in (("ieee", plain), ("greatest", raised)):
                    made = lowered(~compared(word, literal, nan), kind, nullable)
                    self.assertIs(truth(made, {"c": number}) is True, wanted is False, (kind, value, literal, word, nan))
                either = {it is True for it in may_be(lowered(~compared(word, literal), kind, nullable), {"c": number})}
                self.assertLessEqual({it is False for it in (plain, raised)}, either)
                if plain == raised:
                    self.assertEqual(len(either), 1, (kind, value, literal, word))

    def test_two_columns(self) -> None:
        some = [-math.inf, -0.0, 0.0, 1.0, math.inf, math.nan, None]
        for kind, a, b, word in itertools.product((Float32(), Float64()), some, some, WORDS):
            row = {"c": None if a is None else kind.width.number(a), "d": None if b is None else kind.width.number(b)}
            is_null = a is None or b is None
            plain = None if is_null else getattr(operator, word)(a, b)
            raised = None if is_null else bool(greatest(word, numpy.array([a]), b)[0])
            for nullable in (True, False) if not is_null else (True,):
                for made, turned in ((compared(word, col("d"), "ieee"), plain), (compared(word, col("d", "greatest")), raised)):
                    self.assertIs(truth(lowered(made, kind, nullable), row) is True, turned is True, (a, b, word))
                    self.assertIs(truth(lowered(~made, kind, nullable), row) is True, turned is False, (a, b, word))
                for made, wanted in ((compared(word, col("d")), True), (~compared(word, col("d")), False)):
                    either = {it is True for it in may_be(lowered(made, kind, nullable), row)}
                    self.assertLessEqual({plain is wanted, raised is wanted}, either, (a, b, word))
                    if plain == raised:
                        self.assertEqual(len(either), 1, (a, b, word))

    def test_literal_that_is_rounded(self) -> None:
        # numpy rounds a literal to the array's type; PostgreSQL and Python compare it exactly. Both stay open.
        tenth = numpy.float32(0.1)
        for literal in (0.1, decimal.Decimal("0.1"), Fraction(1, 10), numpy.longdouble("0.1")):
            for value in (tenth, numpy.nextafter(tenth, numpy.float32(0)), numpy.nextafter(tenth, numpy.float32(1)), numpy.float32("nan")):
                number = SINGLE.number(float(value))
                for word in WORDS:
                    exact = getattr(operator, word)(Fraction(float(value)), Fraction(literal) if not isinstance(literal, numpy.longdouble) else
                                                    Fraction(*literal.as_integer_ratio())) if value == value else word == "ne"
                    rounded = bool(getattr(operator, word)(value, tenth))
                    found = may_be(lowered(compared(word, literal, "ieee"), Float32()), {"c": number})
                    self.assertLessEqual({exact, rounded}, found, (literal, value, word))
                    if exact == rounded:
                        self.assertEqual(found, {exact}, (literal, value, word))

    @EXAMPLES
    @given(st.floats(), st.floats())
    def test_doubles(self, a: float, b: float) -> None:
        self.assertEqual(DOUBLE.number(a) < DOUBLE.number(b), a < b or (b != b and a == a))
        self.assertEqual(DOUBLE.number(a) == DOUBLE.number(b), a == b or (a != a and b != b))
        self.assertEqual(struct.pack("<d", DOUBLE.value(DOUBLE.number(a))), struct.pack("<d", a + 0.0 if a == a else math.nan))

    @EXAMPLES
    @given(st.floats(width=32), st.floats() | st.integers() | st.decimals(allow_nan=False) | st.fractions())
    def test_literals_of_singles(self, value: float, literal: Any) -> None:
        number = SINGLE.number(value)
        for word in WORDS:
            # Decimal refuses to be compared with NaN.
            exact = getattr(operator, word)(value, literal) if value == value else word == "ne"
            self.assertIn(exact, may_be(lowered(compared(word, literal, "ieee"), Float32()), {"c": number}), word)

    def test_literals_refused(self) -> None:
        for literal in ("1.5", True, b"x", 1j, datetime.date(2026, 1, 1), numpy.bool_(True), numpy.timedelta64(1, "s"), decimal.Decimal("sNaN")):
            with self.assertRaisesRegex(PredicateError, "column c: .* is no float64; expected a float of 64 bits"):
                lowered(col("c") > literal, Float64())


def exactly(word: str, value: Any, literal: Any) -> bool:
    return getattr(operator, word)(value, literal)


class Instants(unittest.TestCase):
    def test_every_day_of_four_hundred_years(self) -> None:
        first = datetime.date(1601, 1, 1)
        for place in range(146_097):
            day = first + datetime.timedelta(place)
            days = (day - datetime.date(1970, 1, 1)).days
            self.assertEqual((days_of(day.year, day.month, day.day), date_of(days)), (days, (day.year, day.month, day.day)))

    def test_days_beside_numpy(self) -> None:
        numbers = [*range(-2_000_000, 3_000_000, 997), -(2**31), 2**31 - 1]
        for days, text in zip(numbers, numpy.array(numbers, dtype="M8[D]").astype(str).tolist()):
            year, month, day = date_of(days)
            sign, words = (-1, text[1:]) if text[0] == "-" else (1, text)
            self.assertEqual([sign * int(words.split("-")[0]), *map(int, words.split("-")[1:])], [year, month, day])
            self.assertEqual(days_of(year, month, day), days)
            self.assertEqual(Date().stored(str(Date().shown(days))), days)

    @EXAMPLES
    @given(st.datetimes(), st.datetimes(timezones=st.none()), st.sampled_from(UNITS), st.sampled_from(WORDS))
    def test_timestamps_beside_datetime(self, value: datetime.datetime, literal: datetime.datetime, unit: str, word: str) -> None:
        kind = Timestamp(unit)
        value = value.replace(microsecond=value.microsecond if unit in ("us", "ns") else value.microsecond // 1000 * 1000 if unit == "ms" else 0)
        number = kind.stored(value)
        if number is None:
            self.assertTrue(unit == "ns" and not 1678 < value.year < 2262)
            return
        self.assertEqual(kind.shown(number), value)
        for given_ in (literal, literal.isoformat(), literal.isoformat(" "), numpy.datetime64(literal)):
            self.assertIs(truth(lowered(compared(word, given_), kind), {"c": number}), exactly(word, value, literal), given_)

    @EXAMPLES
    @given(st.datetimes(timezones=st.timezones()), st.datetimes(timezones=st.timezones()), st.sampled_from(UNITS), st.sampled_from(WORDS))
    def test_zoned_beside_datetime(self, value: datetime.datetime, literal: datetime.datetime, unit: str, word: str) -> None:
        kind = Timestamp(unit, "UTC")
        # Offsets of old zones have seconds, so that the instant is cut.
        number = kind.spot(value).number
        micros = (value.replace(tzinfo=None) - datetime.datetime(1970, 1, 1) - value.utcoffset()) // datetime.timedelta(microseconds=1)
        self.assertEqual(number, micros * PARTS[unit] // 10**6)
        if abs(number) >= 2**63:
            return
        other = (literal.replace(tzinfo=None) - datetime.datetime(1970, 1, 1) - literal.utcoffset()) // datetime.timedelta(microseconds=1)
        wanted = exactly(word, Fraction(number, PARTS[unit]), Fraction(other, 10**6))
        self.assertIs(truth(lowered(compared(word, literal), kind), {"c": number}), wanted)
        if literal.utcoffset().seconds % 60 == 0:
            self.assertIs(truth(lowered(compared(word, literal.isoformat()), kind), {"c": number}), wanted)

    @EXAMPLES
    @given(st.integers(-(2**63) + 1, 2**63 - 1), st.sampled_from([*UNITS, "D", "h", "m", "W", "ps", "fs", "as"]), st.integers(-(2**63) + 1, 2**63 - 1),
           st.sampled_from(UNITS), st.sampled_from(WORDS))
    def test_numpys_instants(self, ticks: int, unit: str, number: int, own: str, word: str) -> None:
        literal = numpy.datetime64(ticks, unit)
        seconds = {"D": 86400, "h": 3600, "m": 60, "W": 604800}
        exact = Fraction(ticks * seconds[unit]) if unit in seconds else Fraction(ticks, 10 ** (3 * ["s", "ms", "us", "ns", "ps", "fs", "as"].index(unit)))
        made = lowered(compared(word, literal), Timestamp(own))
        self.assertIs(truth(made, {"c": number}), exactly(word, Fraction(number, PARTS[own]), exact))
        days = number // 2**40
        self.assertIs(truth(lowered(compared(word, literal), Date()), {"c": days}), exactly(word, Fraction(days * 86400), exact))

    def test_numpys_months_and_years_beside_numpy(self) -> None:
        for ticks in range(-40_000, 40_000, 7):
            for unit in ("M", "Y"):
                if abs(ticks) > 9000 and unit == "Y":
                    continue
                literal = numpy.datetime64(ticks, unit)
                self.assertEqual(Date().stored(literal), int(literal.astype("M8[D]").astype(int)))

    @EXAMPLES
    @given(st.integers(-(2**63) + 1, 2**63 - 1), st.sampled_from(WORDS), st.integers(-(2**63) + 1, 2**63 - 1))
    def test_pandas_nanoseconds(self, ticks: int, word: str, number: int) -> None:
        for zone, kind in ((None, Timestamp("ns")), ("UTC", Timestamp("ns", "UTC"))):
            literal = pandas.Timestamp(ticks, tz=zone)
            self.assertEqual(kind.stored(literal), ticks)
            self.assertIs(truth(lowered(compared(word, literal), kind), {"c": number}), exactly(word, number, ticks))

    def test_literal_finer_than_the_unit(self) -> None:
        at = Column("c", Timestamp("s"))
        for made, text in [
            (col("c") > "1970-01-01 12:00:00.5", "gt col c lit i64 43200"), (col("c") >= "1970-01-01 12:00:00.5", "ge col c lit i64 43201"),
            (col("c") < "1970-01-01T12:00:00.5", "lt col c lit i64 43201"), (col("c") <= "1970-01-01 12:00:00.5", "le col c lit i64 43200"),
            (col("c") == "1970-01-01 12:00:00.5", "lit bool false"), (col("c") != "1970-01-01 12:00:00.5", "lit bool true"),
            (col("c") == "1970-01-01 12:00:00.000", "eq col c lit i64 43200"),
            (col("c").between("1970-01-01 00:00:00.5", "1970-01-01 00:00:02.5"), "between <= <= col c lit i64 1 lit i64 2"),
            (col("c").between("1970-01-01 00:00:00.5", "1970-01-01 00:00:00.6"), "lit bool false"),
        ]:
            self.assertEqual(made.text([at]), text)

    def test_literal_outside_the_range(self) -> None:
        at = Column("c", Timestamp("ns"), True)
        never, always = "lit bool false", "notnull col c"
        for year, below in ((1500, True), (9999, False)):
            literal = datetime.datetime(year, 1, 1)
            for word, truth_ in (("eq", False), ("ne", True), ("lt", not below), ("le", not below), ("gt", below), ("ge", below)):
                self.assertEqual(compared(word, literal).text([at]), always if truth_ else never, (year, word))
                turned = (~compared(word, literal)).text([at])
                self.assertEqual(turned, "lit bool false" if truth_ else "notnull col c", (year, word))
        self.assertEqual((col("c") >= datetime.datetime(1500, 1, 1)).text([Column("c", Timestamp("ns"))]), "lit bool true")

    def test_naive_beside_zoned_refused(self) -> None:
        zoned, naive = Timestamp("us", "UTC"), Timestamp("us")
        day = datetime.datetime(2026, 1, 1)
        for literal in (day, datetime.date(2026, 1, 1), "2026-01-01", "2026-01-01 00:00", numpy.datetime64("2026-01-01"), pandas.Timestamp(day)):
            with self.assertRaisesRegex(PredicateError, r"column c: .* is no timestamp\[us, UTC\]; expected a datetime with a zone"):
                lowered(col("c") > literal, zoned)
            lowered(col("c") > literal, naive)
        aware = day.replace(tzinfo=datetime.timezone.utc)
        for literal in (aware, "2026-01-01 00:00Z", "2026-01-01T00:00:00+02:00", pandas.Timestamp(aware)):
            lowered(col("c") > literal, zoned)
            for kind in (naive, Date()):
                with self.assertRaises(PredicateError):
                    lowered(col("c") > literal, kind)

    def test_texts_that_are_none(self) -> None:
        for text in (
            "", "2026", "2026-01", "2026-1-1", "26-01-01", "2026-02-30", "2026-13-01", "2026-00-01", "2026-01-01T", "2026-01-01T24:00", "2026-01-01 12",
            "2026-01-01 12:60", "2026-01-01 12:00:60", "2026-01-01 12:00:00.", " 2026-01-01", "2026-01-01 ", "2026-01-01\n", "2026-01-01 12:00 +25:00",
            "2026-01-01Z", "2026-01-01 12:00+99", "20260101", "٢٠٢٦-01-01", "2026-01-01 12:00:00,5", "now", "2026-W01-1", "2026-001",
        ):
            self.assertIsNone(instant(text), text)

    def test_texts_with_zones(self) -> None:
        for text, ticks in [
            ("1970-01-01T00:00Z", 0), ("1970-01-01 01:00+01", 0), ("1970-01-01 01:30:00+0130", 0), ("1969-12-31 22:00:00-02:00", 0),
            ("1970-01-01 00:00:01 UTC", 1), ("+10000-01-01 00:00Z", 253402300800), ("-0001-01-01 00:00Z", -62198755200),
        ]:
            self.assertEqual(Timestamp("s", "UTC").stored(text), ticks, text)

    @EXAMPLES
    @given(st.times(), st.times(), st.sampled_from(UNITS), st.sampled_from(WORDS))
    def test_times(self, value: datetime.time, literal: datetime.time, unit: str, word: str) -> None:
        kind = Time(unit)
        value = value.replace(microsecond=value.microsecond if unit in ("us", "ns") else value.microsecond // 1000 * 1000 if unit == "ms" else 0)
        number = kind.stored(value)
        self.assertEqual(kind.shown(number), value)
        for given_ in (literal, literal.isoformat()):
            self.assertIs(truth(lowered(compared(word, given_), kind), {"c": number}), exactly(word, value, literal))

    def test_times_refused(self) -> None:
        for literal in ("24:00", "12", "12:00:60", datetime.time(12, tzinfo=datetime.timezone.utc), datetime.datetime(2026, 1, 1), 5, "12:00Z"):
            with self.assertRaisesRegex(PredicateError, "is no time"):
                lowered(col("c") > literal, Time("ms"))

    def test_numbers_and_truths_are_no_instants(self) -> None:
        for kind in (Date(), Timestamp("ns"), Timestamp("s", "UTC"), Time()):
            for literal in (0, 1.5, True, b"2026-01-01", decimal.Decimal(1), numpy.int64(1), numpy.timedelta64(1, "s"), object(), [1]):
                with self.assertRaises(PredicateError):
                    lowered(col("c") > literal, kind)


class Decimals(unittest.TestCase):
    @EXAMPLES
    @given(st.integers(1, 18), st.data(), st.sampled_from(WORDS))
    def test_beside_decimal(self, precision: int, data: Any, word: str) -> None:
        scale = data.draw(st.integers(0, precision))
        kind, number = Decimal(precision, scale), data.draw(st.integers(1 - 10**precision, 10**precision - 1))
        value = kind.shown(number)
        self.assertEqual((Fraction(value), kind.stored(value)), (Fraction(number, 10**scale), number))
        near = st.integers(number * 1000 - 2001, number * 1000 + 2001).map(lambda it: decimal.Decimal(it).scaleb(-scale - 3, decimal.Context(60)))
        literal = data.draw(st.one_of(near, st.decimals(allow_nan=False), st.integers()))
        wanted = getattr(operator, word)(value, literal)
        for given_ in (literal, str(literal)) if not isinstance(literal, int) and literal.is_finite() else (literal,):
            self.assertIs(truth(lowered(compared(word, given_), kind), {"c": number}), wanted, given_)

    def test_more_digits_than_the_scale(self) -> None:
        d = Column("c", Decimal(9, 2))
        for made, text in [
            (col("c") == decimal.Decimal("1.005"), "lit bool false"), (col("c") > decimal.Decimal("1.005"), "gt col c lit i64 100"),
            (col("c") < "1.005", "lt col c lit i64 101"), (col("c") == "1.0000", "eq col c lit i64 100"), (col("c") > 1, "gt col c lit i64 100"),
            (col("c") < "-1.005", "lt col c lit i64 -100"), (col("c") >= "-1.005", "ge col c lit i64 -100"),
            (col("c") > decimal.Decimal("1e-999999"), "gt col c lit i64 0"), (col("c") < decimal.Decimal("-1e999999"), "lit bool false"),
            (col("c") < decimal.Decimal("Infinity"), "lit bool true"), (col("c") == 10**30, "lit bool false"),
        ]:
            self.assertEqual(made.text([d]), text, made)

    def test_refused(self) -> None:
        for literal in (1.005, float("nan"), True, "1,5", "abc", "", "1e9999999", "٣", decimal.Decimal("NaN"), decimal.Decimal("sNaN"), b"1", numpy.float32(1), 1j):
            with self.assertRaisesRegex(PredicateError, r"column c: .* is no decimal\(9, 2\); expected a decimal.Decimal or a whole number"):
                lowered(col("c") == literal, Decimal(9, 2))
        for fields in ((0, 0), (19, 0), (5, 6), (5, -1), ("5", 0), (5.0, 1)):
            with self.assertRaises(ValueError):
                Decimal(*fields)
        self.assertEqual([Decimal(3, 1).stored(it) for it in ("99.9", "100", "1.05", 99, decimal.Decimal("sNaN"))], [999, None, None, 990, None])

    def test_every_pair_of_a_small_type(self) -> None:
        kind = Decimal(2, 1)
        numbers = numpy.arange(-99, 100)
        for literal, word in itertools.product(range(-1050, 1051, 5), WORDS):
            found = truths_of(lowered(compared(word, decimal.Decimal(literal).scaleb(-2)), kind), numbers)
            numpy.testing.assert_array_equal(found, getattr(operator, word)(numbers * 10, literal))


class WrittenTypes(unittest.TestCase):
    @EXAMPLES
    @given(st.uuids(), st.uuids(), st.sampled_from(WORDS))
    def test_uuids(self, value: uuid.UUID, literal: uuid.UUID, word: str) -> None:
        for given_ in (literal, str(literal), literal.bytes, str(literal).upper()):
            found = truth(lowered(compared(word, given_), Uuid()), {"c": Uuid().stored(value)})
            self.assertIs(found, getattr(operator, word)(value, literal))
        self.assertEqual(Uuid().shown(Uuid().stored(value)), value)

    @EXAMPLES
    @given(st.binary(min_size=2, max_size=2), st.binary(max_size=4), st.sampled_from(WORDS))
    def test_fixed_binary(self, value: bytes, literal: bytes, word: str) -> None:
        self.assertIs(truth(lowered(compared(word, literal), FixedBinary(2)), {"c": value}), getattr(operator, word)(value, literal))

    def test_refused(self) -> None:
        for literal in ("x", b"x" * 15, 5, "0" * 32, "{" + "0" * 36 + "}", uuid.UUID(int=0).int):
            with self.assertRaisesRegex(PredicateError, "is no uuid; expected a uuid.UUID"):
                lowered(col("c") == literal, Uuid())
        with self.assertRaises(PredicateError):
            lowered(col("c") == "x", FixedBinary(1))
        for size in (-1, 1.5, True, "1"):
            with self.assertRaises(ValueError):
                FixedBinary(size)

    def test_enum_is_compared_for_equality_alone(self) -> None:
        kind = Enum(["low", "high"])
        self.assertEqual(lowered(col("c") == "low", kind), col("c") == "low")
        self.assertEqual(lowered(col("c").isin(["low", "mid"]), kind), col("c").isin(["low", "mid"]))
        self.assertEqual(lowered(col("c").startswith("l"), kind), col("c").startswith("l"))
        for made in (col("c") > "low", col("c") <= "low", col("c").between("a", "b"), col("c") < col("d")):
            with self.assertRaisesRegex(PredicateError, "an enum has an order of its own"):
                lowered(made, kind)
        with self.assertRaises(PredicateError):
            lowered(col("c") == 5, kind)
        for values in ("ab", [1]):
            with self.assertRaises(ValueError):
                Enum(values)

    def test_like_of_no_text_refused(self) -> None:
        for kind in (Uuid(), Date(), Float64()):
            with self.assertRaisesRegex(PredicateError, "is no text"):
                lowered(col("c").like("a%"), kind)


class Trees(unittest.TestCase):
    def test_unmapped_is_opaque_but_for_null(self) -> None:
        for made in (col("c") == {"a": 1}, col("c") > 5, col("c").between(1, 2), col("c").like("a%"), col("c") == col("d")):
            self.assertIsInstance(lowered(made, Unmapped("json")), Opaque)
        self.assertEqual(lowered(col("c").is_null(), Unmapped("json")), col("c").is_null())
        columns = [Column("c", Unmapped("json")), Column("n", DType.I64)]
        self.assertEqual(((col("c") == 5) & (col("n") > 3)).lowered(columns).leaves()[1], col("n") > 3)
        self.assertIsInstance((col("n") == col("c")).lowered(columns), Opaque)

    def test_two_columns_of_other_types_refused(self) -> None:
        kinds = [Date(), Time("s"), Time("ms"), Timestamp("s"), Timestamp("ms"), Timestamp("s", "UTC"), Decimal(5, 2), Decimal(5, 3), Float32(), Float64(),
                 Uuid(), FixedBinary(16), Enum(), DType.I64, DType.I32, DType.UTF8, DType.BINARY]
        for a, b in itertools.product(kinds, kinds):
            columns = [Column("c", a), Column("d", b)]
            if a == b:
                (col("c", "greatest") == col("d")).text(columns)
            else:
                with self.assertRaisesRegex(PredicateError, "column c is .*, and column d is"):
                    (col("c") == col("d")).text(columns)
        # Zones and numbers of digits have no part in the order.
        for a, b in ((Timestamp("s", "UTC"), Timestamp("s", "Europe/Berlin")), (Decimal(5, 2), Decimal(9, 2)), (Enum(), Enum(["a"]))):
            (col("c") == col("d")).text([Column("c", a), Column("d", b)])

    def test_null_satisfies_no_comparison(self) -> None:
        literals: list[tuple[Any, list[Any]]] = [
            (Date(), ["2026-01-01", "2026-01-01 12:00", "+9999999-01-01"]), (Decimal(5, 2), ["1", "1.005", 10**20]),
            (Float64(), [1.5, math.nan, math.inf, decimal.Decimal("0.1")]), (Timestamp("ns"), ["2026-01-01", "9999-01-01"]),
        ]
        for kind, some in literals:
            for literal, word, nan in itertools.product(some, WORDS, (None, "ieee", "greatest")):
                leaf, between = compared(word, literal, nan), col("c", nan).between(literal, literal)
                for made in (leaf, ~leaf, ~~leaf, between, ~between, leaf & ~leaf, ~(leaf | ~leaf), ~(leaf & between), leaf | ~(~leaf & between)):
                    self.assertNotIn(True, may_be(lowered(made, kind), {"c": None}), (kind, made))
                # Beside what is true a null decides nothing.
                self.assertEqual(may_be(lowered(leaf | col("c").is_null(), kind), {"c": None}), {True})
                self.assertNotIn(True, may_be(lowered(~(leaf | col("c").is_null()), kind), {"c": None}))

    def test_words_of_types(self) -> None:
        kinds = [Date(), Time("s"), Timestamp("ns"), Timestamp("us", "Europe/Berlin"), Decimal(18, 3), Float32(), Float64(), Uuid(), FixedBinary(3), Enum(),
                 Unmapped("list(i32)"), Unmapped("")]
        for kind in kinds:
            self.assertEqual(of_word(kind.word), kind)
            self.assertEqual((Column("c", kind).dtype, Column("c", kind, True).word), (kind.dtype, kind.word + "?"))
        for word in ("", "date ", "timestamp", "timestamp[m]", "time[s, UTC]", "decimal(19, 0)", "decimal(05, 0)", "fixed_binary(-1)", "i64", "enum(a)"):
            self.assertIsNone(of_word(word), word)

    def test_types_refused(self) -> None:
        for make in (lambda: Timestamp("m"), lambda: Time("D"), lambda: Timestamp("us", ""), lambda: Timestamp("us", 5), lambda: Timestamp("us", "a b"),
                     lambda: Unmapped(5)):
            with self.assertRaises(ValueError):
                make()
        for nan in ("IEEE", 5, True):
            with self.assertRaisesRegex(PredicateError, "is no meaning of NaN"):
                col("c", nan)
        with self.assertRaisesRegex(PredicateError, "two meanings"):
            col("c", "ieee") == col("d", "greatest")

    def test_sql(self) -> None:
        for kind, literal, text in [
            (Date(), datetime.date(2026, 1, 2), "DATE '2026-01-02'"), (Timestamp("s"), "2026-01-02 03:04", "TIMESTAMP '2026-01-02 03:04:00'"),
            (Timestamp("s", "UTC"), "2026-01-02 03:04+01:00", "TIMESTAMP WITH TIME ZONE '2026-01-02 02:04:00+00:00'"), (Decimal(5, 2), "1.005", "1.005"),
            (Float64(), 1.5, "1.5"), (Float64(), math.nan, "CAST('NaN' AS DOUBLE PRECISION)"),
            (Float32(), 1e300, "1e+300"), (Float32(), -math.inf, "CAST('-Infinity' AS REAL)"), (Float64(), 10**20, "100000000000000000000"), (Decimal(5, 2), 7, "7"),
            (Float64(), Fraction(1, 2), "0.5"), (Float64(), decimal.Decimal("0.10"), "0.10"), (Time("s"), "01:02", "TIME '01:02:00'"), (Enum(), "a'", "'a'''"),
            (FixedBinary(1), b"a", "'\\x61'"), (Date(), "2026-01-02 12:00", "TIMESTAMP '2026-01-02 12:00:00'"),
        ]:
            self.assertEqual((col("c") > literal if not isinstance(kind, Enum) else col("c") == literal).sql([Column("c", kind)])[6:-1].strip("= "), text)


if __name__ == "__main__":
    unittest.main()
