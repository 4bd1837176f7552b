# SPDX-License-Identifier: Apache-2.0
"""Arrays and streams of Arrow's C Data Interface in every layout that is read, each field of their structs spoiled in turn."""
import ctypes
import datetime
import decimal
import doctest
import math
import os
import random
import struct
import unittest
import uuid
from collections.abc import Callable, Sequence
from typing import Any

import numpy
import pandas

import foalmorrow.layouts
from foalmorrow import Column, DType, Date, Decimal, Enum, FixedBinary, Float32, Float64, FooterError, Footers, Refused, Stat, Time, Timestamp, Unmapped
from foalmorrow import Untrue, Uuid, ValueFault, Values, arrow, footers, interchange
from foalmorrow.arrays import Packed
from foalmorrow.library import Status
from foalmorrow.reading import Read, read_column
from tests import producer
from tests.producer import Array, Stream, decimals, fixed, numbers, texts, truths

SEED = int(os.environ.get("FOALMORROW_SEED", "1"))
INTS = {DType.I8: ("c", "b"), DType.U8: ("C", "B"), DType.I16: ("s", "h"), DType.U16: ("S", "H"), DType.I32: ("i", "i"), DType.U32: ("I", "I"),
        DType.I64: ("l", "q"), DType.U64: ("L", "Q")}
Items = list[Any]


def load_tests(_: object, tests: unittest.TestSuite, __: object) -> unittest.TestSuite:
    tests.addTests(doctest.DocTestSuite(foalmorrow.layouts))
    return tests


def stored(column: Column, found: Read) -> Items:
    """The physical values of a column, None where they are null."""
    nulls = found.nulls or bytes(len(found.values))
    values = found.values if column.dtype != DType.UTF8 else Values(DType.BINARY, found.values.data, found.values.ends, found.values.count)
    return [None if null else values[row] for row, null in enumerate(nulls)]


def wanted(column: Column, items: Sequence[Any]) -> Items:
    if column.logical is not None:
        return [None if it is None else column.logical.stored(it) for it in items]
    return [it.encode() if isinstance(it, str) else it for it in items]


#: How each layout is made of items, and the items: those of the column's own Python type.
Build = Callable[[Sequence[Any], int], Array]


def layouts() -> list[tuple[str, Any, Build, Items]]:
    found: list[tuple[str, Any, Build, Items]] = []
    for dtype, (form, code) in INTS.items():
        low, high = dtype.range or (0, 0)
        found.append((form, dtype, lambda items, before, form=form, code=code: numbers(form, code, items, before), [low, 0, None, high, 1]))
    found.append(("l as i8", DType.I8, lambda items, before: numbers("l", "q", items, before), [-128, None, 127]))
    found.append(("b", DType.BOOL, lambda items, before: truths(items, before), [True, False, None, True, True, False, False, True, None, True]))
    for form in "uU":
        found.append((form, DType.UTF8, lambda items, before, form=form: texts(form, items, before, start=3 * before), ["b", "", None, "\u00e9", "a" * 50]))
        found.append((form + " enum", Enum(["a", "b"]), lambda items, before, form=form: texts(form, items, before), ["b", None, "a"]))
        found.append((form + " any enum", Enum(), lambda items, before, form=form: texts(form, items, before), ["b", None, "z"]))
    for form in "zZ":
        found.append((form, DType.BINARY, lambda items, before, form=form: texts(form, items, before, start=before), [b"\xff", b"", None, b"ab"]))
        found.append((form + " uuid", Uuid(), lambda items, before, form=form: texts(form, items, before), [b"a" * 16, None]))
    long = "\u00e9" * 30
    found.append(("vu", DType.UTF8, lambda items, before: producer.views("vu", items, before), ["b", "", None, long, "twelve bytes", "thirteen byte", long[1:]]))
    found.append(("vz", DType.BINARY, lambda items, before: producer.views("vz", items, before), [b"\xff", b"", None, b"ab" * 9]))
    found.append(("vu enum", Enum(), lambda items, before: producer.views("vu", items, before), ["b", None, long]))
    found.append(("w", FixedBinary(3), lambda items, before: fixed(3, items, before), [b"abc", None, b"\0\0\0"]))
    found.append(("w binary", DType.BINARY, lambda items, before: fixed(3, items, before), [b"abc", None, b"\0\0\0"]))
    found.append(("w uuid", Uuid(), lambda items, before: fixed(16, items, before), [bytes(16), None, uuid.UUID(int=5).bytes]))
    days = [datetime.date(1969, 12, 31), None, datetime.date(2026, 1, 2)]
    found.append(("tdD", Date(), lambda items, before: numbers("tdD", "i", [Date().stored(it) if it else None for it in items], before), days))
    found.append(("tdm", Date(), lambda items, before: numbers("tdm", "q", [Date().stored(it) * 86_400_000 if it else None for it in items], before), days))
    clocks = [datetime.time(0), None, datetime.time(23, 59, 59)]
    for form, unit, code in (("tts", "s", "i"), ("ttm", "ms", "i"), ("ttu", "us", "q"), ("ttn", "ns", "q")):
        for own in ("s", "us"):
            found.append((f"{form} as {own}", Time(own), lambda items, before, form=form, code=code, unit=unit: numbers(
                form, code, [Time(unit).stored(it) if it else None for it in items], before), clocks))
    for form, unit in (("tss:", "s"), ("tsm:", "ms"), ("tsu:", "us"), ("tsn:", "ns")):
        for own in ("s", "ms", "us", "ns"):
            instants = [datetime.datetime(1969, 12, 31), None, datetime.datetime(2026, 1, 2, 3, 4, 5)]
            found.append((f"{form} as {own}", Timestamp(own), lambda items, before, form=form, unit=unit: numbers(
                form, "q", [Timestamp(unit).stored(it) if it else None for it in items], before), instants))
            aware = [it and it.replace(tzinfo=datetime.timezone.utc) for it in instants]
            found.append((f"{form}Europe/Berlin as {own}", Timestamp(own, "UTC"), lambda items, before, form=form, unit=unit: numbers(
                form + "Europe/Berlin", "q", [Timestamp(unit, "UTC").stored(it) if it else None for it in items], before), aware))
    some = [decimal.Decimal("-1.50"), None, decimal.Decimal("0"), decimal.Decimal("9999999999999999.99")]
    for size in (4, 8, 16, 32):
        here = some[:3] if size == 4 else some
        form = "d:38,2" if size == 16 else f"d:9,2,{size * 8}"
        found.append((form, Decimal(18, 2), lambda items, before, size=size, form=form: decimals(
            form, size, [None if it is None else int(it * 100) for it in items], before), here))
    found.append(("d other scale", Decimal(18, 3), lambda items, before: decimals("d:38,1", 16, [None if it is None else int(it * 10) for it in items], before),
                  [decimal.Decimal("-1.5"), None, decimal.Decimal(10**14)]))
    found.append(("d cut scale", Decimal(5, 1), lambda items, before: decimals("d:38,4", 16, [None if it is None else int(it * 10**4) for it in items], before),
                  [decimal.Decimal("-1.5"), None, decimal.Decimal("9999.9")]))
    floats = [-math.inf, -0.0, None, 1.5, math.nan, math.inf]
    for form, code in (("e", "e"), ("f", "f"), ("g", "d")):
        for kind in (Float32(), Float64()):
            found.append((f"{form} as {kind.word}", kind, lambda items, before, form=form, code=code: numbers(form, code, items, before), floats))
    found.append(("l as float", Float64(), lambda items, before: numbers("l", "q", items, before), [2**53, None, -5]))
    found.append(("l as decimal", Decimal(18, 2), lambda items, before: numbers("l", "q", items, before), [2**50, None, -5]))
    found.append(("+l unmapped", Unmapped("list"), lambda items, before: numbers("l", "q", items, before), [1, None]))
    return found


@unittest.skipUnless(producer.is_built(), "the producer isn't built")
class Arrays(unittest.TestCase):
    def setUp(self) -> None:
        self.before = producer.counts()

    def released(self, schemas: int, arrays: int, streams: int = 0) -> None:
        """So many release callbacks were called since the test began, and none of them twice."""
        found = tuple(now - then for now, then in zip(producer.counts(), self.before))
        self.assertEqual(found, (schemas, arrays, streams, 0))
        self.before = producer.counts()

    def test_each_layout_with_nulls_offsets_and_in_each_way(self) -> None:
        for name, kind, build, items in layouts():
            column = Column("c", kind, True)
            for some in (items, [it for it in items if it is not None], [], [None] * 9, items * 40):
                for before in (0, 1, 8, 13):
                    with self.subTest(layout=name, items=some[:8], before=before):
                        for hand in (lambda made: made, lambda made: made.structs(), lambda made: Stream([made])):
                            made = build(some, before)
                            found = read_column(column, hand(made))
                            self.assertEqual(stored(column, found), wanted(column, some) if not isinstance(kind, Unmapped) else
                                             [None if it is None else b"" for it in some])
                            self.assertTrue(made.is_released() or not made.array.release)
                        self.released(3, 3, 1)

    def test_random_slices_of_each_layout(self) -> None:
        rng = random.Random(SEED)
        for name, kind, build, items in layouts():
            column = Column("c", kind, True)
            for _ in range(5):
                some = rng.choices(items, k=rng.randrange(30))
                before, skip = rng.randrange(20), rng.randrange(len(some) + 1)
                take = rng.randrange(len(some) - skip + 1)

                def sliced(_: Any, array: Any) -> None:
                    array.offset, array.length = before + skip, take

                found = read_column(column, build(some, before).change(sliced))
                part = some[skip : skip + take]
                self.assertEqual(stored(column, found), wanted(column, part) if not isinstance(kind, Unmapped) else
                                 [None if it is None else b"" for it in part], name)

    def test_null_column(self) -> None:
        for kind in (DType.NULL, DType.I64, DType.UTF8, Date(), Unmapped("x")):
            column = Column("c", kind, kind != DType.NULL)
            self.assertEqual(len(read_column(column, Array("n", 3, [])).values), 3)
        with self.assertRaisesRegex(ValueFault, "row 0: null is no value of i64"):
            read_column(Column("c", DType.I64), Array("n", 3, []))

    def test_unmapped_column_of_any_layout(self) -> None:
        column = Column("j", Unmapped("anything"), True)
        items = [1, None, None, 4, 5]
        for form, buffers in (("+l", 2), ("+L", 2), ("+s", 1), ("+w:3", 1), ("+m", 2), ("tDs", 2), ("vu", 4), ("tiM", 2), ("l", 2)):
            for start in (0, 1):
                made = Array(form, 5 - start, [producer.bits([it is not None for it in items]), *[b"\0" * 64] * (buffers - 1)], offset=start)
                found = read_column(column, made)
                self.assertEqual(list(found.nulls or b""), [int(it is None) for it in items[start:]], form)
        nulls = read_column(column, Array("n", 3, [])).nulls
        self.assertEqual(nulls, b"\1" * 3)
        made = numbers("c", "b", [0, None, 1]).with_dictionary(texts("u", ["a", None]))
        self.assertEqual(read_column(column, made).nulls, b"\0\1\1")
        for form in ("+ud:0", "+us:0", "+r"):
            with self.assertRaisesRegex(ValueFault, "column j: arrays of Arrow's format .* don't say which values are null"):
                read_column(column, Array(form, 1, [b"\0"]))
        with self.assertRaisesRegex(ValueFault, "has 0 buffers; expected 1"):
            read_column(column, Array("+l", 1, []))

    def test_dictionaries(self) -> None:
        places = [2, 0, None, 1, 2, 3]
        for form, code in (("c", "b"), ("C", "B"), ("s", "h"), ("i", "i"), ("l", "q"), ("L", "Q")):
            for kind, values, items in [
                (DType.UTF8, lambda: texts("u", ["a", "b", "", None]), ["", "a", None, "b", "", None]),
                (Enum(), lambda: texts("U", ["a", "b", "", None]), ["", "a", None, "b", "", None]),
                (DType.I64, lambda: numbers("i", "i", [5, 6, 7, None], before=3), [7, 5, None, 6, 7, None]),
                (Date(), lambda: numbers("tdD", "i", [5, 6, 7, None]), [datetime.date(1970, 1, day) if day else None for day in (8, 6, 0, 7, 8, 0)]),
                (Float64(), lambda: numbers("g", "d", [5, 6, 7, None]), [7, 5, None, 6, 7, None]), (DType.BOOL, lambda: truths([True, False, True, None]), [True, True, None, False, True, None]),
            ]:
                for before in (0, 9):
                    column = Column("c", kind, True)
                    found = read_column(column, numbers(form, code, places, before).with_dictionary(values()))
                    self.assertEqual(stored(column, found), wanted(column, items), (form, kind))
                    self.released(2, 2)
        # A value that no row has may be anything.
        column = Column("c", DType.I8)
        made = numbers("c", "b", [0, 0]).with_dictionary(numbers("l", "q", [5, 500]))
        self.assertEqual(stored(column, read_column(column, made)), [5, 5])
        made = numbers("c", "b", [0, 0, 1]).with_dictionary(numbers("l", "q", [5, 500]))
        with self.assertRaisesRegex(ValueFault, "column c, row 2: 500 is no i8"):
            read_column(column, made)
        for place in (2, -1):
            with self.assertRaisesRegex(ValueFault, "row 1: place .* of a dictionary of 2 values"):
                read_column(column, numbers("c", "b", [0, place]).with_dictionary(numbers("l", "q", [5, 6])))

    def test_streams(self) -> None:
        column = Column("c", DType.UTF8, True)
        for pieces in ([["a", None], ["b"], []], [[]], [["a"]], [[None], [None, "x"]]):
            made = Stream([texts("u", it, before=place) for place, it in enumerate(pieces)])
            self.assertEqual(stored(column, read_column(column, made)), wanted(column, [it for piece in pieces for it in piece]))
            self.released(len(pieces), len(pieces), 1)

    def test_failing_streams_release_everything_once(self) -> None:
        column = Column("c", DType.I8, True)
        for fails in (-2, 0, 1, 2):
            made = Stream([numbers("c", "b", [1]), numbers("c", "b", [2]), numbers("c", "b", [3])], fails)
            with self.assertRaisesRegex(ValueFault, "column c: .*failed with code (5|22): the disk is on fire"):
                read_column(column, made)
            self.released(3, 3, 1)
        made = Stream([numbers("l", "q", [1]), numbers("l", "q", [2, 300])])
        with self.assertRaisesRegex(ValueFault, "column c, row 2: 300 is no i8"):
            read_column(column, made)
        self.released(2, 2, 1)

    def test_other_types_refused(self) -> None:
        builds = {name: (kind, build, items) for name, kind, build, items in layouts()}
        for name, kind in [
            ("u", DType.BINARY), ("z", DType.UTF8), ("l", DType.UTF8), ("b", DType.I8), ("c", DType.BOOL), ("g as float64", DType.I64), ("l", Date()),
            ("tdD", DType.I32), ("tdD", Timestamp("s")), ("tss: as s", DType.I64), ("tss: as s", Timestamp("s", "UTC")), ("tss: as s", Date()),
            ("tss:Europe/Berlin as s", Timestamp("s")), ("tts as s", Timestamp("s")), ("d:38,2", DType.I64), ("d:38,2", Float64()), ("g as float64", Decimal(9, 2)),
            ("w", FixedBinary(4)), ("w", Uuid()), ("u", Date()), ("tdD", Time("s")), ("b", Float64()), ("l", DType.NULL),
        ]:
            _, build, items = builds[name]
            with self.assertRaisesRegex(ValueFault, r"column c: an array of Arrow's format .* is no .*; expected", msg=(name, kind)):
                read_column(Column("c", kind, kind != DType.NULL), build(items, 0))
        for form in ("+l", "+s", "+m", "+ud:0", "+r", "tDs", "tiM", "x", "", "d:9", "w:", "tsz:", "tsu"):
            with self.assertRaisesRegex(ValueFault, "column c: arrays of Arrow's format .* aren't read; expected numbers"):
                read_column(Column("c", DType.I64, True), Array(form, 0, [None, b""]))
        self.assertEqual(producer.counts()[3], 0)

    def test_values_outside_of_the_type_refused_by_row(self) -> None:
        for kind, make in [
            (Timestamp("s"), lambda: numbers("tsm:", "q", [0, 1500])), (Timestamp("ns"), lambda: numbers("tss:", "q", [0, 2**40])),
            (Date(), lambda: numbers("tdm", "q", [0, 5])), (Time("s"), lambda: numbers("tts", "i", [0, 86_400])), (Time("s"), lambda: numbers("ttn", "q", [0, -10**9])),
            (Decimal(18, 2), lambda: decimals("d:38,2", 16, [0, 10**18])), (Decimal(18, 2), lambda: decimals("d:38,2", 16, [0, 2**64])),
            (Decimal(18, 2), lambda: decimals("d:38,3", 16, [0, 5])), (Decimal(3, 2), lambda: decimals("d:38,0", 16, [0, 10])),
            (Decimal(18, 2), lambda: decimals("d:38,2", 16, [0, -(2**100)])), (Float32(), lambda: numbers("g", "d", [0, 0.1])),
            (Float64(), lambda: numbers("l", "q", [0, 2**53 + 1])), (Decimal(3, 2), lambda: numbers("l", "q", [0, 10])),
            (DType.I8, lambda: numbers("s", "h", [0, 128])), (Uuid(), lambda: texts("z", [bytes(16), b"x"])), (Enum(["a"]), lambda: texts("u", ["a", "b"])),
        ]:
            with self.assertRaises(ValueFault) as told:
                read_column(Column("c", kind), make())
            self.assertEqual((told.exception.column, told.exception.row), ("c", 1), (kind, told.exception))
            # What stands at a null row isn't read.
            there, spoiled = Column("c", kind, True), make()
            packed = ctypes.create_string_buffer(b"\x01")
            spoiled.array.buffers[0] = ctypes.addressof(packed)
            self.assertEqual(read_column(there, spoiled).nulls, b"\0\1", kind)

    def test_least_number_is_an_instant(self) -> None:
        # numpy takes it for NaT; Arrow doesn't.
        column = Column("c", Timestamp("ns"))
        self.assertEqual(stored(column, read_column(column, numbers("tsn:", "q", [-(2**63)]))), [-(2**63)])

    def test_each_field_spoiled_in_turn(self) -> None:
        def fields(array: str, name: str, value: Any) -> Callable[[Any, Any], None]:
            return lambda schema, found: setattr(schema if array == "schema" else found, name, value)

        def no_buffer(place: int) -> Callable[[Any, Any], None]:
            def work(_: Any, array: Any) -> None:
                array.buffers[place] = None
            return work

        changes = {
            f"{array}.{name} = {value}": fields(array, name, value) for array, name, value in [
                ("array", "length", -1), ("array", "length", 2**62), ("array", "null_count", 2), ("array", "null_count", 0), ("array", "null_count", -2),
                ("array", "null_count", 4), ("array", "offset", -1), ("array", "offset", 2**62), ("array", "n_buffers", 0), ("array", "n_buffers", 1),
                ("array", "n_buffers", 4), ("array", "n_buffers", -1), ("array", "n_children", 1), ("array", "n_children", -1), ("array", "buffers", None),
                ("schema", "n_children", 1), ("schema", "n_children", -1), ("schema", "format", None), ("schema", "format", b"\xff"), ("schema", "format", b"+s"),
            ]
        }
        for which, make in (("l", lambda: numbers("l", "q", [1, None, 3])), ("u", lambda: texts("u", ["a", None, "c"])), ("b", lambda: truths([True, None, False]))):
            kind = {"l": DType.I64, "u": DType.UTF8, "b": DType.BOOL}[which]
            some = dict(changes) | {f"buffer {place}": no_buffer(place) for place in ((1, 2) if which == "u" else (1,))}
            for name, change in some.items():
                # The producer frees what it has made, whatever the structs say now.
                with self.assertRaisesRegex(ValueFault, "^column c", msg=(which, name)):
                    read_column(Column("c", kind, True), make().change(change))
                self.released(1, 1)
        with self.assertRaisesRegex(ValueFault, "1 values are null, and none is marked"):
            read_column(Column("c", DType.I64, True), numbers("l", "q", [1, None], null_count=1).change(no_buffer(0)))
        for which in ("array", "schema"):
            made = numbers("l", "q", [1]).with_dictionary(numbers("l", "q", [1, 2]))
            setattr(getattr(made, which), "dictionary", None)
            with self.assertRaisesRegex(ValueFault, "don't agree whether there is a dictionary"):
                read_column(Column("c", DType.I64), made)

    def test_views_spoiled(self) -> None:
        column, text = Column("c", DType.UTF8), "thirteen byte"
        def spoiled(fields: tuple[int, bytes, int, int], lengths: tuple[int, ...] = (13,), buffers: tuple[bytes, ...] = (text.encode(),)) -> Array:
            return Array("vu", 1, [None, struct.pack("<i4sii", *fields), *buffers, struct.pack(f"<{len(lengths)}q", *lengths)])

        self.assertEqual(stored(column, read_column(column, spoiled((13, b"thir", 0, 0)))), [text.encode()])
        for fields in ((-1, b"", 0, 0), (14, b"thir", 0, 0), (13, b"thir", 0, 1), (13, b"thir", 1, 0), (13, b"thir", -1, 0), (13, b"thir", 0, -1), (2**31 - 1, b"", 0, 0)):
            with self.assertRaisesRegex(ValueFault, "column c, row 0: a view lies outside of its buffers", msg=fields):
                read_column(column, spoiled(fields))
        with self.assertRaisesRegex(ValueFault, "a buffer of views has a length that can't be"):
            read_column(column, spoiled((13, b"thir", 0, 0), (-1,)))
        with self.assertRaisesRegex(ValueFault, "has 2 buffers; expected 3"):
            read_column(column, Array("vu", 0, [None, b""]))

        def lying(count: int) -> Array:
            return spoiled((13, b"thir", 0, 0)).change(lambda _, array: setattr(array, "n_buffers", count))

        for count in (-(2**63), -1, 0, 2):
            with self.assertRaisesRegex(ValueFault, f"format 'vu' has {count} buffers; expected 3"):
                read_column(column, lying(count))
        with self.assertRaisesRegex(ValueFault, "a view lies outside of its buffers"):
            read_column(column, lying(3))
        for count in (2**20 + 4, 2**40, 2**63 - 1):
            with self.assertRaisesRegex(ValueFault, f"an array of views has {count} buffers; expected at most 1048576"):
                read_column(column, lying(count))
        # Behind the addresses of the buffers anything may stand, and what no memory holds is refused.
        for count in (5, 6, 7, 100, 1000, 10**5, 2**20 + 3):
            try:
                self.assertEqual(stored(column, read_column(column, lying(count))), [text.encode()])
            except ValueFault as fault:
                self.assertRegex(str(fault), "column c.*expected")
        self.assertEqual(stored(column, read_column(column, Array("vu", 0, [None, b"", b""]))), [])

    def test_offsets_spoiled(self) -> None:
        column = Column("c", DType.UTF8)
        for ends in ([-1, 0, 1], [0, 2, 1], [2, 1, 3], [0, -5, 3]):
            for form, code in (("u", "i"), ("U", "q")):
                made = Array(form, 2, [None, struct.pack(f"<3{code}", *ends), b"abc"])
                with self.assertRaisesRegex(ValueFault, "expected offsets from 0 on that don't descend"):
                    read_column(column, made)
        self.assertEqual(stored(column, read_column(column, Array("u", 0, [None, None, None]))), [])

    def test_read_twice_refused(self) -> None:
        made = numbers("l", "q", [1])
        for hand in (made, made.structs()):
            read_column(Column("c", DType.I64), made) if hand is made else None
            with self.assertRaisesRegex(ValueFault, "read or released before"):
                read_column(Column("c", DType.I64), hand)
        self.released(1, 1)

    def test_what_is_no_capsule_refused(self) -> None:
        class Odd:
            def __init__(self, found: Any):
                self.found = found

            def __arrow_c_array__(self, requested_schema: object = None) -> Any:
                return self.found

        made = numbers("l", "q", [1])
        for found in (5, None, (), (1, 2), (made.__arrow_c_array__()[1],) * 2, [1, 2, 3]):
            with self.assertRaises(ValueFault):
                read_column(Column("c", DType.I64), Odd(found))
        for fields in ({}, {"schema": 1}, {"schema": 1, "stream": 2}, {"stream": 0}):
            with self.assertRaises(TypeError):
                arrow.Structs(**fields)
        producer.release(made.schema)
        producer.release(made.array)

    def test_null_where_the_column_has_none_refused(self) -> None:
        with self.assertRaisesRegex(ValueFault, "column c, row 1: null is no value of i64"):
            read_column(Column("c", DType.I64), numbers("l", "q", [1, None]))


def table(rows: dict[str, Array], length: int, offset: int = 0, **fields: Any) -> Array:
    found = Array("+s", length, [None], offset=offset, **fields)
    for child in rows.values():
        found.adopt(child)
    return found


@unittest.skipUnless(producer.is_built(), "the producer isn't built")
class Tables(unittest.TestCase):
    COLUMNS = [Column("n", DType.I64, True), Column("s", DType.UTF8)]

    def made(self, start: int, count: int, offset: int = 0) -> Array:
        there = [*range(start - offset, start)]
        return table({"n": numbers("l", "q", [*there, *range(start, start + count)], name="n"), "x": truths([True] * (offset + count), name="x"),
                      "s": texts("u", [f"t{it}" for it in [*there, *range(start, start + count)]], name="s")}, count, offset)

    def read(self, chunk: Any) -> dict[str, Items]:
        return {column.name: stored(column, Read(values, nulls)) for column, values, nulls in footers._chunk_columns(self.COLUMNS, chunk)}

    def test_batch_is_a_chunk(self) -> None:
        for hand in (lambda it: it, lambda it: it.structs(), lambda it: Stream([it])):
            for offset in (0, 3):
                before, made = producer.counts(), self.made(10, 3, offset)
                self.assertEqual(self.read(hand(made)), {"n": [10, 11, 12], "s": [b"t10", b"t11", b"t12"]})
                found = [now - then for now, then in zip(producer.counts(), before)]
                self.assertEqual(found[0:2] + found[3:], [4, 4, 0])

    def test_table_of_batches_is_one_chunk(self) -> None:
        self.assertEqual(self.read(Stream([self.made(0, 2), self.made(2, 1)])), {"n": [0, 1, 2], "s": [b"t0", b"t1", b"t2"]})

    def test_stream_of_batches_is_a_chunk_each(self) -> None:
        before = producer.counts()
        found = [self.read(batch) for batch in arrow.batches(Stream([self.made(0, 2), self.made(2, 1)]))]
        self.assertEqual([it["n"] for it in found], [[0, 1], [2]])
        self.assertEqual([now - then for now, then in zip(producer.counts(), before)], [8, 8, 1, 0])

    def test_refused(self) -> None:
        for make, error, words in [
            (lambda: table({"n": numbers("l", "q", [1], name="n")}, 1), FooterError, "the chunk has no column s"), (lambda: numbers("l", "q", [1]), ValueFault, "is no table"),
            (lambda: table({"n": numbers("l", "q", [1], name="n"), "s": texts("u", [], name="s")}, 1), ValueFault, "column s: the array is shorter than its table"),
            (lambda: table({"n": numbers("l", "q", [1], name="n"), "m": numbers("l", "q", [1], name="n"), "s": texts("u", ["a"], name="s")}, 1), ValueFault, "2 columns are named n"),
            (lambda: self.made(0, 1).change(lambda _, array: setattr(array, "null_count", 1)), ValueFault, "1 values are null, and none is marked"),
        ]:
            before = producer.counts()
            with self.assertRaisesRegex(error, words):
                self.read(make())
            self.assertEqual(producer.counts()[3], before[3])


@unittest.skipUnless(producer.is_built(), "the producer isn't built")
class Lent(unittest.TestCase):
    """Arrays that the library measures and checks in their own buffers."""

    TAKEN = ("c", "C", "s", "S", "i", "I", "l", "L", "b", "u", "U", "z", "Z")
    WANTED = (Stat.MIN, Stat.MAX, Stat.NULL_COUNT, Stat.IS_CONSTANT, Stat.IS_SORTED, Stat.SUM)

    def taken(self) -> list[tuple[Column, Build, Items]]:
        return [(Column("c", kind, True), build, items) for name, kind, build, items in layouts() if name in self.TAKEN]

    def test_statistics_are_those_of_the_items(self) -> None:
        rng = random.Random(SEED)
        for column, build, items in self.taken():
            for before in (0, 1, 7, 8, 13, 64):
                some = rng.choices(items, k=rng.randrange(40))
                skip = rng.randrange(len(some) + 1)
                take = rng.randrange(len(some) - skip + 1)
                part = some[skip : skip + take]

                def make() -> Array:
                    return build(some, before).change(lambda _, array: (setattr(array, "offset", before + skip), setattr(array, "length", take)))

                model = Footers.measure([column], [{"c": part}], self.WANTED)
                for hand in (lambda made: made, lambda made: made.structs(), lambda made: Stream([made])):
                    before_counts, made = producer.counts(), make()
                    with self.subTest(column=column, items=part, before=before + skip):
                        found = Footers.measure([column], [{"c": hand(made)}], self.WANTED)
                        self.assertEqual(found, model)
                        self.assertEqual([now - then for now, then in zip(producer.counts(), before_counts)][:2], [1, 1])
                        self.assertIsNone(model.check(0, {"c": make()}))
                        self.assertEqual(model.check(0, {"c": build([*part, items[0]], before)}), Untrue("c", "rows"))

    def test_arrays_are_taken_as_they_are(self) -> None:
        for column, build, items in self.taken():
            for chunk in ({"c": build(items, 3)}, {"c": Stream([build(items, 3)])}):
                for _, values, nulls in footers._chunk_columns([column], chunk):
                    self.assertIsInstance(values, Packed)
                    self.assertIsNone(nulls)
                    self.assertEqual((len(values), values.null_count, values.buffers.offset), (len(items), items.count(None), 3))
                    self.assertEqual(stored(column, values.unpacked()), wanted(column, items))
                    self.assertEqual(values.size, values.data.nbytes + values.ends.nbytes)
        for pieces in ([[1], [None]], [[1], [2], [3]], [[1], [], [None], [3]], [[]]):
            found = Footers.measure([Column("c", DType.I64, True)], [{"c": Stream([numbers("l", "q", it) for it in pieces])}])
            self.assertEqual(found, Footers.measure([Column("c", DType.I64, True)], [{"c": [it for piece in pieces for it in piece]}]))

    def test_batches_are_taken_as_they_are(self) -> None:
        columns = [Column("n", DType.I64, True), Column("s", DType.UTF8, True), Column("x", DType.BOOL)]
        items: dict[str, Items] = {"n": [5, None, 7], "s": ["a", None, "\u00e9"], "x": [True, False, True]}

        def batch(offset: int) -> Array:
            return table({"n": numbers("l", "q", [0] * offset + items["n"], 2, name="n"), "s": texts("u", ["?"] * offset + items["s"], 1, name="s"),
                          "x": truths([True] * offset + items["x"], 6, name="x")}, 3, offset)

        model = Footers.measure(columns, [items], self.WANTED)
        for offset in (0, 5):
            before = producer.counts()
            self.assertEqual(Footers.measure(columns, [batch(offset)], self.WANTED), model)
            self.assertEqual(Footers.measure(columns, Stream([batch(offset)]), self.WANTED), model)
            self.assertEqual([now - then for now, then in zip(producer.counts(), before)], [8, 8, 1, 0])
            self.assertIsNone(model.check(0, batch(offset)))
            for given in (batch(offset), Stream([batch(offset)])):
                for _, values, _ in footers._chunk_columns(columns, given):
                    self.assertIsInstance(values, Packed)
            self.assertEqual(Footers.measure(columns, [Stream([batch(offset), batch(0)])], self.WANTED),
                             Footers.measure(columns, [{name: some * 2 for name, some in items.items()}], self.WANTED))

    def test_refused(self) -> None:
        for form, code in (("u", "i"), ("U", "q")):
            for ends in ([-1, 0, 1], [0, 2, 1], [2, 1, 3], [0, -5, 3]):
                before, made = producer.counts(), Array(form, 2, [None, struct.pack(f"<3{code}", *ends), b"abc"])
                with self.assertRaisesRegex(ValueFault, "^column c, row .: a text ends at .*expected offsets from 0 on that don't descend"):
                    Footers.measure([Column("c", DType.UTF8)], [{"c": made}])
                self.assertEqual([now - then for now, then in zip(producer.counts(), before)], [1, 1, 0, 0])
            with self.assertRaises(Refused) as told:
                Footers.measure([Column("c", DType.UTF8)], [{"c": texts(form, ["a", b"\xff"], 9)}])
            self.assertEqual((told.exception.status, told.exception.column, told.exception.row), (Status.BAD_VALUE, "c", 1))
        with self.assertRaisesRegex(ValueFault, "column c, row 1: null is no value of i64"):
            Footers.measure([Column("c", DType.I64)], [{"c": numbers("l", "q", [1, None], 9)}])
        with self.assertRaisesRegex(ValueFault, "1 values are said to be null, and 2 are"):
            Footers.measure([Column("c", DType.I64, True)], [{"c": numbers("l", "q", [1, None, None], null_count=1)}])


class Frame:
    """A frame that offers the interchange protocol alone."""

    def __init__(self, frame: pandas.DataFrame):
        self.frame = frame

    def __dataframe__(self, *_: object, **__: object) -> Any:
        return self.frame.__dataframe__()


class Interchange(unittest.TestCase):
    def test_frames_of_pandas(self) -> None:
        frame = pandas.DataFrame({
            "i": numpy.array([5, 6, 7, 8], "i2"), "u": numpy.array([5, 6, 7, 8], "u8"), "f": [1.5, -0.0, numpy.inf, 2.0], "b": [True, False, True, True],
            "s": ["x", "", "\u00e9", "zz"], "o": [b"x", None, b"y", b""], "c": pandas.Categorical(["b", None, "a", "b"]),
            "t": pandas.to_datetime(["2026-01-01", None, "2026-01-02", "1960-01-01"]),
        })
        columns = [
            Column("i", DType.I16), Column("u", DType.U64), Column("f", Float64()), Column("b", DType.BOOL), Column("s", DType.UTF8),
            Column("c", Enum(), True), Column("t", Timestamp("ns"), True),
        ]
        for part in (frame, frame[1:3], frame[:0]):
            # pandas itself doesn't hand out objects of which there are none.
            for column in columns if len(part) else [it for it in columns if it.name != "s"]:
                wrapped = Frame(part)
                found = interchange.columns_of([column], wrapped)[column.name]
                items = [None if pandas.isna(it) else it for it in part[column.name].tolist()]
                self.assertEqual(stored(column, found), wanted(column, items), column)

        with self.assertRaisesRegex(ValueFault, "column o: the frame's own code failed: NotImplementedError"):
            interchange.columns_of([Column("o", DType.BINARY, True)], Frame(frame))

    def test_nan_is_null_where_the_frame_says_so(self) -> None:
        column = Column("f", Float64(), True)
        found = interchange.columns_of([column], Frame(pandas.DataFrame({"f": [1.0, math.nan]})))["f"]
        self.assertEqual(stored(column, found), [Float64().stored(1.0), None])

    def test_columns_of_every_null_form(self) -> None:
        data = numpy.array([9, 5, 7, 6], "<i4")
        mask, bits = numpy.array([1, 0, 1, 0], "u1"), numpy.array([0b0101], "u1")
        for told, validity, items in [
            ((0, None), None, [9, 5, 7, 6]), ((2, 7), None, [9, 5, None, 6]), ((3, 0), bits, [9, None, 7, None]), ((3, 1), bits, [None, 5, None, 6]),
            ((4, 0), mask, [9, None, 7, None]), ((4, 1), mask, [None, 5, None, 6]),
        ]:
            for offset in (0, 1):
                made = Told(data, "i", told, validity, offset)
                found = read_column(Column("c", DType.I32, True), made)
                self.assertEqual(stored(Column("c", DType.I32, True), found), items[offset:], (told, offset))

    def test_spoiled_columns_refused(self) -> None:
        data = numpy.array([9, 5, 7, 6], "<i4")
        for change in (
            {"rows": 5}, {"rows": -1}, {"offset": -1}, {"offset": 3, "rows": 4}, {"form": "l"}, {"form": "x"}, {"told": (5, None)}, {"told": (3, 0)},
            {"told": (4, 0), "validity": numpy.zeros(3, "u1")}, {"nulls": 2}, {"order": ">"}, {"device": 2}, {"told": (1, None), "nulls": 1},
        ):
            with self.assertRaises(ValueFault, msg=change):
                read_column(Column("c", DType.I32, True), Told(data, **{"form": "i", "told": (0, None), **change}))


class Told:
    """A column of the protocol, made by hand."""

    def __init__(self, data: numpy.ndarray, form: str, told: tuple[int, Any], validity: Any = None, offset: int = 0, rows: int | None = None, nulls: Any = None,
                 order: str = "=", device: int = 1):
        self.data, self.form, self.describe_null, self.validity, self.offset = data, form, told, validity, offset
        self.rows, self.null_count, self.order, self.device = len(data) - offset if rows is None else rows, nulls, order, device
        self.dtype = (0, 32, form, order)

    def size(self) -> int:
        return self.rows

    def num_chunks(self) -> int:
        return 1

    def get_buffers(self) -> dict[str, Any]:
        held = None if self.validity is None else (Buffer(self.validity, self.device), (1, 8, "C", "="))
        return {"data": (Buffer(self.data, self.device), self.dtype), "validity": held, "offsets": None}


class Buffer:
    def __init__(self, data: numpy.ndarray, device: int):
        self.ptr, self.bufsize, self.device = data.ctypes.data, data.nbytes, device

    def __dlpack_device__(self) -> tuple[int, Any]:
        return self.device, None


if __name__ == "__main__":
    unittest.main()
