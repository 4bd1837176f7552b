# SPDX-License-Identifier: Apache-2.0
"""Row groups of Parquet footers by conditions in SQL, beside a direct filter of the rows of which the footers were written."""
from __future__ import annotations

import datetime
import io
import os
import pathlib
import random
import tempfile
import time
import unittest
import warnings
from typing import Any

from hypothesis import given, settings
from hypothesis import strategies as st

from foalmorrow import Answer, Answers, Footers, SqlError, UnreadWarning, parquet
from foalmorrow.parquet_calls import CRowGroup, CRowRange, _columns, indexes_begin
from foalmorrow.parquet_values import ParquetFault
from foalmorrow.thrift_compact import Thrift
from tests.parquet_footers_of import Wide, file_of, footer, struct_of
from tests.parquet_pages_of import PagedFile
from tests.systems.parquet_writer import Raw, thrift
from tests.test_sql import COMPARISONS, CONDITIONS, PLAIN_LEAVES, Condition, Row, compared, conditions_of, of_day, zones

SEED = int(os.environ.get("FOALMORROW_SEED", "1"))
#: How many files and conditions are drawn; 20000 for the count of a release.
EXAMPLES = int(os.environ.get("FOALMORROW_EXAMPLES", "3000"))


def date(day: int) -> str:
    """The date so many days from 1970."""
    return str(datetime.date(1970, 1, 1) + datetime.timedelta(day))


def of_date(sign: str, day: int, word: str) -> Condition:
    return compared("day", sign, (day,), ("day", f"{word}'{date(day)}'"))


SIGNS = st.sampled_from([sign for sign, _ in COMPARISONS])
#: Conditions that compare dates, and leave texts beside them unread which are no dates.
DATED = conditions_of(
    *PLAIN_LEAVES, st.builds(of_date, SIGNS, st.integers(-4, 9), st.sampled_from(["", "DATE ", "date  "])), st.builds(of_day, SIGNS, st.sampled_from(["'x'", "f(1)"]))
)


@st.composite
def dated_zones(draw: st.DrawFn) -> list[list[Row]]:
    """Zones of rows that have days."""
    found: list[list[Row]] = []
    for zone in draw(zones()):
        base = draw(st.integers(-3, 6))
        found.append([{**row, "day": draw(st.none() | st.integers(base, base + 2))} for row in zone])
    return found


def quietly(file: parquet.File, condition: str, **options: Any) -> parquet.RowGroups:
    with warnings.catch_warnings():
        warnings.simplefilter("ignore", UnreadWarning)
        return file.prune(condition, **options)


class BesideAModel(unittest.TestCase):
    @settings(max_examples=EXAMPLES, deadline=None)
    @given(DATED, dated_zones(), st.integers(0, 2**32))
    def test_no_row_is_lost(self, wanted: Condition, groups: list[list[Row]], dice: int) -> None:
        file = parquet.open(file_of(footer(groups, random.Random(dice))))
        found = quietly(file, wanted.text)
        self.assertEqual(list(found.rows), [len(rows) for rows in groups])
        for answer, rows in zip(found, groups, strict=True):
            truths = {wanted.truth(row) is True for row in rows}
            self.assertTrue(answer != Answer.SKIP or truths <= {False}, wanted.text)
            self.assertTrue(answer != Answer.WHOLE or truths <= {True}, wanted.text)
        self.assertEqual(found.unread, wanted.unread)
        inside = {row for start, stop in found.ranges() for row in range(start, stop)}
        starts = [sum(map(len, groups[:place])) for place in range(len(groups))]
        self.assertEqual(inside, {row for place in found.kept for row in range(starts[place], starts[place] + len(groups[place]))})

    @settings(max_examples=EXAMPLES // 3, deadline=None)
    @given(CONDITIONS, zones(), st.integers(0, 2**32))
    def test_no_row_is_lost_by_footers(self, wanted: Condition, groups: list[list[Row]], dice: int) -> None:
        file = parquet.File(footer(groups, random.Random(dice)))
        footers = file.footers
        with warnings.catch_warnings():
            warnings.simplefilter("ignore", UnreadWarning)
            found = footers.prune(wanted.text)
        for answer, rows in zip(found, groups, strict=True):
            truths = {wanted.truth(row) is True for row in rows}
            self.assertTrue(answer != Answer.SKIP or truths <= {False}, wanted.text)
            self.assertTrue(answer != Answer.WHOLE or truths <= {True}, wanted.text)

    def test_footers_have_the_types_that_sql_has_no_columns_of(self) -> None:
        groups = [[row(day=10), row(day=20)], [row(day=30), row(day=31)]]
        files = [parquet.File(footer(groups, random.Random(dice))).footers for dice in range(100)]
        answers = {day: {tuple(it.prune(f"day >= DATE '{day}'")) for it in files} for day in ("1970-01-22", "1970-02-01")}
        self.assertIn((Answer.SKIP, Answer.WHOLE), answers["1970-01-22"])
        self.assertLessEqual(answers["1970-02-01"], {(Answer.READ, Answer.READ), (Answer.SKIP, Answer.READ), (Answer.READ, Answer.SKIP)})
        self.assertIn((Answer.SKIP, Answer.READ), answers["1970-02-01"])

    def test_footers_are_refused_by_name(self) -> None:
        for data, words in ((b"", "a value passes the end"), (b"\0", "can't be read"), (footer([[row(n=1)]], random.Random(1)) + b"\0", "behind its footer's last field")):
            with self.assertRaisesRegex(ParquetFault, words):
                parquet.File(data).footers

    def test_something_is_skipped_and_whole(self) -> None:
        groups = [[row(n=1), row(n=3)], [row(n=7), row(n=9)]]
        for dice in range(200):
            found = quietly(parquet.open(file_of(footer(groups, random.Random(dice)))), "n > 5")
            if list(found) == [Answer.SKIP, Answer.WHOLE]:
                break
        else:
            self.fail("no footer tells the least and the greatest number")
        self.assertEqual((list(found.kept), list(found.skipped), list(found.whole), found.ranges()), ([1], [0], [1], [(2, 4)]))
        self.assertIn(found.bytes_saved, (0, 207))


def pages_quietly(file: parquet.File, condition: str) -> parquet.RowRanges:
    with warnings.catch_warnings():
        warnings.simplefilter("ignore", UnreadWarning)
        return file.prune_pages(condition)


#: An offset of an index, which may be below 0 or missing.
OFFSETS = st.none() | st.integers(-3, 300) | st.sampled_from([2**40, 2**63 - 1, -(2**63)])


def place_of(offset: int | None) -> Wide | None:
    return None if offset is None else Wide(offset)


class PagesBesideAModel(unittest.TestCase):
    @settings(max_examples=EXAMPLES, deadline=None)
    @given(DATED, st.lists(dated_zones(), min_size=1, max_size=3), st.integers(0, 2**32))
    def test_no_row_is_lost(self, wanted: Condition, drawn: list[list[list[Row]]], dice: int) -> None:
        groups = [[row for zone in zones for row in zone] for zones in drawn]
        rows = [row for group in groups for row in group]
        found = pages_quietly(parquet.open(bytes(PagedFile(groups, random.Random(dice)).data)), wanted.text)
        self.assertEqual([0, *found.stops], [*found.starts, len(rows)])
        for start, stop, answer in found:
            truths = {wanted.truth(row) is True for row in rows[start:stop]}
            self.assertTrue(answer != Answer.SKIP or truths == {False}, wanted.text)
            self.assertTrue(answer != Answer.WHOLE or truths == {True}, wanted.text)
        self.assertEqual(found.unread, wanted.unread)
        ends = [sum(map(len, groups[: place + 1])) for place in range(len(groups))]
        self.assertEqual(list(found.groups), [next(place for place, end in enumerate(ends) if start < end) for start in found.starts])
        inside = [row for start, stop in found.ranges() for row in range(start, stop)]
        self.assertEqual(inside, [row for start, stop, answer in found if answer != Answer.SKIP for row in range(start, stop)])
        self.assertEqual(found.rows_skipped, len(rows) - len(inside))
        self.assertTrue({row for start, stop in found.whole_ranges() for row in range(start, stop)} <= set(inside))

    def test_pages_are_skipped_that_row_groups_are_not(self) -> None:
        skipped = whole = 0
        for dice in range(300):
            rng = random.Random(SEED + dice)
            groups = [[row(n=number // 4, m=None, s="ab") for number in range(24)] for _ in range(2)]
            file = parquet.open(bytes(PagedFile(groups, rng).data))
            self.assertEqual(pages_quietly(file, "n >= 0").rows_skipped, 0)
            found = pages_quietly(file, "n BETWEEN 2 AND 3")
            skipped += found.rows_skipped
            whole += sum(stop - start for start, stop in found.whole_ranges())
        # Of 48 rows in each file 32 are to be skipped, and 16 are whole.
        self.assertGreater(skipped, 300 * 32 // 4)
        self.assertGreater(whole, 300 * 16 // 8)


def named_indexes(data: bytes) -> list[int]:
    """The offsets of page indexes that a footer names, by a decoder of another make."""
    groups = Thrift(data).struct()[4]
    return [chunk[number] for group in groups for chunk in group[1] for number in (4, 6) if chunk.get(number, -1) >= 0]


def named_pages(data: bytes) -> list[tuple[int, ...]]:
    """The data pages of a file by the offset indexes that its footer names, by a decoder of another make."""
    found = []
    for place, group in enumerate(Thrift(parquet.open(data).footer).struct()[4]):
        for column, chunk in enumerate(group[1]):
            if chunk.get(4) is None or chunk.get(5) is None:
                continue
            locations = Thrift(data[chunk[4] : chunk[4] + chunk[5]]).struct()[1]
            ends = [*(it[3] for it in locations[1:]), group[3]]
            # A row group without rows has no page.
            found += [(place, column, it[3], end, it[1], it[2]) for it, end in zip(locations, ends[: len(locations)], strict=True)]
    return found


class MoreRowsThanSixtyFourBits(unittest.TestCase):
    def test_row_groups_of_most_rows_are_placed_exactly(self) -> None:
        most = 2**63 - 1
        found = parquet.RowRanges(Answers([0, 1, 2]), [0, 1, 2], [0, 0, 0], [most, most, most])
        self.assertEqual((found.ranges(), found.rows_skipped), ([(0, most), (2 * most, 3 * most)], most))

    def test_row_groups_of_most_rows_are_pruned_by_pages(self) -> None:
        most = 2**63 - 1

        def group(number: int) -> Raw:
            bound = number.to_bytes(8, "little")
            told = Raw(struct_of((3, Wide(0)), (5, bound), (6, bound)))
            return Raw(struct_of((1, [Raw(struct_of((3, Raw(struct_of((1, 2), (12, told))))))]), (3, Wide(most))))

        elements = [Raw(struct_of((4, b"root"), (5, 1))), Raw(struct_of((1, 2), (3, 1), (4, b"n")))]
        file = parquet.File(struct_of((2, elements), (4, [group(3), group(7), group(4)]), (7, [Raw(thrift((1, Raw(thrift()))))])))
        found = file.prune_pages("n > 5")
        self.assertEqual((found.ranges(), found.rows_skipped), ([(most, 2 * most)], 2 * most))


class DataPagesBesideAModel(unittest.TestCase):
    @settings(max_examples=EXAMPLES, deadline=None)
    @given(DATED, st.lists(dated_zones(), min_size=1, max_size=3), st.integers(0, 2**32))
    def test_bytes_saved_are_those_of_pages_of_skipped_rows(self, wanted: Condition, drawn: list[list[list[Row]]], dice: int) -> None:
        groups = [[row for zone in zones for row in zone] for zones in drawn]
        data = bytes(PagedFile(groups, random.Random(dice)).data)
        file = parquet.open(data)
        pages, told = file.data_pages(), named_pages(data)
        self.assertEqual(list(zip(pages.groups, pages.columns, pages.firsts, pages.ends, pages.offsets, pages.sizes)), told)
        found = pages_quietly(file, wanted.text)
        skipped = [answer == Answer.SKIP for start, stop, answer in found for _ in range(start, stop)]
        starts = [sum(map(len, groups[:place])) for place in range(len(groups))]
        saved = sum(size for group, _, first, end, _, size in told if all(skipped[starts[group] + first : starts[group] + end]))
        self.assertEqual(found.bytes_saved, saved)
        self.assertEqual(found.bytes_saved, saved)

    def test_some_bytes_are_saved(self) -> None:
        groups = [[row(n=number) for number in range(40)], [], [row(n=number) for number in range(40, 60)]]
        saved = whole = 0
        for dice in range(200):
            data = bytes(PagedFile(groups, random.Random(SEED + dice)).data)
            saved += pages_quietly(parquet.open(data), "n < 10").bytes_saved
            whole += sum(size for *_, size in named_pages(data))
        # Of 60 rows 10 are kept at least, where the column has an index.
        self.assertGreater(saved, whole // 10)
        self.assertLess(saved, whole * 5 // 6)

    def test_a_file_without_indexes_saves_no_data_pages(self) -> None:
        file = parquet.open(file_of(footer([[row(n=1), row(n=3)], [row(n=7)]], random.Random(2))))
        self.assertEqual((len(file.data_pages()), pages_quietly(file, "n > 5").bytes_saved), (0, 0))
        self.assertEqual(parquet.RowRanges(Answers([0]), [0], [0], [5]).bytes_saved, 0)

    def test_faults_of_offset_indexes_are_named(self) -> None:
        groups = [[row(n=number) for number in range(20)]]
        names, answers = set(), 0
        for dice in range(20):
            it = PagedFile(groups, random.Random(SEED + dice))
            for place in range(it.begin, it.end):
                data = bytearray(it.data)
                data[place] ^= 1 << dice % 8
                try:
                    pages = parquet.open(bytes(data)).data_pages()
                except parquet.FooterFault as fault:
                    names.add(fault.fault)
                else:
                    answers += 1
                    self.assertTrue(all(first < end <= 20 for first, end in zip(pages.firsts, pages.ends, strict=True)))
        self.assertLessEqual({"PAGES", "SHORT", "KIND"}, names)
        self.assertGreater(answers, 100)

    def test_other_columns_than_the_schema_has(self) -> None:
        group = struct_of((1, []), (3, Wide(1)))
        data = struct_of((2, [Raw(struct_of((4, b"root"), (5, 1))), Raw(struct_of((1, 1), (3, 1), (4, b"n")))]), (4, [Raw(group)]))
        for bad, fault in ((b"", "SHORT"), (data, "COLUMNS")):
            with self.assertRaises(parquet.FooterFault) as told:
                parquet.File(bad).data_pages()
            self.assertEqual(told.exception.fault, fault)


class Records(unittest.TestCase):
    @given(st.sampled_from([CRowGroup, CRowRange]), st.lists(st.lists(st.integers(0, 2**64 - 1), min_size=4, max_size=4), max_size=20), st.integers(0, 3))
    def test_records_become_columns(self, kind: type[CRowGroup | CRowRange], rows: list[list[int]], room: int) -> None:
        names = [name for name, *_ in kind._fields_]
        told = (kind * (len(rows) + room))(*(kind(*row[: len(names) - 1], row[-1] % 256) for row in rows))
        columns, codes = _columns(told, len(rows))
        self.assertEqual([list(it) for it in columns], [[getattr(it, name) for it in told[: len(rows)]] for name in names[:-1]])
        self.assertEqual(list(codes), [it.answer for it in told[: len(rows)]])


class WhereIndexesBegin(unittest.TestCase):
    @settings(max_examples=EXAMPLES // 3, deadline=None)
    @given(st.lists(zones(), max_size=3), st.integers(0, 2**32))
    def test_no_named_index_is_passed_over(self, drawn: list[list[list[Row]]], dice: int) -> None:
        groups = [[row for zone in zones for row in zone] for zones in drawn]
        data = parquet.open(bytes(PagedFile(groups, random.Random(dice)).data)).footer
        self.assertEqual(indexes_begin(data), min(named_indexes(data), default=None))

    @settings(max_examples=EXAMPLES // 3, deadline=None)
    @given(st.lists(st.lists(st.tuples(OFFSETS, OFFSETS), max_size=4), max_size=4))
    def test_any_offset_may_be_named(self, drawn: list[list[tuple[int | None, int | None]]]) -> None:
        chunks = [[Raw(struct_of((4, place_of(first)), (6, place_of(second)))) for first, second in group] for group in drawn]
        data = struct_of((4, [Raw(struct_of((1, it), (3, Wide(1)))) for it in chunks]))
        offsets = [place for group in drawn for pair in group for place in pair if place is not None and place >= 0]
        self.assertEqual(indexes_begin(data), min(offsets, default=None))

    def test_faults_are_named(self) -> None:
        for data, fault in ((b"", "SHORT"), (struct_of((4, [Raw(struct_of((1, [])))])), "MISSING")):
            with self.assertRaises(parquet.FooterFault) as told:
                indexes_begin(data)
            self.assertEqual(told.exception.fault, fault)


class Pages(unittest.TestCase):
    """A file whose row groups have pages of rows that ascend."""

    def file(self) -> PagedFile:
        groups = [[row(n=number) for number in range(0, 40)], [], [row(n=number) for number in range(40, 60)]]
        for dice in range(1000):
            found = PagedFile(groups, random.Random(dice))
            if pages_quietly(parquet.open(bytes(found.data)), "n < 10").ranges()[-1:] in ([(0, 10)], [(0, 11)], [(0, 12)]):
                return found
        self.fail("no file skips pages")

    def test_rows_are_those_of_the_file(self) -> None:
        found = pages_quietly(parquet.open(bytes(self.file().data)), "n < 10")
        self.assertEqual(len(found.ranges()), 1)
        self.assertEqual(list(found.kept_groups), [0])
        self.assertEqual(found.rows_skipped, 60 - found.ranges()[0][1])
        self.assertEqual(set(found.groups), {0, 2})

    def test_the_indexes_alone_are_read(self) -> None:
        it = self.file()
        read: list[tuple[int, int]] = []

        class Counted(io.BytesIO):
            def read(self, size: int | None = -1) -> bytes:
                start = self.tell()
                found = super().read(size)
                read.append((start, start + len(found)))
                return found

        stream = Counted(bytes(it.data))
        stream.seek(3)
        file = parquet.open(stream)
        read.clear()
        whole = pages_quietly(file, "n < 10")
        self.assertEqual((read, stream.tell()), ([(it.begin, it.end)], 3))
        again = pages_quietly(file, "n < 10")
        self.assertEqual((len(read), again.ranges()), (1, whole.ranges()))

    def test_each_source(self) -> None:
        data = bytes(self.file().data)
        wanted = pages_quietly(parquet.open(data), "n < 10").ranges()
        with tempfile.TemporaryDirectory() as folder:
            path = pathlib.Path(folder) / "a.parquet"
            path.write_bytes(data)
            file = parquet.open(path)
            self.assertEqual(pages_quietly(file, "n < 10").ranges(), wanted)
            later = parquet.open(path)
            path.write_bytes(data + b"more")
            self.assertEqual(pages_quietly(file, "n < 10").ranges(), wanted)
            with self.assertRaisesRegex(OSError, "when its footer was read"):
                later.prune_pages("n < 10")
            self.assert_no_other_file_is_joined(path, data)
        # Bytes that don't begin as a file does may be its end, of which it isn't known where it begins.
        for file in (parquet.open(b"end" + data), parquet.File(parquet.open(data).footer)):
            self.assertEqual(pages_quietly(file, "n < 10").ranges(), [(0, 40)] if list(quietly(file, "n < 10").kept) == [0] else [(0, 60)])

    def assert_no_other_file_is_joined(self, path: pathlib.Path, data: bytes) -> None:
        """Neither one of the same size that takes its place, nor new bytes under its times."""
        path.write_bytes(data)
        told = path.stat()
        other = path.with_name("b.parquet")
        other.write_bytes(data)
        os.utime(other, ns=(told.st_atime_ns, told.st_mtime_ns))

        def rewritten() -> None:
            path.write_bytes(bytes(data))
            os.utime(path, ns=(told.st_atime_ns, told.st_mtime_ns))

        for change in (lambda: os.replace(other, path), rewritten):
            file = parquet.open(path)
            time.sleep(0.02)
            change()
            with self.assertRaisesRegex(OSError, "was changed, or replaced by another one, since its footer was read"):
                file.prune_pages("n < 10")
        with path.open("rb") as kept:
            file = parquet.open(kept)
            time.sleep(0.02)
            rewritten()
            with self.assertRaisesRegex(OSError, "was changed"):
                file.data_pages()

    def test_a_file_without_indexes_is_pruned_by_its_row_groups(self) -> None:
        file = parquet.open(file_of(footer([[row(n=1), row(n=3)], [row(n=7)]], random.Random(2))))
        groups, pages = quietly(file, "n > 5"), pages_quietly(file, "n > 5")
        self.assertEqual((list(pages.answers), pages.ranges()), (list(groups), groups.ranges()))

    def test_faults_of_pages_are_named(self) -> None:
        it = self.file()
        names = set()
        for place in range(it.begin, it.end):
            data = bytearray(it.data)
            data[place] ^= 1
            try:
                pages_quietly(parquet.open(bytes(data)), "n < 10")
            except parquet.FooterFault as fault:
                names.add(fault.fault)
        self.assertIn("PAGES", names)


def row(**cells: Any) -> Row:
    return {"n": None, "m": None, "s": None, "t": None, "day": None, "hidden": (None, None)} | cells


class EachByte(unittest.TestCase):
    def test_each_byte_of_some_footers_has_each_value(self) -> None:
        groups = [[row(n=1, s="ab"), row(n=3, m=2)], []]
        for dice in range(2):
            whole = footer(groups, random.Random(SEED + dice))
            for place in range(0, len(whole), 1 if dice else 3):
                for value in range(256):
                    file = parquet.File(whole[:place] + bytes([value]) + whole[place + 1 :])
                    try:
                        quietly(file, "n > 2 AND s LIKE 'a%' OR t")
                    except (ParquetFault, SqlError):
                        pass
            for length in range(len(whole)):
                with self.assertRaises(parquet.FooterFault):
                    quietly(parquet.File(whole[:length]), "n > 2")


class Sources(unittest.TestCase):
    DATA = file_of(footer([[row(n=1)], [row(n=5), row(n=6)]], random.Random(3)))

    def rows(self, file: parquet.File) -> list[int]:
        return list(quietly(file, "n > 2").rows)

    def test_each_source(self) -> None:
        self.assertEqual(self.rows(parquet.open(self.DATA)), [1, 2])
        self.assertEqual(self.rows(parquet.open(memoryview(b"pages" + self.DATA))), [1, 2])
        with tempfile.TemporaryDirectory() as folder:
            path = pathlib.Path(folder) / "a.parquet"
            path.write_bytes(self.DATA)
            self.assertEqual(self.rows(parquet.open(path)), [1, 2])
            self.assertEqual(self.rows(parquet.open(str(path))), [1, 2])
            with path.open("rb") as file:
                file.seek(2)
                self.assertEqual(self.rows(parquet.open(file)), [1, 2])
                self.assertEqual(file.tell(), 2)

    def test_the_footer_alone_is_read(self) -> None:
        read: list[int] = []

        class Counted(io.BytesIO):
            def read(self, size: int | None = -1) -> bytes:
                # One byte less than is asked for, as a socket gives them.
                found = super().read(max(1, (size or 1) - 1))
                read.append(len(found))
                return found

        self.assertEqual(self.rows(parquet.open(Counted(bytes(10**6) + self.DATA))), [1, 2])
        self.assertEqual(sum(read), len(self.DATA) - 4)

    def test_metadata_of_pyarrow_is_taken_by_its_own_bytes(self) -> None:
        class Metadata:
            def write_metadata_file(self, where: io.BytesIO) -> None:
                where.write(Sources.DATA)

        self.assertEqual(self.rows(parquet.open(Metadata())), [1, 2])

    def test_faults_are_named(self) -> None:
        cases = {b"": "NOT_PARQUET", b"PAR1": "NOT_PARQUET", bytes(4) + b"PARE": "ENCRYPTED", b"\x09" + bytes(3) + b"PAR1": "FOOTER_LENGTH"}
        for data, fault in cases.items():
            with self.assertRaises(parquet.FooterFault) as told:
                parquet.open(data)
            self.assertEqual(told.exception.fault, fault)
        with self.assertRaises(parquet.FooterFault) as told:
            parquet.File(b"").prune("n > 2")
        self.assertEqual(told.exception.fault, "SHORT")
        with self.assertRaises(TypeError):
            parquet.open(5)
        with self.assertRaises(OSError):
            parquet.open("/nowhere/a.parquet")

        class Cut(io.BytesIO):
            def read(self, size: int | None = -1) -> bytes:
                return b""

        with self.assertRaisesRegex(OSError, "couldn't be read"):
            parquet.open(Cut(self.DATA))

    def test_sql_faults_have_their_characters(self) -> None:
        with self.assertRaises(SqlError) as told:
            parquet.open(self.DATA).prune("é = 1 OR n = 'x'")
        self.assertEqual((told.exception.start, told.exception.end), (9, 16))

    def test_unread_tests_are_told_once(self) -> None:
        with self.assertWarns(UnreadWarning) as told:
            found = parquet.open(self.DATA).prune("n > 2 AND lower(s) = 'é' AND week > 5")
        self.assertEqual(found.unread, ("lower(s) = 'é'", "week > 5"))
        self.assertEqual(found.explained().splitlines()[1:], ["not read, at character 10: lower(s) = 'é'", "not read, at character 29: week > 5"])
        self.assertEqual(told.filename, __file__)


class Columns(unittest.TestCase):
    """A schema with a list, a group, a name twice, an instant, a decimal and a floating number."""

    def file(self) -> parquet.File:
        elements = [
            struct_of((4, b"root"), (5, 8)), struct_of((1, 2), (3, 1), (4, b"n")), struct_of((1, 2), (3, 2), (4, b"repeated")),
            struct_of((3, 1), (4, b"nested"), (5, 1)), struct_of((1, 2), (3, 1), (4, b"below")), struct_of((1, 2), (3, 1), (4, b"twice")),
            struct_of((1, 2), (3, 1), (4, b"twice")), struct_of((1, 2), (3, 1), (4, b"at"), (6, 10)), struct_of((1, 5), (3, 1), (4, b"x")),
            struct_of((1, 1), (3, 1), (4, b"price"), (6, 5), (7, 2), (8, 9)),
        ]
        eight, four = (5).to_bytes(8, "little"), (5).to_bytes(4, "little")
        chunks = []
        for physical in (2, 2, 2, 2, 2, 2, 5, 1):
            bound = four if physical == 1 else eight
            told = Raw(struct_of((3, Wide(0)), (5, bound), (6, bound), (7, True), (8, True)))
            chunks.append(Raw(struct_of((3, Raw(struct_of((1, physical), (12, told)))))))
        orders = [Raw(thrift((1, Raw(thrift())))) for _ in chunks]
        group = struct_of((1, chunks), (3, Wide(4)), (6, Wide(100)))
        return parquet.File(struct_of((2, [Raw(it) for it in elements]), (4, [Raw(group)]), (7, orders)))

    def test_columns_of_which_no_test_could_be_meant(self) -> None:
        for name, reason in (("repeated", "a list of values"), ("nested", "columns below"), ("twice", "several of this name")):
            with self.assertRaisesRegex(parquet.NotReadError, reason) as told:
                self.file().prune(f"n = 5 AND {name} IS NULL AND repeated = 1")
            self.assertEqual((told.exception.start, told.exception.end), (10, 10 + len(name) + 8))

    def test_columns_of_which_nothing_is_known_are_never_compared(self) -> None:
        for name in ("below", "nowhere"):
            for test in (f"{name} = 5", f"{name} > 5", f"NOT {name} < 6", f"{name} IN (6, 7)", f"{name} = {name}"):
                found = quietly(self.file(), test)
                self.assertEqual((list(found), len(found.unread)), ([Answer.READ], 1), test)
                self.assertEqual(list(quietly(self.file(), f"n > 5 AND {test}")), [Answer.SKIP])
        self.assertEqual(list(quietly(self.file(), "n = 5")), [Answer.WHOLE])

    def test_numbers_are_compared_by_what_they_stand_for(self) -> None:
        # The price is 0.05, and the instant 5 microseconds behind the beginning of 1970.
        instant = "1970-01-01 00:00:00.000005+00"
        cases = {
            "price = 0.05": Answer.WHOLE, "price = 5": Answer.SKIP, "price > 0.049": Answer.WHOLE, "price IN (5, 0.06)": Answer.SKIP,
            f"at = TIMESTAMPTZ '{instant}'": Answer.WHOLE, f"at > '{instant}'": Answer.SKIP, "at < '1970-01-01 01:00:00.000005+01'": Answer.SKIP,
        }
        for test, answer in cases.items():
            found = quietly(self.file(), test)
            self.assertEqual((list(found), found.unread), ([answer], ()), test)

    def test_a_number_beside_an_instant_is_refused(self) -> None:
        for test in ("at = 5", "5 < at", "at BETWEEN 1 AND 2", "at IN (5)"):
            with self.assertRaises(SqlError) as told:
                self.file().prune(f"n = 5 AND {test}")
            self.assertEqual((told.exception.start, told.exception.end), (10, 10 + len(test)), test)

    def test_a_time_without_a_zone_beside_an_instant_is_left_unread(self) -> None:
        for test in ("at > '1970-01-02'", "at > TIMESTAMP '1970-01-02 00:00:00'", "at > DATE '1970-01-02'"):
            found = quietly(self.file(), test)
            self.assertEqual((list(found), found.unread), ([Answer.READ], (test,)), test)

    def test_names_of_several_parts(self) -> None:
        self.assertEqual(quietly(self.file(), "t.n > 5").unread, ("t.n > 5",))
        found = quietly(self.file(), "t.n > 5", last_names=True)
        self.assertEqual((list(found), found.unread, found.bytes_saved, found.ranges()), ([Answer.SKIP], (), 100, []))


if __name__ == "__main__":
    unittest.main()
