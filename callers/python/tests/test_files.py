# SPDX-License-Identifier: Apache-2.0
"""Files of footers: whatever the bytes are, they are footers or a FooterError."""
import json
import os
import pathlib
import random
import stat as modes
import tempfile
import time
import unittest
import unittest.mock
import zlib
from array import array
from typing import Any

from foalmorrow import Column, DType, FooterError, Footers, Precision, Stat, Statistic, Values
from foalmorrow.files import MAGIC
from foalmorrow.stamps import Stamp, stamp_of

SEED = int(os.environ.get("FOALMORROW_SEED", "1"))
A, S, B = Column("a", DType.I64, True), Column("s", DType.UTF8), Column("b", DType.BOOL)


def small() -> Footers:
    given = {
        ("a", Stat.MIN): ([1, None], Precision.EXACT),
        ("a", Stat.NULL_COUNT): ([0, 1], bytes([1, 2])),
        ("s", Stat.MAX): (["é", "zz"], Precision.INEXACT),
        ("b", Stat.MIN): ([False, True], Precision.EXACT),
    }
    return Footers.of_values([A, S, B], [3, 4], given)


def sealed(body: bytes) -> bytes:
    """The bytes with a right checksum."""
    return body + zlib.crc32(body).to_bytes(4, "little")


def parts() -> tuple[dict[str, Any], bytes]:
    """The header and the arrays of a small file."""
    body = small().to_bytes("a note")[len(MAGIC) : -4]
    size = int.from_bytes(body[:8], "little")
    return json.loads(body[8 : 8 + size]), body[8 + size :]


def made(header: object, arrays: bytes) -> bytes:
    spelled = header if isinstance(header, bytes) else json.dumps(header).encode()
    return sealed(MAGIC + len(spelled).to_bytes(8, "little") + spelled + arrays)


class Hostile(unittest.TestCase):
    def refused(self, data: bytes, words: str = "") -> None:
        with self.assertRaisesRegex(FooterError, words):
            Footers.from_bytes(data)

    def with_header(self, *path: object, value: object) -> bytes:
        header, arrays = parts()
        place: Any = header
        for step in path[:-1]:
            place = place[step]
        place[path[-1]] = value
        return made(header, arrays)

    def with_arrays(self, at: int, value: int) -> bytes:
        header, arrays = parts()
        changed = bytearray(arrays)
        changed[at] = value
        return made(header, bytes(changed))

    def test_small_file_is_read(self) -> None:
        header, arrays = parts()
        self.assertEqual(Footers.from_bytes(made(header, arrays)), (small(), "a note"))

    def test_deep_header_refused(self) -> None:
        for depth in (1_000, 100_000, 1_000_000):
            self.refused(made(b"[" * depth + b"]" * depth, b""))
            self.refused(made(b'{"a":' * depth + b"1" + b"}" * depth, b""))
        self.refused(made(b"[" * 1_000_000, b""))

    def test_header_that_is_no_json_refused(self) -> None:
        for header in (b"", b"{", b"\xff", b"null", b"[]", b"5", '{"note":""}'.encode("utf-16"), b"\xef\xbb\xbf{}", b"9" * 5000):
            self.refused(made(header, b""))

    def test_header_longer_than_the_file_refused(self) -> None:
        for size in (10**6, 2**63, 2**64 - 1):
            self.refused(sealed(MAGIC + size.to_bytes(8, "little")), "more than the file")

    def test_wrong_types_refused(self) -> None:
        odd = [None, True, 1.5, 1e400, float("nan"), -1, 2**64, 10**400, "x", [], {}, [1], "1"]
        for path in [("note",), ("zones",), ("columns",), ("columns", 0), ("columns", 0, "name"), ("columns", 0, "type"), ("columns", 0, "nullable")]:
            for value in odd:
                if not (path == ("note",) and isinstance(value, str)) and not (path[-1] == "nullable" and value is True):
                    self.refused(self.with_header(*path, value=value))
        for path in [
            ("statistics",), ("statistics", 0), ("statistics", 0, "column"), ("statistics", 0, "stat"), ("statistics", 0, "bytes"),
            ("statistics", 0, "bytes", 0),
        ]:
            for value in odd:
                self.refused(self.with_header(*path, value=value))
        self.refused(self.with_header("columns", 0, "nullable", value=1.5), "number 1.5|nullable")

    def test_number_with_a_sign_or_a_fraction_refused(self) -> None:
        header, arrays = parts()
        spelled = json.dumps(header).encode()
        for word in (b"-0", b"2.0", b"2e0", b"-2", b"NaN", b"Infinity", b"9" * 20):
            self.refused(made(spelled.replace(b'"zones": 2', b'"zones": ' + word), arrays), "whole numbers alone")

    def test_other_fields_refused(self) -> None:
        for path in [("more",), ("columns", 0, "more"), ("statistics", 0, "more")]:
            self.refused(self.with_header(*path, value=1), "fields")
        header, arrays = parts()
        for name in list(header):
            self.refused(made({key: value for key, value in header.items() if key != name}, arrays), "fields")

    def test_same_thing_twice_refused(self) -> None:
        header, arrays = parts()
        self.refused(made({**header, "statistics": header["statistics"] + header["statistics"][:1]}, arrays + bytes(10)), "listed twice|cut short")
        self.refused(made({**header, "statistics": [header["statistics"][0]] * 2}, arrays), "listed twice")
        self.refused(made({**header, "columns": header["columns"] + header["columns"][:1]}, arrays), "column a is listed twice")
        self.refused(made(json.dumps(header).encode().replace(b'"note"', b'"zones": 2, "note"', 1), arrays), "stands twice")

    def test_other_lengths_refused(self) -> None:
        header, arrays = parts()
        self.refused(made(header, arrays + b"\0"), "1 bytes stand behind the last array")
        self.refused(made(header, arrays[:-1]), "cut short")
        self.refused(made({**header, "zones": 1}, arrays), "isn't of 1 zones|cut short")
        self.refused(made({**header, "zones": 2**62}, arrays), "cut short")
        for lengths in ([2, 16], [2, 16, 0, 0], [2, 15, 1], [1, 16, 0], [2, 16, 8]):
            self.refused(self.with_header("statistics", 0, "bytes", value=lengths))

    def test_statistic_of_no_column_or_kind_refused(self) -> None:
        self.refused(self.with_header("statistics", 0, "column", value="c"), "isn't listed")
        self.refused(self.with_header("statistics", 0, "stat", value="NAN_COUNT"), "no kind")
        self.refused(self.with_header("statistics", 2, "stat", value="SUM"), "utf8 has no sum")

    def test_bytes_that_are_no_values_refused(self) -> None:
        # 16 bytes of rows; of each statistic how it is known, the values and the ends.
        least, text = 16, 16 + 18 + 18
        self.refused(self.with_arrays(least, 3), "column a: min: a byte above 2")
        self.refused(self.with_arrays(text + 2, 0xFF), "column s: max, zone 0: a text isn't UTF-8")
        self.refused(self.with_arrays(text + 6, 1), "zone 0: a text isn't UTF-8")
        self.refused(self.with_arrays(text + 6, 9), "ends behind the heap")
        self.refused(self.with_arrays(text + 14, 1), "begins behind its end")
        self.refused(self.with_arrays(text + 14, 5), "ends behind the heap")
        self.refused(self.with_arrays(text + 21, 0xFF), "ends behind the heap")
        self.refused(self.with_arrays(text + 24, 2), "column b: min: a truth is above 1")

    def test_absent_value_may_be_anything(self) -> None:
        known = memoryview(bytes([1, 0]))
        torn = Statistic(known, Values.of_heap(DType.UTF8, b"a\xff", array("Q", [1, 2])))
        truths = Statistic(known, Values(DType.BOOL, memoryview(b"\1\7"), memoryview(b""), 2))
        footers = Footers([S, B], [1, 1], {("s", Stat.MIN): torn, ("b", Stat.MIN): truths})
        self.assertEqual(Footers.from_bytes(footers.to_bytes())[0], footers)

    def test_every_changed_byte_is_footers_or_refused(self) -> None:
        data = small().to_bytes("n")[:-4]
        read = 0
        for at in range(len(data)):
            for value in {0, 1, 2, 3, 9, 34, 45, 48, 57, 91, 127, 128, 255, data[at] ^ 1, data[at] ^ 128}:
                read += self.outcome(sealed(data[:at] + bytes([value]) + data[at + 1 :]))
        self.assertGreater(read, len(data))

    def test_every_cut_and_growth_is_refused(self) -> None:
        data = small().to_bytes("n")[:-4]
        for at in range(len(data)):
            self.refused(sealed(data[:at]))
            self.outcome(sealed(data[:at] + b"0" + data[at:]))

    def test_random_headers_are_footers_or_refused(self) -> None:
        rng, read = random.Random(SEED), 0
        for _ in range(3000):
            header, arrays = parts()
            for _ in range(rng.randrange(1, 3)):
                mutate(rng, header)
            read += self.outcome(made(header, arrays))
        self.assertGreater(read, 0)

    def outcome(self, data: bytes) -> bool:
        """Whether the bytes are footers; if so every zone of them can be read."""
        try:
            footers, note = Footers.from_bytes(data)
        except FooterError:
            return False
        for zone in range(len(footers)):
            footers.at(zone)
        self.assertEqual(Footers.from_bytes(footers.to_bytes(note)), (footers, note))
        return True


def mutate(rng: random.Random, place: Any) -> None:
    """Changes one thing somewhere in a header."""
    key = rng.choice(list(place) if isinstance(place, dict) else range(len(place)))
    if isinstance(place[key], (dict, list)) and place[key] and rng.random() < 0.8:
        return mutate(rng, place[key])
    odd = [None, True, False, 0, 1, 2, 3, 16, -1, 1.5, 2**70, "", "a", "s", "MIN", "I64", "UTF8", "NULL", [], {}, [0, 0, 0], [2, 16, 0], place]
    place[key] = rng.choice(odd[:-1]) if rng.random() < 0.9 else json.loads(json.dumps(place))
    if rng.random() < 0.1 and isinstance(place, list):
        place.append(json.loads(json.dumps(place[0])))
    return None


class Saving(unittest.TestCase):
    def setUp(self) -> None:
        folder = tempfile.TemporaryDirectory()
        self.addCleanup(folder.cleanup)
        self.folder, self.path = folder.name, os.path.join(folder.name, "footers")
        self.addCleanup(os.umask, os.umask(0o022))

    def mode(self) -> int:
        return modes.S_IMODE(os.stat(self.path).st_mode)

    def test_new_file_has_what_the_umask_leaves(self) -> None:
        for umask, wanted in [(0o022, 0o644), (0o077, 0o600), (0o002, 0o664)]:
            os.umask(umask)
            small().save(self.path)
            self.assertEqual(self.mode(), wanted)
            os.unlink(self.path)

    def test_old_file_keeps_its_mode(self) -> None:
        for wanted in (0o644, 0o600, 0o664, 0o640):
            small().save(self.path)
            os.chmod(self.path, wanted)
            small().save(self.path, "again")
            self.assertEqual((self.mode(), Footers.load_with_note(self.path)[1]), (wanted, "again"))

    def test_refused_save_leaves_the_old_file(self) -> None:
        small().save(self.path, "old")
        with self.assertRaises(FooterError):
            small().save(self.path, "\ud800")
        wrong = Statistic(memoryview(b"\3\0"), Values.of(DType.I64, [1, 2]))
        with self.assertRaisesRegex(FooterError, "a byte above 2"):
            Footers([A], [1, 1], {("a", Stat.MIN): wrong}).save(self.path)
        with self.assertRaisesRegex(FooterError, "surrogates"):
            Footers([Column("\ud800", DType.I64)], [1]).save(self.path)
        self.assertEqual((Footers.load_with_note(self.path)[1], os.listdir(self.folder)), ("old", ["footers"]))
        with self.assertRaises(OSError):
            small().save(os.path.join(self.folder, "no", "such"))


class Stamps(unittest.TestCase):
    def setUp(self) -> None:
        home = tempfile.TemporaryDirectory()
        self.addCleanup(home.cleanup)
        self.folder = pathlib.Path(home.name)
        (self.folder / "in").mkdir()
        for name in ("a", "b", "in/c"):
            (self.folder / name).write_bytes(b"1234")

    def stamps(self) -> tuple[Stamp, Stamp]:
        return stamp_of(str(self.folder / "a")), stamp_of(str(self.folder))

    def test_nothing_changed(self) -> None:
        self.assertEqual(self.stamps(), self.stamps())
        self.assertEqual((self.stamps()[0].size, self.stamps()[1].size), (4, 12))

    def test_each_change_of_a_folder_is_seen(self) -> None:
        def swap() -> None:
            for source, goal in (("a", "d"), ("b", "a"), ("d", "b")):
                (self.folder / source).rename(self.folder / goal)

        def replace(name: str, data: bytes) -> None:
            told = (self.folder / name).stat()
            (self.folder / name).write_bytes(data)
            os.utime(self.folder / name, ns=(told.st_atime_ns, told.st_mtime_ns))

        changes = [
            swap, lambda: replace("b", b"4321"), lambda: replace("in/c", b"4321"), lambda: replace("a", b"43210"),
            lambda: (self.folder / "b").rename(self.folder / "e"), lambda: (self.folder / "in/c").unlink(),
        ]
        for change in changes:
            before = self.stamps()[1]
            time.sleep(0.02)
            change()
            self.assertNotEqual(before, self.stamps()[1])

    def test_names_of_the_same_sizes_and_times_are_told_apart(self) -> None:
        told = os.stat(self.folder / "a")
        with unittest.mock.patch.object(os, "stat", side_effect=lambda path: os.lstat(path) if os.path.basename(path) not in ("a", "f") else told):
            before = self.stamps()[1]
            os.rename(self.folder / "a", self.folder / "f")
            self.assertNotEqual(before, stamp_of(str(self.folder)))

    def test_what_is_gone_is_an_error(self) -> None:
        with self.assertRaises(FileNotFoundError):
            stamp_of(str(self.folder / "z"))


if __name__ == "__main__":
    unittest.main()
