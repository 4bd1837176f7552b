# SPDX-License-Identifier: Apache-2.0
"""Where the library is looked for."""
from __future__ import annotations

import os
import pathlib
import tempfile
import unittest
from unittest import mock

from foalmorrow import library


class Place(unittest.TestCase):
    def test_named_library_comes_first(self) -> None:
        with mock.patch.dict(os.environ, {"FOALMORROW_LIBRARY": "/nowhere/library.so"}):
            self.assertEqual(library._path(), "/nowhere/library.so")
            with self.assertRaisesRegex(library.LibraryError, "isn't at /nowhere/library.so; a wheel has it inside"):
                library._load()

    def test_other_library_is_refused(self) -> None:
        with tempfile.NamedTemporaryFile(suffix=".so") as empty, mock.patch.dict(os.environ, {"FOALMORROW_LIBRARY": empty.name}):
            with self.assertRaises(library.LibraryError):
                library._load()

    def test_package_then_checkout_then_system(self) -> None:
        with tempfile.TemporaryDirectory() as top, mock.patch.dict(os.environ):
            os.environ.pop("FOALMORROW_LIBRARY", None)
            package, built = pathlib.Path(top, "python", "foalmorrow"), pathlib.Path(top, "out")
            package.mkdir(parents=True)
            built.mkdir()
            with mock.patch.object(library, "__file__", str(package / "library.py")):
                self.assertEqual(library._path(), "libfoalmorrow.so.0")
                (built / "libvortex_ffi.so").touch()
                self.assertEqual(library._path(), str((built / "libvortex_ffi.so").resolve()))
                (package / "libfoalmorrow.so").touch()
                self.assertEqual(library._path(), str((package / "libfoalmorrow.so").resolve()))


if __name__ == "__main__":
    unittest.main()
