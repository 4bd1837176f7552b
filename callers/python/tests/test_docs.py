# SPDX-License-Identifier: Apache-2.0
"""The examples of the package's pages: each public name has one, and each runs."""
import doctest
import importlib
import importlib.resources
import importlib.util
import unittest

import foalmorrow
from foalmorrow.predicate import ColumnOf

try:
    import numpy
except ImportError:
    numpy = None

#: Modules whose examples run without a database, a cluster or pandas.
MODULES = [
    "answers", "arrays", "explain", "filters", "floats", "footers", "instants", "items", "kinds", "library", "lowering", "overlap", "predicate", "reading",
    "spelling", "sql", "stamps", "statistic", "strict_json", "tables", "types",
]
MODULES += ["arrow", "interchange", "layouts", "logical_reading"] if numpy is not None else []
MODULES += ["frames"] if importlib.util.find_spec("pandas") is not None else []
#: A picture needs matplotlib.
WITHOUT = {"Footers.plot"}


def load_tests(_: object, tests: unittest.TestSuite, __: object) -> unittest.TestSuite:
    for name in MODULES:
        module = importlib.import_module(f"foalmorrow.{name}")
        # A reader has the package's names at hand.
        names = {public: getattr(foalmorrow, public) for public in foalmorrow.__all__ if not hasattr(module, public)}
        tests.addTests(doctest.DocTestSuite(module, extraglobs=names))
    return tests


def has_example(made: object, name: str) -> bool:
    """Whether a method has an example, or the one that it stands for in a class above it."""
    classes = made.__mro__ if isinstance(made, type) else ()
    return any(">>>" in (getattr(vars(it).get(name), "__doc__", None) or getattr(getattr(it, name, None), "__doc__", None) or "") for it in classes)


class Examples(unittest.TestCase):
    def test_each_public_name_has_one(self) -> None:
        for name in foalmorrow.__all__:
            made = getattr(foalmorrow, name)
            if not isinstance(made, tuple):
                self.assertIn(">>>", made.__doc__ or "", name)

    def test_each_method_has_one(self) -> None:
        classes = [foalmorrow.Answers, foalmorrow.Explanation, foalmorrow.Footers, foalmorrow.Logical, foalmorrow.Predicate, foalmorrow.Statistic, foalmorrow.Values]
        for made in [*classes, ColumnOf, foalmorrow.Date, foalmorrow.Decimal, foalmorrow.Timestamp, foalmorrow.Uuid]:
            for name, method in vars(made).items():
                is_method = callable(method) or isinstance(method, (classmethod, staticmethod))
                if not name.startswith("_") and is_method and f"{made.__name__}.{name}" not in WITHOUT:
                    self.assertTrue(has_example(made, name), f"{made.__name__}.{name}")

    def test_package_has_types(self) -> None:
        self.assertIsNotNone(importlib.resources.files("foalmorrow").joinpath("py.typed").read_text())


if __name__ == "__main__":
    unittest.main()
