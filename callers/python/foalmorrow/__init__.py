# SPDX-License-Identifier: Apache-2.0
"""Footers of a table's zones: statistics that are true of their rows by proof, as arrays and in a file; and the program's answers."""
from .answers import Answers
from .arrays import ValueFault, Values
from .explain import Explanation
from .footers import ALL, PRUNING, FooterError, Footers, Nullable, Statistic, Untrue
from .library import LibraryError, Refused, run, version
from .overlap import Overlap
from .predicate import Predicate, PredicateError, col, opaque
from .kinds import Answer, Column, DType, Logical, Precision, Stat
from .sql import SqlError, UnreadWarning
from .types import Date, Decimal, Enum, FixedBinary, Float32, Float64, Time, Timestamp, Unmapped, Uuid

__all__ = [
    "ALL",
    "Answer",
    "Answers",
    "Column",
    "DType",
    "Date",
    "Decimal",
    "Enum",
    "Explanation",
    "FixedBinary",
    "Float32",
    "Float64",
    "FooterError",
    "Footers",
    "LibraryError",
    "Logical",
    "Nullable",
    "Overlap",
    "PRUNING",
    "Precision",
    "Predicate",
    "PredicateError",
    "Refused",
    "SqlError",
    "Stat",
    "Statistic",
    "Time",
    "Timestamp",
    "Unmapped",
    "UnreadWarning",
    "Untrue",
    "Uuid",
    "ValueFault",
    "Values",
    "col",
    "opaque",
    "run",
    "version",
]
