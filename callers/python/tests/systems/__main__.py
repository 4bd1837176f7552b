# SPDX-License-Identifier: Apache-2.0
"""All systems, one after the other: python3 -m tests.systems. FOALMORROW_SEED chooses the random predicates.

A system that isn't installed is left out, and the package that it is in is told.
"""
import os
import signal
import sys
import unittest

NAMES = ["test_delta", "test_iceberg", "test_parquet_footers", "test_parquet_proved", "test_dataset", "test_brin", "test_sql", "test_clickhouse", "test_cluster", "test_examples"]


def main() -> int:
    # Ended by a signal it ends as one that is interrupted, so that the servers are stopped.
    signal.signal(signal.SIGTERM, signal.default_int_handler)
    print(f"seed {os.environ.setdefault('FOALMORROW_SEED', '1')}")
    suite = unittest.defaultTestLoader.loadTestsFromNames([f"tests.systems.{name}" for name in NAMES])
    result = unittest.TextTestRunner(stream=sys.stdout, verbosity=2).run(suite)
    reasons = sorted({reason for _, reason in result.skipped})
    done = f"{result.testsRun - len(result.skipped)} tests, {len(result.failures) + len(result.errors)} failed"
    print("systems: " + "; ".join([done, *(f"left out: {reason}" for reason in reasons)]))
    return 0 if result.wasSuccessful() else 1


if __name__ == "__main__":
    sys.exit(main())
