# SPDX-License-Identifier: Apache-2.0
"""The examples of each system, as a user starts them."""
import os
import pathlib
import shutil
import subprocess
import sys
import tempfile
import unittest

from tests.systems.servers import clickhouse_server, postgres, postgres_folder

try:
    import distributed
except ImportError:
    distributed = None

try:
    from tests.systems.iceberg_writer import IcebergWriter
except ImportError:
    IcebergWriter = None

HERE = pathlib.Path(__file__).parents[2]


class Examples(unittest.TestCase):
    def run_example(self, name: str, *words: str) -> list[str]:
        environment = {**os.environ, "PYTHONPATH": str(HERE)}
        ran = subprocess.run([sys.executable, str(HERE / "examples" / name), *words], env=environment, capture_output=True, text=True, check=False)
        self.assertEqual(ran.returncode, 0, ran.stderr)
        print(ran.stdout, end="")
        return ran.stdout.splitlines()

    @unittest.skipIf(postgres_folder() is None, "PostgreSQL isn't installed: apt-get install postgresql")
    def test_brin(self) -> None:
        with postgres() as folder:
            self.assertIn("746 rows from 18 of 378 pages", self.run_example("brin.py", folder, "postgres")[-1])

    @unittest.skipIf(shutil.which("clickhouse-server") is None, "ClickHouse isn't installed: apt-get install clickhouse-server")
    def test_clickhouse(self) -> None:
        with clickhouse_server() as url:
            self.assertIn("60000 rows without footers, 35600 with them", self.run_example("clickhouse.py", url)[-1])

    def test_delta(self) -> None:
        lines = self.run_example("delta.py")
        self.assertTrue(lines[0].endswith("['part-11.parquet', 'part-12.parquet'] of 12 files"), lines)
        self.assertTrue(lines[1].endswith("['part-10.parquet'] of 12 files"), lines)

    @unittest.skipIf(IcebergWriter is None, "Avro isn't installed: apt-get install python3-avro")
    def test_iceberg(self) -> None:
        with tempfile.TemporaryDirectory() as folder:
            writer = IcebergWriter(folder, {"qty": "long"})
            writer.snapshot(writer.manifest(*(writer.data_file(f"f{place}", [{"qty": place}]) for place in range(5))))
            lines = self.run_example("iceberg.py", writer.save(), '[["qty", ">", 3]]')
        self.assertEqual(lines[1:], ["f4: 1 rows", "1 of 5 files have to be read, 100 of 500 bytes"])

    def test_dataset(self) -> None:
        lines = self.run_example("dataset.py")
        self.assertEqual(sorted(lines[:3]), [f"measured: sales-{year}.csv" for year in (2022, 2023, 2024)])
        self.assertTrue(lines[3].endswith("['year=2023/sales-2023.csv', 'year=2024/sales-2024.csv']"), lines)
        self.assertTrue(lines[-1].endswith(": ['year=2024/sales-2024.csv']"), lines)

    @unittest.skipIf(distributed is None, "Dask isn't installed: apt-get install python3-distributed python3-dask python3-pandas")
    def test_cluster(self) -> None:
        lines = self.run_example("cluster.py")
        self.assertEqual([line.split(":", 1)[1] for line in lines[:2]], [line.split(":", 1)[1] for line in lines[2:]])
        self.assertIn("1 of 20 read, 317 rows", lines[0])


if __name__ == "__main__":
    unittest.main()
