#!/usr/bin/env bash
# SPDX-License-Identifier: Apache-2.0
# Real systems pruned by their statistics: PostgreSQL, ClickHouse and a Dask cluster, each started here in a folder of its own under the
# temporary folder and stopped at the end by its process id, also where a check fails or is interrupted.
# usage: [FOALMORROW_SEED=N] checks/systems.sh    a system that isn't installed is left out, and the package to install is told
set -u
cd "$(dirname "$0")/.." || exit 1
export PYTHONDONTWRITEBYTECODE=1 FOALMORROW_LIBRARY="${FOALMORROW_LIBRARY:-$PWD/callers/out/libvortex_ffi.so}"

[ -f "$FOALMORROW_LIBRARY" ] || checks/callers.sh --build > /dev/null || { echo "systems: the library isn't built; see checks/callers.sh"; exit 1; }
# The program that prints conditions as they are read, which are compared with PostgreSQL.
checks/build.py vortex_bench > /dev/null || { echo "systems: vortex_bench isn't built"; exit 1; }
# Debian's packages of Dask and numpy are seen by Debian's own python3 alone.
python=python3
for found in python3 /usr/bin/python3; do
    "$found" -c "import distributed, numpy, pandas" 2> /dev/null && { python="$found"; break; }
done
cd callers/python || exit 1
exec "$python" -W ignore::DeprecationWarning -m tests.systems
