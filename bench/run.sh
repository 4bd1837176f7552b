#!/usr/bin/env bash
# SPDX-License-Identifier: Apache-2.0
# Measures the built program on large inputs, beside a plain Rust program that answers the same (if rustc is there).
# usage: bench/run.sh [RUNS]
set -eu
here="$(cd "$(dirname "$0")" && pwd)"
runs="${1:-5}"
program="$here/../crates/vortex_scan/out/vortex_scan"
"$here/../scan" --build
mkdir -p "$here/data"
# As cargo builds a release that is one unit.
fast=(-C opt-level=3 -C codegen-units=1 -C lto=fat -C panic=abort)
plain=()
plain_measures=()
if command -v rustc > /dev/null; then
    rustc --edition 2021 "${fast[@]}" "$here/plain/main.rs" -o "$here/data/plain"
    plain=("$here/data/plain")
    rustc --edition 2021 "${fast[@]}" "$here/plain/measures.rs" -o "$here/data/plain_measures"
    plain_measures=("$here/data/plain_measures")
fi

# Least processor time of some runs and most memory held: both programs, and what the proved one is of the plain one
for kind in rows leaves parts columns singles texts whole tested; do
    input="$here/data/$kind.txt"
    [ -s "$input" ] || python3 "$here/generate.py" "$kind" > "$input"
    python3 "$here/measure.py" "$runs" "$input" "$program" "${plain[@]}"
done

# Layers by themselves: LIKE on texts that tempt a search to go back, a million evaluated comparisons, and a million
# calls of a set of statistics. Then ten scans of 200,000 parts of one column, and of 2,000 parts of 30 columns, by a
# binder for each part and by one for their table; the time to make parts and table alone stands beside them.
layer="$here/../crates/vortex_bench/out/vortex_bench"
"$here/../checks/build.py" vortex_bench
for work in like evaluate set get merge narrow_table narrow_binders narrow_zones wide_table wide_binders wide_zones; do
    echo "$work" > "$here/data/$work.txt"
    python3 "$here/measure.py" "$runs" "$here/data/$work.txt" "$layer"
done

# Pruning by maps of zones without rows, ten times: 1,000,000 zones of one column and of three, and 20,000 of 30, under one
# comparison and under 16 leaves, beside plain loops over arrays of bounds; the time to make the map alone stands first.
# `table_arrays` has the statistics in arrays, and makes the map of them each time, as a call from C does; `table_once`
# makes it once, so that less it the two below it are the library's own pruning of a map at hand.
loops=()
if command -v rustc > /dev/null; then
    rustc --edition 2021 "${fast[@]}" "$here/plain/zones.rs" -o "$here/data/zones"
    loops=("$here/data/zones")
fi
for work in long_map long_comparison long_leaves table_map table_comparison table_leaves \
    table_arrays table_arrays_comparison table_arrays_leaves \
    table_once table_once_comparison table_once_leaves broad_map broad_comparison broad_leaves; do
    echo "$work" > "$here/data/$work.txt"
    python3 "$here/measure.py" "$runs" "$here/data/$work.txt" "$layer" "${loops[@]}"
done

# The statistics of 2 million numbers and of 300,000 texts, nulls among them: the columns made alone, measured fifty
# times, and checked fifty times against their statistics.
for column in numbers texts; do
    for work in made measured checked; do
        echo "${work}_$column" > "$here/data/${work}_$column.txt"
        python3 "$here/measure.py" "$runs" "$here/data/${work}_$column.txt" "$layer" "${plain_measures[@]}"
    done
done

# Normal forms, twenty times: of an OR of so many values of one column in no order, of an OR over as many columns, and of
# a chain over one column in which AND and OR alternate; the time to make the predicate alone stands first.
for of in "values 1023" "values 16384" "values 100000" "columns 1023" "columns 16384" "columns 100000" "turns 511" "turns 1023"; do
    for stage in made normal; do
        work="${stage}_$of"
        echo "$work" > "$here/data/${work/ /_}.txt"
        python3 "$here/measure.py" "$runs" "$here/data/${work/ /_}.txt" "$layer"
    done
done
