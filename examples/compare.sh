#!/usr/bin/env bash
# SPDX-License-Identifier: Apache-2.0
# Runs the program on each example and compares what it prints with the answer beside it.
set -u
here="$(cd "$(dirname "$0")" && pwd)"
program="$here/../crates/vortex_scan/out/vortex_scan"
"$here/../scan" --build || exit
passed=0
failed=0
for input in "$here"/*.txt; do
    if "$program" < "$input" | cmp -s - "${input%.txt}.out"; then
        passed=$((passed + 1))
    else
        failed=$((failed + 1))
        echo "differs: ${input##*/}"
    fi
done
echo "$passed passed, $failed failed"
[ "$failed" -eq 0 ]
