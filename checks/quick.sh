#!/usr/bin/env bash
# SPDX-License-Identifier: Apache-2.0
# Formats one crate after an edit and looks at it: its layout, its proof, and its tests without a proof of them.
# usage: checks/quick.sh CRATE    as checks/quick.sh vortex_prune; a minute or two where little has changed
set -u
cd "$(dirname "$0")/.." || exit 1
crate="${1:-}"
[ -d "crates/$crate/src" ] || { echo "quick: there is no crate $crate; usage: checks/quick.sh CRATE" >&2; exit 2; }

# The crate of its tests, which may be that of a crate below it; else its own.
case "$crate" in
    vortex_expr | vortex_stats) tests=vortex_base_tests ;;
    vortex_normal) tests=vortex_rewrite_tests ;;
    vortex_syntax) tests=vortex_text_tests ;;
    vortex_predicates | vortex_zone_map) tests=vortex_prune_tests ;;
    vortex_parquet | vortex_sql) tests=vortex_capi_tests ;;
    *) tests="${crate}_tests" ;;
esac
[ -d "crates/$tests" ] || tests="$crate"

status=0
for folder in "crates/$crate" "crates/$tests"; do
    (cd "$folder" && rt fmt) || status=1
done
checks/layout.py || status=1
(cd "crates/$crate" && rt check) || status=1
(cd "crates/$tests" && rt try --test) || status=1
[ "$status" -eq 0 ] && echo "quick: $crate is in order"
exit "$status"
