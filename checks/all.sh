#!/usr/bin/env bash
# SPDX-License-Identifier: Apache-2.0
# Runs every check that the gate doesn't run, and some that it does, and prints one line for each.
# usage: checks/all.sh            proves and builds the program and the tests of refusals first if they aren't built yet
#        checks/all.sh --built    takes the tests of refusals that the gate left here just before
set -u
case "$*" in "" | --built) ;; *) echo "usage: checks/all.sh [--built]" >&2; exit 2 ;; esac
cd "$(dirname "$0")/.." || exit 1
log="$(mktemp)"
trap 'rm -f "$log"' EXIT
passed=0
failed=0

# Runs a command, and tells the last line that it prints. Of one that fails more is told.
check() {
    local name="$1" start="$SECONDS"
    shift
    if "$@" > "$log" 2>&1; then
        passed=$((passed + 1))
        echo "passed: $name, $((SECONDS - start)) s: $(tail -n 1 "$log")"
    else
        failed=$((failed + 1))
        echo "failed: $name, $((SECONDS - start)) s"
        tail -n 20 "$log" | cut -c -300 | sed 's/^/    /'
    fi
}

# Builds the program anew if anything has changed, so that the checks below run what stands here.
first_example() {
    ./scan < examples/first-run.txt > "$log.first"
    cmp "$log.first" examples/first-run.out && echo "built as it stands here"
    local status=$?
    rm -f "$log.first"
    return "$status"
}

check "layout" checks/layout.py
check "wrong bodies" checks/edits.py
check "program" first_example
check "examples" examples/compare.sh
check "the command-line tool" checks/tool.sh
check "random inputs" checks/random-inputs.py
check "hostile inputs" checks/hostile-input.py
check "callers in other languages" checks/callers.sh
check "examples of the pages" checks/examples.py
check "fuzzing for a minute" checks/fuzz.sh 1
check "packages of what is built" checks/release.sh --built
check "real systems" checks/systems.sh
check "pruning beside an ideal and PostgreSQL" checks/power.py
check "refused growths of the program" checks/refused-growths.py
check "refused growths of tests" checks/refused-growths-of-tests.py "$@" vortex_base_tests vortex_rewrite_tests vortex_prune_tests vortex_text_tests
echo "$passed passed, $failed failed"
[ "$failed" -eq 0 ]
