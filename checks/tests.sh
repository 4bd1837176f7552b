#!/usr/bin/env bash
# SPDX-License-Identifier: Apache-2.0
# Runs every test of every crate by the toolchain's trial run, which proves nothing, several crates side by side.
# usage: checks/tests.sh [CRATE..]    by default all crates that have tests; RT_JOBS says how many at a time, by default one a processor
#        checks/tests.sh --prove      the gate, which proves everything first, and what checks/gate.py runs behind it
set -u
cd "$(dirname "$0")/.." || exit 1
[ "$*" = --prove ] && exec checks/gate.py
top="$PWD"
# The frames of a trial run are larger than those of the tests as the gate builds them.
ulimit -s 65536 || exit 1
logs="$(mktemp -d)"
trap 'rm -rf "$logs"' EXIT
[ "$#" -gt 0 ] || mapfile -t found < <(grep -rlE '#\[(cfg\()?test\)?\]' crates/*/src --include='*.rt' | cut -d/ -f2 | sort -u)
[ "$#" -gt 0 ] && found=("$@")

# Runs the tests of one crate, and prints a line of how they ended; of those that failed, the test and why.
one() {
    local start="$SECONDS" log="$2/$1" told
    cd "$3/crates/$1" || { echo "failed: there is no crate $1"; return; }
    rt try --test --seconds 600 > "$log" 2>&1
    told="$(grep '^test result: ' "$log" | tail -n 1)"
    case "$told" in
        "test result: ok."*) echo "passed: $1, $((SECONDS - start)) s: ${told#test result: ok. }" ;;
        *)
            echo "failed: $1, $((SECONDS - start)) s: ${told:-no test ran}"
            { grep -A 3 'FAILED$' "$log" || tail -n 10 "$log"; } | cut -c -200 | sed 's/^/    /'
            ;;
    esac
}
export -f one

# Passes the lines of crates on, and tells on a terminal how many are done, in a line that is written anew.
progress() {
    local line done=0
    while IFS= read -r line; do
        case "$line" in passed:* | failed:*) done=$((done + 1)) ;; esac
        [ -t 2 ] && printf '\r\033[K' >&2
        echo "$line"
        [ -t 2 ] && printf 'tests: %s of %s crates done, %s s' "$done" "$1" "$SECONDS" >&2
    done
    [ -t 2 ] && printf '\r\033[K' >&2
    return 0
}
# The last line counts tests; a crate whose tests didn't run counts as one that failed.
printf '%s\n' "${found[@]}" | xargs -P "${RT_JOBS:-$(nproc)}" -I CRATE bash -c 'one CRATE "$1" "$2"' one "$logs" "$top" | tee "$logs/told" | progress "${#found[@]}"
passed="$(grep -hE '^test .* \.\.\. ok$' "$logs"/vortex_* 2> /dev/null | wc -l)"
failed="$(($(grep -hE '^test .* \.\.\. FAILED$' "$logs"/vortex_* 2> /dev/null | wc -l) + $(grep -c ' no test ran$' "$logs/told")))"
echo "$passed passed, $failed failed"
[ "$failed" -eq 0 ] && ! grep -q '^failed: ' "$logs/told"
