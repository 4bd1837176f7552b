#!/usr/bin/env bash
# SPDX-License-Identifier: Apache-2.0
# Fuzzes the built calls beside the model of callers/c/fuzz.c, with clang's libFuzzer, on as many processors as there are.
# usage: checks/fuzz.sh [MINUTES]    a minute if none is told; new inputs are kept in callers/out/corpus
set -eu
cd "$(dirname "$0")/.."
minutes="${1:-1}"
out=callers/out
library="$PWD/$out/libvortex_ffi.a"
[ -f "$library" ] || checks/callers.sh --build > /dev/null || { echo "fuzz: the library isn't built; see checks/callers.sh"; exit 1; }
mkdir -p "$out/corpus"
# The inputs of the repository are answered first, by a program without libFuzzer.
cc -std=c11 -O1 -Wall -Wextra -Wpedantic -Werror -DREPLAY -o "$out/replay" callers/c/fuzz.c "$library"
"$out/replay" callers/c/corpus/*
if ! clang -std=c11 -O1 -fsanitize=fuzzer,address,undefined -fno-sanitize-recover=all -o "$out/fuzz" callers/c/fuzz.c "$library" 2> /dev/null; then
    echo "fuzz: only the corpus was run, since clang has no libFuzzer here; Debian's libclang-rt-14-dev brings it"
    exit 0
fi
log="$(mktemp -d)"
trap 'rm -rf "$log"' EXIT
(cd "$log" && "$OLDPWD/$out/fuzz" -max_total_time=$((60 * minutes)) -max_len=512 -timeout=10 -rss_limit_mb=2048 -fork="$(nproc)" \
    -ignore_crashes=0 -print_final_stats=1 "$OLDPWD/$out/corpus" "$OLDPWD/callers/c/corpus" > "$log/told" 2>&1) || {
    tail -n 30 "$log/told"
    cp "$log"/crash-* "$log"/timeout-* "$log"/oom-* "$out" 2> /dev/null || true
    echo "fuzz: an input failed; it is kept in $out"
    exit 1
}
count="$(grep -o '^#[0-9]*' "$log/told" | tr -d '#' | sort -n | tail -n 1)"
echo "fuzz: ${count:-0} inputs in $minutes minutes, no crash, no hang and no answer that the model hasn't"
