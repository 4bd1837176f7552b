#!/usr/bin/env bash
# SPDX-License-Identifier: Apache-2.0
# Builds the archive and the shared object of crates/vortex_ffi and all callers of them, and runs their examples and tests.
# usage: checks/callers.sh            proves and builds the library first if it isn't built yet
#        checks/callers.sh --build    builds the archive and the shared object alone
set -eu
cd "$(dirname "$0")/.."
out=callers/out

# Whether a command is there; where it isn't, what is left out for want of it is told.
has() {
    command -v "$1" > /dev/null || { echo "callers: $2 left out: there is no $1"; return 1; }
}
for tool in cc ar ld objcopy nm; do
    has "$tool" "the library for callers and all of them" || exit 0
done
mkdir -p "$out/parts"

checks/build.py vortex_ffi

# The toolchain's own C, which calls malloc, realloc and free, goes into the same archive. Only the calls of the header are seen.
kit="$(dirname "$(rt doc | head -n 1)")"
rm -rf "$out/parts" "$out/libvortex_ffi.a"
mkdir -p "$out/parts"
(cd "$out/parts" && ar x ../../../crates/vortex_ffi/out/libvortex_ffi.a && ar x "$kit/c/liblibc_c.a" && ld -r -o ../vortex_ffi.o ./*)
objcopy --wildcard --keep-global-symbol='vortex_*' "$out/vortex_ffi.o"
ar rcs "$out/libvortex_ffi.a" "$out/vortex_ffi.o"
cc -shared -o "$out/libvortex_ffi.so" -Wl,--whole-archive "$out/libvortex_ffi.a" -Wl,--no-whole-archive
exported="$(nm -D --defined-only "$out/libvortex_ffi.so" | awk '{ print $3 }' | grep -v '^vortex_' || true)"
[ -z "$exported" ] || { echo "callers: the shared object exports more than the header: $exported"; exit 1; }
[ "${1:-}" = --build ] && exit 0

# C: with warnings as errors, and once as C++ reads the header.
compiled() { cc -std=c11 -O1 -Wall -Wextra -Wpedantic -Werror -pthread "${@:3}" -o "$out/$1" "callers/c/$2.c" "$out/libvortex_ffi.a"; }
for program in round_trip mutations stack example parquet; do
    compiled "$program" "$program"
    "$out/$program"
done
if has c++ "the header as C++ reads it"; then c++ -fsyntax-only -Wall -Wextra -Werror -x c++ callers/c/vortex.h; fi
if compiled sanitized mutations -fsanitize=address,undefined -fno-sanitize-recover=all 2> /dev/null; then
    "$out/sanitized"
    echo "callers: no fault under the address sanitizer"
fi
if command -v valgrind > /dev/null; then
    for program in round_trip mutations example; do
        valgrind -q --error-exitcode=9 --leak-check=full "$out/$program" > /dev/null
    done
    echo "callers: no fault under valgrind"
fi

# Rust, without a network; its form, its lints and its pages where the tools are there.
rust_run() {
    (cd callers/rust && export CARGO_TARGET_DIR=../out/rust RUSTFLAGS=-Dwarnings RUSTDOCFLAGS=-Dwarnings
     cargo test --offline --quiet
     cargo run --offline --quiet --example footers -- ../out/six_days.footers
     if cargo fmt --version > /dev/null 2>&1; then cargo fmt --check; fi
     if cargo clippy --version > /dev/null 2>&1; then cargo clippy --offline --quiet --all-targets; fi
     cargo doc --offline --quiet)
}
if has cargo "callers in Rust"; then rust_run; fi
has python3 "callers in Python" || exit 0

# A file of footers that Rust has written is read by Python, and written by it alike.
[ ! -f "$out/six_days.footers" ] || (cd callers/python && PYTHONDONTWRITEBYTECODE=1 python3 -c '
import pathlib, sys
from foalmorrow import Footers
data = pathlib.Path(sys.argv[1]).read_bytes()
footers, note = Footers.from_bytes(data)
if (footers.to_bytes(note), note, len(footers)) != (data, "six days", 6):
    sys.exit("callers: Python reads or writes the footers of Rust in another way")' ../out/six_days.footers)

# A producer of Arrow's arrays for the tests of Python.
cc -std=c11 -D_POSIX_C_SOURCE=200809L -O1 -Wall -Wextra -Wpedantic -Werror -shared -fPIC -o "$out/libarrow_producer.so" callers/c/arrow_producer.c

# Python: the types, where mypy is there.
if command -v mypy > /dev/null; then
    (cd callers/python && mypy --cache-dir=/dev/null)
else
    echo "callers: types of Python left out: apt-get install mypy"
fi

# Python: the tests with warnings as errors, and the example; once more with numpy, which Debian's own python3 may see alone.
python_run() {
    (cd callers/python && export FOALMORROW_LIBRARY="$PWD/../out/libvortex_ffi.so" PYTHONDONTWRITEBYTECODE=1 PYTHONPATH=. && "$@")
}
python_tests() {
    python_run "$1" -W error -m unittest -q tests.test_predicate tests.test_reading tests.test_files tests.test_footers tests.test_random \
        tests.test_prune tests.test_frames tests.test_library tests.test_docs tests.test_filters tests.test_sqlite tests.test_sql_types tests.test_floats
    python_run "$1" examples/footers.py
}
python_has() { "$1" -c "import $2" 2> /dev/null; }
python_tests python3
if ! python_has python3 numpy && python_has /usr/bin/python3 numpy; then python_tests /usr/bin/python3; fi
# Each kind of container and each logical type beside a model; all pairs of float16 among them, which takes minutes.
if python_has /usr/bin/python3 "hypothesis, numpy, pandas"; then
    python_run /usr/bin/python3 -W error -m unittest -q tests.test_containers tests.test_types tests.test_logical tests.test_arrow tests.test_sql tests.test_parquet
else
    echo "callers: containers of Python left out: apt-get install python3-hypothesis python3-numpy python3-pandas"
fi
echo "callers: C, Rust and Python agree with the library"
