#!/usr/bin/env bash
# SPDX-License-Identifier: Apache-2.0
# Makes a release in dist/ and tests it: a wheel, two Debian packages and a Rust crate, each with what is told of its proofs; and pages.
# usage: checks/release.sh            proves and builds the library and the program first where they aren't; the tree has to be committed
#        checks/release.sh --built    proves nothing: takes the library and the program as they are built, and the tree as it stands
set -eu
cd "$(dirname "$0")/.."
case "$*" in "" | --built) ;; *) echo "usage: checks/release.sh [--built]" >&2; exit 2 ;; esac
mode="${1:---proved}"
work="$(mktemp -d)"
trap 'rm -rf "$work"' EXIT
version="$(sed -n 's/^version = "\(.*\)"$/\1/p' pyproject.toml)"
SOURCE_DATE_EPOCH="$(git log -1 --format=%ct)"
export PYTHONDONTWRITEBYTECODE=1 SOURCE_DATE_EPOCH
archive=callers/out/libvortex_ffi.a
tool=crates/foalmorrow/out/foalmorrow

fail() {
    echo "release: $1" >&2
    exit 1
}

# Tells what is left out for want of a command, which is allowed only where nothing is released.
left_out() {
    [ "$mode" = --built ] || fail "$1"
    echo "release: left out: $1"
}

# Every place that names the version names the same one.
versions_agree() {
    local major minor patch number
    IFS=. read -r major minor patch <<< "$version"
    number="$(printf '0x%06xu' $((major * 65536 + minor * 256 + patch)))"
    grep -qx "version = \"$version\"" callers/rust/Cargo.toml || fail "callers/rust/Cargo.toml has another version than $version"
    grep -q "define VORTEX_VERSION $number\$" callers/c/vortex.h || fail "callers/c/vortex.h has another version than $version"
    grep -q "^## $version" CHANGELOG.md || fail "CHANGELOG.md tells nothing of $version"
    grep -qx "version: $version" CITATION.cff || fail "CITATION.cff has another version than $version"
    grep -qF "const VERSION: &str = \"$version\";" crates/foalmorrow/src/command.rt || fail "the program has another version than $version"
}

# Proves and builds the library and the program where they aren't, and counts what is proved.
proved() {
    if [ "$mode" != --built ]; then
        [ -z "$(git status --porcelain --untracked-files=no)" ] || fail "the tree has changed since its commit, which a release names"
        checks/build.py foalmorrow
        checks/callers.sh --build
        checks/edits.py --named || fail "a wrong body of the specification isn't refused"
    fi
    [ -f "$archive" ] && [ -x "$tool" ] || fail "the library or the program isn't built: checks/callers.sh --build, checks/build.py foalmorrow"
    checks/proved.py --count vortex_ffi foalmorrow > "$work/counts.json"
}

# Copies the sources that packages are made of.
sources() {
    mkdir -p "$1"
    git ls-files -z -- pyproject.toml setup.py LICENSE NOTICE CHANGELOG.md crates.txt callers checks/proved.py checks/build.py packaging docs \
        | tar --null --files-from=- --create | tar --extract --directory "$1"
}

# Makes the packages twice, in folders of other names, and compares them byte by byte.
built_twice() {
    local turn
    for turn in 1 second; do
        sources "$work/$turn/sources"
        "$work/$turn/sources/packaging/build.sh" "$archive" "$tool" "$work/counts.json" "$work/$turn/dist" "$work/$turn/made"
    done
    diff -r "$work/1/dist" "$work/second/dist" || fail "two builds from the same files differ"
    rm -rf dist
    cp -r "$work/1/dist" dist
    echo "release: two builds gave the same bytes"
}

# The shared object has its name, exports the header's calls alone, and runs with the C library that the wheel's name promises.
shared_object() {
    local file="$work/1/made/lib/libfoalmorrow.so.$version" newest
    diff <(nm -D --defined-only "$file" | awk '{ print $3 }' | sort) \
        <(grep -oE '^uint(8|32)_t vortex_\w+\(' callers/c/vortex.h | grep -oE 'vortex_\w+' | sort) \
        || fail "the shared object doesn't export exactly the header's calls"
    readelf -d "$file" | grep -qF 'Library soname: [libfoalmorrow.so.0]' || fail "the shared object has no name"
    newest="$(objdump -T "$file" "$work/1/made/lib/foalmorrow" | grep -oE 'GLIBC_[0-9.]+' | sort -Vu | tail -n 1)"
    [ "$(printf '%s\nGLIBC_2.36\n' "$newest" | sort -V | tail -n 1)" = GLIBC_2.36 ] || fail "$newest is needed, and the wheel's name promises GLIBC_2.36"
    echo "release: the shared object exports the header's calls alone"
}

# The installed package is the one of the wheel, and its library the one that is told of.
installed_package() {
    "$1" - "$version" "$work/venv" << 'PYTHON'
import hashlib, importlib.resources, json, pathlib, sys
import foalmorrow
package = importlib.resources.files("foalmorrow")
proved = json.loads(package.joinpath("PROVED.json").read_text())
found = hashlib.sha256(package.joinpath("libfoalmorrow.so").read_bytes()).hexdigest()
if not pathlib.Path(foalmorrow.__file__).is_relative_to(sys.argv[2]):
    sys.exit(f"release: {foalmorrow.__file__} is tested in place of the installed package")
if (foalmorrow.version(), found) != (sys.argv[1], proved["sha256"][f"libfoalmorrow.so.{sys.argv[1]}"]):
    sys.exit("release: the library of the wheel isn't the one that is told of")
PYTHON
}

# Runs the tests of Python in a folder without the sources, so that the installed package is tested. Modules that want packages which
# aren't there are left out and told where that is `some`.
python_tests() {
    local python="$1" module missing modules=()
    cd "$work/python"
    installed_package "$python"
    for module in tests/test_*.py; do
        module="tests.$(basename "$module" .py)"
        missing="$("$python" -c "import $module" 2>&1 | sed -n 's/^ModuleNotFoundError: //p')"
        if [ -z "$missing" ]; then
            modules+=("$module")
        else
            [ "$2" = some ] || fail "$module: $missing"
            echo "release: $module left out: $missing"
        fi
    done
    "$python" -W error -m unittest -q "${modules[@]}" 2>&1 | tail -n 20
}

# Installs the wheel without a network into an environment that is made anew: the words after its name make it.
installed() {
    local name="$1" python="$work/venv/$1/bin/python"
    "${@:2}" "$work/venv/$name"
    "$python" -m pip install --quiet --disable-pip-version-check --no-index dist/*.whl
}

# Tests the wheel alone, and beside Debian's packages of numpy and pandas.
wheel() {
    mkdir -p "$work/python" "$work/rust/tests"
    cp -r callers/python/tests "$work/python"
    # Files of footers that Rust has written, and the Arrow arrays that C makes, are where the tests look for them.
    cp callers/rust/tests/*.footers "$work/rust/tests"
    export FOALMORROW_PRODUCER="$PWD/callers/out/libarrow_producer.so"
    unset FOALMORROW_LIBRARY PYTHONPATH
    installed alone python3 -m venv
    (python_tests "$work/venv/alone/bin/python" some)
    if /usr/bin/python3 -c "import hypothesis, numpy, pandas, venv" 2> /dev/null; then
        installed debian /usr/bin/python3 -m venv --system-site-packages
        (python_tests "$work/venv/debian/bin/python" all)
    else
        left_out "the wheel beside numpy: apt-get install python3-hypothesis python3-numpy python3-pandas python3-venv"
    fi
    echo "release: the wheel is installed and tested"
}

# Makes a wheel of the sources as an installation from a checkout does, and prints what that says.
wheel_of_sources() {
    local python
    for python in python3 /usr/bin/python3; do
        if "$python" -c "import setuptools, wheel, pip" 2> /dev/null; then
            (cd "$1" && "$python" -m pip wheel -v --no-index --no-deps --no-build-isolation --wheel-dir "$work/none" . 2>&1) || true
            return
        fi
    done
}

# An installation from a checkout says where the library comes from, and where there is none what to do.
from_sources() {
    local said
    sources "$work/sources"
    said="$(wheel_of_sources "$work/sources")"
    grep -qF "foalmorrow: the proved library isn't in $work/sources/callers/out" <<< "$said" || fail "an installation without a library says: $said"
    mkdir -p "$work/sources/callers/out"
    cp callers/out/libvortex_ffi.so "$work/sources/callers/out"
    said="$(wheel_of_sources "$work/sources")"
    grep -qF "foalmorrow: the library inside comes from $work/sources/callers/out/libvortex_ffi.so" <<< "$said" || fail "an installation says: $said"
    echo "release: an installation from a checkout says where the library comes from"
}

# Installs the Debian packages into a root of their own.
root_of_packages() {
    local as_root=()
    [ "$(id -u)" -eq 0 ] || as_root=(fakeroot)
    mkdir -p "$1/var/lib/dpkg/info" "$1/var/lib/dpkg/updates" "$1/var/lib/dpkg/triggers"
    touch "$1/var/lib/dpkg/status" "$1/var/lib/dpkg/available"
    "${as_root[@]}" dpkg --root="$1" --ignore-depends=libc6 --install dist/*.deb > "$work/dpkg.log" 2>&1 || fail "$(cat "$work/dpkg.log")"
}

# The program as it is installed: its answers and refusals, its page and its completion.
program() {
    local share="$1/usr/share" faults
    checks/tool.sh "$1/usr/bin/foalmorrow" > "$work/tool.log" || fail "$(cat "$work/tool.log")"
    faults="$(man --warnings -E UTF-8 -l "$share/man/man1/foalmorrow.1.gz" 2>&1 > /dev/null)"
    [ -z "$faults" ] || fail "the program's page: $faults"
    [ "$(bash -c 'source "$1"; COMP_WORDS=(foalmorrow sc) COMP_CWORD=1; _foalmorrow; echo "${COMPREPLY[*]}"' - \
        "$share/bash-completion/completions/foalmorrow")" = scan ] || fail "the completion doesn't complete scan"
}

# An example in C over what is installed, by the shared object and by the static library.
example() {
    local here="$1/usr/lib/x86_64-linux-gnu" flags=(-std=c11 -Wall -Wextra -Werror)
    # Words of pkg-config are words of the command.
    # shellcheck disable=SC2046
    cc "${flags[@]}" callers/c/example.c $(pkg-config --cflags --libs foalmorrow) -o "$work/example"
    # shellcheck disable=SC2046
    cc "${flags[@]}" callers/c/example.c $(pkg-config --cflags foalmorrow) "$here/libfoalmorrow.a" -o "$work/example-static"
    readelf -d "$work/example" | grep -qF '[libfoalmorrow.so.0]' || fail "the example isn't linked with libfoalmorrow.so.0"
    diff <(LD_LIBRARY_PATH="$here" "$work/example") <("$work/example-static") || fail "the shared object and the static library answer otherwise"
    "$work/example-static" | grep -q "left unread" || fail "the example prunes nothing"
}

debian() {
    if command -v lintian > /dev/null; then
        lintian --allow-root --fail-on error dist/*.deb
    else
        left_out "lintian: apt-get install lintian"
    fi
    root_of_packages "$work/installed"
    program "$work/installed"
    export PKG_CONFIG_SYSROOT_DIR="$work/installed" PKG_CONFIG_LIBDIR="$work/installed/usr/lib/x86_64-linux-gnu/pkgconfig"
    example "$work/installed"
    echo "release: the Debian packages are installed, and an example in C is built over them"
}

# Runs cargo on the packed crate without a network, and prints what it says where it fails.
packed() {
    (cd "$work/crate/foalmorrow-$version" && cargo "$1" --offline --quiet "${@:2}" > "$work/cargo.log" 2>&1)
}

# Builds and tests the crate as it is packed: found by pkg-config in the root above, and in a folder that is named; its lints and pages.
crate() {
    mkdir "$work/crate"
    tar --extract --gzip --file "dist/foalmorrow-$version.crate" --directory "$work/crate"
    export CARGO_TARGET_DIR="$work/crate/target" RUSTFLAGS=-Dwarnings RUSTDOCFLAGS=-Dwarnings
    LD_LIBRARY_PATH="$work/installed/usr/lib/x86_64-linux-gnu" packed test || fail "$(tail -n 40 "$work/cargo.log")"
    packed doc --all-features --no-deps || fail "$(cat "$work/cargo.log")"
    if ! cargo clippy --version > /dev/null 2>&1; then
        left_out "clippy"
    else
        packed clippy --all-targets --all-features || fail "$(cat "$work/cargo.log")"
    fi
    export PKG_CONFIG=false
    FOALMORROW_LIB_DIR="$work/none" packed build && fail "a folder without a library is taken"
    grep -q "where no libfoalmorrow is" "$work/cargo.log" || fail "$(cat "$work/cargo.log")"
    packed build && fail "the crate is built without a library"
    grep -q "the proved library isn't here" "$work/cargo.log" || fail "$(cat "$work/cargo.log")"
    FOALMORROW_LIB_DIR="$work/1/made/lib" packed test --features static || fail "$(tail -n 40 "$work/cargo.log")"
    echo "release: the crate is built and tested over the shared object and over the static library"
}

# Writes the pages of the calls into dist/docs: those of Rust are the packed crate's.
pages() {
    mkdir -p dist/docs
    cp -r "$work/crate/target/doc" dist/docs/rust
    if command -v sphinx-build > /dev/null; then
        packaging/pages.sh python dist/docs/python || fail "the pages of Python aren't written"
    else
        left_out "the pages of Python: apt-get install python3-sphinx"
    fi
    if command -v doxygen > /dev/null; then
        packaging/pages.sh c dist/docs/c || fail "the pages of C aren't written"
    else
        left_out "the pages of C: apt-get install doxygen"
    fi
    echo "release: the pages of the calls are written"
}

versions_agree
proved
built_twice
shared_object
wheel
from_sources
debian
crate
pages
(cd dist && sha256sum --check --quiet sha256sums)
echo "release: version $version in dist: $(find dist -maxdepth 1 -type f -printf '%f\n' | sort | tr '\n' ' ')"
