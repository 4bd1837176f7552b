#!/usr/bin/env bash
# SPDX-License-Identifier: Apache-2.0
# Makes the packages of a release from what is proved and built: the same bytes from the same files, wherever it runs.
# usage: SOURCE_DATE_EPOCH=SECONDS packaging/build.sh ARCHIVE TOOL COUNTS DIST WORK
#        ARCHIVE  the static library, as checks/callers.sh builds it
#        TOOL     the program foalmorrow
#        COUNTS   what checks/proved.py --count has printed
#        DIST     where the packages go, and WORK a folder for what is made on the way; both are made anew
# The sources are those of the tree that this script stands in, in which it leaves files behind: a copy, and not a checkout.
set -eu
export LC_ALL=C TZ=UTC SOURCE_DATE_EPOCH PYTHONDONTWRITEBYTECODE=1 PYTHONHASHSEED=0
umask 022
tree="$(cd "$(dirname "$0")/.." && pwd)"
archive="$(realpath "$1")" tool="$(realpath "$2")" counts="$(realpath "$3")"
rm -rf "$4" "$5"
mkdir -p "$4" "$5"
dist="$(realpath "$4")" work="$(realpath "$5")"
cd "$tree"
version="$(sed -n 's/^version = "\(.*\)"$/\1/p' pyproject.toml)"
multiarch=usr/lib/x86_64-linux-gnu

# Tells the version and the day to a file of packaging.
filled() {
    sed -e "s/@VERSION@/$version/g" -e "s/@DATE@/$(date -d "@$SOURCE_DATE_EPOCH" +%Y-%m-%d)/g" -e "s/@SIZE@/${2:-0}/g" "$1"
}

# The static library, the shared object with its name and its calls alone, the program, and what is told of their proofs.
libraries() {
    mkdir -p "$work/lib"
    objcopy --enable-deterministic-archives --strip-debug "$archive" "$work/lib/libfoalmorrow.a"
    cc -shared -o "$work/lib/libfoalmorrow.so.$version" -Wl,-soname,libfoalmorrow.so.0 -Wl,-z,defs -Wl,-z,relro -Wl,-z,now \
        -Wl,--build-id=sha1 -Wl,--whole-archive "$work/lib/libfoalmorrow.a" -Wl,--no-whole-archive
    strip --strip-unneeded --remove-section=.comment --remove-section=.note "$work/lib/libfoalmorrow.so.$version"
    strip --remove-section=.comment --remove-section=.note -o "$work/lib/foalmorrow" "$tool"
    checks/proved.py "$counts" "$archive" "$work/lib/libfoalmorrow.a" "$work/lib/libfoalmorrow.so.$version" "$work/lib/foalmorrow" \
        > "$work/lib/PROVED.json"
    cp "$work/lib/PROVED.json" "$dist"
}

# The first python3 that can make a wheel: Debian's packages are seen by Debian's own alone.
python_of_wheels() {
    local python
    for python in python3 /usr/bin/python3; do
        if "$python" -c "import setuptools, wheel, pip" 2> /dev/null; then
            echo "$python"
            return
        fi
    done
    echo "release: no python3 has pip, setuptools and wheel: apt-get install python3-pip python3-setuptools python3-wheel" >&2
    return 1
}

wheel() {
    local python
    python="$(python_of_wheels)"
    FOALMORROW_LIBRARY="$work/lib/libfoalmorrow.so.$version" "$python" -m pip wheel --quiet --disable-pip-version-check \
        --no-index --no-deps --no-build-isolation --no-cache-dir --wheel-dir "$dist" "$tree"
}

# Puts the pages that each package has into the root of one: the licence, the notice, the changes and what is told of the proofs.
pages() {
    local doc="$work/$1/usr/share/doc/$1"
    mkdir -p "$doc"
    cp packaging/debian/copyright NOTICE "$work/lib/PROVED.json" "$doc"
    {
        printf 'foalmorrow (%s) unstable; urgency=medium\n\n  * The changes stand in CHANGELOG.md.\n\n' "$version"
        printf ' -- Foalmorrow maintainers <maintainers@users.noreply.foalmorrow.example>  %s\n' "$(date -R -d "@$SOURCE_DATE_EPOCH")"
    } | gzip -9n > "$doc/changelog.gz"
    gzip -9n < CHANGELOG.md > "$doc/CHANGELOG.md.gz"
}

# Makes a Debian package of the root that stands in the folder of its name.
package() {
    local root="$work/$1"
    pages "$1"
    mkdir -p "$root/DEBIAN"
    filled "packaging/debian/$1.control" "$(du -k --apparent-size -s "$root" | cut -f1)" > "$root/DEBIAN/control"
    (cd "$root" && find usr -type f -print0 | sort -z | xargs -0 md5sum > DEBIAN/md5sums)
    find "$root" -exec touch --no-dereference -d "@$SOURCE_DATE_EPOCH" {} +
    dpkg-deb --root-owner-group -Zxz --build "$root" "$dist/$1_${version}_amd64.deb" > /dev/null
}

# The program, its page and its completion, and the shared object with which programs run.
runtime_package() {
    local root="$work/foalmorrow"
    mkdir -p "$root/DEBIAN" "$root/usr/bin" "$root/usr/share/man/man1" "$root/usr/share/bash-completion/completions" "$root/$multiarch" \
        "$root/usr/share/doc/foalmorrow"
    install -m 755 "$work/lib/foalmorrow" "$root/usr/bin/foalmorrow"
    filled packaging/foalmorrow.1 | gzip -9n > "$root/usr/share/man/man1/foalmorrow.1.gz"
    install -m 644 packaging/foalmorrow.bash "$root/usr/share/bash-completion/completions/foalmorrow"
    install -m 644 "$work/lib/libfoalmorrow.so.$version" "$root/$multiarch"
    ln -s "libfoalmorrow.so.$version" "$root/$multiarch/libfoalmorrow.so.0"
    install -m 644 docs/LANGUAGE.md "$root/usr/share/doc/foalmorrow"
    echo "libfoalmorrow 0 foalmorrow (>= $version)" > "$root/DEBIAN/shlibs"
    echo "activate-noawait ldconfig" > "$root/DEBIAN/triggers"
    package foalmorrow
}

# What a program in C is built with.
development_package() {
    local root="$work/libfoalmorrow-dev"
    mkdir -p "$root/usr/include/foalmorrow" "$root/$multiarch/pkgconfig" "$root/usr/share/doc/libfoalmorrow-dev/examples"
    install -m 644 callers/c/vortex.h "$root/usr/include/foalmorrow"
    install -m 644 "$work/lib/libfoalmorrow.a" "$root/$multiarch"
    ln -s libfoalmorrow.so.0 "$root/$multiarch/libfoalmorrow.so"
    filled packaging/foalmorrow.pc.in > "$root/$multiarch/pkgconfig/foalmorrow.pc"
    install -m 644 callers/c/example.c "$root/usr/share/doc/libfoalmorrow-dev/examples"
    package libfoalmorrow-dev
}

# The Rust crate, which finds the library where it is built.
crate() {
    cp LICENSE NOTICE "$work/lib/PROVED.json" callers/rust
    ln -s "libfoalmorrow.so.$version" "$work/lib/libfoalmorrow.so.0"
    ln -s libfoalmorrow.so.0 "$work/lib/libfoalmorrow.so"
    # No page of the crate's own is named in its manifest, since there is none yet.
    (cd callers/rust && FOALMORROW_LIB_DIR="$work/lib" RUSTFLAGS=-Dwarnings CARGO_TARGET_DIR="$work/crate" \
        cargo package --offline --quiet --locked --no-metadata) 2>&1 | tee "$work/cargo.log" >&2
    [ ! -s "$work/cargo.log" ] || { echo "release: cargo package has warnings" >&2; return 1; }
    cp "$work/crate/package/foalmorrow-$version.crate" "$dist"
}

libraries
wheel
runtime_package
development_package
crate
(cd "$dist" && find . -type f ! -name sha256sums -printf '%P\n' | sort | xargs sha256sum > sha256sums)
