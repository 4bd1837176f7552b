#!/usr/bin/env bash
# SPDX-License-Identifier: Apache-2.0
# Writes the pages of the calls for readers: of Python by sphinx, of C by doxygen. Those of Rust are cargo's own.
# usage: packaging/pages.sh python|c OUT    run at the top of the sources; OUT is made anew
set -eu
[ $# -eq 2 ] || { sed -n 's/^# usage: /usage: /p' "$0" >&2; exit 2; }
made="$(mktemp -d)"
trap 'rm -rf "$made"' EXIT

python_pages() {
    export PYTHONPATH=callers/python PYTHONDONTWRITEBYTECODE=1 SPHINX_APIDOC_OPTIONS=members,show-inheritance,ignore-module-all
    sphinx-apidoc -q --separate --module-first --no-toc -o "$made/sources" callers/python/foalmorrow
    mv "$made/sources/foalmorrow.rst" "$made/sources/index.rst"
    sphinx-build -q -W -c packaging/pages -b html -d "$made/kept" "$made/sources" "$made/html"
}

c_pages() {
    { cat packaging/pages/Doxyfile && echo "OUTPUT_DIRECTORY = $made"; } | doxygen -
}

case "$1" in
    python) python_pages ;;
    c) c_pages ;;
    *) echo "pages: $1 is neither python nor c" >&2; exit 2 ;;
esac
rm -rf "$2"
mkdir -p "$(dirname "$2")"
cp -r "$made/html" "$2"
