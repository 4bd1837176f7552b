#!/usr/bin/env python3
# SPDX-License-Identifier: Apache-2.0
"""Runs the examples of the pages as they stand: each block of code that is marked `run`, and compares what it prints with the block behind it.

usage: checks/examples.py            runs them; callers/out has to have the library, which checks/callers.sh --build makes
       checks/examples.py PAGE ..    those of some pages
       checks/examples.py --list     says which blocks there are

A block is marked behind its language, as ```python run. A block ```text behind it is what it prints. The blocks of Python on one page
are one program, which sees the folder `examples`. A block of Rust or C without `main` is the body of one. Blocks of sh run in the folder of the repository.
"""
import os
import re
import shutil
import subprocess
import sys
import tempfile

ROOT = os.path.dirname(os.path.dirname(os.path.abspath(__file__)))
os.chdir(ROOT)
OUT = f"{ROOT}/callers/out"
MARK = "\x1e"
# What runs the blocks of a language.
RUNS = {"python": "python3", "rust": "cargo", "c": "cc", "sh": "bash"}
RUST = "#![allow(unused_imports)]\nuse foalmorrow::*;\nfn main() -> Result<(), Box<dyn std::error::Error>> {{\n{}\nOk(())\n}}\n"
C = '#include "vortex.h"\n#include <stdio.h>\n#include <stdlib.h>\n#include <string.h>\nint main(void) {{\n{}\nreturn 0;\n}}\n'


def pages():
    told = subprocess.run(["git", "ls-files", "*.md"], capture_output=True, text=True, check=True).stdout
    return [f for f in told.split("\n") if f and os.path.exists(f)]


def blocks(f):
    """The blocks of a page that are run: line, language, code, and what is printed or None."""
    with open(f, encoding="utf-8") as file:
        text = file.read()
    for found in re.finditer(r"^```(\w+) run\n(.*?)^```\n(?:\n?```text\n(.*?)^```\n)?", text, re.M | re.S):
        yield text[: found.start()].count("\n") + 1, found.group(1), found.group(2), found.group(3)


def ran(words, folder, more=None):
    """What a command prints, or an error with the end of what it told."""
    done = subprocess.run(words, cwd=folder, env={**os.environ, **(more or {})}, capture_output=True, text=True, timeout=1200, check=False)
    if done.returncode:
        raise RuntimeError(f"status {done.returncode}\n{(done.stdout + done.stderr)[-1500:]}")
    return done.stdout


def python():
    """An interpreter that has numpy, if there is one."""
    for it in ("python3", "/usr/bin/python3"):
        if subprocess.run([it, "-c", "import numpy, pandas"], capture_output=True, check=False).returncode == 0:
            return it
    return "python3"


def printed_by_python(codes, folder):
    """What each block of one program prints."""
    path = f"{folder}/page.py"
    os.symlink(f"{ROOT}/examples", f"{folder}/examples")
    with open(path, "w", encoding="utf-8") as file:
        file.write(f"print({MARK!r}, end='')\n".join(codes))
    more = {"FOALMORROW_LIBRARY": f"{OUT}/libvortex_ffi.so", "PYTHONPATH": f"{ROOT}/callers/python", "PYTHONDONTWRITEBYTECODE": "1", "MPLBACKEND": "Agg"}
    return ran([python(), "-W", "error", path], folder, more).split(MARK)


def printed_by_rust(code, folder):
    os.makedirs(f"{folder}/src", exist_ok=True)
    with open(f"{folder}/Cargo.toml", "w", encoding="utf-8") as file:
        file.write(f'[package]\nname = "page"\nversion = "0.0.0"\nedition = "2021"\n[dependencies]\nfoalmorrow = {{ path = "{ROOT}/callers/rust" }}\n[workspace]\n')
    with open(f"{folder}/src/main.rs", "w", encoding="utf-8") as file:
        file.write(code if "fn main" in code else RUST.format(code))
    return ran(["cargo", "run", "--offline", "--quiet"], folder, {"CARGO_TARGET_DIR": f"{OUT}/examples"})


def printed_by_c(code, folder):
    with open(f"{folder}/page.c", "w", encoding="utf-8") as file:
        file.write(code if "int main" in code else C.format(code))
    ran(["cc", "-std=c11", "-Wall", "-Werror", "-pthread", f"-I{ROOT}/callers/c", "-o", "page", "page.c", f"{OUT}/libvortex_ffi.a"], folder)
    return ran(["./page"], folder)


def printed(language, code, folder):
    if language == "rust":
        return printed_by_rust(code, folder)
    if language == "c":
        return printed_by_c(code, folder)
    if language == "sh":
        return ran(["bash", "-eu", "-c", code], ROOT)
    raise RuntimeError(f"nothing runs {language}")


def results(f, folder):
    """What each block of a page prints, beside what the page says of it."""
    found = [it for it in blocks(f) if shutil.which(RUNS.get(it[1], "sh"))]
    ours = [it for it in found if it[1] == "python"]
    if ours:
        for it, text in zip(ours, printed_by_python([it[2] for it in ours], folder)):
            yield it, text
    for it in found:
        if it[1] != "python":
            yield it, printed(it[1], it[2], folder)


def faults(f):
    with tempfile.TemporaryDirectory() as folder:
        try:
            for (line, language, _, said), text in results(f, folder):
                if said is not None and said != text:
                    yield f"{f}:{line}: the {language} prints\n{text}and not\n{said}"
        except (RuntimeError, subprocess.TimeoutExpired) as fault:
            missing = re.search(r"^ModuleNotFoundError: No module named '(\w+)", str(fault), re.M)
            if missing and missing[1] != "foalmorrow":
                print(f"examples: the Python of {f} left out: there is no {missing[1]}")
            else:
                yield f"{f}: an example doesn't run: {fault}"


def main():
    words = sys.argv[1:]
    chosen = [it for it in words if not it.startswith("--")] or pages()
    count = {f: len(list(blocks(f))) for f in chosen}
    if words == ["--list"]:
        print("\n".join(f"{f}:{line}: {language}" for f in chosen for line, language, _, _ in blocks(f)))
        return 0
    missing = [it for it in ("libvortex_ffi.so", "libvortex_ffi.a") if not os.path.exists(f"{OUT}/{it}")]
    if missing:
        print(f"examples: {OUT} has no {' and no '.join(missing)}; checks/callers.sh --build makes them")
        return 1
    for it in sorted({it[1] for f in chosen for it in blocks(f) if not shutil.which(RUNS.get(it[1], "sh"))}):
        print(f"examples: those in {it} left out: there is no {RUNS[it]}")
    found = [it for f in chosen if count[f] for it in faults(f)]
    print("\n".join(found) or f"examples: {sum(count.values())} blocks of {sum(map(bool, count.values()))} pages run and print what they say")
    return 1 if found else 0


if __name__ == "__main__":
    sys.exit(main())
