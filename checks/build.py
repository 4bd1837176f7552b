#!/usr/bin/env python3
# SPDX-License-Identifier: Apache-2.0
"""Proves and builds a program of the repository where its sources have changed, and says on standard error how far it is.

usage: checks/build.py [NAME]    builds crates/NAME/out/NAME, by default vortex_scan, and prints nothing on standard output
       checks/build.py --run [NAME WORD..]    builds it, and runs it with these words in its own place, on the same standard input

Crates that don't stand on each other are proved side by side where memory allows. An interrupted build goes on where
it was: `rt` keeps in each crate's out/ what it has proved. The status is 70 where something isn't proved or built.
"""
import contextlib
import fcntl
import hashlib
import os
import re
import shutil
import signal
import subprocess
import sys
import threading
import time

TOP = os.path.dirname(os.path.dirname(os.path.abspath(__file__)))
SOURCES = ("src", "specs", "proofs")
# The top of copies of crates, to prove one beside another: only one `rt` at a time works in a crate's folder and in those below it.
BESIDE = os.path.join(TOP, "out", "beside")
# What the proofs of vortex_scan take on one processor, of which several do up to twice the minutes since crates wait for those
# below them; and the memory that a crate takes, and with each more of the processes that prove its functions.
MINUTES = 70
BYTES_A_CRATE = 3_000_000_000
BYTES_A_JOB = 700_000_000
# A crate with fewer lines isn't parted among processes by its functions, and several would each do over what one does.
LINES_OF_PARTS = 300
NOT_BUILT = 70
# How often a line is written where standard error is no terminal.
SECONDS_A_LINE = 30


def listed_crates():
    """The line of each crate in crates.txt, by its name."""
    with open(f"{TOP}/crates.txt", encoding="utf-8") as listed:
        lines = [line.partition("#")[0].strip() for line in listed]
    return {line.partition(":")[0].split()[0]: line for line in lines if ":" in line}


def crates_below(*tops):
    """These crates and those of the repository below them, each with those that it names, lowest first."""
    named = {name: line.partition(":")[2].split() for name, line in listed_crates().items()}
    found = {}

    def visit(name):
        own = [it for it in named[name] if it in named]
        for it in own:
            visit(it)
        found[name] = own

    for it in tops:
        visit(it)
    return found


def sum_of(crates, *others):
    """A sum of the sources of crates and their lines in crates.txt, of other files and of the toolchain."""
    folders = [f"{TOP}/crates/{name}/{part}" for name in crates for part in SOURCES]
    files = [f"{at}/{name}" for it in folders for at, _, names in os.walk(it) for name in names]
    found = hashlib.sha256(subprocess.run(["rt", "version"], stdout=subprocess.PIPE, check=True).stdout)
    found.update("\n".join(line for name, line in sorted(listed_crates().items()) if name in crates).encode())
    for file in sorted([*files, *others]):
        with open(file, "rb") as it:
            found.update(f"\n{os.path.relpath(file, TOP)} {os.path.getsize(file)}\n".encode() + it.read())
    return found.hexdigest()


def text_of(file):
    if not os.path.isfile(file):
        return None
    with open(file, encoding="utf-8") as it:
        return it.read()


def free_bytes():
    return 1024 * int(re.search(r"MemAvailable:\s+(\d+)", text_of("/proc/meminfo"))[1])


def jobs_of(name, jobs):
    """With how many processes a crate is proved, of as many as it may have."""
    files = [f"{at}/{it}" for at, _, names in os.walk(f"{TOP}/crates/{name}/src") for it in names]
    return jobs if sum(text_of(it).count("\n") for it in files) >= LINES_OF_PARTS else 1


def link(file, to):
    """Gives a file a second name, or copies it where it can't have one."""
    try:
        os.link(file, to)
    except OSError:
        shutil.copy2(file, to)


def copy_beside(crates, name, room):
    """Copies the sources of a crate, and the built crates below it, to a folder in which it can be proved beside others."""
    below = set(crates[name])
    for it in reversed(list(crates)):
        below.update(crates[it] if it in below else ())
    for it in (name, *below):
        for part in (*SOURCES, *(("out/rlib",) if it in below else ())):
            if os.path.isdir(f"{TOP}/crates/{it}/{part}"):
                shutil.copytree(f"{TOP}/crates/{it}/{part}", f"{room}/crates/{it}/{part}", copy_function=link)
    rows = [line for it, line in listed_crates().items() if it in (name, *below)]
    with open(f"{room}/crates.txt", "w", encoding="utf-8") as it:
        it.write("\n".join(rows) + "\n")


def put_beside(crates, name):
    """Moves what is proved of a crate to a copy of it, so that it is proved there."""
    copy_beside(crates, name, BESIDE)
    if os.path.isdir(f"{TOP}/crates/{name}/out"):
        os.rename(f"{TOP}/crates/{name}/out", f"{BESIDE}/crates/{name}/out")


def put_back():
    """Moves what was proved beside other crates, whole or in part, to where it belongs."""
    for name in os.listdir(f"{BESIDE}/crates") if os.path.isdir(f"{BESIDE}/crates") else ():
        if not os.path.exists(f"{TOP}/crates/{name}/out") and os.path.isdir(f"{BESIDE}/crates/{name}/out"):
            os.rename(f"{BESIDE}/crates/{name}/out", f"{TOP}/crates/{name}/out")
    shutil.rmtree(BESIDE, ignore_errors=True)


def kept_count(name):
    """The file that keeps how many functions of a crate are proved, and the sum of what that stands on."""
    return f"{TOP}/crates/{name}/out/functions", sum_of(crates_below(name))


def note_count(name, count):
    """Keeps how many functions of a crate are proved."""
    kept, stamp = kept_count(name)
    with open(kept, "w", encoding="utf-8") as it:
        it.write(f"{stamp} {count}\n")


class Run:
    """A run of `rt` on one crate, which says how many of its functions are checked."""

    def __init__(self, name, top, jobs):
        self.name, self.top, self.far, self.said = name, top, name, []
        self.is_program = os.path.isfile(f"{top}/crates/{name}/src/main.rt")
        words = ["rt", "run" if self.is_program else "lib", "--jobs", str(jobs_of(name, jobs))]
        # `rt run` tells of its work on standard error, and then runs the program.
        streams = {"stdout": subprocess.DEVNULL, "stderr": subprocess.PIPE} if self.is_program else {"stdout": subprocess.PIPE, "stderr": subprocess.STDOUT}
        how = {"cwd": f"{top}/crates/{name}", "stdin": subprocess.DEVNULL, "text": True, "errors": "replace"}
        self.process = subprocess.Popen(words, **how, **streams)
        self.reader = threading.Thread(target=self.read, daemon=True)
        self.reader.start()

    def read(self):
        for line in self.process.stderr if self.is_program else self.process.stdout:
            found = re.match(r"so far: (\d+) of (\d+) functions", line)
            if found:
                self.far = f"{self.name} {found[1]} of {found[2]} functions"
            elif not re.match(r"fn \S+: proved$", line):
                self.said.append(line)

    def is_built(self):
        """Whether an ended run has built its crate: the status of `rt run` can be the program's own."""
        self.reader.join()
        return any(it.startswith("rt: running ") for it in self.said) if self.is_program else self.process.returncode == 0

    def count(self):
        """How many functions an ended run has proved, or None where it proved nothing anew."""
        found = re.search(r"^logic=proved functions=(\d+) ", "".join(self.said), re.M)
        return found and found[1]


class Progress:
    """What is told of a build: one line that is written anew on a terminal, and else a line now and then."""

    def __init__(self):
        self.is_terminal, self.start, self.last = sys.stderr.isatty(), time.monotonic(), 0

    def tell(self, text):
        passed = int(time.monotonic() - self.start)
        line = f"proving: {text}; {passed // 60}:{passed % 60:02}"
        if self.is_terminal:
            print("\r\x1b[K" + line[: shutil.get_terminal_size().columns - 1], end="", file=sys.stderr, flush=True)
        elif passed >= self.last + SECONDS_A_LINE:
            self.last = passed
            print(line, file=sys.stderr, flush=True)

    def end(self):
        if self.is_terminal:
            print(file=sys.stderr)


def build(crates, jobs, progress):
    """Proves and builds each crate once those below it are built. Returns the run that failed, if one did.

    At most two are proved at a time, each with as many jobs as one alone has, since one leaves processors idle now and then.
    """
    runs, done, room = [], [], free_bytes()
    try:
        while len(done) < len(crates):
            ready = [it for it in crates if it not in done and it not in [run.name for run in runs] and set(crates[it]) <= set(done)]
            for name in ready:
                if not runs or len(runs) == 1 and room >= 2 * (BYTES_A_CRATE + jobs * BYTES_A_JOB):
                    is_beside = any(run.top == TOP for run in runs)
                    if is_beside:
                        put_beside(crates, name)
                    runs.append(Run(name, BESIDE if is_beside else TOP, jobs))
            time.sleep(0.2)
            for run in [it for it in runs if it.process.poll() is not None]:
                if not run.is_built():
                    return run
                runs.remove(run)
                done.append(run.name)
                if run.top == BESIDE:
                    put_back()
                if run.count():
                    note_count(run.name, run.count())
            progress.tell(", ".join([f"{len(done)} of {len(crates)} crates done", *[it.far for it in runs]]))
    finally:
        progress.end()
        for run in runs:
            run.process.terminate()
        for run in runs:
            run.process.wait()
        put_back()
    return None


@contextlib.contextmanager
def alone():
    """Waits until no other build goes on, and keeps others waiting."""
    with open(f"{TOP}/crates.txt", encoding="utf-8") as held:
        try:
            fcntl.flock(held, fcntl.LOCK_EX | fcntl.LOCK_NB)
        except BlockingIOError:
            print("proving: another build is going on, which this one waits for", file=sys.stderr, flush=True)
            fcntl.flock(held, fcntl.LOCK_EX)
        put_back()
        yield


def processors():
    return len(os.sched_getaffinity(0))


def jobs_that_fit():
    """How many processes prove a crate's functions: two for each processor if memory holds them, which took 3 to 12% less time than one."""
    return int(max(1, min(2 * processors(), (free_bytes() - BYTES_A_CRATE) // BYTES_A_JOB)))


def are_built(crates, jobs):
    """Proves and builds crates, and says on standard error which of them isn't, if one isn't."""
    failed = build(crates, jobs, Progress())
    if failed:
        print(*failed.said, f"proving: {failed.name} is not proved or not built, as said above", sep="", file=sys.stderr)
    return not failed


def file_of(name):
    """The file to which a program or a static library is built."""
    is_library = re.match(r"\w+ staticlib\b", listed_crates()[name])
    return f"{TOP}/crates/{name}/out/" + (f"lib{name}.a" if is_library else name)


def built(name):
    """Builds a program or a static library unless the built one is of the sources as they stand, and returns its file, or None if that fails."""
    crates, program = crates_below(name), file_of(name)
    with alone():
        if os.path.isfile(program) and text_of(f"{program}.sum") == sum_of(crates, program):
            return program
        jobs = jobs_that_fit()
        used = min(jobs, processors())
        print(
            f"proving: {name} is proved before it runs. From nothing that takes {MINUTES // used} to {2 * MINUTES // used} minutes"
            f" on {used} processors; an interrupted run goes on where it was.",
            file=sys.stderr,
            flush=True,
        )
        if not are_built(crates, jobs):
            return None
        with open(f"{program}.sum", "w", encoding="utf-8") as it:
            it.write(sum_of(crates, program))
    return program


def main(words):
    for it in (signal.SIGTERM, signal.SIGHUP, signal.SIGINT):
        signal.signal(it, lambda number, _: sys.exit(128 + number))
    runs = words[:1] == ["--run"]
    name, *arguments = words[runs:] or ["vortex_scan"]
    program = built(name)
    if program and runs:
        signal.signal(signal.SIGPIPE, signal.SIG_DFL)
        os.execv(program, [program, *arguments])
    return 0 if program else NOT_BUILT


if __name__ == "__main__":
    sys.exit(main(sys.argv[1:]))
