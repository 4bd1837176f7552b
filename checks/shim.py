# SPDX-License-Identifier: Apache-2.0
# A library in front of the C library's: it refuses the Nth request for memory of a program, and cuts its reads and writes.
import os
import subprocess
import tempfile

SOURCE = r"""
#define _GNU_SOURCE
#include <dlfcn.h>
#include <stdlib.h>
#include <sys/syscall.h>
#include <unistd.h>

static long requests = 0;

static int is_refused(void) {
    const char *refused = getenv("REFUSED_REQUEST"), *teller = getenv("TELLER");
    requests += 1;
    if (!refused || requests != atol(refused)) return 0;
    if (teller) syscall(SYS_write, atoi(teller), "!", 1);
    return 1;
}

void *malloc(size_t size) {
    static void *(*real)(size_t);
    if (!real) real = dlsym(RTLD_NEXT, "malloc");
    return is_refused() ? NULL : real(size);
}

void *realloc(void *place, size_t size) {
    static void *(*real)(void *, size_t);
    if (!real) real = dlsym(RTLD_NEXT, "realloc");
    return is_refused() ? NULL : real(place, size);
}

ssize_t read(int file, void *bytes, size_t size) {
    static ssize_t (*real)(int, void *, size_t);
    if (!real) real = dlsym(RTLD_NEXT, "read");
    return real(file, bytes, size > 1 && getenv("ONE_BYTE") ? 1 : size);
}

ssize_t write(int file, const void *bytes, size_t size) {
    static ssize_t (*real)(int, const void *, size_t);
    if (!real) real = dlsym(RTLD_NEXT, "write");
    return real(file, bytes, size > 1 && getenv("ONE_BYTE") ? 1 : size);
}

ssize_t __write(int file, const void *bytes, size_t size) { return write(file, bytes, size); }
"""


def build():
    """Compiles it, and gives its path."""
    folder = tempfile.mkdtemp()
    library = os.path.join(folder, "shim.so")
    subprocess.run(["cc", "-shared", "-fPIC", "-O2", "-x", "c", "-", "-o", library, "-ldl"], input=SOURCE.encode(), check=True)
    return library


def run(library, program, data, seconds, **settings):
    """The status and what is printed under these settings."""
    environment = dict(os.environ, LD_PRELOAD=library, **settings)
    done = subprocess.run([program], input=data, stdout=subprocess.PIPE, stderr=subprocess.DEVNULL, timeout=seconds, env=environment)
    return done.returncode, done.stdout


def refused(library, command, count, seconds):
    """The status of a command whose request of this number is refused, what it says, and whether it came to that request."""
    told, teller = os.pipe()
    environment = dict(os.environ, LD_PRELOAD=library, REFUSED_REQUEST=str(count), TELLER=str(teller))
    done = subprocess.run(command, stdin=subprocess.DEVNULL, stdout=subprocess.PIPE, stderr=subprocess.STDOUT, timeout=seconds, env=environment, pass_fds=[teller])
    os.close(teller)
    came = os.read(told, 1) != b""
    os.close(told)
    return done.returncode, done.stdout, came
