# SPDX-License-Identifier: Apache-2.0
"""Servers of their own for the tests: each in a folder of its own, stopped by its process when the tests end, however they end."""
from __future__ import annotations

import atexit
import contextlib
import os
import pathlib
import shutil
import signal
import socket
import subprocess
import tempfile
import time
from collections.abc import Callable, Iterator

from foalmorrow import brin, clickhouse

# What stops the servers that run; a test that is broken off leaves them to the end of the program.
_running: list[Callable[[], None]] = []
_QUIET = {"stdout": subprocess.DEVNULL, "stderr": subprocess.DEVNULL}


@atexit.register
def _stop_all() -> None:
    for stop in list(_running):
        stop()


@contextlib.contextmanager
def _stopped_after(process: subprocess.Popen[bytes], number: Callable[[], int], with_signal: signal.Signals) -> Iterator[None]:
    """Ends a server by its own process id, which the one of `runuser` isn't."""

    def stop() -> None:
        with contextlib.suppress(ProcessLookupError, OSError, ValueError):
            os.kill(number(), with_signal)
        try:
            process.wait(30)
        except subprocess.TimeoutExpired:
            process.kill()
            process.wait()
        _running.remove(stop)

    _running.append(stop)
    try:
        yield
    finally:
        stop()


CONFIG = """<yandex><logger><level>warning</level><log>{0}/log</log><errorlog>{0}/err</errorlog></logger>
<http_port>{1}</http_port><tcp_port>{2}</tcp_port><listen_host>127.0.0.1</listen_host>
<path>{0}/data/</path><tmp_path>{0}/tmp/</tmp_path><users_config>users.xml</users_config>
<default_profile>default</default_profile><default_database>default</default_database>
<mark_cache_size>268435456</mark_cache_size></yandex>"""
USERS = """<yandex><profiles><default/></profiles><quotas><default/></quotas><users><default><password/>
<networks><ip>127.0.0.1</ip></networks><profile>default</profile><quota>default</quota></default></users></yandex>"""


def postgres_folder() -> str | None:
    """Where PostgreSQL's own programs stand, or None where it isn't installed."""
    found = sorted(pathlib.Path("/usr/lib/postgresql").glob("*/bin/postgres"))
    return str(found[-1].parent) if found else None


def _as_user(folder: str) -> list[str]:
    """PostgreSQL doesn't run as root: there it is the user that its package makes."""
    if os.geteuid() != 0:
        return []
    shutil.chown(folder, "postgres")
    return ["runuser", "-u", "postgres", "--"]


@contextlib.contextmanager
def postgres() -> Iterator[str]:
    """A server on a socket alone, in the folder that is answered."""
    programs = postgres_folder()
    assert programs is not None
    with tempfile.TemporaryDirectory(prefix="foalmorrow-pg-") as folder:
        front = _as_user(folder)
        data = f"{folder}/data"
        made = [f"{programs}/initdb", "-D", data, "-U", "postgres", "-E", "UTF8", "--locale=C", "-A", "trust", "-N"]
        subprocess.run([*front, *made], check=True, cwd="/", **_QUIET)
        words = ["-c", "listen_addresses=", "-c", f"unix_socket_directories={folder}", "-c", "fsync=off", "-c", "max_parallel_workers_per_gather=0"]
        server = subprocess.Popen([*front, f"{programs}/postgres", "-D", data, *words], cwd="/", **_QUIET)
        with _stopped_after(server, lambda: int(pathlib.Path(f"{data}/postmaster.pid").read_text().split("\n")[0]), signal.SIGINT):
            _answers(lambda: brin.psql(folder, user="postgres")("SELECT 1"))
            yield folder


def _answers(ask: Callable[[], object]) -> None:
    for _ in range(300):
        with contextlib.suppress(ConnectionError):
            ask()
            return
        time.sleep(0.1)
    raise ConnectionError("the server didn't start in half a minute")


@contextlib.contextmanager
def clickhouse_server() -> Iterator[str]:
    """A server on two free ports of the loopback, at the URL that is answered."""
    with tempfile.TemporaryDirectory(prefix="foalmorrow-ch-") as at:
        with socket.create_server(("127.0.0.1", 0)) as a, socket.create_server(("127.0.0.1", 0)) as b:
            web, native = a.getsockname()[1], b.getsockname()[1]
        here = pathlib.Path(at)
        (here / "config.xml").write_text(CONFIG.format(at, web, native))
        (here / "users.xml").write_text(USERS)
        (here / "data").mkdir()
        (here / "tmp").mkdir()
        server = subprocess.Popen(["clickhouse-server", f"--config-file={here / 'config.xml'}"], cwd=at, **_QUIET)
        with _stopped_after(server, lambda: server.pid, signal.SIGTERM):
            _answers(lambda: clickhouse.http(f"http://127.0.0.1:{web}")("SELECT 1"))
            yield f"http://127.0.0.1:{web}"
