"""A scheduler of Dask distributed and its workers, as tests start them: on this machine, or each in a network of its own."""

from __future__ import annotations

import importlib.util
import json
import os
import subprocess
import sys
import time
from collections.abc import Iterator, Mapping, Sequence
from pathlib import Path

import pytest
from posix_kit import POSIX

needs_dask = pytest.mark.skipif(importlib.util.find_spec("distributed") is None, reason="python3-distributed isn't installed")


class Cluster:
    """A scheduler with workers of one thread."""

    def __init__(
        self, room: Path, host: str = "127.0.0.1", before: Sequence[str] = (), tls: Mapping[str, Path] | None = None
    ) -> None:
        """The words before its command put the scheduler elsewhere. For TLS there are the files of ca-file, cert and key."""
        self._room, self._file = room, room / "scheduler.json"
        self._words = [word for name, path in (tls or {}).items() for word in (f"--tls-{name}", str(path))]
        self._started: list[subprocess.Popen[bytes]] = []
        protocol = ("--protocol", "tls" if tls else "tcp")
        self._start("scheduler", {}, before, "--host", host, "--port", "0", "--no-dashboard", *protocol)
        while not (self._file.exists() and self._file.stat().st_size > 0):
            assert self._started[0].poll() is None, (room / "scheduler.log").read_text()
            time.sleep(0.05)
        time.sleep(0.2)
        self.address = json.loads(self._file.read_text())["address"]

    def _start(self, kind: str, environment: Mapping[str, str], before: Sequence[str], *words: str) -> subprocess.Popen[bytes]:
        command = [*before, sys.executable, "-m", f"distributed.cli.dask_{kind}", *self._words, *words]
        with open(self._room / f"{kind}.log", "ab") as log:
            started = subprocess.Popen(
                [*command, "--scheduler-file", str(self._file)],
                env={**os.environ, **environment},
                stdout=log,
                stderr=log,
                cwd=self._room,
            )
        self._started.append(started)
        return started

    def worker(self, before: Sequence[str] = (), **environment: str) -> subprocess.Popen[bytes]:
        """Another worker. The words before its command put it elsewhere."""
        log = self._room / "worker.log"
        registered = log.read_text().count("Registered to") if log.exists() else 0
        path = f"{POSIX}:{os.environ['PATH']}"
        words = ("--nthreads", "1", "--no-nanny", "--no-dashboard", "--local-directory", str(self._room))
        started = self._start("worker", {"PATH": path, **environment}, before, *words)
        while log.read_text().count("Registered to") == registered:
            assert started.poll() is None, log.read_text()
            time.sleep(0.05)
        return started

    def end(self) -> None:
        for started in reversed(self._started):
            started.kill()
            started.wait()


@pytest.fixture
def cluster(tmp_path: Path) -> Iterator[Cluster]:
    made = Cluster(tmp_path)
    try:
        yield made
    finally:
        made.end()
