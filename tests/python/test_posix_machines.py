"""A search by the workers of several machines, which are network namespaces of this one: it comes to the bytes of one job.

One of the machines is slow, one dies, one has another model, and the search itself is killed twice and goes on from its
ledger. TRACEHOST_TEST_SCALE multiplies the schedules.
"""

from __future__ import annotations

import contextlib
import os
import shutil
import signal
import subprocess
import sys
import time
from collections.abc import Iterator
from pathlib import Path

import pytest
from checking import needs, run
from dask_cluster import Cluster, needs_dask
from posix_kit import RUN, SCALE, Posix

pytestmark = [needs_dask, needs("ip", "unshare")]
needs_root = pytest.mark.skipif(os.geteuid() != 0, reason="it takes root to make network namespaces")
SHARE = 1024
SEEDS = f"{SHARE}..{SHARE * (1 + 6 * SCALE) - 1}"
SEARCH = ["--keep-going", "--json", "--seeds", SEEDS]


class Machines:
    """Network namespaces, joined by a bridge in one more. Each has a name of its own."""

    def __init__(self) -> None:
        self._names: list[str] = []

    def make(self, count: int) -> None:
        self.hub = self._made("hub")
        self._ip("-n", self.hub, "link", "add", "bridge", "type", "bridge")
        self._ip("-n", self.hub, "addr", "add", "10.0.0.1/24", "dev", "bridge")
        for device in ("lo", "bridge"):
            self._ip("-n", self.hub, "link", "set", device, "up")
        self.machines = [self._joined(number) for number in range(1, count + 1)]

    def _made(self, name: str) -> str:
        own = f"tracehost{os.getpid()}-{name}"
        self._ip("netns", "add", own)
        self._names.append(own)
        return own

    def _joined(self, number: int) -> str:
        own = self._made(str(number))
        self._ip("link", "add", "eth0", "netns", own, "type", "veth", "peer", "name", f"port{number}", "netns", self.hub)
        self._ip("-n", self.hub, "link", "set", f"port{number}", "master", "bridge", "up")
        self._ip("-n", own, "addr", "add", f"10.0.0.{10 + number}/24", "dev", "eth0")
        for device in ("lo", "eth0"):
            self._ip("-n", own, "link", "set", device, "up")
        return own

    @staticmethod
    def _ip(*words: str) -> str:
        done = run("ip", *words)
        assert done.status == 0, done.err
        return done.out

    @staticmethod
    def on(name: str) -> list[str]:
        """The words before a command that runs on this machine, which then is the process of the command."""
        return ["ip", "netns", "exec", name, "unshare", "--uts", "sh", "-c", f'hostname {name}; exec "$@"', "sh"]

    def end(self) -> None:
        for name in self._names:
            with contextlib.suppress(AssertionError):
                for pid in self._ip("netns", "pids", name).split():
                    with contextlib.suppress(ProcessLookupError):
                        os.kill(int(pid), signal.SIGKILL)
            with contextlib.suppress(AssertionError):
                self._ip("netns", "del", name)


@pytest.fixture
def machines() -> Iterator[Machines]:
    made = Machines()
    try:
        made.make(4)
        yield made
    finally:
        made.end()


def noting(room: Path, name: str, slow: float = 0) -> dict[str, str]:
    """An environment whose tracehost-run notes when each run began and ended, and may wait before."""
    folder = room / f"bin-{name}"
    folder.mkdir()
    script = folder / "tracehost-run"
    script.write_text(
        f"#!/bin/sh\ndate +%s.%N >>'{folder}/times'; sleep {slow}; '{sys.executable}' '{RUN}' \"$@\"; status=$?\n"
        f"date +%s.%N >>'{folder}/times'; exit $status\n"
    )
    script.chmod(0o755)
    return {"PATH": f"{folder}:{os.environ['PATH']}"}


def times_of(room: Path, name: str) -> list[float]:
    """When a worker has begun and ended each share, but that in which it was killed."""
    times = [float(word) for word in (room / f"bin-{name}/times").read_text().split()]
    return times[: len(times) // 2 * 2]


def busy(times: list[float]) -> float:
    """The part of the time between the first share and the last in which there was one."""
    return (sum(times[1::2]) - sum(times[0::2])) / (times[-1] - times[0])


def lines_of(ledger: Path) -> int:
    return ledger.read_bytes().count(b"\n") if ledger.exists() else 0


class Remote:
    """A search whose scheduler and driver are on the hub."""

    def __init__(self, machines: Machines, room: Path, program: Path) -> None:
        self._machines, self._room, self._program = machines, room, program
        self.ledger = room / "there"
        self.cluster = Cluster(room, "10.0.0.1", machines.on(machines.hub))

    def worker(self, name: str, machine: str, slow: float = 0, **environment: str) -> subprocess.Popen[bytes]:
        return self.cluster.worker(self._machines.on(machine), **noting(self._room, name, slow), **environment)

    def begin(self, *words: str | Path) -> subprocess.Popen[str]:
        command = [sys.executable, RUN, "--no-record", "--workers", self.cluster.address, *words, self._program]
        before = self._machines.on(self._machines.hub)
        return subprocess.Popen([*before, *map(str, command)], stdout=subprocess.PIPE, stderr=subprocess.PIPE, text=True)

    def await_lines(self, search: subprocess.Popen[str], count: int) -> None:
        while lines_of(self.ledger) < count:
            assert search.poll() is None, search.communicate()
            time.sleep(0.02)


@needs_root
def test_machines_that_die_are_slow_or_are_others(posix: Posix, machines: Machines, program: Path, tmp_path: Path) -> None:
    racy = posix.race("stale_lwp")
    here = posix.run(*SEARCH, "--ledger", tmp_path / "here", racy)
    assert here.returncode == 1 and lines_of(tmp_path / "here") == 1 + 24 * SCALE
    remote = Remote(machines, tmp_path, racy)
    try:
        quick, slow, dying, other = machines.machines
        remote.worker("quick", quick)
        remote.worker("slow", slow, slow=1)
        killed = remote.worker("dying", dying)

        shutil.copy(program, tmp_path / "tracehost")
        with open(tmp_path / "tracehost", "ab") as file:
            file.write(b"\0")
        foreign = remote.worker("other", other, TRACEHOST=str(tmp_path / "tracehost"))
        search = remote.begin("--seeds", f"1..{8 * SHARE}", "--keep-going")
        _, errors = search.communicate()
        assert search.returncode == 2 and f"--workers: {other}: another model: " in errors, errors
        foreign.kill()
        foreign.wait()

        for _ in range(2):
            search = remote.begin(*SEARCH, "--ledger", remote.ledger)
            remote.await_lines(search, lines_of(remote.ledger) + 1)
            search.kill()
            search.wait()
        kept = lines_of(remote.ledger)
        search = remote.begin(*SEARCH, "--ledger", remote.ledger)
        remote.await_lines(search, kept + 1)
        killed.kill()
        out, errors = search.communicate()
        first, _, rest = errors.partition("\n")
        assert (search.returncode, out, rest) == (1, here.stdout, here.stderr)
        warning = "whoever reaches this scheduler can run anything on its workers; tls:// asks for a certificate"
        assert first == f"tracehost-run: --workers: {remote.cluster.address}: {warning}"
        assert remote.ledger.read_bytes() == (tmp_path / "here").read_bytes()
        for name in ("quick", "slow"):
            assert times_of(tmp_path, name)
    finally:
        remote.cluster.end()


@needs_root
def test_workers_are_busy(posix: Posix, machines: Machines, tmp_path: Path) -> None:
    """For nine tenths of the time there is a share in each of two workers."""
    remote = Remote(machines, tmp_path, posix.remedy("lost_wakeup"))
    try:
        for name, machine in zip(("one", "other"), machines.machines):
            remote.worker(name, machine)
        search = remote.begin("--seeds", SEEDS)
        _, errors = search.communicate()
        assert search.returncode == 0, errors
        times = [times_of(tmp_path, name) for name in ("one", "other")]
        assert sum(map(len, times)) == 2 * 6 * SCALE and all(len(of_one) >= 4 for of_one in times)
        parts = [busy(of_one) for of_one in times]
        print(f"busy for {', '.join(f'{part:.3f}' for part in parts)} of the time")
        assert min(parts) > 0.9, parts
    finally:
        remote.cluster.end()


@needs("openssl")
def test_certificates(posix: Posix, tmp_path: Path) -> None:
    """By tls:// a search is the same, and one without a certificate of the same authority is refused."""
    certificate, key = tmp_path / "certificate.pem", tmp_path / "key.pem"
    words = ["req", "-x509", "-newkey", "rsa:2048", "-nodes", "-days", "2", "-subj", "/CN=tracehost"]
    made = run("openssl", *words, "-keyout", key, "-out", certificate)
    assert made.status == 0, made.err
    cluster = Cluster(tmp_path, tls={"ca-file": certificate, "cert": certificate, "key": key})
    try:
        cluster.worker()
        program = posix.race("lost_wakeup")
        here = posix.run("--schedules", 500, program)
        command = [sys.executable, RUN, "--no-record", "--workers", cluster.address, "--schedules", "500", program]
        tls = {"DASK_DISTRIBUTED__COMM__TLS__CA_FILE": certificate}
        tls |= {f"DASK_DISTRIBUTED__COMM__TLS__CLIENT__{name}": file for name, file in (("CERT", certificate), ("KEY", key))}
        there = posix.execute("env", *(f"{name}={file}" for name, file in tls.items()), *command)
        assert cluster.address.startswith("tls://")
        assert (there.returncode, there.stdout, there.stderr) == (1, here.stdout, here.stderr)
        without = posix.execute("env", "DASK_DISTRIBUTED__COMM__TIMEOUTS__CONNECT=2s", *command)
        assert without.returncode == 2 and without.stderr.startswith(f"tracehost-run: --workers: {cluster.address}: ")
    finally:
        cluster.end()
