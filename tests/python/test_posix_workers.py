"""`tracehost-run --workers` over Dask distributed: a scheduler and two workers on this machine come to the bytes of one job.

A worker that is killed, and one with another model.
"""

from __future__ import annotations

import json
import os
import shutil
import signal
import subprocess
import sys
import time
from pathlib import Path

import pytest
from checking import run
from dask_cluster import Cluster, cluster, needs_dask
from posix_kit import POSIX, RUN, Posix

sys.path[:0] = [str(POSIX), str(POSIX.parent / "python")]

from tracehost_posix import farm  # noqa: E402
from tracehost_posix.ledger import Block  # noqa: E402
from tracehost_posix.outcome import Result  # noqa: E402
from tracehost_posix.setting import Broken, Refused  # noqa: E402

__all__ = ["cluster"]  # a fixture
pytestmark = needs_dask

SEEDS = "100..3500"
"""Four shares, and parts of two more."""


def test_workers_come_to_what_one_job_does(posix: Posix, cluster: Cluster, tmp_path: Path) -> None:
    """Until all have run, and until the first failure; one of three workers is killed meanwhile."""
    program = posix.race("stale_lwp")
    words = ["--seeds", SEEDS, "--keep-going", "--json", "--ledger"]
    here = posix.run(*words, tmp_path / "here", program)
    killed = [cluster.worker() for _ in range(3)][1]
    ledger = tmp_path / "there"
    command = [str(word) for word in (sys.executable, RUN, "--no-record", "--workers", cluster.address, *words, ledger, program)]
    search = subprocess.Popen(command, stdout=subprocess.PIPE, stderr=subprocess.PIPE, text=True)
    while search.poll() is None and not (ledger.exists() and ledger.read_bytes().count(b"\n") > 1):
        time.sleep(0.01)
    killed.send_signal(signal.SIGKILL)
    out, errors = search.communicate()
    assert (search.returncode, out, errors) == (1, here.stdout, here.stderr)
    assert ledger.read_bytes() == (tmp_path / "here").read_bytes()

    first = posix.run("--schedules", 3000, program)
    again = posix.run("--workers", cluster.address, "--schedules", 3000, program)
    assert (again.returncode, again.stdout, again.stderr) == (1, first.stdout, first.stderr)
    passed = posix.run("--workers", cluster.address, "--schedules", 1500, posix.remedy("stale_lwp"))
    assert passed.returncode == 0 and "1501 schedules passed" in passed.stderr, passed.stderr


class Client:
    """Stands for Dask's, and for a call that it was given: each is answered as soon as somebody waits for it."""

    out = most = 0

    def submit(self, function: object, share: int, pure: bool, priority: int) -> Client:
        assert priority == -share, "Dask makes it before the next one, also if its worker has died"
        self.out += 1
        self.most = max(self.most, self.out)
        return self

    def result(self) -> None:
        self.out -= 1

    def cancel(self, futures: list[Client]) -> None:
        self.out -= len(futures)


def test_400_cores_have_work_and_few_shares_wait_for_the_first() -> None:
    """Two shares a core are given out. If the first share is the last that counts, those after it are cancelled."""
    made, client = object.__new__(farm.Farm), Client()
    made._client = client
    answers = made.answers(iter(range(5000)), lambda share: (print, share), farm.AHEAD)
    assert [share for share, _ in answers] == list(range(5000))
    assert client.out == 0 and 800 <= client.most == farm.AHEAD
    made._client = client = Client()
    answers = made.answers(iter(range(5000)), lambda share: (print, share), farm.AHEAD)
    assert next(answers) == (0, None) and client.most == farm.FIRST
    del answers  # ends it
    assert client.out == 0


@pytest.mark.parametrize("address, is_open", [
    ("tcp://10.0.0.1:8786", True),
    ("10.0.0.1:8786", True),
    ("node7:8786", True),
    ("ws://node7:8786", True),
    ("tcp://[fd00::2]:8786", True),
    ("tcp://127.0.0.1.example:1", True),
    ("tcp://127.0.0.1:8786", False),
    ("127.0.1.1:8786", False),
    ("tcp://[::1]:8786", False),
    ("tcp://localhost:8786", False),
    ("tls://10.0.0.1:8786", False),
    ("wss://node7:8786", False),
])  # fmt: skip
def test_which_schedulers_are_open_to_others(address: str, is_open: bool) -> None:
    """test_posix_machines has a search that says so."""
    assert farm.open_to_others(address) == is_open


def share_of(first: int, count: int) -> tuple[range, str]:
    """Seeds, and the line of a ledger that tells them."""
    block = Block(first)
    for seed in range(first, first + count):
        block.add(seed, Result(None, 2, 2, 2, "", "", 0, 0, 0), seed == first)
    return range(first, first + count), block.line()


IDENTITY = {"program": "1", "seeds": [1, 9]}


def answer_of(text: str, seeds: range) -> list[Block]:
    order = farm.Order("program", [], [], dict(IDENTITY), True)
    return list(farm._answer(order, seeds, farm.Said("node7", 0, "", text)))


def test_a_worker_s_answer() -> None:
    seeds, line = share_of(256, 256)
    (block,) = answer_of(f"{json.dumps(IDENTITY)}\n{line}\n", seeds)
    assert block.line() == line


def test_a_worker_s_damaged_answer_is_told() -> None:
    """As what has failed, with the worker's name."""
    seeds, line = share_of(256, 256)
    head = json.dumps(IDENTITY)
    changed = line.replace("[256, 512, 512, ", "[256, 512, 513, ")
    assert changed != line
    texts = [
        "[]",
        "null",
        "x",
        "\n\n",
        "[" * 100000,
        f"{head}\n{changed}\n",
        f"{head}\nnull\n",
        f"{head}\n\n",
        f"{head}\n{line[:-9]}\n",
    ]
    for text in texts:
        with pytest.raises(Broken, match="^--workers: node7: its ledger is damaged$"):
            answer_of(text, seeds)
    with pytest.raises(Refused, match="node7: another program: null there"):
        answer_of("{}\n", seeds)


def test_dask_logs_nothing(cluster: Cluster, monkeypatch: pytest.MonkeyPatch) -> None:
    """What its libraries log isn't among the lines of the search."""
    monkeypatch.setenv("PYTHONPATH", str(POSIX))
    code = (
        "import logging, sys; from tracehost_posix.farm import Farm; Farm(sys.argv[1])\n"
        "for name in ('distributed', 'distributed.client', 'distributed.comm.tcp', 'tornado.application', 'asyncio'):\n"
        "    logging.getLogger(name).critical('logged by %s', name)\n"
        "print('answered')\n"
    )
    done = run(sys.executable, "-c", code, cluster.address)
    assert (done.status, done.out, done.err) == (0, "answered\n", "")


def test_a_worker_with_another_model_is_refused(posix: Posix, cluster: Cluster, program: Path, tmp_path: Path) -> None:
    other = tmp_path / "tracehost"
    shutil.copy(program, other)
    with open(other, "ab") as file:
        file.write(b"\0")
    cluster.worker(TRACEHOST=str(other))
    done = posix.run("--workers", cluster.address, "--seeds", "1..9", posix.remedy("lost_wakeup"))
    assert done.returncode == 2 and ": another model: " in done.stderr, done.stderr


def test_a_worker_without_the_command_is_told(posix: Posix, cluster: Cluster) -> None:
    cluster.worker(PATH="/nowhere")
    done = posix.run("--workers", cluster.address, "--seeds", "1..9", posix.remedy("lost_wakeup"))
    assert done.returncode == 3 and "there is no tracehost-run on the path" in done.stderr, done.stderr


@pytest.mark.parametrize("address", ["tcp://127.0.0.1:9", "nonsense://x", ""])
def test_no_scheduler_is_told(posix: Posix, monkeypatch: pytest.MonkeyPatch, address: str) -> None:
    monkeypatch.setenv("DASK_DISTRIBUTED__COMM__TIMEOUTS__CONNECT", "2s")
    done = posix.run("--workers", address, "--seeds", "1..9", posix.remedy("lost_wakeup"))
    assert done.returncode == 2 and done.stderr.startswith(f"tracehost-run: --workers: {address}: "), done.stderr


def test_without_dask_it_says_what_to_install(posix: Posix, monkeypatch: pytest.MonkeyPatch, tmp_path: Path) -> None:
    (tmp_path / "distributed.py").write_text("raise ModuleNotFoundError(name='distributed')\n")
    monkeypatch.setenv("PYTHONPATH", str(tmp_path))
    done = posix.run("--workers", "tcp://127.0.0.1:9", "--seeds", "1..9", posix.remedy("lost_wakeup"))
    said = "tracehost-run: --workers: distributed isn't here: Debian's python3-distributed has it\n"
    assert (done.returncode, done.stderr) == (2, said)
