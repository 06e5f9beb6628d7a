"""Nothing is left of a run, whatever ends it: no process, and no file.

TRACEHOST_TEST_SCALE multiplies how often a run is ended by a signal; 20 are 400 times.
"""

from __future__ import annotations

import os
import random
import re
import shutil
import signal
import subprocess
import sys
import time
from contextlib import suppress
from pathlib import Path

import pytest
from checking import needs
from posix_kit import RUN, SCALE, Posix

pytestmark = needs("pgrep")


class Odd:
    """The program that ends in odd ways, at a path of its own, with an empty folder for temporary files."""

    def __init__(self, room: Path, program: Path) -> None:
        self.temporary = room / "tmp"
        self.temporary.mkdir()
        self.program = room / "odd"
        shutil.copy(program, self.program)

    def left(self) -> list[str]:
        """What is left of it."""
        found = subprocess.run(
            ["pgrep", "-a", "-f", f"^{re.escape(str(self.program))}"], stdout=subprocess.PIPE, text=True, check=False
        )
        return [*found.stdout.splitlines(), *map(str, self.temporary.iterdir())]

    def left_in_time(self, seconds: float = 5) -> list[str]:
        """What is left of it after so many seconds."""
        end = time.monotonic() + seconds
        while (left := self.left()) and time.monotonic() < end:
            time.sleep(0.1)
        return left

    def processes(self) -> list[int]:
        """Of a run: the broker, then the server, and then its children."""
        found = subprocess.run(["pgrep", "-f", re.escape(str(self.program))], stdout=subprocess.PIPE, text=True, check=False)
        return sorted(map(int, found.stdout.split()))


@pytest.fixture
def odd(posix: Posix, tmp_path: Path, monkeypatch: pytest.MonkeyPatch) -> Odd:
    made = Odd(tmp_path, posix.compiled("tests/odd.c"))
    monkeypatch.setenv("TMPDIR", str(made.temporary))
    return made


@pytest.mark.parametrize(
    "word", ["killed", "hangs", "spins", "closes_all", "deadlock", "system", "shell", "closes", "forks", "prints"]
)
def test_nothing_is_left_of_a_program_that(posix: Posix, odd: Odd, word: str) -> None:
    done = posix.run("--patience", 2, odd.program, word, seconds=120)
    assert not odd.left()
    assert done.returncode == (0 if word in ("closes", "forks", "prints") else 1), done.stderr
    if word == "prints":
        assert len(done.stdout) == 8000000


ENDS = [
    ("KILL", "spins", "--jobs 1 --schedules 100000"),
    ("KILL", "closes", "--jobs 1 --schedules 100000"),
    ("KILL", "spins", "--jobs 3 --schedules 100000"),
    ("TERM", "closes", "--jobs 2 --schedules 100000"),
    ("INT", "closes", "--jobs 2 --schedules 100000"),
    ("KILL", "closes", "--jobs 3 --schedules 100000 --verify"),
    ("TERM", "spins", "--jobs 1 --schedules 100000 --verify"),
    ("INT", "forks", "--jobs 2 --schedules 100000 --verify"),
    ("TERM", "closes", "--jobs 3 --schedules 100000 --strategy pct"),
    ("INT", "spins", "--jobs 3 --preemptions 2"),
    ("INT", "hangs", "--jobs 2 --schedules 100000 --verify"),
    ("KILL", "asks", "--jobs 1"),
    ("KILL", "asks", "--jobs 2 --schedules 100000"),
    ("INT", "asks", "--jobs 1"),
    ("KILL", "shell", "--jobs 2 --schedules 100000"),
    ("INT", "shell", "--jobs 1"),
]


@pytest.mark.parametrize("name, word, options", ENDS, ids=[" ".join(end) for end in ENDS])
def test_a_signal_ends_all(odd: Odd, name: str, word: str, options: str) -> None:
    """env(1) gives SIGINT back its meaning, which a job in the background has lost."""
    words = [
        "env",
        "--default-signal=INT",
        sys.executable,
        str(RUN),
        "--limit",
        "100000000",
        *options.split(),
        str(odd.program),
        word,
    ]
    for number in range(SCALE):
        with subprocess.Popen(words, stdin=subprocess.DEVNULL, stdout=subprocess.DEVNULL, stderr=subprocess.DEVNULL) as runner:
            time.sleep(random.uniform(0.05, 2) if number else 1)
            assert runner.poll() is None
            runner.send_signal(getattr(signal, f"SIG{name}"))
            runner.wait(15)
        assert runner.returncode != 0
        assert not odd.left_in_time()


def test_an_interrupt_is_seen_at_once(odd: Odd) -> None:
    """A run that never pauses ends within the time of a short run, from its start to its end."""
    words = ["env", "--default-signal=INT", sys.executable, str(RUN), "--no-record", "--limit", "100000000", str(odd.program)]
    short, interrupted = [], []
    for _ in range(5):
        began = time.monotonic()
        subprocess.run([*words, "closes"], stdin=subprocess.DEVNULL, capture_output=True, check=True)
        short.append(time.monotonic() - began)
        with subprocess.Popen(
            [*words, "asks"], stdin=subprocess.DEVNULL, stdout=subprocess.DEVNULL, stderr=subprocess.DEVNULL
        ) as run:
            time.sleep(0.5)
            began = time.monotonic()
            run.send_signal(signal.SIGINT)
            run.wait(60)
        interrupted.append(time.monotonic() - began)
    assert sorted(interrupted)[2] < 2 * sorted(short)[2], (interrupted, short)


WAYS: list[list[str]] = [
    [],
    ["--schedules", "50"],
    ["--jobs", "2", "--schedules", "50"],
    ["--jobs", "2", "--schedules", "50", "--verify"],
    ["--strategy", "pct", "--schedules", "20"],
    ["--preemptions", "1", "--schedules", "30"],
]


def test_what_sleeps_in_the_host_ends_if_broker_and_server_are_killed_together(odd: Odd) -> None:
    """One of its processes waits for a lock that another one has, and looks at nothing else."""
    words = [sys.executable, str(RUN), "--no-record", "--patience", "1000", str(odd.program), "hangs"]
    with subprocess.Popen(words, stdin=subprocess.DEVNULL, stdout=subprocess.DEVNULL, stderr=subprocess.DEVNULL) as runner:
        end = time.monotonic() + 60
        while len(odd.processes()) < 8 and time.monotonic() < end:  # five of the program, its server, the broker, the command
            time.sleep(0.05)
        _, broker, server = odd.processes()[:3]
        os.kill(broker, signal.SIGSTOP)  # neither sees the other's end
        os.kill(server, signal.SIGKILL)
        os.kill(broker, signal.SIGKILL)
        runner.wait(60)
    assert not odd.left_in_time(30)


@pytest.mark.parametrize("number", range(6 * SCALE))
def test_nothing_is_left_of_a_kill_at_any_moment(posix: Posix, odd: Odd, number: int) -> None:
    """Of tracehost-run, of any of its processes, or of all. If tracehost-run goes on it ends by a signal then."""
    chance = random.Random(number)
    word = chance.choice(["asks", "spins", "closes", "forks", "hangs", "deadlock", "prints", "shell"])
    words = [sys.executable, str(RUN), "--no-record", "--limit", "1000000", *chance.choice(WAYS), str(odd.program), word]
    with subprocess.Popen(
        words, stdin=subprocess.DEVNULL, stdout=subprocess.DEVNULL, stderr=subprocess.DEVNULL, start_new_session=True
    ) as runner:
        time.sleep(chance.uniform(0, 1))
        whom = chance.choice(["runner", "any", "group"])
        if whom == "group":
            os.killpg(runner.pid, signal.SIGKILL)
        else:
            victims = [runner.pid] if whom == "runner" else [*odd.processes(), runner.pid]
            with suppress(ProcessLookupError):
                os.kill(chance.choice(victims), signal.SIGKILL)
        if whom == "any":
            time.sleep(chance.uniform(0, 0.3))
            runner.terminate()
        runner.wait(60)
    assert not odd.left_in_time(30), (word, whom, words)
