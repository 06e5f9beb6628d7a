"""Long logs: the time and the memory of tracehost-check grow with the lines, and not faster."""

from __future__ import annotations

import os
import subprocess
import sys
from collections.abc import Callable
from pathlib import Path
from typing import NamedTuple

import pytest

from log_checker import CHECK, ROOT
from posix_kit import SCALE

LINES = 1250 * SCALE
MORE = 4
"""So many times the lines."""


class Long:
    """A log that grows."""

    def __init__(self) -> None:
        self.lines = [ROOT]
        self._numbers: dict[int, int] = {}

    def call(self, caller: int, asks: str, told: str) -> None:
        number = self._numbers[caller] = self._numbers.get(caller, 0) + 1
        self.lines += [f"{caller}/{caller} {number} {kind}\n" for kind in (f"asks {asks}", f"told {told}")]

    def fork(self, parent: int, child: int) -> None:
        self.call(parent, "fork", str(child))
        self._numbers[child] = 0
        self.lines.append(f"{child}/{child} 0 begins fork={parent}/{parent}.{self._numbers[parent]}\n")


def calls(log: Long, turn: int) -> None:
    """Of one process."""
    log.call(1, "kill pid=1 signal=0", "0")
    log.call(1, "sigaction signal=SIGUSR1 action=catch", "0")


def tracees(log: Long, turn: int) -> None:
    """One after the other, from its birth to its end."""
    child = 20 + turn
    log.fork(1, child)
    log.call(1, f"ptrace request=PT_ATTACH pid={child}", "0")
    log.call(1, f"wait4 pid={child} options=-", f"{child} status=stopped:SIGSTOP")
    log.call(1, f"ptrace request=PT_CONTINUE pid={child} data=0", "0")
    log.call(1, f"kill pid={child} signal=SIGUSR1", "0")
    log.call(1, "wait4 pid=-1 options=-", f"{child} status=stopped:SIGUSR1")
    log.call(1, f"ptrace request=PT_CONTINUE pid={child} data=0", "0")
    log.call(child, "sigaction signal=SIGUSR2 action=ignore", "0")
    log.call(1, f"kill pid={child} signal=SIGKILL", "0")
    log.call(1, f"wait4 pid={child} options=-", f"{child} status=signaled:SIGKILL")


def unlogged(log: Long, turn: int) -> None:
    """Children that write nothing."""
    log.call(1, "fork", str(20 + turn))
    log.call(1, "wait4 pid=-1 options=-", f"{20 + turn} status=exited:3")


def handlers(log: Long, turn: int) -> None:
    """Two children signal each other."""
    if turn == 0:
        for child in (20, 21):
            log.fork(1, child)
            log.call(child, "sigaction signal=SIGUSR1 action=catch", "0")
    log.call(20, "kill pid=21 signal=SIGUSR1", "0")
    log.call(21, "kill pid=20 signal=SIGUSR1", "0")
    log.call(1, "kill pid=21 signal=0", "0")


def made(grow: Callable[[Long, int], None], lines: int) -> str:
    log, turn = Long(), 0
    while len(log.lines) < lines:
        grow(log, turn)
        turn += 1
    return "".join(log.lines)


class Cost(NamedTuple):
    seconds: float
    """Of a processor."""
    kilobytes: int


def cost(library: Path, log: Path, text: str) -> Cost:
    log.write_text(text)
    command = [sys.executable, str(CHECK / "tracehost-check"), str(log)]
    environment = {**os.environ, "TRACEHOST_LIBRARY": str(library / "libtracehost.so")}
    with subprocess.Popen(command, env=environment, stdout=subprocess.PIPE, text=True) as run:
        assert run.stdout
        said = run.stdout.read()
        _, status, used = os.wait4(run.pid, 0)
        run.returncode = os.waitstatus_to_exitcode(status)
    assert (run.returncode, said.split(",")[0]) == (0, "explained"), said
    answers = text.count(" told ")
    assert f", {answers} answers\n" in said, said
    return Cost(used.ru_utime + used.ru_stime, used.ru_maxrss)


@pytest.mark.parametrize("grow", [calls, tracees, unlogged, handlers])
def test_long_log(grow: Callable[[Long, int], None], library: Path, tmp_path: Path) -> None:
    times = []
    for _ in range(3):  # the times of a busy machine differ
        start, short, long = (cost(library, tmp_path / "log", made(grow, lines)) for lines in (10, LINES, MORE * LINES))
        assert long.kilobytes - short.kilobytes < 2 * (MORE - 1) * LINES  # two kilobytes a line
        times.append((long.seconds - start.seconds) / (short.seconds - start.seconds))
        # a quadratic part that is as large as the rest in the short log would make it ten times
        if times[-1] < 1.7 * MORE:
            return
    pytest.fail(f"a log that is {MORE} times as long took {times} times as long")
