"""Sessions that wait sleep until they are woken: by strace, no thread of a run with --threads yields the processor, no sleep
ends by a timeout, each wake is of one thread, and there are fewer than 16 sleeps a user."""

from __future__ import annotations

import re
import subprocess
from pathlib import Path

import pytest
import scenarios

from checking import Checks, needs

STEPS, RUNS = 4000, 10
# a worker announces its calls, so it sleeps a few times for all of them
SLEEPS = 16


def trace(program: Path, scenario: Path, log: Path) -> list[str]:
    """The futex calls and yields of one run, a line each: a call that another thread's line parts has two."""
    words: list[str | Path] = ["strace", "-f", "-e", "trace=futex,sched_yield", "-o", log, program, "--threads", scenario]
    subprocess.run(words, stdout=subprocess.DEVNULL, check=True)
    return log.read_text().splitlines()


@needs("strace")
@pytest.mark.parametrize("users", [2, 9, 64])
def test_sleeps_and_wakes(program: Path, tmp_path: Path, users: int, checks: Checks) -> None:
    scenario = tmp_path / "scenario.json"
    sources = [scenarios.attach_cycles(user) for user in scenarios.USERS[:users]]
    scenarios.write([next(sources[n % users]) for n in range(STEPS)], str(scenario))
    for _ in range(RUNS):
        lines = trace(program, scenario, tmp_path / "log")
        sleeps = sum("FUTEX_WAIT" in line and "resumed" not in line for line in lines)
        wakes = sum(re.search(r"FUTEX_WAKE\w*, (?!1\b)", line) is not None for line in lines)
        checks.check(not any("sched_yield(" in line for line in lines), "a thread yields")
        checks.check(not any("ETIMEDOUT" in line for line in lines), "a sleep timed out")
        checks.check(wakes == 0, f"{wakes} wakes of more than one thread")
        checks.check(sleeps < SLEEPS * users, f"{sleeps} sleeps")
