"""The races of clients/posix/races: found, recorded, run again, and gone with their remedies. A seed is a schedule.

TRACEHOST_TEST_SCALE multiplies the schedules of remedies and of truss, and the seeds whose digests are compared.
"""

from __future__ import annotations

import re
import subprocess
import sys
from pathlib import Path

import pytest
from posix_kit import CC, JOBS, POSIX, RACES, SCALE, Done, Posix

SCHEDULES = 1000 * SCALE
SEEDS = 200 * SCALE


@pytest.mark.parametrize("level", ["-O1", "-O2", "-Os"])
def test_they_compile_at_each_level(posix: Posix, tmp_path: Path, level: str) -> None:
    for name in RACES:
        words = ["-c", "-Wall", "-Wextra", "-Werror", level, "-o", tmp_path / "race.o", POSIX / "races" / f"{name}.c"]
        done = posix.execute(CC, *words)
        assert done.returncode == 0, done.stderr


@pytest.mark.parametrize("name", RACES)
def test_its_race_is_found_recorded_and_run_again(posix: Posix, program: Path, tmp_path: Path, name: str) -> None:
    record = tmp_path / "race.json"
    found = posix.run("--jobs", JOBS, "--schedules", 1000, "--record", record, posix.race(name))
    assert found.returncode == 1 and "enough: --switches" in found.stderr and re.search(r"\.c:[0-9]", found.stderr), found.stderr
    replayed = posix.execute(program, "--expect", f"{record}.lines", record)
    assert replayed.returncode == 0, replayed.stderr
    assert Path(f"{record}.html").stat().st_size > 0
    again = posix.run("--replay", record)
    assert again.returncode == 1 and "goes as recorded" in again.stderr, again.stderr


@pytest.mark.parametrize(
    "name, strategy, seed",
    [("tracer_dies", "pct", 953), ("tracer_dies", "random", 9), ("newborn_lwp", "random", 9)],
)
def test_two_switches_are_left_of_many(posix: Posix, name: str, strategy: str, seed: int) -> None:
    """The halves that are left out leave three and more."""
    done = posix.run("--strategy", strategy, "--seeds", f"{seed}..{seed}", posix.race(name))
    assert done.returncode == 1 and f"fails under --seed {seed}" in done.stderr, done.stderr
    found = re.search(r"of its (\d+) switches 2 are enough", done.stderr)
    assert found is not None and int(found[1]) > 2, done.stderr


def passes(done: Done) -> None:
    assert done.returncode == 0 and f"{SCHEDULES + 1} schedules passed" in done.stderr, done.stderr


@pytest.mark.parametrize("name", RACES)
def test_its_remedy_passes(posix: Posix, name: str) -> None:
    passes(posix.run("--jobs", JOBS, "--schedules", SCHEDULES, posix.remedy(name), seconds=600 * SCALE))


@pytest.mark.parametrize("name", RACES)
def test_its_remedy_passes_optimized(posix: Posix, name: str) -> None:
    done = posix.run("--jobs", JOBS, "--schedules", 100, posix.compiled(f"races/{name}.c", "-DRIGHT", "-O2"))
    assert done.returncode == 0 and "101 schedules passed" in done.stderr, done.stderr


def test_truss_passes(posix: Posix) -> None:
    words = [posix.compiled("examples/truss.c"), "-f", posix.compiled("examples/traced.c")]
    passes(posix.run("--jobs", JOBS, "--schedules", SCHEDULES, *words, seconds=600 * SCALE))


def test_truss_passes_with_sigint_at_any_time(posix: Posix) -> None:
    words = [posix.compiled("tests/truss_interrupted.c"), posix.compiled("examples/truss.c")]
    passes(posix.run("--jobs", JOBS, "--schedules", SCHEDULES, *words, seconds=600 * SCALE))


# ---- other strategies


def test_one_preemption_is_enough_for_the_lost_wakeup(posix: Posix) -> None:
    done = posix.run("--preemptions", 1, posix.race("lost_wakeup"))
    assert done.returncode == 1, done.stderr


def test_all_schedules_without_a_preemption_pass(posix: Posix) -> None:
    done = posix.run("--calls", "--preemptions", 0, posix.race("lost_wakeup"))
    assert done.returncode == 0 and re.search(r"all \d* schedules with at most 0 preemptions passed", done.stderr), done.stderr


# ---- a seed is a schedule


@pytest.mark.parametrize("name", ["stop_lost_at_detach", "lost_wakeup", "group_stop"])
def test_seeds_have_the_same_digests_beside_busy_loops(posix: Posix, name: str) -> None:
    words = ["--jobs", JOBS, "--schedules", SEEDS, "--digest", posix.remedy(name)]
    quiet = posix.run(*words)
    loops = [subprocess.Popen([sys.executable, "-c", "while True: pass"]) for _ in range(2)]
    try:
        busy = posix.run(*words)
    finally:
        for loop in loops:
            loop.kill()
            loop.wait()
    assert quiet.returncode == 0, quiet.stderr
    assert len(quiet.stdout.splitlines()) == SEEDS + 1
    assert (busy.returncode, busy.stdout) == (0, quiet.stdout), busy.stderr


# ---- what fails is shown


def test_a_tool_is_started_on_the_process_that_fails(posix: Posix, tmp_path: Path) -> None:
    tool, printed = tmp_path / "tool", tmp_path / "tool.out"
    tool.write_text(f'#!/bin/sh\ngrep State: "/proc/$1/status" >{printed}\n')
    tool.chmod(0o755)
    posix.run("--with", tool, "--switches", "100000.60:100001", posix.race("lost_wakeup"))
    assert printed.read_text().startswith("State:")
