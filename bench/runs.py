"""Runs of a program that benchmarks measure, and the program by hand that they compare it with."""

from __future__ import annotations

import os
import re
import subprocess
import sys
import time
from typing import NamedTuple

HERE = os.path.dirname(os.path.abspath(__file__))
BUILT = os.path.join(HERE, "../crates/tracehost/out/tracehost")
BASELINE = os.path.join(HERE, "baseline/target/release/baseline")


def baseline() -> str:
    """Builds the program by hand, and returns its path. Its library, libbaseline.a, is beside it."""
    subprocess.run(["cargo", "build", "--quiet", "--release", "--offline"], cwd=os.path.join(HERE, "baseline"), check=True)
    return BASELINE


def profile(program: str, scenario: str, file: str) -> bytes:
    """Writes callgrind's profile of a run to the file, and returns what the run prints."""
    words = ["valgrind", "--tool=callgrind", "--quiet", f"--callgrind-out-file={file}", program, scenario]
    return subprocess.run(words, stdout=subprocess.PIPE, check=True).stdout


def whole(file: str) -> int:
    """The instructions of the run with this profile."""
    with open(file) as text:
        found = re.findall(r"^totals: (\d+)$", text.read(), re.MULTILINE)
    return int(found[0])


class Times(NamedTuple):
    """The seconds of a run by the clock, and of processors in the program and in the system; and its status."""

    clock: float
    processors: float
    status: int


def timed(program: str, *words: str) -> Times:
    quiet = [(os.POSIX_SPAWN_OPEN, number, os.devnull, os.O_WRONLY, 0) for number in (1, 2)]
    began = time.perf_counter()
    child = os.posix_spawn(program, [program, *words], os.environ, file_actions=quiet)
    _, status, used = os.wait4(child, 0)
    clock = time.perf_counter() - began
    return Times(clock, used.ru_utime + used.ru_stime, os.waitstatus_to_exitcode(status))


def accepted(program: str, *words: str) -> Times:
    """The times of a run that has to end with status 0."""
    times = timed(program, *words)
    if times.status != 0:
        sys.exit(f'bench: {program} {" ".join(words)} ended with status {times.status}')
    return times


def peak(program: str, room: str, *words: str) -> int:
    """The most bytes of memory that a run has."""
    small = os.path.join(room, "peak")
    if not os.path.exists(small):
        subprocess.run(["cc", "-O1", "-o", small, os.path.join(HERE, "peak.c")], check=True)
    ran = subprocess.run([small, program, *words], stdout=subprocess.DEVNULL, stderr=subprocess.PIPE, check=True)
    return int(ran.stderr) * 1024


def print_row(*cells: object) -> None:
    print("| " + " | ".join(map(str, cells)) + " |", flush=True)


def print_heads(*heads: str) -> None:
    print_row(*heads)
    print("|" + "---|" * len(heads))
