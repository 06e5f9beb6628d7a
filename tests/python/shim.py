"""Runs of programs with shim.c loaded before them, which lets their calls fail."""

from __future__ import annotations

import concurrent.futures
import dataclasses
import os
import subprocess
import tempfile
from collections.abc import Iterable, Mapping
from pathlib import Path

from checking import TOP, Checks

SECONDS = 30

Command = tuple[str, ...]
Ends = tuple[object, ...]  # each of them is equal to some End


@dataclasses.dataclass(frozen=True)
class End:
    """How a run ended."""

    status: int
    out: bytes
    err: bytes


def fault(line: str, out: bytes = b"", status: int = 3) -> End:
    return End(status, out, line.encode() + b"\n")


def whole(text: bytes) -> End:
    return End(0, text, b"")


MEMORY = fault("tracehost: out of memory")
REFUSED_STEP = b"error ENOMEM 12\n"


@dataclasses.dataclass(frozen=True)
class Run:
    """A command, its standard input, the words that the shim reads, and the ends that it may come to."""

    command: Command
    given: bytes
    shim: Mapping[str, object]
    ends: Ends

    def __str__(self) -> str:
        shim = " ".join(f"{name}={value}" for name, value in self.shim.items())
        return f'{shim} {" ".join(self.command)}'


@dataclasses.dataclass(frozen=True)
class ShimCounts:
    """What the shim counted."""

    allocations: int
    reads: int
    writes: int
    threads: int
    failures: int
    before_threads: int


class Shim:
    """Runs commands with the shim before them."""

    def __init__(self, folder: Path) -> None:
        """Builds the shim in this folder."""
        self.library = str(folder / "shim.so")
        flags = ["-std=c11", "-O2", "-Wall", "-Wextra", "-Werror", "-shared", "-fPIC"]
        subprocess.run(["cc", *flags, "-o", self.library, TOP / "tests/python/shim.c"], check=True)

    def end_of(self, run: Run) -> tuple[End, ShimCounts | None]:
        """How the run ended, and what the shim counted; no counts if the program didn't come to its end."""
        with tempfile.NamedTemporaryFile() as report:
            shim = {"LD_PRELOAD": self.library, "SHIM_REPORT": report.name}
            shim.update((f"SHIM_{name}", str(value)) for name, value in run.shim.items())
            ran = subprocess.run(run.command, input=run.given, capture_output=True, timeout=SECONDS, env=shim)
            counted = report.read().split()
        counts = ShimCounts(*map(int, counted)) if counted else None
        return End(ran.returncode, ran.stdout, ran.stderr), counts

    def counts_of(self, run: Run) -> ShimCounts:
        """What the shim counted in a run that comes to its end."""
        _, counts = self.end_of(run)
        assert counts, f"{run} did not come to its end"
        return counts


def judged(shim: Shim, run: Run) -> tuple[int, str]:
    """How many failures the run had, and what is wrong with it: an end that it may not come to, or more refused steps than
    failures."""
    try:
        end, counts = shim.end_of(run)
    except subprocess.TimeoutExpired:
        return 0, f"{run}: not ended after {SECONDS} s"
    told = f"{run}: status {end.status}, {end.err!r}, {len(end.out)} bytes, the last {end.out[-60:]!r}"
    failures = counts.failures if counts else 0
    is_right = end in run.ends and end.out.count(REFUSED_STEP) <= failures
    return failures, "" if is_right else told


def check_all(checks: Checks, shim: Shim, runs: Iterable[Run]) -> None:
    """Makes the runs side by side, checks each, and that there were failures."""
    failures = 0
    with concurrent.futures.ThreadPoolExecutor(os.cpu_count()) as pool:
        for failed, complaint in pool.map(lambda run: judged(shim, run), runs):
            failures += failed
            checks.check(not complaint, complaint)
    print(f"{checks.made} runs, {failures} failures")
    checks.check(failures > 0, "no call failed")
