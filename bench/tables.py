#!/usr/bin/env python3
"""Times steps of the library on hosts of 1,000, 10,000 and 30,000 LWPs of 64 users, in nanoseconds a step.

    python3 bench/tables.py [--library FOLDER] [--steps N] [--runs N]

FOLDER is that of libtracehost.a (default: $TRACEHOST_LIB_DIR, else the release's). It prints the median of N runs
(default 4), each of N steps (default 20,000) of a kind. Memory that is no longer in the processor's caches takes more time
the more rows there are.
"""

from __future__ import annotations

import argparse
import os
import platform
import statistics
import subprocess
import tempfile
from pathlib import Path

TOP = Path(__file__).resolve().parents[1]
SIZES = (1000, 10000, 30000)


def compiled(room: Path, library: Path) -> Path:
    program = room / "tables"
    source = TOP / "bench/in_process/tables.c"
    subprocess.run(["cc", "-O2", "-I", TOP / "include", "-o", program, source, library / "libtracehost.a"], check=True)
    return program


def times(program: Path, lwps: int, steps: int) -> dict[str, int]:
    """The nanoseconds of a step of each kind."""
    ran = subprocess.run([program, str(lwps), str(steps)], check=True, capture_output=True, text=True)
    return {kind: int(took) for kind, took in (line.split("\t") for line in ran.stdout.splitlines())}


def main() -> None:
    release = os.environ.get("TRACEHOST_LIB_DIR", str(TOP / f"release/{platform.machine()}-linux"))
    parser = argparse.ArgumentParser(description=__doc__, formatter_class=argparse.RawDescriptionHelpFormatter)
    parser.add_argument("--library", type=Path, default=Path(release))
    parser.add_argument("--steps", type=int, default=20000)
    parser.add_argument("--runs", type=int, default=4)
    given = parser.parse_args()
    with tempfile.TemporaryDirectory() as room:
        program = compiled(Path(room), given.library)
        for size in SIZES:
            runs = [times(program, size, given.steps) for _ in range(given.runs)]
            middle = {kind: round(statistics.median(run[kind] for run in runs)) for kind in runs[0]}
            if size == SIZES[0]:
                print(f"{'LWPs':>6}", *(f"{kind:>17}" for kind in middle))
            print(f"{size:>6}", *(f"{took:>17}" for took in middle.values()))


if __name__ == "__main__":
    main()
