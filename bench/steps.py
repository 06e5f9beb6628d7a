#!/usr/bin/env python3
"""Times the program on scenarios of 10,000, 30,000 and 60,000 steps, side by side in one run.

    python3 bench/steps.py [PROGRAM] [--runs N]

PROGRAM is the built program (default: crates/tracehost/out/tracehost, which ./tracehost builds). Each scenario is made
by a fixed rule. For each kind and length the best time of N runs (default 5) and the time per step are printed: it must
not grow with the length, nor from one user to 64 side by side. If a scenario of 60,000 steps is longer than the
program reads, it has as many of them as fit.
"""

from __future__ import annotations

import argparse
import os
import tempfile

import runs
from scenarios import KINDS, write

LENGTHS = (10000, 30000, 60000)


def main() -> None:
    parser = argparse.ArgumentParser()
    parser.add_argument("program", nargs="?", default=runs.BUILT)
    parser.add_argument("--runs", type=int, default=5)
    options = parser.parse_args()
    print(f'{"scenario":45} {"steps":>7} {"seconds":>9} {"us a step":>10}')
    with tempfile.TemporaryDirectory() as room:
        for kind, make in KINDS.items():
            for length in LENGTHS:
                file = os.path.join(room, "scenario.json")
                count = write(make(length), file)
                seconds = min(runs.accepted(options.program, file).clock for _ in range(options.runs))
                print(f"{kind:45} {count:7} {seconds:9.3f} {seconds / count * 1e6:10.2f}")


if __name__ == "__main__":
    main()
