#!/usr/bin/env python3
"""What steps cost at worst, and whether a step costs more beside others.

    python3 bench/worst.py [PROGRAM] [--steps N] [--baseline] [--scaling | --longest] [--runs N]

PROGRAM is the built program (default: crates/tracehost/out/tracehost, which ./tracehost builds). A row has a case of
bench/cases.py with as many processes, LWPs or handlers as it can have, and the instructions of one step from bytes to
text (valgrind's callgrind), by N steps (default 1,000). What the preparation costs is taken off. With --baseline
columns of the program by hand in bench/baseline, which cargo builds, follow; the status is 1 if it prints other lines.

With --scaling each case is run at ten sizes. A row has the least and the greatest of these costs, and by how much they
differ; then all ten.

With --longest each case has as many steps as the program reads, and hostile texts of so many bytes follow. A row has
milliseconds of processors, in the program and in the system, by the median of N runs (default 3) in turn. A text that
takes more than 300 and prints no more than 64 MiB is marked. The baseline stops at the first fault of a text, so it has
no figure for one that it refuses.
"""

from __future__ import annotations

import argparse
import itertools
import os
import statistics
import subprocess
import sys
import tempfile
from collections.abc import Iterable, Iterator
from concurrent.futures import ThreadPoolExecutor
from typing import NamedTuple

import cases
import hostile
import runs
import scenarios
from scenarios import Step

MOST_STEPS = 100000
MEBIBYTE = 1 << 20


class Made(NamedTuple):
    prepared: list[Step]
    steps: list[Step]


class Cost(NamedTuple):
    instructions: float  # of a step
    printed: bytes


def made(make: cases.Make, size: int, count: int) -> Made:
    prepared, rounds = make(size)
    return Made(prepared, list(itertools.islice(rounds, count)))


def cost(program: str, case: Made) -> Cost:
    with tempfile.TemporaryDirectory() as room:
        scenario, file = os.path.join(room, "scenario.json"), os.path.join(room, "callgrind.out")
        counts = []
        for steps in (case.prepared, case.prepared + case.steps):
            if scenarios.write(steps, scenario) < len(steps):
                sys.exit("bench/worst.py: the program reads no scenario of so many steps")
            printed = runs.profile(program, scenario, file)
            counts.append(runs.whole(file))
    return Cost((counts[1] - counts[0]) / len(case.steps), printed)


def costs(programs: list[str], all_made: list[Made]) -> list[list[Cost]]:
    """For each case the cost in each program."""
    with ThreadPoolExecutor(len(os.sched_getaffinity(0))) as pool:
        waiting = [[pool.submit(cost, program, case) for program in programs] for case in all_made]
        return [[one.result() for one in row] for row in waiting]


def padded(all_made: list[Made]) -> list[Made]:
    """The same with preparations of one length: tables that grow with a run's length are then copied as often."""
    most = max(len(case.prepared) for case in all_made)
    return [Made([cases.turn(cases.FIRST)] * (most - len(case.prepared)) + case.prepared, case.steps) for case in all_made]


def differ(name: str, printed: Iterable[object]) -> bool:
    """Whether the programs print different lines. Then it says so."""
    different = len(set(printed)) > 1
    if different:
        print(f"FAILED: {name}: the baseline prints other lines", file=sys.stderr)
    return different


def print_worst(programs: list[str], steps: int) -> bool:
    failed = False
    runs.print_heads("steps", "beside", "instructions", *["baseline", "times"] * (len(programs) - 1))
    found = costs(programs, [made(make, most, steps) for _, make, most in cases.CASES])
    for (name, _, most), row in zip(cases.CASES, found):
        failed |= differ(name, [one.printed for one in row])
        ours, *others = (one.instructions for one in row)
        runs.print_row(name, most, f"{ours:.0f}", *(text for other in others for text in (f"{other:.0f}", f"{ours / other:.2f}")))
    return failed


def ten_sizes(most: int) -> list[int]:
    return [1 + (most - 1) * part // 9 for part in range(10)]


def print_scaling(programs: list[str], steps: int) -> bool:
    failed = False
    heads = ["least", "greatest", "more"]
    runs.print_heads("steps", "beside", *heads, *[f"baseline: {head}" for head in heads] * (len(programs) - 1), "ten sizes")
    for name, make, most in cases.SCALES:
        sizes = ten_sizes(most)
        found = costs(programs, padded([made(make, size, steps) for size in sizes]))
        for size, row in zip(sizes, found):
            failed |= differ(f"{name}, {size}", [one.printed for one in row])
        cells = []
        for points in zip(*found):
            counts = [point.instructions for point in points]
            least, greatest = min(counts), max(counts)
            cells += [f"{least:.0f}", f"{greatest:.0f}", f"{greatest / least - 1:.0%}"]
        runs.print_row(name, f"1 to {most}", *cells, " ".join(f"{row[0].instructions:.0f}" for row in found))
    return failed


def longest_texts(room: str) -> Iterator[tuple[str, str]]:
    """The names of the cases and of the hostile texts, each with a file."""
    file = os.path.join(room, "scenario.json")
    for name, make, most in dict.fromkeys([*cases.CASES, *cases.SCALES]):
        prepared, rounds = make(most)
        scenarios.write(itertools.islice(itertools.chain(prepared, rounds), MOST_STEPS), file)
        yield f"{name} {most}", file
    for name in hostile.PARTS:
        with open(file, "w") as out:
            out.write(hostile.text(name))
        yield name, file


def print_longest(programs: list[str], count: int) -> bool:
    failed = False
    runs.print_heads("text", "MiB printed", "milliseconds", *["baseline", "times"] * (len(programs) - 1), "")
    with tempfile.TemporaryDirectory() as room:
        for name, file in longest_texts(room):
            ended = [subprocess.run([program, file], stdout=subprocess.PIPE, stderr=subprocess.DEVNULL) for program in programs]
            failed |= differ(name, [run.stdout for run in ended if run.returncode == 0])
            rounds = [[runs.timed(program, file).processors for program in programs] for _ in range(count)]
            ours, *others = (statistics.median(times) * 1000 for times in zip(*rounds))
            printed = len(ended[0].stdout) / MEBIBYTE
            cells = [text for other in others for text in (f"{other:.0f}", f"{ours / other:.2f}")]
            if ended[-1].returncode != 0:
                cells = ["-"] * len(cells)
            runs.print_row(name, f"{printed:.0f}", f"{ours:.0f}", *cells, "too long" if ours > 300 and printed <= 64 else "")
    return failed


def main() -> None:
    parser = argparse.ArgumentParser()
    parser.add_argument("program", nargs="?", default=runs.BUILT)
    parser.add_argument("--steps", type=int, default=1000)
    parser.add_argument("--baseline", action="store_true")
    parser.add_argument("--runs", type=int, default=3)
    parts = parser.add_mutually_exclusive_group()
    parts.add_argument("--scaling", action="store_true")
    parts.add_argument("--longest", action="store_true")
    options = parser.parse_args()
    programs = [options.program] + ([runs.baseline()] if options.baseline else [])
    if options.longest:
        failed = print_longest(programs, options.runs)
    elif options.scaling:
        failed = print_scaling(programs, options.steps)
    else:
        failed = print_worst(programs, options.steps)
    sys.exit(1 if failed else 0)


if __name__ == "__main__":
    main()
