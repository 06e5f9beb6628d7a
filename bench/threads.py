#!/usr/bin/env python3
"""Times the program with a thread for each user against its plain run, on an idle machine and on a busy one.

    python3 bench/threads.py [PROGRAM] [--runs N] [--steps N] [--busy N]

PROGRAM is the built program (default: crates/tracehost/out/tracehost, which ./tracehost builds). Scenarios of 1, 2, 6,
9, 16, 33 and 64 users have the same number of steps in all (default 20,000), made by a fixed rule, in three shapes:

- `even`: the users in turn;
- `half`: one user makes half of the steps, if there are two users or more;
- `random`: users by chance, some more often than others, lists among the steps.

Each scenario is run N times (default 20) plain and with --threads, one right after the other: first as the machine is,
then with busy loops (default: twice as many as there are processors). The rows have wall times in seconds, the median
and the longest run with --threads in times the median plain run, and the processor time of the median run with
--threads in times that of the median plain run.

Before anything is timed, each scenario's lines with --threads are compared with the plain run's, grouped by rising
user. The status is 1 if they differ, or if a bound is passed: with the busy loops 3 for the median run and 10 for the
longest, else 2 for the median run of 64 users, and 1.7 for its processor time. A processor of a virtual machine can be
slower than the others for a while: `taskset -c` with those of one speed gives figures that can be compared.
"""

from __future__ import annotations

import argparse
import contextlib
import os
import random
import statistics
import subprocess
import sys
import tempfile
from collections.abc import Iterator, Sequence

import runs
import scenarios
from scenarios import Step

COUNTS = (1, 2, 6, 9, 16, 33, 64)
MAKES: list[scenarios.Source] = [scenarios.attach_cycles, scenarios.forks_and_exits, scenarios.threads, scenarios.chains_that_end]


def sources_of(users: Sequence[int]) -> list[Iterator[Step]]:
    """Each user's steps without end: cycles of attaches, forks, threads, and debuggers that end."""
    return [MAKES[user % 4](user) for user in users]


def even(users: Sequence[int], length: int) -> list[Step]:
    """The users' steps in turn."""
    sources = sources_of(users)
    return [next(sources[n % len(users)]) for n in range(length)]


def half(users: Sequence[int], length: int) -> list[Step]:
    """Every other step is the first user's, the others are the other users' in turn."""
    first, *others = sources_of(users)
    if not others:
        return even(users, length)
    return [next(others[n // 2 % len(others)] if n % 2 else first) for n in range(length)]


def chance(users: Sequence[int], length: int) -> list[Step]:
    """Each step is a user's by chance. A tenth of them are lists."""
    dice = random.Random(len(users))
    sources = sources_of(users)
    weights = [dice.random() for _ in users]
    turns = dice.choices(range(len(users)), weights, k=length)
    return [
        {"user": users[n], "op": "list", "caller": scenarios.first_pid(users[n])} if dice.random() < 0.1 else next(sources[n])
        for n in turns
    ]


SHAPES = {"even": even, "half": half, "random": chance}


def grouped(text: bytes) -> bytes:
    """The lines user by user, by rising user, each user's in their order."""

    def user(line: bytes) -> int:
        return int(line.split(b" ", 1)[0])

    ordered: list[bytes] = sorted(text.splitlines(keepends=True), key=user)
    return b"".join(ordered)


def lines(program: str, *words: str) -> bytes:
    """What the program prints. Ends all if the program refuses the run."""
    run = subprocess.run([program, *words], capture_output=True)
    if run.returncode != 0:
        error = run.stderr.decode(errors="replace").strip()
        sys.exit(f'bench/threads.py: {program} {" ".join(words)} ended with status {run.returncode}: {error}')
    return run.stdout


@contextlib.contextmanager
def busy(loops: int) -> Iterator[None]:
    """So many busy loops run at the same time."""
    running = [subprocess.Popen([sys.executable, "-c", "while True: pass"]) for _ in range(loops)]
    try:
        yield
    finally:
        for loop in running:
            loop.kill()
            loop.wait()


# of the columns after the shape and the users
WIDTHS = (13, 8, 15, 8, 13, 8, 17)


Made = list[tuple[str, int, str]]  # the shape, the number of users, and the file of each scenario


def measure(program: str, made: Made, count: int, loops: int) -> int:
    """A line for each scenario. Answers how many passed a bound."""
    passed = 0
    print(f"\nwith {loops} busy loops" if loops else "\nas the machine is")
    heads = ("plain: median", "longest", "threads: median", "longest", "times: median", "longest", "processor: median")
    print(f'{"shape":8} {"users":>5} ' + " ".join(f"{head:>{width}}" for head, width in zip(heads, WIDTHS)))
    for shape, users, file in made:
        pairs = [(runs.accepted(program, file), runs.accepted(program, "--threads", file)) for _ in range(count)]
        (plain, plain_work, _), (threads, work, _) = (zip(*of_one) for of_one in zip(*pairs))
        median = statistics.median(plain)
        usual, longest = statistics.median(threads) / median, max(threads) / median
        worked = statistics.median(work) / statistics.median(plain_work)
        beyond = usual > 3 or longest > 10 if loops else users == 64 and (usual > 2 or worked > 1.7)
        passed += beyond
        seconds = (median, max(plain), statistics.median(threads), max(threads))
        texts = [f"{it:.3f}" for it in seconds] + [f"{it:.2f}" for it in (usual, longest, worked)]
        row = f"{shape:8} {users:5} " + " ".join(f"{text:>{width}}" for text, width in zip(texts, WIDTHS))
        print(row + ("  FAILED" if beyond else ""), flush=True)
    return passed


def main() -> None:
    parser = argparse.ArgumentParser()
    parser.add_argument("program", nargs="?", default=runs.BUILT)
    parser.add_argument("--runs", type=int, default=20)
    parser.add_argument("--steps", type=int, default=20000)
    parser.add_argument("--busy", type=int, default=2 * (os.cpu_count() or 1))
    options = parser.parse_args()
    failed = 0
    with tempfile.TemporaryDirectory() as room:
        made: Made = []
        for shape, make in SHAPES.items():
            for count in COUNTS:
                file = os.path.join(room, f"{shape}-{count}.json")
                scenarios.write(make(scenarios.USERS[:count], options.steps), file)
                made.append((shape, count, file))
        for shape, count, file in made:
            if lines(options.program, "--threads", file) != grouped(lines(options.program, file)):
                failed += 1
                print(f"FAILED: {shape}, {count} users: the lines with --threads are others")
        compared = f"{len(made)} scenarios of {options.steps} steps"
        print(f"{compared} with --threads compared with the plain run, {failed} differ")
        failed += measure(options.program, made, options.runs, 0)
        with busy(options.busy):
            failed += measure(options.program, made, options.runs, options.busy)
    sys.exit(1 if failed else 0)


if __name__ == "__main__":
    main()
