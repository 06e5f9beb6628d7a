#!/usr/bin/env python3
"""Times a step by the library, side by side in one run by each way, and counts its instructions.

    python3 bench/in_process.py [--library FOLDER] [--baseline] [--steps N] [--runs N]

FOLDER is that of libtracehost.a (default: the release's, or $TRACEHOST_LIB_DIR). A debugger attaches to a process, waits for
it and detaches, again and again; in one row a process forks, and waits for its child's end. Printed is for each way the best
of N runs (default 9), in nanoseconds a step; the runs of the ways take turns. Instructions are counted by valgrind's
callgrind, as the difference of two runs; `-` if there is no valgrind. The clients in C and Python make typed calls. Without
cargo or c++ their rows are left out. Then come the instructions of `import tracehost` and of Python that imports nothing,
once bytecode is there, and those of one tracehost_view of a user, by the number of other users with 250 processes and 1,000
LWPs each, and those of copying a session and closing the copy, of opening and closing one, and of copying one over another,
by the number of its processes; the last one also after 8,000 processes that have ended, and beside 63 users with 250
processes each. With --baseline columns have the instructions of the library by hand in bench/baseline, which cargo builds,
for the calls that it has, and how many times as many the first one takes; its copies follow.
"""

from __future__ import annotations

import argparse
import json
import os
import pathlib
import platform
import re
import shutil
import subprocess
import sys
import tempfile
from collections.abc import Sequence
from typing import NamedTuple

import runs

TOP = pathlib.Path(__file__).resolve().parent.parent
COUNTED = re.compile(r"Collected : (\d+)")
FULL_USERS = (0, 16, 63)
PROCESSES = (1, 3, 10, 100, 250)
SECONDS = 600  # at most, for one run in valgrind


class Library(NamedTuple):
    """An archive with the calls of include/tracehost.h, and how a program is linked with it."""

    archive: pathlib.Path
    flags: Sequence[str] = ()


def by_hand() -> Library:
    """Builds that of bench/baseline, whose code isn't for programs that may lie anywhere."""
    return Library(pathlib.Path(runs.baseline()).with_name("libbaseline.a"), ["-no-pie"])


def compile_c(room: pathlib.Path, library: pathlib.Path) -> pathlib.Path:
    to = room / "steps_c"
    sources = [TOP / "bench/in_process/steps.c", TOP / "clients/c/tracehost_client.c"]
    folders: list[str | pathlib.Path] = ["-I", TOP / "include", "-I", TOP / "clients/c"]
    words = ["cc", "-O2", "-pthread", *folders, "-o", to, *sources, library]
    subprocess.run(words, check=True)
    return to


def compile_without_client(room: pathlib.Path, library: Library) -> pathlib.Path:
    to = room / "steps_by_hand"
    source = TOP / "bench/in_process/steps.c"
    flags = [*library.flags, "-DWITHOUT_CLIENT", "-I", str(TOP / "include")]
    subprocess.run(["cc", "-O2", *flags, "-o", to, source, library.archive], check=True)
    return to


def compile_cpp(room: pathlib.Path, library: pathlib.Path) -> pathlib.Path:
    to = room / "steps_cpp"
    source = TOP / "bench/in_process/steps.cpp"
    subprocess.run(["c++", "-O2", "-std=c++17", "-I", TOP / "include", "-o", to, source, library], check=True)
    return to


def compile_rust(room: pathlib.Path, library: pathlib.Path) -> pathlib.Path:
    words = ["cargo", "build", "--offline", "--quiet", "--profile", "bench", "--bench", "steps"]
    environment = {**os.environ, "TRACEHOST_LIB_DIR": str(library.parent), "CARGO_TARGET_DIR": str(room / "target")}
    words.append("--message-format=json")
    ran = subprocess.run(words, cwd=TOP / "clients/rust", env=environment, check=True, capture_output=True, text=True)
    made = [json.loads(line).get("executable") for line in ran.stdout.splitlines()]
    return pathlib.Path(next(file for file in made if file))


def ways(room: pathlib.Path, library: pathlib.Path) -> dict[str, list[str]]:
    """The command of each way, which takes the number of steps after its second word."""
    c = compile_c(room, library)
    table = {"C, typed": [str(c), "typed"]}
    table["  after 8,000 ended processes"] = [str(c), "typed", "history"]
    table["  beside 63 full users"] = [str(c), "typed", "users"]
    table["  fork, exit, wait4"] = [str(c), "churn"]
    if shutil.which("c++"):
        table["C++, typed"] = [str(compile_cpp(room, library)), "typed"]
    if shutil.which("cargo"):
        table["Rust, typed"] = [str(compile_rust(room, library)), "typed"]
    table["C, text in words"] = [str(c), "text"]
    table["C, text in JSON"] = [str(c), "json"]
    table["C, client"] = [str(c), "client"]
    table["Python, client"] = [str(TOP / "bench/in_process/steps.py"), "client"]
    return table


def command(way: list[str], steps: int) -> list[str]:
    return [*way[:2], str(steps), *way[2:]]


def nanoseconds(way: list[str], steps: int) -> float:
    return float(subprocess.run(command(way, steps), check=True, capture_output=True, text=True).stdout)


def instructions(run: list[str], *options: str) -> int:
    """What callgrind collects in a run of this command. Python's sets have one order, and its bytecode is kept."""
    words = ["valgrind", "--tool=callgrind", "--callgrind-out-file=/dev/null", *options, *run]
    environment = {**os.environ, "PYTHONHASHSEED": "0", "PYTHONDONTWRITEBYTECODE": ""}
    ran = subprocess.run(words, check=True, capture_output=True, text=True, timeout=SECONDS, env=environment)
    counted = COUNTED.search(ran.stderr)
    if counted is None:
        raise RuntimeError(ran.stderr)
    return int(counted[1])


def instructions_a_step(way: list[str]) -> float | None:
    if not shutil.which("valgrind"):
        return None
    if way[0].endswith(".py"):
        way = [sys.executable, *way]
        return (instructions([*way, "9000"]) - instructions([*way, "3000"])) / 6000
    return (instructions(command(way, 60000)) - instructions(command(way, 30000))) / 30000


def instructions_of_python(code: str) -> int:
    run = [sys.executable, "-c", f"import sys; sys.path.insert(0, {str(TOP / 'clients/python')!r}); {code}"]
    instructions(run)  # writes the bytecode
    return instructions(run)


def compile_views(room: pathlib.Path, library: pathlib.Path) -> pathlib.Path:
    to = room / "views"
    source = TOP / "bench/in_process/views.c"
    subprocess.run(["cc", "-O2", "-I", TOP / "include", "-o", to, source, library], check=True)
    return to


def instructions_of_view(views: pathlib.Path, own: int, full: int) -> int:
    """Those of a view of a user with `own` processes of one LWP, beside `full` full users."""
    return instructions([str(views), str(own), str(full)], "--toggle-collect=look")


def compile_copies(room: pathlib.Path, library: Library) -> pathlib.Path:
    to = room / f"copies_{library.archive.stem}"
    source = TOP / "bench/in_process/copies.c"
    wrapped = "-Wl,--wrap=malloc,--wrap=realloc,--wrap=free"
    subprocess.run(["cc", "-O2", *library.flags, wrapped, "-I", TOP / "include", "-o", to, source, library.archive], check=True)
    return to


def instructions_of_copies(copies: pathlib.Path, processes: int, what: str, *more: str) -> int:
    """Those of `what` in bench/in_process/copies.c, with a session of so many processes."""
    return instructions([str(copies), str(processes), *more], f"--toggle-collect={what}")


def bytes_of_copy(copies: pathlib.Path, processes: int) -> int:
    return int(subprocess.run([copies, str(processes)], check=True, capture_output=True, text=True).stdout)


def main() -> None:
    release = TOP / f"release/{platform.machine()}-linux"
    parser = argparse.ArgumentParser()
    parser.add_argument("--library", default=os.environ.get("TRACEHOST_LIB_DIR", str(release)))
    parser.add_argument("--baseline", action="store_true")
    parser.add_argument("--steps", type=int, default=300000)
    parser.add_argument("--runs", type=int, default=9)
    options = parser.parse_args()
    with tempfile.TemporaryDirectory() as folder:
        room = pathlib.Path(folder)
        library = pathlib.Path(options.library).resolve() / "libtracehost.a"
        os.environ["TRACEHOST_LIBRARY"] = str(library.with_suffix(".so"))
        other = by_hand() if options.baseline else None
        print_steps(ways(room, library), other and compile_without_client(room, other), options)
        if shutil.which("valgrind"):
            for code in ("pass", "import tracehost"):
                print(f"{'Python: ' + code:30} {'':>10}{instructions_of_python(code):14,}")
            print_views(compile_views(room, library))
            for one in (Library(library), *([other] if other else [])):
                print_copies(one.archive.stem, compile_copies(room, one))


def print_steps(table: dict[str, list[str]], other: pathlib.Path | None, options: argparse.Namespace) -> None:
    """A row for each way; `other` is the program of steps with the library by hand."""
    best = {name: float("inf") for name in table}
    for _ in range(options.runs):
        for name, way in table.items():
            best[name] = min(best[name], nanoseconds(way, options.steps))
    heads = ["instructions", *(["by hand", "times"] if other else [])]
    print(f'{"way":30} {"ns a step":>10}' + "".join(f"{head:>14}" for head in heads))
    for name, way in table.items():
        counts = [instructions_a_step(way)]
        if other and way[0] == table["C, typed"][0] and way[1] in ("typed", "churn", "text", "json"):
            counts.append(instructions_a_step([str(other), *way[1:]]))
        cells = ["-" if count is None else f"{count:,.0f}" for count in counts]
        if len(counts) == 2 and counts[0] and counts[1]:
            cells.append(f"{counts[0] / counts[1]:.2f}")
        print(f"{name:30} {best[name]:10,.0f}" + "".join(f"{cell:>14}" for cell in cells))


def print_views(views: pathlib.Path) -> None:
    print("\ninstructions of a view" + "".join(f"{full:>12} full" for full in FULL_USERS))
    for own, name in ((1, "1 process"), (250, "250 processes")):
        counts = [instructions_of_view(views, own, full) for full in FULL_USERS]
        print(f"{name:22}" + "".join(f"{count:17,}" for count in counts))


def print_copies(name: str, copies: pathlib.Path) -> None:
    print(f"\n{name}, processes".ljust(23) + "".join(f"{processes:>10}" for processes in PROCESSES))
    for what in ("copy_and_close", "open_and_close", "copy_over", "copy_user"):
        counts = [instructions_of_copies(copies, processes, what) for processes in PROCESSES]
        print(f"{what:22}" + "".join(f"{count:10,}" for count in counts))
    for what in ("copy_over", "copy_user"):
        for more in ("history", "users"):
            counts = [instructions_of_copies(copies, processes, what, more) for processes in PROCESSES]
            print(f"{what + ' ' + more:22}" + "".join(f"{count:10,}" for count in counts))
    print("bytes".ljust(22) + "".join(f"{bytes_of_copy(copies, processes):10,}" for processes in PROCESSES))


if __name__ == "__main__":
    main()
