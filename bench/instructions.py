#!/usr/bin/env python3
"""Counts the instructions of whole runs and of their parts, by valgrind's callgrind: the count is the same each time.

    python3 bench/instructions.py [PROGRAM ..] [--steps N] [--baseline] [--times N] [--peak] [--top N]

PROGRAM is a built program (default: crates/tracehost/out/tracehost, which ./tracehost builds); several are compared,
numbered from 1. Each runs sixteen loads of N steps (default 40,000; one has 300, and one whose text gets too long has as
many as fit). Printed is a row for each load and program: millions of instructions of the whole run, of reading the
scenario, of binding handlers to its steps, of the host's steps, and of the text; `-` if a part has no function of its
own in that program. With --baseline the program by hand in bench/baseline, which cargo builds, is the first one, and a
column has the times of its instructions. With --times also milliseconds of processors, in the program and in the
system, the median of N runs in turn, and in times the first program's. With --peak also the resident memory at most, in
times the scenario's bytes: plain, with --json, and with --expect and the run's own lines. With --top the N functions
that cost most by themselves follow, for each load and program.
"""

from __future__ import annotations

import argparse
import os
import re
import statistics
import subprocess
import tempfile
from collections.abc import Iterable, Sequence
from typing import NamedTuple, Optional

import runs
import scenarios

LOADS = {
    "churn of processes": scenarios.of_one(scenarios.forks_and_exits),
    "attach, wait, detach": scenarios.of_one(scenarios.attach_cycles),
    "the same beside 248 tracees": scenarios.of_one(scenarios.attach_among_tracees),
    "the same after 8,000 ended processes": scenarios.of_one(scenarios.attaches_after_ends),
    "the same beside 63 full users": scenarios.attaches_beside_full_users,
    "chains of debuggers that end": scenarios.of_one(scenarios.chains_that_end),
    "forks that are followed": scenarios.of_one(scenarios.fork_events),
    "system calls that are handled": scenarios.of_one(scenarios.handled_calls),
    "threads": scenarios.of_one(scenarios.threads),
    "all kinds, 64 users": scenarios.mixed,
    "lists of 64 users": scenarios.spawns_and_lists,
    "rules and sets": scenarios.of_one(scenarios.installs),
    "only parsing": scenarios.refusals,
    "300 steps of forks that are followed": scenarios.short(scenarios.of_one(scenarios.fork_events)),
    "churn with one escape": scenarios.of_one(scenarios.forks_and_exits),
    "only parsing, with escapes": scenarios.refusals,
}

# How the texts of loads are written, if not as programs write them
SPELLINGS = {
    "churn with one escape": scenarios.escaped_once,
    "only parsing, with escapes": scenarios.escaped,
}

# The functions of each part, as regular expressions of their whole names. If the first one isn't there, since it was
# inlined or has moved, the next one counts.
PARTS = {
    "parse": (
        r"scenario_text::reading::read\b.*",
        r"scenario_text::parsing::parse\b.*",
        r"scenario_text::streaming::(stream|read_scenario)\b.*",
        r"scenario_runs::reading::read\b.*",
        r"scenario_runs::parsing::parse\b.*",
        r"baseline::reading::read\b.*",
    ),
    "bind": (r"scenario_runs::binding::bind\b.*", r"scenario_runs::binding::bound\b.*"),
    "steps": (
        r"requests::host::Host::(step|make)\b.*",
        r"visibility::runs::run_list\b.*",
        # the steps and what is around them, if they are inlined: in `text_of` the text too
        r"scenario_runs::running::(text_of|replies_of)\b.*",
        r"baseline::print\b.*",
    ),
    "text": (
        r"scenario_runs::lines::push_(shown|line|words)\b.*",
        r"scenario_runs::lines::render\b.*",
        r"scenario_runs::running::write_lines\b.*",
    ),
}

# The columns of memory
WAYS = ("peak", "peak, --json", "peak, --expect")

# A line of callgrind_annotate: the cost, its share, and the function as FILE:NAME [OBJECT]
COST = re.compile(r"\s*([\d,]+) \(\s*[\d.]+%\)\s+(.*)")
FUNCTION = re.compile(r"[^:]*:(.*?)(?: \[[^\]]*\])?$")

Functions = list[tuple[str, int]]  # names and instructions, most first


def costs(file: str, inclusive: bool) -> tuple[int, Functions]:
    """The instructions of the whole run, and each function's with or without what it calls; most first."""
    words = ["callgrind_annotate", f'--inclusive={"yes" if inclusive else "no"}', "--threshold=100", "--auto=no", file]
    text = subprocess.run(words, capture_output=True, text=True, check=True).stdout
    whole = 0
    functions: Functions = []
    for cost, rest in (row.groups() for row in map(COST.match, text.splitlines()) if row):
        number = int(cost.replace(",", ""))
        if rest.startswith("PROGRAM TOTALS"):
            whole = number
        else:
            functions.append((FUNCTION.sub(r"\1", rest), number))
    return whole, functions


def part(functions: Functions, patterns: Iterable[str]) -> Optional[int]:
    """The instructions of the first pattern's function, or None. If it has several, the outermost has the most."""
    for pattern in patterns:
        found = [cost for name, cost in functions if re.fullmatch(pattern, name)]
        if found:
            return max(found)
    return None


def millions(count: Optional[int]) -> str:
    return "-" if count is None else f"{count / 1e6:.2f}"


def peaks(program: str, scenario: str, room: str) -> list[str]:
    """The resident memory at most of the ways to run, in times the scenario's bytes; the baseline has but one way."""
    lines = os.path.join(room, "lines")
    with open(lines, "wb") as out:
        subprocess.run([program, scenario], stdout=out, check=True)
    ways: list[list[str]] = [[]] if program == runs.BASELINE else [[], ["--json"], ["--expect", lines]]
    times = [runs.peak(program, room, *way, scenario) / os.path.getsize(scenario) for way in ways]
    return [f"{it:.2f}" for it in times] + ["-"] * (len(WAYS) - len(ways))


class Alone(NamedTuple):
    """The functions of a run by their own cost."""

    load: str
    number: int
    whole: int
    functions: Functions


def print_load(load: str, programs: Sequence[str], options: argparse.Namespace, room: str) -> list[Alone]:
    """A row for each program. Answers the functions of each by their own cost."""
    scenario = os.path.join(room, "scenario.json")
    scenarios.write(LOADS[load](options.steps), scenario, SPELLINGS.get(load, scenarios.plain))
    rounds = [[runs.accepted(program, scenario).processors for program in programs] for _ in range(options.times)]
    processors = [statistics.median(times) for times in zip(*rounds)]
    alone: list[Alone] = []
    first = 0
    for number, program in enumerate(programs):
        file = os.path.join(room, "callgrind.out")
        runs.profile(program, scenario, file)
        whole, functions = costs(file, inclusive=True)
        first = first or whole
        cells: list[object] = [load, number + 1, millions(whole), *(millions(part(functions, names)) for names in PARTS.values())]
        if options.baseline:
            cells.append(f"{whole / first:.2f}")
        if options.times:
            cells += [f"{processors[number] * 1000:.0f}", f"{processors[number] / processors[0]:.2f}"]
        if options.peak:
            cells += peaks(program, scenario, room)
        runs.print_row(*cells)
        if options.top:
            alone.append(Alone(load, number + 1, *costs(file, inclusive=False)))
    return alone


def print_top(run: Alone, count: int) -> None:
    print(f"\n{run.load}, program {run.number}: the functions that cost most by themselves\n")
    runs.print_heads("millions", "share", "function")
    for name, cost in run.functions[:count]:
        runs.print_row(millions(cost), f"{cost / run.whole:.1%}", f"`{name}`")


def main() -> None:
    parser = argparse.ArgumentParser()
    parser.add_argument("programs", nargs="*", default=[runs.BUILT])
    parser.add_argument("--steps", type=int, default=40000)
    parser.add_argument("--baseline", action="store_true")
    parser.add_argument("--times", type=int, default=0)
    parser.add_argument("--peak", action="store_true")
    parser.add_argument("--top", type=int, default=0)
    options = parser.parse_args()
    if options.baseline:
        options.programs.insert(0, runs.baseline())
    heads = ["load", "program", "whole", *PARTS] + ["times"] * options.baseline
    runs.print_heads(*heads, *(["milliseconds", "times"] if options.times else []), *(WAYS if options.peak else []))
    alone: list[Alone] = []
    with tempfile.TemporaryDirectory() as room:
        for load in LOADS:
            alone += print_load(load, options.programs, options, room)
    for run in alone:
        print_top(run, options.top)


if __name__ == "__main__":
    main()
