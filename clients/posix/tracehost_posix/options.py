"""The options of tracehost-run."""

from __future__ import annotations

import argparse
import os
import sys
from collections.abc import Callable
from typing import NoReturn

from . import record, report
from .program import which
from .report import say, writing

USAGE = 2
# tools/format version
VERSION = "0.24.0"
# end


class _Print(argparse.Action):
    """Prints a text and ends. argparse's own actions don't tell if it can't be written."""

    def __init__(self, option_strings: list[str], dest: str, help: str, text: Callable[[], str]) -> None:
        super().__init__(option_strings, dest, nargs=0, help=help)
        self._text = text

    def __call__(self, parser: argparse.ArgumentParser, *_: object) -> None:
        with writing():
            print(self._text(), end="", flush=True)
        parser.exit()


def _formatter(prog: str) -> argparse.HelpFormatter:
    """For the terminal's width. argparse asks for it by the module shutil, at each option."""
    try:
        width = int(os.environ.get("COLUMNS") or os.get_terminal_size(1).columns)
    except (OSError, ValueError):
        width = 80
    return argparse.HelpFormatter(prog, width=width - 2)


class Parser(argparse.ArgumentParser):
    """A mistake is one line, with status 2."""

    def error(self, message: str) -> NoReturn:
        say(message.removeprefix("argument "))
        sys.exit(USAGE)


MOST, MOST_CHOICES = (1 << 62) - 1, (1 << 31) - 1
"""The broker's numbers: a seed, and choices of a run."""


def _number(text: str, least: int, most: int) -> int:
    if not (text.isascii() and text.isdecimal() and len(text) < 20 and least <= int(text) <= most):
        raise argparse.ArgumentTypeError(f"{text!r} is no number from {least} to {most}")
    return int(text)


def count(text: str) -> int:
    return _number(text, 1, MOST)


def _choices(text: str) -> int:
    return _number(text, 1, MOST_CHOICES)


def _natural(text: str) -> int:
    return _number(text, 0, MOST)


def _seeds(text: str) -> range:
    first, dots, last = text.partition("..")
    if not dots or count(last) < count(first):
        raise argparse.ArgumentTypeError(f"{text!r} is no range A..B of seeds")
    return range(int(first), int(last) + 1)


def seconds(text: str) -> float:
    try:
        number = float(text)
    except ValueError:
        number = 0
    if not 0 < number < 1e6:
        raise argparse.ArgumentTypeError(f"{text!r} is no number of seconds above 0")
    return number


def begun(prog: str, description: str) -> Parser:
    """A command with --help, to which other options are added, and --version at last."""
    made = Parser(prog=prog, description=description, formatter_class=_formatter, allow_abbrev=False, add_help=False)
    made.add_argument("-h", "--help", action=_Print, text=made.format_help, help="prints this")
    return made


def add_version(made: Parser) -> None:
    made.add_argument("--version", action=_Print, text=lambda: f"{made.prog} {VERSION}\n", help="prints the version")


def parser() -> Parser:
    """The options."""
    made = begun("tracehost-run", "Runs a program of tracehost-cc on the model of FreeBSD's process tracing.")
    add = made.add_argument
    which = made.add_argument_group("which schedules").add_argument
    which("--seed", type=count, metavar="N", help="this schedule; else the plain one: a thread goes on until it waits")
    which("--schedules", type=count, metavar="N", help="the plain one and those of the seeds 1 to N, until one fails")
    which("--seeds", type=_seeds, metavar="A..B", help="those of the seeds A to B, until one fails")
    which(
        "--preemptions",
        type=_natural,
        metavar="K",
        help="all with at most K preemptions, until one fails (--schedules limits them)",
    )
    which(
        "--switches", metavar="LIST", help="the plain one, except at these choices: LWP.POINT:LWP,.. as a failing run prints them"
    )
    which("--replay", metavar="FILE", help="the one that --record FILE has kept; prints where it goes another way")
    which(
        "--strategy", choices=["random", "pct"], default="random", help="how a seed chooses: random switches, or priorities (PCT)"
    )
    which("--depth", type=_choices, default=3, metavar="D", help="of a bug, for pct: D - 1 changes of priority (3)")
    which("--length", type=_choices, metavar="K", help="choices of a run, for pct; else those of the plain schedule")
    which(
        "--sleeps",
        choices=["any", "last"],
        default="any",
        help="under a seed a sleep ends at any time, or when nobody else can go on",
    )
    which("--calls", action="store_true", help="others go on only between calls, not inside of them")
    add("--jobs", type=count, default=1, metavar="N", help="makes N runs at a time (1)")
    add("--keep-going", action="store_true", help="runs all of --schedules or --seeds; failures in the same words count as one")
    add("--ledger", metavar="FILE", help="keeps what they come to, for each 256 seeds; a search that has ended goes on from there")
    add("--workers", metavar="URL", help="runs them on the workers of a scheduler of Dask distributed: tcp://.. or tls://..")
    add("--json", action="store_true", help="prints what a search comes to as a JSON object")
    add("--record", metavar="FILE", help="the run, or the one that fails: FILE (scenario), FILE.lines, FILE.schedule, FILE.html")
    add(
        "--no-record", action="store_true", help="a run that fails leaves none; else it is in $TRACEHOST_ARTIFACTS, or a new folder"
    )
    add("--compare", metavar="PAGE", help="a page of the plain schedule beside the run, or the one that fails")
    add("--gdb", action="store_true", help="starts gdb on the process that fails, before it ends")
    add("--with", dest="tool", metavar="COMMAND", help="starts COMMAND with that process's number")
    add(
        "--strict",
        action="store_true",
        help="only the model: no handler for a signal that a debugger passes on, stops for "
        "discarded signals too, and no registers",
    )
    add("--kill-on-debugger-exit", choices=["0", "1"], help="the sysctl of this name (1)")
    add("--limit", type=count, default=20000, metavar="N", help="a run of more questions has no end (20000)")
    add("--patience", type=seconds, default=20.0, metavar="S", help="a thread that makes no call for S seconds hangs (20)")
    add(
        "--output-limit",
        type=count,
        default=64 << 20,
        metavar="BYTES",
        help="a run whose output is kept may print so much (67108864)",
    )
    add("--digest", action="store_true", help="prints a digest of each run: its steps, answers and output")
    add("--verify", action="store_true", help="has each run's record replayed by tracehost --expect")
    add("--coverage", action="store_true", help="prints the calls at which another could go on, and never did")
    add("--figures", action="store_true", help="prints what the runs took")
    add(
        "--model",
        metavar="PROGRAM",
        help="the program tracehost, for --verify, --record and --compare; else $TRACEHOST, else tracehost on the path",
    )
    add_version(made)
    add("program", nargs="?", metavar="PROGRAM")
    add("arguments", nargs=argparse.REMAINDER, metavar="ARGUMENT")
    return made


def one_of(given: argparse.Namespace, made: Parser) -> None:
    chosen = [name for name in ("seed", "schedules", "seeds", "switches", "replay") if getattr(given, name) is not None]
    if given.preemptions is not None and "schedules" in chosen:
        chosen.remove("schedules")
    if given.preemptions is not None:
        chosen.append("preemptions")
    if len(chosen) > 1:
        made.error(f"--{chosen[0]} and --{chosen[1]} don't go together")
    _of_searches(given, made)
    if given.gdb and given.tool is not None:
        made.error("--gdb and --with don't go together")
    if given.gdb and which("gdb") is None:
        made.error("--gdb: gdb isn't on the path")
    if given.tool is not None:
        _tool(given.tool, made)
    if given.switches is not None:
        try:
            record.switches_of(given.switches)
        except ValueError:
            made.error(f"--switches: {given.switches!r} is no list of LWP.POINT:LWP")


def _of_searches(given: argparse.Namespace, made: Parser) -> None:
    """Options that only a search has."""
    seeds = given.seeds is not None or (given.schedules is not None and given.preemptions is None)
    tasks = {"keep-going": given.keep_going, "ledger": given.ledger is not None, "workers": given.workers is not None}
    for name, is_given in tasks.items():
        if is_given and not seeds:
            made.error(f"--{name} needs --schedules or --seeds")
    if given.json and not seeds and given.preemptions is None:
        made.error("--json needs --schedules, --seeds or --preemptions")
    for task, names in {"ledger": ("digest", "coverage"), "workers": ("digest", "coverage"), "json": ("digest",)}.items():
        for name in names:
            if getattr(given, task) and getattr(given, name):
                made.error(f"--{task} and --{name} don't go together")


def _tool(command: str, made: Parser) -> None:
    """The command of --with is there."""
    import shlex

    try:
        words = shlex.split(command)
    except ValueError as why:
        made.error(f"--with: {command!r}: {why}")
    if not words or which(words[0]) is None:
        made.error(f"--with: {command!r} is no command on the path")


def model_of(given: argparse.Namespace, made: Parser) -> str:
    named = given.model or os.environ.get("TRACEHOST")
    if named is not None:
        found = which(named)
        if found is None:
            made.error(f"{named}: there is no such program ({'--model' if given.model else 'TRACEHOST'} names it)")
        return found
    own = os.path.join(report.TOP, "tracehost")
    found = (own if os.access(own, os.X_OK) else None) or report.beside("tracehost") or which("tracehost")
    if found is None:
        made.error("there is no program tracehost beside this one, or on the path; --model or TRACEHOST may name it")
    return found


def replayed(given: argparse.Namespace, made: Parser) -> None:
    """The options of a recorded schedule."""
    try:
        schedule = record.read_schedule(given.replay)
    except (OSError, ValueError) as why:
        made.error(f"--replay: {given.replay}.schedule: {getattr(why, 'strerror', None) or why}")
    for path in (given.replay, f"{given.replay}.lines"):
        try:
            with open(path):
                pass
        except OSError as why:
            made.error(f"--replay: {path}: {why.strerror}")
    given.switches = schedule["switches"]
    given.calls, given.strict, given.limit = (
        bool(schedule.get("calls")),
        bool(schedule.get("strict")),
        int(schedule.get("limit", given.limit)),
    )
    kill = schedule.get("kill_on_debugger_exit")
    given.kill_on_debugger_exit = None if kill is None else str(int(kill))
    if given.program is None:
        given.program, *given.arguments = schedule["program"]


def recordable(path: str, made: Parser, option: str) -> None:
    """A file of --record or --compare that can't be written is refused before anything runs."""
    import tempfile

    try:
        with tempfile.TemporaryFile(dir=os.path.dirname(path) or "."):
            pass
        if os.path.exists(path):
            os.close(os.open(path, os.O_WRONLY | os.O_NONBLOCK))
    except OSError as why:
        made.error(f"--{option}: {path}: {why.strerror}")
    if os.path.exists(path) and not os.path.isfile(path):
        made.error(f"--{option}: {path}: it isn't a file")
