"""A failing run, for people: each switch with its place in the program, and the files of the record."""

from __future__ import annotations

import os
import sys
from collections.abc import Callable, Iterable, Iterator, Mapping, Sequence
from contextlib import contextmanager
from typing import TYPE_CHECKING

from .describe import CODES, Met, Place, call_name
from .program import output_of, which
from .rooms import room

if TYPE_CHECKING:
    import re

SECONDS_FOR_A_STORY = 60
NO_VIEWER = "the viewer isn't there: there is no tracehost-view"
TOP = os.path.realpath(os.path.join(os.path.dirname(__file__), "..", "..", ".."))


class Unwritten(Exception):
    """Standard output or error can't be written: its descriptor, and why."""

    def __init__(self, number: int, why: str) -> None:
        super().__init__(f"{'standard output' if number == 1 else 'standard error'}: {why}")
        self.number = number


@contextmanager
def writing(number: int = 1) -> Iterator[None]:
    """What is written in it goes to standard output, or to standard error."""
    try:
        yield
    except OSError as why:
        raise Unwritten(number, why.strerror) from why


command = "tracehost-run"
"""Which is said to speak."""


def say(text: str) -> None:
    """A line on standard error."""
    print_lines([f"{command}: {text}"])


def standard_files() -> bool:
    """Opens standard input and error if they are closed, since a socket would get their numbers. False if standard output is."""
    if sys.stdout is None:
        return False
    while (number := os.open(os.devnull, os.O_RDWR)) <= 2:
        os.set_inheritable(number, True)
    os.close(number)
    sys.stderr = sys.stderr or open(2, "w", closefd=False)
    return True


def written(run: Callable[[], int], broken: int) -> int:
    """The status of a command, and `broken` if its output can't be written."""
    if not standard_files():
        say("standard output is closed")
        return broken
    try:
        status = run()
        with writing():
            sys.stdout.flush()
        return status
    except Unwritten as why:
        _throw_away(why.number)
        try:
            say(str(why))
        except Unwritten as also:
            _throw_away(also.number)
        return broken


def _throw_away(number: int) -> None:
    """What Python writes there at its end."""
    os.dup2(os.open(os.devnull, os.O_WRONLY), number)


_CONTROLS = {code: f"\\x{code:02x}" for code in (*range(32), *range(127, 160)) if chr(code) not in "\t\n"}


def print_lines(lines: Iterable[str]) -> None:
    """Lines on standard error. What a program has written in them does nothing to a terminal."""
    with writing(2):
        for line in lines:
            print(line.translate(_CONTROLS), file=sys.stderr, flush=True)


_said: set[str] = set()


def say_once(text: str) -> None:
    """A line on standard error, unless it was said before."""
    if text not in _said:
        _said.add(text)
        say(text)


def places(found: Iterable[Place]) -> list[str]:
    """A line for each place: the LWP, its call with file and line, and what is said of it."""
    known = list(found)
    lines = _source_lines({(place.program, place.where) for place in known if place.where and place.program})
    texts = []
    for place in known:
        at = lines.get((place.program, place.where), "")
        at = f" at {at}" if at else ""
        texts.append("; ".join(filter(None, [f"{place.who} in {call_name(place.asked)}{at}" if place.who else "", place.then])))
    return texts


def unpreempted(covered: Mapping[Met, bool]) -> tuple[list[str], int]:
    """The calls, with file and line, at which another LWP could go on and never did; and of how many."""
    lines = _source_lines({(met.program, met.where) for met in covered if met.program and met.where})
    calls: dict[str, bool] = {}
    for met, preempted in covered.items():
        at = lines.get((met.program, met.where), "")
        call = f"{met.call} at {at}" if at else met.call
        calls[call] = calls.get(call, False) or preempted
    return sorted(call for call, preempted in calls.items() if not preempted), len(calls)


def _source_lines(addresses: set[tuple[str, int]]) -> dict[tuple[str, int], str]:
    """`FILE:LINE` of each address, by addr2line; nothing if it isn't there, or the program has no debug information."""
    found: dict[tuple[str, int], str] = {}
    for program in sorted({program for program, _ in addresses}):
        wheres = sorted(where for of, where in addresses if of == program)
        # an address is behind its call
        text = output_of("addr2line", "-e", program, *(hex(where - 1) for where in wheres))
        for where, line in zip(wheres, text.splitlines()):
            line = line.partition(" (discriminator ")[0]
            if not line.startswith("??") and not line.endswith(":?"):
                found[program, where] = os.path.relpath(line) if line.startswith(os.getcwd() + "/") else line
    return found


def page(model: str, path: str, title: str, words: Sequence[str] = ()) -> str | None:
    """The viewer's page of a record, as PATH.html, with the program's calls by name and the viewer's further options; a
    text if it can't be made.

    There is then no page, not the one of an older run either.
    """
    import contextlib
    import subprocess

    with contextlib.suppress(FileNotFoundError):
        os.unlink(path + ".html")
    viewer = _viewer()
    if viewer is None:
        return NO_VIEWER
    lines = subprocess.run([model, "--json=trace+rows", path], capture_output=True, text=True, errors="replace")
    if lines.returncode != 0:
        return lines.stderr.strip() or f"{model}: status {lines.returncode}"
    command = [*viewer, f"--title={title}", f"--output={path}.html", *words, "-", *([] if lines.stdout else [path])]
    made = subprocess.run(command, input=_with_names(lines.stdout), stderr=subprocess.PIPE, text=True, errors="replace")
    return None if made.returncode == 0 else made.stderr.strip() or f"status {made.returncode}"


def page_of_two(model: str, path: str, scenarios: Mapping[str, str], words: list[str]) -> str | None:
    """The viewer's page of two runs, by their names, with its further options; a text if it can't be made."""
    import subprocess

    viewer = _viewer()
    if viewer is None:
        return NO_VIEWER
    with room() as folder:
        files = []
        for name, scenario in scenarios.items():
            done = subprocess.run([model, "--json=trace+rows"], input=scenario, capture_output=True, text=True)
            if done.returncode != 0:
                return done.stderr.strip() or f"{model}: status {done.returncode}"
            files.append(os.path.join(folder, name))
            with open(files[-1], "w") as file:
                file.write(_with_names(done.stdout))
        made = subprocess.run([*viewer, f"--output={path}", *words, "--", *files], stderr=subprocess.PIPE, text=True)
    return None if made.returncode == 0 else made.stderr.strip() or f"status {made.returncode}"


def story(model: str, path: str) -> list[str]:
    """What the session of a record comes to, and the command that goes on from there; only this without tracehost-debug.

    $TRACEHOST_DEBUG names that program, and an empty one is none.
    """
    import shlex
    import subprocess

    lines = [f"to go on from here: tracehost-debug {shlex.quote(path)}"]
    command = os.environ.get("TRACEHOST_DEBUG")
    if command is None:
        own = os.path.join(TOP, "bin", "tracehost-debug")
        command = own if os.path.exists(own) else beside("tracehost-debug") or which("tracehost-debug")
    if not command:
        return lines
    surroundings = {**os.environ, "TRACEHOST": model}
    try:
        done = subprocess.run(
            [command, "--story", "--", path], env=surroundings, stdin=subprocess.DEVNULL, stdout=subprocess.PIPE,
            stderr=subprocess.DEVNULL, text=True, errors="replace", timeout=SECONDS_FOR_A_STORY,
        )  # fmt: skip
    except (OSError, subprocess.TimeoutExpired):
        return lines
    return [_with_names_in_words(line) for line in done.stdout.splitlines()] if done.returncode == 0 else lines


def beside(name: str) -> str | None:
    """A command of this name beside this one, if both are installed."""
    return which(name, [os.path.dirname(os.path.abspath(sys.argv[0]))])


def _viewer() -> list[str] | None:
    """The command that makes a page: of the checkout, beside this command, or on the path."""
    own = os.path.join(TOP, "viewer", "make")
    if os.path.exists(own):
        return [sys.executable, own]
    installed = beside("tracehost-view") or which("tracehost-view")
    return None if installed is None else [installed]


def _with_names(trace: str) -> str:
    """A trace with the program's calls by name."""
    import re

    return re.sub(r'"call":"other","(?:code|argument)":(\d+)', _named_call, trace)


def _with_names_in_words(line: str) -> str:
    import re

    return re.sub(r"\bother, argument (?:none => )?(\d+)|\benter other (\d+)", _named_call_in_words, line)


def _named_call_in_words(found: re.Match[str]) -> str:
    name = CODES.get(int(found[1] or found[2]))
    return found[0] if name is None else name if found[1] else f"enter {name}"


def _named_call(found: re.Match[str]) -> str:
    name = CODES.get(int(found[1]))
    return found[0] if name is None else f'"call":"{name}"'
