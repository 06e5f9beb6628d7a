"""What comes of a run: the broker's lines, which broker/outcome.c writes, and the words for it."""

from __future__ import annotations

import signal
from collections import Counter
from collections.abc import Sequence
from typing import NamedTuple

from .describe import Met, Place, Waiting, call_name, signal_name, waiting
from .setting import Options, Switch

Kept = list[tuple[str, str]]
"""The steps of a run, as JSON, and the words of their answers."""
LOOPS = 5
"""The most questions that are printed of a run without an end: those that were asked most at last."""


class Choice(NamedTuple):
    """A choice that another schedule could make otherwise."""

    switch: Switch
    forced: bool
    """The running LWP can't go on: another choice preempts nobody."""
    others: tuple[int, ...]
    state: int
    """Two choices with the same number come after the same legs. At most legs that commute are in another order."""
    leg: str = ""
    """What the leg touches that the running LWP made then, in the broker's numbers; empty for everything."""


class Result(NamedTuple):
    """What a search needs of a run."""

    why: str | None
    """What failed, or None."""
    questions: int
    steps: int
    choices: int
    schedule: str
    """Its switches, as `setting.text_of` writes them: most are only compared."""
    digest: str
    passed: int
    """Handlers that ran for a passed-on signal."""
    skipped: int
    """Stops that were passed over."""
    examined: int = 0
    """Registers that were read or set, and steps by an instruction."""
    repeats: bool = False
    """It was left, since from there on it would only have repeated another one."""
    legs: int = 0
    """Two runs with the same number differ only in the order of legs that commute."""
    points: tuple[Choice, ...] = ()
    covered: tuple[tuple[Met, bool], ...] = ()
    """Calls at which others could go on, and whether one did."""
    remarks: tuple[str, ...] = ()
    """Sentences on what wasn't the model's."""

    @property
    def switches(self) -> tuple[Switch, ...]:
        """The choices that weren't the plain schedule's."""
        items = (item.replace(":", ".").split(".") for item in self.schedule.split(",") if item)
        return tuple(Switch(*map(int, item)) for item in items)


class Outcome(NamedTuple):
    """A run with all that its record and its report have."""

    result: Result
    kept: Kept
    output: bytes
    """What it has printed, if that was kept."""
    places: Sequence[Place] = ()
    """Of its switches."""
    blamed: Sequence[Place] = ()


# ---- words: of the program's failures, and of faults of the broker, the runtime or the host


def loops(last: Sequence[Place]) -> list[Place]:
    """A run has no end: who has asked most of the last questions."""
    most = Counter(last).most_common(LOOPS)
    return [place._replace(then=f"{count} of the last {len(last)} questions") for place, count in most]


def gone(pid: int) -> str:
    """A process that has ended in the host only."""
    return f"process {pid} has ended, or closed its socket, outside of the model"


def ended_by(status: int) -> str:
    """What a status of the host's says."""
    if status & 127 == signal.SIGSYS:
        return "ended by a call past the runtime (the host's SIGSYS)"
    return f"ended by the host's signal {status & 127}" if status & 127 else f"ended with status {status >> 8}"


def unheard_of(name: str, words: list[str]) -> str:
    """What a question of the names `refused` and `outside` says, and a call that a debugger has denied."""
    if name == "refused":
        return f"calls {words[0]}, which isn't among the calls of this runtime (docs/POSIX.md lists them)"
    if name == "denied":
        return f"is made to make another call, or none, by its debugger, which only a kernel can: {' '.join(words)}"
    if words[0] == "held":
        return f"{' '.join(words[1:])}, which has no runtime, was ended by the host's SIGSYS: it calls kill, or its kin"
    if words[0] == "posix_spawn":
        words[0] = "posix_spawn, as system, popen and wordexp do,"
    return f"calls {words[0]} past the runtime, in {' '.join(words[1:])}, which tracehost-cc hasn't compiled, or by an instruction of its own"


def behind(file: str) -> str:
    """A program with the runtime that one without it has started too late."""
    return f"a program without the runtime, such as a shell, has left a process that has started {file}, but its own process in the model has ended, or is another program by now: so there is none for {file}"


def endless(limit: int) -> str:
    return f"no end after {limit} questions (--limit)"


def rings_on(pid: int, limit: int) -> str:
    return f"no end: a timer of process {pid} rings, and {limit} rings have ended nothing (--limit)"


def printed_too_much(limit: int) -> str:
    return f"it has printed more than {limit} bytes (--output-limit)"


def hang(pid: int, tid: int, patience: float) -> str:
    return f"hang: {pid}/{tid} has made no call for {patience:g} s"


def late(pid: int, told: int, status: int) -> str:
    return f"process {pid} has exited with status {told}, but was then {ended_by(status)}, by its last handlers"


def deadlock(all_waiting: Sequence[Waiting]) -> str:
    return f"deadlock: {'; '.join(map(waiting, all_waiting))}"


KILLED = "the first process was killed"


def status_of_first(status: int) -> str:
    if status & 127:
        return f"the first process was ended by {signal_name(status & 127)}"
    return f"the first process exited with status {status >> 8}"


def wrote(pid: int, line: str) -> str:
    return f"process {pid} has written {line[:40]!r} on the runtime's socket"


def own_filter(pid: int) -> str:
    """A process has set a filter, and has ended, or can't speak to the broker any more."""
    return f"process {pid} has set a filter of seccomp(2) itself, which has ended it at a call, or keeps the runtime from its calls"


SERVER_ENDED = "the program's server has ended"
CONTROL_WRITTEN = "another one than the runtime has written on the socket of the program's server"


def server_silent(patience: float) -> str:
    return f"the program's server has said nothing for {patience:g} s"


def failure(text: str, all_waiting: Sequence[Waiting], options: Options) -> str:
    """The sentence of the broker's words for a failure."""
    name, *words = text.split(" ")
    if name == "behind":
        return behind(" ".join(words))
    numbers = [int(word) for word in words] if name not in ("refused", "outside", "denied") else [int(word) for word in words[:2]]
    if name == "endless":
        return endless(options.limit)
    if name == "rings":
        return rings_on(numbers[0], options.limit)
    if name == "printed":
        return printed_too_much(options.output_limit)
    if name == "hang":
        return hang(numbers[0], numbers[1], options.patience)
    if name == "gone":
        return gone(numbers[0]) + (f": {ended_by(numbers[1])}" if len(numbers) > 1 else "")
    if name == "late":
        return late(*numbers)
    if name == "deadlock":
        return deadlock(all_waiting)
    if name == "killed":
        return KILLED
    if name == "status":
        return status_of_first(numbers[0])
    return f"{numbers[0]}/{numbers[1]} {unheard_of(name, words[2:])}"


def fault(text: str) -> str:
    """The sentence of its words for a fault that isn't the program's."""
    text = unquote(text)
    name, _, rest = text.partition(" ")
    first, _, last = rest.partition(" ")
    if name == "wrote":
        return wrote(int(first), bytes.fromhex(last).decode("utf-8", "replace"))
    if name == "unread":
        return f"process {first} doesn't read what it is answered on the runtime's socket"
    if name == "tells":
        return f"process {first} remarks on more than it asks"
    if name == "told":
        return f"process {first}: {last}"
    if name == "filter":
        return own_filter(int(first))
    if name == "begins":
        return f"process {first} begins with {last!r}"
    if name == "number":
        return f"the model has made {first} instead of {last}"
    if name == "silent":
        tid, _, line = last.partition(" ")
        return f"{first}/{tid} doesn't answer {line!r}"
    if name == "both":
        return f"{first} is a number of the model's, and of a process that {last} has started"
    if name == "room":
        return f"the model has no room for a process of {last}, which a program without the runtime has started in {first}"
    if name == "unborn":
        patience, _, program = last.partition(" ")
        return f"{program}, which a program without the runtime has started in {first}, has said nothing for {patience} s"
    if name == "control":
        return CONTROL_WRITTEN
    if name == "server":
        return server_silent(float(rest)) if rest else SERVER_ENDED
    return rest if name == "host" else text


# ---- lines


def unquote(text: str) -> str:
    """The text, with bytes in place of their %XX."""
    if "%" not in text:
        return text
    from urllib.parse import unquote as unquoted

    return unquoted(text)


class Answer:
    """The broker's lines about one run."""

    def __init__(self) -> None:
        self.kept: Kept = []
        self.points: list[Choice] = []
        self.places: list[Place] = []
        self.blamed: list[Place] = []
        self.last: list[Place] = []
        self.waiting: list[Waiting] = []
        self.met: dict[Met, bool] = {}
        self.remarks: list[str] = []

    def take(self, line: str) -> None:
        """A line before the last one."""
        name, *fields = line.split("\t")
        if name == "step":
            self.kept.append((fields[0], fields[1]))
        elif name == "remark":
            self.remarks.append(unquote(fields[0]))
        elif name.startswith("point "):
            tid, point, forced, state, *others = map(int, name.split(" ")[1:])
            self.points.append(Choice(Switch(tid, point, 0), bool(forced), tuple(others), state))
        elif name.startswith("leg "):
            if self.points:
                self.points[-1] = self.points[-1]._replace(leg=name[4:])
        elif name == "waits":
            pid, tid, stopped, tracer, reporting, holder = map(int, fields[:6])
            self.waiting.append(Waiting(pid, tid, unquote(fields[6]), bool(stopped), tracer or None, bool(reporting), holder))
        elif name == "met":
            place = _place(fields)
            met = Met(place.program, call_name(place.asked), place.where)
            self.met[met] = self.met.get(met, False) or place.then == "preempted"
        else:
            {"switch": self.places, "blame": self.blamed, "last": self.last}[name].append(_place(fields))

    def result(self, line: str, options: Options) -> Result:
        """What the last line says: how it has ended, figures, switches, and what has failed."""
        name, *figures, switches, text = line.split(" ", 9)
        why = failure(unquote(text), self.waiting, options) if name == "failed" else None
        if why is not None and why == endless(options.limit):
            self.blamed = loops(self.last)
        questions, steps, choices, passed, skipped, examined, legs = map(int, figures)
        schedule = switches if switches != "-" else ""
        return Result(
            why,
            questions,
            steps,
            choices,
            schedule,
            "",
            passed,
            skipped,
            examined,
            name == "repeats",
            legs,
            tuple(self.points),
            tuple(self.met.items()),
            tuple(self.remarks),
        )


def _place(fields: Sequence[str]) -> Place:
    who, asked, where, program, then, step = fields
    return Place(who, unquote(asked), int(where), unquote(program), then, int(step))
