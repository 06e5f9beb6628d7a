"""Listed differences between the model and a kernel: a table, by which an answer may be another one."""

from __future__ import annotations

import csv
from collections import Counter
from collections.abc import Callable, Iterator
from fnmatch import fnmatchcase
from pathlib import Path
from typing import Any, NamedTuple, Optional

from tracehost import Action, EventMask, Raise, Request, Waited
from tracehost.library import CProcess
from tracehost.replies import NOTHING

from .calls import Kill, Ptrace, SetAction, Turn, Wait
from .facts import told_status
from .log import Line
from .machine import USER, WAITS_FOR_VFORK
from .moves import Moves, Refused
from .states import Open, State

COLUMNS = ("name", "step", "condition", "model", "kernel", "then", "why", "where")
_STATES = ("runs", "trace_stop", "job_stop", "zombie")
_NUMBERS = {"EPERM": 1, "ESRCH": 3, "ECHILD": 10, "EBUSY": 16, "EINVAL": 22, "EAGAIN": 35, "EINTR": 4, "EIO": 5}


class Difference(NamedTuple):
    """A line of the table."""

    name: str
    step: str
    condition: str
    model: str
    kernel: str
    then: str
    why: str
    where: str


class BadTable(Exception):
    """The file isn't a table of differences."""


def read(path: Path) -> list[Difference]:
    """The lines of a table; those on rows, which a log doesn't have, too. Raises OSError and BadTable."""
    try:
        text = path.read_text(encoding="utf-8")
    except UnicodeDecodeError as error:
        raise BadTable(f"{path}: {error}") from None
    rows = list(csv.reader(text.splitlines(), delimiter="\t", quoting=csv.QUOTE_NONE))
    if not rows or tuple(rows[0]) != COLUMNS:
        raise BadTable(f"{path}:1: the columns aren't {', '.join(COLUMNS)}")
    found = []
    for place, row in enumerate(rows[1:], 2):
        if len(row) != len(COLUMNS) or row[5] not in ("follow", "end"):
            raise BadTable(f"{path}:{place}: a line has {len(COLUMNS)} columns, and then is follow or end")
        found.append(Difference(*row))
    return found


class Differences:
    """The differences that are listed, and how often each was met."""

    def __init__(self, listed: list[Difference]) -> None:
        self._listed = listed
        self.met: Counter[str] = Counter()

    def of(self, moves: Moves, state: State, open: Open, line: Line) -> Iterator[Difference]:
        """The first one by which the kernel's answer differs from the model's in this state."""
        if not self._listed:
            return
        kernel = told_reply(state, line)
        for reply in _replies(moves, state, open):
            model = model_reply(reply)
            step = step_words(state, open)
            for difference in self._listed:
                patterns = ((difference.step, step), (difference.model, model), (difference.kernel, kernel))
                if all(fnmatchcase(text, pattern) for pattern, text in patterns) and _holds(difference, state, open):
                    yield difference
                    return


def _replies(moves: Moves, state: State, open: Open) -> list[Any]:
    """What the model has answered, or would answer now."""
    if open.part and open.reply is not None:
        return [open.reply]
    return list(moves.replies(state, open)) or ["held"]


def step_words(state: State, open: Open) -> str:
    """The step that the call makes, as sessions are written."""
    part, pid = open.call.decisive, state.pid(open.call.line.caller.pid)
    if isinstance(part, Ptrace):
        data = _masks(part.data) if part.request == Request.PT_SET_EVENT_MASK else [str(part.data)] if part.data else []
        target = [] if part.request == Request.PT_TRACE_ME else [str(Moves.target(state, part))]
        return " ".join(["ptrace", str(pid), part.request.name, *target, *data])
    if isinstance(part, Wait):
        which = part.which if part.which == -1 else state.pid(part.which)
        return " ".join(["wait4", str(pid), str(which), *(str(option.name) for option in part.options)])
    if isinstance(part, Kill):
        return f"kill {pid} {state.pid(part.which)} {part.signal}"
    if isinstance(part, SetAction):
        return f"sigaction {pid} {part.signal} {Action(part.action).value}"
    lwp = state.lwps[open.call.line.caller]
    return f"turn {lwp} raise {part.act.signal}" if isinstance(part, Turn) and isinstance(part.act, Raise) else f"turn {lwp}"


def _masks(data: int) -> list[str]:
    return [str(event.name) for event in EventMask if event & data and event & (event - 1) == 0]


def model_reply(reply: Any) -> str:
    if isinstance(reply, Refused):
        return f"error {reply.name} {_NUMBERS[reply.name]}"
    if isinstance(reply, Waited):
        return "nothing" if reply == NOTHING else f"status {reply.pid} {reply.word}"
    return reply if isinstance(reply, str) else "ok"


def told_reply(state: State, line: Line) -> str:
    """The kernel's answer in the same words."""
    if line.name == "-1":
        name = line.words.get("errno", "-")
        return f"error {name} {_NUMBERS.get(name, 0)}"
    status = told_status(line)
    if status is not None:
        return f"status {state.pid(status[0])} {status[1].word}"
    return "ok" if line.name == "0" else f"number {line.name}"


def _holds(difference: Difference, state: State, open: Open) -> bool:
    caller = state.rows.processes.get(state.pid(open.call.line.caller.pid))
    target = _target(state, open)
    rows, data = {"caller": caller, "target": target}, getattr(open.call.decisive, "data", 0)
    return all(_word_holds(word, rows, state, data) for word in difference.condition.split())


def _target(state: State, open: Open) -> Optional[CProcess]:
    part = open.call.decisive
    number = Moves.target(state, part) if isinstance(part, Ptrace) else state.pid(getattr(part, "which", 0))
    if number in state.rows.lwps:
        number = state.rows.lwps[number].pid
    return state.rows.processes.get(number)


def _word_holds(word: str, rows: dict[str, Optional[CProcess]], state: State, data: int) -> bool:
    """Whether a word `WHO.FIELD=VALUE` or `!=` holds. Words about what a log doesn't show don't."""
    name, equals, wanted = word.partition("=")
    is_other = name.endswith("!")
    value = _value(name.removesuffix("!"), rows, state, data)
    if not equals or value is None:
        return False
    other = _value(wanted, rows, state, data)
    return fnmatchcase(value, wanted if other is None else other) != is_other


def _value(name: str, rows: dict[str, Optional[CProcess]], state: State, data: int) -> Optional[str]:
    """The value of `WHO`, `WHO.FIELD` or `data`; None if that is none."""
    who, _, field = name.partition(".")
    if name == "data":
        return str(data)
    if who not in rows:
        return None
    row = rows[who]
    if row is None:
        return "none" if field == "state" else None
    return _FIELDS[field](row, state) if field in _FIELDS else None


def _signals(bits: int) -> str:
    return ",".join(str(number) for number in range(1, 32) if bits >> (number - 1) & 1) or "-"


def _waits(row: CProcess, state: State) -> str:
    lwps = [state.rows.lwps[lwp] for lwp in state.rows.lwps_of(row.pid)]
    return "yes" if lwps and all(lwp.mode == WAITS_FOR_VFORK for lwp in lwps) else "no"


_FIELDS: dict[str, Callable[[CProcess, State], str]] = {
    "": lambda row, state: str(row.pid),
    "user": lambda row, state: str(USER),
    "state": lambda row, state: _STATES[row.state],
    "told": lambda row, state: "yes" if row.told else "no",
    "parent": lambda row, state: str(row.parent),
    "tracer": lambda row, state: str(row.tracer),
    "stop": lambda row, state: str(row.signal),
    "lwps": lambda row, state: str(len(state.rows.lwps_of(row.pid))),
    "pending": lambda row, state: _signals(row.pending),
    "waits": _waits,
}
