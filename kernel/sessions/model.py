"""The model under a session: steps in words, the rows after them, and what lets its LWPs come to rest.

A session is *settled* after a step if no LWP has anything to do but to run in user mode. A kernel's LWPs come to rest by
themselves and in any order, so a step is taken only if each order of turns leads to the same replies and rows.
"""

from __future__ import annotations

import json
import random
from collections.abc import Callable, Iterable, Iterator, Sequence
from functools import lru_cache
from typing import NamedTuple, Optional, TypedDict, Union

from tracehost.library import Session, find
from tracehost.names import Signal
from tracehost.step_words import Step, step_of

FIRST_USER = 1001
_MOST_TURNS = 1000
_ENCODE = json.JSONEncoder(separators=(",", ":")).encode


class Process(TypedDict, total=False):
    """A process as ``--json=trace+rows`` has it."""

    pid: int
    parent: int
    tracer: int
    state: str
    stop_signal: str
    stop_lwp: int
    reported: bool
    status: int
    continued: bool
    events: list[str]
    pending: list[str]
    ignore: list[str]
    catch: list[str]


class Lwp(TypedDict, total=False):
    """An LWP as ``--json=trace+rows`` has it."""

    lwp: int
    pid: int
    mode: str
    call: str
    argument: int
    vfork_child: int
    suspended: bool
    stepping: bool
    blocked: list[str]
    pending: list[str]
    due: str
    flags: list[str]
    child: int
    code: int


class Rows(NamedTuple):
    """What a user sees."""

    processes: dict[int, Process]
    lwps: dict[int, Lwp]
    starting: frozenset[int] = frozenset()
    """The processes that have not run since their exec: the start of the image makes calls."""
    marked: frozenset[int] = frozenset()
    """The LWPs that were marked to step, and have had no turn since."""

    def row(self, number: int) -> Optional[Union[Process, Lwp]]:
        """A process or an LWP of this number."""
        return self.processes.get(number) or self.lwps.get(number)

    def of(self, pid: int) -> list[Lwp]:
        """The LWPs of a process, the oldest first."""
        return [lwp for lwp in self.lwps.values() if lwp["pid"] == pid]

    def unblocked(self, lwp: Lwp) -> frozenset[str]:
        """The signals that the LWP meets at its next turns."""
        pending = self.processes[lwp["pid"]].get("pending", []) + lwp.get("pending", [])
        return frozenset(pending).difference(lwp.get("blocked", ())) if pending else frozenset()

    def since(self, before: Rows, made: Iterable[Made]) -> Rows:
        """These rows, at rest, with what is known of those before the step and its turns."""
        stopped = {pid for pid, row in self.processes.items() if row["state"] != "runs"}
        images = {lwp["pid"] for lwp in self.lwps.values() if "PL_FLAG_EXEC" in lwp.get("flags", ())}
        turns = {lwp for one in made if one.reply != "held" for lwp in _turns_of(one.words)}
        steps = {number for number, lwp in self.lwps.items() if lwp.get("stepping")}
        marked = steps | (before.marked - turns) & self.lwps.keys()
        return self._replace(starting=frozenset(stopped & (before.starting | images)), marked=frozenset(marked))


NO_ROWS = Rows({}, {})


class Made(NamedTuple):
    """A step in words, and its reply."""

    words: str
    reply: str

    def __str__(self) -> str:
        return f"{self.words} -> {self.reply}"


@lru_cache(maxsize=1 << 16)
def step_in(words: str) -> Step:
    return step_of(words.split(), FIRST_USER)


@lru_cache(maxsize=1 << 16)
def _line_of(words: str) -> str:
    return _ENCODE(step_in(words))


def user_of(words: str) -> int:
    head, colon, _ = words.partition(": ")
    return int(head) if colon else FIRST_USER


def _turns_of(words: str) -> list[int]:
    """The LWP of a turn; none for another step."""
    parts = words.rpartition(": ")[2].split()
    return [int(parts[1])] if parts[0] == "turn" else []


def by_user(user: int, words: str) -> str:
    """The words as a step of this user."""
    return words if user == FIRST_USER else f"{user}: {words}"


class Model:
    """A session in the library."""

    def __init__(self, kills: bool = True) -> None:
        """`kills` is the setting kern.kill_on_debugger_exit. Raises OSError if there is no library."""
        self.session = Session(find(), kills)
        self._texts: dict[int, tuple[str, Rows]] = {}

    def become(self, other: Model) -> None:
        """Takes the other's present state."""
        other.session.copy_over(self.session)
        self._texts = dict(other._texts)

    def make(self, words: str) -> Made:
        return Made(words, self.session.exchange(_line_of(words)).split(" ", 2)[2])

    def rows(self, user: int) -> Rows:
        text = self.session.rows_text(user)
        known = self._texts.get(user)
        if known is not None and known[0] == text:
            return known[1]
        read = json.loads(text)
        processes, lwps = read.get("processes", ()), read.get("lwps", ())
        rows = Rows({row["pid"]: row for row in processes}, {row["lwp"]: row for row in lwps})
        self._texts[user] = text, rows
        return rows


# ---- coming to rest

Pick = Callable[[Sequence[Lwp]], Lwp]
Unordered = Callable[[Rows, Lwp], bool]


class Unsettled(Exception):
    """Which of several LWPs or signals is first decides what comes of the step. `args` has the reason."""


def restless(rows: Rows) -> list[Lwp]:
    """The LWPs that have something to do: a stop that is due, a signal to meet, a step to end, or a call to leave."""
    return [lwp for lwp in rows.lwps.values() if _may_run(rows, lwp) and _has_to(rows, lwp)]


def _may_run(rows: Rows, lwp: Lwp) -> bool:
    stopped = rows.processes[lwp["pid"]]["state"] != "runs"
    return not (stopped or lwp.get("suspended") or lwp["mode"] == "waits_for_vfork")


def _has_to(rows: Rows, lwp: Lwp) -> bool:
    return bool(lwp["mode"] == "in_call" or lwp.get("due") or lwp.get("stepping") or rows.unblocked(lwp))


def _turn(user: int, lwp: Lwp) -> str:
    act = "leave" if lwp["mode"] == "in_call" and not lwp.get("due") else "compute"
    return by_user(user, f"turn {lwp['lwp']} {act}")


def _turns(model: Model, user: int, pick: Pick, unordered: Unordered) -> Iterator[Made]:
    """Gives LWPs their turns until all are at rest."""
    for _ in range(_MOST_TURNS):
        rows = model.rows(user)
        waiting = restless(rows)
        if not waiting:
            return
        lwp = pick(waiting)
        if unordered(rows, lwp):
            raise Unsettled("the order of signals decides")
        yield model.make(_turn(user, lwp))
    raise RuntimeError(f"user {user} doesn't come to rest")


def _lowest(waiting: Sequence[Lwp]) -> Lwp:
    return waiting[0]


def _highest(waiting: Sequence[Lwp]) -> Lwp:
    return waiting[-1]


class Settler:
    """Lets LWPs come to rest, and tries other orders of their turns on a spare model."""

    def __init__(self, chance: random.Random, unordered: Unordered) -> None:
        self._picks: tuple[Pick, ...] = (_highest, chance.choice, chance.choice)
        self._unordered = unordered
        self._start, self._other = Model(), Model()

    def settle(self, model: Model, user: int) -> list[Made]:
        """The turns that were made, in rising order of LWPs. Raises Unsettled."""
        if len(restless(model.rows(user))) < 2:
            return self._alone(model, user)
        self._start.become(model)
        made = list(_turns(model, user, _lowest, self._unordered))
        wanted = sorted(made), model.session.state(user)
        # two turns have two orders
        for pick in self._picks[: 1 if len(made) == 2 else None]:
            self._other.become(self._start)
            turns = sorted(_turns(self._other, user, pick, self._unordered))
            if (turns, self._other.session.state(user)) != wanted:
                raise Unsettled("the order of turns decides")
        return made

    def _alone(self, model: Model, user: int) -> list[Made]:
        """While no more than one LWP has something to do, there is one order."""
        made: list[Made] = []
        for _ in range(_MOST_TURNS):
            rows = model.rows(user)
            waiting = restless(rows)
            if not waiting:
                return made
            if len(waiting) > 1:
                return made + self.settle(model, user)
            if self._unordered(rows, waiting[0]):
                raise Unsettled("the order of signals decides")
            made.append(model.make(_turn(user, waiting[0])))
        raise RuntimeError(f"user {user} doesn't come to rest")

    def group(self, model: Model, words: str) -> list[Made]:
        """Makes a step and lets LWPs come to rest. A call that was entered is left first. Raises Unsettled."""
        step, made = step_in(words), [model.make(words)]
        if made[0].reply == "held" or made[0].reply.startswith("error"):
            return made
        user = int(step["user"])
        if step.get("act") == "enter" and made[0].reply == "ok":
            made.append(model.make(by_user(user, f"turn {step['lwp']} leave")))
        return made + self.settle(model, user)


# ---- rows as lines


@lru_cache(maxsize=4096)
def _numbers(names: tuple[str, ...]) -> str:
    return ",".join(str(int(Signal[name])) for name in names) or "-"


def _set(names: Sequence[str]) -> str:
    return _numbers(tuple(names))


def _yes(holds: object) -> str:
    return "yes" if holds else "no"


def process_line(user: int, row: Process, lwps: Sequence[Lwp], rows: Rows) -> str:
    """The fields that kernels show, and then those that conditions of differences ask for."""
    line = (
        f"process {row['pid']} user={user} state={row['state']} parent={row['parent']} tracer={row.get('tracer', 0)}"
        f" lwps={len(lwps)} pending={_set(row.get('pending', []))} ignored={_set(row.get('ignore', []))}"
        f" caught={_set(row.get('catch', []))}"
    )
    if row["state"] == "trace_stop":
        line += f" stop={int(Signal[row['stop_signal']])} lwp={row['stop_lwp']}"
        line += f" stop_ignored={_yes(row['stop_signal'] in row.get('ignore', ()))}"
    if row["state"] in ("trace_stop", "job_stop"):
        line += f" told={_yes(row.get('reported'))}"
    if any(lwp["lwp"] in rows.marked for lwp in lwps):
        line += " marked=yes"
    if row["state"] == "zombie":
        line += f" status={row['status']}"
    blocks = {name for lwp in lwps for name in lwp.get("blocked", ())}
    waits = any(lwp["mode"] == "waits_for_vfork" for lwp in lwps)
    vforked = any(lwp.get("vfork_child") == row["pid"] for lwp in rows.lwps.values())
    unwaited = "SIGCHLD" in rows.processes.get(row["parent"], {}).get("ignore", ())
    line += f" blocks={_set(sorted(blocks, key=lambda name: Signal[name]))} continued={_yes(row.get('continued'))}"
    return f"{line} waits={_yes(waits)} vforked={_yes(vforked)} unwaited={_yes(unwaited)}"


def lwp_line(row: Lwp) -> str:
    pending, blocked = _set(row.get("pending", [])), _set(row.get("blocked", []))
    return f"lwp {row['lwp']} process={row['pid']} blocked={blocked} pending={pending} mode={row['mode']}"


def lines_of(user: int, rows: Rows) -> dict[str, str]:
    """The line of each row, by its first two words."""
    owned: dict[int, list[Lwp]] = {}
    for lwp in rows.lwps.values():
        owned.setdefault(lwp["pid"], []).append(lwp)
    lines = {f"process {pid}": process_line(user, row, owned.get(pid, ()), rows) for pid, row in rows.processes.items()}
    lines.update((f"lwp {number}", lwp_line(row)) for number, row in rows.lwps.items())
    return lines


def changed_lines(before: dict[str, str], after: dict[str, str]) -> list[str]:
    """The lines that tell what has changed."""
    new = [f"= {line}" for name, line in after.items() if before.get(name) != line]
    return new + [f"= gone {name}" for name in before if name not in after]
