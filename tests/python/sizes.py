"""Sessions that make lists and tables of each size, and the answers to their lines, only by counting.

No row of these sessions ends, so the numbers of a user's processes and LWPs rise one by one. A step that memory was
refused for is answered ENOMEM, and changes nothing.
"""

from __future__ import annotations

import dataclasses
import json
from collections.abc import Callable
from functools import cache, cached_property
from typing import Any

from shim import End

Step = dict[str, Any]
PROCESSES, LWPS, HANDLERS, USERS = 250, 1000, 64, range(1001, 1065)
REFUSED = "error ENOMEM 12"
MAY_BE_REFUSED = ("spawn", "list", "install", "PT_GETLWPLIST", "leave")


class Rows:
    """The rows of a user: the processes, which are spawned first, and the LWPs, which one of them makes then."""

    def __init__(self, user: int) -> None:
        self.first_pid, self.first_tid = 1000 * (user - 1000), 100000 + 4000 * (user - 1001)
        self.processes = self.lwps = self.handlers = 0
        self.is_in_call = False

    def answer(self, step: Step) -> str:
        kind = step.get("request") or step.get("act") or step["op"]
        if kind == "spawn":
            return self.spawned()
        if self.processes == 0 or step.get("lwp", self.first_tid) >= self.first_tid + self.lwps:
            return "error ESRCH 3"
        if kind == "enter":
            was_in_call, self.is_in_call = self.is_in_call, True
            return "error EINVAL 22" if was_in_call else "ok"
        if kind == "leave":
            return self.left(step["lwp"] - self.first_tid)
        if kind == "install":
            self.handlers += 1
            return "ok" if self.handlers <= HANDLERS else "error EAGAIN 35"
        if kind == "list":
            return numbers("pids", self.first_pid, self.processes)
        if kind == "PT_GETLWPLIST":  # of the second process, which has all LWPs but the first
            return numbers("lwps", self.first_tid + 1, min(step["data"], self.lwps - 1))
        if self.processes == 1:  # the second process, which the other steps name, was refused
            return "error ECHILD 10" if kind == "wait4" else "error ESRCH 3"
        return str(step["answer"])

    def spawned(self) -> str:
        if self.processes == PROCESSES or self.lwps == LWPS:
            return "error EAGAIN 35"
        self.processes += 1
        self.lwps += 1
        return self.newest(self.processes - 1)

    def left(self, process: int) -> str:
        if not self.is_in_call:
            return "error EINVAL 22"
        if self.lwps == LWPS:
            return "error EAGAIN 35"
        self.is_in_call = False
        self.lwps += 1
        return self.newest(process)

    def newest(self, process: int) -> str:
        return f"new {self.first_pid + process} {self.first_tid + self.lwps - 1}"


@cache
def numbers(word: str, first: int, count: int) -> str:
    return " ".join([word, *map(str, range(first, first + count))])


@dataclasses.dataclass(frozen=True)
class Sized:
    """A session by its steps. Of its allocations those of fewer bytes than `least` are ignored, and those of its
    first steps, which only prepare the others."""

    steps: tuple[Step, ...]
    least: int = 0
    preparing: int = 0

    @cached_property
    def lines(self) -> bytes:
        return self.lines_of(len(self.steps))

    def lines_of(self, count: int) -> bytes:
        """The first lines."""
        return b"".join(json.dumps(sent(step)).encode() + b"\n" for step in self.steps[:count])

    @property
    def scenario(self) -> bytes:
        return json.dumps({"steps": [sent(step) for step in self.steps]}).encode()

    def text(self, refused: frozenset[int] = frozenset()) -> bytes:
        """The answers, if memory was refused for these steps."""
        rows = {user: Rows(user) for user in USERS}
        made = dict.fromkeys(USERS, 0)
        lines = []
        for place, step in enumerate(self.steps):
            user = step["user"]
            made[user] += 1
            answer = REFUSED if place in refused else rows[user].answer(step)
            lines.append(f"{user} {made[user]} {answer}\n")
        return "".join(lines).encode()


def sent(step: Step) -> Step:
    return {key: value for key, value in step.items() if key != "answer"}


class Counted:
    """The ends of a session in which memory was refused: the answers, or as many as there were before it ran out for a
    line itself."""

    def __init__(self, session: Sized, memory: End) -> None:
        self.session, self.memory = session, memory

    def __eq__(self, end: object) -> bool:
        if not isinstance(end, End):
            return NotImplemented
        lines = end.out.splitlines()
        is_whole = (end.status, end.err, len(lines)) == (0, b"", len(self.session.steps))
        if not is_whole and (end.status, end.err) != (self.memory.status, self.memory.err):
            return False
        refused = frozenset(place for place, line in enumerate(lines) if line.endswith(REFUSED.encode()))
        text = self.session.text(refused)
        return all(may_be_refused(self.session.steps[place]) for place in refused) and text.startswith(end.out)


def may_be_refused(step: Step) -> bool:
    return (step.get("request") or step.get("act") or step["op"]) in MAY_BE_REFUSED


# ---- the sessions


def spawn(user: int) -> Step:
    return {"user": user, "op": "spawn"}


def new_lwp(user: int, lwp: int) -> tuple[Step, Step]:
    turn = {"user": user, "op": "turn", "lwp": lwp}
    return {**turn, "act": "enter", "call": "thr_new"}, {**turn, "act": "leave"}


def of_first(op: str, **keys: Any) -> Step:
    return {"user": 1001, "op": op, "caller": 1000, **keys}


def traced(lwps: int) -> tuple[Step, ...]:
    """A second process with so many LWPs, in a stop that its tracer has seen."""
    made = [step for _ in range(lwps - 1) for step in new_lwp(1001, 100001)]
    return (
        spawn(1001),
        spawn(1001),
        *made,
        of_first("ptrace", request="PT_ATTACH", target=1001, answer="ok"),
        {"user": 1001, "op": "turn", "lwp": 100001, "act": "compute", "answer": "held"},
        of_first("wait4", which=1001, answer="status 1001 4479"),
    )


def lwp_lists(lengths: list[int], refuses: bool) -> Sized:
    before = traced(LWPS - 1)
    lists = tuple(of_first("ptrace", request="PT_GETLWPLIST", target=1001, data=length) for length in lengths)
    return Sized((*before, *lists), preparing=len(before) if refuses else 0)


def around_powers(most: int) -> list[int]:
    """The lengths at which a list that doubles its room grows, and those before and behind."""
    powers = [2**k for k in range(most.bit_length())]
    near = {length for power in powers for length in (power - 1, power, power + 1)}
    return sorted(length for length in near | {most} if 1 <= length <= most)


def in_tables() -> tuple[Step, ...]:
    """As many processes as 64 users can have."""
    return tuple(spawn(user) for _ in range(PROCESSES) for user in USERS)


def with_all_lwps() -> tuple[Step, ...]:
    """As many LWPs as they can have, too."""
    turns = [new_lwp(user, 100000 + 4000 * (user - 1001)) for _ in range(LWPS - PROCESSES) for user in USERS]
    return (*in_tables(), *(step for turn in turns for step in turn))


def tables_and_lists() -> Sized:
    lists = (step for _ in range(PROCESSES) for step in (spawn(1001), of_first("list")))
    return Sized(tuple(lists))


def handlers() -> Sized:
    rules = [{"decision": "leave"}]
    installs = (of_first("install", rules=rules * (count % 17)) for count in range(HANDLERS + 1))
    return Sized((spawn(1001), *installs))


# sessions in which each allocation is refused in turn, by what grows in them
REFUSED_SESSIONS: dict[str, Callable[[], Sized]] = {
    f"tables and lists of 1 to {PROCESSES} processes": tables_and_lists,
    f"1 to {HANDLERS} handlers": handlers,
    f"PT_GETLWPLIST around each power of two up to {LWPS - 1} LWPs": lambda: lwp_lists(around_powers(LWPS - 1), refuses=True),
    f"tables of 1 to {LWPS} LWPs": lambda: Sized(traced(LWPS - 1), least=1024),
    f"tables of 1 to {PROCESSES * len(USERS)} processes": lambda: Sized(in_tables(), least=16384),
    # each user has tables of their own
    f"tables of {PROCESSES} to {LWPS} LWPs of {len(USERS)} users": lambda: Sized(with_all_lwps(), least=1 << 17),
}
# sessions in which nothing is refused
WHOLE_SESSIONS: dict[str, Callable[[], Sized]] = {
    **REFUSED_SESSIONS,
    f"PT_GETLWPLIST of 1 to {LWPS - 1} LWPs": lambda: lwp_lists(list(range(1, LWPS)), refuses=False),
}
