"""Scenarios by fixed rules, for the benchmarks and for the scripts in tests/.

A load is a function from a length to that many steps. A source is a function from a user to that user's steps, which
never end; `of_one`, `side_by_side` and `mixed` make loads of sources.
"""

import itertools
import json
import re
from collections.abc import Callable, Iterable, Iterator

Step = dict[str, object]
Load = Callable[[int], list[Step]]
Source = Callable[[int], Iterator[Step]]
Spelling = Callable[[int, str], str]  # from a step's number and its text to its text in the scenario

USERS = range(1001, 1065)


def first_pid(user: int) -> int:
    return 1000 * (user - 1000)


def spawns_and_lists(length: int) -> list[Step]:
    """All 64 users in turn: spawns (refused beyond 250), a list by the first process, one by another user's process."""
    steps: list[Step] = []
    turn = 0
    while len(steps) < length:
        for user in USERS:
            kind = turn % 8
            if kind == 6:
                steps.append({"user": user, "op": "list", "caller": first_pid(user)})
            elif kind == 7:
                steps.append({"user": user, "op": "list", "caller": first_pid(1001 + (user - 1000) % 64)})
            else:
                steps.append({"user": user, "op": "spawn"})
        turn += 1
    return steps[:length]


def refusals(length: int) -> list[Step]:
    """One process for each user, and then lists by unused numbers."""
    steps = [spawn(user) for user in USERS]
    while len(steps) < length:
        user = 1001 + len(steps) % 64
        steps.append({"user": user, "op": "list", "caller": first_pid(user) + 500})
    return steps[:length]


class Block:
    """A block of numbers: the first free one after the last is taken, round the block."""

    def __init__(self, first: int, size: int) -> None:
        self.first, self.size, self.cursor = first, size, 0
        self.taken: set[int] = set()

    def take(self) -> int:
        while self.first + self.cursor in self.taken:
            self.cursor = (self.cursor + 1) % self.size
        number = self.first + self.cursor
        self.taken.add(number)
        self.cursor = (self.cursor + 1) % self.size
        return number


class Numbers:
    """The numbers of one user's new processes and LWPs."""

    def __init__(self, user: int) -> None:
        self.pids = Block(first_pid(user), 1000)
        self.tids = Block(100000 + 4000 * (user - 1001), 4000)

    def process(self) -> tuple[int, int]:
        return self.pids.take(), self.tids.take()

    def lwp(self) -> int:
        return self.tids.take()

    def gone(self, pid: int, tid: int) -> None:
        self.pids.taken.discard(pid)
        self.lwp_gone(tid)

    def lwp_gone(self, tid: int) -> None:
        self.tids.taken.discard(tid)


def spawn(user: int) -> Step:
    return {"user": user, "op": "spawn"}


def ptrace(user: int, caller: int, request: str, target: int) -> Step:
    return {"user": user, "op": "ptrace", "caller": caller, "request": request, "target": target}


def wait(user: int, caller: int) -> Step:
    return {"user": user, "op": "wait4", "caller": caller, "which": -1}


def call(user: int, lwp: int, name: str, **more: object) -> Iterator[Step]:
    """The two turns of a system call."""
    yield {"user": user, "op": "turn", "lwp": lwp, "act": "enter", "call": name, **more}
    yield {"user": user, "op": "turn", "lwp": lwp, "act": "leave"}


def attach_cycles(user: int) -> Iterator[Step]:
    numbers = Numbers(user)
    debugger, _ = numbers.process()
    tracee, _ = numbers.process()
    yield spawn(user)
    yield spawn(user)
    yield from attaches(user, debugger, tracee)


def attaches(user: int, debugger: int, tracee: int) -> Iterator[Step]:
    """The debugger attaches to the tracee, waits for it and detaches, again and again."""
    while True:
        yield ptrace(user, debugger, "PT_ATTACH", tracee)
        yield wait(user, debugger)
        yield ptrace(user, debugger, "PT_DETACH", tracee)


def forks_and_exits(user: int) -> Iterator[Step]:
    numbers = Numbers(user)
    parent, lwp = numbers.process()
    yield spawn(user)
    while True:
        pid, tid = numbers.process()
        yield from call(user, lwp, "fork")
        yield from call(user, tid, "exit", code=0)
        # SIGCHLD is discarded, so that the parent's next turn meets no signal
        yield wait(user, parent)
        numbers.gone(pid, tid)


def threads(user: int) -> Iterator[Step]:
    numbers = Numbers(user)
    _, lwp = numbers.process()
    yield spawn(user)
    while True:
        tid = numbers.lwp()
        yield from call(user, lwp, "thr_new")
        yield from call(user, tid, "thr_exit")
        numbers.lwp_gone(tid)


def chains_that_end(user: int, links: int = 10) -> Iterator[Step]:
    """A chain of debuggers, each tracing the next; the first one's end kills them all."""
    numbers = Numbers(user)
    while True:
        made = [numbers.process() for _ in range(links)]
        for _ in made:
            yield spawn(user)
        for (debugger, _), (tracee, _) in zip(made, made[1:]):
            yield ptrace(user, debugger, "PT_ATTACH", tracee)
            yield wait(user, debugger)
            yield ptrace(user, debugger, "PT_CONTINUE", tracee)
        yield from call(user, made[0][1], "exit", code=0)
        for pid, tid in made:
            numbers.gone(pid, tid)


def attach_among_tracees(user: int, tracees: int = 248) -> Iterator[Step]:
    """A debugger with many idle tracees attaches to one more process, waits for it and detaches."""
    numbers = Numbers(user)
    debugger, _ = numbers.process()
    others = [numbers.process()[0] for _ in range(tracees)]
    tracee, _ = numbers.process()
    for _ in range(tracees + 2):
        yield spawn(user)
    for other in others:
        yield ptrace(user, debugger, "PT_ATTACH", other)
        yield wait(user, debugger)
        yield ptrace(user, debugger, "PT_CONTINUE", other)
    yield from attaches(user, debugger, tracee)


def attaches_after_ends(user: int, ended: int = 8000) -> Iterator[Step]:
    """A debugger attaches to a process, waits for it and detaches, after so many others have come and gone."""
    numbers = Numbers(user)
    debugger, _ = numbers.process()
    yield spawn(user)
    for first in range(0, ended, 249):
        others = [numbers.process() for _ in range(min(249, ended - first))]
        yield from (spawn(user) for _ in others)
        yield {"user": user, "op": "kill", "caller": debugger, "which": -1, "signal": 9}
        for pid, tid in others:
            numbers.gone(pid, tid)
    tracee, _ = numbers.process()
    yield spawn(user)
    yield from attaches(user, debugger, tracee)


def full_users(users: Iterable[int]) -> list[Step]:
    """Each of these users gets as many processes as a user may have."""
    return [spawn(user) for user in users for _ in range(250)]


def attaches_beside_full_users(length: int) -> list[Step]:
    """A debugger attaches to a process, waits for it and detaches, beside 63 full users."""
    return list(itertools.islice(itertools.chain(full_users(USERS[1:]), attach_cycles(USERS[0])), length))


def fork_events(user: int) -> Iterator[Step]:
    """A debugger follows forks: it asks about each stop, and lets the child go, which exits."""
    numbers = Numbers(user)
    debugger, _ = numbers.process()
    tracee, lwp = numbers.process()
    yield spawn(user)
    yield spawn(user)
    yield ptrace(user, debugger, "PT_ATTACH", tracee)
    yield wait(user, debugger)
    mask = {"mask": ["PTRACE_FORK", "PTRACE_SCX"]}
    yield {**ptrace(user, debugger, "PT_SET_EVENT_MASK", tracee), **mask}
    yield ptrace(user, debugger, "PT_CONTINUE", tracee)
    while True:
        child, tid = numbers.process()
        yield from call(user, lwp, "fork")
        for stopped in (tracee, child):
            yield wait(user, debugger)
            yield ptrace(user, debugger, "PT_LWPINFO", stopped)
        yield ptrace(user, debugger, "PT_DETACH", child)
        yield from call(user, tid, "exit", code=3)
        yield ptrace(user, debugger, "PT_CONTINUE", tracee)
        yield wait(user, tracee)
        numbers.gone(child, tid)
        # SIGCHLD stops the tracee
        yield {"user": user, "op": "turn", "lwp": lwp, "act": "compute"}
        yield wait(user, debugger)
        yield ptrace(user, debugger, "PT_CONTINUE", tracee)


def handled_calls(user: int) -> Iterator[Step]:
    """A tracee stops at the entry and the exit of each system call, and a handler continues it."""
    debugger, tracee = first_pid(user), first_pid(user) + 1
    handle = {"user": user, "op": "handle", "caller": debugger}
    yield spawn(user)
    yield spawn(user)
    yield ptrace(user, debugger, "PT_ATTACH", tracee)
    yield wait(user, debugger)
    yield {"user": user, "op": "install", "caller": debugger, "rules": [{"decision": "continue"}]}
    yield ptrace(user, debugger, "PT_SYSCALL", tracee)
    for step in itertools.cycle(call(user, Numbers(user).lwp() + 1, "other", code=4)):
        yield step
        yield handle


def installs(user: int) -> Iterator[Step]:
    """Handlers with sixteen rules of signals and flags each, more than a user may have, and sets of blocked signals."""
    numbers = Numbers(user)
    debugger, lwp = numbers.process()
    yield spawn(user)
    rule = {"signal": 5, "flags": ["PL_FLAG_SCX", "PL_FLAG_FORKED"], "decision": "continue", "pass": 0}
    while True:
        yield {"user": user, "op": "install", "caller": debugger, "rules": [rule] * 16}
        yield {"user": user, "op": "turn", "lwp": lwp, "act": "block", "set": [30, 31]}


def of_one(make: Source) -> Load:
    def steps(length: int) -> list[Step]:
        source = make(1001)
        return [next(source) for _ in range(length)]

    return steps


def short(load: Load) -> Load:
    """The same load in 300 steps, of which the program's start is a part that counts."""
    return lambda length: load(min(length, 300))


def side_by_side(make: Source) -> Load:
    def steps(length: int) -> list[Step]:
        sources = [make(user) for user in USERS]
        return [next(sources[n % len(sources)]) for n in range(length)]

    return steps


def mixed(length: int) -> list[Step]:
    makes: list[Source] = [attach_cycles, forks_and_exits, threads, chains_that_end]
    sources = [makes[user % 4](user) for user in USERS]
    return [next(sources[n % len(sources)]) for n in range(length)]


SOURCES: dict[str, Source] = {
    "attach, wait and detach": attach_cycles,
    "fork, exit and wait": forks_and_exits,
    "new and ended threads": threads,
    "chains of ten debuggers that end": chains_that_end,
}
KINDS: dict[str, Load] = {"spawns, lists and refusals of 64 users": spawns_and_lists, "only refusals": refusals}
for name, make in SOURCES.items():
    KINDS[name] = of_one(make)
    KINDS[name + ", 64 users"] = side_by_side(make)
KINDS["all of these, 64 users"] = mixed


def plain(number: int, text: str) -> str:
    """A step's text as programs write it."""
    return text


def escaped(number: int, text: str) -> str:
    """A step's text in which each key and each name begins with an escape."""
    return re.sub('"([A-Za-z])', lambda first: f'"\\u{ord(first[1]):04x}', text)


def escaped_once(number: int, text: str) -> str:
    """A step's text as programs write it, except that of the first step."""
    return escaped(number, text) if number == 0 else text


def write(steps: Iterable[Step], file: str, spell: Spelling = plain) -> int:
    """Writes a scenario of as many of the steps as the program reads at most, and returns how many these are."""
    room = 4194304 - len('{"steps":[]}')
    texts: list[str] = []
    for number, step in enumerate(steps):
        texts.append(spell(number, json.dumps(step, separators=(",", ":"))))
        room -= len(texts[-1]) + 1
        if room < 0:
            texts.pop()
            break
    with open(file, "w") as out:
        out.write('{"steps":[' + ",".join(texts) + "]}")
    return len(texts)
