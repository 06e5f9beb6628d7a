"""Searches all interleavings of coroutines, whose every ``await`` is a step of the model.

    from tracehost.explore import Process, explore

    def world(host):
        user = host.user(1001)
        debugger, target = Process(user, user.spawn()), Process(user, user.spawn())

        async def debug():
            await debugger.ptrace(Request.PT_ATTACH, target.pid)
            await debugger.wait4(target.pid)
            ..

        async def run():
            await target.act(Compute())

        return [debug, run]

    found = explore(world, limit=10**6)
    if not found.passed:
        found.save("race.json")         # tracehost race.json --expect race.out replays it

Two states are one if the users see the same, as the library's numbers tell (law `states_tell`), and each coroutine is where it
was, with equal variables, or was told the same so far (`tracehost.frames`): then the host answers alike from there on (law
`same_states_answer_alike`), and so do the coroutines. So a coroutine may go round for ever. The
search is breadth-first, so the trace of a failure is a shortest one. Coroutines of several users are searched user by user,
since the steps of one change nothing for another (law `calls_are_private`). Proved are these laws of the library. The search
itself is tested, and tells states apart by digests of 128 bits; a trace needs no trust, since the program replays it.
"""

from __future__ import annotations

import os
from collections.abc import Callable, Iterable, Sequence
from pathlib import Path
from typing import Optional, Union

from .actors import ZOMBIE, Process
from .awaits import Awaits
from .coroutines import Shared, Unlike
from .host import Host
from .judging import Asked, Judge, Property, State, no_progress, stuck
from .reaching import can_reach, leads_to
from .recording import Recording
from .searching import Choice, Failure, LimitReached, Maker, Search, Taken, World, replayed, text_of, users_of

__all__ = [
    "Found", "LimitReached", "Process", "Property", "Shared", "State", "Taken", "Unlike", "can_reach", "deadlock",
    "ended_by_signal", "explore", "leads_to", "no_progress", "stuck", "unreported_stop",
]  # fmt: skip

_TRACE_STOP = 1


def _in_deadlock(state: State) -> Optional[str]:
    return f"deadlock: {', '.join(state.waiting)}" if state.waiting else None


def _left_unreported(state: State) -> Optional[str]:
    for row in state.host._rows(state.user)[0]:
        if row.state == _TRACE_STOP and not row.told:
            return f"no wait has reported the stop of {row.pid} by signal {row.signal}, and none will"
    return None


def _was_killed(state: State) -> Optional[str]:
    rows = {row.pid: row for row in state.host._rows(state.user)[0]}
    for pid in state.was_live:
        if pid not in rows and pid != state.exited:
            return f"{pid} was ended by a signal"
        if pid in rows and rows[pid].state == ZOMBIE and os.WIFSIGNALED(rows[pid].status):
            return f"{pid} was ended by signal {os.WTERMSIG(rows[pid].status)}"
    return None


deadlock = Property("deadlock", True, _in_deadlock)
"""A user's coroutines end, or one of them can go on. One whose process has ended has ended too. If a user waits for rows of
another, or for a shared value, it is asked once none of any user can go on."""
unreported_stop = Property("unreported_stop", True, _left_unreported)
"""A wait has reported each trace stop once none of the user's coroutines can go on."""
ended_by_signal = Property("ended_by_signal", False, _was_killed)
"""No process is ended by a signal."""


class Found:
    """What a search has found: `why` all is not well, or None, and a shortest `trace`, or what is `vacuous` in a pass."""

    def __init__(
        self, maker: Maker, failure: Optional[Failure], states: int, transitions: int, vacuous: Sequence[str] = ()
    ) -> None:
        self.states, self.transitions = states, transitions
        self.vacuous = tuple(vacuous) if failure is None else ()
        """What was never tried: awaits at which no interleaving awaits a step, coroutines that end before these at an errno
        whenever they end, and properties that were asked for in no state."""
        self.why: Optional[str] = None
        """What is wrong at the end of the trace; None if all interleavings pass."""
        self.trace: tuple[Taken, ...] = ()
        """A shortest one."""
        self.error: Optional[BaseException] = None
        """What a coroutine has raised at its end."""
        self._maker = maker
        self._path: Sequence[Choice] = ()
        if failure is not None:
            self._path = failure.path
            self.trace, self.error = replayed(maker, failure.path)
            self.why = failure.why
            if failure.coroutine:
                if self.error is None:
                    raise Unlike(f"{failure.why}: but not when the same steps are made again")
                self.why = text_of(failure.coroutine, self.error)  # which says why a call was refused

    @property
    def passed(self) -> bool:
        """Whether all interleavings do."""
        return self.why is None

    def __str__(self) -> str:
        if self.why is None:
            passed = f"all interleavings pass: {self.states} states, {self.transitions} transitions"
            return "\n".join((passed, *self.vacuous))
        steps = "".join(f"\n{number:4} {taken}" for number, taken in enumerate(self.trace, 1))
        return f"{self.why}\nafter {len(self.trace)} steps:{steps}"

    def save(self, scenario: str | os.PathLike[str], lines: str | os.PathLike[str] | None = None) -> None:
        """Writes the steps that make the world, and the trace, as a scenario, and the lines that answer them.

        ``tracehost race.json --expect race.out`` compares them, and `tracehost.view` makes the page. Without `lines` their
        file is called as the scenario, with ``.out``. Raises OSError, RecordingFailed, and ValueError if all interleavings pass.
        """
        if self.why is None:
            raise ValueError("all interleavings pass: there is no trace")
        path = Path(scenario)
        recording = Recording(path, self._maker.kill_on_debugger_exit, path.with_suffix(".out") if lines is None else lines)
        try:
            trace, _ = replayed(self._maker, self._path, recording)
        finally:
            recording.close()
        if trace != self.trace:
            raise Unlike("the world was made twice, and the same steps were answered in two ways")


def explore(
    world: World,
    *,
    limit: int = 100_000,
    properties: Iterable[Asked] = (deadlock, stuck, no_progress),
    together: bool = False,
    kill_on_debugger_exit: Optional[bool] = None,
) -> Found:
    """Searches all interleavings of a world's coroutines.

    `world` gets a `Host`, makes processes and what else comes before, and returns coroutine functions. No coroutine may raise
    anything, and these `properties` have to hold: `deadlock`, `stuck` (each wait can still end), `no_progress` (none goes round
    with calls that change nothing), `unreported_stop`, `ended_by_signal`, `can_reach`, `leads_to`, and functions that look at a
    host, assert, or return whether all is well. With `together` the coroutines of several users are searched at once; without
    it a function that looks at a host, or at a copy of it, sees only the user who is searched (else ValueError).

    Raises LimitReached if there are more than `limit` states, and Unlike if the world, or a coroutine, isn't the same when it
    is made again. NotImplementedError, FileNotFoundError and OSError are as of `Host`: the library is needed.
    """
    maker, judge = Maker(world, kill_on_debugger_exit), Judge(properties)
    users = users_of(maker)
    states = transitions = 0
    shortest: Optional[Failure] = None
    awaits, vacuous = Awaits(), []
    touched: dict[int, set[int]] = {}
    for group in [users] if together or not users else [frozenset([uid]) for uid in sorted(users)]:
        search = Search(maker, group, judge, limit, states)
        failure = search.run(None if shortest is None or search.memory.values else len(shortest.path))
        if failure is not None and (shortest is None or len(failure.path) < len(shortest.path)):
            shortest = failure
        states, transitions = states + search.states, transitions + search.transitions
        for where, others in enumerate(search.memory.users):
            touched.setdefault(where, set()).update(others)
        for one in search.awaits():
            awaits.join(one)
        vacuous += [f"{name} ends at an errno whenever it ends" for name in search.ended_at_errno()]
    if not users and shortest is None:
        raise ValueError("no coroutine of this world awaits a step")
    if not together and any(len(several) > 1 for several in touched.values()):
        raise ValueError("coroutines of several users share a value: together=True searches them at once")
    vacuous += [f"no interleaving awaits a step at {line}" for line in sorted(set(map(str, awaits.left)))]
    vacuous += [f"{name} was asked for in no state" for name in judge.unasked()]
    return Found(maker, shortest, states, transitions, vacuous)
