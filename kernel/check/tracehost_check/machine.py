"""The model: a session in which steps are tried, and the sessions of the states that are kept."""

from __future__ import annotations

import json
from typing import NamedTuple

from tracehost.blocking import Progress
from tracehost.library import CLwp, CProcess, RawRows, Session, find
from tracehost.typed import TypedCalls

USER = 1001
"""The only user of a log."""
RUNS, TRACE_STOP, JOB_STOP, ZOMBIE = range(4)
USER_MODE, IN_CALL, WAITS_FOR_VFORK = range(3)
OTHER_CALL = 6


class Rows(NamedTuple):
    """All rows of a state, by number."""

    processes: dict[int, CProcess]
    lwps: dict[int, CLwp]

    def runs(self, lwp: int) -> bool:
        """Whether the LWP can have a turn."""
        row = self.lwps.get(lwp)
        return row is not None and not row.suspended and row.mode != WAITS_FOR_VFORK and self.processes[row.pid].state == RUNS

    def meets(self, lwp: int, of_process: bool = True) -> bool:
        """Whether a turn in user mode begins with a signal, or a stop that is due."""
        row = self.lwps[lwp]
        pending = row.pending | (self.processes[row.pid].pending if of_process else 0)
        return bool(row.due or pending & ~row.blocked)

    def lwps_of(self, pid: int) -> list[int]:
        return [row.lwp for row in self.lwps.values() if row.pid == pid]


class Machine:
    """Steps are made by `calls`, in the session that `load` has filled last."""

    def __init__(self, kill_on_debugger_exit: bool) -> None:
        """Raises OSError if there is no library, and MemoryError."""
        self._tried = Session(find(), kill_on_debugger_exit)
        self._free: list[Session] = []
        self.calls = TypedCalls(self._tried, Progress())

    def load(self, session: Session) -> None:
        """What is tried next begins in this state."""
        session.copy_over(self._tried)

    def keep(self) -> Session:
        """A session in the state that the last steps led to."""
        if not self._free:
            return self._tried.copy()
        session = self._free.pop()
        self._tried.copy_over(session)
        return session

    def drop(self, session: Session) -> None:
        """The session is no longer used."""
        self._free.append(session)

    def numbers(self) -> tuple[int, ...]:
        """What tells the state that the last steps led to from others."""
        return self._tried.state(USER)

    def raw_rows(self) -> RawRows:
        return self._tried.rows(USER)

    def rows(self) -> Rows:
        processes, lwps = self.raw_rows()  # which the next call overwrites
        return Rows(
            {row.pid: row for row in type(processes).from_buffer_copy(processes)},
            {row.lwp: row for row in type(lwps).from_buffer_copy(lwps)},
        )

    def dispositions(self, pid: int) -> tuple[frozenset[int], frozenset[int]]:
        """The signals that the process ignores, and those that it catches."""
        rows = json.loads(self._tried.rows_text(USER))["processes"]
        row = next(row for row in rows if row["pid"] == pid)
        return frozenset(row.get("ignore", ())), frozenset(row.get("catch", ()))
