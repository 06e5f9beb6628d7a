"""What may happen between two lines: parts of open calls, and turns that no line tells of."""

from __future__ import annotations

from collections.abc import Callable, Iterator
from typing import Any, NamedTuple, Optional, Union

from tracehost import Act, Action, Call, Caught, Compute, Ended, Enter, Held, Leave, Raise, Request, Stopped, StopFlag
from tracehost import Signal, Waited, WaitOption
from tracehost.library import CProcess
from tracehost.replies import NOTHING, Answered
from tracehost.typed import TypedCalls

from .calls import Back, Handler, Kill, Mask, Ptrace, SetAction, Settled, Take, Turn, Wait, signals_of
from .facts import UNSENT, Facts, Status
from .log import Caller
from .machine import IN_CALL, OTHER_CALL, RUNS, TRACE_STOP, USER, USER_MODE, ZOMBIE, Machine
from .states import NO_LWP, NO_PROCESS, Open, State

_CALL_EVENTS = 0x6  # PTRACE_SCE and PTRACE_SCX
_DISCARDED = frozenset((16, 19, 20, 23, 28, 29))
_MOST_LATE = 8


class Refused(NamedTuple):
    """An errno of the model."""

    name: str


class Made(NamedTuple):
    """A call has made this process or LWP."""

    number: int


class Moves:
    """The moves from a state."""

    def __init__(self, machine: Machine, facts: Facts) -> None:
        self._machine, self._facts = machine, facts

    def of(self, state: State, place: int, is_wide: bool) -> Iterator[State]:
        """The states after one move, each at once in the machine. If `is_wide`, programs may do what no line tells of."""
        for caller, calls in state.open.items():
            yield from self._part(state, caller, calls[-1])
            yield from self._guessed(state, calls[-1])
        for late in state.late:
            yield from self._late(state, late)
        for lwp in state.rows.lwps:
            yield from self._meet(state, lwp)
        if self._facts.passes_over:
            yield from self._passed_over(state)
        if is_wide:
            yield from self._unlogged(state, place)

    # ---- steps

    def ask(self, state: State, step: Callable[[TypedCalls], Any]) -> Any:
        """What the model answers in this state. Raises Held."""
        assert state.session is not None
        self._machine.load(state.session)
        return self.ask_more(step)

    def ask_more(self, step: Callable[[TypedCalls], Any]) -> Any:
        try:
            return step(self._machine.calls)
        except Answered as answered:
            return Refused(answered.name)

    def turn(self, state: State, lwp: int, act: Act) -> Any:
        """The reply to a turn; None if the LWP has none, or the act isn't made."""
        try:
            reply = self.ask(state, lambda calls: (calls.turn(USER, lwp, act),))
        except Held:
            return None
        return reply if isinstance(reply, Refused) or is_made(act, reply[0]) else None

    # ---- open calls

    def _part(self, state: State, caller: Caller, open: Open) -> Iterator[State]:
        part, lwp = open.next, state.lwps[caller]
        if part is None or lwp not in state.rows.lwps:
            return
        if isinstance(part, Turn):
            yield from self._turn_of(state, caller, open, part)
        elif isinstance(part, (Mask, Back)):
            yield from self._mask(state, caller, open, part)
        elif isinstance(part, Take):
            yield from self._take(state, caller, open, part)
        elif isinstance(part, Settled):
            if open.part + 1 < len(open.call.parts) and is_settled(state, lwp):
                self._machine.load(self._session(state))
                yield state.changed(open=state.with_innermost(caller, open._replace(part=open.part + 1)))
        elif isinstance(part, Handler):
            if state.rows.processes[state.rows.lwps[lwp].pid].tracer:  # it may have passed a signal on
                self._machine.load(self._session(state))
                yield state.changed(open=state.with_innermost(caller, open._replace(part=open.part + 1)))
        else:
            for reply in self.replies(state, open):
                yield state.changed(open=state.with_innermost(caller, open._replace(part=open.part + 1, reply=reply)))
            if isinstance(part, Wait):
                yield from self._interrupted(state, caller, open)

    @staticmethod
    def _session(state: State) -> Any:
        assert state.session is not None
        return state.session

    def _guessed(self, state: State, open: Open) -> Iterator[State]:
        """A number that no line has explained yet may be that of any process that has none."""
        part = open.next
        number = part.target if isinstance(part, Ptrace) else part.which if isinstance(part, (Wait, Kill)) else -1
        if number in self._facts.known and state.pids.get(number) not in state.rows.processes:
            named = set(state.pids.values())
            for pid in state.rows.processes.keys() - named:
                self._machine.load(self._session(state))
                yield state.changed(pids={**state.pids, number: pid})

    def _turn_of(self, state: State, caller: Caller, open: Open, part: Turn) -> Iterator[State]:
        lwp = state.lwps[caller]
        reply = self.turn(state, lwp, part.act)
        if reply is None:
            return
        answer: Any = open.reply
        if isinstance(reply, Refused):
            answer = reply
            if reply.name != "EAGAIN":
                return
        elif isinstance(part.act, Leave) and open.call.line.name in ("fork", "vfork", "pthread_create"):
            answer = self._made(state, open.call.line.name == "pthread_create")
        yield state.changed(open=state.with_innermost(caller, open._replace(part=open.part + 1, reply=answer)))

    def _made(self, state: State, is_lwp: bool) -> Made:
        """What the last step has made."""
        after = self._machine.rows()
        new = after.lwps.keys() - state.rows.lwps.keys() if is_lwp else after.processes.keys() - state.rows.processes.keys()
        return Made(max(new))

    def _mask(self, state: State, caller: Caller, open: Open, part: Union[Mask, Back]) -> Iterator[State]:
        lwp = state.lwps[caller]
        before = state.rows.lwps[lwp].blocked
        if isinstance(part, Back):
            wanted = open.blocked
        else:
            wanted = {"set": part.signals, "block": before | part.signals, "unblock": before & ~part.signals}[part.how]
        if self.turn(state, lwp, signals_of(wanted)) is not None:
            yield state.changed(open=state.with_innermost(caller, open._replace(part=open.part + 1, blocked=before)))

    def _take(self, state: State, caller: Caller, open: Open, part: Take) -> Iterator[State]:
        """The signal is caught, for which its disposition and the mask are others meanwhile."""
        lwp = state.lwps[caller]
        row = state.rows.lwps[lwp]
        pending = part.signals & (row.pending | state.rows.processes[row.pid].pending)
        for signal in (number for number in range(1, 32) if pending >> (number - 1) & 1):
            self._machine.load(self._session(state))
            ignored, caught = self._machine.dispositions(row.pid)
            old = Action.SIG_IGN if signal in ignored else Action.CATCH if signal in caught else Action.SIG_DFL
            try:
                self.ask_more(lambda calls: calls.sigaction(USER, row.pid, signal, Action.CATCH))
                self.ask_more(lambda calls: calls.turn(USER, lwp, signals_of(row.blocked & ~(1 << (signal - 1)))))
                reply = self.ask_more(lambda calls: calls.turn(USER, lwp, Compute()))
                self.ask_more(lambda calls: calls.turn(USER, lwp, signals_of(row.blocked)))
                self.ask_more(lambda calls: calls.sigaction(USER, row.pid, signal, old))
            except Held:
                continue
            if reply == Caught(Signal(signal)):
                yield state.changed(open=state.with_innermost(caller, open._replace(part=open.part + 1, reply=reply)))

    def replies(self, state: State, open: Open) -> Iterator[Any]:
        """What the model may answer a step of a process; after each one the machine is in the state that it leads to."""
        part, pid = open.next, state.pid(open.call.line.caller.pid)
        try:
            if isinstance(part, (Ptrace, Kill, SetAction)):
                yield self.ask(state, self._step(state, pid, part))
            elif isinstance(part, Wait):
                yield from self._waits(state, pid, part)
        except Held:
            return

    def _step(self, state: State, pid: int, part: Union[Ptrace, Kill, SetAction]) -> Callable[[TypedCalls], Any]:
        if isinstance(part, Ptrace):
            request, target, data = part.request, self.target(state, part), part.data
            return lambda calls: calls.ptrace(USER, pid, request, target, data)
        signal = part.signal
        if isinstance(part, Kill):
            which = state.pid(part.which)
            return lambda calls: calls.kill(USER, pid, which, signal)
        action = part.action
        return lambda calls: calls.sigaction(USER, pid, signal, action)

    def _waits(self, state: State, pid: int, part: Wait) -> Iterator[Any]:
        """A wait for any child may report each child that has news."""
        options = part.options & ~WaitOption.WNOHANG
        if part.which != -1:
            numbers = [state.pid(part.which)]
        else:
            numbers = [row.pid for row in state.rows.processes.values() if pid in (row.parent, row.tracer)]
        has_news = False
        for number in numbers:
            reply = self.ask(state, lambda calls: calls.wait4(USER, pid, number, options))
            if reply != NOTHING:
                has_news = has_news or isinstance(reply, Waited)
                yield reply
        if not numbers or (part.options & WaitOption.WNOHANG and not has_news):
            reply = self.ask(state, lambda calls: calls.wait4(USER, pid, numbers[0] if numbers else -1, options))
            if reply == NOTHING or not numbers:
                yield reply

    def _interrupted(self, state: State, caller: Caller, open: Open) -> Iterator[State]:
        """A wait that a signal interrupts is left, and entered again if no handler ends it."""
        lwp = state.lwps[caller]
        if state.rows.lwps[lwp].mode == IN_CALL and state.rows.meets(lwp) and self.turn(state, lwp, Leave()) is not None:
            yield state.changed(open=state.with_innermost(caller, open._replace(part=0)), turns=1)

    @staticmethod
    def target(state: State, part: Ptrace) -> int:
        """The model's number of a process or an LWP."""
        if part.target in state.pids or part.target <= NO_PROCESS:
            return state.pid(part.target)
        return next((lwp for caller, lwp in state.lwps.items() if caller.lwp == part.target), NO_LWP)

    def _late(self, state: State, late: Open) -> Iterator[State]:
        for reply in self.replies(state, late):
            if reply is None:
                yield state.changed(late=state.late - {late}, turns=1)

    # ---- turns that no line tells of

    def _meet(self, state: State, lwp: int) -> Iterator[State]:
        """The LWP meets a signal, or a stop that is due."""
        row = state.rows.lwps[lwp]
        if row.mode != USER_MODE or not state.rows.runs(lwp) or not (row.stepping or state.rows.meets(lwp)):
            return
        reply = self.ask(state, lambda calls: calls.turn(USER, lwp, Compute()))
        caller = state.caller_of(lwp)
        open = state.innermost(caller) if caller is not None else None
        if caller is not None and open is not None and isinstance(reply, Caught):
            is_due = isinstance(open.next, Handler)
            yield state.changed(open=state.with_innermost(caller, open._replace(part=open.part + is_due, caught=True)), turns=1)
        else:
            yield state.changed(turns=1)

    def _passed_over(self, state: State) -> Iterator[State]:
        """A signal that a traced process ignores, or that is discarded by default, isn't reported: the process goes on."""
        for row in state.rows.processes.values():
            if row.state != TRACE_STOP or row.told or state.rows.lwps[row.lwp].flags:
                continue
            self._machine.load(self._session(state))
            ignored, caught = self._machine.dispositions(row.pid)
            if row.signal not in ignored and not (row.signal in _DISCARDED and row.signal not in caught):
                continue
            request = Request.PT_STEP if state.rows.lwps[row.lwp].stepping else Request.PT_CONTINUE
            try:
                self.ask_more(lambda calls: calls.wait4(USER, row.tracer, row.pid, WaitOption(0)))
                self.ask_more(lambda calls: calls.ptrace(USER, row.tracer, request, row.pid, 0))
            except Held:
                continue
            yield state.changed(turns=1)

    def _unlogged(self, state: State, place: int) -> Iterator[State]:
        """What a program may do that no line tells of, if a later line tells what comes of it."""
        hosts = {pid: host for host, pid in state.pids.items()}
        anonymous = [host for host in self._facts.unborn if host not in state.pids]
        for row in state.rows.processes.values():
            host = hosts.get(row.pid)
            if row.state != RUNS:
                yield from self._collected(state, row, host, place)
                continue
            known = [host] if host is not None else anonymous
            for number in known:
                status = self._facts.next_status(number, place)
                if status is not None:
                    yield from self._demanded(state, row.pid, status, number, place)
            if anonymous and host is not None and self._facts.is_unlogged(host, place):
                yield from self._calls(state, row.pid, Enter(Call.FORK))
            yield from self._hidden_calls(state, row.pid)

    def _collected(self, state: State, row: CProcess, host: Optional[int], place: int) -> Iterator[State]:
        """A wait that isn't in the log has told the end of a child whose fork isn't there either."""
        if row.state != ZOMBIE or host not in self._facts.unseen or self._facts.next_status(host, place) is not None:
            return
        try:
            reply = self.ask(state, lambda calls: calls.wait4(USER, row.parent, row.pid, WaitOption(0)))
        except Held:
            return
        if isinstance(reply, Waited) and reply != NOTHING:
            yield state.changed(turns=1)

    def _demanded(self, state: State, pid: int, status: Status, host: int, place: int) -> Iterator[State]:
        """Acts of a process that may lead to the status that a wait tells next."""
        is_unlogged = self._facts.is_unlogged(host, place)
        if status.kind == "exited":
            if is_unlogged or self._facts.may_exit(host, place):
                yield from self._calls(state, pid, Enter(Call.EXIT, status.number))
            return
        if status.kind == "continued" or not status.number:
            return
        is_sent = is_unlogged or self._facts.is_spread(status.number, place)
        if is_sent or status.number in UNSENT:
            for lwp in state.rows.lwps_of(pid):
                pending = state.rows.lwps[lwp].pending | state.rows.processes[pid].pending
                if not pending >> (status.number - 1) & 1 and self.turn(state, lwp, Raise(status.number)) is not None:
                    yield state.changed(turns=1, unsent=not is_sent)
        if is_unlogged and status.kind == "stopped":
            yield from self._calls(state, pid, Enter(Call.EXEC))

    def _calls(self, state: State, pid: int, enter: Enter) -> Iterator[State]:
        """A call of the process's first LWP, whole."""
        lwp = state.rows.lwps_of(pid)[0]
        if self.turn(state, lwp, enter) is None:
            return
        try:
            reply = self.ask_more(lambda calls: (calls.turn(USER, lwp, Leave()),))
        except Held:
            yield state.changed(turns=1)
            return
        if not isinstance(reply, Refused) and is_made(Leave(), reply[0]):
            yield state.changed(turns=2)

    def _hidden_calls(self, state: State, pid: int) -> Iterator[State]:
        """A debugger sees the entry and the exit of calls that the log doesn't have."""
        for lwp in state.rows.lwps_of(pid):
            row, caller = state.rows.lwps[lwp], state.caller_of(lwp)
            open = state.innermost(caller) if caller is not None else None
            if row.mode == IN_CALL and row.call == OTHER_CALL and row.argument == 0:
                act: Act = Leave()
            elif row.mode == USER_MODE and state.rows.processes[pid].events & _CALL_EVENTS and (open is None or not open.part):
                act = Enter(Call.OTHER, 0)
            else:
                continue
            if self.turn(state, lwp, act) is not None:
                yield state.changed(turns=1)


def is_made(act: Act, reply: Any) -> bool:
    """Whether a turn with this reply has made its act."""
    if isinstance(reply, Stopped):
        flags = StopFlag.PL_FLAG_SCE if isinstance(act, Enter) else StopFlag.PL_FLAG_SCX | StopFlag.PL_FLAG_EXITED
        return isinstance(act, (Enter, Leave)) and bool(reply.flags & flags)
    if isinstance(reply, Ended):
        return isinstance(act, Leave) or act == Raise(9)
    return not isinstance(reply, Caught)


def is_settled(state: State, lwp: int) -> bool:
    """Whether the LWP runs in user mode, and meets nothing."""
    row = state.rows.lwps.get(lwp)
    if row is None or row.mode != USER_MODE or not state.rows.runs(lwp):
        return False
    return not state.rows.meets(lwp, of_process=len(state.rows.lwps_of(row.pid)) == 1)


def late_set(state: State, open: Open) -> Optional[frozenset[Open]]:
    """The late steps with this one; None if there are too many."""
    return state.late | {open} if len(state.late) < _MOST_LATE else None
