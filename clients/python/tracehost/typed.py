"""The calls as calls of the library: numbers in, a struct with the reply out."""

from __future__ import annotations

import errno
import functools
import os
from collections.abc import Callable, Iterable, Sequence
from ctypes import byref, c_int64, c_size_t

from .blocking import Progress
from .checks import of_kind, whole, word
from .errors import Held, hides_from_pytest
from .library import INVALID, CRule, Reply, Session
from .lines import user_changed
from .names import Action, Call, Decision, EventMask, LwpEvent, Request, Signal, StopFlag
from .replies import (
    NOTHING,
    Caught,
    Ended,
    Handled,
    LwpInfo,
    New,
    Stopped,
    Turned,
    Waited,
    raise_number,
    status_of,
)
from .steps import Act, Block, Compute, Enter, Raise, Rule

TYPE_CHECKING = False
if TYPE_CHECKING:
    from typing import Any, NoReturn, Optional

    from .recording import Recording

__tracebackhide__ = hides_from_pytest

# the library's numbers of acts, calls, actions, decisions, and its bits of flags
# tools/format numbers
_COMPUTE, _RAISE, _BLOCK, _ENTER, _LEAVE = 0, 1, 2, 3, 4
CALLS = (Call.FORK, Call.VFORK, Call.EXEC, Call.THR_NEW, Call.THR_EXIT, Call.EXIT, Call.OTHER)
# end
_NUMBER_OF_CALL = {call: number for number, call in enumerate(CALLS)}
_NUMBER_OF_ACTION = {action: number for number, action in enumerate(Action)}
_DECISIONS: tuple[Decision, ...] = tuple(Decision)
_PASSING = (Decision.CONTINUE, Decision.DETACH)
_FLAGS: tuple[StopFlag, ...] = tuple(StopFlag)
_MOST_KEPT = 1 << 12
_new = tuple.__new__  # a named tuple's own takes three times as long


class NotTyped(Exception):
    """The step can't be made by a typed call, and wasn't made: its line says why it is refused."""


@functools.lru_cache(maxsize=512)
def flags_of(bits: int) -> StopFlag:
    flags = StopFlag(0)
    for number, flag in enumerate(_FLAGS):
        if bits >> number & 1:
            flags |= flag
    return flags


@functools.lru_cache(maxsize=512)
def signals_of(bits: int) -> frozenset[Signal]:
    return frozenset(signal for signal in Signal if bits >> (signal - 1) & 1)


@functools.lru_cache(maxsize=64)
def events_of(bits: int) -> EventMask:
    return EventMask(bits)


def _act_numbers(act: Act) -> tuple[int, int, int]:
    """The act, the call and the argument of ``tracehost_turn``. Raises NotTyped."""
    if isinstance(act, Compute):
        return _COMPUTE, 0, 0
    if isinstance(act, Raise):
        return _RAISE, 0, word("signal", act.signal)
    if isinstance(act, Block):
        return _BLOCK, 0, _set_of([whole("signals", signal) for signal in act.signals])
    if isinstance(act, Enter):
        return _ENTER, _NUMBER_OF_CALL[of_kind("call", Call, act.call)], _code_of(act)
    return _LEAVE, 0, 0


def _set_of(signals: Sequence[int]) -> int:
    bits = 0
    for signal in signals:
        if not 1 <= signal <= 31:
            raise NotTyped
        bits |= 1 << (signal - 1)
    return bits


def _code_of(enter: Enter) -> int:
    if (enter.code is not None) != (enter.call in (Call.EXIT, Call.OTHER)):
        raise NotTyped
    return 0 if enter.code is None else whole("code", enter.code)


def _c_rule(rule: Rule) -> CRule:
    """Raises NotTyped if the rule has a number that is refused or that the library reads in another way."""
    signal = 0 if rule.signal is None else whole("signal", rule.signal)
    passed = 0 if rule.pass_signal is None else whole("pass_signal", rule.pass_signal)
    flags = whole("flags", rule.flags, StopFlag)
    bits = sum(1 << number for number, flag in enumerate(_FLAGS) if flag & flags)
    if (rule.signal is not None and not 1 <= signal <= 31) or not 0 <= passed <= 31 or flags_of(bits) != flags:
        raise NotTyped
    if rule.pass_signal is not None and rule.decision not in _PASSING:
        raise NotTyped
    return CRule(bits, signal, _DECISIONS.index(of_kind("decision", Decision, rule.decision)), passed)


class TypedCalls:
    """The calls of a session of the library. One thread at a time uses it.

    A call raises NotTyped if a number is refused, or doesn't fit the call's type: nothing was done then. It raises Held
    and Answered as the model answers, and RecordingFailed.
    """

    def __init__(self, session: Session, progress: Progress, recording: Optional[Recording] = None) -> None:
        self._session = session
        self._progress = progress
        self._recording = recording
        self.reply = Reply()
        library, self.c_session, self.c_reply = session.library, session.handle, byref(self.reply)
        self._spawn, self._turn, self.c_ptrace = library["spawn"], library["turn"], library["ptrace"]
        self.c_wait4, self._kill, self._sigaction = library["wait4"], library["kill"], library["sigaction"]
        self._list, self._install, self._handles = library["list"], library["install"], library["handle"]
        self.c_numbers = _Numbers()
        self.readers = self._table()

    def spawn(self, uid: int) -> New:
        _check_words(uid)
        new: New = self._made(self._spawn(self.c_session, uid, self.c_reply), uid)
        return new

    def turn(self, uid: int, lwp: int, act: Act) -> Turned:
        number, call, argument = _act_numbers(act)
        _check_words(uid | lwp | argument)
        turned: Turned = self._made(self._turn(self.c_session, uid, lwp, number, call, argument, self.c_reply), uid)
        return turned

    def ptrace(self, uid: int, pid: int, request: Request, target: int, data: int) -> Any:
        if (uid | pid | target | data) >> 32:
            raise NotTyped
        return self._made(self.c_ptrace(self.c_session, uid, pid, request, target, data, self.c_reply), uid)

    def wait4(self, uid: int, pid: int, which: int, options: int) -> Waited:
        if (uid | pid | options) >> 32:
            raise NotTyped
        code = self.c_wait4(self.c_session, uid, pid, _number(which), options, self.c_reply)
        waited: Waited | None = self._made(code, uid)
        return NOTHING if waited is None else waited

    def kill(self, uid: int, pid: int, which: int, signal: int) -> None:
        _check_words(uid | pid | signal)
        self._made(self._kill(self.c_session, uid, pid, _number(which), signal, self.c_reply), uid)

    def sigaction(self, uid: int, pid: int, signal: int, action: Action) -> None:
        _check_words(uid | pid | signal)
        self._made(self._sigaction(self.c_session, uid, pid, signal, _NUMBER_OF_ACTION[action], self.c_reply), uid)

    def list(self, uid: int, pid: int) -> tuple[int, ...]:
        _check_words(uid | pid)
        pids: tuple[int, ...] = self._made(self._list(self.c_session, uid, pid, self.c_reply), uid)
        return pids

    def install(self, uid: int, pid: int, rules: Iterable[Rule]) -> None:
        _check_words(uid | pid)
        made = [_c_rule(rule) for rule in rules]
        array = (CRule * len(made))(*made)
        self._made(self._install(self.c_session, uid, pid, array, c_size_t(len(made)), self.c_reply), uid)

    def handle(self, uid: int, pid: int) -> None | Waited | Handled:
        _check_words(uid | pid)
        handled: None | Waited | Handled = self._made(self._handles(self.c_session, uid, pid, self.c_reply), uid)
        return handled

    def line(self, text: str) -> str:
        """Makes the step of a line, and returns the line of its answer."""
        answer = self._session.exchange(text)
        if self._recording is not None:
            self._recording.add(text, answer)
        uid = user_changed(answer) if self._progress.is_watched else None
        if uid is not None:
            self._progress.note(uid)
        return answer

    def _made(self, code: int, uid: int) -> Any:
        """The reply as the calls return it. Raises Held and Answered if it is one of these."""
        if code:
            if code == INVALID:
                raise NotTyped
            self._session.check(code)
        reply = self.reply
        if self._recording is not None:
            self._record(self._recording)
        changes, reader = self.readers[reply.kind]
        if changes and self._progress.is_watched:
            self._progress.note(uid)
        return reader(reply)

    def _record(self, recording: Recording) -> None:
        try:
            step, line = self._session.last_step(), self._session.last_line()
        except MemoryError:
            recording.lose(OSError(errno.ENOMEM, os.strerror(errno.ENOMEM)))
            return
        if step is not None:  # a mask with bits that no event has is refused, and no line
            recording.add(step, line)

    def _table(self) -> tuple[tuple[bool, Callable[[Reply], Any]], ...]:
        """For each kind of reply, whether its step may have changed something, and what it means."""

        session = self._session  # a table that had `self` would keep a dropped session until the next collection

        def numbers(reply: Reply) -> tuple[int, ...]:
            return session.numbers()

        return (
            # tools/format readers of kinds
            (True, _nothing),
            (True, _read_new),
            (False, _read_number),
            (True, _read_status),
            (False, _nothing),
            (False, _read_info),
            (False, numbers),
            (False, numbers),
            (False, _read_mask),
            (True, _read_handled),
            (True, _read_stopped),
            (True, _read_caught),
            (True, _read_ended),
            (False, _held),
            (False, _read_error),
            # end
        )


def _check_words(either: int) -> None:
    """Raises NotTyped if a number, of several joined by `|`, isn't a word of 32 bits."""
    if either >> 32:
        raise NotTyped


def _number(which: int) -> c_int64:
    """Raises NotTyped if the number doesn't fit 64 bits with a sign."""
    if not -(1 << 63) <= which < 1 << 63:
        raise NotTyped
    return c_int64(which)


class _Numbers(dict[int, c_int64]):
    """Numbers of 64 bits with a sign as C gets them, which take long to make."""

    def __missing__(self, number: int) -> c_int64:
        if len(self) == _MOST_KEPT:
            self.clear()
        made = self[number] = c_int64(number)
        return made


def numbers_in(words: tuple[Any, ...]) -> tuple[int, ...]:
    """The arguments of a call of `TypedCalls`, from what the library's function gets for it."""
    return tuple(word.value if isinstance(word, c_int64) else word for word in words[1:-1])


def _nothing(reply: Reply) -> None:
    return None


def _held(reply: Reply) -> NoReturn:
    raise Held


def _decision(reply: Reply) -> tuple[Decision, int | None]:
    """A decision with the signal that it passes on, if it does."""
    decision = _DECISIONS[reply.decision]
    return decision, reply.passed if decision in _PASSING else None


# tools/format readers
def _read_new(reply: Reply) -> New:
    return _new(New, (reply.pid, reply.lwp))


def _read_number(reply: Reply) -> int:
    return reply.number


def _read_status(reply: Reply) -> Waited:
    return _new(Waited, (reply.pid, status_of(reply.status)))


def _read_info(reply: Reply) -> LwpInfo:
    return LwpInfo(
        reply.lwp,
        LwpEvent(reply.event),
        flags_of(reply.flags),
        signals_of(reply.mask),
        signals_of(reply.pending),
        reply.child,
        reply.code,
    )


def _read_mask(reply: Reply) -> EventMask:
    return events_of(reply.mask)


def _read_handled(reply: Reply) -> Handled:
    return Handled(
        reply.pid,
        status_of(reply.status),
        reply.lwp,
        Signal(reply.signal),
        flags_of(reply.flags),
        reply.child,
        reply.code,
        reply.handler if reply.has_handler else None,
        *_decision(reply),
    )


def _read_stopped(reply: Reply) -> Stopped:
    return _new(Stopped, (reply.lwp, Signal(reply.signal), flags_of(reply.flags)))


def _read_caught(reply: Reply) -> Caught:
    return _new(Caught, (Signal(reply.signal),))


def _read_ended(reply: Reply) -> Ended:
    return _new(Ended, (status_of(reply.status),))


def _read_error(reply: Reply) -> NoReturn:
    raise_number(reply.error)


# end
