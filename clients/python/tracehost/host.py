"""A session: the host, its users, and the processes that make calls."""

from __future__ import annotations

import errno
import os
import threading
import time
from collections.abc import Callable, Iterable, Mapping, Sequence
from types import TracebackType

from . import forks
from .blocking import Progress, check_is_alone
from .checks import check_timeout, number_of_process, of_kind, whole, without_foreign_signals, word
from .errors import Held, RecordingFailed, hides_from_pytest
from .library import RawRows, Session, find
from .lines import line_of, raise_answer, reason_in
from .names import ALL_EVENTS, CALLER_OPS, OPTIONS, Action, Decision, EventMask, Request, WaitOption, names_of
from .replies import NOTHING, Answered, Handled, LwpInfo, New, Turned, Waited
from .steps import Act, Rule, check_act
from .typed import NotTyped, TypedCalls, numbers_in
from .verdicts import REQUESTS, Verdict, verdict

TYPE_CHECKING = False
if TYPE_CHECKING:
    from typing import Any, Literal, NoReturn, Optional, TypeVar, overload

    from typing_extensions import ParamSpec

    from .recording import Recording
    from .refusals import Asked, Rows
    from .rows import View

    _Arguments = ParamSpec("_Arguments")
    _Result = TypeVar("_Result")
else:
    from .plain_typing import overload

__tracebackhide__ = hides_from_pytest

_SET_EVENT_MASK, _NO_OPTION, _WNOHANG = Request.PT_SET_EVENT_MASK, WaitOption(0), WaitOption.WNOHANG


class Host:
    """A session with a new host, in this process. Threads may share it: calls wait for each other."""

    def __init__(
        self,
        *,
        kill_on_debugger_exit: bool | None = None,
        record: str | os.PathLike[str] | None = None,
        record_lines: str | os.PathLike[str] | None = None,
        explain: bool = True,
    ) -> None:
        """Opens a session of the library that the environment's ``TRACEHOST_LIBRARY`` names, else the package's own.

        `kill_on_debugger_exit` is the sysctl kern.kill_on_debugger_exit: whether the end of a debugger kills the
        processes that it traces. `record` is a file that becomes a scenario with the steps of the session, and is one
        after each step; `record_lines` gets the lines that were answered, for ``--expect``.

        With `explain` the library says why it refuses a step, which is `RefusedStep.reason`, and an OSError says which
        condition held, by a look at the user's rows. Without it an OSError names each condition that is possible. Raises
        OSError if there is no library, it can't be loaded, or a file can't be made, and MemoryError.
        """
        if record is None and record_lines is not None:
            raise ValueError("record_lines goes with record")
        session, recording = Session(find(), kill_on_debugger_exit is not False), None
        if record is not None:
            from .recording import Recording

            recording = Recording(record, kill_on_debugger_exit, record_lines)
        self._begin(session, recording, explain)

    def _begin(self, session: Session, recording: Optional[Recording], explain: bool) -> None:
        self._session = session
        self._recording = recording
        self._explains = explain
        self._progress = Progress()
        # a signal handler and a ``__del__`` run in the thread of a call, which a plain lock would stop for ever
        self._new_lock()
        self._calls = TypedCalls(session, self._progress, recording)
        self._is_plain = recording is None and type(self) is Host
        forks.tell(self)

    def _new_lock(self) -> None:
        self._lock = threading.RLock()
        self._acquire, self._release = self._lock.acquire, self._lock.release
        self._call_in: Optional[Callable[..., Any]] = None

    def in_child(self) -> None:
        """After fork(2), in the child: it has a copy of the session, which isn't recorded."""
        self._new_lock()
        self._progress.in_child()
        if self._recording is not None:
            self._recording.in_child()

    def __enter__(self) -> Host:
        return self

    def __exit__(self, kind: type[BaseException] | None, error: BaseException | None, trace: TracebackType | None) -> None:
        self.close()

    def close(self) -> None:
        """Ends the session. Another thread's call that sleeps raises SessionClosed. Closing again does nothing."""
        self._alone(self._close)

    def _close(self) -> None:
        self._session.close()
        self._progress.close()
        if self._recording is not None:
            self._recording.close()

    def stop_recording(self) -> None:
        """Later steps aren't recorded. The files are those of the steps so far."""
        if self._recording is not None:
            self._alone(self._recording.close)

    def copy(self) -> Host:
        """A host at the present state of this one: the same machine, with no recording. Both go their own ways.

        Raises SessionClosed and MemoryError.
        """
        host = Host.__new__(Host)
        host._begin(self._alone(self._session.copy), None, self._explains)
        return host

    def __reduce__(self) -> NoReturn:
        """For copy.copy, copy.deepcopy and pickle."""
        raise TypeError("a session is neither copied nor pickled so: Host.copy() makes a copy")

    def line(self, text: str) -> str:
        """Sends a line as it is, and returns the line of its answer, without their line feeds.

        It raises nothing for `refused`, `held` and `error`. Raises ValueError if `text` has a line feed of its own,
        UnicodeEncodeError if it can't be encoded, and SessionClosed.
        """
        if not isinstance(text, str):
            raise TypeError(f"text: expected a text, got {text!r}")
        if "\n" in text:
            raise ValueError("text: a line feed ends the line; send one line at a time")
        return self._send(text)

    def step(self, step: Mapping[str, Any]) -> str:
        """Sends a step as docs/FORMAT.md describes it, and returns the line of its answer.

        It raises what the other calls raise: RefusedStep, Held and OSError.
        """
        import json

        text = json.dumps(without_foreign_signals(step), separators=(",", ":"))
        return self._alone(self._step, text, step)

    def _step(self, text: str, step: Mapping[str, Any]) -> str:
        from .refusals import asked_by

        answer = self._calls.line(text)
        try:
            raise_answer(text, answer, self._reason)
        except (Answered, Held) as refusal:
            raise self._refusal(refusal, asked_by(step)) from None
        return answer

    def run(self, *functions: Callable[[], Any]) -> list[Any]:
        """Runs the functions, each in a thread of its own, and returns their results.

        One runs at a time: until it returns, or a call with ``block=True`` would sleep. Then the next one that
        can go on runs. So the session has the same steps in every run. If none can go on, the call that would sleep
        raises TimeoutError at once. The first exception that a function raises is raised once all have ended.
        """
        return self._progress.run(functions)

    def user(self, uid: int) -> User:
        """The user with this number, 1001 to 1064."""
        return User(self, uid)

    def _send(self, text: str) -> str:
        return self._alone(self._calls.line, text)

    def _alone(self, function: Callable[_Arguments, _Result], *arguments: _Arguments.args, **none: _Arguments.kwargs) -> _Result:
        """Calls the function, one of `TypedCalls` as an example, while no other call of the session runs.

        Raises SessionBusy, and as Held and OSError what was answered, with the condition that held.
        """
        with self._lock:
            if self._call_in is not None:
                check_is_alone(_CALLS, self)
            try:
                self._call_in = function
                return function(*arguments)
            except (Answered, Held, NotTyped) as refusal:
                raise self._explained(refusal, function, arguments) from None
            except RecordingFailed:
                self._close()
                raise
            finally:
                self._call_in = None

    def _plain(self, op: str, function: Callable[..., int], words: tuple[Any, ...]) -> Any:
        """As `_alone` of the call with this name, faster: for a plain host, and words that fit, all that the library gets."""
        reply = self._calls.reply
        try:  # `with` takes twice the time
            self._acquire()
            if self._call_in is not None:
                check_is_alone(_CALLS, self)
            try:
                self._call_in = function
                code = function(*words)
                if code or self._progress.is_watched:
                    return self._calls._made(code, words[1])
                kind = reply.kind
                return self._calls.readers[kind][1](reply) if kind else None
            except (Answered, Held, NotTyped) as refusal:
                raise self._explained(refusal, getattr(self._calls, op), numbers_in(words)) from None
            finally:
                self._call_in = None
        finally:
            try:
                self._release()
            except RuntimeError:  # interrupted as it waited for the lock
                pass

    def _explained(self, refusal: Exception, function: Callable[..., Any], arguments: Sequence[Any]) -> Exception:
        """What is raised for the refusal of a call of `TypedCalls`."""
        if function == self._call_and_see:
            _, function, *arguments = arguments
        if function == self._step:
            return refusal  # with its words already
        op = function.__name__
        if isinstance(refusal, NotTyped):
            line = line_of(op, arguments)
            try:
                raise_answer(line, self._calls.line(line), self._reason)
            except ValueError as refused:
                return refused
            raise AssertionError(f"the library makes no such call, and a step of {line}")
        caller = arguments[1] if op in CALLER_OPS else 0
        rest = arguments[2:] if op in CALLER_OPS else arguments[1:]
        from .refusals import Asked

        return self._refusal(refusal, Asked(op, arguments[0], caller, rest))

    def _refusal(self, refusal: Exception, asked: Asked) -> Exception:
        """The Held, or OSError with this system's number, for an answer, with its words."""
        if isinstance(refusal, Answered):
            return OSError(getattr(errno, refusal.name), self._words(refusal.name, asked))
        return Held(self._words("held", asked))

    def _words(self, answer: str, asked: Asked) -> str:
        """What an errno, or ``held``, says of a call."""
        from .refusals import explanation

        return explanation(answer, asked, lambda: self._known_rows(asked.user))

    def _reason(self, line: str) -> str:
        """Why a line isn't a step."""
        return reason_in(self._session.explain(line) or "") if self._explains else ""

    def _known_rows(self, uid: int) -> Optional[Rows]:
        """The user's rows; None if nobody wants them, or there is no memory."""
        from .refusals import Rows

        try:
            return Rows(self._rows(uid)) if self._explains else None
        except (MemoryError, ValueError):
            return None

    def _call_and_see(self, quiet: object, call: Callable[..., Any], *arguments: Any) -> tuple[Any, int]:
        """The result of a call, Held if that is quiet, and how many steps its user has had until then."""
        self._progress.is_watched = True
        try:
            result = call(*arguments)
        except Held:
            if quiet is not Held:
                raise
            result = Held
        return result, self._progress.seen(arguments[0])

    def _news(
        self, quiet: object, timeout: float | None, what: str, call: Callable[_Arguments, _Result],
        *arguments: _Arguments.args, **none: _Arguments.kwargs,
    ) -> _Result:  # fmt: skip
        """The first result other than `quiet`, which may be Held: the call is made again after each step that may have
        brought news to its user, the first of its arguments."""
        from . import deadlock

        uid: Any = arguments[0]
        deadline = None if timeout is None else time.monotonic() + timeout
        while True:
            result, seen = self._alone(self._call_and_see, quiet, call, *arguments)
            if result != quiet:
                found: _Result = result
                return found
            if deadline is None and deadlock.is_alone():
                raise TimeoutError(f"{what}: deadlock: it would sleep for ever, as there is no other thread" + self._stops(uid))
            self._progress.sleep(uid, seen, deadline, what)

    def _stops(self, uid: int) -> str:
        from . import deadlock

        try:
            return deadlock.sentence(self._alone(self._view, uid).processes)
        except (MemoryError, ValueError):
            return ""

    def _view(self, uid: int) -> View:
        from .rows import View, lwp_row, process_row

        processes, lwps = self._rows(uid)
        return View(tuple(map(process_row, processes)), tuple(map(lwp_row, lwps)))

    def _rows(self, uid: int) -> RawRows:
        return self._session.rows(uid)


class User:
    """What a user does without a caller: new processes, and the turns of LWPs."""

    def __init__(self, host: Host, uid: int) -> None:
        self.host = host
        self.uid = whole("uid", uid)

    def __repr__(self) -> str:
        return f"User({self.uid})"

    def spawn(self) -> New:
        """A new process with one LWP and parent 1. EAGAIN if the user has 250 processes or 1000 LWPs."""
        return self.host._alone(self.host._calls.spawn, self.uid)

    def process(self, pid: int | New) -> Process:
        """The process with this number, or that `spawn` has just made, as a caller.

        Each call asks whether the user has such a process.
        """
        return Process(self, number_of_process("pid", pid))

    def turn(self, lwp: int, act: Act, *, block: bool = False, timeout: float | None = None) -> Turned:
        """The turn of an LWP: None if it did its act, else what came of the act or instead of it.

        If it doesn't run, raises Held. With `block` the call sleeps instead until another thread lets the LWP go on,
        and raises TimeoutError after `timeout` seconds.
        """
        check_timeout(block, timeout)
        host, number = self.host, word("lwp", lwp)
        if block:
            return host._news(Held, timeout, f"turn of {lwp}", host._calls.turn, self.uid, number, check_act(act))
        return host._alone(host._calls.turn, self.uid, number, check_act(act))

    def view(self) -> View:
        """The user's rows: processes by rising number, LWPs in order of birth. No step is made.

        Raises ValueError if this is no user, SessionClosed and MemoryError.
        """
        if not 0 <= self.uid < 1 << 32:
            raise ValueError(f"{self.uid} is no user")
        return self.host._alone(self.host._view, self.uid)


class Process:
    """A process that makes calls. Each call answers ESRCH if it isn't a live process of the user."""

    def __init__(self, user: User, pid: int) -> None:
        self.user = user
        self.pid = pid

    def __repr__(self) -> str:
        return f"Process({self.pid} of {self.user.uid})"

    # fmt: off
    # tools/format requests
    @overload
    def ptrace(self, request: Literal[Request.PT_GET_EVENT_MASK], target: int, data: int = 0) -> EventMask: ...
    @overload
    def ptrace(self, request: Literal[Request.PT_LWPINFO], target: int, data: int = 0) -> LwpInfo: ...
    @overload
    def ptrace(self, request: Literal[Request.PT_GETNUMLWPS], target: int, data: int = 0) -> int: ...
    @overload
    def ptrace(self, request: Literal[Request.PT_GETLWPLIST], target: int, data: int) -> tuple[int, ...]: ...
    # end
    @overload
    def ptrace(self, request: Request, target: int = 0, data: int = 0) -> Any: ...
    # fmt: on

    def ptrace(self, request: Request, target: int = 0, data: int = 0) -> Any:
        """ptrace(2). `target` is a process or an LWP. What `data` is depends on the request:

        - a signal or 0 for the requests that let the target go on;
        - the `EventMask` of PT_SET_EVENT_MASK;
        - whether PT_FOLLOW_FORK or PT_LWP_EVENTS sets (not 0) or clears (0);
        - the number of LWPs that PT_GETLWPLIST asks for.

        PT_TRACE_ME ignores both. PT_LWPINFO returns an `LwpInfo`, PT_GET_EVENT_MASK an `EventMask`, PT_GETNUMLWPS a number, PT_GETLWPLIST the
        numbers of LWPs in order of birth, and every other request None. docs/ERRNOS.md explains each errno.
        """
        user, pid = self.user, self.pid
        host, uid = user.host, user.uid
        if type(request) is not Request:
            of_kind("request", Request, request)
        elif host._is_plain and request is not _SET_EVENT_MASK and type(target) is type(data) is int:
            if not (uid | pid | target | data) >> 32:
                calls = host._calls
                return host._plain("ptrace", calls.c_ptrace, (calls.c_session, uid, pid, request, target, data, calls.c_reply))
        if request is _SET_EVENT_MASK and whole("data", data, EventMask) & ~ALL_EVENTS:
            # bits without a name, which no line has: the model is asked for what it refuses first, and EINVAL comes last
            self.ptrace(Request.PT_GET_EVENT_MASK, target)
            from .refusals import Asked

            raise host._refusal(Answered("EINVAL"), Asked("ptrace", uid, pid, (request, target, data)))
        return host._alone(host._calls.ptrace, uid, word("pid", pid), request, word("target", target), word("data", data))

    def wait4(
        self, which: int = -1, options: WaitOption = _NO_OPTION, *, block: bool = False, timeout: float | None = None
    ) -> Waited:
        """wait4(2): the status of a child or tracee, `which` by number or -1 for any; ``Waited(0, 0)`` for nothing.

        With `block`, but not with `WaitOption.WNOHANG`, the call sleeps until another thread's step brings
        something to collect. It raises TimeoutError after `timeout` seconds, or at once if nothing could end it. ECHILD
        if the caller has none that `which` names; EINVAL if `which` is 0 or below -1.
        """
        user, pid = self.user, self.pid
        host, uid, asked = user.host, user.uid, 0
        if options is not _NO_OPTION:
            asked = whole("options", options, WaitOption)
            names_of(asked, OPTIONS)  # ValueError if a bit has no name
        elif host._is_plain and not block and timeout is None and type(which) is int:
            if not (uid | pid) >> 32 and -1 <= which < 1 << 32:
                calls = host._calls
                words = calls.c_session, uid, pid, calls.c_numbers[which], 0, calls.c_reply
                return host._plain("wait4", calls.c_wait4, words) or NOTHING
        pid, number = word("pid", pid), whole("which", which)
        call = host._calls.wait4
        if block or timeout is not None:
            check_timeout(block, timeout)
            if not asked & _WNOHANG:
                return host._news(NOTHING, timeout, f"wait4 of {self.pid}", call, uid, pid, number, asked)
        return host._alone(call, uid, pid, number, asked)

    def kill(self, which: int, signal: int) -> None:
        """kill(2): posts a signal (0 for none) to a process, or with -1 to all others of the user."""
        user, pid = self.user, word("pid", self.pid)
        user.host._alone(user.host._calls.kill, user.uid, pid, whole("which", which), word("signal", signal))

    def sigaction(self, signal: int, action: Action) -> None:
        """sigaction(2): what the caller does with a signal. EINVAL for no signal, and for SIGKILL and SIGSTOP."""
        user, pid, number = self.user, word("pid", self.pid), word("signal", signal)
        user.host._alone(user.host._calls.sigaction, user.uid, pid, number, of_kind("action", Action, action))

    def list(self) -> tuple[int, ...]:
        """The user's processes, zombies too, by rising number."""
        user = self.user
        return user.host._alone(user.host._calls.list, user.uid, word("pid", self.pid))

    def install(self, rules: Iterable[Rule]) -> None:
        """Adds a stop handler with these rules after the caller's others. EAGAIN if the user has 64."""
        user, pid, kept = self.user, word("pid", self.pid), [of_kind("rules", Rule, rule) for rule in rules]
        user.host._alone(user.host._calls.install, user.uid, pid, kept)

    # fmt: off
    @overload
    def handle(self, *, block: Literal[True], timeout: float | None = None) -> Waited | Handled: ...
    @overload
    def handle(self, *, block: bool = False, timeout: float | None = None) -> None | Waited | Handled: ...
    # fmt: on

    def handle(self, *, block: bool = False, timeout: float | None = None) -> None | Waited | Handled:
        """Waits for any child, and gives a trace stop to the caller's handlers; None for nothing. ECHILD as wait4.

        `block` and `timeout` are as for `wait4`.
        """
        check_timeout(block, timeout)
        host, uid, pid = self.user.host, self.user.uid, word("pid", self.pid)
        if block:
            return host._news(None, timeout, f"handle of {self.pid}", host._calls.handle, uid, pid)
        return host._alone(host._calls.handle, uid, pid)

    def handle_with(
        self, decide: Callable[[Handled], Verdict], *, block: bool = False, timeout: float | None = None
    ) -> None | Waited | Handled:
        """As `handle`. If the caller's rules leave or decline the stop, a function decides.

        The function gets the stop, and may make calls itself. It returns a `Decision`, or a pair of Decision.CONTINUE
        or Decision.DETACH and the signal to pass on. Then the request is made, a step of its own: another thread's step
        may come before it, and it may raise what `ptrace` raises. The reply has that decision, and None for its handler.
        """
        handled = self.handle(block=True, timeout=timeout) if block else self.handle(timeout=timeout)
        if not isinstance(handled, Handled) or handled.decision not in (Decision.LEAVE, Decision.DECLINE):
            return handled
        decision, passed = verdict(decide(handled))
        request = REQUESTS.get(decision)
        if request is not None:
            self.ptrace(request, handled.pid, passed)
        passes = decision in (Decision.CONTINUE, Decision.DETACH)
        return handled._replace(handler=None, decision=decision, pass_signal=passed if passes else None)


_CALLS = (Host._alone.__code__, Host._plain.__code__)
