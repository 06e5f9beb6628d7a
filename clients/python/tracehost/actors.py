"""Processes whose calls are awaited, each a step of a search, and the host that answers them (`tracehost.explore`)."""

from __future__ import annotations

import enum
import json
import threading
from collections.abc import Callable, Generator, Iterable, Mapping, Sequence
from typing import TYPE_CHECKING, Any, Generic, Optional, TypeVar, Union

from . import host as hosts
from .checks import of_kind, whole
from .host import Host, User
from .library import RawRows, Session
from .names import Action, Request, StopFlag, WaitOption
from .recording import Recording
from .replies import NOTHING, Caught, Handled, New, Stopped, Turned, Waited
from .steps import Act, Block, Compute, Enter, Leave, Raise, Rule, check_act

if TYPE_CHECKING:
    from typing_extensions import ParamSpec

    _Arguments = ParamSpec("_Arguments")

_T = TypeVar("_T")
ZOMBIE = 3
_AFTER_THE_ACT = StopFlag.PL_FLAG_SCE | StopFlag.PL_FLAG_SCX


class Blocked(Exception):
    """The step can't be made at present."""


class Gone(Blocked):
    """Its process, or its LWP, has ended."""


class Look:
    """The time in which a function of the world, or one that looks at a state, may use a host and its copies."""

    def __init__(self) -> None:
        self.is_over = False


class Explored(Host):
    """The host in a state of a search: with the users that are searched."""

    def __init__(
        self,
        session: Session,
        users: Optional[frozenset[int]],
        recording: Optional[Recording] = None,
        explain: bool = False,
        look: Optional[Look] = None,
    ) -> None:
        """None for all users. A host that has a `look` from the beginning may make steps in it."""
        self.session = session
        self._users = users
        self._look = look
        self._is_copy = False
        self.is_open = look is not None
        """To steps, as it is to the world's; later only while a step is made."""
        self.seen: set[int] = set()
        """Whose rows were looked at in a copy, or here."""
        self._begin(session, recording, explain=explain)

    def searched(self) -> Explored:
        """This host once the world is made. The world's own takes no more calls."""
        host = Explored.__new__(Explored)
        host.__dict__.update(self.__dict__)
        host._look, host.is_open = None, False
        if self._look is not None:
            self._look.is_over = True
        return host

    def looked_at(self, function: Callable[[Explored], _T]) -> _T:
        """What the function says of this state. Raises ValueError if it makes a step, or looks at a user who isn't searched."""
        was_open, self.is_open = self.is_open, False
        look = self._look = Look()
        self.seen = set()
        try:
            return function(self)
        finally:
            look.is_over, self._look, self.is_open = True, None, was_open

    def copy(self) -> Explored:
        """A copy that may make steps, of the same users, while the function that has made it runs."""
        copy = Explored(self._alone(self.session.copy), self._users, explain=self._explains, look=self._look)
        copy._is_copy, copy.seen = True, self.seen
        return copy

    def _alone(self, function: Callable[_Arguments, _T], *arguments: _Arguments.args, **none: _Arguments.kwargs) -> _T:
        if function != self._close:
            if self._look.is_over if self._look is not None else not self.is_open:
                what = "copy is that of another look" if self._is_copy else "host is that of the world's beginning"
                raise TypeError(f"this {what}: a coroutine awaits calls of a tracehost.explore.Process")
            if not self.is_open and function not in (self._view, self.session.copy):
                raise ValueError("a function that looks at a state makes no step; host.copy() may")
        called: Any = function
        if self._is_copy and called != self._calls.line and getattr(called, "__self__", None) is self._calls:
            self._sees(arguments[0])
        return super()._alone(function, *arguments)

    def _call_and_see(self, quiet: object, call: Callable[..., Any], *arguments: Any) -> tuple[Any, int]:
        if self._is_copy:
            self._sees(arguments[0])
        return super()._call_and_see(quiet, call, *arguments)

    def _send(self, text: str) -> str:
        if self._is_copy:
            step = json.loads(text)
            self._sees(step.get("user") if isinstance(step, dict) else None)
        return super()._send(text)

    def step(self, step: Mapping[str, Any]) -> str:
        if self._is_copy:
            self._sees(step.get("user"))
        return super().step(step)

    def _rows(self, uid: int) -> RawRows:
        self._sees(uid)
        return super()._rows(uid)

    def _sees(self, uid: Any) -> None:
        if self._users is not None and uid not in self._users:
            raise ValueError(f"{uid} isn't a user of this search: together=True searches all users at once")
        self.seen.add(uid)


class Step(Generic[_T]):
    """A call that a coroutine awaits: others may make theirs before it."""

    __slots__ = ("uid", "pid", "asked", "make", "which", "others", "is_awaited")

    def __init__(
        self,
        uid: int,
        pid: int,
        asked: tuple[Any, ...],
        make: Callable[[Explored, int], _T],
        which: int = 0,
        others: Optional[Callable[[Explored], Sequence[int]]] = None,
    ) -> None:
        self.uid = uid
        self.pid = pid
        self.asked = asked
        """The name of the call, and its arguments."""
        self.make = make
        """Makes the call, a wait for the process that is given. Raises Blocked and Held if it isn't to be made now."""
        self.which = which
        self.others = others
        """Of a wait for any process, which of them it may be for."""
        self.is_awaited = False

    @property
    def is_call(self) -> bool:
        """Whether a process makes it; else it is a turn of an LWP."""
        return bool(self.asked[0] != "turn")

    def __del__(self) -> None:
        if not self.is_awaited:
            _forgotten.steps.append(str(self))

    def __str__(self) -> str:
        name, *words = self.asked
        if name == "turn":
            return f"turn({_word(words[-1])})"
        while name in ("ptrace", "wait4") and len(words) > 1 and words[-1] == 0:  # what is left out
            words.pop()
        return f"{name}({', '.join(map(_word, words))})"

    def __await__(self) -> Generator[Step[_T], Any, _T]:
        self.is_awaited = True
        answer: _T = yield self
        return answer


class _Forgotten(threading.local):
    """The calls of this thread that were dropped before they were awaited."""

    def __init__(self) -> None:
        self.steps: list[str] = []


_forgotten = _Forgotten()


def take_forgotten() -> list[str]:
    """Those since the last look."""
    steps, _forgotten.steps = _forgotten.steps, []
    return steps


def refuse_forgotten(who: str) -> None:
    """Raises TypeError if there are any: without its await a call does nothing."""
    steps = take_forgotten()
    if steps:
        raise TypeError(f"{who}: {steps[0]} isn't awaited, and so isn't made")


class Process:
    """A process, or one LWP of it, whose calls are awaited."""

    def __init__(self, user: User, new: New) -> None:
        """A process that was made for this user in the world's beginning, by `User.spawn`, a fork or THR_NEW."""
        self.uid, self.pid, self.lwp = user.uid, new.pid, new.lwp

    @property
    def tid(self) -> int:
        """As `lwp`."""
        return self.lwp

    def __repr__(self) -> str:
        return f"Process({self.pid} of {self.uid}, LWP {self.lwp})"

    def wait4(self, which: int = -1, options: WaitOption = WaitOption(0)) -> Step[Waited]:
        """wait4(2). It waits for news, except with `WaitOption.WNOHANG`. With -1 any process that has news may be reported."""
        named, asked = whole("which", which), whole("options", options, WaitOption)
        polls = asked and asked & WaitOption.WNOHANG

        def make(host: Explored, chosen: int) -> Waited:
            waited = self._made(host, lambda process: process.wait4(chosen, options))
            if waited == NOTHING and (not polls or chosen != named):
                raise Blocked
            return waited

        return Step(self.uid, self.pid, ("wait4", named, options), make, named, self._children if named == -1 else None)

    def _children(self, host: Explored) -> Sequence[int]:
        """Tracees too."""
        return [row.pid for row in host._rows(self.uid)[0] if self.pid in (row.parent, row.tracer)]

    def handle(self, *, block: bool = True) -> Step[Union[None, Waited, Handled]]:
        """As `tracehost.Process.handle`; it waits for news, except without `block`. The lowest process that has some is taken."""

        def make(host: Explored, _: int) -> Union[None, Waited, Handled]:
            handled = self._made(host, lambda process: process.handle())
            if handled is None and block:
                raise Blocked
            return handled

        return Step(self.uid, self.pid, ("handle",), make)

    def ptrace(self, request: Request, target: int = 0, data: int = 0) -> Step[Any]:
        """ptrace(2)."""
        of_kind("request", Request, request)
        return self._call(("ptrace", request, target, data), lambda process: process.ptrace(request, target, data))

    def kill(self, which: int, signal: int) -> Step[None]:
        """kill(2)."""
        return self._call(("kill", which, signal), lambda process: process.kill(which, signal))

    def sigaction(self, signal: int, action: Action) -> Step[None]:
        """sigaction(2)."""
        of_kind("action", Action, action)
        return self._call(("sigaction", signal, action), lambda process: process.sigaction(signal, action))

    def list(self) -> Step[tuple[int, ...]]:
        """The user's processes."""
        return self._call(("list",), lambda process: process.list())

    def install(self, rules: Iterable[Rule]) -> Step[None]:
        """Adds a stop handler."""
        kept = tuple(rules)
        return self._call(("install", kept), lambda process: process.install(kept))

    def _call(self, asked: tuple[Any, ...], call: Callable[[hosts.Process], _T]) -> Step[_T]:
        return Step(self.uid, self.pid, asked, lambda host, _: self._made(host, call))

    def _made(self, host: Explored, call: Callable[[hosts.Process], _T]) -> _T:
        """The answer to a call of this process. Raises Gone if it has ended."""
        try:
            return call(host.user(self.uid).process(self.pid))
        except ProcessLookupError:
            if all(row.pid != self.pid or row.state == ZOMBIE for row in host._rows(self.uid)[0]):
                raise Gone from None
            raise

    def turn(self, act: Union[Act, Callable[[], Act]], when: Optional[Callable[[Host], bool]] = None) -> Step[Turned]:
        """A turn of the LWP, once it can go on, and once `when` says so of the host.

        An act that depends on shared memory is given as a function, which reads it at the turn.
        """
        if not callable(act):
            check_act(act)

        def make(host: Explored, _: int) -> Turned:
            if when is not None and not host.looked_at(when):
                raise Blocked if any(row.lwp == self.lwp for row in host._rows(self.uid)[1]) else Gone
            try:
                return host.user(self.uid).turn(self.lwp, act() if callable(act) else act)
            except ProcessLookupError:
                raise Gone from None

        said: tuple[Any, ...] = (_word(act),) if callable(act) else (type(act), act)
        return Step(self.uid, self.pid, ("turn", *said), make)

    async def act(self, act: Union[Act, Callable[[], Act]], caught: Optional[Callable[[int], object]] = None) -> Turned:
        """Turns until the act is made: stops and signals may come before it. `caught` is told of signals that are caught."""
        while True:
            turned = await self.turn(act)
            if isinstance(turned, Caught):
                if caught is not None:
                    caught(turned.signal)
            elif not isinstance(turned, Stopped) or turned.flags & _AFTER_THE_ACT:
                return turned


def _word(value: Any) -> str:
    """An argument in words."""
    if isinstance(value, (Compute, Raise, Block, Enter, Leave)):
        return f"{type(value).__name__}({', '.join(_word(field) for field in value if field is not None)})"
    if isinstance(value, enum.Enum):
        return str(value.name or value.value)
    if isinstance(value, (list, tuple)):
        return f"[{', '.join(map(_word, value))}]"
    return str(getattr(value, "__name__", value))
