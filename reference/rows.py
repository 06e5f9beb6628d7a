"""The rows of one user, and the view that they make."""

from typing import NamedTuple, TypeAlias

from . import names

Signals: TypeAlias = frozenset[int]
Names: TypeAlias = frozenset[str]
NONE: Signals = frozenset()
NO_NAMES: Names = frozenset()


class Run(NamedTuple):
    """The process runs."""


class TraceStop(NamedTuple):
    """A stop that goes to the tracer."""

    lwp: int
    signal: int
    collected: bool


class JobStop(NamedTuple):
    """A stop by job control, which goes to the parent."""

    signal: int
    collected: bool


class Zombie(NamedTuple):
    """The process has ended with this word."""

    word: int


State: TypeAlias = Run | TraceStop | JobStop | Zombie


class Process(NamedTuple):
    """A process.  Signals that are neither ignored nor caught have the default disposition."""

    number: int
    parent: int
    tracer: int | None = None
    state: State = Run()
    mask: Names = NO_NAMES
    ignored: Signals = NONE
    caught: Signals = NONE
    pending: Signals = NONE
    continued: bool = False

    @property
    def live(self) -> bool:
        return not isinstance(self.state, Zombie)


class User(NamedTuple):
    """The LWP is in user mode."""


class InCall(NamedTuple):
    """The LWP is in a system call; the code is an exit's status, or another call's number."""

    call: str
    code: int


class VforkWait(NamedTuple):
    """The LWP waits for the process that its vfork made."""

    child: int


Mode: TypeAlias = User | InCall | VforkWait


class Stop(NamedTuple):
    """What a trace stop reports."""

    signal: int
    flags: Names = NO_NAMES
    child: int = 0
    code: int = 0


class Lwp(NamedTuple):
    """An LWP, with the stop that is due at its next turn, and what its last stop reported."""

    number: int
    process: int
    mode: Mode = User()
    blocked: Signals = NONE
    pending: Signals = NONE
    suspended: bool = False
    stepping: bool = False
    due: Stop | None = None
    flags: Names = NO_NAMES
    child: int = 0
    code: int = 0


class Rule(NamedTuple):
    """A rule of a policy; without a signal it fits any."""

    signal: int | None
    flags: Names
    decision: str
    passed: int


class Handler(NamedTuple):
    """A stop handler of a debugger, in the order of installing."""

    process: int
    rules: tuple[Rule, ...]


class View(NamedTuple):
    """All that a user sees: processes by rising number, LWPs in order of birth, cursors, handlers, the setting."""

    user: int
    kills_tracees: bool
    next_process: int
    next_lwp: int
    processes: tuple[Process, ...] = ()
    lwps: tuple[Lwp, ...] = ()
    handlers: tuple[Handler, ...] = ()


def first_process(user: int) -> int:
    return names.FIRST_PROCESS + names.PROCESS_NUMBERS * (user - names.FIRST_USER)


def first_lwp(user: int) -> int:
    return names.FIRST_LWP + names.LWP_NUMBERS * (user - names.FIRST_USER)


def new_view(user: int, kills_tracees: bool) -> View:
    return View(user, kills_tracees, first_process(user), first_lwp(user))


def find_process(view: View, number: int | None) -> Process | None:
    for row in view.processes:
        if row.number == number:
            return row
    return None


def find_lwp(view: View, number: int) -> Lwp | None:
    for row in view.lwps:
        if row.number == number:
            return row
    return None


def the_process(view: View, number: int) -> Process:
    row = find_process(view, number)
    assert row is not None
    return row


def the_lwp(view: View, number: int) -> Lwp:
    row = find_lwp(view, number)
    assert row is not None
    return row


def lwps_of(view: View, process: int) -> list[Lwp]:
    return [row for row in view.lwps if row.process == process]


def put_process(view: View, new: Process) -> View:
    return view._replace(processes=tuple([new if row.number == new.number else row for row in view.processes]))


def put_lwp(view: View, new: Lwp) -> View:
    return view._replace(lwps=tuple([new if row.number == new.number else row for row in view.lwps]))


def next_free(used: set[int], cursor: int, first: int, size: int) -> tuple[int, int]:
    """The first unused number from the cursor, around the block, and the cursor after it."""
    around = [*range(cursor, first + size), *range(first, cursor)] if cursor in used else [cursor]
    number = next(number for number in around if number not in used)
    return number, number + 1 if number + 1 < first + size else first


def add_process(view: View, parent: int, lwp: Lwp) -> tuple[View, Process, Lwp]:
    """Adds a process in its first state, with this LWP under new numbers."""
    used = {row.number for row in view.processes}
    number, cursor = next_free(used, view.next_process, first_process(view.user), names.PROCESS_NUMBERS)
    row = Process(number, parent)
    rows = tuple(sorted([*view.processes, row], key=lambda process: process.number))
    view, lwp = add_lwp(view._replace(processes=rows, next_process=cursor), lwp._replace(process=number))
    return view, row, lwp


def add_lwp(view: View, lwp: Lwp) -> tuple[View, Lwp]:
    used = {row.number for row in view.lwps}
    number, cursor = next_free(used, view.next_lwp, first_lwp(view.user), names.LWP_NUMBERS)
    row = lwp._replace(number=number)
    return view._replace(lwps=(*view.lwps, row), next_lwp=cursor), row
