"""Steps and replies as values."""

from typing import NamedTuple, TypeAlias

from .rows import Names, Rule, Signals, Stop


class Spawn(NamedTuple):
    pass


class Ptrace(NamedTuple):
    caller: int
    request: str
    target: int
    data: int
    mask: Names


class Wait(NamedTuple):
    caller: int
    which: int
    options: Names


class Kill(NamedTuple):
    caller: int
    which: int
    signal: int


class Sigaction(NamedTuple):
    caller: int
    signal: int
    action: str


class List(NamedTuple):
    caller: int


class Install(NamedTuple):
    caller: int
    rules: tuple[Rule, ...]


class Handle(NamedTuple):
    caller: int


class Turn(NamedTuple):
    lwp: int
    act: str
    signal: int
    blocked: Signals
    call: str
    code: int


Called: TypeAlias = Ptrace | Wait | Kill | Sigaction | List | Install | Handle
Step: TypeAlias = Spawn | Called | Turn


# tools/format replies
class Ok(NamedTuple):
    pass


class New(NamedTuple):
    pid: int
    lwp: int


class Number(NamedTuple):
    number: int


class Status(NamedTuple):
    pid: int
    status: int


class Nothing(NamedTuple):
    pass


class Info(NamedTuple):
    lwp: int
    event: bool
    flags: Names
    mask: Signals
    pending: Signals
    child: int
    code: int


class Lwps(NamedTuple):
    lwps: tuple[int, ...]


class Pids(NamedTuple):
    pids: tuple[int, ...]


class Mask(NamedTuple):
    events: Names


class Handled(NamedTuple):
    pid: int
    status: int
    lwp: int
    signal: int
    flags: Names
    child: int
    code: int
    handler: int | None
    decision: str
    passed: int


class Stopped(NamedTuple):
    lwp: int
    signal: int
    flags: Names


class Caught(NamedTuple):
    signal: int


class Ended(NamedTuple):
    status: int


class Held(NamedTuple):
    pass


class Error(NamedTuple):
    error: str


Reply: TypeAlias = (
    Ok | New | Number | Status | Nothing | Info | Lwps | Pids | Mask | Handled | Stopped | Caught | Ended | Held | Error
)


# end


class Refusal(Exception):
    """A step that is refused: it changes nothing."""

    def __init__(self, reply: Error | Held) -> None:
        super().__init__(reply)
        self.reply = reply


def refuse_if(condition: bool, error: str) -> None:
    if condition:
        raise Refusal(Error(error))
