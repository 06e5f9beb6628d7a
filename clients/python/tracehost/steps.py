"""What is sent: the acts of an LWP at its turn, and the rules of a stop handler."""

from __future__ import annotations

import sys
from collections.abc import Iterable

from .checks import of_kind, whole, word
from .errors import hides_from_pytest
from .names import STOP_FLAGS, Call, Decision, StopFlag, names_of

TYPE_CHECKING = False
if TYPE_CHECKING:
    from typing import NamedTuple
else:
    from .plain_typing import NamedTuple

__tracebackhide__ = hides_from_pytest


class Compute(NamedTuple):
    """The LWP runs in user mode."""

    def _keys(self) -> str:
        return '"act":"compute"'


class Raise(NamedTuple):
    """A signal is posted to the LWP."""

    signal: int

    def _keys(self) -> str:
        return f'"act":"raise","signal":{word("signal", self.signal)}'


class Block(NamedTuple):
    """The LWP blocks these signals, and no others, as sigprocmask(2) with SIG_SETMASK."""

    signals: Iterable[int]

    def _keys(self) -> str:
        return f'"act":"block","set":{[whole("signals", signal) for signal in self.signals]}'


class Enter(NamedTuple):
    """The LWP enters a system call. `code` is the exit code of `Call.EXIT`, and the number of `Call.OTHER`."""

    call: Call
    code: int | None = None

    def _keys(self) -> str:
        code = "" if self.code is None else f',"code":{whole("code", self.code)}'
        return f'"act":"enter","call":"{of_kind("call", Call, self.call).value}"{code}'


class Leave(NamedTuple):
    """The system call that the LWP is in does its work, and is left."""

    def _keys(self) -> str:
        return '"act":"leave"'


if sys.version_info >= (3, 10):
    Act = Compute | Raise | Block | Enter | Leave
else:
    from typing import Union

    Act = Union[Compute, Raise, Block, Enter, Leave]


def check_act(act: Act) -> Act:
    """The act. Raises TypeError if it is none."""
    if not isinstance(act, (Compute, Raise, Block, Enter, Leave)):
        name = act.__name__ if isinstance(act, type) else str(act).capitalize()
        hint = f"; write {name}(..)" if name in ("Compute", "Raise", "Block", "Enter", "Leave") else ""
        raise TypeError(f"act: expected an act, such as Compute(), got {act!r}{hint}")
    return act


class Rule(NamedTuple):
    """A rule of a stop handler: it fits a stop with this signal (any, if it is None) that has all these flags."""

    decision: Decision
    signal: int | None = None
    flags: StopFlag = StopFlag(0)
    pass_signal: int | None = None
    """The signal that the process goes on with, only for `Decision.CONTINUE` and `Decision.DETACH`."""

    def _object(self) -> str:
        decision = of_kind("decision", Decision, self.decision).value
        signal = "" if self.signal is None else f',"signal":{whole("signal", self.signal)}'
        flags = f',"flags":{names_of(whole("flags", self.flags, StopFlag), STOP_FLAGS)}' if self.flags else ""
        passed = "" if self.pass_signal is None else f',"pass":{whole("pass_signal", self.pass_signal)}'
        return f'{{"decision":"{decision}"{signal}{flags}{passed}}}'
