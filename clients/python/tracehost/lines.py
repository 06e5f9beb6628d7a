"""Steps and answers as lines of text (docs/FORMAT.md)."""

from __future__ import annotations

from collections.abc import Callable, Iterable, Sequence

from .errors import Held, RefusedStep, hides_from_pytest
from .names import EVENTS, OPTIONS, Action, Request, names_of
from .replies import Answered

TYPE_CHECKING = False
if TYPE_CHECKING:
    from typing import Any, Optional

    from .steps import Act, Rule

__tracebackhide__ = hides_from_pytest

# replies to steps that may have changed something; the others change nothing
# tools/format changes
_CHANGES = frozenset(("ok", "new", "status", "handled", "stopped", "caught", "ended"))
# end


def line_of(op: str, arguments: Sequence[Any]) -> str:
    """The line of a call, whose arguments are those of `TypedCalls`: names and numbers, with nothing to escape."""
    uid, *rest = arguments
    return f'{{"user":{uid},"op":"{op}"{_KEYS[op](*rest)}}}'


def user_changed(answer: str) -> Optional[int]:
    """The user for whom the step with this answer may have changed something; None for nobody."""
    words = answer.split(" ", 3)
    return int(words[0]) if len(words) > 2 and words[2] in _CHANGES else None


def reason_in(explained: str) -> str:
    """The reason in what `Session.explain` says of one line, without the line's number."""
    import re

    return re.sub(r"^\s*line \d+(?:: |, )", "", explained, flags=re.MULTILINE).strip()


def raise_answer(line: str, answer: str, reason: Callable[[str], str]) -> None:
    """Raises RefusedStep, Held and Answered if the line was answered so."""
    words = answer.split(" ")
    if words[0] == "refused":
        raise RefusedStep(words[1], reason(line), line)
    if words[2] == "held":
        raise Held
    if words[2] == "error":
        raise Answered(words[3])


def _ptrace(pid: int, request: Request, target: int, data: int) -> str:
    keys = f',"caller":{pid},"request":"{request.name}"'
    if request == Request.PT_TRACE_ME:
        return keys
    if request == Request.PT_SET_EVENT_MASK:
        return f'{keys},"target":{target},"mask":{names_of(data, EVENTS)}'
    return f'{keys},"target":{target},"data":{data}'


def _wait4(pid: int, which: int, options: int) -> str:
    return f',"caller":{pid},"which":{which}' + (f',"options":{names_of(options, OPTIONS)}' if options else "")


def _sigaction(pid: int, signal: int, action: Action) -> str:
    return f',"caller":{pid},"signal":{signal},"action":"{action.value}"'


def _install(pid: int, rules: Iterable[Rule]) -> str:
    return f',"caller":{pid},"rules":[{",".join(rule._object() for rule in rules)}]'


def _turn(lwp: int, act: Act) -> str:
    return f',"lwp":{lwp},{act._keys()}'


_KEYS: dict[str, Callable[..., str]] = {
    "spawn": lambda: "",
    "turn": _turn,
    "ptrace": _ptrace,
    "wait4": _wait4,
    "kill": lambda pid, which, signal: f',"caller":{pid},"which":{which},"signal":{signal}',
    "sigaction": _sigaction,
    "list": lambda pid: f',"caller":{pid}',
    "install": _install,
    "handle": lambda pid: f',"caller":{pid}',
}
