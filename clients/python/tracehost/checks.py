"""The types of arguments: a wrong one is a TypeError that names the argument."""

from __future__ import annotations

import enum
import operator
from collections.abc import Mapping

from .errors import hides_from_pytest
from .names import Request, Signal
from .replies import New

TYPE_CHECKING = False
if TYPE_CHECKING:
    from typing import Any, TypeVar

    _Kind = TypeVar("_Kind")

__tracebackhide__ = hides_from_pytest


def whole(name: str, value: object, kind: type[enum.Enum] = Signal) -> int:
    """The value as a whole number. Neither a bool nor a signal of this system is one: its number may be another's. `kind` has
    the names that a text may mean.
    """
    if type(value) is int:
        return value
    if isinstance(value, bool) or _is_foreign(value):
        raise _wrong(name, value, kind)
    try:
        return int(operator.index(value))  # type: ignore[arg-type]  # the index of an IntEnum is one in Python 3.9
    except TypeError:
        raise _wrong(name, value, kind) from None


def word(name: str, value: object, kind: type[enum.Enum] = Signal) -> int:
    """A number of C's 32 bits, as the protocol has it: -1 is 4294967295."""
    if type(value) is int and value >= 0:
        return value
    number = whole(name, value, kind)
    return number + (1 << 32) if -(1 << 31) <= number < 0 else number


def number_of_process(name: str, value: object) -> int:
    """The number of a process, which may be given as what `User.spawn` returns."""
    return value.pid if isinstance(value, New) else whole(name, value)


def of_kind(name: str, kind: type[_Kind], value: Any) -> _Kind:
    """A value that has to be of this class."""
    if not isinstance(value, kind):
        foreign = f" of {type(value).__name__}" if isinstance(value, enum.Enum) else ""
        raise TypeError(f"{name}: expected {kind.__name__}, got {value!r}{foreign}{_hint_of_kind(kind, value)}")
    return value


def check_timeout(block: bool, timeout: float | None) -> None:
    """A timeout is a number of seconds, and only for calls that block."""
    if timeout is None:
        return
    if not block:
        raise ValueError("timeout: it goes with block=True")
    if not isinstance(timeout, (int, float)):
        raise TypeError(f"timeout: expected seconds, got {timeout!r}")


def without_foreign_signals(step: Mapping[str, Any]) -> Mapping[str, Any]:
    """A step for `Host.step`. JSON would have the number of a `signal.Signals`, which means another signal, and that of a
    `Request`, which a step names.
    """
    if not isinstance(step, Mapping):
        raise TypeError(f'step: expected a mapping, such as {{"user": 1001, "op": "spawn"}}, got {step!r}')
    for key, value in step.items():
        for item in value if isinstance(value, (list, tuple)) else (value,):
            if _is_foreign(item):
                raise _wrong(key, item, Signal)
            if isinstance(item, Request):
                raise TypeError(f'{key}: expected a name, got {item!r}; write "{item.name}"')
            if isinstance(item, Mapping):
                without_foreign_signals(item)
    return step


def _is_foreign(value: object) -> bool:
    """Whether it is one of `signal.Signals`. Most tests need not import that."""
    return type(value).__name__ == "Signals" and type(value).__module__ == "signal"


def _wrong(name: str, value: object, kind: type[enum.Enum]) -> TypeError:
    return TypeError(f"{name}: expected a whole number, got {value!r}{_hint(value, kind)}")


def _hint(value: Any, kind: type[enum.Enum]) -> str:
    """What to write in the place of a value that is no whole number."""
    if isinstance(value, New):
        return "; it has a pid and a tid"
    if isinstance(value, bool):
        return f"; write {int(value)}"
    if _is_foreign(value) and value.name not in Signal.__members__:
        return f", a signal of this system; FreeBSD has no {value.name}"
    if _is_foreign(value):
        return f", a signal of this system; write Signal.{value.name}"
    if isinstance(value, float) and value.is_integer():
        return f"; write {int(value)}"
    if isinstance(value, str):
        return f"; write {int(value)}" if value.strip("-").isdecimal() else _member(value, kind)
    return f" of {type(value).__name__}" if isinstance(value, enum.Enum) else ""


def _hint_of_kind(kind: type[Any], value: object) -> str:
    """What to write in the place of a value that isn't of this class."""
    if isinstance(value, type):
        return f"; write {value.__name__}()"
    if not issubclass(kind, enum.Enum):
        return f"; write {kind.__name__}(..)"
    return "" if isinstance(value, enum.Enum) else _member(value, kind)


_FEW = 8


def _member(value: object, kind: type[enum.Enum]) -> str:
    """The member of this value or name, or of one like it; of few members all of them."""
    import difflib

    for member in kind:
        if value == member.value or value == member.name:
            return f"; write {kind.__name__}.{member.name}"
    # the name, its last part, and the word of a scenario
    words = {text.lower(): m.name for m in kind for text in (str(m.value), m.name.rpartition("_")[2], m.name)}
    near = difflib.get_close_matches(value.lower(), words, 1) if isinstance(value, str) else []
    if near:
        return f"; did you mean {kind.__name__}.{words[near[0]]}?"
    return f"; {kind.__name__} has {', '.join(member.name for member in kind)}" if len(kind) <= _FEW else ""
