"""What can come next at the prompt: ops, requests, names, and the numbers in sight."""

from __future__ import annotations

from collections.abc import Sequence

from .manual import topics
from .names import CALLER_OPS, OPTIONS, STOP_FLAGS, Action, Call, Decision, Request, Signal
from .step_words import ACTS, MASKS, OPS

_SIGNALS = list(Signal.__members__)
_FIRST_LWP = 100_000


def complete_words(before: Sequence[str], text: str, numbers: Sequence[int]) -> list[str]:
    """The words that begin with `text` and can follow these. The numbers are those of processes and LWPs in sight."""
    pids = [str(number) for number in numbers if number < _FIRST_LWP]
    lwps = [str(number) for number in numbers if number >= _FIRST_LWP]
    return sorted({word for word in _next(list(before), pids, lwps) if word.startswith(text)})


def _next(before: list[str], pids: list[str], lwps: list[str]) -> list[str]:
    if before and before[0].endswith(":"):
        before = before[1:]
    if not before:
        return list(OPS)
    if before[0] == "help":
        return topics()
    if before[0] == "turn":
        return _next_of_turn(before[1:], lwps)
    if before[0] not in CALLER_OPS:
        return []
    return pids if len(before) == 1 else _next_of_call([before[0], *before[2:]], pids, lwps)


def _next_of_turn(words: list[str], lwps: list[str]) -> list[str]:
    if len(words) < 2:
        return [list(lwps), list(ACTS)][len(words)]
    if words[1] == "enter" and len(words) == 2:
        return [call.value for call in Call]
    return _SIGNALS if words[1] == "block" or (words[1] == "raise" and len(words) == 2) else []


def _next_of_call(words: list[str], pids: list[str], lwps: list[str]) -> list[str]:
    op, count = words[0], len(words)
    if op == "ptrace":
        if count == 1:
            return list(Request.__members__)
        if count == 2:
            return [*pids, *lwps]
        return list(MASKS) if words[1] == "PT_SET_EVENT_MASK" else _SIGNALS
    if op == "wait4":
        return [*pids, "-1", *OPTIONS]
    if op == "kill":
        return [*pids, "-1"] if count == 1 else _SIGNALS
    if op == "sigaction":
        return _SIGNALS if count == 1 else [action.value for action in Action]
    if op == "install":
        return [*(decision.value for decision in Decision), *_SIGNALS, *STOP_FLAGS, "pass"]
    return []
