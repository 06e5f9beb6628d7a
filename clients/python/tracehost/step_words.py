"""A step in words: ``ptrace 1000 PT_ATTACH 1001`` is an op of docs/FORMAT.md with the values of its keys in their order.

``1002: spawn`` is a step of user 1002.
"""

from __future__ import annotations

import difflib
from collections.abc import Callable, Mapping, Sequence
from typing import Any

from .conditions import SIGNAL_REQUESTS
from .names import CALLER_OPS, EVENTS, OPTIONS, STOP_FLAGS, Action, Call, Decision, Request, Signal

Step = dict[str, Any]
OPS = ("spawn", *CALLER_OPS, "turn")
ACTS = ("compute", "raise", "block", "enter", "leave")
MASKS = (*EVENTS, "PTRACE_SYSCALL")
DECISIONS = tuple(decision.value for decision in Decision)


class Unclear(Exception):
    """The words aren't a step."""


def step_of(words: Sequence[str], uid: int, commands: Sequence[str] = ()) -> Step:
    """The step of this user, or of the one that the words begin with. Raises Unclear, which may name one of the commands."""
    if words and words[0].endswith(":") and words[0][:-1].isdecimal():
        uid, words = int(words[0][:-1]), words[1:]
    op, rest = (words[0], words[1:]) if words else ("", ())
    if op == "spawn" and not rest:
        return {"user": uid, "op": op}
    if op == "turn":
        _count(rest, 1, 99, "turn LWP ACT")
        return {"user": uid, "op": op, "lwp": _number(rest[0]), **_act(rest[1:])}
    if op not in CALLER_OPS:
        raise Unclear(_no_step(words, commands))
    _count(rest, 1, 999, f"{op} {_USAGES.get(op, 'CALLER')}")
    return {"user": uid, "op": op, "caller": _number(rest[0]), **_READERS.get(op, _nothing)(rest[1:])}


def _no_step(words: Sequence[str], commands: Sequence[str]) -> str:
    """Why these words aren't a step."""
    if len(words) > 1 and words[0].isdecimal() and words[1] in (*CALLER_OPS, *ACTS, *Request.__members__):
        kind = "turn" if words[1] in ACTS else "ptrace" if words[1] not in CALLER_OPS else words[1]
        rest = words[2:] if kind == words[1] else words[1:]
        return f"the op comes first: {' '.join((kind, words[0], *rest))}"
    near = _near(words[0] if words else "", (*OPS, *commands))
    return f"no step: {' '.join(words)}{near}"


def _act(words: Sequence[str]) -> Step:
    if not words or words[0] not in ACTS:
        said, near = (f"{words[0]}: ", _near(words[0], ACTS)) if words else ("", "")
        raise Unclear(f"{said}an LWP's turn has one of the acts {', '.join(ACTS)}{near}")
    act, rest = words[0], words[1:]
    if act == "raise":
        _count(rest, 1, 1, "raise SIGNAL")
        return {"act": act, "signal": _signal(rest[0])}
    if act == "block":
        return {"act": act, "set": [_signal(word) for word in rest]}
    if act == "enter":
        _count(rest, 1, 2, "enter CALL [CODE]")
        _one_of(rest[0], [call.value for call in Call], "calls")
        return {"act": act, "call": rest[0], **({"code": _number(rest[1])} if len(rest) > 1 else {})}
    _count(rest, 0, 0, act)
    return {"act": act}


def _ptrace(words: Sequence[str]) -> Step:
    _count(words, 1, 99, f"ptrace {_USAGES['ptrace']}")
    name, rest = words[0], words[1:]
    _one_of(name, list(Request.__members__), "requests")
    if name == "PT_TRACE_ME":
        _count(rest, 0, 0, name)
        return {"request": name}
    if name == "PT_SET_EVENT_MASK":
        _count(rest, 1, 99, f"{name} TARGET [EVENT ..]")
        return {"request": name, "target": _number(rest[0]), "mask": [_one_of(w, MASKS, "events") for w in rest[1:]]}
    _count(rest, 1, 2, f"{name} TARGET [DATA]")
    data = {"data": _signal(rest[1])} if len(rest) > 1 else {}
    return {"request": name, "target": _number(rest[0]), **data}


def _wait4(words: Sequence[str]) -> Step:
    which, names = (int(words[0]), words[1:]) if words and _is_number(words[0]) else (-1, words)
    options = [_one_of(word, list(OPTIONS), "options") for word in names]
    return {"which": which, **({"options": options} if options else {})}


def _kill(words: Sequence[str]) -> Step:
    _count(words, 2, 2, f"kill {_USAGES['kill']}")
    return {"which": _number(words[0]), "signal": _signal(words[1])}


def _sigaction(words: Sequence[str]) -> Step:
    _count(words, 2, 2, f"sigaction {_USAGES['sigaction']}")
    return {"signal": _signal(words[0]), "action": _one_of(words[1], [action.value for action in Action], "actions")}


def _nothing(words: Sequence[str]) -> Step:
    if words:
        raise Unclear(f"{words[0]}: this op has no further words")
    return {}


def _install(words: Sequence[str]) -> Step:
    """Rules, with a comma between two: ``SIGTRAP PL_FLAG_SCE continue, SIGUSR1 detach SIGUSR1``."""
    texts = " ".join(words).split(",")
    return {"rules": [_rule(text.split()) for text in texts if text.strip()]}


def _rule(words: Sequence[str]) -> Step:
    """A rule, [SIGNAL] [FLAG ..] DECISION [PASS]: the signal and the flags of the stops that it fits come first."""
    at = next((place for place, word in enumerate(words) if word in DECISIONS), None)
    if at is None:
        raise Unclear(f"{' '.join(words)}: a rule has one of the decisions {', '.join(DECISIONS)}{_near(words[-1], DECISIONS)}")
    signals = [_signal(word) for word in words[:at] if word not in STOP_FLAGS]
    flags = [word for word in words[:at] if word in STOP_FLAGS]
    if len(signals) > 1:
        raise Unclear("a rule fits one signal, or any")
    _count(words[at + 1 :], 0, 1, f"{words[at]} [PASS]")
    passed = {"pass": _signal(words[-1])} if len(words) > at + 1 else {}
    return {
        **({"signal": signals[0]} if signals else {}),
        **({"flags": flags} if flags else {}),
        "decision": words[at],
        **passed,
    }


# an op that is missing here has only its caller
_READERS = {
    "ptrace": _ptrace,
    "wait4": _wait4,
    "kill": _kill,
    "sigaction": _sigaction,
    "install": _install,
}
_USAGES = {
    "ptrace": "CALLER REQUEST [TARGET] [DATA]",
    "wait4": "CALLER [PROCESS] [OPTION ..]",
    "kill": "CALLER PROCESS SIGNAL",
    "sigaction": "CALLER SIGNAL ACTION",
    "install": "CALLER [[SIGNAL] [FLAG ..] DECISION [PASS], ..]",
}


def _count(words: Sequence[str], least: int, most: int, usage: str) -> None:
    if not least <= len(words) <= most:
        raise Unclear(usage)


def _is_number(word: str) -> bool:
    return word.removeprefix("-").isdecimal()


def _number(word: str) -> int:
    if not _is_number(word):
        raise Unclear(f"{word} is no number{_near(word, tuple(Signal.__members__))}")
    return int(word)


def _near(word: str, names: Sequence[str]) -> str:
    """The name that was likely meant, as the end of a sentence."""
    found = difflib.get_close_matches(word.lower(), [name.lower() for name in names], 1)
    return f"; did you mean {next(name for name in names if name.lower() == found[0])}?" if found else ""


def _signal(word: str) -> int:
    """A signal by name or number."""
    return int(Signal[word]) if word in Signal.__members__ else _number(word)


def _one_of(word: str, names: Sequence[str], kind: str) -> str:
    if word not in names:
        raise Unclear(f"{word}: none of the {kind} {', '.join(names)}{_near(word, names)}")
    return word


# ---- the words of a step


def words_of(step: Mapping[str, Any]) -> str:
    """The words that `step_of` reads as this step, without its user."""
    op = step["op"]
    if op == "turn":
        return " ".join([op, str(step["lwp"]), step["act"], *_WORDS_OF_ACTS.get(step["act"], _no_words)(step)])
    caller = [str(step["caller"])] if "caller" in step else []
    return " ".join([op, *caller, *_WORDS.get(op, _no_words)(step)])


def _name_of(signal: int) -> str:
    return Signal(signal).name if signal in Signal.__members__.values() else str(signal)


def _no_words(step: Mapping[str, Any]) -> list[str]:
    return []


def _words_of_ptrace(step: Mapping[str, Any]) -> list[str]:
    name = step["request"]
    if name == "PT_TRACE_ME":
        return [name]
    if name == "PT_SET_EVENT_MASK":
        return [name, str(step["target"]), *step["mask"]]
    data = step.get("data", 0)
    written = _name_of(data) if Request[name] in SIGNAL_REQUESTS else str(data)
    return [name, str(step["target"]), *([written] if data else [])]


def _words_of_wait4(step: Mapping[str, Any]) -> list[str]:
    which = [] if step["which"] == -1 else [str(step["which"])]
    return [*which, *step.get("options", ())]


def _words_of_rule(rule: Mapping[str, Any]) -> str:
    signal = [_name_of(rule["signal"])] if "signal" in rule else []
    passed = [_name_of(rule["pass"])] if rule.get("pass") else []
    return " ".join([*signal, *rule.get("flags", ()), rule["decision"], *passed])


# an op or an act that is missing here has no further words
_WORDS: dict[str, Callable[[Mapping[str, Any]], list[str]]] = {
    "ptrace": _words_of_ptrace,
    "wait4": _words_of_wait4,
    "kill": lambda step: [str(step["which"]), _name_of(step["signal"])],
    "sigaction": lambda step: [_name_of(step["signal"]), step["action"]],
    "install": lambda step: [", ".join(map(_words_of_rule, step["rules"]))],
}
_WORDS_OF_ACTS: dict[str, Callable[[Mapping[str, Any]], list[str]]] = {
    "raise": lambda step: [_name_of(step["signal"])],
    "block": lambda step: [_name_of(signal) for signal in step["set"]],
    "enter": lambda step: [step["call"], *([str(step["code"])] if "code" in step else [])],
}
