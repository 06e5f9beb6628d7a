"""Scenarios and steps out of texts, or the first fault."""

import json
import re
from collections.abc import Callable
from typing import NamedTuple, NoReturn, TypeAlias, TypeVar

from . import names
from .names import ACTIONS, ACTS, CALLS, DECISIONS, OPTIONS, REQUESTS, WITH_DATA
from .rows import NO_NAMES, NONE, Names, Rule, Signals
from .steps import Handle, Install, Kill, List, Ptrace, Sigaction, Spawn, Step, Turn, Wait

LONGEST_TEXT, MOST_STEPS, DEEPEST = 4194304, 100000, 127
WORD = range(4294967296)
SIGNALS = range(1, names.LAST_SIGNAL + 1)
MASKS = {name: frozenset({name}) for name in names.EVENTS} | {"PTRACE_SYSCALL": frozenset({names.ON_ENTRY, names.ON_EXIT})}

Json: TypeAlias = object
Item = TypeVar("Item")


class Fault(Exception):
    """Why a text is refused: the fault's name, and the step's number if it has one."""

    def __init__(self, name: str, step: int | None = None) -> None:
        super().__init__(name if step is None else f"{name} at step {step}")
        self.name = name


class NotWhole(NamedTuple):
    """A number that isn't a whole one of 64 bits with a sign."""

    text: str


class Scenario(NamedTuple):
    kills_tracees: bool
    steps: list[tuple[int, Step]]


def read_scenario(data: bytes) -> Scenario:
    if len(data) > LONGEST_TEXT:
        raise Fault("TooLong")
    scenario = parse(data)
    try:
        kills_tracees, steps = read_top(scenario)
    except Fault as fault:
        raise Fault(fault.name, 0) from None
    if len(steps) > MOST_STEPS:
        raise Fault("TooManySteps")
    made = []
    for number, item in enumerate(steps, 1):
        try:
            made.append(read_step(item))
        except Fault as fault:
            raise Fault(fault.name, number) from None
    return Scenario(kills_tracees, made)


def read_top(scenario: Json) -> tuple[bool, list[Json]]:
    keys = Keys(scenario)
    steps = keys.array("steps")
    kills = keys.number("kill_on_debugger_exit", None, 1)
    keys.nothing_else()
    if kills not in (0, 1):
        raise Fault("BadNumber")
    return kills == 1, steps


# ---- JSON


def parse(data: bytes) -> Json:
    """The value of a JSON text; the last value of a repeated key counts."""
    try:
        text = data.decode("utf-8")
        check(text)
        value: Json = json.loads(text, parse_int=whole, parse_float=other, parse_constant=no_json)
    except (ValueError, RecursionError):
        raise Fault("BadJson") from None
    return value


def check(text: str) -> None:
    """Refuses nesting that is too deep, and halves of surrogate pairs."""
    depth = 0
    for mark in re.findall(r'"(?:[^"\\]|\\.)*"|[\[\]{}]', text, re.DOTALL):
        if mark in "[{":
            depth += 1
        elif mark in "]}":
            depth -= 1
        elif "\\u" in mark:
            json.loads(mark).encode("utf-8")
        if depth > DEEPEST:
            raise ValueError("too deep")


def whole(text: str) -> int | NotWhole:
    if text == "-0" or len(text) > 20 or not -(2**63) <= int(text) < 2**63:
        return other(text)
    return int(text)


def other(text: str) -> NotWhole:
    if abs(float(text)) == float("inf"):
        raise ValueError("beyond the range of a double")
    return NotWhole(text)


def no_json(text: str) -> NoReturn:
    raise ValueError(text)


# ---- keys and their values


class Keys:
    """An object whose keys are read in their order, each with its kind and then its range."""

    def __init__(self, value: Json) -> None:
        if not isinstance(value, dict):
            raise Fault("BadShape")
        self.left = dict(value)

    def take(self, key: str) -> Json:
        if key not in self.left:
            raise Fault("BadShape")
        return self.left.pop(key)

    def number(self, key: str, allowed: range | None, default: int | None = None, fault: str = "BadNumber") -> int:
        if default is not None and key not in self.left:
            return default
        return ranged(self.take(key), allowed, fault)

    def name(self, key: str, known: tuple[str, ...]) -> str:
        return known_name(self.take(key), known)

    def array(self, key: str) -> list[Json]:
        value = self.take(key)
        if not isinstance(value, list):
            raise Fault("BadShape")
        return value

    def items(self, key: str, read: Callable[[Json], Item], optional: bool = False) -> frozenset[Item]:
        if optional and key not in self.left:
            return frozenset()
        return frozenset([read(item) for item in self.array(key)])

    def nothing_else(self) -> None:
        if self.left:
            raise Fault("BadShape")


def ranged(value: Json, allowed: range | None, fault: str = "BadNumber") -> int:
    if not isinstance(value, int) or isinstance(value, bool):
        raise Fault("BadShape")
    if allowed is not None and value not in allowed:
        raise Fault(fault)
    return value


def known_name(value: Json, known: tuple[str, ...]) -> str:
    if not isinstance(value, str):
        raise Fault("BadShape")
    if value not in known:
        raise Fault("BadName")
    return value


# ---- steps


def read_step(value: Json) -> tuple[int, Step]:
    keys = Keys(value)
    user = keys.number("user", range(names.FIRST_USER, names.LAST_USER + 1), fault="BadUser")
    step = OPS[keys.name("op", tuple(OPS))](keys)
    keys.nothing_else()
    return user, step


def caller_of(keys: Keys) -> int:
    return keys.number("caller", WORD)


def read_ptrace(keys: Keys) -> Step:
    caller, request = caller_of(keys), keys.name("request", REQUESTS)
    target = data = 0
    mask: Names = NO_NAMES
    if request != "PT_TRACE_ME":
        target = keys.number("target", WORD)
    if request == "PT_SET_EVENT_MASK":
        chosen = keys.items("mask", lambda item: known_name(item, tuple(MASKS)))
        mask = NO_NAMES.union(*[MASKS[name] for name in chosen])
    elif request in WITH_DATA:
        data = keys.number("data", WORD, 0)
    return Ptrace(caller, request, target, data, mask)


def read_wait(keys: Keys) -> Step:
    caller, which = caller_of(keys), keys.number("which", None)
    return Wait(caller, which, keys.items("options", lambda item: known_name(item, OPTIONS), True))


def read_kill(keys: Keys) -> Step:
    return Kill(caller_of(keys), keys.number("which", None), keys.number("signal", WORD))


def read_sigaction(keys: Keys) -> Step:
    caller, signal = caller_of(keys), keys.number("signal", WORD)
    return Sigaction(caller, signal, keys.name("action", ACTIONS))


def read_install(keys: Keys) -> Step:
    caller, rules = caller_of(keys), keys.array("rules")
    if len(rules) > names.MAX_RULES:
        raise Fault("TooManyRules")
    return Install(caller, tuple([read_rule(rule) for rule in rules]))


def read_rule(value: Json) -> Rule:
    keys = Keys(value)
    signal = keys.number("signal", SIGNALS, 0)
    flags = keys.items("flags", lambda item: known_name(item, names.FLAGS), True)
    decision = keys.name("decision", DECISIONS)
    passed = keys.number("pass", range(32), 0) if decision in ("continue", "detach") else 0
    keys.nothing_else()
    return Rule(signal or None, flags, decision, passed)


def read_turn(keys: Keys) -> Step:
    lwp, act = keys.number("lwp", WORD), keys.name("act", ACTS)
    signal, blocked, call, code = 0, NONE, "", 0
    match act:
        case "raise":
            signal = keys.number("signal", WORD)
        case "block":
            blocked = keys.items("set", lambda item: ranged(item, SIGNALS))
        case "enter":
            call = keys.name("call", CALLS)
            if call in ("exit", "other"):
                code = keys.number("code", range(256) if call == "exit" else WORD)
    return Turn(lwp, act, signal, blocked, call, code)


OPS: dict[str, Callable[[Keys], Step]] = {
    "spawn": lambda keys: Spawn(),
    "ptrace": read_ptrace,
    "wait4": read_wait,
    "kill": read_kill,
    "sigaction": read_sigaction,
    "list": lambda keys: List(caller_of(keys)),
    "install": read_install,
    "handle": lambda keys: Handle(caller_of(keys)),
    "turn": read_turn,
}
