"""A step means the same with its keys in any order and its names and texts in any spelling, and what is only nearly one of
them is refused."""

from __future__ import annotations

import itertools
import json
from collections.abc import Iterable, Iterator
from pathlib import Path
from typing import Any

import pytest
from checking import answers, run

Members = list[tuple[str, Any]]

SPAWN = '{"user":1001,"op":"spawn"}'
RULE = {"signal": 5, "flags": ["PL_FLAG_SCE"], "decision": "continue", "pass": 1}

# steps that may be made again and again, and what they are answered: on a process that nobody traces, and on no LWP
STEPS: dict[str, tuple[dict[str, Any], str]] = {
    "wait4": ({"op": "wait4", "caller": 1000, "which": -1, "options": ["WUNTRACED"]}, "error ECHILD 10"),
    "kill": ({"op": "kill", "caller": 1000, "which": 1000, "signal": 0}, "ok"),
    "sigaction": ({"op": "sigaction", "caller": 1000, "signal": 10, "action": "ignore"}, "ok"),
    "install": ({"op": "install", "caller": 1001, "rules": [RULE]}, "error ESRCH 3"),
    "request": ({"op": "ptrace", "caller": 1000, "request": "PT_CONTINUE", "target": 1001, "data": 9}, "error ESRCH 3"),
    "mask": ({"op": "ptrace", "caller": 1000, "request": "PT_SET_EVENT_MASK", "target": 1001, "mask": []}, "error ESRCH 3"),
    "enter": ({"op": "turn", "lwp": 100001, "act": "enter", "call": "exit", "code": 7}, "error ESRCH 3"),
    "raise": ({"op": "turn", "lwp": 100001, "act": "raise", "signal": 10}, "error ESRCH 3"),
    "block": ({"op": "turn", "lwp": 100001, "act": "block", "set": [10, 12]}, "error ESRCH 3"),
}


def members_of(kind: str) -> Members:
    return [("user", 1001), *STEPS[kind][0].items()]


def escaped(name: str) -> str:
    """The name with its last letter as an escape."""
    return f'"{name[:-1]}\\u{ord(name[-1]):04x}"'


def spellings(members: Iterable[tuple[str, Any]]) -> Iterator[str]:
    """An object with these members: as programs write it, with spaces, and with an escape in each name."""
    pairs = [(name, json.dumps(value)) for name, value in members]
    yield "{" + ",".join(f"{json.dumps(name)}:{value}" for name, value in pairs) + "}"
    yield "{ " + " , ".join(f"{json.dumps(name)} :\t{value}" for name, value in pairs) + "\n}"
    yield "{" + ",".join(f"{escaped(name)}:{value}" for name, value in pairs) + "}"


def scenario(steps: Iterable[str]) -> str:
    return '{"steps":[' + ",".join([SPAWN, *steps]) + "]}"


def check_alike(program: Path, steps: list[str], kind: str) -> None:
    """All of these are read as this step, and answered as it is."""
    asked, reply = STEPS[kind]
    lines = [f"1001 {number} {reply}\n" for number in range(2, len(steps) + 2)]
    answers(program, out="".join(["1001 1 new 1000 100000\n", *lines]), given=scenario(steps))
    trace = run(program, "--json=trace", given=scenario(steps)).out.splitlines()
    assert [json.loads(line)["asked"] for line in trace[1:]] == [asked] * len(steps)


@pytest.mark.parametrize("kind", STEPS)
def test_keys_in_any_order(program: Path, kind: str) -> None:
    orders = itertools.permutations(members_of(kind))
    check_alike(program, [text for members in orders for text in spellings(members)], kind)


def test_keys_of_a_rule_in_any_order(program: Path) -> None:
    rules = [text for members in itertools.permutations(RULE.items()) for text in spellings(members)]
    steps = ['{"user":1001,"op":"install","caller":1001,"rules":[' + rule + "]}" for rule in rules]
    check_alike(program, steps, "install")


@pytest.mark.parametrize("kind", STEPS)
def test_names_that_are_nearly_keys(program: Path, kind: str) -> None:
    members = members_of(kind)
    for place, (name, value) in enumerate(members):
        for other in (name[:-1], name[1:], name + "s", name.upper(), " " + name, name + ":", name + "\0"):
            for text in spellings([*members[:place], (other, value), *members[place + 1 :]]):
                answers(program, status=1, err="tracehost: refused: BadShape at step 2\n", given=scenario([text]))


@pytest.mark.parametrize("kind", STEPS)
def test_keys_without_their_marks(program: Path, kind: str) -> None:
    """A quote, a colon, or both are missing, or there is one too many."""
    text = next(spellings(members_of(kind)))
    for name, _ in members_of(kind):
        usual = f'"{name}":'
        for other in (f'"{name}"', f'"{name}:', f'{name}":', f"{name}:", f'"{name}"::', f'""{name}":', f'"{name}"":', ""):
            broken = text.replace(usual, other, 1)
            answers(program, status=1, err="tracehost: refused: BadJson\n", given=scenario([broken]))


def texts_of(kind: str) -> list[str]:
    return [value for value in STEPS[kind][0].values() if isinstance(value, str)]


@pytest.mark.parametrize("kind", STEPS)
def test_texts_in_any_spelling(program: Path, kind: str) -> None:
    """Each letter of a text may be an escape, and spaces may follow the text."""
    usual = next(spellings(members_of(kind)))
    steps = [
        usual.replace(f'"{text}"', f'"{text[:at]}\\u{ord(text[at]):04x}{text[at + 1 :]}" ', 1)
        for text in texts_of(kind)
        for at in range(len(text))
    ]
    check_alike(program, steps, kind)


@pytest.mark.parametrize("kind", STEPS)
def test_texts_without_their_marks(program: Path, kind: str) -> None:
    """A quote is missing or there is one too many, a colon follows, or a byte stands in the text that may not."""
    usual = next(spellings(members_of(kind)))
    for text in texts_of(kind):
        for other in (f'"{text}', f'{text}"', text, f'"{text}":', f'"{text}":1', f'""{text}"', f'"{text}\n"', f'"{text}\\q"'):
            broken = usual.replace(f'"{text}"', other, 1)
            answers(program, status=1, err="tracehost: refused: BadJson\n", given=scenario([broken]))
