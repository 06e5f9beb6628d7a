#!/usr/bin/env python3
"""Writes the steps of scenarios as replay.c reads them.

    python3 words.py FOLDER NAME.json ..

In FOLDER, with - in place of the slashes of its name, NAME.text has each step on a line of its own, NAME.calls the words of a
typed call for each step (except for a step whose numbers C's int can't hold, which stays as it is), and NAME.setting 1 or 0 for
kern.kill_on_debugger_exit.
"""

from __future__ import annotations

import json
import pathlib
import sys
from typing import Any

sys.path.insert(0, str(pathlib.Path(__file__).resolve().parents[2] / "python"))
from tracehost import Action, Call, Decision, EventMask, Request, StopFlag, WaitOption


def bits(flags: Any, names: list[str]) -> int:
    value = 0
    for name in names:
        value |= int(flags[name])
    return value


def place(kind: Any, value: str) -> int:
    """The place of a name in its enum, as C numbers it."""
    return [member.value for member in kind].index(value)


def ptrace(step: dict[str, Any]) -> list[Any]:
    request = Request[step["request"]]
    data = step.get("data", 0)
    if request == Request.PT_SET_EVENT_MASK:
        data = bits(EventMask, step["mask"])
    return [int(request), step.get("target", 0), data]


def act(step: dict[str, Any]) -> list[Any]:
    if step["act"] == "raise":
        return [step["signal"]]
    if step["act"] == "block":
        return [sum(1 << (n - 1) for n in set(step["set"]))]
    if step["act"] == "enter":
        return [place(Call, step["call"]), step.get("code", 0)]
    return []


def rules(step: dict[str, Any]) -> list[Any]:
    words = [len(step["rules"])]
    for rule in step["rules"]:
        flags = bits(StopFlag, rule.get("flags", []))
        words += [rule.get("signal", 0), flags, place(Decision, rule["decision"]), rule.get("pass", 0)]
    return words


def fits(step: dict[str, Any]) -> bool:
    """Whether C's int holds what the typed call takes."""
    if not -(1 << 31) <= step.get("which", 0) < 1 << 31:
        return False
    return step.get("request") != "PT_GETLWPLIST" or step.get("data", 0) < 1 << 31


def words(step: dict[str, Any]) -> str:
    if not fits(step):
        return json.dumps(step)
    op = step["op"]
    if op == "turn":
        return " ".join(map(str, [op, step["user"], step["lwp"], step["act"], *act(step)]))
    if op == "spawn":
        return f"spawn {step['user']}"
    more: dict[str, Any] = {
        "ptrace": ptrace,
        "wait4": lambda s: [s["which"], bits(WaitOption, s.get("options", []))],
        "kill": lambda s: [s["which"], s["signal"]],
        "sigaction": lambda s: [s["signal"], place(Action, s["action"])],
        "install": rules,
    }
    return " ".join(map(str, [op, step["user"], step["caller"], *more.get(op, lambda s: [])(step)]))


def main(folder: str, names: list[str]) -> None:
    for name in names:
        path = pathlib.Path(name)
        scenario = json.loads(path.read_text())
        to = pathlib.Path(folder) / name.replace("/", "-")
        steps = scenario["steps"]
        to.with_suffix(".text").write_text("".join(json.dumps(step) + "\n" for step in steps))
        to.with_suffix(".calls").write_text("".join(words(step) + "\n" for step in steps))
        to.with_suffix(".setting").write_text(str(scenario.get("kill_on_debugger_exit", 1)))


if __name__ == "__main__":
    main(sys.argv[1], sys.argv[2:])
