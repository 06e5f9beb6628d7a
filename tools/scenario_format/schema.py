"""schema/scenario.schema.json: a JSON Schema of scenarios."""

from __future__ import annotations

import json
from collections.abc import Iterable
from typing import Any

from .tables import Data, Entry, Format

Object = dict[str, Any]
WIDTH = 130
CALLER = "The process that makes the call: a live process of the user that isn't stopped."


def laid_out(value: Any, indent: int = 0, before: int = 0) -> str:
    """JSON in lines of at most WIDTH characters; `before` is the text before the value on its line."""
    line = one_line(value)
    if not isinstance(value, dict | list) or before + len(line) <= WIDTH and indent > 0:
        return line
    space = " " * (indent + 2)
    if isinstance(value, list):
        items = [laid_out(item, indent + 2, indent + 3) for item in value]
        return "[\n" + ",\n".join(space + item for item in items) + "\n" + " " * indent + "]"
    members = [f"{json.dumps(name)}: " for name in value]
    items = [name + laid_out(item, indent + 2, indent + 3 + len(name)) for name, item in zip(members, value.values(), strict=True)]
    return "{\n" + ",\n".join(space + item for item in items) + "\n" + " " * indent + "}"


def one_line(value: Any) -> str:
    return json.dumps(value, ensure_ascii=False)


def reference(name: str, about: str = "", **more: Any) -> Object:
    found: Object = {"$ref": f"#/$defs/{name}"}
    if about:
        found["description"] = about
    return {**found, **more}


def whole(ends: tuple[int, int]) -> Object:
    return {"type": "integer", "minimum": ends[0], "maximum": ends[1]}


def choice(title: str, entries: Iterable[Entry]) -> Object:
    return {"title": title, "anyOf": [{"const": entry.name, "description": entry.about} for entry in entries]}


def array(title: str, about: str, items: Object, **more: Any) -> Object:
    return {"title": title, "description": about, "type": "array", "items": items, **more}


def case(key: str, names: list[str], then: Object) -> Object:
    """What holds if the key has one of the names."""
    test: Object = {"const": names[0]} if len(names) == 1 else {"enum": names}
    return {"if": {"properties": {key: test}, "required": [key]}, "then": then}


def keys(title: str, about: str, above: list[str], own: Object, needed: list[str]) -> Object:
    """An object with the keys of the levels above, its own keys, and no others."""
    return {
        "title": title,
        "description": about,
        "properties": {**dict.fromkeys(above, True), **own},
        "required": needed,
        "additionalProperties": False,
    }


def which(about: str) -> Object:
    return {"title": "Which", "description": about, **whole((-(2**63), 2**63 - 1))}


def op_keys(form: Format, op: Entry) -> Object:
    """The schema of each key of an op."""
    found: Object = {
        "caller": reference("word", CALLER),
        "which": which("A process, or -1 for any child." if op.name == "wait4" else "A process, or -1 for all others of the user."),
        "options": array("Options", "No wait blocks: WNOHANG changes nothing.", {"enum": [option.name for option in form.options]}),
        "signal": reference("word", "The signal, 0 for none." if op.name == "kill" else "The signal."),
        "action": {"title": "Action", "enum": [action.name for action in form.actions]},
        "rules": array("Rules", "The handler's policy.", reference("rule"), maxItems=form.limits["rules"]),
    }
    return {key.name: found[key.name] for key in op.keys}


def op_case(form: Format, op: Entry) -> Object:
    if op.name in ("ptrace", "turn"):
        return case("op", [op.name], reference(op.name))
    needed = [key.name for key in op.keys if key.is_needed]
    return case("op", [op.name], keys(op.name, op.about, ["user", "op"], op_keys(form, op), needed))


def step(form: Format) -> Object:
    return {
        "title": "Step",
        "description": "One step of one user.",
        "type": "object",
        "properties": {"user": reference("user"), "op": choice("Op", form.ops)},
        "required": ["user", "op"],
        "allOf": [op_case(form, op) for op in form.ops],
    }


def target(form: Format) -> Object:
    return reference("word", f"A process (up to {form.numbers['LAST_PROCESS']}) or an LWP (greater).")


def with_data(form: Format, requests: list[Entry], data: Data) -> Object:
    own = {"target": target(form), "data": reference("word", data.key, default=0)}
    title, about = data.title or requests[0].name, data.about or requests[0].about
    names = [request.name for request in requests]
    return case("request", names, keys(title, about, ["user", "op", "caller", "request"], own, ["target"]))


def request_cases(form: Format) -> list[Object]:
    above = ["user", "op", "caller", "request"]
    found = []
    for request in form.requests:
        if request.data is None:
            own: Object = {}
            if request.keys:
                mask = array("Mask", "The events, by name.", reference("event"))
                own = {"target": target(form), "mask": mask}
            found.append(case("request", [request.name], keys(request.name, request.about, above, own, list(own))))
    for kind, data in form.data.items():
        found.append(with_data(form, [request for request in form.requests if request.data == kind], data))
    return found


def ptrace(form: Format) -> Object:
    op = next(op for op in form.ops if op.name == "ptrace")
    return {
        "title": "ptrace",
        "description": op.about,
        "properties": {"caller": reference("word", CALLER), "request": choice("Request", form.requests)},
        "required": ["caller", "request"],
        "allOf": request_cases(form),
    }


def act_case(act: Entry) -> Object:
    if act.name == "enter":
        return case("act", [act.name], reference("enter"))
    own: Object = {
        "raise": {"signal": reference("word", "The signal; EINVAL if it isn't 1 to 31.")},
        "block": {"set": array("Set", "The signals; 9 and 17 can't be blocked.", reference("signal"))},
    }[act.name]
    return case("act", [act.name], keys(act.name, act.about, ["user", "op", "lwp", "act"], own, list(own)))


def turn(form: Format) -> Object:
    op = next(op for op in form.ops if op.name == "turn")
    plain = [act.name for act in form.acts if not act.keys]
    above = ["user", "op", "lwp", "act"]
    return {
        "title": "turn",
        "description": op.about,
        "properties": {"lwp": reference("word", "The LWP whose turn it is."), "act": choice("Act", form.acts)},
        "required": ["lwp", "act"],
        "allOf": [
            case("act", plain, keys(" or ".join(plain), "An act with no more keys.", above, {}, [])),
            *(act_case(act) for act in form.acts if act.keys),
        ],
    }


def call_case(form: Format, call: Entry) -> Object:
    code = (
        {"title": "Code", "description": "The exit code.", **whole(form.ranges["byte"])}
        if call.code == "byte"
        else reference("word", "The call's number.")
    )
    above = ["user", "op", "lwp", "act", "call"]
    return case("call", [call.name], keys(call.name, call.about, above, {"code": code}, ["code"]))


def enter(form: Format) -> Object:
    act = next(act for act in form.acts if act.name == "enter")
    plain = [call.name for call in form.calls if not call.keys]
    about = f"{', '.join(plain[:-1])} or {plain[-1]}."
    above = ["user", "op", "lwp", "act", "call"]
    return {
        "title": "enter",
        "description": act.about,
        "properties": {"call": choice("Call", form.calls)},
        "required": ["call"],
        "allOf": [
            *(call_case(form, call) for call in form.calls if call.keys),
            case("call", plain, keys("A call without a code", about, above, {}, [])),
        ],
    }


def rule(form: Format) -> Object:
    passing = [decision.name for decision in form.decisions if decision.keys]
    flags = {"description": "Fits a stop that has all these flags.", "type": "array", "items": reference("stopFlag")}
    about = f"For {' and '.join(passing)}: the signal that the process goes on with, 0 for none."
    return {
        "title": "Rule",
        "description": "It fits a stop with its signal that has all its flags; the first rule that fits decides.",
        "type": "object",
        "properties": {
            "signal": reference("signal", "Fits a stop with this signal; any, if it is missing."),
            "flags": flags,
            "decision": choice("Decision", form.decisions),
            "pass": {"description": about, **whole(form.ranges["pass"]), "default": 0},
        },
        "required": ["decision"],
        "additionalProperties": False,
        "if": {"required": ["pass"]},
        "then": {"properties": {"decision": {"enum": passing}}},
    }


def schema(form: Format) -> str:
    setting = {
        "title": "kern.kill_on_debugger_exit",
        "description": "Whether the end of a debugger kills the processes that it traces.",
        "enum": [1, 0],
        "default": 1,
    }
    steps = {
        "title": "Steps",
        "description": "They are made in this order.",
        "type": "array",
        "maxItems": form.limits["steps"],
        "items": reference("step"),
    }
    found = {
        "$schema": "https://json-schema.org/draft/2020-12/schema",
        "$comment": "Written by tools/format from format/scenario.toml.",
        "title": "A scenario of tracehost",
        "description": "Steps of users on a host with FreeBSD's process tracing interface; docs/FORMAT.md tells what each one answers.",
        "type": "object",
        "properties": {"kill_on_debugger_exit": setting, "steps": steps},
        "required": ["steps"],
        "additionalProperties": False,
        "$defs": {
            "user": {"title": "User", "description": "The user who makes the step.", **whole(form.ranges["user"])},
            "word": {"title": "Word", **whole(form.ranges["word"])},
            "signal": {"title": "Signal", **whole(form.ranges["signal"])},
            "event": choice("Event", form.events),
            "stopFlag": choice("Flag of a stop", form.stop_flags),
            "rule": rule(form),
            "step": step(form),
            "ptrace": ptrace(form),
            "turn": turn(form),
            "enter": enter(form),
        },
    }
    return laid_out(found) + "\n"
