"""The ways to make a session of text: by the program and by the library. Each returns the lines of the answers."""

from __future__ import annotations

import json
from collections.abc import Callable
from ctypes import byref, c_size_t, create_string_buffer, string_at
from pathlib import Path
from typing import Any, NamedTuple

from checking import run
from sessions import Session
from tracehost import library
from tracehost.blocking import Progress
from tracehost.errors import Held
from tracehost.names import OPTIONS, STOP_FLAGS, Action, Call, Decision, EventMask, Request, StopFlag
from tracehost.replies import Answered
from tracehost.steps import Act, Block, Compute, Enter, Leave, Raise, Rule
from tracehost.typed import TypedCalls

Step = dict[str, Any]
MOST_BYTES = 1 << 16


class Tools(NamedTuple):
    """What a session is made with."""

    program: Path
    library: Path


def _printed(program: Path, *words: str, given: str) -> list[str]:
    ended = run(program, *words, given=given)
    assert (ended.status, ended.err) == (0, "")
    return ended.out.splitlines()


def _style(session: Session) -> tuple[str, ...]:
    return ("--json",) if session.is_json else ()


def by_scenario(tools: Tools, session: Session) -> list[str]:
    return _printed(tools.program, *_style(session), given=session.scenario())


def by_lines(tools: Tools, session: Session) -> list[str]:
    """Step by step, `--lines`."""
    words = ("--lines", "--kill-on-debugger-exit", str(int(session.kills)), *_style(session))
    return _printed(tools.program, *words, given="".join(json.dumps(line.step) + "\n" for line in session.lines))


def by_threads(tools: Tools, session: Session) -> list[str]:
    """A thread for each user. The lines are put back into the order of the steps."""
    lines = _printed(tools.program, "--threads", *_style(session), given=session.scenario())
    by_user = {user: iter(session.of(user).lines) for user in session.users}
    own = {user: [lines.pop(0) for _ in by_user[user]] for user in session.users}
    assert lines == []
    return [own[line.user].pop(0) for line in session.lines]


def by_user(tools: Tools, session: Session) -> list[str]:
    """Each user's lines, `--user`. A user without steps has none."""
    idle = next(user for user in range(1064, 1000, -1) if user not in session.users)
    assert _printed(tools.program, "--user", str(idle), *_style(session), given=session.scenario()) == []
    own = {user: _printed(tools.program, "--user", str(user), *_style(session), given=session.scenario()) for user in session.users}
    lines = [own[line.user].pop(0) for line in session.lines]
    assert not any(own.values())
    return lines


def opened(tools: Tools, kills: bool = True) -> library.Session:
    return library.Session(library.load(str(tools.library / "libtracehost.so")), kills)


def line_answer(host: library.Session, as_json: bool, step: str | None = None) -> str:
    """The answer to this line; without one the last answer."""
    room, length = create_string_buffer(MOST_BYTES), c_size_t()
    text = None if step is None else step.encode()
    given = () if text is None else (text, len(text))
    function = host.library["last_line" if text is None else "line"]
    host.check(function(host.handle, as_json, *given, room, len(room), byref(length)))
    return string_at(room, length.value).decode().removesuffix("\n")


def seen(host: library.Session, user: int) -> tuple[bytes, bytes]:
    """The rows that the user sees: processes and LWPs."""
    processes, lwps = host.rows(user)
    return bytes(processes), bytes(lwps)


def by_library(tools: Tools, session: Session) -> list[str]:
    """The lines of text of the library."""
    host, as_json = opened(tools, session.kills), session.is_json
    return [line_answer(host, as_json, json.dumps(line.step)) for line in session.lines]


def by_calls(tools: Tools, session: Session) -> list[str]:
    """The typed calls of the library, and the line of each answer."""
    host, as_json = opened(tools, session.kills), session.is_json
    calls = TypedCalls(host, Progress())
    lines = []
    for line in session.lines:
        call(calls, line.step)
        lines.append(line_answer(host, as_json))
    return lines


def by_last_steps(tools: Tools, session: Session) -> list[str]:
    """Typed calls, and the line of each one's step answered by a second session."""
    host, again, as_json = opened(tools, session.kills), opened(tools, session.kills), session.is_json
    calls = TypedCalls(host, Progress())
    lines = []
    for line in session.lines:
        call(calls, line.step)
        step = host.last_step()
        assert step is not None, line.words
        lines.append(line_answer(again, as_json, step))
    return lines


Way = Callable[[Tools, Session], list[str]]
WAYS: tuple[Way, ...] = (by_scenario, by_lines, by_threads, by_user, by_library, by_calls, by_last_steps)


def call(calls: TypedCalls, step: Step) -> None:
    """Makes the step by a call. Its answer is the library's last one."""
    try:
        _call(calls, step)
    except (Held, Answered):
        pass


def _call(calls: TypedCalls, step: Step) -> None:
    op, user = step["op"], step["user"]
    if op == "spawn":
        calls.spawn(user)
    elif op == "turn":
        calls.turn(user, step["lwp"], _act(step))
    elif op == "ptrace":
        request = Request[step["request"]]
        calls.ptrace(user, step["caller"], request, step.get("target", 0), _mask(step) if "mask" in step else step.get("data", 0))
    elif op == "wait4":
        calls.wait4(user, step["caller"], step["which"], sum(OPTIONS[name] for name in step.get("options", ())))
    elif op == "kill":
        calls.kill(user, step["caller"], step["which"], step["signal"])
    elif op == "sigaction":
        calls.sigaction(user, step["caller"], step["signal"], Action(step["action"]))
    elif op == "install":
        calls.install(user, step["caller"], [_rule(rule) for rule in step["rules"]])
    elif op == "list":
        calls.list(user, step["caller"])
    else:
        assert op == "handle"
        calls.handle(user, step["caller"])


def _act(step: Step) -> Act:
    act = step["act"]
    if act == "raise":
        return Raise(step["signal"])
    if act == "block":
        return Block(step["set"])
    if act == "enter":
        return Enter(Call(step["call"]), step.get("code"))
    return Compute() if act == "compute" else Leave()


def _mask(step: Step) -> int:
    mask = step["mask"]
    if isinstance(mask, int):
        return mask
    bits = EventMask(0)
    for name in mask:
        bits |= EventMask[name]
    return bits


def _rule(rule: Step) -> Rule:
    flags = StopFlag(0)
    for name in rule.get("flags", ()):
        flags |= STOP_FLAGS[name]
    return Rule(Decision(rule["decision"]), rule.get("signal"), flags, rule.get("pass"))
