"""Arguments that would mean something else, names that a field has, and pages that can't be made."""

from __future__ import annotations

import os
import pathlib
import re
import signal
import sys
from collections.abc import Callable, Iterator
from typing import Any

import pytest

sys.path.insert(0, str(pathlib.Path(__file__).resolve().parents[1]))
from tracehost import (
    Action,
    Block,
    Call,
    Caught,
    Decision,
    Ended,
    Enter,
    EventMask,
    Handled,
    Host,
    Leave,
    LwpEvent,
    LwpInfo,
    LwpRow,
    New,
    ProcessRow,
    Raise,
    Request,
    Rule,
    Signal,
    StopFlag,
    Stopped,
    Waited,
    describe,
    view,
)
from tracehost.viewing import NoPage


@pytest.fixture
def host() -> Iterator[Any]:
    with Host() as made:
        yield made


def test_signals_of_this_system_are_refused(host: Any) -> None:
    """signal.SIGUSR1 is 10 on Linux, which is FreeBSD's SIGBUS. The message has what to write, and nothing is sent."""
    user = host.user(1001)
    new = user.spawn()
    process = user.process(new)
    usr1: Any = signal.SIGUSR1
    kill = {"user": 1001, "op": "kill", "caller": 1000, "which": 1000, "signal": usr1}
    rules = {"user": 1001, "op": "install", "caller": 1000, "rules": [{"decision": "leave", "signal": usr1}]}
    calls: list[tuple[str, Callable[[], object]]] = [
        ("signal", lambda: process.kill(1000, usr1)),
        ("signal", lambda: process.sigaction(usr1, Action.CATCH)),
        ("data", lambda: process.ptrace(Request.PT_CONTINUE, 1000, usr1)),
        ("signal", lambda: user.turn(new.tid, Raise(usr1))),
        ("signals", lambda: user.turn(new.tid, Block([usr1]))),
        ("signal", lambda: process.install([Rule(Decision.LEAVE, usr1)])),
        ("pass_signal", lambda: process.install([Rule(Decision.CONTINUE, pass_signal=usr1)])),
        ("signal", lambda: host.step(kill)),
        ("signal", lambda: host.step(rules)),
        ("set", lambda: host.step({"user": 1001, "op": "turn", "lwp": 100000, "act": "block", "set": [usr1]})),
    ]
    for name, call in calls:
        with pytest.raises(TypeError, match=f"^{name}: .*a signal of this system; write Signal.SIGUSR1$"):
            call()
    if hasattr(signal, "SIGPWR"):
        with pytest.raises(TypeError, match="a signal of this system; FreeBSD has no SIGPWR$"):
            process.kill(1000, signal.SIGPWR)
    assert host.line('{"user":1001,"op":"list","caller":1000}') == "1001 2 pids 1000"


def test_bools_are_refused(host: Any) -> None:
    process = host.user(1001).process(host.user(1001).spawn())
    calls: list[tuple[str, Callable[[], object]]] = [
        ("which", lambda: process.kill(True, 0)),
        ("signal", lambda: process.kill(1000, True)),
        ("data", lambda: process.ptrace(Request.PT_FOLLOW_FORK, 1000, True)),
        ("options", lambda: process.wait4(-1, True)),
        ("code", lambda: host.user(1001).turn(100000, Enter(Call.EXIT, True))),
    ]
    for name, call in calls:
        with pytest.raises(TypeError, match=f"^{name}: expected a whole number, got True; write 1$"):
            call()
    with pytest.raises(TypeError, match="got False; write 0$"):
        process.kill(1000, False)


def test_each_name_of_a_field(host: Any) -> None:
    """Those of FreeBSD's structs, of docs/FORMAT.md and of the rows mean the same field."""
    user = host.user(1001)
    debugger, target = user.process(user.spawn()), user.spawn()
    assert target.tid == target.lwp == target.lwpid == 100001
    debugger.ptrace(Request.PT_ATTACH, target.pid)
    debugger.wait4()
    debugger.ptrace(Request.PT_SET_EVENT_MASK, target.pid, EventMask.PTRACE_FORK)
    debugger.ptrace(Request.PT_CONTINUE, target.pid)
    user.turn(target.tid, Block([Signal.SIGUSR1]))
    user.turn(target.tid, Raise(Signal.SIGUSR1))
    user.turn(target.tid, Enter(Call.FORK))
    stopped = user.turn(target.tid, Leave())
    assert stopped.tid == stopped.lwp == stopped.lwpid == stopped.pl_lwpid == 100001
    assert stopped.flags == stopped.pl_flags != 0
    debugger.wait4()
    info = debugger.ptrace(Request.PT_LWPINFO, target.pid)
    assert info.tid == info.lwp == info.lwpid == info.pl_lwpid == 100001
    assert info.event is info.pl_event and info.flags == info.pl_flags == stopped.flags
    assert info.mask == info.pl_sigmask == info.pending == info.pl_siglist == {Signal.SIGUSR1}
    assert info.child == info.pl_child_pid == 1002 and info.code == info.pl_syscall_code == 2
    debugger.install([Rule(Decision.LEAVE)])
    handled = debugger.handle()
    assert handled.tid == handled.lwp == handled.lwpid == handled.pl_lwpid == 100002
    assert handled.flags == handled.pl_flags != 0 and handled.child == handled.pl_child_pid == 0
    assert handled.code == handled.pl_syscall_code == 2
    row = user.view().lwps[1]
    assert row.lwp == row.tid == row.lwpid == 100001


def test_words_of_each_reply() -> None:
    """`describe`: statuses of <sys/wait.h> and signals by FreeBSD's names."""
    both = StopFlag.PL_FLAG_SCX | StopFlag.PL_FLAG_FORKED
    info = LwpInfo(100001, LwpEvent.PL_EVENT_SIGNAL, both, frozenset({Signal.SIGUSR1}), frozenset(), 1002, 2)
    handled = Handled(1001, 17 * 256 + 127, 100001, Signal.SIGSTOP, StopFlag(0), 0, 0, None, Decision.DECLINE, None)
    described = {
        Ended(3 * 256): "ended: exited 3",
        Ended(9): "ended: signaled SIGKILL",
        Caught(Signal.SIGCHLD): "caught SIGCHLD",
        Waited(1001, 77): "1001 signaled 77",
        info: "LwpInfo(pl_lwpid=100001, pl_event=PL_EVENT_SIGNAL, pl_flags=PL_FLAG_SCX+PL_FLAG_FORKED, pl_sigmask={SIGUSR1}, "
        "pl_siglist={}, pl_child_pid=1002, pl_syscall_code=2)",
        handled: "Handled(pid=1001, status=4479 (stopped SIGSTOP), tid=100001, signal=SIGSTOP, flags=no flags, child=0, "
        "code=0, handler=None, decision=DECLINE, pass_signal=None)",
        (1, 2): "(1, 2)",
        EventMask.PTRACE_SYSCALL: "PTRACE_SCE+PTRACE_SCX",
    }
    assert {value: describe(value) for value in described} == described
    continued = next(status for status in (0x13, 0xFFFF) if os.WIFCONTINUED(status))
    assert describe(Waited(1001, continued)) == "1001 continued"


def test_a_page_of_no_scenario(tmp_path: pathlib.Path) -> None:
    with pytest.raises(FileNotFoundError, match="nosuch.json"):
        view(tmp_path / "nosuch.json")
    broken = tmp_path / "broken.json"
    broken.write_text('{"steps":[{"user":1001,"op":"lst"}]}')
    with pytest.raises(NoPage, match='BadName at step 1\n.*"lst" is no op'):
        view(broken)
    whole = tmp_path / "whole.json"
    whole.write_text('{"steps":[]}')
    with pytest.raises(NoPage, match="none"):
        view(whole, tmp_path / "none" / "page.html")
    assert list(tmp_path.glob("*.html")) == []


def test_the_page_has_each_field() -> None:
    """docs/PYTHON.md: every field, every other name of it and every other property, and no others."""
    page = (pathlib.Path(__file__).resolve().parents[3] / "docs" / "PYTHON.md").read_text(encoding="utf-8")
    replies: list[Any] = [New, Waited, LwpInfo, Stopped, Handled, Caught, Ended, ProcessRow, LwpRow]
    for reply in replies:
        name = reply.__name__
        part = re.search(rf"^### {name}\n(.*?)(?=^#|\Z)", page, re.M | re.S) or re.search(rf"^(`{name}\(.*)$", page, re.M)
        assert part is not None, name
        fields = re.search(rf"^`{name}\((.*?)\)`", part[1], re.M)
        also = re.search(r"Also (.*)\.$", part[1], re.M)
        assert fields is not None, name
        names = [other for each in (also[1].split("; ") if also else []) for other in re.findall(r"`(\w+)`", each)[1:]]
        listed = [*fields[1].split(", "), *names, *re.findall(r"^- `(\w+)`", part[1], re.M)]
        others = [name for name, value in vars(reply).items() if isinstance(value, property)]
        assert sorted(listed) == sorted([*reply._fields, *others]), reply
