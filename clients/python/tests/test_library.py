"""Which library `Host` takes, and what it has to do. TRACEHOST_LIBRARY names the library."""

from __future__ import annotations

import os
import pathlib
import re
import subprocess
import sys
import unittest
from ctypes import byref, c_size_t
from typing import Any
from unittest import mock

sys.path.insert(0, str(pathlib.Path(__file__).resolve().parents[1]))
from tracehost import (
    Block,
    Call,
    Decision,
    DueStop,
    Enter,
    EventMask,
    Host,
    Leave,
    LwpMode,
    LwpRow,
    New,
    ProcessRow,
    ProcessState,
    Raise,
    RefusedStep,
    Request,
    Rule,
    SessionClosed,
    Signal,
    StopFlag,
    View,
)
from tracehost.library import ANSWERED, CLwp, CProcess, CRule, Reply, Session, Words, find

NONE: frozenset[Signal] = frozenset()


PLAIN = """
import sys; sys.path.insert(0, sys.argv[1])
from tracehost import Host, Request
with Host() as host:
    user = host.user(1001)
    debugger, target = user.process(user.spawn()), user.spawn()
    debugger.ptrace(Request.PT_ATTACH, target.pid)
    print(*debugger.wait4(), debugger.ptrace(Request.PT_LWPINFO, target.pid).pl_lwpid)
print(*sys.modules)
"""


class Imports(unittest.TestCase):
    @unittest.skipIf(sys.version_info < (3, 10), "there typing makes the unions of types")
    def test_what_a_plain_session_imports(self) -> None:
        """Modules that take long, and that most tests need not, are imported with what needs them."""
        package = pathlib.Path(__file__).resolve().parents[1]
        command = [sys.executable, "-I", "-S", "-c", PLAIN, str(package)]
        environment = {**os.environ, "TRACEHOST_LIBRARY": find().path}
        done = subprocess.run(command, env=environment, capture_output=True, text=True, check=True)
        answered, modules = done.stdout.splitlines()
        self.assertEqual(answered, "1001 4479 100001")
        later = {"typing", "re", "json", "dataclasses", "difflib", "hashlib", "inspect", "pathlib", "subprocess"}
        if sys.version_info < (3, 13):  # later on threading imports it
            later.add("warnings")
        later |= {f"tracehost.{name}" for name in ("naming", "recording", "refusals", "rows", "viewing")}
        self.assertEqual(later & {*modules.split()}, set())


class Views(unittest.TestCase):
    """`User.view`: the rows as the rules of docs/internals/MACHINE.md make them."""

    def setUp(self) -> None:
        self.host = Host()
        self.addCleanup(self.host.close)
        self.user = self.host.user(1001)

    def test_no_rows(self) -> None:
        self.assertEqual(self.user.view(), View((), ()))
        for uid in (1000, 1065, -1, (1 << 32) + 1001):
            with self.assertRaises(ValueError):
                self.host.user(uid).view()

    def process(self, pid: int, **fields: Any) -> ProcessRow:
        """A new process, except for these fields."""
        row = ProcessRow(pid, 1, None, ProcessState.RUNS, None, None, False, None, False, EventMask.PTRACE_EXEC, NONE)
        return row._replace(**fields)

    def lwp(self, lwp: int, pid: int, **fields: Any) -> LwpRow:
        row = LwpRow(lwp, pid, LwpMode.RUNS, None, 0, None, False, False, NONE, NONE, None, StopFlag(0), 0, 0)
        return row._replace(**fields)

    def test_a_stop_and_signals(self) -> None:
        debugger, target = self.user.process(self.user.spawn()), self.user.spawn()
        self.host.user(1002).spawn()
        self.user.turn(target.tid, Block([Signal.SIGTERM]))
        debugger.ptrace(Request.PT_ATTACH, target.pid)
        debugger.kill(target.pid, Signal.SIGTERM)
        stopped = self.process(
            1001,
            tracer=1000,
            state=ProcessState.TRACE_STOP,
            stop_lwp=100001,
            stop_signal=Signal.SIGSTOP,
            pending=frozenset({Signal.SIGTERM}),
        )
        lwps = (self.lwp(100000, 1000), self.lwp(100001, 1001, blocked=frozenset({Signal.SIGTERM})))
        processes = self.user.view().processes
        self.assertEqual(processes[0].pid, 1000)
        self.assertEqual(processes[1]._replace(events=EventMask.PTRACE_EXEC), stopped)
        self.assertEqual(tuple(row._replace(flags=StopFlag(0)) for row in self.user.view().lwps), lwps)
        debugger.wait4()
        self.assertTrue(self.user.view().processes[1].reported)

    def test_calls_and_a_zombie(self) -> None:
        parent = self.user.spawn()
        self.user.turn(parent.tid, Enter(Call.VFORK))
        self.assertEqual((self.user.view().lwps[0].mode, self.user.view().lwps[0].call), (LwpMode.IN_CALL, Call.VFORK))
        child = self.user.turn(parent.tid, Leave())
        self.assertEqual(child, New(1001, 100001))
        first = self.user.view().lwps[0]
        self.assertEqual((first.mode, first.vfork_child), (LwpMode.WAITS_FOR_VFORK, 1001))
        self.user.turn(100001, Enter(Call.EXIT, 3))
        in_exit = self.user.view().lwps[1]
        self.assertEqual((in_exit.call, in_exit.argument), (Call.EXIT, 3))
        self.user.turn(100001, Leave())
        zombie = self.user.view().processes[1]
        self.assertEqual((zombie.parent, zombie.state, zombie.status), (1000, ProcessState.ZOMBIE, 3 * 256))

    def test_a_new_lwp(self) -> None:
        """The first stop of a traced process's new LWP is due at its first turn."""
        debugger, target = self.user.process(self.user.spawn()), self.user.spawn()
        debugger.ptrace(Request.PT_ATTACH, target.pid)
        debugger.wait4()
        debugger.ptrace(Request.PT_LWP_EVENTS, target.pid, 1)
        debugger.ptrace(Request.PT_CONTINUE, target.pid)
        self.user.turn(target.tid, Enter(Call.THR_NEW))
        self.user.turn(target.tid, Leave())
        self.assertEqual(self.user.view().lwps[2].due, DueStop.BORN)

    def test_many_rows(self) -> None:
        """More rows than any buffer that the client begins with, and as many numbers in a list."""
        for _ in range(250):
            self.user.spawn()
        view = self.user.view()
        self.assertEqual(view.processes[249].pid, 1249)
        self.assertEqual(view.lwps[249], self.lwp(100249, 1249))
        self.assertEqual(self.user.process(1000).list(), tuple(range(1000, 1250)))

    def test_of_a_closed_session(self) -> None:
        self.user.spawn()
        self.user.view()
        self.host.close()
        with self.assertRaises(SessionClosed):
            self.user.view()

    def test_refused_lines_and_the_numbers_of_steps(self) -> None:
        """A view is no step, and a refused line none either."""
        self.user.spawn()
        self.assertEqual(self.host.line('{"user":1001,"op":"fly"}'), "refused BadName")
        self.assertEqual(self.user.view(), View((self.process(1000, events=EventMask(0)),), (self.lwp(100000, 1000),)))
        self.assertEqual(self.host.step({"user": 1001, "op": "spawn"}), "1001 2 new 1001 100001")
        self.assertEqual([row.pid for row in self.user.view().processes], [1000, 1001])

    def test_the_setting(self) -> None:
        """kern.kill_on_debugger_exit is that of the session: with 0 the tracee of an ended debugger lives."""
        for kills, rows in ((True, 0), (False, 1)):
            with Host(kill_on_debugger_exit=kills) as host:
                user = host.user(1001)
                debugger, target = user.process(user.spawn()), user.spawn()
                debugger.ptrace(Request.PT_ATTACH, target.pid)
                user.turn(100000, Raise(Signal.SIGKILL))
                self.assertEqual(len(user.view().processes), rows)


class Libraries(unittest.TestCase):
    """Which library a `Host` takes."""

    def test_what_is_taken(self) -> None:
        """That of TRACEHOST_LIBRARY; TRACEHOST names only a program."""
        with mock.patch.dict(os.environ, {"TRACEHOST": "/nowhere/tracehost"}), Host() as host:
            self.assertEqual(host.user(1001).spawn(), New(1000, 100000))

    def test_what_is_not_there(self) -> None:
        with mock.patch.dict(os.environ, {"TRACEHOST_LIBRARY": "/nowhere/libtracehost.so"}):
            with self.assertRaisesRegex(OSError, "/nowhere/libtracehost.so"):
                Host()
        with mock.patch.dict(os.environ, {"TRACEHOST_LIBRARY": "libc.so.6"}):
            with self.assertRaisesRegex(OSError, "libc.so.6: no library of tracehost"):
                Host()


class Structs(unittest.TestCase):
    """The structs of include/tracehost.h."""

    def names(self, struct: str) -> list[str]:
        """The fields of a struct in the header, each a uint32_t, in their order."""
        header = pathlib.Path(__file__).resolve().parents[3] / "include/tracehost.h"
        body = header.read_text().split(f"typedef struct {struct} {{")[1].split("}")[0]
        declarations = re.sub(r"/\*.*?\*/", "", body, flags=re.DOTALL).split(";")
        fields = [part.strip().removeprefix("uint32_t ") for part in declarations if part.strip()]
        return [name.strip() for part in fields for name in part.split(",")]

    def test_fields(self) -> None:
        """`passed` is the header's `pass`, which is a keyword in Python."""
        structs: dict[str, type[Words]] = {"reply": Reply, "rule": CRule, "process": CProcess, "lwp": CLwp}
        for name, struct in structs.items():
            wanted = ["passed" if field == "pass" else field for field in self.names(f"tracehost_{name}")]
            self.assertEqual([field for field, *_ in struct._fields_], wanted)

    def test_a_reply(self) -> None:
        """A stop that goes to a handler, with all its fields: the last one of the struct is among them."""
        library = find()
        session, reply = Session(library), Reply()

        def make(step: str, *numbers: Any) -> None:
            self.assertEqual(library[step](session.handle, 1001, *numbers, byref(reply)), ANSWERED)

        make("spawn")
        make("spawn")
        make("ptrace", 1000, Request.PT_ATTACH.value, 1001, 0)
        make("install", 1000, (CRule * 2)(CRule(0, 5, 4, 0), CRule(0, 17, 2, 0)), c_size_t(2))
        make("handle", 1000)
        handled = {"kind": 9, "pid": 1001, "stop_pid": 1001, "lwp": 100001, "status": 17 * 256 + 127, "signal": 17}
        handled |= {"has_handler": 1, "decision": 2}
        self.assertEqual({name: getattr(reply, name) for name, *_ in Reply._fields_ if getattr(reply, name)}, handled)
        make("handle", 1000)
        self.assertEqual((reply.kind, reply.stop_pid), (4, 0))


class Mixed(unittest.TestCase):
    """Typed calls and steps as text, in one session."""

    def test_long_lists(self) -> None:
        """As many numbers as a user may have, which no room has that the client begins with."""
        with Host() as host:
            user = host.user(1001)
            self.assertEqual([user.spawn() for _ in range(250)][249], New(1249, 100249))
            self.assertEqual(user.process(1000).list(), tuple(range(1000, 1250)))
            line = host.step({"user": 1001, "op": "list", "caller": 1000})
            self.assertEqual(line, "1001 252 pids " + " ".join(map(str, range(1000, 1250))))

    def test_two_sessions(self) -> None:
        """Each `Host` has a session of its own; the end of one is not the other's."""
        with Host() as one, Host() as other:
            one.user(1001).spawn()
            self.assertEqual(other.user(1001).spawn(), New(1000, 100000))
            one.close()
            with self.assertRaises(SessionClosed):
                one.user(1001).spawn()
            self.assertEqual(other.user(1001).spawn(), New(1001, 100001))

    def test_handlers_and_blocked_signals(self) -> None:
        """What the typed call refuses is refused as its line is."""
        with Host() as host:
            user = host.user(1001)
            new = user.spawn()
            user.process(new).install([Rule(Decision.LEAVE)])
            self.assertIsNone(user.turn(new.tid, Block([1, 31])))
            for signals in ([0], [32]):
                with self.assertRaises(RefusedStep) as caught:
                    user.turn(new.tid, Block(signals))
                self.assertEqual(caught.exception.fault, "BadNumber")
            self.assertEqual(host.step({"user": 1001, "op": "spawn"}), "1001 4 new 1001 100001")

    def test_they_count_together(self) -> None:
        with Host() as host:
            user = host.user(1001)
            user.spawn()
            self.assertEqual(host.step({"user": 1001, "op": "spawn"}), "1001 2 new 1001 100001")
            user.process(1000).list()
            with self.assertRaises(RefusedStep):  # no step, and not counted
                user.process(1000).kill(1000, 1 << 32)
            self.assertEqual(host.line('{"user":1001,"op":"list","caller":1000}'), "1001 4 pids 1000 1001")


class Copies(unittest.TestCase):
    """`Host.copy`: the same rows, settings and numbers of steps; afterwards each goes its own way."""

    def setUp(self) -> None:
        self.host = Host(kill_on_debugger_exit=False)
        self.addCleanup(self.host.close)
        self.user = self.host.user(1001)
        self.debugger, self.target = self.user.process(self.user.spawn()), self.user.spawn()
        self.debugger.ptrace(Request.PT_ATTACH, self.target.pid)

    def test_a_copy_goes_its_own_way(self) -> None:
        with self.host.copy() as copy:
            user = copy.user(1001)
            self.assertEqual(user.view(), self.user.view())
            self.assertEqual(user.process(1000).wait4().pid, 1001)
            user.process(1000).ptrace(Request.PT_KILL, 1001)
            self.assertEqual(user.spawn(), New(1002, 100002))
            # the debugger of the first session still has its first wait
            self.assertEqual(self.debugger.wait4().word, 17 * 256 + 127)
            self.assertEqual(self.debugger.list(), (1000, 1001))
            self.assertEqual(user.process(1000).list(), (1000, 1001, 1002))

    def test_the_number_of_the_next_step(self) -> None:
        with self.host.copy() as copy:
            for host in (self.host, copy):
                self.assertEqual(host.step({"user": 1001, "op": "spawn"}), "1001 4 new 1002 100002")

    def test_the_setting(self) -> None:
        """kern.kill_on_debugger_exit is 0 in the copy too: the tracee of an ended debugger lives."""
        with self.host.copy() as copy:
            user = copy.user(1001)
            user.turn(100000, Raise(Signal.SIGKILL))
            self.assertEqual(user.process(user.spawn()).list(), (1001, 1002))

    def test_a_copy_outlives_the_first(self) -> None:
        copy = self.host.copy()
        self.host.close()
        with copy:
            self.assertEqual(copy.user(1001).process(1000).list(), (1000, 1001))
        with self.assertRaises(SessionClosed):
            self.host.copy()


if __name__ == "__main__":
    unittest.main()
