"""Recordings, refused steps and pages. TRACEHOST_LIBRARY names the library, TRACEHOST the program that replays."""

from __future__ import annotations

import json
import os
import pathlib
import subprocess
import sys
import tempfile
import unittest
import warnings
from collections.abc import Callable
from typing import Any
from unittest import mock

sys.path.insert(0, str(pathlib.Path(__file__).resolve().parents[1]))
from tracehost import (
    Call, Compute, Enter, Held, Host, Leave, Raise, RecordingFailed, RefusedStep, Request, SessionClosed, Signal, view,
)  # fmt: skip
from tracehost.library import Session


def named_program() -> str:
    return os.environ["TRACEHOST"]


class Recordings(unittest.TestCase):
    def setUp(self) -> None:
        room = tempfile.TemporaryDirectory()
        self.addCleanup(room.cleanup)
        self.room = pathlib.Path(room.name)
        self.scenario = self.room / "session.json"
        self.lines = self.room / "session.out"

    def replayed(self) -> str:
        """What the program prints for the recording, which also has to be what `--expect` wants."""
        printed = subprocess.run([named_program(), self.scenario], stdout=subprocess.PIPE, text=True, check=True).stdout
        subprocess.run([named_program(), self.scenario, "--expect", self.lines], check=True)
        return printed

    def steps(self) -> int:
        return len(json.loads(self.scenario.read_text())["steps"])

    def test_a_session_of_two_users(self) -> None:
        """Every answer is replayed, errors and held too; refused lines aren't steps."""
        lines: list[str] = []
        with Host(record=self.scenario, record_lines=self.lines) as host:
            one, two = host.user(1001), host.user(1002)
            debugger, target = one.process(one.spawn()), one.spawn()
            two.spawn()
            debugger.ptrace(Request.PT_ATTACH, target.pid)
            with self.assertRaises(Held):
                one.turn(target.tid, Compute())
            with self.assertRaises(ProcessLookupError):
                two.process(2000).ptrace(Request.PT_ATTACH, target.pid)
            with self.assertRaises(RefusedStep):
                host.user(1).spawn()
            host.line("refuse this")
            lines.append(host.line('  {"user": 1001, "op": "list", "caller": 1000}\r'))
            lines.append(host.step({"user": 1002, "op": "spawn"}))
        self.assertEqual(self.steps(), 8)
        self.assertEqual(self.replayed(), self.lines.read_text())
        self.assertEqual(self.lines.read_text().splitlines()[-2:], lines)
        self.assertEqual(lines, ["1001 5 pids 1000 1001", "1002 3 new 2001 104001"])

    def test_the_setting(self) -> None:
        """kern.kill_on_debugger_exit 0 is in the recording: the tracee of an ended debugger lives."""
        with Host(record=self.scenario, record_lines=self.lines, kill_on_debugger_exit=False) as host:
            user = host.user(1001)
            debugger, target = user.process(user.spawn()), user.spawn()
            debugger.ptrace(Request.PT_ATTACH, target.pid)
            user.turn(100000, Enter(Call.EXIT, 0))
            user.turn(100000, Leave())
            self.assertEqual(user.process(user.spawn()).list(), (1001, 1002))
        self.assertEqual(json.loads(self.scenario.read_text())["kill_on_debugger_exit"], 0)
        self.assertEqual(self.replayed().splitlines()[-1], "1001 7 pids 1001 1002")

    def test_trace_me_by_its_own_number(self) -> None:
        """PT_TRACE_ME ignores the target and the data, and so does the recording."""
        with Host(record=self.scenario, record_lines=self.lines) as host:
            user = host.user(1001)
            user.spawn()
            user.turn(100000, Enter(Call.FORK))
            user.turn(100000, Leave())
            user.process(1001).ptrace(Request.PT_TRACE_ME, 1001, 7)
        self.assertEqual(json.loads(self.scenario.read_text())["steps"][3].get("target"), None)
        self.assertEqual(self.replayed().splitlines()[3], "1001 4 ok")

    def test_a_scenario_after_each_step(self) -> None:
        with Host(record=self.scenario) as host:
            self.assertEqual(self.steps(), 0)
            for count in range(1, 4):
                host.user(1001).spawn()
                self.assertEqual(self.steps(), count)

    def test_no_memory(self) -> None:
        """A step answered ENOMEM has changed nothing: the recording leaves it out, and says so."""
        with Host(record=self.scenario) as host:
            recording = host._recording
            assert recording is not None
            with self.assertWarnsRegex(RuntimeWarning, "ENOMEM"):
                recording.add('{"user":1001,"op":"spawn"}', "1001 1 error ENOMEM 12")
            host.user(1001).spawn()
        printed = subprocess.run([named_program(), self.scenario], stdout=subprocess.PIPE, text=True, check=True).stdout
        self.assertEqual(printed, "1001 1 new 1000 100000\n")

    def test_no_memory_for_what_is_recorded(self) -> None:
        """The step was made, and the recording is that of the steps before."""
        with Host(record=self.scenario, record_lines=self.lines) as host:
            host.user(1001).spawn()
            with mock.patch.object(Session, "last_step", side_effect=MemoryError), self.assertRaises(RecordingFailed):
                host.user(1001).spawn()
            with self.assertRaises(SessionClosed):
                host.user(1001).spawn()
        self.assertEqual(self.replayed(), "1001 1 new 1000 100000\n")

    def test_more_bytes_than_a_scenario_may_have(self) -> None:
        step = "{" + " " * 50000 + '"user":1001,"op":"spawn"}'
        with Host(record=self.scenario, record_lines=self.lines) as host, warnings.catch_warnings(record=True) as seen:
            warnings.simplefilter("always")
            for _ in range(90):
                host.line(step)
        self.assertEqual([warning.category for warning in seen], [RuntimeWarning])
        self.assertEqual(self.steps(), len(self.replayed().splitlines()))
        self.assertEqual(self.steps(), 83)  # of 50026 bytes, a comma and a line feed, in 4194304

    def test_files_that_cannot_be_made(self) -> None:
        with self.assertRaises(FileNotFoundError):
            Host(record=self.room / "none" / "session.json")
        with self.assertRaises(FileNotFoundError):
            Host(record=self.scenario, record_lines=self.room / "none" / "session.out")
        with self.assertRaises(ValueError):
            Host(record_lines=self.lines)

    def test_a_page(self) -> None:
        with Host(record=self.scenario) as host:
            user = host.user(1001)
            debugger, target = user.process(user.spawn()), user.spawn()
            debugger.ptrace(Request.PT_ATTACH, target.pid)
        page = view(self.scenario, title="An attach")
        self.assertEqual(page, self.room / "session.html")
        text = page.read_text()
        self.assertIn("An attach", text)
        self.assertIn('{"reply":"ok"},{"processes":[{"pid":1001,"parent":1,"tracer":1000,', text)
        self.assertIn("PT_ATTACH", text)
        self.assertEqual(view(self.scenario, self.room / "other.html"), self.room / "other.html")
        self.assertTrue((self.room / "other.html").exists())


class RefusedSteps(unittest.TestCase):
    def test_the_line_and_the_reason(self) -> None:
        """The message has the fault, the explanation and the line, also for the second one."""
        step = {"user": 1001, "op": "lst", "caller": 1000}
        with Host() as host:
            for _ in range(2):
                with self.assertRaises(RefusedStep) as caught:
                    host.step(step)
                refused = caught.exception
                self.assertEqual(refused.fault, "BadName")
                self.assertEqual(json.loads(refused.line), step)
                self.assertRegex(refused.reason, r'^op: .*"lst".*"list"')
                self.assertTrue(str(refused).startswith(f"BadName: {refused.reason}\n"))
                self.assertIn(refused.line, str(refused))

    def test_the_reason_of_a_typed_call(self) -> None:
        """That of its line. No program is asked."""
        with mock.patch.dict(os.environ, {"TRACEHOST": "/nowhere/tracehost"}):
            with Host() as host, self.assertRaises(RefusedStep) as caught:
                host.user(1065).spawn()
        reason = "user: 1065 is out of range; expected a whole number from 1001 to 1064"
        self.assertEqual(str(caught.exception), f'BadUser: {reason}\n  sent: {{"user":1065,"op":"spawn"}}')

    def test_without_reasons(self) -> None:
        with Host(explain=False) as host, self.assertRaises(RefusedStep) as caught:
            host.user(1065).spawn()
        self.assertEqual((caught.exception.fault, caught.exception.reason), ("BadUser", ""))

    def test_a_step_raises_as_the_calls_do(self) -> None:
        with Host() as host:
            host.step({"user": 1001, "op": "spawn"})
            host.step({"user": 1001, "op": "spawn"})
            host.step({"user": 1001, "op": "ptrace", "caller": 1000, "request": "PT_ATTACH", "target": 1001})
            with self.assertRaises(Held):
                host.step({"user": 1001, "op": "turn", "lwp": 100001, "act": "compute"})
            with self.assertRaises(ProcessLookupError):
                host.step({"user": 1001, "op": "list", "caller": 7})


class Arguments(unittest.TestCase):
    """A wrong type is a TypeError that names the argument, and no step is sent."""

    def test_wrong_types(self) -> None:
        enter: Any = Enter
        post: Any = Raise
        with Host() as session:
            host: Any = session
            user = host.user(1001)
            new = user.spawn()
            process = user.process(new)
            calls: list[tuple[str, Callable[[], object]]] = [
                ("act", lambda: user.turn(new.tid, "compute")),
                ("lwp", lambda: user.turn(new, Compute())),
                ("request", lambda: process.ptrace(10, 1001)),
                ("target", lambda: process.ptrace(Request.PT_ATTACH, new)),
                ("data", lambda: process.ptrace(Request.PT_CONTINUE, 1001, "SIGTERM")),
                ("data", lambda: process.ptrace(Request.PT_SET_EVENT_MASK, 1001, "PTRACE_FORK")),
                ("signal", lambda: process.kill(1000, "SIGTERM")),
                ("which", lambda: process.kill("1000", Signal.SIGTERM)),
                ("which", lambda: process.wait4("any")),
                ("options", lambda: process.wait4(-1, "WNOHANG")),
                ("action", lambda: process.sigaction(Signal.SIGTERM, "catch")),
                ("rules", lambda: process.install(["leave"])),
                ("call", lambda: user.turn(new.tid, enter("fork"))),
                ("signal", lambda: user.turn(new.tid, post("SIGTERM"))),
                ("pid", lambda: user.process("1000")),
                ("uid", lambda: host.user("1001")),
                ("timeout", lambda: process.wait4(block=True, timeout="soon")),
            ]
            for name, call in calls:
                with self.assertRaisesRegex(TypeError, f"^{name}: ", msg=name):
                    call()
            with self.assertRaisesRegex(TypeError, "Signal.SIGTERM"):
                process.kill(1000, "SIGTERM")
            self.assertEqual(host.line('{"user":1001,"op":"list","caller":1000}'), "1001 2 pids 1000")

    def test_a_new_process_as_a_caller(self) -> None:
        with Host() as host:
            user = host.user(1001)
            self.assertEqual(user.process(user.spawn()).list(), (1000,))


if __name__ == "__main__":
    unittest.main()
