"""Calls that sleep until another thread's step has brought news: no poll, and the same steps in every run."""

from __future__ import annotations

import os
import pathlib
import subprocess
import sys
import tempfile
import threading
import time
import unittest

sys.path.insert(0, str(pathlib.Path(__file__).resolve().parents[1]))
from tracehost import (
    Act, Call, Compute, Decision, Enter, Handled, Host, Leave, Raise, Request, Rule, SessionClosed, Signal, Stopped,
    User, Waited, WaitOption,
)  # fmt: skip

R = Request
STOPPED_BY_STOP = 17 * 256 + 0o177
RUNS = 100


def number_of(user: User) -> int:
    """The number of the user's next step."""
    return int(user.host.line(f'{{"user":{user.uid},"op":"list","caller":1000}}').split()[1])


class Threads(unittest.TestCase):
    def setUp(self) -> None:
        self.host = Host()
        self.addCleanup(self.host.close)
        self.user = self.host.user(1001)
        self.debugger = self.user.process(self.user.spawn())
        self.target = self.user.spawn()

    def in_a_thread(self, function: object) -> threading.Thread:
        thread = threading.Thread(target=function, daemon=True)  # type: ignore[arg-type]
        thread.start()
        self.addCleanup(thread.join)
        return thread

    def test_a_wait_sleeps_until_a_step_brings_a_status(self) -> None:
        self.debugger.ptrace(R.PT_ATTACH, self.target.pid)
        self.debugger.wait4()
        self.debugger.ptrace(R.PT_CONTINUE, self.target.pid)
        got: list[Waited] = []
        waiter = self.in_a_thread(lambda: got.append(self.debugger.wait4(block=True, timeout=60)))
        time.sleep(0.1)
        before = number_of(self.user)
        time.sleep(0.1)
        self.assertEqual(number_of(self.user), before + 1)  # no poll: the waiter has made no step in between
        self.host.user(1002).spawn()
        self.assertEqual(number_of(self.user), before + 2)  # nor does another user's step wake it
        self.user.turn(self.target.tid, Raise(Signal.SIGSTOP))
        self.user.turn(self.target.tid, Compute())
        waiter.join(60)
        self.assertEqual(got, [Waited(1001, STOPPED_BY_STOP)])

    def test_handlers(self) -> None:
        self.debugger.install([Rule(Decision.LEAVE)])
        self.debugger.ptrace(R.PT_ATTACH, self.target.pid)
        handled = self.debugger.handle(block=True, timeout=60)
        assert isinstance(handled, Handled)
        self.assertEqual((handled.pid, handled.decision), (1001, Decision.LEAVE))
        with self.assertRaises(TimeoutError):
            self.debugger.handle(block=True, timeout=0.05)

    def test_a_turn_sleeps_while_it_is_held(self) -> None:
        self.debugger.ptrace(R.PT_ATTACH, self.target.pid)
        done: list[object] = []
        turner = self.in_a_thread(lambda: done.append(self.user.turn(100001, Compute(), block=True, timeout=60)))
        self.debugger.wait4()
        self.assertEqual(done, [])
        self.debugger.ptrace(R.PT_CONTINUE, self.target.pid)
        turner.join(60)
        self.assertEqual(done, [None])

    def test_timeouts(self) -> None:
        start = time.monotonic()
        with self.assertRaises(ChildProcessError):
            self.debugger.wait4(block=True)
        self.debugger.ptrace(R.PT_ATTACH, self.target.pid)
        self.debugger.wait4()
        before = number_of(self.user)
        with self.assertRaisesRegex(TimeoutError, "wait4 of 1000"):
            self.debugger.wait4(block=True, timeout=0.1)
        self.assertGreaterEqual(time.monotonic() - start, 0.1)
        self.assertEqual(number_of(self.user), before + 2)  # one wait4
        with self.assertRaises(TimeoutError):
            self.debugger.wait4(block=True, timeout=0)
        self.assertEqual(self.debugger.wait4(-1, WaitOption.WNOHANG, block=True), Waited(0, 0))
        with self.assertRaises(ValueError):
            self.debugger.wait4(timeout=1)

    def test_closing_ends_a_sleep(self) -> None:
        self.debugger.ptrace(R.PT_ATTACH, self.target.pid)
        self.debugger.wait4()
        ended: list[BaseException] = []

        def wait() -> None:
            try:
                self.debugger.wait4(block=True)
            except SessionClosed as error:
                ended.append(error)

        waiter = self.in_a_thread(wait)
        time.sleep(0.05)
        self.host.close()
        waiter.join(60)
        self.assertEqual(len(ended), 1)


ALONE = """
import os, signal, sys, threading, time
from tracehost import *

host = Host()
user = host.user(1001)
debugger, target = user.process(user.spawn()), user.spawn()
debugger.ptrace(Request.PT_ATTACH, target.pid)
if sys.argv[1] == "knows":
    debugger.wait4()

def goes_on(*ignored):
    debugger.ptrace(Request.PT_CONTINUE, target.pid)
    user.turn(target.tid, Raise(Signal.SIGSTOP))
    user.turn(target.tid, Compute())

if sys.argv[2] == "handler":
    signal.signal(signal.SIGALRM, goes_on)
    signal.setitimer(signal.ITIMER_REAL, 0.2)
elif sys.argv[2] == "thread":
    threading.Timer(0.2, goes_on).start()
elif sys.argv[2] == "raw thread":
    import _thread
    _thread.start_new_thread(lambda: (time.sleep(0.2), goes_on()), ())
elif sys.argv[2] == "plugin":
    begun = threading.Event()
    of_plugin = {"__name__": "pytest_rerunfailures", "begun": begun, "time": time}
    exec("def run_server():\\n begun.set()\\n time.sleep(1000)", of_plugin)
    threading.Thread(target=of_plugin["run_server"], daemon=True).start()
    begun.wait()
try:
    if sys.argv[1] == "knows":
        print(describe(debugger.wait4(block=True)))
    else:
        user.turn(target.tid, Compute(), block=True)
except TimeoutError as error:
    print(error)
"""


class OnlyThread(unittest.TestCase):
    """A sleep that nothing can end raises at once."""

    def said(self, *words: str) -> str:
        environment = {**os.environ, "PYTHONPATH": str(pathlib.Path(__file__).resolve().parents[1])}
        command = [sys.executable, "-c", ALONE, *words]
        return subprocess.run(command, env=environment, stdout=subprocess.PIPE, text=True, timeout=300, check=True).stdout

    def test_nobody_can_wake_it(self) -> None:
        endless = "deadlock: it would sleep for ever, as there is no other thread"
        for nobody in ("nobody", "plugin"):
            said = self.said("knows", nobody)
            self.assertEqual(said, f"wait4 of 1000: {endless}; 1001 is stopped by SIGSTOP, which 1000 knows\n")
        said = self.said("", "nobody")
        self.assertEqual(said, f"turn of 100001: {endless}; 1001 is stopped by SIGSTOP, which 1000 does not know yet\n")

    def test_somebody_wakes_it(self) -> None:
        """Another thread, also one that `threading` doesn't know, or the handler of a signal."""
        for waker in ("thread", "raw thread", "handler"):
            self.assertEqual(self.said("knows", waker), "1001 stopped SIGSTOP\n", waker)


class Turns(unittest.TestCase):
    """`Host.run`."""

    def lines_of_a_session(self, room: str) -> str:
        """A debugger that forwards signals, and a world that doesn't know of it."""
        path = os.path.join(room, "lines")
        with Host(record=os.path.join(room, "scenario"), record_lines=path) as host:
            user = host.user(1001)
            debugger, target = user.process(user.spawn()), user.spawn()

            def debug() -> int:
                debugger.ptrace(R.PT_ATTACH, target.pid)
                stops = 0
                while True:
                    pid, status = debugger.wait4(block=True)
                    if not os.WIFSTOPPED(status):
                        return stops
                    stops += 1
                    debugger.ptrace(R.PT_TO_SCE, pid)

            def world() -> None:
                signal, call, end = Raise(Signal.SIGUSR1), Enter(Call.OTHER, 4), Enter(Call.EXIT, 3)
                acts: list[Act] = [Compute(), call, Leave(), signal, Compute(), end]
                for act in acts:
                    while isinstance(turned := user.turn(target.tid, act, block=True), Stopped) and not turned.flags:
                        pass
                user.turn(target.tid, Leave(), block=True)

            self.assertEqual(host.run(debug, world), [4, None])
        with open(path) as file:
            return file.read()

    def test_the_same_steps_in_every_run(self) -> None:
        with tempfile.TemporaryDirectory() as room:
            runs = {self.lines_of_a_session(room) for _ in range(RUNS)}
        self.assertEqual(len(runs), 1)
        self.assertIn("ended 768", runs.pop())

    def test_a_sleep_that_nothing_can_end(self) -> None:
        with Host() as host:
            user = host.user(1001)
            debugger, target = user.process(user.spawn()), user.spawn()
            debugger.ptrace(R.PT_ATTACH, target.pid)
            debugger.wait4()
            with self.assertRaisesRegex(TimeoutError, "no other function can go on"):
                host.run(lambda: debugger.wait4(block=True), lambda: user.turn(target.tid, Compute(), block=True))

    def test_exceptions(self) -> None:
        with Host() as host:
            user = host.user(1001)
            with self.assertRaises(ZeroDivisionError):
                host.run(user.spawn, lambda: 1 // 0)
            self.assertEqual(host.run(), [])
            with self.assertRaises(RuntimeError):
                host.run(lambda: host.run(user.spawn))


if __name__ == "__main__":
    unittest.main()
