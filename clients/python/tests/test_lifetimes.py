"""Sessions that are dropped, inherited by fork(2), interrupted or closed.

TRACEHOST_LIBRARY names the library. TRACEHOST_TEST_SCALE multiplies how many sessions are
dropped and how often a process forks: 1 for a few seconds, 20 for 10,000 sessions and 1,000 forks.
"""

from __future__ import annotations

import copy
import gc
import inspect
import os
import pathlib
import pickle
import resource
import signal
import subprocess
import sys
import threading
import time
import weakref
from collections.abc import Callable, Iterator
from types import FrameType
from typing import Any, Literal

import pytest

sys.path.insert(0, str(pathlib.Path(__file__).resolve().parents[1]))
from tracehost import Host, New, Request, SessionBusy, SessionClosed
from tracehost.host import Process

SCALE = int(os.environ.get("TRACEHOST_TEST_SCALE", "1"))
Call = Callable[[], object]


@pytest.fixture(autouse=True)
def nothing_hangs() -> Iterator[None]:
    """A test that hangs is ended by SIGALRM."""
    signal.alarm(600 * max(1, SCALE))  # a loaded machine takes its time
    yield
    signal.alarm(0)


def programs() -> int:
    """How many children this process has, zombies too."""
    listed = pathlib.Path(f"/proc/self/task/{os.getpid()}/children").read_text()
    return len(listed.split())


def descriptors() -> int:
    return len(os.listdir("/proc/self/fd"))


def in_child(work: Callable[[], str]) -> str:
    """What the function returns in a forked child, which leaves without finalizers."""
    reader, writer = os.pipe()
    child = os.fork()
    if child == 0:
        try:
            text = work()
        except BaseException as error:
            text = f"{type(error).__name__}: {error}"
        os.write(writer, text.encode())
        os._exit(0)
    os.close(writer)
    with os.fdopen(reader, "rb") as stream:
        text = stream.read().decode()
    assert os.waitpid(child, 0)[1] == 0
    return text


# ---- dropped


def test_dropped_sessions_leave_nothing() -> None:
    """Neither programs, nor descriptors, nor sessions, with room for 64 descriptors at a time."""
    Host().user(1001).spawn()
    gc.collect()
    before = programs(), descriptors()
    soft, hard = resource.getrlimit(resource.RLIMIT_NOFILE)
    resource.setrlimit(resource.RLIMIT_NOFILE, (64, hard))
    gc.disable()  # it is not a collection that ends them
    try:
        for _ in range(500 * SCALE):
            host = Host()
            host.user(1001).spawn()
            session = weakref.ref(host._session)
            del host
            assert session() is None
    finally:
        gc.enable()
        resource.setrlimit(resource.RLIMIT_NOFILE, (soft, hard))
    assert (programs(), descriptors()) == before


def test_a_session_at_the_end_of_the_interpreter() -> None:
    """It is closed there, and no warning is printed."""
    code = "import tracehost; h = tracehost.Host(); h.user(1001).spawn()"
    done = subprocess.run(
        [sys.executable, "-W", "error", "-X", "dev", "-c", code],
        stderr=subprocess.PIPE, timeout=300, env={**os.environ, "PYTHONPATH": str(pathlib.Path(__file__).parents[1])},
    )  # fmt: skip
    assert (done.returncode, done.stderr) == (0, b"")


# ---- fork


def test_a_child_of_a_session() -> None:
    """It has a copy, which goes its own way."""
    with Host() as host:
        user = host.user(1001)
        user.spawn()
        assert in_child(lambda: str(user.spawn())) == str(New(1001, 100001))

        def close_twice() -> str:
            host.close()
            host.close()
            return "closed"

        assert in_child(close_twice) == "closed"
        assert user.spawn() == New(1001, 100001)


def test_a_child_that_leaves_the_with() -> None:
    """It runs all finalizers and ends, and the parent's session goes on."""
    for count in range(50 * SCALE):
        with Host() as host:
            host.user(1001).spawn()
            child = os.fork()
            if child == 0:
                try:
                    host.close()
                finally:
                    os._exit(0)
            assert os.waitpid(child, 0)[1] == 0
            assert host.user(1001).spawn() == New(1001, 100001)


def test_a_child_that_exits_inside_the_with() -> None:
    code = """
import os, sys, tracehost
with tracehost.Host() as host:
    host.user(1001).spawn()
    if os.fork() == 0:
        sys.exit(0)
    assert os.wait()[1] == 0
    print(host.user(1001).spawn())
"""
    done = subprocess.run(
        [sys.executable, "-W", "error", "-X", "dev", "-c", code],
        stdout=subprocess.PIPE, stderr=subprocess.PIPE, timeout=300,
        env={**os.environ, "PYTHONPATH": str(pathlib.Path(__file__).parents[1])},
    )  # fmt: skip
    assert (done.returncode, done.stdout, done.stderr) == (0, b"New(pid=1001, tid=100001)\n", b"")


def test_a_fork_while_another_thread_is_in_a_call() -> None:
    """The child isn't stopped by a lock of a thread that it doesn't have."""
    with Host() as host:
        user = host.user(1001)
        process = user.process(user.spawn())
        stop = threading.Event()

        def work() -> None:
            while not stop.is_set():
                process.list()

        thread = threading.Thread(target=work)
        thread.start()
        try:
            for _ in range(20 * SCALE):
                assert in_child(lambda: str(process.list())) == "(1000,)"
        finally:
            stop.set()
            thread.join()


# ---- calls inside of calls


class Slow:
    """A session that answers once a signal handler has run."""

    def __init__(self, host: Host) -> None:
        self._made: Any = host._session
        self.handled = False

    def exchange(self, line: str) -> str:
        signal.raise_signal(signal.SIGUSR1)
        assert self.handled
        answer: str = self._made.exchange(line)
        return answer

    def __getattr__(self, name: str) -> Any:
        return getattr(self._made, name)


def test_a_call_of_a_signal_handler_says_busy() -> None:
    """The call that it has interrupted goes on."""
    with Host() as host:
        host.user(1001).spawn()
        slow = Slow(host)
        host._calls._session = slow  # type: ignore[assignment]
        said: list[str] = []

        def handler(number: int, frame: object) -> None:
            slow.handled = True
            calls: list[Call] = [host.user(1001).spawn, host.user(1001).view, host.close, lambda: host.line("{}")]
            for call in calls:
                with pytest.raises(SessionBusy) as caught:
                    call()
                said.append(str(caught.value))

        old = signal.signal(signal.SIGUSR1, handler)
        try:
            assert host.line('{"user":1001,"op":"spawn"}') == "1001 2 new 1001 100001"
        finally:
            signal.signal(signal.SIGUSR1, old)
        assert said == ["the session is busy: this thread is in a call of it already"] * 4
        host._calls._session = slow._made
        assert host.user(1001).spawn() == New(1002, 100002)


def test_a_call_during_a_plain_call_says_busy() -> None:
    with Host() as host:
        debugger, target = two_processes(host)
        plain, said = host._calls.c_ptrace, []

        def interrupted(*words: Any) -> int:
            with pytest.raises(SessionBusy) as caught:
                debugger.wait4(target)
            said.append(str(caught.value))
            return plain(*words)

        host._calls.c_ptrace = interrupted
        debugger.ptrace(Request.PT_ATTACH, target)
        host._calls.c_ptrace = plain
        assert said == ["the session is busy: this thread is in a call of it already"]
        assert debugger.wait4(target).pid == target
        in_thread(lambda: debugger.ptrace(Request.PT_DETACH, target))


def in_thread(function: Callable[[], Any]) -> None:
    """Another thread gets the lock, which this one has given back."""
    thread = threading.Thread(target=function, daemon=True)
    thread.start()
    thread.join(60)
    assert not thread.is_alive()


def two_processes(host: Host) -> tuple[Process, int]:
    user = host.user(1001)
    return user.process(user.spawn()), user.spawn().pid


def test_numbers_that_are_kept_for_calls() -> None:
    """They are the right ones, and not without end."""
    with Host() as host:
        debugger, target = two_processes(host)
        for which in (*range(2000, 12000), 1000, target):
            with pytest.raises(ChildProcessError):
                debugger.wait4(which)
        debugger.ptrace(Request.PT_ATTACH, target)
        assert debugger.wait4(-1) == (target, 4479) and len(host._calls.c_numbers) < 5000


@pytest.mark.parametrize(("method", "call"), [(Host._alone, "list"), (Host._plain, "wait4")])
def test_an_interrupt_before_the_call_is_taken_away(method: Any, call: str) -> None:
    """As Python 3.9 may raise it: the next call isn't told that the session is busy."""
    body = inspect.getsource(method).splitlines()
    first = method.__code__.co_firstlineno
    last = next(number for number, line in enumerate(body) if "self._call_in = None" in line)

    def trace(frame: FrameType, event: str, argument: object) -> Any:
        if frame.f_code is not method.__code__:
            return None
        if event == "line" and frame.f_lineno == first + last:
            raise KeyboardInterrupt
        return trace

    with Host() as host:
        (process, pid), before = two_processes(host), sys.gettrace()
        process.ptrace(Request.PT_ATTACH, pid)
        sys.settrace(trace)
        try:
            with pytest.raises(KeyboardInterrupt):
                getattr(process, call)()
        finally:
            sys.settrace(before)
        assert host._call_in is not None
        assert host.user(1001).spawn() == New(1002, 100002)
        in_thread(process.list)


@pytest.mark.parametrize("copied", [copy.copy, copy.deepcopy, pickle.dumps])
def test_what_only_a_copy_of_a_session_may_do(copied: Call) -> None:
    with Host() as host:
        with pytest.raises(TypeError, match=r"Host\.copy\(\) makes a copy"):
            copied(host)  # type: ignore[call-arg]


# ---- what can't be encoded, and what is closed


def test_a_text_that_cannot_be_encoded() -> None:
    with Host() as host:
        for _ in range(2):
            with pytest.raises(UnicodeEncodeError):
                host.line("\ud800")
        assert host.line("\udc80") == "refused BadJson"
        assert host.user(1001).spawn() == New(1000, 100000)


def test_a_closed_session() -> None:
    host = Host()
    host.user(1001).spawn()
    host.close()
    calls: list[Call] = [host.user(1001).spawn, host.user(1001).view, lambda: host.line("{}")]
    for call in calls:
        with pytest.raises(SessionClosed, match="^the session is closed$"):
            call()
    with pytest.raises(SessionClosed):
        host.copy()


def test_a_close_wakes_a_sleeping_thread() -> None:
    with Host() as host:
        user = host.user(1001)
        process, child = user.process(user.spawn()), user.spawn()
        process.ptrace(Request.PT_ATTACH, child.pid)
        process.wait4()
        said: list[BaseException] = []

        def sleeper() -> None:
            try:
                process.wait4(block=True)
            except BaseException as error:
                said.append(error)

        thread = threading.Thread(target=sleeper)
        thread.start()
        while host._progress._sleepers == 0:
            time.sleep(0.01)
        host.close()
        thread.join(10)
        assert [type(error) for error in said] == [SessionClosed]
