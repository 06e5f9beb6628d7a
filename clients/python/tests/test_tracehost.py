"""Each call and each kind of reply.

What is expected comes from the manual pages, named beside each test, and from the rules in docs/FORMAT.md.
"""

from __future__ import annotations

import enum
import errno
import os
import pathlib
import sys
import threading
import unittest
from collections.abc import Callable
from unittest import mock

sys.path.insert(0, str(pathlib.Path(__file__).resolve().parents[1]))
from tracehost import (
    Action,
    Block,
    Call,
    Caught,
    Compute,
    Decision,
    Ended,
    Enter,
    EventMask,
    Handled,
    Held,
    Host,
    Leave,
    LwpEvent,
    LwpInfo,
    New,
    Raise,
    RefusedStep,
    Request,
    Rule,
    SessionClosed,
    Signal,
    StopFlag,
    Stopped,
    User,
    Waited,
    WaitOption,
)
from tracehost.replies import Answered
from tracehost.typed import TypedCalls

R = Request


class Sessions(unittest.TestCase):
    """A user with a debugger (process 1000, LWP 100000) and a target (1001, 100001)."""

    def setUp(self) -> None:
        self.host = Host()
        self.addCleanup(self.host.close)
        self.user = self.host.user(1001)
        self.debugger = self.user.process(self.user.spawn().pid)
        self.target = self.user.spawn()

    def attach(self) -> None:
        self.debugger.ptrace(R.PT_ATTACH, self.target.pid)
        self.debugger.wait4()

    def attach_and_continue(self, mask: EventMask = EventMask.PTRACE_EXEC) -> None:
        self.attach()
        self.debugger.ptrace(R.PT_SET_EVENT_MASK, self.target.pid, mask)
        self.debugger.ptrace(R.PT_CONTINUE, self.target.pid)

    def enter_and_leave(self, lwp: int, call: Call, code: int | None = None) -> object:
        self.assertIsNone(self.user.turn(lwp, Enter(call, code)))
        return self.user.turn(lwp, Leave())

    def refused(self, number: int, call: object, *arguments: object) -> None:
        with self.assertRaises(OSError) as caught:
            call(*arguments)  # type: ignore[operator]
        self.assertEqual(caught.exception.errno, number)


class Numbers(unittest.TestCase):
    """The numbers of FreeBSD's headers. The protocol goes by names, so that no session would show a wrong one."""

    def test_sys_ptrace_h(self) -> None:
        requests = (
            "TRACE_ME 0 CONTINUE 7 KILL 8 STEP 9 ATTACH 10 DETACH 11 LWPINFO 13 GETNUMLWPS 14 GETLWPLIST 15 SUSPEND 18"
            " RESUME 19 TO_SCE 20 TO_SCX 21 SYSCALL 22 FOLLOW_FORK 23 LWP_EVENTS 24 GET_EVENT_MASK 25 SET_EVENT_MASK 26"
        )
        flags = "SCE 4 SCX 8 EXEC 16 FORKED 64 CHILD 128 BORN 256 EXITED 512 VFORKED 1024 VFORK_DONE 2048"
        events = "EXEC 1 SCE 2 SCX 4 SYSCALL 6 FORK 8 LWP 16 VFORK 32"
        tables: list[tuple[type[enum.IntEnum] | type[enum.IntFlag], str, str]] = [
            (Request, "PT_", requests),
            (StopFlag, "PL_FLAG_", flags),
            (EventMask, "PTRACE_", events),
        ]
        for kind, prefix, table in tables:
            words = table.split()
            wanted = {prefix + name: int(number) for name, number in zip(words[::2], words[1::2])}
            self.assertEqual({name: int(member) for name, member in kind.__members__.items()}, wanted)

    def test_sys_signal_h(self) -> None:
        names = (
            "HUP INT QUIT ILL TRAP ABRT EMT FPE KILL BUS SEGV SYS PIPE ALRM TERM URG STOP TSTP CONT CHLD TTIN TTOU IO XCPU"
            " XFSZ VTALRM PROF WINCH INFO USR1 USR2"
        )
        self.assertEqual([signal.name for signal in Signal], ["SIG" + name for name in names.split()])
        self.assertEqual([int(signal) for signal in Signal], list(range(1, 32)))

    def test_sys_wait_h(self) -> None:
        self.assertEqual([int(o) for o in (WaitOption.WNOHANG, WaitOption.WUNTRACED, WaitOption.WCONTINUED)], [1, 2, 4])


class WithoutADebugger(Sessions):
    def test_spawn_and_list(self) -> None:
        """Numbers count up in a user's own block; a user sees no process of another's (cr_seeotheruids(9))."""
        self.assertEqual(self.target, New(1001, 100001))
        other = self.host.user(1002)
        self.assertEqual(other.spawn(), New(2000, 104000))
        self.assertEqual(self.debugger.list(), (1000, 1001))
        self.assertEqual(other.process(2000).list(), (2000,))

    def test_kill(self) -> None:
        """kill(2): 0 only looks, -1 names all others, ESRCH and EINVAL."""
        self.debugger.kill(1001, 0)
        self.debugger.kill(-1, Signal.SIGTERM)
        self.assertEqual(self.user.turn(self.target.tid, Compute()), Ended(int(Signal.SIGTERM)))
        self.refused(errno.ESRCH, self.debugger.kill, 1001, Signal.SIGTERM)
        self.refused(errno.EINVAL, self.debugger.kill, 1000, 32)
        self.refused(errno.EINVAL, self.debugger.kill, 1000, -1)
        self.refused(errno.EINVAL, self.debugger.kill, 0, Signal.SIGTERM)

    def test_sigaction(self) -> None:
        """sigaction(2): a caught and an ignored signal, the default again; EINVAL for KILL and STOP."""
        target = self.user.process(self.target.pid)
        target.sigaction(Signal.SIGTERM, Action.CATCH)
        target.sigaction(Signal.SIGINT, Action.SIG_IGN)
        self.debugger.kill(1001, Signal.SIGTERM)
        self.debugger.kill(1001, Signal.SIGINT)
        self.assertEqual(self.user.turn(self.target.tid, Compute()), Caught(Signal.SIGTERM))
        self.assertIsNone(self.user.turn(self.target.tid, Compute()))
        target.sigaction(Signal.SIGTERM, Action.SIG_DFL)
        self.debugger.kill(1001, Signal.SIGTERM)
        self.assertEqual(self.user.turn(self.target.tid, Compute()), Ended(int(Signal.SIGTERM)))
        self.refused(errno.EINVAL, self.debugger.sigaction, Signal.SIGKILL, Action.SIG_IGN)
        self.refused(errno.EINVAL, self.debugger.sigaction, Signal.SIGSTOP, Action.CATCH)
        self.refused(errno.EINVAL, self.debugger.sigaction, 0, Action.SIG_DFL)

    def test_turns(self) -> None:
        """Acts that go with user mode or with a call, and EINVAL for those that don't."""
        lwp = self.target.tid
        self.refused(errno.EINVAL, self.user.turn, lwp, Leave())
        self.refused(errno.EINVAL, self.user.turn, lwp, Raise(32))
        self.refused(errno.ESRCH, self.user.turn, 100009, Compute())
        self.assertIsNone(self.user.turn(lwp, Block([Signal.SIGUSR1])))
        self.assertIsNone(self.user.turn(lwp, Raise(Signal.SIGUSR1)))
        self.assertIsNone(self.user.turn(lwp, Enter(Call.OTHER, 20)))
        self.refused(errno.EINVAL, self.user.turn, lwp, Compute())
        self.assertIsNone(self.user.turn(lwp, Leave()))
        self.assertEqual(self.enter_and_leave(lwp, Call.THR_NEW), New(1001, 100002))
        self.assertIsNone(self.enter_and_leave(100002, Call.THR_EXIT))
        self.assertIsNone(self.enter_and_leave(lwp, Call.EXEC))
        self.assertEqual(self.user.turn(lwp, Raise(Signal.SIGKILL)), Ended(int(Signal.SIGKILL)))

    def test_wait_of_a_child(self) -> None:
        """wait(2): stopped under WUNTRACED, continued under WCONTINUED, exited; os reads the status words."""
        child = self.enter_and_leave(self.target.tid, Call.FORK)
        self.assertEqual(child, New(1002, 100002))
        parent = self.user.process(self.target.pid)
        self.assertEqual(parent.wait4(), Waited(0, 0))
        parent.kill(1002, Signal.SIGSTOP)
        self.assertEqual(self.user.turn(100002, Compute()), Stopped(100002, Signal.SIGSTOP, StopFlag(0)))
        with self.assertRaises(Held):
            self.user.turn(100002, Compute())
        self.assertEqual(parent.wait4(1002, WaitOption.WNOHANG), Waited(0, 0))
        stopped = parent.wait4(1002, WaitOption.WUNTRACED | WaitOption.WCONTINUED)
        self.assertEqual((stopped.pid, stopped.word), (1002, 17 * 256 + 0o177))
        self.assertTrue(os.WIFSTOPPED(stopped.status))
        self.assertEqual(Signal(os.WSTOPSIG(stopped.status)), Signal.SIGSTOP)
        parent.kill(1002, Signal.SIGCONT)
        continued = parent.wait4(-1, WaitOption.WCONTINUED)
        self.assertEqual((continued.pid, continued.word), (1002, 0x13))
        self.assertTrue(os.WIFCONTINUED(continued.status))
        self.assertFalse(os.WIFSIGNALED(continued.status))
        self.assertEqual(self.enter_and_leave(100002, Call.EXIT, 7), Ended(7 * 256))
        exited = parent.wait4()
        self.assertEqual((exited.pid, os.WIFEXITED(exited.status), os.WEXITSTATUS(exited.status)), (1002, True, 7))
        with self.assertRaises(ChildProcessError):
            parent.wait4()
        self.refused(errno.EINVAL, parent.wait4, 0)

    def test_an_end_by_a_signal(self) -> None:
        self.assertEqual(self.enter_and_leave(self.target.tid, Call.VFORK), New(1002, 100002))
        parent = self.user.process(self.target.pid)
        parent.kill(1002, Signal.SIGSEGV)
        with self.assertRaises(Held):
            self.user.turn(self.target.tid, Compute())  # vfork(2): the parent waits for its child
        self.assertEqual(self.user.turn(100002, Compute()), Ended(int(Signal.SIGSEGV)))
        ended = parent.wait4()
        self.assertTrue(os.WIFSIGNALED(ended.status))
        self.assertEqual(os.WTERMSIG(ended.status), Signal.SIGSEGV)


class WithADebugger(Sessions):
    def test_attach_and_look(self) -> None:
        """ptrace(2): PT_ATTACH stops with SIGSTOP; the default mask has only PTRACE_EXEC."""
        self.assertIsNone(self.debugger.ptrace(R.PT_ATTACH, 1001))
        self.assertEqual(self.debugger.wait4(), Waited(1001, 17 * 256 + 0o177))
        self.assertEqual(
            self.debugger.ptrace(R.PT_LWPINFO, 1001),
            LwpInfo(100001, LwpEvent.PL_EVENT_SIGNAL, StopFlag(0), frozenset(), frozenset(), 0, 0),
        )
        self.assertEqual(self.debugger.ptrace(R.PT_GET_EVENT_MASK, 1001), EventMask.PTRACE_EXEC)
        self.assertEqual(self.debugger.ptrace(R.PT_GETNUMLWPS, 1001), 1)
        self.assertEqual(self.debugger.ptrace(R.PT_GETLWPLIST, 1001, 8), (100001,))
        self.refused(errno.EINVAL, self.debugger.ptrace, R.PT_GETLWPLIST, 1001, 0)

    def test_refusals(self) -> None:
        """ptrace(2), ERRORS."""
        with self.assertRaises(ProcessLookupError):
            self.debugger.ptrace(R.PT_ATTACH, 1005)
        self.refused(errno.EINVAL, self.debugger.ptrace, R.PT_ATTACH, 1000)
        with self.assertRaises(PermissionError):
            self.debugger.ptrace(R.PT_CONTINUE, 1001)
        with self.assertRaises(PermissionError):
            self.debugger.ptrace(R.PT_TRACE_ME)
        self.debugger.ptrace(R.PT_ATTACH, 1001)
        self.refused(errno.EBUSY, self.debugger.ptrace, R.PT_ATTACH, 1001)
        self.refused(errno.EBUSY, self.debugger.ptrace, R.PT_CONTINUE, 1001)
        self.debugger.wait4()
        self.refused(errno.EINVAL, self.debugger.ptrace, R.PT_CONTINUE, 1001, 32)
        self.refused(errno.EINVAL, self.debugger.ptrace, R.PT_CONTINUE, 1001, -1)
        self.refused(errno.EINVAL, self.debugger.ptrace, R.PT_SET_EVENT_MASK, 1001, 64)
        self.refused(errno.ESRCH, self.debugger.ptrace, R.PT_SET_EVENT_MASK, 1005, 64)
        with self.assertRaises(Held):
            self.user.process(1001).list()
        with self.assertRaises(ProcessLookupError):
            self.user.process(1005).list()
        with self.assertRaises(ProcessLookupError):
            self.host.user(1002).process(1000).list()

    def test_system_calls(self) -> None:
        """PT_SYSCALL, PT_TO_SCE and PT_TO_SCX; pl_syscall_code in the stops."""
        self.attach()
        self.assertIsNone(self.debugger.ptrace(R.PT_SYSCALL, 1001))
        stopped = self.user.turn(100001, Enter(Call.OTHER, 20))
        self.assertEqual(stopped, Stopped(100001, Signal.SIGTRAP, StopFlag.PL_FLAG_SCE))
        self.assertEqual(self.debugger.wait4().word, 5 * 256 + 0o177)
        info = self.debugger.ptrace(R.PT_LWPINFO, 1001)
        self.assertEqual((info.pl_flags, info.pl_syscall_code), (StopFlag.PL_FLAG_SCE, 20))
        self.debugger.ptrace(R.PT_TO_SCX, 1001)
        stopped = self.user.turn(100001, Leave())
        self.assertEqual(stopped, Stopped(100001, Signal.SIGTRAP, StopFlag.PL_FLAG_SCX))
        self.debugger.wait4()
        mask = self.debugger.ptrace(R.PT_GET_EVENT_MASK, 1001)
        self.assertEqual(mask, EventMask.PTRACE_EXEC | EventMask.PTRACE_SYSCALL)
        self.debugger.ptrace(R.PT_SET_EVENT_MASK, 1001, EventMask(0))
        self.assertEqual(self.debugger.ptrace(R.PT_GET_EVENT_MASK, 1001), EventMask(0))
        self.debugger.ptrace(R.PT_TO_SCE, 1001)
        self.user.turn(100001, Enter(Call.OTHER, 4))
        self.debugger.wait4()
        self.assertEqual(self.debugger.ptrace(R.PT_GET_EVENT_MASK, 1001), EventMask.PTRACE_SCE)

    def test_followed_fork(self) -> None:
        """PTRACE_FORK: the child stops with SIGSTOP, SCX and CHILD; the parent's stop has pl_child_pid."""
        self.attach()
        self.debugger.ptrace(R.PT_FOLLOW_FORK, 1001, 1)
        self.debugger.ptrace(R.PT_CONTINUE, 1001)
        stopped = self.enter_and_leave(100001, Call.FORK)
        flags = StopFlag.PL_FLAG_FORKED | StopFlag.PL_FLAG_SCX
        self.assertEqual(stopped, Stopped(100001, Signal.SIGTRAP, flags))
        self.assertEqual(self.debugger.wait4().pid, 1001)
        info = self.debugger.ptrace(R.PT_LWPINFO, 1001)
        self.assertEqual((info.pl_flags, info.pl_child_pid), (flags, 1002))
        self.assertEqual(self.debugger.wait4(), Waited(1002, 17 * 256 + 0o177))
        info = self.debugger.ptrace(R.PT_LWPINFO, 1002)
        self.assertEqual(info.pl_flags, StopFlag.PL_FLAG_CHILD | StopFlag.PL_FLAG_SCX)
        self.debugger.ptrace(R.PT_FOLLOW_FORK, 1001, 0)
        self.assertEqual(self.debugger.ptrace(R.PT_GET_EVENT_MASK, 1001), EventMask.PTRACE_EXEC)

    def test_followed_vfork(self) -> None:
        """PTRACE_VFORK: FORKED and VFORKED, and VFORK_DONE once the child has done an exec."""
        self.attach_and_continue(EventMask.PTRACE_FORK | EventMask.PTRACE_VFORK)
        stopped = self.enter_and_leave(100001, Call.VFORK)
        flags = StopFlag.PL_FLAG_FORKED | StopFlag.PL_FLAG_VFORKED | StopFlag.PL_FLAG_SCX
        self.assertEqual(stopped, Stopped(100001, Signal.SIGTRAP, flags))
        self.debugger.wait4(1001)
        self.debugger.wait4(1002)
        self.debugger.ptrace(R.PT_DETACH, 1002)
        self.debugger.ptrace(R.PT_CONTINUE, 1001)
        self.assertIsNone(self.enter_and_leave(100002, Call.EXEC))
        done = self.user.turn(100001, Compute())
        self.assertEqual(done, Stopped(100001, Signal.SIGTRAP, StopFlag.PL_FLAG_VFORK_DONE))

    def test_exec_of_a_traced_child(self) -> None:
        """PT_TRACE_ME: the child stops at its exec, with EXEC and SCX."""
        self.assertEqual(self.enter_and_leave(100000, Call.FORK), New(1002, 100002))
        self.user.process(1002).ptrace(R.PT_TRACE_ME)
        stopped = self.enter_and_leave(100002, Call.EXEC)
        self.assertEqual(stopped, Stopped(100002, Signal.SIGTRAP, StopFlag.PL_FLAG_EXEC | StopFlag.PL_FLAG_SCX))
        self.assertEqual(self.debugger.wait4(), Waited(1002, 5 * 256 + 0o177))

    def test_lwps(self) -> None:
        """PT_LWP_EVENTS, BORN and EXITED; PT_SUSPEND and PT_RESUME; PT_GETLWPLIST in order of birth."""
        self.attach()
        self.debugger.ptrace(R.PT_LWP_EVENTS, 1001, 1)
        self.debugger.ptrace(R.PT_CONTINUE, 1001)
        self.assertEqual(self.enter_and_leave(100001, Call.THR_NEW), New(1001, 100002))
        born = StopFlag.PL_FLAG_BORN | StopFlag.PL_FLAG_SCX
        self.assertEqual(self.user.turn(100002, Compute()), Stopped(100002, Signal.SIGTRAP, born))
        self.debugger.wait4()
        self.assertEqual(self.debugger.ptrace(R.PT_GETLWPLIST, 1001, 8), (100001, 100002))
        self.assertEqual(self.debugger.ptrace(R.PT_LWPINFO, 100001).pl_event, LwpEvent.PL_EVENT_NONE)
        self.debugger.ptrace(R.PT_SUSPEND, 100001)
        self.debugger.ptrace(R.PT_CONTINUE, 1001)
        with self.assertRaises(Held):
            self.user.turn(100001, Compute())
        exited = self.enter_and_leave(100002, Call.THR_EXIT)
        self.assertEqual(exited, Stopped(100002, Signal.SIGTRAP, StopFlag.PL_FLAG_EXITED))
        self.debugger.wait4()
        self.debugger.ptrace(R.PT_RESUME, 100001)
        self.debugger.ptrace(R.PT_LWP_EVENTS, 1001, 0)
        self.debugger.ptrace(R.PT_STEP, 100001)
        self.assertEqual(self.user.turn(100001, Compute()), Stopped(100001, Signal.SIGTRAP, StopFlag(0)))
        self.debugger.wait4()
        self.assertEqual(self.debugger.ptrace(R.PT_GETNUMLWPS, 1001), 1)

    def test_signals_of_a_tracee(self) -> None:
        """A tracee stops for a signal; PT_LWPINFO has pl_sigmask and pl_siglist; the signal passed on ends it."""
        self.attach_and_continue()
        self.user.turn(100001, Block([Signal.SIGUSR1, Signal.SIGINT, Signal.SIGKILL]))
        self.user.turn(100001, Raise(Signal.SIGUSR1))
        self.debugger.kill(1001, Signal.SIGSEGV)
        self.assertEqual(self.user.turn(100001, Compute()), Stopped(100001, Signal.SIGSEGV, StopFlag(0)))
        self.debugger.wait4()
        info = self.debugger.ptrace(R.PT_LWPINFO, 1001)
        self.assertEqual(info.pl_sigmask, {Signal.SIGINT, Signal.SIGUSR1})
        self.assertEqual(info.pl_siglist, {Signal.SIGUSR1})
        self.debugger.ptrace(R.PT_CONTINUE, 1001, Signal.SIGSEGV)
        self.assertEqual(self.debugger.wait4(), Waited(1001, int(Signal.SIGSEGV)))

    def test_kill_and_detach(self) -> None:
        self.attach()
        self.debugger.ptrace(R.PT_DETACH, 1001)
        with self.assertRaises(PermissionError):
            self.debugger.ptrace(R.PT_KILL, 1001)
        self.attach()
        self.debugger.ptrace(R.PT_KILL, 1001)
        self.assertEqual(self.debugger.wait4(), Waited(1001, 9))

    def test_handlers(self) -> None:
        """`handle` asks the handlers in order; the first that doesn't decline decides."""
        with self.assertRaises(ChildProcessError):
            self.debugger.handle()
        self.attach()
        self.assertIsNone(self.debugger.handle())
        self.debugger.install([Rule(Decision.LEAVE, Signal.SIGSEGV)])
        self.debugger.install(
            [
                Rule(Decision.CONTINUE, Signal.SIGTRAP, StopFlag.PL_FLAG_SCE),
                Rule(Decision.DETACH, Signal.SIGUSR1, pass_signal=Signal.SIGUSR1),
            ]
        )
        self.debugger.ptrace(R.PT_SYSCALL, 1001)
        self.user.turn(100001, Enter(Call.OTHER, 20))
        status, entry = 5 * 256 + 0o177, StopFlag.PL_FLAG_SCE
        self.assertEqual(
            self.debugger.handle(),
            Handled(1001, status, 100001, Signal.SIGTRAP, entry, 0, 20, 1, Decision.CONTINUE, 0),
        )
        self.user.turn(100001, Leave())
        self.assertEqual(
            self.debugger.handle(),
            Handled(1001, status, 100001, Signal.SIGTRAP, StopFlag.PL_FLAG_SCX, 0, 20, None, Decision.DECLINE, None),
        )
        self.debugger.ptrace(R.PT_CONTINUE, 1001)
        self.user.turn(100001, Raise(Signal.SIGSEGV))
        self.user.turn(100001, Compute())
        left = self.debugger.handle()
        assert isinstance(left, Handled)
        self.assertEqual((left.signal, left.handler, left.decision), (Signal.SIGSEGV, 0, Decision.LEAVE))
        self.debugger.ptrace(R.PT_CONTINUE, 1001, Signal.SIGSEGV)
        self.assertEqual(self.debugger.handle(), Waited(1001, int(Signal.SIGSEGV)))

    def test_limits(self) -> None:
        """EAGAIN at 64 handlers, and at 250 processes (fork(2))."""
        for _ in range(64):
            self.debugger.install([])
        with self.assertRaises(BlockingIOError):
            self.debugger.install([])
        for _ in range(248):
            self.user.spawn()
        self.refused(errno.EAGAIN, self.user.spawn)

    def test_refused_steps(self) -> None:
        """What is no step is refused by its fault, and counts nothing."""
        calls: list[tuple[str, Callable[[], object]]] = [
            ("BadUser", lambda: self.host.user(1065).spawn()),
            ("TooManyRules", lambda: self.debugger.install([Rule(Decision.LEAVE)] * 17)),
            ("BadNumber", lambda: self.debugger.kill(1000, 1 << 32)),
            ("BadShape", lambda: self.debugger.install([Rule(Decision.KILL, pass_signal=9)])),
        ]
        for fault, call in calls:
            with self.assertRaises(RefusedStep) as caught:
                call()
            self.assertEqual(caught.exception.fault, fault)
        self.assertEqual(self.host.line(""), "refused BadJson")
        self.assertEqual(self.host.line('{"user":1001,"op":"fly"}').split()[:2], ["refused", "BadName"])
        self.assertEqual(self.host.step({"user": 1001, "op": "spawn"}), "1001 3 new 1002 100002")
        with self.assertRaises(ValueError):
            self.host.line("\n")


class Settings(unittest.TestCase):
    def test_the_end_of_a_debugger(self) -> None:
        """kern.kill_on_debugger_exit: 1 (the default) ends the tracee with SIGKILL, 0 detaches it."""
        for setting, left in ((None, (1002,)), (True, (1002,)), (False, (1001, 1002))):
            with Host(kill_on_debugger_exit=setting) as host:
                user = host.user(1001)
                debugger = user.process(user.spawn().pid)
                user.spawn()
                debugger.ptrace(R.PT_ATTACH, 1001)
                self.assertEqual(user.turn(100000, Raise(Signal.SIGKILL)), Ended(9))
                looker = user.process(user.spawn().pid)
                self.assertEqual(looker.list(), left)


class NoMemory(unittest.TestCase):
    def test_no_memory(self) -> None:
        """It is an OSError with this system's number, as the other errnos are."""
        with Host() as host, mock.patch.object(TypedCalls, "_made", side_effect=Answered("ENOMEM")):
            with self.assertRaisesRegex(OSError, r"spawn\(\) by user 1001: ENOMEM, no memory is left") as caught:
                host.user(1001).spawn()
            self.assertEqual(caught.exception.errno, errno.ENOMEM)


class Sharing(unittest.TestCase):
    def test_closing(self) -> None:
        host = Host()
        host.user(1001).spawn()
        host.close()
        host.close()
        with self.assertRaises(SessionClosed):
            host.user(1001).spawn()

    def test_threads_share_a_host(self) -> None:
        """Each thread's user gets the replies of its own steps."""
        made: dict[int, list[int]] = {}

        def work(user: User) -> None:
            made[user.uid] = [user.spawn().pid for _ in range(100)]

        with Host() as host:
            threads = [threading.Thread(target=work, args=(host.user(1001 + n),)) for n in range(4)]
            for thread in threads:
                thread.start()
            for thread in threads:
                thread.join()
        self.assertEqual(made, {1001 + n: list(range(1000 * (n + 1), 1000 * (n + 1) + 100)) for n in range(4)})


if __name__ == "__main__":
    unittest.main()
