"""Worlds of racy debuggers, as clients/posix/races has them in C: with the race, and without."""

from __future__ import annotations

import errno
import os
from collections.abc import Callable, Coroutine
from contextlib import suppress
from typing import Any

from tracehost import (
    Act, Action, Block, Call, Caught, Compute, Enter, Host, Leave, New, Raise, Request, Signal, StopFlag, Turned,
    User, WaitOption,
)  # fmt: skip
from tracehost.explore import Process, Shared

Function = Callable[[], Coroutine[Any, Any, Any]]
World = Callable[[Host], list[Function]]
PAUSE, SIGSUSPEND, YIELD = 29, 341, 331


def made(turned: Turned) -> New:
    """What a fork or THR_NEW has made."""
    assert isinstance(turned, New)
    return turned


def is_woken(uid: int, pid: int, signal: Signal = Signal.SIGCHLD) -> Callable[[Host], bool]:
    """Whether the signal is pending, which ends the sleep of a process."""

    def looks(host: Host) -> bool:
        return any(row.pid == pid and signal in row.pending for row in host.user(uid).view().processes)

    return looks


def forked(user: User, lwp: int) -> New:
    """A new child of the LWP's process."""
    user.turn(lwp, Enter(Call.FORK))
    return made(user.turn(lwp, Leave()))


def reports(user: User, events: Request) -> tuple[Process, Process]:
    """A debugger and its target, which runs, and will report such events."""
    debugger, child = traced_child(user)
    user.turn(child.tid, Raise(Signal.SIGSTOP))
    user.turn(child.tid, Compute())
    user.process(debugger.pid).wait4(child.pid)
    user.process(debugger.pid).ptrace(events, child.pid, 1)
    user.process(debugger.pid).ptrace(Request.PT_CONTINUE, child.pid)
    return debugger, child


async def exits(process: Process, status: int) -> None:
    await process.act(Enter(Call.EXIT, status))
    await process.act(Leave())


def traced_child(user: User) -> tuple[Process, Process]:
    """A debugger, and its child, which it traces."""
    new = user.spawn()
    debugger = Process(user, new)
    target = Process(user, forked(user, new.tid))
    user.process(target.pid).ptrace(Request.PT_TRACE_ME)
    return debugger, target


def lost_wakeup(right: bool, uid: int = 1001, signals: int = 2) -> World:
    """The debugger sleeps in pause(2) until SIGCHLD, which may come just before. Right is to block it but in sigsuspend(2)."""

    def world(host: Host) -> list[Function]:
        user = host.user(uid)
        debugger, child = traced_child(user)
        user.process(debugger.pid).sigaction(Signal.SIGCHLD, Action.CATCH)
        user.turn(child.tid, Raise(Signal.SIGSTOP))

        async def target() -> None:
            for number in range(signals):
                await child.act(Raise(Signal.SIGUSR1 if number % 2 == 0 else Signal.SIGUSR2))
                await child.act(Compute())
            await exits(child, 7)

        async def debug() -> None:
            news = False

            def caught(signal: int) -> None:
                nonlocal news
                news = True

            async def sleeps(call: int) -> None:
                await debugger.act(Enter(Call.OTHER, call), caught)
                await debugger.turn(Leave(), is_woken(uid, debugger.pid))

            while True:
                if right:
                    await debugger.act(Block([Signal.SIGCHLD]), caught)
                while not news:
                    if right:  # the call unblocks the signal, so it is met once the call has ended, and not before
                        await sleeps(SIGSUSPEND)
                        await debugger.act(Block([]), caught)
                        await debugger.act(Compute(), caught)
                        await debugger.act(Block([Signal.SIGCHLD]), caught)
                    else:
                        await sleeps(PAUSE)
                        await debugger.act(Compute(), caught)
                if right:
                    await debugger.act(Block([]), caught)
                news = False
                while (waited := await debugger.wait4(child.pid, WaitOption.WNOHANG)).pid:
                    if os.WIFEXITED(waited.status):
                        return
                    await debugger.ptrace(Request.PT_CONTINUE, child.pid)

        return [debug, target]

    return world


def stop_lost_at_detach(right: bool, uid: int = 1001, rounds: int = 3) -> World:
    """Two threads meet a breakpoint. The debugger takes the stop of one, and detaches. Right is to take both."""

    def world(host: Host) -> list[Function]:
        user = host.user(uid)
        debugger, child = traced_child(user)
        user.turn(child.tid, Enter(Call.THR_NEW))
        threads = [child, Process(user, made(user.turn(child.tid, Leave())))]
        user.turn(child.tid, Raise(Signal.SIGSTOP))
        user.turn(child.tid, Compute())
        breakpoint_set, ended = Shared(False), Shared(0)

        def place() -> Act:
            return Raise(Signal.SIGTRAP) if breakpoint_set.value else Compute()

        async def work(thread: Process) -> None:
            for _ in range(rounds):
                await thread.act(Enter(Call.OTHER, YIELD))
                await thread.act(Leave())
                await thread.act(place)
                await thread.act(Compute())

        async def first() -> None:
            await work(threads[0])
            await threads[0].turn(Enter(Call.EXIT, 0), lambda _: ended.value == 1)
            await threads[0].act(Leave())

        async def other() -> None:
            await work(threads[1])
            await threads[1].act(Enter(Call.THR_EXIT))
            await threads[1].act(Leave())
            ended.value = 1

        async def debug() -> None:
            assert os.WSTOPSIG((await debugger.wait4(child.pid)).status) == Signal.SIGSTOP
            breakpoint_set.value = True
            await debugger.ptrace(Request.PT_CONTINUE, child.pid)
            assert os.WSTOPSIG((await debugger.wait4(child.pid)).status) == Signal.SIGTRAP
            breakpoint_set.value = False
            while right and await another_trap_is_pending():
                await debugger.ptrace(Request.PT_CONTINUE, child.pid)
                await debugger.wait4(child.pid)
            await debugger.ptrace(Request.PT_DETACH, child.pid)
            status = (await debugger.wait4(child.pid)).status
            assert not os.WIFSIGNALED(status), "the target was ended by a signal"

        async def another_trap_is_pending() -> bool:
            for lwp in await debugger.ptrace(Request.PT_GETLWPLIST, child.pid, 16):
                if Signal.SIGTRAP in (await debugger.ptrace(Request.PT_LWPINFO, lwp)).pl_siglist:
                    return True
            return False

        return [debug, first, other]

    return world


def child_before_parent(right: bool, uid: int = 1001) -> World:
    """The debugger follows a fork. Wrong is to know a child only by its parent's stop, which a wait may report later."""

    def world(host: Host) -> list[Function]:
        user = host.user(uid)
        debugger, child = reports(user, Request.PT_FOLLOW_FORK)
        born_later = Process(user, New(child.pid + 1, child.tid + 1))

        async def target() -> None:
            await child.act(Enter(Call.FORK))
            await child.act(Leave())
            await child.wait4(born_later.pid)
            await exits(child, 0)

        async def born() -> None:
            await exits(born_later, 0)

        async def debug() -> None:
            known, live = {child.pid}, 1
            while live:
                waited = await debugger.wait4()
                if not os.WIFSTOPPED(waited.status):
                    live -= 1
                    continue
                info = await debugger.ptrace(Request.PT_LWPINFO, waited.pid)
                new = [waited.pid] if right and info.pl_flags & StopFlag.PL_FLAG_CHILD else []
                new += [info.pl_child_pid] if info.pl_flags & StopFlag.PL_FLAG_FORKED else []
                live += len(set(new) - known)
                known.update(new)
                assert waited.pid in known, f"{waited.pid} isn't mine"
                await debugger.ptrace(Request.PT_CONTINUE, waited.pid)

        return [debug, target, born]

    return world


def chld_coalesced(right: bool, uid: int = 1001) -> World:
    """Two children end, and the debugger takes one status for each SIGCHLD, which is pending once. Right is to take all."""

    def world(host: Host) -> list[Function]:
        user = host.user(uid)
        debugger, first = traced_child(user)
        children = [first, Process(user, forked(user, debugger.tid))]
        user.process(debugger.pid).sigaction(Signal.SIGCHLD, Action.CATCH)
        user.turn(debugger.tid, Block([Signal.SIGCHLD]))

        async def ends() -> None:
            await exits(children[0], 0)

        async def ends_too() -> None:
            await exits(children[1], 0)

        async def debug() -> None:
            news = 0
            while news < 2:
                await debugger.turn(Enter(Call.OTHER, SIGSUSPEND))
                await debugger.turn(Leave(), is_woken(uid, debugger.pid))
                await debugger.turn(Block([]))
                await debugger.turn(Compute())  # the handler runs
                await debugger.turn(Block([Signal.SIGCHLD]))
                while news < 2 and (await debugger.wait4(-1, WaitOption.WNOHANG)).pid:
                    news += 1
                    if not right:
                        break

        return [debug, ends, ends_too]

    return world


def status_stolen(right: bool, uid: int = 1001) -> World:
    """A thread waits for its helper, and the main loop for any child. Right is to wait for the target by its number."""

    def world(host: Host) -> list[Function]:
        user = host.user(uid)
        debugger, child = traced_child(user)
        user.turn(debugger.tid, Enter(Call.THR_NEW))
        thread = Process(user, made(user.turn(debugger.tid, Leave())))
        helper = Process(user, New(child.pid + 1, thread.tid + 1))

        async def target() -> None:
            await exits(child, 7)

        async def helps() -> None:
            await exits(helper, 3)

        async def runs_helper() -> None:
            await thread.act(Enter(Call.FORK))
            await thread.act(Leave())
            assert os.WEXITSTATUS((await thread.wait4(helper.pid)).status) == 3

        async def debug() -> None:
            while (await debugger.wait4(child.pid if right else -1)).pid != child.pid:
                pass

        return [debug, target, runs_helper, helps]

    return world


def attach_to_stopped(right: bool, uid: int = 1001) -> World:
    """A collector ends a job stop by PT_DETACH, before the parent has seen it. Right is to continue only what is stopped."""

    def world(host: Host) -> list[Function]:
        user = host.user(uid)
        new = user.spawn()
        parent = Process(user, new)
        child, collector = (Process(user, forked(user, new.tid)) for _ in range(2))

        async def target() -> None:
            await child.act(Raise(Signal.SIGSTOP))
            await child.act(Compute())
            await exits(child, 7)

        async def collects() -> None:
            try:
                await collector.ptrace(Request.PT_ATTACH, child.pid)
                while not os.WIFSTOPPED(status := (await collector.wait4(child.pid)).status) and not os.WIFEXITED(status):
                    pass
                if os.WIFSTOPPED(status):
                    await collector.ptrace(Request.PT_DETACH, child.pid)
            except ProcessLookupError:  # it has ended
                pass
            await exits(collector, 0)

        async def waits() -> None:
            while True:
                status = (await parent.wait4(child.pid, WaitOption.WUNTRACED)).status
                if not os.WIFSTOPPED(status):
                    assert right, "no stop"
                    break
                await parent.kill(child.pid, Signal.SIGCONT)
                if not right:
                    status = (await parent.wait4(child.pid)).status
                    break
            assert os.WEXITSTATUS(status) == 7
            assert (await parent.wait4(collector.pid)).status == 0

        return [waits, target, collects]

    return world


def stop_before_wait(right: bool, uid: int = 1001) -> World:
    """SIGCHLD's handler takes one status, which may be the helper's. Right is to wait for the process that was attached to."""

    def world(host: Host) -> list[Function]:
        user = host.user(uid)
        new = user.spawn()
        debugger = Process(user, new)
        helper, child = (Process(user, forked(user, new.tid)) for _ in range(2))
        user.process(debugger.pid).sigaction(Signal.SIGCHLD, Action.SIG_DFL if right else Action.CATCH)

        async def helps() -> None:
            await exits(helper, 0)

        async def debug() -> None:
            await debugger.ptrace(Request.PT_ATTACH, child.pid)
            if right:
                await debugger.wait4(child.pid)
            elif isinstance(await debugger.turn(Compute()), Caught):
                await debugger.wait4(-1, WaitOption.WNOHANG)
            await debugger.ptrace(Request.PT_DETACH, child.pid)

        return [debug, helps]

    return world


def exec_with_threads(right: bool, uid: int = 1001) -> World:
    """An exec takes a thread away that the debugger knows. Right is to forget the threads then."""

    def world(host: Host) -> list[Function]:
        user = host.user(uid)
        debugger, child = reports(user, Request.PT_LWP_EVENTS)
        thread = Process(user, New(child.pid, child.tid + 1))

        async def target() -> None:
            await child.act(Enter(Call.THR_NEW))
            await child.act(Leave())
            await child.act(Enter(Call.EXEC))
            await child.act(Leave())
            await exits(child, 0)

        async def idle() -> None:
            await thread.turn(Compute())

        async def debug() -> None:
            threads: list[int] = []
            while os.WIFSTOPPED(status := (await debugger.wait4(child.pid)).status):
                info = await debugger.ptrace(Request.PT_LWPINFO, child.pid)
                threads += [info.lwp] if info.pl_flags & StopFlag.PL_FLAG_BORN else []
                threads = [] if right and info.pl_flags & StopFlag.PL_FLAG_EXEC else threads
                for lwp in threads:
                    await debugger.ptrace(Request.PT_LWPINFO, lwp)
                await debugger.ptrace(Request.PT_CONTINUE, child.pid)
            assert os.WEXITSTATUS(status) == 0

        return [debug, target, idle]

    return world


def unannounced_child(right: bool, uid: int = 1001) -> World:
    """A fork's parent is killed before its report was seen, and nobody knows the child. Right is to let any child go on."""

    def world(host: Host) -> list[Function]:
        user = host.user(uid)
        debugger, child = reports(user, Request.PT_FOLLOW_FORK)
        watchdog = Process(user, forked(user, debugger.tid))
        born_later = Process(user, New(watchdog.pid + 1, watchdog.tid + 1))

        async def target() -> None:
            await child.act(Enter(Call.FORK))
            await child.act(Leave())
            await exits(child, 0)

        async def born() -> None:
            await exits(born_later, 0)

        async def watches() -> None:
            with suppress(ProcessLookupError):
                await watchdog.kill(child.pid, Signal.SIGKILL)
            await exits(watchdog, 0)

        async def goes_on(pid: int) -> None:
            try:
                await debugger.ptrace(Request.PT_CONTINUE, pid)
            except OSError as why:
                assert why.errno in (errno.ESRCH, errno.EBUSY)

        async def debug() -> None:
            announced = set()
            with suppress(ChildProcessError):
                while True:
                    waited = await debugger.wait4()
                    if not os.WIFSTOPPED(waited.status):
                        continue
                    with suppress(ProcessLookupError):
                        info = await debugger.ptrace(Request.PT_LWPINFO, waited.pid)
                        if not right and info.pl_flags & StopFlag.PL_FLAG_FORKED:
                            announced.add(info.pl_child_pid)
                            await goes_on(info.pl_child_pid)
                        if right or not info.pl_flags & StopFlag.PL_FLAG_CHILD or waited.pid in announced:
                            await goes_on(waited.pid)

        return [debug, target, watches, born]

    return world


def tracer_dies(right: bool, uid: int = 1001) -> World:
    """A guard is ended by SIGTERM while it traces, and its worker with it. Right is to block the signal until then."""

    def world(host: Host) -> list[Function]:
        user = host.user(uid)
        new = user.spawn()
        supervisor = Process(user, new)
        worker, guard = (Process(user, forked(user, new.tid)) for _ in range(2))
        may_end = Shared(False)
        if right:
            user.turn(guard.tid, Block([Signal.SIGTERM]))

        async def works() -> None:
            await worker.turn(Enter(Call.EXIT, 7), lambda _: may_end.value)
            await worker.act(Leave())

        async def guards() -> None:
            await guard.ptrace(Request.PT_ATTACH, worker.pid)
            await guard.turn(Compute())
            await guard.wait4(worker.pid)
            await guard.sigaction(Signal.SIGTERM, Action.CATCH)
            await guard.turn(Block([]) if right else Compute(), is_woken(uid, guard.pid, Signal.SIGTERM))
            await guard.ptrace(Request.PT_DETACH, worker.pid)
            await exits(guard, 0)

        async def supervises() -> None:
            await supervisor.kill(guard.pid, Signal.SIGTERM)
            await supervisor.wait4(guard.pid)
            may_end.value = True
            status = (await supervisor.wait4(worker.pid)).status
            assert os.WIFEXITED(status), "the worker was killed"

        return [supervises, works, guards]

    return world


def stale_lwp(right: bool, uid: int = 1001) -> World:
    """The debugger looks at each LWP that has reported a stop. An exec takes one away. Right is to ask for the list."""

    def world(host: Host) -> list[Function]:
        user = host.user(uid)
        debugger, child = traced_child(user)
        user.turn(child.tid, Enter(Call.THR_NEW))
        thread = Process(user, made(user.turn(child.tid, Leave())))

        async def target() -> None:
            await child.act(Raise(Signal.SIGUSR1))
            await child.act(Compute())

        async def runs_another() -> None:
            await thread.act(Enter(Call.EXEC))
            await thread.act(Leave())
            await exits(thread, 0)

        async def debug() -> None:
            lwps: list[int] = []
            while os.WIFSTOPPED((await debugger.wait4(child.pid)).status):
                if right:
                    lwps = list(await debugger.ptrace(Request.PT_GETLWPLIST, child.pid, 16))
                elif (reporting := (await debugger.ptrace(Request.PT_LWPINFO, child.pid)).lwp) not in lwps:
                    lwps.append(reporting)
                for lwp in lwps:
                    await debugger.ptrace(Request.PT_LWPINFO, lwp)
                await debugger.ptrace(Request.PT_CONTINUE, child.pid)

        return [debug, target, runs_another]

    return world
