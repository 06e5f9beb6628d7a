"""What a pass of `tracehost.explore` says nothing of: awaits that no interleaving awaits a step at, ends at an errno, properties never asked."""

from __future__ import annotations

from collections.abc import AsyncIterator, Callable
from contextlib import asynccontextmanager, suppress
from pathlib import Path
from typing import Any

import pytest
from worlds import Function, World, lost_wakeup, traced_child

from tracehost import Compute, Host, Raise, Request, Signal, WaitOption
from tracehost.explore import Process, Property, explore, leads_to

HERE = Path(__file__)


def never(*marks: str) -> list[str]:
    """The texts of the lines of this file that end with such comments."""
    lines = enumerate(HERE.read_text(encoding="utf-8").splitlines(), 1)
    path = HERE.relative_to(Path.cwd()) if HERE.is_relative_to(Path.cwd()) else HERE
    found = [
        f"no interleaving awaits a step at {path}:{number}"
        for number, line in lines
        if line.endswith(tuple(f"  # {mark}" for mark in marks))
    ]
    assert found
    return found


def one_process(host: Host) -> Process:
    return Process(host.user(1001), host.user(1001).spawn())


def ends_at_once(host: Host) -> list[Function]:
    debugger, target = one_process(host), one_process(host)

    async def debug() -> None:
        try:
            await debugger.ptrace(Request.PT_ATTACH, target.pid + 1)  # the number of no process
        except ProcessLookupError:
            return
        await debugger.wait4()  # at once
        assert target.pid == 0, "so it is wrong"
        await debugger.ptrace(Request.PT_DETACH, target.pid)  # at once

    async def run() -> None:
        await target.turn(Compute())

    return [debug, run]


def test_a_coroutine_that_ends_at_its_first_errno() -> None:
    found = explore(ends_at_once)
    assert found.passed
    assert [*found.vacuous] == ["debug ends at an errno whenever it ends", *never("at once")]
    assert str(found) == "\n".join(
        [f"all interleavings pass: {found.states} states, {found.transitions} transitions", *found.vacuous]
    )


def polls(times: int) -> World:
    """It ends at an errno in some interleavings, or in all, but has then done all that it does."""

    def world(host: Host) -> list[Function]:
        debugger, child = traced_child(host.user(1001))

        async def debug() -> None:
            with suppress(ChildProcessError):
                for _ in range(times):
                    await debugger.wait4(options=WaitOption.WNOHANG)
                    await debugger.kill(child.pid, Signal.SIGKILL)
                await debugger.wait4(4711)

        return [debug]

    return world


def test_an_end_at_an_errno_behind_all_awaits_is_told_of_none() -> None:
    assert explore(polls(1)).vacuous == ()
    assert explore(polls(3)).vacuous == ()


# ---- which awaits


async def returns_early(process: Process, is_early: bool) -> None:
    if not is_early:
        await process.turn(Compute())


async def goes_far(process: Process, is_far: bool) -> None:
    await process.turn(Compute())
    if is_far:
        await process.turn(Compute())  # odd


async def gives(process: Process, count: int) -> AsyncIterator[int]:
    for number in range(count):
        await process.turn(Compute())
        yield number


@asynccontextmanager
async def within(process: Process) -> AsyncIterator[None]:
    await process.turn(Compute())
    try:
        yield
    finally:
        await process.turn(Compute())


def odd_awaits(host: Host) -> list[Function]:
    process = one_process(host)

    async def odd() -> None:
        await returns_early(process, True)  # odd
        await goes_far(process, False)
        await process.turn(
            Compute(),
        )
        async for number in gives(process, 2):
            assert number < 2
        async with within(process):
            if not [await process.turn(act) for act in (Compute(), Compute())]:
                await process.turn(Compute())  # odd
            await process.turn(Compute())
        assert (await process.list() or await process.list()) == (1000,)
        try:
            await process.kill(process.pid, 99)
        except OSError:
            await process.turn(Compute())
        else:
            await process.turn(Compute())  # odd
        finally:
            await process.turn(Compute())

    return [odd]


def test_odd_awaits() -> None:
    assert sorted(explore(odd_awaits).vacuous) == sorted(never("odd"))


def test_coroutines_of_one_function_reach_awaits_together() -> None:
    """Also if they are of users that are searched apart."""

    def world(host: Host) -> list[Function]:
        processes = [Process(host.user(uid), host.user(uid).spawn()) for uid in (1001, 1002)]

        async def one(number: int) -> None:
            if number == 0:
                await processes[0].turn(Compute())
            elif number == 1:
                await processes[1].turn(Compute())
            else:
                await processes[1].turn(Compute())  # apart

        return [lambda: one(0), lambda: one(1)]

    for together in (False, True):
        assert [*explore(world, together=together).vacuous] == never("apart")


def test_a_function_that_is_run_by_none() -> None:
    def world(host: Host) -> list[Function]:
        process = one_process(host)

        async def outer() -> None:
            async def inner() -> None:
                await process.turn(Compute())  # by none

            if process.pid > 1000:
                await inner()  # by none
            await process.turn(Compute())

        return [outer]

    assert [*explore(world).vacuous] == never("by none")


def test_a_failure_has_none() -> None:
    found = explore(lost_wakeup(False))
    assert not found.passed and found.vacuous == ()


# ---- properties


@pytest.mark.parametrize(("pid", "told"), [(1000, []), (4711, ["leads_to(lives, ends) was asked for in no state"])])
def test_a_property_without_its_left_side(pid: int, told: list[str]) -> None:
    def lives(host: Host) -> bool:
        return any(row.pid == pid for row in host.user(1001).view().processes)

    def ends(host: Host) -> bool:
        return not host.user(1001).view().processes

    def world(host: Host) -> list[Function]:
        process = one_process(host)

        async def run() -> None:
            await process.turn(Raise(Signal.SIGKILL))

        return [run]

    assert [*explore(world, properties=[leads_to(lives, ends)]).vacuous] == told


def test_a_property_of_ends_that_is_asked() -> None:
    asked: list[Callable[..., Any]] = []
    found = explore(polls(1), properties=[Property("at the end", True, lambda state: asked.append(state.host.copy))])
    assert found.vacuous == () and asked
