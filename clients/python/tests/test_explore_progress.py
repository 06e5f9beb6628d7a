"""Coroutines that go round for ever with calls that change nothing (`no_progress`)."""

from __future__ import annotations

import contextlib
from collections.abc import Awaitable, Callable
from pathlib import Path

import pytest
from enumerated import UID
from hypothesis import given
from hypothesis import strategies as st
from searched import both, replays, verdict
from worlds import YIELD, Function, World, forked, lost_wakeup, traced_child

from tracehost import Action, Call, Compute, Decision, Enter, Host, Leave, Request, Rule, Signal, WaitOption
from tracehost.explore import Process, Shared, deadlock, explore, no_progress, stuck
from tracehost.reaching import Graph

ROUND = "goes round for ever, and its calls change nothing"
MOST_HANDLERS = 64


def one_process(host: Host, uid: int = UID) -> Process:
    return Process(host.user(uid), host.user(uid).spawn())


async def enters(process: Process) -> None:
    """A call that the user sees the process in."""
    await process.act(Enter(Call.OTHER, YIELD))
    await process.act(Leave())


async def computes(process: Process) -> None:
    await process.turn(Compute())


async def polls(process: Process) -> None:
    """It has no child, or none that has news."""
    with contextlib.suppress(ChildProcessError):
        await process.wait4(options=WaitOption.WNOHANG)


Part = Callable[[Process], Awaitable[object]]


def going_round(*parts: Part, before: tuple[Part, ...] = (), uid: int = UID) -> World:
    """A process that does these things for ever."""

    def world(host: Host) -> list[Function]:
        process = one_process(host, uid)

        async def debug() -> None:
            for part in before:
                await part(process)
            while True:
                for part in parts:
                    await part(process)

        return [debug]

    return world


def why(step: str, pid: int = 1000, name: str = "debug") -> str:
    return f"no_progress: {name} {ROUND}: {pid} {step}"


# ---- who goes round for ever


@pytest.mark.parametrize("beside", [None, computes, enters], ids=["alone", "beside turns", "beside calls"])
@pytest.mark.parametrize("parts", [(polls,), (polls, computes)], ids=["polls", "polls and computes"])
def test_a_poll_that_never_gets_anything(parts: tuple[Part, ...], beside: Part | None, program: Path, tmp_path: Path) -> None:
    world = going_round(*parts) if beside is None else both(going_round(*parts), going_round(beside))
    found = explore(world)
    assert found.why == why("wait4(-1, WNOHANG)") and found.trace == (), str(found)
    assert str(found) == f"{found.why}\nafter 0 steps:"
    replays(found, program, tmp_path)
    assert explore(world, properties=[deadlock, stuck]).passed, "only that is asked for"
    assert explore(world, properties=[no_progress]).why == found.why


@pytest.mark.parametrize("part", [computes, enters])
def test_an_endless_process_is_no_failure(part: Part) -> None:
    """Nor is one that polls once in vain, and goes on otherwise."""
    assert explore(going_round(part)).passed
    assert explore(going_round(part, before=(polls, polls))).passed


def who_waits(options: WaitOption, ends: bool) -> World:
    """For a child, which ends some time or never, beside a process that goes round."""

    def world(host: Host) -> list[Function]:
        parent, other = one_process(host), one_process(host)
        child = Process(host.user(UID), forked(host.user(UID), parent.tid))

        async def waits() -> None:
            while not (await parent.wait4(child.pid, options)).pid:
                pass

        async def lives() -> None:
            while True:
                await child.act(Compute())
                if ends:
                    await child.act(Enter(Call.EXIT, 0))
                    await child.act(Leave())

        async def tick() -> None:
            while True:
                await other.turn(Compute())

        return [waits, lives, tick]

    return world


def test_who_waits_for_a_child() -> None:
    """A poll gets on if some interleaving satisfies it, and so does a wait."""
    for options in (WaitOption.WNOHANG, WaitOption(0)):
        assert explore(who_waits(options, ends=True)).passed
    found = explore(who_waits(WaitOption.WNOHANG, ends=False))
    assert found.why == why("wait4(1002, WNOHANG)", name="waits") and not found.trace
    found = explore(who_waits(WaitOption(0), ends=False))
    assert found.why == "stuck: waits waits for ever in wait4(1002), while others go on" and not found.trace


CALLS: dict[str, Part] = {
    "list()": lambda process: process.list(),
    "handle()": lambda process: process.handle(block=False),
    "kill(1000, 0)": lambda process: process.kill(1000, 0),
    "sigaction(SIGUSR1, SIG_DFL)": lambda process: process.sigaction(Signal.SIGUSR1, Action.SIG_DFL),
    "ptrace(PT_ATTACH, 1000)": lambda process: process.ptrace(Request.PT_ATTACH, 1000),
    "ptrace(PT_CONTINUE, 4711)": lambda process: process.ptrace(Request.PT_CONTINUE, 4711),
}


@pytest.mark.parametrize("call", CALLS)
def test_each_call_that_changes_nothing(call: str, program: Path, tmp_path: Path) -> None:
    async def tries(process: Process) -> None:
        with contextlib.suppress(OSError):
            await CALLS[call](process)

    found = explore(going_round(tries))
    assert verdict(found) == (False, 0) and found.why == why(call), str(found)
    replays(found, program, tmp_path)


# ---- what is progress


def test_calls_that_change_something_at_first(program: Path, tmp_path: Path) -> None:
    """The trace ends where nothing is left to change."""

    async def installs(process: Process) -> None:
        with contextlib.suppress(BlockingIOError):
            await process.install([Rule(Decision.LEAVE)])

    async def ignores(process: Process) -> None:
        await process.sigaction(Signal.SIGUSR1, Action.SIG_IGN)

    for part, steps in ((installs, MOST_HANDLERS), (ignores, 1)):
        found = explore(going_round(part))
        assert verdict(found) == (False, steps) and str(found.why).startswith(f"no_progress: debug {ROUND}: 1000 "), str(found)
        replays(found, program, tmp_path)


def test_calls_whose_changes_are_undone() -> None:
    async def there_and_back(process: Process) -> None:
        await process.sigaction(Signal.SIGUSR1, Action.SIG_IGN)
        await process.sigaction(Signal.SIGUSR1, Action.SIG_DFL)

    assert explore(going_round(there_and_back)).passed
    assert explore(going_round(polls, there_and_back)).passed


@pytest.mark.parametrize(("numbers", "passes"), [((0, 1), True), ((1, 1), False), ((0,), False), ((), False)])
def test_shared_values_are_changes(numbers: tuple[int, ...], passes: bool) -> None:
    """If they are set to what they aren't."""

    def world(host: Host) -> list[Function]:
        process, value = one_process(host), Shared(0)

        async def debug() -> None:
            while True:
                for number in numbers:
                    await polls(process)
                    value.value = number
                await polls(process)

        return [debug]

    found = explore(world)
    assert found.passed == passes, str(found)
    assert passes or len(found.trace) == numbers.count(1) // 2, "the first one of two is a change"


@pytest.mark.parametrize("lasts", [False, True])
def test_one_that_comes_to_an_end(lasts: bool) -> None:
    """Or may do so, by what others do. Its own variables are no progress."""

    def world(host: Host) -> list[Function]:
        process, other, tells = one_process(host), one_process(host), Shared(False)

        async def debug() -> None:
            count = 0
            while not tells.value:
                count = (count + 1) % 3
                await process.list()

        async def ends() -> None:
            await other.turn(Compute())
            tells.value = not lasts

        return [debug, ends]

    found = explore(world)
    assert found.why == (why("list()") if lasts else None), str(found)
    assert found.passed or not found.trace


def test_one_whose_process_is_killed() -> None:
    """It has come to its end, and so it has if somebody may kill it."""

    def world(host: Host) -> list[Function]:
        debugger, child = traced_child(host.user(UID))

        async def target() -> None:
            while True:
                await child.list()

        async def debug() -> None:
            await debugger.kill(child.pid, Signal.SIGKILL)

        return [target, debug]

    assert explore(world).passed
    assert not explore(lambda host: world(host)[:1]).passed


def test_one_that_waits_between_its_calls() -> None:
    """It waits for another's answer in each round, and changes nothing itself."""

    def world(host: Host) -> list[Function]:
        asking, serving, number = one_process(host), one_process(host), Shared(0)

        async def asks() -> None:
            while True:
                await asking.turn(Compute(), lambda _: number.value == 1)
                await asking.list()

        async def serves() -> None:
            while True:
                for one in (1, 0):
                    await serving.turn(Compute())
                    number.value = one

        return [asks, serves]

    found = explore(world)
    assert found.why == why("turn(Compute())", name="asks") and not found.trace, str(found)


# ---- which failure is told


def test_several_that_go_round() -> None:
    found = explore(both(going_round(polls), going_round(CALLS["list()"])))
    first, second = why("wait4(-1, WNOHANG)"), why("list()", 1001, "debug 2")
    assert found.why == f"{first}; {second.removeprefix('no_progress: ')}" and not found.trace


def test_a_failure_of_another_kind() -> None:
    """Of another kind it comes first. Of the same it does if it has fewer steps, or waits."""

    def then_sleeps(times: int) -> World:
        def world(host: Host) -> list[Function]:
            process = one_process(host)

            async def sleeps() -> None:
                for _ in range(times):
                    await process.turn(Compute())
                await process.turn(Compute(), lambda _: False)

            return [sleeps]

        return world

    async def ignores(process: Process) -> None:
        await process.sigaction(Signal.SIGUSR1, Action.SIG_IGN)

    waits = "stuck: sleeps waits for ever in turn(Compute()), while others go on"
    assert explore(both(going_round(polls), then_sleeps(0))).why == waits
    assert explore(both(going_round(ignores), then_sleeps(0))).why == waits
    assert str(explore(both(going_round(ignores), lost_wakeup(True))).why).startswith("no_progress: debug goes round")
    found = explore(both(going_round(polls), then_sleeps(2)))
    assert found.why == why("wait4(-1, WNOHANG)") and not found.trace

    def fails(host: Host) -> list[Function]:
        process = one_process(host)

        async def asserts() -> None:
            await process.turn(Compute())
            await process.turn(Compute())
            raise AssertionError("wrong")

        return [asserts]

    found = explore(both(going_round(polls), fails))
    assert found.why == "asserts: AssertionError: wrong" and len(found.trace) == 2


@pytest.mark.parametrize("together", [False, True])
def test_users(together: bool) -> None:
    """What another user does is no change of one's own."""
    for part in (computes, enters):
        world = both(going_round(polls, uid=1001), going_round(part, uid=1002))
        found = explore(world, together=together)
        assert found.why == why("wait4(-1, WNOHANG)") and not found.trace, str(found)
        assert explore(both(going_round(computes, uid=1001), going_round(part, uid=1002)), together=together).passed


# ---- the graph


bits = st.lists(st.sampled_from([0, 0, 1, 2, 3]), min_size=8, max_size=8)
edges = st.lists(st.lists(st.integers(0, 7), max_size=2), min_size=8, max_size=8)


@given(edges, bits, bits)
def test_graphs_with_circles(after_each: list[list[int]], calls: list[int], changes: list[int]) -> None:
    calls = [own if after else 0 for own, after in zip(calls, after_each)]  # each is a step to some state
    graph = Graph()
    for number in range(8):
        graph.add(0, 0)
        graph.after[number].extend(after_each[number])
        graph.calls[number], graph.changes[number] = calls[number], changes[number]

    def come(number: int, met: set[int]) -> set[int]:
        if number not in met:
            met.add(number)
            for later in after_each[number]:
                come(later, met)
        return met

    def is_in_vain(number: int, bit: int) -> bool:
        behind = come(number, set())
        return all(not changes[one] & bit and any(calls[later] & bit for later in come(one, set())) for one in behind)

    found = [(number, sum(bit for bit in (1, 2) if is_in_vain(number, bit))) for number in range(8)]
    assert graph.first_in_vain() == next(((number, bits) for number, bits in found if bits), None)
