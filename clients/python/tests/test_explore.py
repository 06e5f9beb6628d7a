"""`tracehost.explore`: races that it finds, remedies that pass, users apart and together, properties."""

from __future__ import annotations

import os
from collections import Counter
from collections.abc import Callable
from pathlib import Path
from typing import Any

import pytest
from searched import both, by_chance, replays, verdict
from worlds import (
    Function,
    World,
    attach_to_stopped,
    chld_coalesced,
    child_before_parent,
    exec_with_threads,
    lost_wakeup,
    made,
    stale_lwp,
    status_stolen,
    stop_before_wait,
    stop_lost_at_detach,
    tracer_dies,
    traced_child,
    unannounced_child,
)

from tracehost import Action, Call, Compute, Enter, Host, Leave, Raise, Signal, WaitOption
from tracehost.explore import (
    LimitReached,
    Process,
    Property,
    Shared,
    deadlock,
    ended_by_signal,
    explore,
    unreported_stop,
)

PAIRS = 200 * int(os.environ.get("TRACEHOST_TEST_SCALE", "1"))
PROPERTIES: list[list[Property]] = [[], [], [deadlock], [unreported_stop], [ended_by_signal]]


@pytest.mark.parametrize(
    ("race", "steps", "why"),
    [
        (lost_wakeup, 3, "deadlock: debug waits in turn(Leave())"),
        (stop_lost_at_detach, 13, "debug: AssertionError: the target was ended"),
        (child_before_parent, 4, "debug: AssertionError: 1002 isn't mine"),
        (chld_coalesced, 11, "deadlock: debug waits in turn(Leave())"),
        (status_stolen, 6, "runs_helper: ChildProcessError"),
        (attach_to_stopped, 9, "waits: AssertionError: no stop"),
        (stop_before_wait, 6, "debug: OSError: [Errno 16]"),
        (exec_with_threads, 12, "debug: ProcessLookupError"),
        (unannounced_child, 9, "deadlock: debug waits in wait4(-1), born waits in turn"),
        (tracer_dies, 5, "supervises: AssertionError: the worker was killed"),
        (stale_lwp, 11, "debug: ProcessLookupError"),
    ],
)
def test_a_race_has_a_shortest_trace_and_its_remedy_none(
    race: Callable[[bool], World], steps: int, why: str, program: Path, tmp_path: Path
) -> None:
    found = explore(race(False))
    assert (found.passed, len(found.trace)) == (False, steps)
    assert found.why is not None and found.why.startswith(why)
    replays(found, program, tmp_path)
    right = explore(race(True))
    assert right.passed and right.trace == () and right.states > steps, right


def test_what_is_known_of_the_end() -> None:
    found = explore(stop_lost_at_detach(False))
    assert isinstance(found.error, AssertionError)
    last = found.trace[-1]
    assert (last.coroutine, last.pid, last.call, last.answer) == ("debug", 1000, "wait4(1001)", "1001 signaled SIGTRAP")
    assert str(found).splitlines()[-1].endswith("13 debug: 1000 wait4(1001) -> 1001 signaled SIGTRAP")


# ---- users


def test_users_apart_and_together_come_to_the_same(program: Path, tmp_path: Path) -> None:
    """Pairs of worlds by chance: the same verdict, and traces of the same length; some are replayed."""
    counts: Counter[bool] = Counter()
    for seed in range(PAIRS):
        world = both(by_chance(2 * seed, 1001), by_chance(2 * seed + 1, 1002))
        properties = PROPERTIES[seed % 5]
        apart, together = (explore(world, properties=properties, together=at_once) for at_once in (False, True))
        assert verdict(apart) == verdict(together), (seed, apart, together)
        assert apart.states <= together.states + 1 or not apart.passed
        counts[apart.passed] += 1
        if not apart.passed and seed % 20 == 0:
            replays(apart, program, tmp_path)
            replays(together, program, tmp_path)
    assert min(counts[True], counts[False]) > PAIRS // 20, counts


def test_users_apart_take_few_states() -> None:
    one = explore(lost_wakeup(True, signals=0))
    world = both(lost_wakeup(True, signals=0), lost_wakeup(True, 1002, signals=0))
    apart, together = explore(world), explore(world, together=True)
    assert apart.passed and together.passed
    assert (apart.states, together.states) == (2 * one.states, one.states**2)


def test_users_that_share_a_value_are_searched_together() -> None:
    def world(host: Host) -> list[Function]:
        shared = Shared(0)
        first, second = (Process(host.user(uid), host.user(uid).spawn()) for uid in (1001, 1002))

        async def sets() -> None:
            await first.act(Compute())
            shared.value = 1

        async def looks() -> None:
            await second.act(Compute())
            assert shared.value == 0, "it was set"

        return [sets, looks]

    with pytest.raises(ValueError, match="together=True"):
        explore(world)
    found = explore(world, together=True)
    assert verdict(found) == (False, 2) and str(found.why).startswith("looks: AssertionError: it was set")


def test_a_coroutine_of_two_users_is_refused() -> None:
    def world(host: Host) -> list[Function]:
        first, second = (Process(host.user(uid), host.user(uid).spawn()) for uid in (1001, 1002))

        async def mixed() -> None:
            await first.act(Compute())
            await second.act(Compute())

        return [mixed]

    with pytest.raises(ValueError, match="mixed: a coroutine makes the calls of one user, and not of 1001 and 1002"):
        explore(world)


# ---- waits


def two_children(host: Host) -> tuple[Process, list[Process]]:
    user = host.user(1001)
    new = user.spawn()
    children = []
    for _ in range(2):
        user.turn(new.tid, Enter(Call.FORK))
        children.append(Process(user, made(user.turn(new.tid, Leave()))))
    return Process(user, new), children


@pytest.mark.parametrize("options", [WaitOption(0), WaitOption.WNOHANG])
def test_a_wait_for_any_child_may_report_each(options: WaitOption, program: Path, tmp_path: Path) -> None:
    """Both have ended: the one with the higher number may be first too, which the model itself doesn't do."""

    def world(host: Host) -> list[Function]:
        parent, children = two_children(host)
        for child in children:
            host.user(1001).turn(child.tid, Enter(Call.EXIT, 0))
            host.user(1001).turn(child.tid, Leave())

        async def waits() -> None:
            assert (await parent.wait4(-1, options)).pid == children[0].pid

        return [waits]

    found = explore(world)
    assert verdict(found) == (False, 1) and found.trace[0].answer == "1002 exited 0"
    replays(found, program, tmp_path)
    assert '"which":1002' in (tmp_path / "race.json").read_text()


def test_a_poll_sees_nothing_too() -> None:
    seen = set()

    def world(host: Host) -> list[Function]:
        parent, children = two_children(host)

        async def ends() -> None:
            await children[0].act(Enter(Call.EXIT, 3))
            await children[0].act(Leave())

        async def polls() -> None:
            seen.add((await parent.wait4(-1, WaitOption.WNOHANG)).pid)

        return [ends, polls]

    assert explore(world).passed and seen == {0, 1001}


# ---- properties


def stopped_world(reports: bool) -> World:
    """A target stops after a call. The debugger waits for it, or ends."""

    def world(host: Host) -> list[Function]:
        debugger, child = traced_child(host.user(1001))

        async def runs() -> None:
            await child.turn(Raise(Signal.SIGUSR1))
            await child.turn(Compute())

        async def debug() -> None:
            if reports:
                await debugger.wait4(child.pid)
            else:
                await debugger.turn(Compute())

        return [runs, debug]

    return world


def test_a_stop_that_is_never_reported() -> None:
    found = explore(stopped_world(False), properties=[unreported_stop])
    assert verdict(found) == (False, 3)
    assert found.why == "no wait has reported the stop of 1001 by signal 30, and none will"
    assert explore(stopped_world(True), properties=[unreported_stop, deadlock]).passed


def killed_world(ignores: bool) -> World:
    """A child is killed. If its parent ignores SIGCHLD, no zombie is left."""

    def world(host: Host) -> list[Function]:
        parent, children = two_children(host)
        if ignores:
            host.user(1001).process(parent.pid).sigaction(Signal.SIGCHLD, Action.SIG_IGN)

        async def kills() -> None:
            await parent.kill(children[0].pid, Signal.SIGKILL)

        async def ends() -> None:
            await children[1].act(Enter(Call.EXIT, 0))
            await children[1].act(Leave())

        return [kills, ends]

    return world


@pytest.mark.parametrize("ignores", [False, True])
def test_an_end_by_a_signal(ignores: bool) -> None:
    """An exit is none, whether its zombie stays or not."""
    found = explore(killed_world(ignores), properties=[ended_by_signal])
    assert verdict(found) == (False, 1) and found.trace[0].coroutine == "kills"
    assert found.why is not None and found.why.startswith("1001 was ended by")
    assert explore(killed_world(ignores), properties=[]).passed
    assert explore(lost_wakeup(True), properties=[ended_by_signal, deadlock]).passed


def test_a_deadlock_is_of_one_user() -> None:
    """Another user who goes on doesn't hide it; a coroutine whose process has ended doesn't wait."""

    def world(host: Host) -> list[Function]:
        parent, children = two_children(host)
        third = Process(host.user(1002), host.user(1002).spawn())

        async def waits() -> None:
            await parent.wait4(children[0].pid)

        async def ends() -> None:
            await children[0].act(Enter(Call.EXIT, 0))
            await children[0].act(Leave())
            await children[0].act(Compute())
            raise AssertionError("its process has ended")

        async def waits_for_ever() -> None:
            await children[1].turn(Compute(), lambda _: False)

        async def runs() -> None:
            for _ in range(9):
                await third.act(Compute())

        return [waits, ends, waits_for_ever, runs]

    for together in (False, True):
        found = explore(world, together=together)
        assert found.why == "deadlock: waits_for_ever waits in turn(Compute())"
        assert {taken.coroutine for taken in found.trace} == {"waits", "ends"}


def test_who_was_killed_in_its_sleep_does_not_wait() -> None:
    def world(host: Host) -> list[Function]:
        parent, children = two_children(host)

        async def kills() -> None:
            await parent.kill(children[0].pid, Signal.SIGKILL)
            await parent.wait4(children[0].pid)

        async def sleeps() -> None:
            await children[0].turn(Enter(Call.OTHER, 29))
            await children[0].turn(Leave(), lambda _: False)

        return [kills, sleeps]

    assert explore(world).passed


def test_a_limit_is_of_all_users() -> None:
    world = both(lost_wakeup(True, signals=0), lost_wakeup(True, 1002, signals=0))
    states = explore(world).states
    assert explore(world, limit=states).passed
    with pytest.raises(LimitReached, match=f"{states - 1} states is the limit"):
        explore(world, limit=states - 1)


def test_properties_of_ones_own() -> None:
    def one_process(host: Host) -> bool:
        return len(host.user(1001).view().processes) < 3

    def no_zombie(host: Host) -> None:
        states = [row.state.name for row in host.user(1001).view().processes]
        assert "ZOMBIE" not in states, states

    def a_number(host: Host) -> Any:
        return len(host.user(1001).view().processes)

    def another_user(host: Host) -> bool:
        return not host.user(1002).view().processes

    def a_step(host: Host) -> None:
        host.user(1001).spawn()

    def a_step_of_a_copy(host: Host) -> bool:
        with host.copy() as copy:
            return copy.user(1001).spawn().pid > 1002

    world = killed_world(False)
    assert explore(world, properties=[one_process]).why == "one_process doesn't hold"
    found = explore(world, properties=[no_zombie])
    assert verdict(found) == (False, 1) and found.why is not None and found.why.startswith("no_zombie: ['RUNS', 'ZOMBIE', 'RUNS']")
    assert explore(world, properties=[a_step_of_a_copy]).passed
    with pytest.raises(TypeError, match="a_number: a property asserts, or returns True or False, and not 3"):
        explore(world, properties=[a_number])
    with pytest.raises(ValueError, match="1002 isn't a user of this search"):
        explore(world, properties=[another_user])
    with pytest.raises(ValueError, match="makes no step"):
        explore(world, properties=[a_step])
