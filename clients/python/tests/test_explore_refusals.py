"""What `tracehost.explore` refuses, what is no pass, and coroutines that do odd things."""

from __future__ import annotations

from collections.abc import Callable
from concurrent.futures import ThreadPoolExecutor
from contextlib import suppress
from pathlib import Path
from typing import Any

import pytest
from searched import replays, verdict
from worlds import Function, World, lost_wakeup, stop_lost_at_detach, traced_child

from tracehost import Action, Call, Compute, Decision, Enter, Host, Leave, Raise, RecordingFailed, Request, Rule, Signal
from tracehost.explore import LimitReached, Process, Shared, Unlike, ended_by_signal, explore
from tracehost.replies import Answered
from tracehost.typed import TypedCalls


def one_process(host: Host) -> Process:
    return Process(host.user(1001), host.user(1001).spawn())


def test_a_limit_is_no_pass() -> None:
    states = explore(lost_wakeup(True)).states
    assert explore(lost_wakeup(True), limit=states).passed
    with pytest.raises(LimitReached, match=f"the limit of {states - 1} states|{states - 1} states is the limit"):
        explore(lost_wakeup(True), limit=states - 1)


def counts_runs() -> World:
    runs = 0

    def world(host: Host) -> list[Function]:
        process = one_process(host)

        async def fickle() -> None:
            nonlocal runs
            await process.act(Compute())
            runs += 1
            await process.turn(Raise(Signal.SIGUSR1) if runs % 2 else Compute())

        return [fickle]

    return world


def shares_without_telling() -> World:
    def world(host: Host) -> list[Function]:
        first, second = one_process(host), one_process(host)
        shared = [0]

        async def sets() -> None:
            await first.act(Compute())
            shared[0] += 1

        async def looks() -> None:
            await second.act(Compute())
            await second.turn(Compute() if shared[0] else Raise(Signal.SIGUSR1))

        return [sets, looks]

    return world


def another_world() -> World:
    made = 0

    def world(host: Host) -> list[Function]:
        nonlocal made
        made += 1
        for _ in range(made):
            process = one_process(host)

        async def fails() -> None:
            assert await process.turn(Compute()) is not None

        return [fails]

    return world


@pytest.mark.parametrize(
    ("world", "name"),
    [(counts_runs, "fickle was told the same twice"), (shares_without_telling, "looks was told"), (another_world, "the world")],
)
def test_what_is_not_the_same_when_it_is_made_again(world: Callable[[], World], name: str, tmp_path: Path) -> None:
    with pytest.raises(Unlike, match=name):
        found = explore(world())
        assert not found.passed
        found.save(tmp_path / "race.json")


def awaits_nothing(host: Host) -> list[Any]:
    async def idle() -> None:
        pass

    return [idle]


def awaits_another_thing(host: Host) -> list[Any]:
    import asyncio

    async def sleeps() -> None:
        await asyncio.sleep(0)

    return [sleeps]


def forgets_to_await(host: Host) -> list[Any]:
    process = one_process(host)

    async def forgets() -> None:
        await process.act(Compute())
        process.ptrace(Request.PT_TRACE_ME)
        await process.act(Compute())

    return [forgets]


def makes_steps_at_once(host: Host) -> list[Any]:
    one_process(host).turn(Compute())
    return []


def returns_coroutines(host: Host) -> list[Any]:
    async def ends() -> None:
        pass

    coroutine = ends()
    coroutine.close()
    return [coroutine]


def returns_functions(host: Host) -> list[Any]:
    return [lambda: None]


def keeps_a_list(host: Host) -> list[Any]:
    Shared([])
    return []


@pytest.mark.parametrize(
    ("world", "kind", "said"),
    [
        (awaits_nothing, ValueError, "no coroutine of this world awaits a step"),
        (awaits_another_thing, TypeError, "sleeps awaits None, which is no call"),
        (forgets_to_await, TypeError, r"forgets: ptrace\(PT_TRACE_ME\) isn't awaited, and so isn't made"),
        (makes_steps_at_once, TypeError, r"the world: turn\(Compute\(\)\) isn't awaited"),
        (returns_coroutines, TypeError, "functions with async def"),
        (returns_functions, TypeError, "one with async def"),
        (keeps_a_list, TypeError, "unhashable type: 'list'"),
    ],
)
def test_mistakes(world: World, kind: type[Exception], said: str) -> None:
    with pytest.raises(kind, match=said):
        explore(world)


def test_a_shared_value_belongs_to_a_world() -> None:
    with pytest.raises(RuntimeError, match="in the function that makes the world"):
        Shared(0)


def test_a_pass_has_no_trace(tmp_path: Path) -> None:
    with pytest.raises(ValueError, match="all interleavings pass"):
        explore(lost_wakeup(True, signals=1)).save(tmp_path / "race.json")


def test_a_coroutine_that_uses_the_host_itself() -> None:
    """It would be another state's."""

    def world(host: Host) -> list[Function]:
        process = one_process(host)

        async def looks() -> None:
            await process.act(Compute())
            host.user(1001).view()

        return [looks]

    found = explore(world)
    assert found.why is not None and found.why.startswith("looks: TypeError: this host is that of the world's beginning")


def test_a_step_without_memory_ends_the_search(monkeypatch: pytest.MonkeyPatch) -> None:
    """It is no answer of the model: an equal state may be answered otherwise."""

    def world(host: Host) -> list[Function]:
        process = one_process(host)

        async def spares() -> None:
            with suppress(OSError):
                await process.kill(process.pid, 0)

        return [spares]

    def kill(calls: Any, uid: int, pid: int, which: int, signal: int) -> None:
        raise Answered("ENOMEM")

    assert explore(world).passed
    monkeypatch.setattr(TypedCalls, "kill", kill)
    with pytest.raises(MemoryError, match=r"kill\(1000, 0\) by 1000: ENOMEM"):
        explore(world)


def test_a_full_disk(tmp_path: Path) -> None:
    found = explore(lost_wakeup(False))
    with pytest.raises(OSError):
        found.save("/dev/full", tmp_path / "lines")
    with pytest.raises((OSError, RecordingFailed)):
        found.save(tmp_path / "race.json", "/dev/full")
    with pytest.raises(FileNotFoundError):
        found.save(tmp_path / "nothing/race.json")


def test_searches_in_two_threads() -> None:
    """They share nothing."""
    with ThreadPoolExecutor(4) as pool:
        found = list(pool.map(lambda number: explore(stop_lost_at_detach(number % 2 == 0)), range(8)))
    assert [verdict(one) for one in found] == [(True, 0), (False, 13)] * 4
    assert len({one.states for one in found}) == 2


# ---- coroutines


def test_answers_of_one_form_are_told_apart() -> None:
    """Caught(30) and Ended(30) are equal as tuples: a coroutine that was told the one goes another way than with the other."""

    def world(host: Host) -> list[Function]:
        user = host.user(1001)
        one, other = one_process(host), one_process(host)
        user.process(other.pid).sigaction(Signal.SIGUSR1, Action.CATCH)

        async def posts() -> None:
            await other.kill(one.pid, Signal.SIGUSR1)

        async def changes() -> None:
            await other.act(Compute())

        async def runs() -> None:
            user_of = await one.turn(Compute())
            assert user_of is None, type(user_of).__name__

        return [posts, changes, runs]

    found = explore(world)
    assert verdict(found) == (False, 2) and str(found.why).startswith("runs: AssertionError: Ended")


def test_errors_are_raised_in_the_coroutine_and_finally_runs() -> None:
    def world(host: Host) -> list[Function]:
        process = one_process(host)
        shared = Shared(0)

        async def fails() -> None:
            try:
                await process.ptrace(Request.PT_CONTINUE, 4711)
            except ProcessLookupError:
                shared.value += 1
            finally:
                shared.value += 1
            await process.install([Rule(Decision.LEAVE)])
            await process.sigaction(Signal.SIGUSR1, Action.SIG_IGN)
            assert shared.value == 2 and await process.list() == (1000,)
            await process.ptrace(Request.PT_CONTINUE, 1000, 99)

        return [fails]

    found = explore(world)
    assert verdict(found) == (False, 5)
    why = "PermissionError: [Errno 1] ptrace(PT_CONTINUE, 1000, 99) by 1000: EPERM, 1000 isn't traced"
    assert found.why == f"fails: {why}"


def test_calls_that_are_kept_for_later() -> None:
    """Each is awaited in the end, if its coroutine isn't closed before."""

    def world(host: Host) -> list[Function]:
        processes = [one_process(host) for _ in range(2)]

        async def later(process: Process) -> None:
            kept = process.turn(Compute())
            for _ in range(2):
                await process.turn(Compute())
            await kept

        return [lambda: later(processes[0]), lambda: later(processes[1])]

    with pytest.raises(LimitReached):  # it leaves coroutines in their midst
        explore(world, limit=9)
    found = explore(world)
    assert found.passed and found.states == 4 * 4


def test_a_failure_by_pytest_is_one() -> None:
    def world(host: Host) -> list[Function]:
        process = one_process(host)

        async def gives_up() -> None:
            await process.act(Compute())
            pytest.fail("no way")

        return [gives_up]

    assert explore(world).why == "gives_up: Failed: no way"


def test_the_setting_of_the_host(program: Path, tmp_path: Path) -> None:
    """Whether the end of a debugger kills its target is told to the search, and is in the saved scenario."""

    def world(host: Host) -> list[Function]:
        debugger, child = traced_child(host.user(1001))

        async def ends() -> None:
            await debugger.act(Enter(Call.EXIT, 0))
            await debugger.act(Leave())

        async def runs() -> None:
            await child.act(Compute())

        return [ends, runs]

    killed = explore(world, properties=[ended_by_signal])
    assert verdict(killed) == (False, 2)
    replays(killed, program, tmp_path)
    assert explore(world, properties=[ended_by_signal], kill_on_debugger_exit=False).passed
