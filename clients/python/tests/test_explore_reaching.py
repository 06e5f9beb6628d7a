"""Properties of what can still come (`stuck`, `no_progress`, `can_reach`, `leads_to`), against an enumeration by plain lists."""

from __future__ import annotations

import os
from collections import Counter
from pathlib import Path
from typing import Any

import pytest
from enumerated import (
    ASKED,
    CHILD,
    DEBUGGER,
    UID,
    begin,
    enumerated,
    first_lacks,
    is_gone,
    is_stopped,
    scripts_by_chance,
    state_of,
    world_of,
)
from hypothesis import given
from hypothesis import strategies as st
from searched import replays, verdict
from worlds import Function, World, lost_wakeup

from tracehost import Compute, Host, New, ProcessState, Request, Signal
from tracehost.explore import Process, can_reach, deadlock, explore, leads_to, stuck
from tracehost.reaching import Graph

WORLDS = 150 * int(os.environ.get("TRACEHOST_TEST_SCALE", "1"))


def test_worlds_by_chance() -> None:
    counts: Counter[tuple[str, bool]] = Counter()
    for seed in range(WORLDS):
        scripts = scripts_by_chance(seed)
        world = world_of(scripts)
        for name, depth in first_lacks(enumerated(scripts) or {}).items():
            found = explore(world, properties=[ASKED[name]])
            assert verdict(found) == (depth is None, depth or 0), (seed, name, scripts, str(found))
            counts[name, found.passed] += 1
        assert explore(world, properties=[deadlock]).passed == explore(world, properties=[stuck]).passed
    assert counts.pop(("no_progress", True)) == WORLDS and ("no_progress", False) not in counts, "none goes round"
    assert len(counts) == 2 * len(ASKED) - 2 and min(counts.values()) > WORLDS // 50, counts


edges = st.lists(st.lists(st.integers(0, 11), max_size=3), min_size=12, max_size=12)
bits = st.lists(st.sampled_from([0, 0, 0, 1, 2, 3]), min_size=12, max_size=12)


@given(edges, bits, bits)
def test_graphs_with_circles(after_each: list[list[int]], due: list[int], now: list[int]) -> None:
    graph = Graph()
    for number in range(12):
        graph.add(due[number], now[number])
        graph.after[number].extend(after_each[number])

    def come(number: int, met: set[int]) -> set[int]:
        if number not in met:
            met.add(number)
            for later in after_each[number]:
                come(later, met)
        return met

    lacks = []
    for number in range(12):
        come_to = [now[later] for later in come(number, set())]
        lack = sum(bit for bit in (1, 2) if due[number] & bit and not any(one & bit for one in come_to))
        lacks += [(number, lack)] if lack else []
    assert graph.first_lack() == (lacks[0] if lacks else None)


# ---- in words


def ticks(world: World, times: int) -> World:
    """With one more process of the user, which has nothing to do with it."""

    def more(host: Host) -> list[Function]:
        functions = list(world(host))
        other = Process(host.user(UID), host.user(UID).spawn())

        async def tick() -> None:
            for _ in range(times):
                await other.turn(Compute())

        return [*functions, tick]

    return more


def test_a_lost_wakeup_beside_a_process_that_goes_on(program: Path, tmp_path: Path) -> None:
    world = ticks(lost_wakeup(False), 3)
    found = explore(world, properties=[stuck])
    assert verdict(found) == (False, 1) and found.why == "stuck: target waits for ever in turn(Raise(SIGUSR1))", str(found)
    replays(found, program, tmp_path)
    assert "tick" not in str(found)
    assert explore(ticks(lost_wakeup(True), 3), properties=[stuck]).passed


def test_what_can_not_be_reached(program: Path, tmp_path: Path) -> None:
    def leaves_it_stopped(host: Host) -> list[Function]:
        user, lwps = begin(host)
        debugger, child = Process(user, New(DEBUGGER, lwps[0])), Process(user, New(CHILD, lwps[1]))

        async def debug() -> None:
            await debugger.ptrace(Request.PT_ATTACH, CHILD)
            await debugger.wait4(CHILD)
            await debugger.kill(CHILD, Signal.SIGKILL)

        async def run() -> None:
            await child.turn(Compute())

        return [debug, run]

    def runs(host: Host) -> bool:
        return state_of(host, CHILD) is ProcessState.RUNS

    assert explore(leaves_it_stopped, properties=[can_reach(is_gone), leads_to(is_stopped, is_gone)]).passed
    found = explore(leaves_it_stopped, properties=[leads_to(is_stopped, runs)])
    assert verdict(found) == (False, 1), str(found)  # PT_ATTACH stops it
    assert found.why == "leads_to(is_stopped, runs): is_stopped holds, and runs can't be reached any more"
    replays(found, program, tmp_path)
    found = explore(leaves_it_stopped, properties=[can_reach(runs)])
    assert verdict(found) == (False, 1) and found.why == "can_reach(runs): runs can't be reached any more"
    with pytest.raises(TypeError, match="nothing: it returns True or False, and not None"):

        def nothing(host: Host) -> Any:
            return None

        explore(leaves_it_stopped, properties=[can_reach(nothing)])


def test_a_failure_of_the_first_kind_comes_first() -> None:
    """What can't come any more is asked once all states are known, and so after a failure of any other kind."""
    found = explore(lost_wakeup(False), properties=[stuck, deadlock])
    assert verdict(found) == (False, 3) and str(found.why).startswith("deadlock")
    assert verdict(explore(lost_wakeup(False), properties=[stuck])) == (False, 1)
