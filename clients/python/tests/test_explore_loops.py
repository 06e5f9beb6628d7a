"""Coroutines that go round: its variables tell where one is, so loops are finite, and what is stuck beside them is found."""

from __future__ import annotations

import contextlib
import enum
import itertools
import os
import random
from collections import Counter, deque
from collections.abc import Callable, Coroutine, Generator
from typing import Any

import pytest
import worlds
from enumerated import ASKED, UID, enumerated, first_lacks, scripts_by_chance, world_of
from searched import by_chance, verdict
from worlds import Function, World

from tracehost import Action, Caught, Compute, Host, Raise, Signal
from tracehost.explore import LimitReached, Process, Shared, Unlike, explore
from tracehost.frames import Opaque, value_of

SCALE = int(os.environ.get("TRACEHOST_TEST_SCALE", "1"))
RACES: list[Callable[[bool], World]] = [
    worlds.lost_wakeup, worlds.stop_lost_at_detach, worlds.child_before_parent, worlds.chld_coalesced, worlds.status_stolen,
    worlds.attach_to_stopped, worlds.stop_before_wait, worlds.exec_with_threads, worlds.unannounced_child, worlds.tracer_dies,
    worlds.stale_lwp,
]  # fmt: skip


def beside(world: World) -> World:
    """With a process of the user that goes round for ever, and has nothing to do with it."""

    def more(host: Host) -> list[Function]:
        other = Process(host.user(UID), host.user(UID).spawn())

        async def tick() -> None:
            while True:
                await other.turn(Compute())

        return [*world(host), tick]

    return more


@pytest.mark.parametrize("race", RACES)
def test_a_race_is_found_beside_a_process_that_goes_round(race: Callable[[bool], World]) -> None:
    alone, found, right = explore(race(False)), explore(beside(race(False))), explore(beside(race(True)))
    assert right.passed and not found.passed and "tick" not in {taken.coroutine for taken in found.trace}
    if str(alone.why).startswith("deadlock"):
        assert str(found.why).startswith("stuck: ") and len(found.trace) <= len(alone.trace)
        assert str(found.why).endswith(", while others go on")
    else:
        assert len(found.trace) == len(alone.trace) and found.trace[-1].call.split("(")[0] == alone.trace[-1].call.split("(")[0]


def test_equal_places_change_no_verdict(monkeypatch: pytest.MonkeyPatch) -> None:
    """Against places that are told apart by all that their coroutine was told."""
    made = [*(race(right) for race in RACES for right in (False, True)), *(by_chance(seed, UID) for seed in range(60 * SCALE))]
    found = [explore(world) for world in made]
    monkeypatch.setattr("tracehost.coroutines.value_of", lambda *_: Opaque("test"))
    plain = [explore(world) for world in made]
    assert [verdict(one) for one in found] == [verdict(one) for one in plain]
    assert [one.why for one in found if one.error is None] == [one.why for one in plain if one.error is None]
    assert all(one.states <= other.states for one, other in zip(found, plain))
    assert any(one.states < other.states for one, other in zip(found, plain))


# ---- scripts by chance that go round, against an enumeration by plain lists


def test_scripts_that_go_round() -> None:
    counts: Counter[tuple[str, bool]] = Counter()
    for seed in range(50 * SCALE):
        chance = random.Random(seed)
        scripts, goes_round = scripts_by_chance(1000 + seed), [chance.random() < 0.6 for _ in range(3)]
        known = enumerated(scripts, goes_round, 400)
        for name, depth in {} if known is None else first_lacks(known).items():
            found = explore(world_of(scripts, goes_round), properties=[ASKED[name]])
            assert verdict(found) == (depth is None, depth or 0), (seed, name, scripts, goes_round, str(found))
            assert not found.passed or found.states == len(known or ())
            counts[name, found.passed] += 1
    assert min(counts[name, passed] for name in ASKED for passed in (False, True)) > 0, counts
    assert sum(counts.values()) > 60 * SCALE, counts


# ---- the value of a coroutine


class Once:
    def __init__(self, what: object = None) -> None:
        self.what = what

    def __await__(self) -> Generator[Any, Any, Any]:
        yield self


class Kind(enum.Enum):
    ONE = 1
    TWO = 2


class Slotted:
    __slots__ = ("what", "__dict__")


def value_after(function: Callable[[], Coroutine[Any, Any, Any]], sends: int) -> Any:
    coroutine = function()
    awaited = [coroutine.send(None) for _ in range(sends)][-1]
    try:
        return value_of(coroutine, awaited, lambda thing: None)
    finally:
        coroutine.close()


async def by_iterator() -> None:
    for one in [1, 1, 2]:
        await Once(one)


async def by_variable() -> None:
    count = 0
    while True:
        count += 1
        await Once()


async def by_closure() -> None:
    count = 0

    def add() -> None:
        nonlocal count
        count += 1

    while True:
        add()
        await Once()


async def by_sharing() -> None:
    one: list[int] = []
    other = one
    await Once()
    other = []
    await Once()
    del one, other


async def by_zero() -> None:
    value = 0.0
    await Once()
    value = -0.0
    await Once()
    del value


async def by_type() -> None:
    value: object = 1
    await Once()
    value = True
    await Once()
    del value


async def by_exception() -> None:
    for one in (ValueError(1), ValueError(2)):
        kept = one
        await Once()
    del kept


async def by_inner() -> None:
    async def inner(number: int) -> None:
        await Once()
        del number

    for number in (1, 2):
        await inner(number)


async def round_and_round() -> None:
    kind, kept = Kind.ONE, {"list": [1, (2, Kind.TWO)], "deque": deque([1], 3), "none": None}
    with contextlib.suppress(KeyError):
        while True:
            for _ in zip(range(2), enumerate("ab")):
                await Once((kind, kept))
            kept = {**kept}


@pytest.mark.parametrize(
    "function",
    [by_iterator, by_variable, by_closure, by_sharing, by_zero, by_type, by_exception, by_inner],
    ids=lambda function: str(function.__name__),
)
def test_what_can_not_be_seen_by_places_only_is_told(function: Callable[[], Coroutine[Any, Any, Any]]) -> None:
    first, second = value_after(function, 1), value_after(function, 2)
    assert not isinstance(first, Opaque) and first != second
    assert value_after(function, 1) == first and hash(value_after(function, 2)) == hash(second)


@pytest.mark.parametrize(("one", "other"), [((8, 0), (0, 8)), ((0, 8), (0, 16)), ((0,), (-0.0,)), ((1,), (True,))])
def test_sets_and_what_is_put_aside(one: tuple[Any, ...], other: tuple[Any, ...]) -> None:
    """Sets with the same numbers may be gone through in two orders."""

    async def keeps_set(given: tuple[Any, ...]) -> None:
        kept: set[Any] = set()
        kept.update(given)
        del given
        await Once(kept)

    async def puts_aside(given: tuple[Any, ...]) -> None:
        print([*given], given := (), await Once())

    for function in (keeps_set, puts_aside):
        values = [value_after(lambda: function(given), 1) for given in (one, other, one)]
        assert values[0] == values[2] != values[1]


def test_an_exception_that_was_handled_leaves_nothing() -> None:
    async def handles() -> None:
        for number in (0, 1, 0):
            with contextlib.suppress(ZeroDivisionError):
                number = 1 // number
            number = 0
            for _ in (1,):
                await Once()

    values = [value_after(handles, sends) for sends in (1, 2)]
    assert not isinstance(values[0], Opaque) and len(values[0][0]) == len(values[1][0])


def test_places_that_come_again() -> None:
    assert value_after(round_and_round, 1) == value_after(round_and_round, 3) != value_after(round_and_round, 2)
    assert value_after(round_and_round, 2) == value_after(round_and_round, 8)


@pytest.mark.parametrize(
    ("kept", "kind"),
    [
        (lambda: (one for one in range(1)), "generator"),
        (lambda: itertools.count(), "count"),
        (lambda: random.Random(1), "Random"),
        (lambda: Slotted(), "Slotted"),
        (lambda: bytearray(1), "bytearray"),
        (lambda: Counter(), "Counter"),
        (lambda: [].append, "builtin_function_or_method"),
        (lambda: [(number,) for number in range(20_000)], "long list"),
    ],
)
def test_what_is_not_known(kept: Callable[[], Any], kind: str) -> None:
    async def keeps() -> None:
        thing = kept()
        await Once()
        del thing

    value = value_after(keeps, 1)
    assert isinstance(value, Opaque) and str(value) == kind


def test_a_list_in_itself() -> None:
    async def keeps() -> None:
        kept: list[Any] = []
        kept.append(kept)
        while True:
            await Once()

    assert value_after(keeps, 1) == value_after(keeps, 2)


# ---- in searches


def one_process(host: Host) -> Process:
    return Process(host.user(UID), host.user(UID).spawn())


def test_a_limit_says_whose_variables_can_not_be_compared() -> None:
    def world(host: Host) -> list[Function]:
        process = one_process(host)

        async def counts() -> None:
            numbers = itertools.count()
            while next(numbers) >= 0:
                await process.turn(Compute())

        return [counts]

    with pytest.raises(
        LimitReached, match="20 states is the limit.*; counts keeps a count, and so is told apart by all that it was told"
    ):
        explore(world, limit=20)


KEPT: list[int] = []


def test_what_is_kept_elsewhere_is_told_in_a_loop_too() -> None:
    """In a variable of the module, which no place has."""

    def world(host: Host) -> list[Function]:
        process = one_process(host)
        KEPT.clear()

        async def keeps() -> None:
            while True:
                KEPT.append(1)
                await process.turn(Compute())
                await process.turn(Compute() if len(KEPT) < 3 else process_ends)

        return [keeps]

    process_ends = Raise(Signal.SIGKILL)
    with pytest.raises(Unlike, match="keeps .* went on with"):
        explore(world)


def test_shared_values_in_a_loop() -> None:
    """A value that is set on the way back to a place is set, whichever way was first."""

    def world(host: Host) -> list[Function]:
        setter, looker = one_process(host), one_process(host)
        value = Shared(0)

        async def sets() -> None:
            while True:
                for number in (0, 1, 2):
                    value.value = number
                    await setter.turn(Compute())

        async def looks() -> None:
            while True:
                await looker.turn(Compute(), lambda _: value.value == 2)

        return [sets, looks]

    found = explore(world)
    assert found.passed and found.states == 3, found


def test_what_a_coroutine_does_as_it_is_closed_is_no_step() -> None:
    """Of equal coroutines one is kept, and the others are closed."""

    def world(host: Host) -> list[Function]:
        tidy, other = one_process(host), one_process(host)
        host.user(UID).process(tidy.pid).sigaction(Signal.SIGUSR1, Action.CATCH)
        is_closed = Shared(False)

        async def tidies() -> None:
            try:
                while True:
                    if isinstance(await tidy.turn(Compute()), Caught):
                        continue  # to where another is that came round by the next step
                    await tidy.turn(Compute())
            finally:
                is_closed.value = True

        async def looks() -> None:
            while True:
                await other.kill(tidy.pid, Signal.SIGUSR1)
                assert not is_closed.value

        return [tidies, looks]

    found = explore(world)
    assert found.passed and found.states < 9, str(found)
