"""What coroutines, waits and properties see of users that are searched apart: nothing that passes unseen."""

from __future__ import annotations

import json
from collections.abc import Callable
from typing import Any, Optional

import pytest
from searched import verdict
from worlds import Function, World

from tracehost import Act, Compute, Host, Signal, User
from tracehost.explore import Process, Property, Shared, State, deadlock, explore

Looks = Callable[[Host], bool]


def has_none(host: Host, uid: int) -> bool:
    return not host.user(uid).view().processes


def by_view(host: Host) -> bool:
    return has_none(host, 1002)


def by_copy(host: Host) -> bool:
    return has_none(host.copy(), 1002)


def by_copy_of_copy(host: Host) -> bool:
    with host.copy() as copy, copy.copy() as second:
        return has_none(second, 1002)


def by_call(host: Host) -> bool:
    try:
        return not host.copy().user(1002).process(2000).list()
    except ProcessLookupError:
        return True


def by_spawn(host: Host) -> bool:
    """Whether the number is free again doesn't tell; the call itself is refused."""
    return host.copy().user(1002).spawn().pid == 2000


def by_step(host: Host) -> bool:
    return "ESRCH" in host.copy().copy().line('{"user":1002,"op":"list","pid":2000}')


def by_line(host: Host) -> bool:
    text = json.dumps({"op": "list", "pid": 2000, "user": 1002})
    return "ESRCH" in host.copy().line(text.replace("user", "\\u0075ser"))


def by_lines_of_step(host: Host) -> bool:
    return "ESRCH" in host.copy().step({"user": 1002, "op": "list", "pid": 2000})


WAYS = [by_view, by_copy, by_copy_of_copy, by_call, by_spawn, by_step, by_line, by_lines_of_step]


def two_users(when: Optional[Looks]) -> World:
    """The process of each user is killed; with `when` that of 1001 only computes, once `when` says so."""

    def world(host: Host) -> list[Function]:
        first, second = (Process(host.user(uid), host.user(uid).spawn()) for uid in (1001, 1002))

        async def one() -> None:
            if when is None:
                await first.kill(first.pid, Signal.SIGKILL)
            else:
                await first.turn(Compute(), when)
                raise AssertionError("the bad state")

        async def two() -> None:
            await second.kill(second.pid, Signal.SIGKILL)

        return [one, two]

    return world


@pytest.mark.parametrize("looks", WAYS)
def test_a_property_of_another_user_is_refused(looks: Looks) -> None:
    with pytest.raises(ValueError, match="1002 isn't a user of this search: together=True searches all users at once"):
        explore(two_users(None), properties=[lambda host: not (has_none(host.copy(), 1001) and looks(host))])


@pytest.mark.parametrize("looks", WAYS)
def test_a_wait_for_another_user_is_refused(looks: Looks) -> None:
    with pytest.raises(ValueError, match="1002 isn't a user of this search: together=True searches all users at once"):
        explore(two_users(looks))


def test_together_they_fail() -> None:
    found = explore(two_users(None), properties=[lambda host: not (has_none(host, 1001) and by_copy(host))], together=True)
    assert verdict(found) == (False, 2)
    found = explore(two_users(by_copy_of_copy), together=True)
    assert verdict(found) == (False, 2) and found.why == "one: AssertionError: the bad state"


def test_a_copy_makes_steps_of_its_user() -> None:
    """What it shows is of this state, in a property and in a wait."""

    def grows(host: Host) -> bool:
        with host.copy() as copy:
            return copy.user(1001).spawn().pid == 1001 and len(copy.copy().user(1001).view().processes) == 2

    assert verdict(explore(two_users(grows), properties=[])) == (False, 1)

    def alone(host: Host) -> list[Function]:
        return two_users(None)(host)[:1]

    assert explore(alone, properties=[lambda host: grows(host) or has_none(host, 1001)]).passed


# ---- the world's own objects, and what is kept


def kept_world(keep: Callable[[Host], Any], use: Callable[[Any], object], where: str) -> World:
    """1001 uses something of the world's beginning later, in one of the functions that see a state."""

    def world(host: Host) -> list[Function]:
        first, second = (Process(host.user(uid), host.user(uid).spawn()) for uid in (1001, 1002))
        kept = keep(host)

        def when(_: Host) -> bool:
            return where == "when" and bool(use(kept))

        def act() -> Act:
            if where == "act":
                use(kept)
            return Compute()

        async def one() -> None:
            if where == "coroutine":
                use(kept)
            await first.turn(act, when if where == "when" else None)
            await first.turn(act)

        async def two() -> None:
            await second.kill(second.pid, Signal.SIGKILL)

        return [one, two]

    return world


@pytest.mark.parametrize("where", ["when", "act", "coroutine"])
@pytest.mark.parametrize(
    ("keep", "use"),
    [
        (lambda host: host.user(1002), lambda user: user.view().processes),
        (lambda host: host.user(1001), lambda user: user.view().processes),
        (lambda host: host.user(1001).process(1000), lambda process: process.list()),
        (lambda host: host.user(1001), lambda user: user.spawn()),
        (lambda host: host, lambda host: host.copy()),
        (lambda host: host.copy(), lambda copy: copy.user(1001).view()),
        (lambda host: host.copy().copy(), lambda copy: copy.user(1001).spawn()),
    ],
    ids=["view of another", "view", "a call", "a step", "a copy", "a copy's view", "a step of a copy's copy"],
)
@pytest.mark.parametrize("together", [False, True])
def test_what_the_world_has_made_is_closed(
    keep: Callable[[Host], Any], use: Callable[[Any], object], where: str, together: bool
) -> None:
    with pytest.raises((TypeError, AssertionError), match="this (host|copy) is that of"):
        found = explore(kept_world(keep, use, where), together=together)
        raise AssertionError(found.why)


@pytest.mark.parametrize("kept", ["host", "user", "copy"])
def test_what_a_property_keeps_is_closed(kept: str) -> None:
    """It would be another state's."""
    things: list[Any] = []

    def keeps(host: Host) -> None:
        user: User = (things[0] if things else host).user(1001)
        user.view()
        things.append({"host": host, "user": host, "copy": host.copy()}[kept])

    with pytest.raises(TypeError, match="this (host|copy) is that of"):
        explore(two_users(None), properties=[keeps])


# ---- shared values


def shared_world(host: Host) -> list[Function]:
    """1001 waits for what 1002 sets."""
    is_set = Shared(False)
    first, second = (Process(host.user(uid), host.user(uid).spawn()) for uid in (1001, 1002))

    async def waits() -> None:
        await first.turn(Compute(), lambda _: is_set.value)

    async def sets() -> None:
        await second.turn(Compute())
        is_set.value = True

    return [waits, sets]


def test_a_wait_for_a_value_of_another_user_is_refused_and_no_deadlock() -> None:
    with pytest.raises(ValueError, match="coroutines of several users share a value"):
        explore(shared_world)


@pytest.mark.parametrize("properties", [(deadlock,), None], ids=["deadlock", "all"])
def test_together_a_wait_for_another_user_is_no_deadlock(properties: Optional[tuple[Property]]) -> None:
    options: dict[str, Any] = {} if properties is None else {"properties": properties}

    def rows(host: Host) -> list[Function]:
        first, second = (Process(host.user(uid), host.user(uid).spawn()) for uid in (1001, 1002))

        async def waits() -> None:
            await first.turn(Compute(), by_copy)

        async def ends() -> None:
            await second.turn(Compute())
            await second.kill(second.pid, Signal.SIGKILL)

        return [waits, ends]

    for world in (shared_world, rows):
        assert explore(world, together=True, **options).passed

    def never(host: Host) -> list[Function]:
        return shared_world(host)[:1] + rows(host)[1:]

    found = explore(never, together=True, **options)
    assert found.why == "deadlock: waits waits in turn(Compute())" and verdict(found) == (False, 2)


def test_a_property_at_the_end_sees_the_values_of_its_state() -> None:
    shared: list[Shared[int]] = []
    ends = set()

    def world(host: Host) -> list[Function]:
        value = Shared(0)
        processes = [Process(host.user(1001), host.user(1001).spawn()) for _ in range(2)]
        shared.append(value)

        async def adds(number: int) -> None:
            await processes[number].turn(Compute())
            value.value = 10 * value.value + number + 1

        return [lambda: adds(0), lambda: adds(1)]

    def at_end(state: State) -> None:
        ends.add(shared[1].value)  # the second world is the one that is searched

    assert explore(world, properties=[Property("both", True, at_end)]).passed
    assert ends == {12, 21}


def test_a_property_looks_at_a_state_and_makes_no_step() -> None:
    def spawns(state: State) -> None:
        state.host.user(1001).spawn()

    def looks(state: State) -> Optional[str]:
        return None if len(state.host.user(1001).view().processes) < 2 else "too many"

    for at_end in (False, True):
        with pytest.raises(ValueError, match="makes no step"):
            explore(two_users(None), properties=[Property("spawns", at_end, spawns)])

    def alone(host: Host) -> list[Function]:
        return two_users(None)(host)[:1]

    assert explore(alone, properties=[Property("looks", at_end, looks) for at_end in (False, True)]).passed
