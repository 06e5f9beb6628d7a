"""What a search asks of its states: properties, and functions that look at a host."""

from __future__ import annotations

from collections.abc import Callable, Iterable, Sequence
from typing import NamedTuple, Optional, Union

from .actors import Explored
from .host import Host
from .reaching import Reachable, name_of


class State(NamedTuple):
    """What a property is asked about."""

    host: Explored
    user: int
    waiting: Sequence[str]
    """Of the user's coroutines, if none of them can go on, those that haven't ended, and in which call each waits."""
    was_live: Sequence[int]
    """The user's processes that were live before the step that led here."""
    exited: Optional[int]
    """The process that has left the call exit by that step."""


class Property:
    """What has to hold: in each state, or in those in which none of a user's coroutines can go on."""

    def __init__(self, name: str, at_end: bool, broken: Callable[[State], Optional[str]]) -> None:
        self.name = name
        self.at_end = at_end
        self.broken = broken

    def __repr__(self) -> str:
        return self.name


stuck = Property("stuck", True, lambda state: None)
"""From each state, each coroutine that waits can still come to a state in which it goes on or has ended."""
no_progress = Property("no_progress", True, lambda state: None)
"""No coroutine goes round for ever with calls that change nothing. It fails in a state from which one never ends, none of its
steps ever changes what a user sees or a shared value, and calls of it never cease. Others may go on. One that only computes is
no failure; nor is a loop in which something changes."""
Asked = Union[Property, Reachable, Callable[[Host], object]]


class Judge:
    """What has to hold."""

    def __init__(self, properties: Iterable[Asked]) -> None:
        given = list(properties)
        own = [asked for asked in given if isinstance(asked, Property)]
        self._always = [asked for asked in own if not asked.at_end]
        self._at_end = [asked for asked in own if asked.at_end and asked not in (stuck, no_progress)]
        self.asks_stuck = stuck in own
        self.asks_progress = no_progress in own
        self.others_go_on = any(asked.name == "deadlock" for asked in own)
        """Where a coroutine is stuck: else that was a deadlock."""
        self.reachable = [asked for asked in given if isinstance(asked, Reachable)]
        self._functions = [asked for asked in given if not isinstance(asked, (Property, Reachable))]
        self.needs_live = bool(self._always)
        self._unasked: set[object] = {asked for asked in given if isinstance(asked, Reachable) and asked.premise is not None}
        self._unasked.update(asked for asked in self._at_end if asked.name != "deadlock")

    @property
    def asks_what_comes(self) -> bool:
        """Whether something is asked that only all states together tell."""
        return self.asks_stuck or self.asks_progress or bool(self.reachable)

    def unasked(self) -> list[str]:
        """The properties that were asked for in no state: before an arrow nothing held, or no user came to an end."""
        return sorted(map(repr, self._unasked))

    def always(self, state: State) -> Optional[str]:
        """What is wrong in a state."""
        why = _first_broken(self._always, state)
        for function in () if why is not None else self._functions:
            name = name_of(function)
            try:
                says = state.host.looked_at(function)
            except AssertionError as error:
                return f"{name}: {error}".removesuffix(": ")
            if says is not None and not isinstance(says, bool):
                raise TypeError(f"{name}: a property asserts, or returns True or False, and not {says!r}")
            if says is False:
                return f"{name} doesn't hold"
        return why

    def at_end(self, state: State) -> Optional[str]:
        """What is wrong once none of the user's coroutines can go on."""
        self._unasked.difference_update(self._at_end)
        return _first_broken(self._at_end, state)

    def goals(self, host: Explored) -> tuple[int, int]:
        """Bits of the reachable properties: which goals have to come from this state on, and which are so in it."""
        due = now = 0
        for number, asked in enumerate(self.reachable):
            if asked.premise is None or _holds(asked.premise, host):
                due |= 1 << number
                self._unasked.discard(asked)
            now |= _holds(asked.goal, host) << number
        return due, now


def _first_broken(properties: Iterable[Property], state: State) -> Optional[str]:
    for asked in properties:
        why = state.host.looked_at(lambda _: asked.broken(state))
        if why is not None:
            return why
    return None


def _holds(function: Callable[[Host], object], host: Explored) -> bool:
    says = host.looked_at(function)
    if not isinstance(says, bool):
        raise TypeError(f"{name_of(function)}: it returns True or False, and not {says!r}")
    return says
