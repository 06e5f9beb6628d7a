"""Coroutines by what they were told, and memory that they share.

A coroutine can't be copied. So it is made anew, and told again what its calls have answered and what it has read of shared
memory. It has to do the same then, which is checked. One that is where it was before, with the same values, is at the same
place, though it was told more: that it goes on alike is checked for one step.
"""

from __future__ import annotations

import contextlib
from collections.abc import Callable, Coroutine, Hashable
from contextvars import ContextVar
from typing import Any, Generic, NamedTuple, Optional, TypeVar, Union

from .actors import Step, refuse_forgotten, take_forgotten
from .awaits import Awaits
from .frames import Opaque, value_of
from .host import Host, User

_T = TypeVar("_T")
MOST_LIVING = 4096
"""Coroutines of a function that are kept at their places."""
Function = Callable[[], Coroutine[Any, Any, Any]]


class Unlike(Exception):
    """A coroutine, or the world, does something else although it was told the same: its interleavings can't be searched."""


class Shared(Generic[_T]):
    """A value that coroutines share, made in the world's function. What is kept has to be hashable, as a number or a tuple is.

    A coroutine looks at it, and sets it, in one go with the step that it has just made.
    """

    def __init__(self, value: _T) -> None:
        memory = current_memory.get()
        if memory is None:
            raise RuntimeError("a Shared value is made in the function that makes the world")
        self._memory = memory
        self._place = self._memory.add(value)

    @property
    def value(self) -> _T:
        value: _T = self._memory.read(self._place)
        return value

    @value.setter
    def value(self, value: _T) -> None:
        self._memory.write(self._place, value)


class Memory:
    """The shared values of a world, at present."""

    def __init__(self) -> None:
        self.values: list[Any] = []
        self.users: list[set[int]] = []
        """Whose coroutines have looked at each value, or have set it."""
        self.user = 0
        self.is_read = False
        """Whether a value was read since this was set."""
        self.run: Union[None, Run, Deaf] = None
        """The coroutine that runs, which is told values again."""

    def add(self, value: Any) -> int:
        hash(value)
        self.values.append(value)
        self.users.append(set())
        return len(self.values) - 1

    def _touch(self, place: int) -> None:
        if self.user:
            self.users[place].add(self.user)

    def read(self, place: int) -> Any:
        self._touch(place)
        self.is_read = True
        return self.values[place] if self.run is None else self.run.read(place)

    def write(self, place: int, value: Any) -> None:
        hash(value)
        self._touch(place)
        if self.run is None:
            self.values[place] = value
        else:
            self.run.write(place, value)


class Answer(NamedTuple):
    """An answer, or a value that was read, as what it is compared by. Two types of replies may be equal as tuples."""

    kind: type
    value: Hashable


current_memory: ContextVar[Optional[Memory]] = ContextVar("current_memory", default=None)
"""That of the world that is being made."""


class Doing(NamedTuple):
    """What a coroutine does next: it awaits a step, reads a shared value, or ends, by an exception or without."""

    step: Optional[Step[Any]]
    reads: Optional[int]
    error: Optional[BaseException]
    writes: tuple[tuple[int, Any], ...]
    """The shared values that it sets before that."""

    @property
    def is_end(self) -> bool:
        return self.step is None and self.reads is None

    def is_as(self, other: Doing) -> bool:
        """Whether it does the same, as far as it shows."""
        return self._shown() == other._shown()

    def _shown(self) -> tuple[object, ...]:
        asked = None if self.step is None else (self.step.pid, self.step.asked)
        return asked, self.reads, type(self.error), self.writes

    def text(self) -> str:
        if self.step is not None:
            text = f"{self.step.pid} {self.step}"
        elif self.reads is not None:
            text = f"a look at shared value {self.reads}"
        else:
            text = "its end" if self.error is None else f"{type(self.error).__name__}: {self.error}"
        return "".join(f"shared value {where} = {value!r}, " for where, value in self.writes) + text


class Place:
    """How far a coroutine is: what it was told last, behind the place before."""

    __slots__ = ("number", "before", "told", "doing", "next", "same")

    def __init__(self, number: int, before: Optional[Place], told: Any) -> None:
        self.number = number
        self.before = before
        self.told = told
        self.doing: Optional[Doing] = None
        self.next: dict[Answer, Place] = {}
        self.same = self
        """An earlier place, at which the coroutine is equal: it goes on from there."""

    @property
    def known(self) -> Doing:
        assert self.doing is not None
        return self.doing


class Script:
    """A coroutine function, and the places that its coroutines had reached."""

    def __init__(self, name: str, function: Function, memory: Memory) -> None:
        self.name = name
        self.function = function
        self.memory = memory
        self.user: Optional[int] = None
        """Of its steps; None before it has made any."""
        self.awaits = Awaits()
        self.opaque: Optional[Opaque] = None
        """What the coroutine once kept and has no known value. So all that it was told tells its place."""
        self._values: dict[Hashable, Place] = {}
        self._places = [Place(0, None, None)]
        self._living: dict[int, Live] = {}
        """Coroutines that are at a place, by its number: one of them goes on, and for other answers it is made anew."""

    def begin(self, values: list[Any]) -> Place:
        """Where it is before its first step. `values` are the shared ones, which it may set."""
        return self._settled(self._places[0], values)

    def after(self, place: Place, answer: Any, values: list[Any]) -> Place:
        """Where it is once its step was answered, by an OSError too."""
        return self._settled(self.place(place, answer), values)

    def place(self, before: Place, told: Any) -> Place:
        key = key_of(told)
        found = before.next.get(key)
        if found is None:
            found = before.next[key] = Place(len(self._places), before, told)
            self._places.append(found)
        return found

    def takes(self, step: Step[Any]) -> None:
        """It awaits this step. Raises ValueError if it has awaited one of another user."""
        if self.user is None:
            self.user = step.uid
        elif self.user != step.uid:
            raise ValueError(f"{self.name}: a coroutine makes the calls of one user, and not of {self.user} and {step.uid}")

    @property
    def ends_at_errno(self) -> bool:
        """Whether the last answer was an errno, whenever the coroutine has ended."""
        ends = [place for place in self._places if place.doing is not None and place.doing.is_end]
        return bool(ends) and all(isinstance(_last_answer(place), OSError) for place in ends)

    def check(self, again: Script) -> None:
        """Goes to all places with coroutines of the same function in another world, in which no other coroutine has run.

        Raises Unlike if it does something else there.
        """
        for place in self._places:
            if not place.next and place.doing is not None:
                live = Live(self.name, again.function)
                Run(self, live, way_to(place), list(again.memory.values), again.memory).go()
                again._close(live)
            for after in place.same.next.values() if place.same is not place else ():
                live = Live(self.name, again.function)
                Run(self, live, [after, *way_to(place)], list(again.memory.values), again.memory).go()
                again._close(live)

    def close(self) -> None:
        for live in self._living.values():
            self._close(live)
        self._living.clear()

    def _close(self, live: Live) -> None:
        self.memory.run = Deaf(self.memory.values)
        live.close()
        self.memory.run = None

    def _make(self, place: Place, values: list[Any]) -> Live:
        """A coroutine at the first step behind this place."""
        live = Live(self.name, self.function)
        if (code := getattr(live.coroutine, "cr_code", None)) is not None:
            self.awaits.add(code)
        return Run(self, live, way_to(place), values, self.memory).go()

    def _settled(self, place: Place, values: list[Any]) -> Place:
        while True:
            if place.doing is None:
                self._explore(place, values)
            for where, value in place.known.writes:
                values[where] = value
            if place.known.reads is None:
                return place.same
            place = self.place(place, values[place.known.reads])

    def _explore(self, place: Place, values: list[Any]) -> None:
        """Goes on from the place before, to the next step."""
        live = None if place.before is None else self._living.pop(place.before.number, None)
        if live is None:
            live = self._make(place, list(values))
        else:
            Run(self, live, [place], list(values), self.memory).go()
        if live.step is None:
            return
        self._find_equal(live, live.step)
        if (number := live.place.number) in self._living:
            self._close(live)
            return
        if len(self._living) >= MOST_LIVING:
            self._close(self._living.pop(next(iter(self._living))))
        self._living[number] = live

    def _find_equal(self, live: Live, step: Step[Any]) -> None:
        """Puts the coroutine at the first place at which it was equal."""
        value = value_of(live.coroutine, step, parts_of)
        if isinstance(value, Opaque):
            self.opaque = value
        else:
            live.place.same = self._values.setdefault(value, live.place)
        live.place = live.place.same


def parts_of(thing: Any) -> Optional[tuple[Any, ...]]:
    """What tells things of a search apart. Hosts are closed to coroutines."""
    if isinstance(thing, Step):
        return thing.uid, thing.pid, thing.asked, thing.make, thing.which, thing.others
    if isinstance(thing, Shared):
        return (thing._place,)
    if isinstance(thing, User):
        return (thing.uid,)
    return () if isinstance(thing, Host) else None


def way_to(place: Place) -> list[Place]:
    """The places up to this one, the last one first."""
    way = [place]
    while (before := way[-1].before) is not None:
        way.append(before)
    return way


def _last_answer(place: Place) -> Any:
    """What a call has answered last on the way to this place; None before any."""
    while place.before is not None and place.before.known.step is None:
        place = place.before
    return place.told


def key_of(told: Any) -> Answer:
    if isinstance(told, OSError):
        return Answer(type(told), told.errno)
    return Answer(type(told), told)


class Live:
    """A coroutine: what it awaits, or the exception with which it has ended."""

    def __init__(self, name: str, function: Function) -> None:
        self._name = name
        self.coroutine: Any = function()
        if not isinstance(self.coroutine, Coroutine):
            raise TypeError(f"{name}: a function of a coroutine is expected, one with async def")
        self.step: Optional[Step[Any]] = None
        self.error: Optional[BaseException] = None
        self.place = Place(0, None, None)
        """At which it awaits that."""

    def tell(self, told: Any) -> None:
        """Goes on to the next step; at the beginning it is told None. An OSError is raised in it."""
        self.step = None
        try:
            if isinstance(told, OSError):
                step = self.coroutine.throw(type(told)(*told.args))
            else:
                step = self.coroutine.send(told)
        except StopIteration:
            refuse_forgotten(self._name)
            return
        except (KeyboardInterrupt, SystemExit):
            raise
        except BaseException as error:  # that of pytest.fail is no Exception
            self.error = error
            return
        if not isinstance(step, Step):
            raise TypeError(f"{self._name} awaits {step!r}, which is no call of a tracehost.explore.Process")
        refuse_forgotten(self._name)
        self.step = step

    def close(self) -> None:
        with contextlib.suppress(Exception):  # of what it does as it is closed
            self.coroutine.close()
        take_forgotten()  # of those that it has kept for later


class Run:
    """A run of a coroutine along places that are known, or to one that is to be, and on to its next step."""

    def __init__(self, script: Script, live: Live, way: list[Place], values: list[Any], memory: Memory) -> None:
        """`way` has the next place last. `values` are the shared ones that it sees behind the way."""
        self._script, self._live, self._memory = script, live, memory
        self._values = values
        self._way = way
        self._place = way.pop()
        self._writes: list[tuple[int, Any]] = []
        self._fault: Optional[Unlike] = None

    def go(self) -> Live:
        """Raises Unlike if it does something else than it did before."""
        memory = self._memory
        memory.run, memory.user = self, self._script.user or 0
        try:
            self._feed(self._place.told)
        finally:
            memory.run = None
        if self._fault is not None:
            raise self._fault
        return self._live

    def _feed(self, told: Any) -> None:
        live = self._live
        while True:
            live.tell(told)
            if live.step is not None:
                self._script.takes(live.step)
            self._reaches(live.step, None, live.error)
            live.place = self._place
            if live.step is None or not self._way or self._fault is not None:
                return
            self._place = self._way.pop()
            told = self._place.told

    def read(self, where: int) -> Any:
        self._reaches(None, where, None)
        if self._way:
            self._place = self._way.pop()
            return self._place.told
        value = self._values[where]
        self._place = self._script.place(self._place, value)
        return value

    def write(self, where: int, value: Any) -> None:
        if not self._way:
            self._values[where] = value
        self._writes.append((where, value))

    def _reaches(self, step: Optional[Step[Any]], reads: Optional[int], error: Optional[BaseException]) -> None:
        """What the coroutine does at this place. Keeps it, or compares it with what it did before."""
        now = Doing(step, reads, error, tuple(self._writes))
        self._writes = []
        known = self._place.doing
        if known is None:
            self._place.doing = now
            if step is not None:
                self._script.awaits.suspend(self._live.coroutine)
        elif not now.is_as(known) and self._fault is None:
            self._fault = Unlike(
                f"{self._script.name} was told the same twice, and went on with {known.text()}, then with {now.text()}:"
                " it keeps something between two runs, or shares memory that is no Shared value"
            )


class Deaf:
    """In place of a run, for coroutines that are being closed: what they set has no effect."""

    def __init__(self, values: list[Any]) -> None:
        self._values = values

    def read(self, where: int) -> Any:
        return self._values[where]

    def write(self, where: int, value: Any) -> None:
        pass
