"""What all runs of a command have in common, and a schedule to run.

A schedule is the plain one with some *switches*. Two numbers name a choice: the LWP that ran, and how many choices were made
while it ran. So a switch keeps its place if one before it is taken away.
"""

from __future__ import annotations

from collections.abc import Iterable
from itertools import chain, repeat
from typing import NamedTuple


class Broken(Exception):
    """The run can't go on: the broker, the runtime or the host has failed, and nothing is known of the program."""


class Died(Broken):
    """The broker has ended, and hasn't said why: another one may run the schedule."""


class Refused(Exception):
    """A file that was named isn't one for this; the text says so."""


class Options(NamedTuple):
    """What a run may do."""

    calls: bool = False
    """Others go on only between calls, not inside of them."""
    strict: bool = False
    """No handler runs for a signal that a debugger passes on, and a traced process stops for signals that are discarded."""
    limit: int = 20000
    """The questions after which a run counts as endless."""
    patience: float = 20.0
    """The seconds after which a thread that makes no call hangs."""
    output_limit: int = 64 << 20
    """The most bytes that a run whose output is kept may print."""
    coverage: bool = False
    """Notes the calls at which others could go on."""


class Setting(NamedTuple):
    """What all runs of a command have in common."""

    command: list[str]
    broker: str
    model: str
    """The program `tracehost`, for records."""
    options: Options = Options()
    kill_on_debugger_exit: bool | None = None
    early: bool = True
    """Under a seed a sleep ends at any time."""
    verify: bool = False
    """Each record is replayed by `tracehost --expect`."""


class Switch(NamedTuple):
    """A choice that isn't the plain schedule's: at this point of this LWP, another goes on."""

    tid: int
    point: int
    to: int


def text_of(switches: Iterable[Switch], asleep: Iterable[str] = ()) -> str:
    """Switches for --switches: `LWP.POINT:LWP,..`; for the broker, with what `Task.asleep` has of them."""
    legs = (f"={leg}" if leg else "" for leg in asleep)
    return ",".join(f"{switch.tid}.{switch.point}:{switch.to}{leg}" for switch, leg in zip(switches, chain(legs, repeat(""))))


ALL_POINTS = (1 << 63) - 1


class Task(NamedTuple):
    """A schedule to run."""

    seed: int | None = None
    depth: int | None = None
    """Of a bug, for priorities (PCT); None for random switches."""
    length: int = 0
    """Choices of a run, for priorities."""
    switches: tuple[Switch, ...] | None = None
    asleep: tuple[str, ...] = ()
    """What the legs touch that the switches postpone. The LWP of such a leg sleeps until another leg touches that."""
    points: int = 0
    """How many choices the result has that a search goes on from; the run is left behind the last of them."""
    after: tuple[int, int] | None = None
    """Of a search: the number of what its last switch comes after, and who goes on."""

    def name(self) -> str:
        return "the plain schedule" if self.seed is None else f"--seed {self.seed}"
