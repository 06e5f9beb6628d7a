"""What tests of `tracehost.explore` search besides races, and how they look at what is found."""

from __future__ import annotations

import os
import random
import subprocess
from pathlib import Path

from tracehost import Action, Call, Compute, Enter, Host, Leave, Raise, Request, Signal, WaitOption
from tracehost.explore import Found, Process
from worlds import YIELD, Function, World, forked, traced_child


def by_chance(seed: int, uid: int, length: int = 2) -> World:
    """A debugger, its target and one more child, which do what chance chooses. Some wait for ever, and some are killed."""

    def world(host: Host) -> list[Function]:
        chance = random.Random(seed)
        user = host.user(uid)
        debugger, child = traced_child(user)
        other = Process(user, forked(user, debugger.tid))
        if chance.random() < 0.5:
            user.process(debugger.pid).sigaction(Signal.SIGCHLD, Action.CATCH)
        asked = [chance.randrange(9) for _ in range(length)]
        done = [[chance.randrange(5) for _ in range(steps)] for steps in (length, 1)]

        async def debug() -> None:
            for number in asked:
                try:
                    if number < 3:
                        waited = await debugger.wait4(options=WaitOption.WNOHANG if number == 0 else WaitOption(0))
                        assert not (waited.pid and os.WIFSIGNALED(waited.status)), "killed"
                    elif number < 6:
                        await debugger.ptrace(Request.PT_CONTINUE, child.pid, 0 if number < 5 else Signal.SIGUSR1)
                    elif number < 8:
                        await debugger.kill((child if number == 6 else other).pid, Signal.SIGUSR2)
                    else:
                        await debugger.turn(Compute())
                except OSError:
                    pass

        async def run(process: Process, acts: list[int]) -> None:
            for number in acts:
                if number == 4:
                    await process.turn(Enter(Call.OTHER, YIELD))
                    await process.act(Leave())
                else:
                    await process.turn(Compute() if number < 2 else Raise(Signal.SIGUSR1 if number == 2 else Signal.SIGTRAP))
            await process.act(Compute())

        async def first() -> None:
            await run(child, done[0])

        async def second() -> None:
            await run(other, done[1])

        return [debug, first, second]

    return world


def both(one: World, other: World) -> World:
    return lambda host: [*one(host), *other(host)]


def verdict(found: Found) -> tuple[bool, int]:
    return found.passed, len(found.trace)


def replays(found: Found, program: Path, folder: Path) -> None:
    """`tracehost --expect` agrees with the saved trace, whose last lines are the steps of the trace."""
    found.save(folder / "race.json")
    words = [str(program), str(folder / "race.json"), "--expect", str(folder / "race.out")]
    ended = subprocess.run(words, capture_output=True, text=True, check=False)
    assert (ended.returncode, ended.stdout, ended.stderr) == (0, "", "")
    assert len((folder / "race.out").read_text().splitlines()) > len(found.trace)
