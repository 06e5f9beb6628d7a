"""Sessions that make lists and tables of all sizes, with each allocation refused in turn, and with none."""

from __future__ import annotations

from collections.abc import Iterator
from pathlib import Path

import pytest

from checking import Checks, Ended, needs, run
from shim import MEMORY, Run, Shim, check_all
from sizes import REFUSED_SESSIONS, WHOLE_SESSIONS, Counted, Sized

MOST_STEPS = 100000


def refused_allocations(shim: Shim, program: Path, session: Sized) -> Iterator[Run]:
    """Each allocation refused, one in a run."""
    command, least = (str(program), "--lines"), {"LEAST": session.least}
    prepared = Run(command, session.lines_of(session.preparing), least, ())
    first = shim.counts_of(prepared).allocations + 1 if session.preparing else 1
    last = shim.counts_of(Run(command, session.lines, least, ())).allocations
    for n in range(first, last + 1):
        yield Run(command, session.lines, {**least, "ALLOCATION": n}, (Counted(session, MEMORY),))


@pytest.fixture(scope="module")
def shim(tmp_path_factory: pytest.TempPathFactory) -> Shim:
    return Shim(tmp_path_factory.mktemp("shim"))


@pytest.mark.parametrize("name", WHOLE_SESSIONS)
def test_nothing_refused(program: Path, name: str) -> None:
    session = WHOLE_SESSIONS[name]()
    assert run(program, "--lines", given=session.lines) == Ended(0, session.text().decode(), "")
    if len(session.steps) <= MOST_STEPS:  # as a scenario too
        assert run(program, given=session.scenario) == Ended(0, session.text().decode(), "")


@needs("cc")
@pytest.mark.parametrize("name", REFUSED_SESSIONS)
def test_refused_allocations(shim: Shim, program: Path, name: str, checks: Checks) -> None:
    check_all(checks, shim, refused_allocations(shim, program, REFUSED_SESSIONS[name]()))
