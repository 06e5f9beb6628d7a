"""The expected output of crates/test_explorer is what an enumeration of all traces finds; the gate compares it with what the
proved exploration prints. If an allocation is refused, nothing is said of the system.
"""

from __future__ import annotations

import os
from collections.abc import Iterator
from pathlib import Path

import pytest

from checking import TOP, Checks, needs
from enumerated_systems import lines
from shim import Run, Shim, check_all, fault, whole
from tracehost.library import load

CRATE = TOP / "crates/test_explorer"
PROGRAM = CRATE / "out/test_explorer"
TEXT = (CRATE / "stdout").read_bytes()


def test_the_verdicts_are_those_of_an_enumeration(library: Path) -> None:
    assert TEXT.decode().splitlines() == lines(load(str(library / "libtracehost.so")))


def refused_allocations(shim: Shim) -> Iterator[Run]:
    """The lines before the refusal are those of a run with ample memory, and no other is printed."""
    command, fronts = (str(PROGRAM),), TEXT.splitlines(keepends=True)
    counts = shim.counts_of(Run(command, b"", {}, (whole(TEXT),)))
    ends = tuple(fault("test_explorer: out of memory", b"".join(fronts[:at])) for at in range(len(fronts)))
    for n in range(1, counts.allocations + 1):
        yield Run(command, b"", {"ALLOCATION": n}, ends)


@pytest.mark.skipif(not os.access(PROGRAM, os.X_OK), reason="the program test_explorer is not built: the gate builds it")
@needs("cc")
def test_nothing_is_said_if_memory_runs_out(tmp_path: Path, checks: Checks) -> None:
    shim = Shim(tmp_path)
    check_all(checks, shim, refused_allocations(shim))
