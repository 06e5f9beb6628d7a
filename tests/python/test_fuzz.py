"""Random scenarios and hostile texts: the program against the second model, in reference/, which was written from
docs/internals/MACHINE.md and docs/FORMAT.md only. The seed is the day's, so that each day has other scenarios.

    PYTHONPATH=. python3 tests/python/fuzz.py PROGRAM FOLDER --seed DAY/ROUND    makes the same scenarios again
"""

from __future__ import annotations

import tempfile
from pathlib import Path

from checking import Checks
from fuzz import Fuzz, make_rounds, today

SECONDS = 60


def test_the_program_does_what_the_second_model_does(program: Path, checks: Checks) -> None:
    folder = Path(tempfile.gettempdir(), "tracehost-fuzz")  # what differs is left there
    folder.mkdir(exist_ok=True)
    make_rounds(Fuzz(program, folder, today(), checks), 0, None, SECONDS)
