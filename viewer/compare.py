"""Two runs: which files are two traces, and the notes on steps of the second one."""

from __future__ import annotations

import argparse
import re
from collections.abc import Sequence
from typing import NamedTuple

import reading
import renaming
import tables

# the parts of the script of their page: each comes after those that it imports from
PARTS = (
    "names sorted words state facts signs dom tree failure compare_align compare_lines compare_runs compare_list "
    "compare_states compare_page compare_main"
).split()
MOST_FAULTS = 50  # that the page lists


class Note(NamedTuple):
    """A line above a step of the second run."""

    step: int
    text: str


def note(word: str) -> Note:
    """A note of the command line: STEP:TEXT."""
    found = re.fullmatch(r"([1-9][0-9]{0,15}):(.+)", word, re.DOTALL)
    if found is None:
        raise argparse.ArgumentTypeError(f"{word!r} isn't STEP:TEXT, with a STEP from 1")
    return Note(int(found[1]), found[2])


class Runs:
    """Files that may be two traces. One of these may be empty, as that of a run without steps is."""

    def __init__(self, files: list[reading.Read]) -> None:
        self.files = files
        traces = [file.is_trace for file in files]
        self.are_two = len(files) == 2 and any(traces) and all(file.is_blank or trace for file, trace in zip(files, traces))
        # what is wrong with them
        self.faults: list[str] = []
        if self.are_two:
            self.faults = [fault for file in files if not file.is_blank for fault in file.faults]
        elif len(files) == 2 and all(file.replies for file in files):
            name = files[traces.index(False)].name
            self.faults = [f"{name} isn't a trace; two runs need two traces (tracehost --json=trace)"]

    def title(self) -> str:
        return " and ".join(file.name for file in self.files)

    def data(self, notes: Sequence[Note]) -> reading.Object:
        """What their page contains."""
        values = tables.Values(is_sorted=True)
        left, right = (tables.rows_of(file, values) for file in self.files)
        other = renaming.Renaming(left, right, values.all(), values.place)
        rows = [left, [row + other.keys(row) for row in right]]
        more = [f"and {len(self.faults) - MOST_FAULTS} more"] if len(self.faults) > MOST_FAULTS else []
        return {
            "files": [{"name": file.name, "rows": own} for file, own in zip(self.files, rows)],
            "values": values.all(),
            "faults": [*self.faults[:MOST_FAULTS], *more],
            "notes": [note._asdict() for note in notes],
            "names": [[user, old, new] for user, own in sorted(other.names.items()) for new, old in sorted(own.items())],
        }
