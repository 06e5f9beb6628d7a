"""No caller sleeps for good at the open door of a shared host: door.py goes through all orders of a few callers' steps, and
door_source.py compares the steps with the sources."""

from __future__ import annotations

import os
import re
import shutil
from pathlib import Path

import pytest

from checking import Checks, needs
from door import FAULTS, search, ways
from door_source import SOURCES, check_source, check_steps, shapes_in

EVENT_COUNT = "rattle/crossbeam_utils/src/sync/event_count.rt"
# callers, the calls of each, and how many announce theirs
SIZES = [(2, 3, 0), (2, 3, 1), (2, 3, 2), (3, 2, 1), (3, 2, 2), (3, 3, 0), (3, 3, 3), (4, 1, 0)]
# these take minutes
if int(os.environ.get("TRACEHOST_TEST_SCALE", "1")) > 1:
    SIZES += [(3, 3, 1), (3, 3, 2), (2, 9, 0), (2, 9, 1), (2, 9, 2), (4, 2, 0), (4, 2, 4)]


@pytest.mark.parametrize(("callers", "calls", "announcing"), SIZES)
def test_no_caller_sleeps_for_good(callers: int, calls: int, announcing: int) -> None:
    found = search(callers, calls, announcing)
    print(f"{found.states} states")
    assert found.sleepers == 0
    assert found.strangers == 0, "a ticket is not served at the first look"


def test_an_announced_call_that_is_never_made_leaves_one_asleep() -> None:
    assert search(2, 2, announcing=1, unmade=1).sleepers > 0


@pytest.mark.parametrize("fault", FAULTS)
def test_a_fault_is_seen(fault: str) -> None:
    assert search(3, 2, fault=fault).sleepers > 0


@pytest.mark.parametrize("file", ["host.rt", "door.rt", "turn.rt"])
def test_the_source_has_the_shape(file: str, checks: Checks) -> None:
    check_source(checks, SOURCES / file)


@needs("rt")
def test_the_event_count_of_the_kit_has_the_shape(checks: Checks) -> None:
    check_source(checks, Path(shutil.which("rt") or "/").resolve().parent.parent / EVENT_COUNT)


def test_the_steps_of_the_machine(checks: Checks) -> None:
    check_steps(checks, ways())


@pytest.mark.parametrize(
    ("old", "new"),
    [
        pytest.param(
            r"(let call = .*?\n) *self\.is_called\.store\(false, SeqCst\);\n( *)self\.trying\.fetch_sub\(1, SeqCst\);",
            r"\1\2self.trying.fetch_sub(1, SeqCst);\n\2self.is_called.store(false, SeqCst);",
            id="two lines in another order",
        ),
        pytest.param(r"load\(SeqCst\) == 0", "load(SeqCst) != 0", id="another condition"),
        pytest.param(r"\n *self\.sleepers\.notify_one\(\);", "", id="a line less"),
    ],
)
def test_a_change_of_the_source_is_seen(old: str, new: str) -> None:
    text = (SOURCES / "door.rt").read_text(encoding="utf-8")
    changed = re.sub(old, new, text)
    assert changed != text
    assert shapes_in(changed) != shapes_in(text)
