"""The cases of clients/posix/tests: each passes plain and under 50 seeds, and `tracehost --expect` replays each record.

Those of DIFFERENCES.txt assert what FreeBSD does and the model doesn't: they have to fail. TRACEHOST_TEST_SCALE multiplies
the seeds.
"""

from __future__ import annotations

import re

import pytest
from posix_kit import POSIX, SCALE, Posix, cases

SEEDS = 50 * SCALE
CASES = cases()
PREEMPTED = ["resuming_test.address_0_after_PT_ATTACH", "signals_test.alarm_taken_back"]
"""Their errors need two preemptions at certain places, which few seeds make."""
DIFFERENCES = {
    ".".join(found) for found in re.findall(r"^([a-z]\w*) (\w+)$", (POSIX / "tests/DIFFERENCES.txt").read_text(), re.MULTILINE)
}


def test_no_case_is_left_out(posix: Posix) -> None:
    assert len(CASES) >= 340
    assert DIFFERENCES < set(CASES)
    listed = posix.execute("make", "-s", "-C", POSIX / "tests", "list").stdout
    assert listed.split("\n") == [*(name.replace(".", " ") for name in CASES), ""]


@pytest.mark.parametrize("name", CASES)
def test_case(posix: Posix, name: str) -> None:
    program, case = name.split(".")
    done = posix.run("--schedules", SEEDS, "--verify", "--figures", posix.compiled(f"tests/{program}.c"), case, seconds=300 * SCALE)
    if name in DIFFERENCES:
        assert done.returncode == 1 and "fails under the plain schedule" in done.stderr, done.stderr
    else:
        assert done.returncode == 0, done.stderr
        assert f"tracehost-run: {SEEDS + 1} runs, " in done.stderr


@pytest.mark.parametrize("name", PREEMPTED)
def test_case_with_two_preemptions(posix: Posix, name: str) -> None:
    program, case = name.split(".")
    done = posix.run("--preemptions", 2, posix.compiled(f"tests/{program}.c"), case)
    assert done.returncode == 0 and "with at most 2 preemptions passed" in done.stderr, done.stderr
