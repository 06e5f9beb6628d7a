"""The parts of the viewer's script, by node's tests of them in tests/node."""

from __future__ import annotations

import os
import re
import subprocess
from pathlib import Path

import pytest
import viewer_runs
from checking import TOP, Checks, needs, run

PARTS = {path.name.removesuffix(".test.mjs"): path for path in sorted((TOP / "tests/node").glob("*.test.mjs"))}
RESULT = re.compile(r"^(not ok|ok) \d+ - (.*)$", re.MULTILINE)
SECONDS = 600

pytestmark = needs("node")


@pytest.fixture(scope="module")
def runs(tmp_path_factory: pytest.TempPathFactory) -> Path:
    """A folder with random scenarios, which node's tests read."""
    room = tmp_path_factory.mktemp("runs")
    viewer_runs.write(room)
    return room


def test_node_reads_the_joined_script(tmp_path: Path) -> None:
    page = run(TOP / "viewer/make").out
    script = re.search(r"^<script>$\n(.*?)^</script>$", page, re.MULTILINE | re.DOTALL)
    assert script
    (tmp_path / "script.js").write_text(script[1])
    assert run("node", "--check", tmp_path / "script.js").status == 0


@pytest.mark.parametrize("part", PARTS)
def test_part(part: str, runs: Path, program: Path, checks: Checks) -> None:
    """Each of node's tests counts as a check."""
    ran = subprocess.run(
        ["node", "--test", "--test-reporter=tap", PARTS[part]], cwd=TOP, env={**os.environ, "PROGRAM": str(program), "RUNS": str(runs)},
        stdin=subprocess.DEVNULL, stdout=subprocess.PIPE, stderr=subprocess.STDOUT, text=True, timeout=SECONDS, check=False,
    )  # fmt: skip
    for result, name in RESULT.findall(ran.stdout):
        checks.check(result == "ok" and "# SKIP" not in name, name)
    counted = {name: int(number) for name, number in re.findall(r"^# (\w+) (\d+)$", ran.stdout, re.MULTILINE)}
    assert (ran.returncode, counted["pass"], counted["tests"]) == (0, checks.made, checks.made), ran.stdout[-3000:]
