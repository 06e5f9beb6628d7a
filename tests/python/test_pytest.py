"""The plugin for pytest and what is for Hypothesis: their tests, the suite of a small debugger,
and the tests on docs/CLIENTS.md.
"""

from __future__ import annotations

import os
import re
import shutil
import subprocess
import sys
from pathlib import Path

import pytest
from checking import TOP, run

pytest.importorskip("hypothesis")

CLIENT = TOP / "clients/python"
PAGE = (TOP / "docs/CLIENTS.md").read_text(encoding="utf-8")
SECONDS = 1800


class Suite:
    """Runs pytest with the plugin."""

    def __init__(self, room: Path, program: Path, library: Path) -> None:
        self.room, self.program = room, program
        named = str(library / "libtracehost.so")
        self._environment = {**os.environ, "TRACEHOST": str(program), "TRACEHOST_LIBRARY": named, "PYTHONPATH": str(CLIENT)}

    def __call__(self, base: str, *files: Path, status: int = 0) -> str:
        """What pytest prints, without its closing summary: it repeats more if CI is set."""
        words = ["-m", "pytest", "-q", "-rN", "-p", "tracehost.pytest_plugin", "-p", "no:cacheprovider"]
        ran = subprocess.run(
            [sys.executable, *words, f"--basetemp={self.room / base}", *files], cwd=self.room, env=self._environment,
            stdin=subprocess.DEVNULL, stdout=subprocess.PIPE, text=True, timeout=SECONDS, check=False,
        )  # fmt: skip
        assert ran.returncode == status, ran.stdout
        return ran.stdout

    def left(self, base: str, test: str) -> None:
        """A failed test has left a page, and a scenario with its lines."""
        (scenario,) = (self.room / base / "tracehost").glob(f"*.{test}-*.json")
        assert scenario.with_suffix(".html").stat().st_size > 0
        assert run(self.program, scenario, "--expect", scenario.with_suffix(".out")).status == 0

    def change(self, name: str, old: str, new: str) -> None:
        text = (self.room / name).read_text()
        assert old in text
        (self.room / name).write_text(text.replace(old, new))


@pytest.fixture
def suite(tmp_path: Path, program: Path, library: Path) -> Suite:
    return Suite(tmp_path, program, library)


def test_the_plugins_own_tests(suite: Suite) -> None:
    suite("own", CLIENT / "tests/test_pytest_plugin.py")


def test_a_small_debugger(suite: Suite) -> None:
    """Its suite passes. If it doesn't pass signals on, one of its ten tests fails, and leaves its session."""
    for source in (CLIENT / "examples").glob("*small_debugger.py"):
        shutil.copy(source, suite.room)
    suite("suite", suite.room / "test_small_debugger.py")
    suite.change("small_debugger.py", "passed = signal", "passed = 0")
    said = suite("faulty", suite.room / "test_small_debugger.py", status=1)
    assert re.search("^1 failed, 9 passed", said, re.MULTILINE)
    suite.left("faulty", "test_a_signal_that_ends_the_target")


# ---- the tests on docs/CLIENTS.md


@pytest.fixture
def page(suite: Suite) -> Suite:
    """A block of the page that begins with `# NAME.py` is that file."""
    for name, text in re.findall(r"^```python\n(?=# ([a-z_]+\.py)\n)(.*?)^```$", PAGE, re.MULTILINE | re.DOTALL):
        (suite.room / name).write_text(text)
    return suite


def test_the_passing_tests_of_the_page(page: Suite) -> None:
    page("passing", page.room / "test_attach.py", page.room / "test_steps.py")


def test_the_state_machine_of_the_page(page: Suite) -> None:
    """It fails, by the shortest way that the page shows."""
    said = page("machine", page.room / "test_collecting.py", status=1)
    shown = re.search(r"^    state = Collecting.*?^    state\.teardown.*?$", PAGE, re.MULTILINE | re.DOTALL)
    assert shown
    wanted = [line.removeprefix("    ") for line in shown[0].splitlines()]
    assert re.findall(r"^.*(state = Collecting\(\)|state\.[a-z_]*\(\)).*$", said, re.MULTILINE) == wanted
