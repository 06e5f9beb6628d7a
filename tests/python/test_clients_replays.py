"""Each scenario without options and without a fault, step by step through each client: as it is, and by typed calls."""

from __future__ import annotations

import json
import sys
from collections.abc import Callable
from pathlib import Path
from typing import Any

import pytest
from c_programs import output
from checking import TOP, needs
from client_programs import FILES, Programs, programs, words
from row_files import for_each_scenario

sys.path[:0] = [str(TOP / "clients/python"), str(TOP / "clients/python/tests")]

from replay import by_step, call, replayed  # noqa: E402
from tracehost import Host  # noqa: E402

__all__ = ["programs", "words"]  # fixtures
Caller = Callable[[Host, dict[str, Any]], str]
CALLERS: dict[str, Caller] = {"step": by_step, "calls": call}


def test_each_scenario_has_its_words(words: Path) -> None:
    assert len(FILES) > 100
    for kind in (".text", ".calls", ".setting"):
        assert len([*words.glob(f"*{kind}")]) == len(FILES)


@needs("cc")
@pytest.mark.parametrize("way", ["text", "calls"])
@for_each_scenario(FILES)
def test_c(programs: Programs, words: Path, file: Path, way: str) -> None:
    steps = words / str(file.with_suffix(f".{way}")).replace("/", "-")
    setting = steps.with_suffix(".setting").read_text()
    printed = output(programs["plain", "replay"], setting, given=steps.read_bytes())
    assert printed == (TOP / file).with_suffix(".out").read_text()


@pytest.mark.parametrize("way", CALLERS)
@for_each_scenario(FILES)
def test_python(library: Path, monkeypatch: pytest.MonkeyPatch, file: Path, way: str) -> None:
    monkeypatch.setenv("TRACEHOST_LIBRARY", str(library / "libtracehost.so"))
    scenario = json.loads((TOP / file).read_text())
    setting = scenario.get("kill_on_debugger_exit")
    with Host(kill_on_debugger_exit=None if setting is None else bool(setting)) as host:
        lines = replayed(host, scenario["steps"], CALLERS[way])
    assert lines == (TOP / file).with_suffix(".out").read_text().splitlines()
