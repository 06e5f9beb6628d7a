"""Each scenario, each Python program and each command on docs/COOKBOOK.md prints the lines that follow it there."""

from __future__ import annotations

import os
import re
import subprocess
import sys
from pathlib import Path
from typing import NamedTuple

import pytest
from checking import answers, needs

TOP = Path(__file__).resolve().parents[2]
# a line in whose place the page has `..`: a process or an LWP was made, or a debugger has attached
LEFT_OUT = re.compile(r"\d+ \d+ (new \d+ \d+|ok|status 1001 4479)")
PAGE = (TOP / "docs/COOKBOOK.md").read_text(encoding="utf-8")


class Shown(NamedTuple):
    """A block of the page, and the lines that follow it."""

    code: str
    printed: str


def blocks(language: str) -> list[Shown]:
    """The page's blocks of a language, each with the next block of text before another such block."""
    shown: list[Shown] = []
    for kind, text in re.findall(r"^```(json|python|sh|text)\n(.*?)^```$", PAGE, re.MULTILINE | re.DOTALL):
        if kind != "text":
            current = kind
            shown += [Shown(text, "")] if kind == language else []
        elif current == language:
            shown[-1] = Shown(shown[-1].code, text)
    return shown


def named(shown: list[Shown]) -> list[object]:
    """Cases that are called by their numbers and first words."""
    return [pytest.param(one, id=f"{number}: {one.code.strip()[:40]!r}") for number, one in enumerate(shown, 1)]


@pytest.mark.parametrize("shown", named(blocks("json")))
def test_a_scenario(program: Path, tmp_path: Path, shown: Shown) -> None:
    scenario = tmp_path / "scenario.json"
    scenario.write_text(shown.code, encoding="utf-8")
    above, is_cut, printed = shown.printed.rpartition("..\n")
    assert printed and not above
    if is_cut:
        whole = subprocess.run([program, scenario], stdout=subprocess.PIPE, text=True, check=False).stdout
        above = whole.removesuffix(printed)
        assert above and all(LEFT_OUT.fullmatch(line) for line in above.splitlines()), above
    answers(program, scenario, out=above + printed)


@pytest.mark.parametrize("shown", named(blocks("python")))
def test_a_program(program: Path, tmp_path: Path, shown: Shown) -> None:
    file = tmp_path / "program.py"
    file.write_text(shown.code, encoding="utf-8")
    environment = {**os.environ, "TRACEHOST": str(program), "PYTHONPATH": str(TOP / "clients/python")}
    ended = subprocess.run([sys.executable, "-W", "error", file], env=environment, stdout=subprocess.PIPE, text=True, check=False)
    assert (ended.returncode, ended.stdout) == (0, shown.printed)


@needs("jq")
@pytest.mark.parametrize("shown", named(blocks("sh")))
def test_a_command(program: Path, tmp_path: Path, shown: Shown) -> None:
    (tmp_path / "tracehost").symlink_to(program)
    environment = {**os.environ, "PATH": f"{tmp_path}:{os.environ['PATH']}"}
    ended = subprocess.run(
        ["bash", "-o", "pipefail", "-c", shown.code], cwd=TOP, env=environment, stdout=subprocess.PIPE, stderr=subprocess.STDOUT, text=True,
        check=False,
    )  # fmt: skip
    assert (ended.returncode, ended.stdout) == (0, shown.printed)


def test_each_task_has_a_scenario_or_a_program() -> None:
    tasks = len(re.findall(r"^## \d+\. ", PAGE, re.MULTILINE))
    assert tasks >= 16
    assert len(blocks("json")) + len(blocks("python")) >= tasks
    assert blocks("sh")
