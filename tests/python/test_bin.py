"""The commands of a clone, bin/, and the file `activate` that puts them on PATH: also if its folder has an odd name."""

from __future__ import annotations

import os
import shutil
import subprocess
from pathlib import Path

import pytest
from checking import TOP, needs

COMMANDS = sorted(path.name for path in (TOP / "bin").iterdir())
SHELLS = ["sh", "bash", "dash"]


def test_they_are_those_that_are_installed() -> None:
    """By `make install` and pip."""
    installed = {
        word for word in (TOP / "Makefile").read_text().split() if word.startswith("tracehost-") and word.replace("-", "").isalpha()
    }
    assert (
        {"tracehost", "tracehost-debug", "tracehost-coverage", *installed}
        >= set(COMMANDS)
        >= {"tracehost", "tracehost-debug", "tracehost-coverage", "tracehost-cc", "tracehost-run"}
    )
    assert {"tracehost-corpus", "tracehost-view", "tracehost-perfetto"} <= set(COMMANDS)


@pytest.fixture(scope="module")
def folder(tmp_path_factory: pytest.TempPathFactory) -> Path:
    """A folder with links to what a clone has; its name has a space, a quote and a dollar."""
    made = tmp_path_factory.mktemp("clone") / "a clone's $HOME"
    made.mkdir()
    for path in TOP.iterdir():
        if path.name not in ("bin", ".git"):
            (made / path.name).symlink_to(path)
    shutil.copytree(TOP / "bin", made / "bin")
    return made


def said(folder: Path, shell: str, line: str) -> subprocess.CompletedProcess[str]:
    environment = {name: value for name, value in os.environ.items() if name != "PYTHONPATH"}
    return subprocess.run(
        [shell, "-c", f". ./activate && {line}"], cwd=folder, env=environment, capture_output=True, text=True, check=False
    )


@needs("dash")
@pytest.mark.parametrize("shell", SHELLS)
@pytest.mark.parametrize("command", COMMANDS)
def test_each_runs(folder: Path, shell: str, command: str) -> None:
    done = said(folder, shell, f"command -v {command} && {command} --help 2>&1")
    first, text = done.stdout.split("\n", 1)
    assert (done.returncode, first) == (0 if command != "tracehost" else done.returncode, f"{folder}/bin/{command}")
    assert command in text.replace("viewer/make", "tracehost-view").replace("viewer/perfetto", "tracehost-perfetto")


@pytest.mark.parametrize("shell", SHELLS[:2])
def test_a_scenario_and_the_packages(folder: Path, shell: str) -> None:
    done = said(
        folder,
        shell,
        "tracehost examples/first.json && python3 -c 'import tracehost, tracehost_posix' && tracehost-debug examples/first.json --batch list",
    )
    assert done.returncode == 0, done.stderr
    assert done.stdout.startswith((TOP / "examples/first.out").read_text()) and "tracehost> list" in done.stdout


FAULTS = {
    "nosuch.json": "nosuch.json: No such file or directory",
    "/tmp": "/tmp: Is a directory",
    "--expect nosuch.out examples/first.json": "nosuch.out: No such file or directory",
    "--expect-list nosuch": "nosuch: No such file or directory",
    "help": "help: No such file or directory",
}
ASKS = {"CI=true": True, "TRACEHOST_EXPLAIN=always": True, "CI=true TRACEHOST_EXPLAIN=never": False, "CI=": False}


@pytest.mark.parametrize("fault", FAULTS)
def test_reasons_where_nobody_can_ask_again(folder: Path, fault: str) -> None:
    """As CI is set, or as the variable says. What the command line asks for comes first."""
    for variables, explains in ASKS.items():
        done = said(folder, "sh", f"{variables} tracehost {fault}")
        wanted = f"tracehost: cannot read\n{f'  {FAULTS[fault]}' if explains else ''}".strip() + "\n"
        assert (done.returncode, done.stdout, done.stderr) == (3, "", wanted), variables
    assert said(folder, "sh", f"CI=true tracehost --explain=never {fault}").stderr == "tracehost: cannot read\n"
    assert said(folder, "sh", "CI=true tracehost --version").stdout.startswith("tracehost ")


def test_reasons_by_the_package(folder: Path) -> None:
    """Its command is the program with the same words."""
    code = "from tracehost.program import explained; print(*explained(['x']), *explained(['--explain=never', 'x']))"
    for variables, words in (("CI=1", "--explain=always x"), ("TRACEHOST_EXPLAIN=never", "--explain=never x"), ("CI=", "x")):
        assert said(folder, "sh", f'{variables} python3 -c "{code}"').stdout == f"{words} --explain=never x\n"
