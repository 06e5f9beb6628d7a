"""A run takes little memory: on the scenarios of bench/scenarios.py, of nearly 4 MiB, and on texts of bench/hostile.py.

A run of a scenario has at most 4 times the bytes of its scenario. If its lines are more than twice as long, as with lists of
many processes, it has also 2 times what it prints, since none is written before all are known, and 4 times the lines that it
is compared with. A hostile text, refused or not, has at most 4 times its bytes.
"""

from __future__ import annotations

import subprocess
from pathlib import Path
from typing import NamedTuple

import hostile
import pytest
import scenarios

from checking import TOP, needs

TIMES = 4
# the words of a run; with `--expect` its lines are in the file `lines`
MODES: dict[str, list[str]] = {"plain": [], "--threads": ["--threads"], "--json": ["--json"], "--expect": ["--expect", "lines"]}
LOADS = {
    "fork, exit and wait": scenarios.of_one(scenarios.forks_and_exits),
    "attach, wait and detach": scenarios.of_one(scenarios.attach_cycles),
    "chains of debuggers": scenarios.of_one(scenarios.chains_that_end),
    "system calls that are handled": scenarios.of_one(scenarios.handled_calls),
    "threads": scenarios.of_one(scenarios.threads),
    "refusals": scenarios.refusals,
    "lists of 64 users": scenarios.spawns_and_lists,
}


class Load(NamedTuple):
    """A folder with a scenario of bench/scenarios.py and its lines."""

    folder: Path
    steps: int


@pytest.fixture(scope="module")
def peak_of(tmp_path_factory: pytest.TempPathFactory) -> Path:
    """The program that prints the most memory of another one."""
    built = tmp_path_factory.mktemp("peak") / "peak"
    subprocess.run(["cc", "-O1", "-o", built, TOP / "bench/peak.c"], check=True)
    return built


@pytest.fixture(scope="module", params=LOADS)
def load(request: pytest.FixtureRequest, program: Path, tmp_path_factory: pytest.TempPathFactory) -> Load:
    folder = tmp_path_factory.mktemp("load")
    steps = scenarios.write(LOADS[request.param](100000), str(folder / "scenario.json"))
    with open(folder / "lines", "wb") as lines:
        subprocess.run([program, "scenario.json"], cwd=folder, stdout=lines, check=True)
    return Load(folder, steps)


def peak_and_status(peak_of: Path, program: Path, folder: Path, words: list[str]) -> tuple[int, int]:
    """The most bytes of memory that the program had, and its exit status. What it prints is in the file `printed`."""
    with open(folder / "printed", "wb") as printed:
        command: list[str | Path] = [peak_of, program, *words, "scenario.json"]
        ran = subprocess.run(command, cwd=folder, stdout=printed, stderr=subprocess.PIPE, check=False)
    return int(ran.stderr.split()[-1]) * 1024, ran.returncode


@needs("cc")
@pytest.mark.parametrize("mode", MODES)
def test_a_scenario(peak_of: Path, program: Path, load: Load, mode: str) -> None:
    peak, status = peak_and_status(peak_of, program, load.folder, MODES[mode])
    size, printed, lines = ((load.folder / name).stat().st_size for name in ("scenario.json", "printed", "lines"))
    print(f"{load.steps} steps, {size} bytes, {printed} printed, at most {peak} in memory, {peak / size:.2f} times")
    compared = lines if mode == "--expect" else 0
    assert status == 0
    assert peak <= TIMES * size + (2 * printed + TIMES * compared if lines > 2 * size else 0)


@needs("cc")
@pytest.mark.parametrize("name", hostile.PARTS)
def test_a_hostile_text(peak_of: Path, program: Path, tmp_path: Path, name: str) -> None:
    scenario = tmp_path / "scenario.json"
    scenario.write_text(hostile.text(name), encoding="ascii")
    peak, status = peak_and_status(peak_of, program, tmp_path, [])
    size = scenario.stat().st_size
    print(f"{size} bytes, status {status}, at most {peak} in memory, {peak / size:.2f} times")
    assert status in (0, 1)
    assert peak <= TIMES * size
