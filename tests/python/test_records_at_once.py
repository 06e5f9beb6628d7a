"""Failing and passing tests of all languages side by side, on one folder: each failed test has its own record, and no other has one.

All tests fail first; then half of them pass; then two programs have tests of the same names at once, and those of one fail.
There are 240 tests of a program, and each leaves its trace; TRACEHOST_TEST_SCALE multiplies them.
"""

from __future__ import annotations

import json
import os
import shutil
import subprocess
import sys
from collections.abc import Callable
from concurrent.futures import ThreadPoolExecutor
from pathlib import Path
from typing import NamedTuple

import pytest
from checking import TOP, needs, run
from failing_programs import Failing, Make, in_c, in_cpp, in_go, in_rust, stem_of
from tracehost import records

pytest.importorskip("xdist")
pytestmark = [needs("cc"), needs("c++"), needs("cargo"), needs("ctest"), needs("go", "pkg-config")]
COUNT = 40 * int(os.environ.get("TRACEHOST_TEST_SCALE", "1"))
OF_A_RUN = 20  # tests of the program in Rust
SECONDS = 3600
IN_PYTHON = f"""
import os
import pytest

@pytest.mark.parametrize("number", range({COUNT}))
def test_one(tracehost, number):
    for _ in range(number % 5 + 1):
        tracehost.user(1001).spawn()
    failing = os.environ.get("FAILING")
    assert number % 2 if failing is None else failing != "all"
"""


class Program(NamedTuple):
    """Runs tests that leave their records in the folder; the stem of the record of the nth."""

    run: Callable[[dict[str, str]], None]
    stem: Callable[[int], str]


def ends(words: list[str], environment: dict[str, str], cwd: Path, status: int) -> str:
    """What a command prints. It has to end with this status; with 0 and without a word of ours if no test is to fail."""
    passes = environment.get("FAILING") == "none"
    ran = subprocess.run(
        words, env={**os.environ, **environment}, cwd=cwd, stdin=subprocess.DEVNULL, stdout=subprocess.PIPE,
        stderr=subprocess.STDOUT, text=True, errors="replace", timeout=SECONDS, check=False,
    )  # fmt: skip
    assert ran.returncode == (0 if passes else status), ran.stdout[-5000:]
    assert not passes or "tracehost:" not in ran.stdout, ran.stdout[-5000:]
    return ran.stdout


def by_pytest(room: Path) -> Program:
    room.mkdir()
    (room / "test_many.py").write_text(IN_PYTHON)
    words = [
        sys.executable,
        "-m",
        "pytest",
        "-q",
        "-n4",
        "--tb=no",
        "-rN",
        "-p",
        "tracehost.pytest_plugin",
        "-p",
        "no:cacheprovider",
    ]

    def run_all(environment: dict[str, str]) -> None:
        path = {"PYTHONPATH": str(TOP / "clients/python")}
        ends([*words, f"--basetemp={room / 'base'}", "test_many.py"], {**environment, **path}, room, 1)

    def stem(number: int) -> str:
        return records.stem_of("test_many", f"test_one[{number}]", f"{room}/test_many.py::test_one[{number}]")

    return Program(run_all, stem)


def by_threads(failing: Failing, room: Path) -> Program:
    def run_all(environment: dict[str, str]) -> None:
        ends([*failing.command("many"), str(COUNT)], environment, room, 1)

    return Program(run_all, lambda number: failing.stem(f"many.{number}"))


def by_ctest(failing: Failing, room: Path) -> Program:
    """Each test is a process."""
    words = " ".join(f'"{word}"' for word in failing.command("one"))
    (room / "CTestTestfile.cmake").write_text("".join(f"add_test(t{n} {words} {n})\n" for n in range(COUNT)))

    def run_all(environment: dict[str, str]) -> None:
        ends(["ctest", "-j4", "-Q"], environment, room, 8)

    return Program(run_all, lambda number: failing.stem(f"one.{number}"))


def by_cargo(failing: Failing, room: Path) -> Program:
    """The threads of libtest, in several runs of the program."""
    made = failing.command("side_by_side")[0]
    words = [made, "--ignored", "side_by_side", "--test-threads=4", "-q"]

    def run_all(environment: dict[str, str]) -> None:
        for part in range(COUNT // OF_A_RUN):
            ends(words, {**environment, "PREFIX": f"part_{part}", "RUST_BACKTRACE": "0"}, room, 101)

    return Program(run_all, lambda number: failing.stem(f"part_{number // OF_A_RUN}.{number % OF_A_RUN}"))


def by_go(failing: Failing, room: Path) -> Program:
    """The goroutines of a package's tests."""
    made = failing.command("SideBySide")[2]
    words = [made, "-test.run=^TestSideBySide$", "-test.parallel=4"]

    def run_all(environment: dict[str, str]) -> None:
        ends(words, {**environment, "TRACEHOST_COUNT": str(COUNT)}, room, 1)

    return Program(run_all, lambda number: stem_of(room / Path(made).name, f"TestSideBySide/{number}"))


@pytest.fixture(scope="module")
def room(tmp_path_factory: pytest.TempPathFactory) -> Path:
    return tmp_path_factory.mktemp("at_once")


def copied(failing: Failing, room: Path) -> Failing:
    """The same program in another folder."""
    command = failing.command("")
    made = next(Path(word) for word in command if word.startswith("/"))
    shutil.copy(made, room)
    return Failing(
        failing.name,
        room / failing.program.name,
        lambda case, named: [word.replace(str(made), str(room / made.name)) for word in failing.command(case)],
    )


def suites(made: dict[str, Failing], room: Path) -> dict[str, Program]:
    return {
        "pytest -n4": by_pytest(room / "pytest"),
        "threads in C": by_threads(made["c"], room),
        "threads in C++": by_threads(made["cpp"], room),
        "ctest -j4": by_ctest(made["c"], room),
        "cargo test": by_cargo(made["rust"], room),
        "go test": by_go(made["go"], room),
    }


@pytest.fixture(scope="module")
def made(library: Path, room: Path) -> dict[str, Failing]:
    ways: dict[str, Make] = {"c": in_c, "cpp": in_cpp, "rust": in_rust, "go": in_go}
    return {name: way(room, library) for name, way in ways.items()}


@pytest.fixture(scope="module")
def programs(made: dict[str, Failing], room: Path) -> dict[str, Program]:
    return suites(made, room)


@pytest.fixture(scope="module")
def others(made: dict[str, Failing], room: Path) -> dict[str, Program]:
    """Programs in another folder, whose tests have the same names."""
    (room / "others").mkdir()
    return suites({name: copied(one, room / "others") for name, one in made.items()}, room / "others")


def stems_of(programs: dict[str, Program], has: Callable[[int], bool]) -> dict[str, int]:
    """How the names of some tests' files begin, with each test's number."""
    return {
        each.stem(n): n % (OF_A_RUN if name == "cargo test" else COUNT)
        for name, each in programs.items()
        for n in range(COUNT)
        if has(n)
    }


def check_traces(traces: Path, stems: dict[str, int]) -> None:
    """Each test has left its own trace, whether it failed or passed, and the folder has nothing else."""
    left = {path: path.name.rsplit(".", 2)[0] for path in traces.iterdir()}
    assert sorted(left.values()) == sorted(stems)
    for path, stem in left.items():
        spawned = [step["op"] for step in json.loads(path.read_bytes())["steps"]].count("spawn")
        assert spawned == stems[stem] % 5 + 1, path


def check(programs: dict[str, Program], folder: Path, program: Path, fails: Callable[[int], bool]) -> int:
    """The folder has the records of the tests that fail, and nothing else. Returns how many."""
    stems = stems_of(programs, fails)
    left = {path.name for path in folder.iterdir()}
    assert left == {f"{stem}.{kind}" for stem in stems for kind in ("json", "out")}

    def is_its_own(stem: str) -> bool:
        scenario, lines = folder / f"{stem}.json", folder / f"{stem}.out"
        replayed = run(program, scenario, "--expect", lines)
        spawned = [step["op"] for step in json.loads(scenario.read_bytes())["steps"]].count("spawn")
        return replayed.status == 0 and spawned == stems[stem] % 5 + 1

    with ThreadPoolExecutor(4) as pool:
        wrong = [stem for stem, right in zip(stems, pool.map(is_its_own, stems)) if not right]
    assert wrong == []
    return len(stems)


class Together:
    """Runs programs at once, whose tests leave their records in one folder, and their traces in another."""

    def __init__(self, room: Path, library: Path) -> None:
        self.left, self.traces = room / "left", room / "traces"
        self._environment = {
            "TRACEHOST_ARTIFACTS": str(self.left),
            "TRACEHOST_TRACES": str(self.traces),
            "TRACEHOST": "/nowhere/tracehost",
            "TRACEHOST_DEBUG": "",
            "TRACEHOST_VIEW": "/bin/false",
            "TRACEHOST_LIBRARY": str(library / "libtracehost.so"),
        }

    def __call__(self, *runs: tuple[dict[str, Program], dict[str, str]]) -> None:
        """Each program leaves its traces anew."""
        shutil.rmtree(self.traces, ignore_errors=True)
        with ThreadPoolExecutor(sum(len(programs) for programs, _ in runs)) as pool:
            begun = [pool.submit(each.run, {**self._environment, **more}) for programs, more in runs for each in programs.values()]
        for ended in begun:
            ended.result()


def test_side_by_side(programs: dict[str, Program], others: dict[str, Program], room: Path, library: Path, program: Path) -> None:
    together, count = Together(room, library), COUNT * len(programs)

    def all_fail(number: int) -> bool:
        return True

    together((programs, {"FAILING": "all"}))
    assert check(programs, together.left, program, all_fail) == count
    check_traces(together.traces, stems_of(programs, all_fail))
    together((programs, {}))
    assert check(programs, together.left, program, lambda number: number % 2 == 0) == count // 2
    check_traces(together.traces, stems_of(programs, all_fail))
    for failing, passing in ((programs, others), (others, programs)):
        together((failing, {"FAILING": "all"}), (passing, {"FAILING": "none"}))
        assert check(failing, together.left, program, all_fail) == count
        check_traces(together.traces, {**stems_of(failing, all_fail), **stems_of(passing, all_fail)})
