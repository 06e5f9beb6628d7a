"""A record of a failed test stays until that test passes, and no other is taken for one: whatever runs beside it, and however it ends.

TRACEHOST_TEST_SCALE multiplies how many tests run at once.
"""

from __future__ import annotations

import fcntl
import importlib.util
import os
import pathlib
import re
import signal
import subprocess
import sys
import time
from concurrent.futures import ThreadPoolExecutor

import pytest

import tracehost
from tracehost.records import Folder, Running, hold, stem_of

CLIENT = pathlib.Path(tracehost.__file__).resolve().parents[1]
SCALE = int(os.environ.get("TRACEHOST_TEST_SCALE", "1"))
SECONDS = 300
needs_xdist = pytest.mark.skipif(importlib.util.find_spec("xdist") is None, reason="there is no xdist")


class Suites:
    """Runs of pytest in a folder, with records in `left`."""

    def __init__(self, room: pathlib.Path) -> None:
        self.room, self.left_in = room, room / "left"

    def begin(self, name: str, *words: str, **environment: str) -> subprocess.Popen[str]:
        command = [sys.executable, "-m", "pytest", "-p", "tracehost.pytest_plugin", "-p", "no:cacheprovider", "-q", "-rN"]
        command += ["--tracehost-artifacts=left", f"--basetemp={self.room / 'base'}", *words, name]
        return subprocess.Popen(
            command, cwd=self.room, stdout=subprocess.PIPE, stderr=subprocess.STDOUT, text=True,
            env={**os.environ, "PYTHONPATH": str(CLIENT), "COLUMNS": "200", **environment},
        )  # fmt: skip

    def run(self, name: str, *words: str, status: int, **environment: str) -> str:
        process = self.begin(name, *words, **environment)
        said, _ = process.communicate(timeout=SECONDS)
        assert process.returncode == status, said
        return said

    def write(self, name: str, text: str) -> None:
        (self.room / name).write_text(text)

    def left(self) -> list[str]:
        """The files, without digests."""
        return sorted(re.sub("-[0-9a-f]{12}", "", path.name) for path in self.left_in.iterdir())


@pytest.fixture
def suites(tmp_path: pathlib.Path) -> Suites:
    return Suites(tmp_path)


def is_whole(scenario: pathlib.Path) -> bool:
    """Whether its lines are those that the program prints."""
    return replays(scenario, scenario.with_suffix(".out"))


def replays(scenario: pathlib.Path, lines: pathlib.Path) -> bool:
    words = [os.environ["TRACEHOST"], str(scenario), "--expect", str(lines)]
    return subprocess.run(words, stdout=subprocess.PIPE, stderr=subprocess.STDOUT).returncode == 0


ATTACHES = """
import os, signal, time

def test_attaches(tracehost):
    tracehost.user(1001).spawn()
    how = os.environ.get("HOW", "")
    if how == "waits":
        open("waits", "x").close()
        while not os.path.exists("goes_on"):
            time.sleep(0.01)
    elif how == "times out":
        os._exit(1)
    elif how:
        os.kill(os.getpid(), signal.Signals[how])
        time.sleep(60)

def test_is_another(tracehost):
    tracehost.user(1001).spawn()
"""


def test_another_suite_has_a_test_of_this_name(suites: Suites) -> None:
    suites.write("test_one.py", "def test_attaches(tracehost):\n    tracehost.user(1001).spawn()\n    assert 0\n")
    suites.write("test_two.py", ATTACHES)
    (suites.room / "below").mkdir()
    suites.write("below/test_one.py", ATTACHES)
    suites.run("test_one.py", status=1)
    left = suites.left()
    assert left == [f"test_one.test_attaches.{kind}" for kind in ("html", "json", "out")]
    for name in ("test_two.py", "below/test_one.py"):
        suites.run(name, status=0)
    assert suites.left() == left


def test_a_pass_removes_what_the_same_test_left_before(suites: Suites) -> None:
    """Not what a process of the same test leaves that ended after this one began."""
    suites.write("test_one.py", ATTACHES)
    slow = suites.begin("test_one.py", HOW="waits")
    while not (suites.room / "waits").exists():
        time.sleep(0.01)
    suites.write("test_one.py", ATTACHES.replace("spawn()\n    how", "spawn()\n    assert 0\n    how"))
    said = suites.run("test_one.py", status=1)
    assert "left by a test that ended its process" not in said  # the slow one is alive
    left = [name for name in suites.left() if re.search("[a-z]$", name)]
    assert len(left) == 3
    (suites.room / "goes_on").touch()
    slow.communicate(timeout=SECONDS)
    assert slow.returncode == 0
    assert suites.left() == left
    suites.write("test_one.py", ATTACHES)
    suites.run("test_one.py", status=0)
    assert suites.left() == []


@pytest.mark.parametrize("how", ["SIGSEGV", "SIGABRT", "SIGKILL", "SIGTERM", "times out"])
def test_a_process_that_dies(suites: Suites, how: str) -> None:
    """Its record has the process's number. The next run tells it, and takes it away once the test has passed."""
    suites.write("test_one.py", ATTACHES)
    suites.run("test_one.py", status=1 if how == "times out" else -signal.Signals[how], HOW=how)
    scenario, lines = sorted(suites.left_in.iterdir())
    assert re.fullmatch(r"test_one\.test_attaches-\w+\.json\.\d+", scenario.name)
    assert lines.name == scenario.name.replace(".json.", ".out.")
    assert replays(scenario, lines)
    told = f"tracehost: left by a test that ended its process: {scenario}"
    said = suites.run("test_one.py::test_is_another", status=0)
    assert said.count(told) == 2  # in the summary too, as it is still there
    assert told in suites.run("test_one.py", status=0)
    assert suites.left() == []
    assert "tracehost" not in suites.run("test_one.py", status=0)


@needs_xdist
def test_a_worker_that_dies(suites: Suites) -> None:
    """Its test's report names the files, and has a page."""
    suites.write("test_one.py", ATTACHES)
    said = suites.run("test_one.py", "-n2", status=1, HOW="SIGSEGV")
    (scenario,) = suites.left_in.glob("*.json")
    assert suites.left() == [f"test_one.test_attaches.{kind}" for kind in ("html", "json", "out")]
    assert is_whole(scenario)
    assert f"scenario: {scenario}\n" in said and f"page:     {scenario.with_suffix('.html')}\n" in said
    assert "left by a test" not in said
    suites.run("test_one.py", "-n2", status=0)
    assert suites.left() == []


@pytest.mark.parametrize("words", [(), pytest.param(("-n2",), marks=needs_xdist)])
def test_somebody_ends_the_run(suites: Suites, words: tuple[str, ...]) -> None:
    """By Ctrl-C, which the kernel sends to all processes of a terminal. The paths are printed, and the run ends as ever."""
    suites.write("test_one.py", ATTACHES)
    command = suites.begin("test_one.py::test_attaches", *words, HOW="waits")
    while not (suites.room / "waits").exists():
        time.sleep(0.01)
    for child in [*children(command.pid), command.pid]:
        os.kill(child, signal.SIGINT)
    said, _ = command.communicate(timeout=SECONDS)
    assert command.returncode == 2 and "KeyboardInterrupt" in said
    (scenario,) = suites.left_in.glob("*.json*")
    assert str(scenario) in said
    if not words:
        assert suites.left() == [f"test_one.test_attaches.{kind}" for kind in ("html", "json", "out")]
        assert is_whole(scenario) and "test_one.py::test_attaches: interrupted" in said


def children(process: int) -> list[int]:
    return list(map(int, pathlib.Path(f"/proc/{process}/task/{process}/children").read_text().split()))


def test_the_same_test_in_processes_at_once(suites: Suites) -> None:
    """Each fails after another number of steps, and the files that stay are of one of them."""
    suites.write(
        "test_one.py",
        """
import os, pytest

@pytest.mark.parametrize("n", range(5))
def test_fails(tracehost, n):
    for _ in range(int(os.environ["STEPS"])):
        tracehost.user(1001).spawn()
    assert 0
""",
    )
    with ThreadPoolExecutor(4) as pool:
        list(pool.map(lambda n: suites.run("test_one.py", status=1, STEPS=str(n + 1)), range(8 * SCALE)))
    scenarios = [*suites.left_in.glob("*.json")]
    assert len(scenarios) == 5 and len(suites.left()) == 15
    assert all(map(is_whole, scenarios))


# ---- the folder


def running(folder: pathlib.Path, name: str, text: str) -> Running:
    record = Running(folder / f"{name}.json")
    record.now.write_text(text)
    record.lines_now.write_text(text)
    return record


def test_records_get_their_names_together(tmp_path: pathlib.Path) -> None:
    """Four threads of each of four processes: both files are of one of them at any time that the lock is free."""
    code = """
import sys, threading, pathlib
from tracehost.records import Folder, Running
room = pathlib.Path(sys.argv[1])
folder = Folder(room)
for n in range(int(sys.argv[2])):
    record = Running(room / "a.b-000000000000.json")
    record.now.write_text(f"{sys.argv[3]} {n}")
    record.lines_now.write_text(f"{sys.argv[3]} {n}")
    with folder.locked():
        record.keep()
"""
    environment = {**os.environ, "PYTHONPATH": str(CLIENT)}
    writers = [
        subprocess.Popen([sys.executable, "-c", code, tmp_path, str(100 * SCALE), str(n)], env=environment) for n in range(4)
    ]
    folder, read, scenario = Folder(tmp_path), 0, tmp_path / "a.b-000000000000.json"
    while any(writer.poll() is None for writer in writers) or not read:
        with folder.locked():
            if scenario.exists():
                assert scenario.read_text() == scenario.with_suffix(".out").read_text()
                read += 1
    assert [writer.returncode for writer in writers] == [0] * 4 and read


def test_a_folder_that_stays_locked(tmp_path: pathlib.Path, monkeypatch: pytest.MonkeyPatch) -> None:
    monkeypatch.setattr("tracehost.records._TRIES", 3)
    number = os.open(tmp_path, os.O_RDONLY)
    fcntl.flock(number, fcntl.LOCK_EX)
    with pytest.raises(TimeoutError, match="has locked the folder"):
        with Folder(tmp_path).locked():
            pass
    os.close(number)
    with Folder(tmp_path).locked():
        pass


def test_what_the_dead_have_left(tmp_path: pathlib.Path) -> None:
    """A record is in use while its process has locked it, whatever its number."""
    record = running(tmp_path, "a.b-000000000000", "{}")
    number = os.open(record.now, os.O_RDONLY)
    hold(number)
    folder = Folder(tmp_path, time.time_ns() + 10**9)
    assert folder.left_by_the_dead() == []
    assert list(folder.remove_earlier("a.b-000000000000", set())) == []
    assert record.now.exists()
    os.close(number)
    assert folder.left_by_the_dead() == [record.now]
    assert list(Folder(tmp_path, time.time_ns() + 10**9).remove_earlier("a.b-000000000000", set())) == []
    assert not [*tmp_path.iterdir()]


def test_a_record_is_adopted_with_its_whole_steps(tmp_path: pathlib.Path) -> None:
    """A process that dies while it writes leaves one line too many."""
    record = running(tmp_path, "a.b-000000000000", '{"steps":[\n{"user":1001,"op":"spawn"}\n]}\n')
    record.lines_now.write_text("1001 1 new 1000 100000\n1001 2 new 1001 100001\n")
    running(tmp_path, "a.c-000000000000", "")
    assert Folder(tmp_path).adopt("a.b-000000000000") == [record.scenario]
    assert record.scenario.with_suffix(".out").read_text() == "1001 1 new 1000 100000\n"
    assert is_whole(record.scenario) and len([*tmp_path.iterdir()]) == 4


def test_names() -> None:
    """The identity tells tests apart whose names are cleaned or cut to the same."""
    name = stem_of("test_a.b", "T.test_x[a/b]", "/here/test_a.b.py::T::test_x[a/b]")
    assert re.fullmatch(r"test_a\.b\.T\.test_x_a_b_-[0-9a-f]{12}", name)
    assert name != stem_of("test_a.b", "T.test_x[a/b]", "/there/test_a.b.py::T::test_x[a/b]")
    assert stem_of("-x", "y", "").startswith("x.y-") and stem_of("..", "\udce9", "\udce9").startswith("_._-")
    assert len(stem_of("x" * 300, "y" * 300, "")) < 100


def test_a_forked_child_keeps_and_removes_nothing(tmp_path: pathlib.Path) -> None:
    record = running(tmp_path, "a.b-000000000000", "")
    child = os.fork()
    if child == 0:
        record.keep()
        record.drop()
        os._exit(0)
    assert os.waitpid(child, 0)[1] == 0
    assert sorted(tmp_path.iterdir()) == [record.now, record.lines_now]
