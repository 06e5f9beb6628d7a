"""`tracehost.case.TestCase`, by runs of suites of unittest."""

from __future__ import annotations

import os
import pathlib
import re
import signal
import subprocess
import sys

import pytest

import tracehost

CLIENT = pathlib.Path(tracehost.__file__).resolve().parents[1]
SECONDS = 300
SUITE = """
import os, signal, time, unittest
import tracehost.case

class Case(tracehost.case.TestCase):
    settings_of_host = {"kill_on_debugger_exit": False}

    def spawns(self, count):
        for _ in range(count):
            self.tracehost.user(1001).spawn()

"""
TESTS = {
    "passes": "self.spawns(1)",
    "is_skipped": "self.spawns(1); self.skipTest('not here')",
    "starts_none": "pass",
    "passes_subtests": "\n        for n in range(2):\n            with self.subTest(n=n): self.spawns(1)",
    "fails": "self.spawns(2); self.assertEqual(1, 2, 'not alike')",
    "raises": "self.spawns(3); raise ValueError('<b>')",
    "fails_in_subtests": """
        for n in range(4):
            with self.subTest(n=n):
                self.spawns(1)
                self.assertEqual(n % 2, 0)""",
    "fails_at_last": "self.addCleanup(self.fail, 'a target is left'); self.spawns(4)",
    "has_two": "self.spawns(1); self.new_tracehost('other').user(1001).spawn(); self.fail()",
    "has_a_full_disk": """
        import resource
        resource.setrlimit(resource.RLIMIT_FSIZE, (20, resource.RLIM_INFINITY))
        self.spawns(2)
        resource.setrlimit(resource.RLIMIT_FSIZE, (resource.RLIM_INFINITY,) * 2)""",
    "dies": "self.spawns(1); os.kill(os.getpid(), signal.SIGSEGV)",
    "is_ended": "self.spawns(1); os.kill(os.getpid(), signal.SIGINT); time.sleep(60)",
}


class Room:
    def __init__(self, path: pathlib.Path) -> None:
        self.path, self.left_in = path, path / "left"

    def run(self, *names: str, status: int, module: str = "unittest", **environment: str) -> str:
        """What a suite of these tests prints."""
        text = SUITE + "".join(f"    def test_{name}(self):\n        {TESTS[name]}\n\n" for name in names)
        (self.path / "suite.py").write_text(text)
        command = [
            sys.executable,
            "-m",
            module,
            *(["suite"] if module == "unittest" else ["-q", "-p", "no:cacheprovider", "suite.py"]),
        ]
        environment = {**os.environ, "PYTHONPATH": str(CLIENT), "TRACEHOST_ARTIFACTS": "left", **environment}
        done = subprocess.run(
            command, cwd=self.path, env=environment, stdout=subprocess.PIPE, stderr=subprocess.STDOUT, text=True, timeout=SECONDS
        )
        assert done.returncode == status, done.stdout
        return done.stdout

    def left(self) -> list[str]:
        if not self.left_in.exists():
            return []
        return sorted(re.sub(r"^suite\.Case\.test_(\w+)-[0-9a-f]{12}", r"\1", path.name) for path in self.left_in.iterdir())


@pytest.fixture
def room(tmp_path: pathlib.Path) -> Room:
    return Room(tmp_path)


def files(*stems: str) -> list[str]:
    return sorted(f"{stem}.{kind}" for stem in stems for kind in ("json", "out", "html"))


def replays(scenario: pathlib.Path, lines: pathlib.Path) -> int:
    """How many steps a record has, whose lines the program prints again."""
    words = [os.environ["TRACEHOST"], str(scenario), "--expect", str(lines)]
    assert subprocess.run(words, check=False).returncode == 0
    return len(lines.read_text().splitlines())


def test_those_that_pass_leave_nothing(room: Room) -> None:
    said = room.run("passes", "is_skipped", "starts_none", "passes_subtests", status=0)
    assert room.left() == [] and "tracehost" not in said


def test_those_that_fail(room: Room) -> None:
    names = ["fails", "raises", "fails_in_subtests", "fails_at_last"]
    said = room.run(*names, "passes", "has_two", status=1)
    assert room.left() == files(*names, "has_two", "has_two.other")
    steps = {}
    for scenario in room.left_in.glob("*.json"):
        steps[scenario.name] = replays(scenario, scenario.with_suffix(".out"))
        assert f"tracehost: scenario: {scenario}\n" in said and f"tracehost: page:     {scenario.with_suffix('.html')}\n" in said
        assert scenario.read_text().startswith('{"kill_on_debugger_exit":0,') is (".other" not in scenario.name)
    assert sorted(steps.values()) == [1, 1, 2, 3, 4, 4]
    (page,) = room.left_in.glob("*in_subtests*.html")
    assert '"step": 2' in page.read_text() and "1 != 0" in page.read_text()
    (page,) = room.left_in.glob("*test_fails-*.html")
    assert "not alike" in page.read_text() and "suite.Case.test_fails" in page.read_text()


def test_a_pass_removes_what_it_left_before(room: Room) -> None:
    room.run("fails", "raises", status=1)
    TESTS["fails"], before = "self.spawns(1)", TESTS["fails"]
    try:
        room.run("fails", status=0)
    finally:
        TESTS["fails"] = before
    assert room.left() == files("raises")


def test_a_full_disk_changes_no_outcome(room: Room) -> None:
    said = room.run("has_a_full_disk", status=0)
    assert "tracehost: suite.Case.test_has_a_full_disk: not recorded: OSError: [Errno 27] File too large" in said
    assert room.left() == []


def test_a_folder_that_cannot_be_made(room: Room) -> None:
    said = room.run("passes", "fails", status=1, TRACEHOST_ARTIFACTS="/dev/null/nowhere")
    assert said.count("not recorded: NotADirectoryError") == 2 and "scenario:" not in said
    assert "FAILED (failures=1)" in said


def test_a_process_that_dies(room: Room) -> None:
    room.run("dies", status=-signal.SIGSEGV)
    scenario, lines = sorted(room.left_in.iterdir())
    assert re.fullmatch(r".*\.json\.\d+", scenario.name) and replays(scenario, lines) == 1
    said = room.run("passes", status=0)
    assert f"tracehost: left by a test that ended its process: {scenario}\n" in said
    assert sorted(room.left_in.iterdir()) == [scenario, lines]


def test_somebody_ends_the_run(room: Room) -> None:
    said = room.run("is_ended", status=-signal.SIGINT)
    assert room.left() == files("is_ended") and "KeyboardInterrupt" in said
    (page,) = room.left_in.glob("*.html")
    assert f"tracehost: page:     {page}\n" in said


def test_without_a_folder(room: Room) -> None:
    """It is a new one for temporary files, for each process."""
    (room.path / "temporary").mkdir()
    settings = {"TMPDIR": str(room.path / "temporary"), "TRACEHOST_ARTIFACTS": ""}
    room.run("passes", status=0, **settings)
    assert not [*(room.path / "temporary").iterdir()]
    room.run("passes", "fails", status=1, **settings)
    (folder,) = (room.path / "temporary").iterdir()
    assert folder.name.startswith("tracehost-") and len([*folder.iterdir()]) == 3


def test_by_pytest(room: Room) -> None:
    """It shows what a failed test prints; one that only its subtests fail has passed for it, but leaves its files."""
    said = room.run("passes", "fails", "fails_in_subtests", status=1, module="pytest")
    assert room.left() == files("fails", "fails_in_subtests")
    (scenario,) = room.left_in.glob("*test_fails-*.json")
    assert f"tracehost: scenario: {scenario}\n" in said


def test_without_a_result(room: Room) -> None:
    """`debug` raises what the test does, and records nothing."""
    code = "import suite\ncase = suite.Case('test_fails')\ntry:\n    case.debug()\nexcept AssertionError:\n    print('raised')"
    room.run("fails", status=1, TRACEHOST_ARTIFACTS="another")
    done = subprocess.run(
        [sys.executable, "-c", code], cwd=room.path, stdout=subprocess.PIPE, text=True,
        env={**os.environ, "PYTHONPATH": str(CLIENT), "TRACEHOST_ARTIFACTS": "left"},
    )  # fmt: skip
    assert done.stdout == "raised\n" and room.left() == []
