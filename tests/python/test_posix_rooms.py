"""Temporary folders of killed runs: the next run removes them, and nobody else's."""

from __future__ import annotations

import os
import signal
import subprocess
import sys
import time
from collections.abc import Iterator
from contextlib import contextmanager
from pathlib import Path

import pytest
from posix_kit import POSIX, RUN, Posix

HOLDS = """
import sys
from tracehost_posix.rooms import room
with room() as folder:
    open(f"{folder}/a file", "w").close()
    print(folder, flush=True)
    sys.stdin.read()
"""
MAKES = """
import os
from tracehost_posix.rooms import room, sweep
for _ in range(300):
    with room() as folder:
        open(f"{folder}/a file", "w").close()
        sweep()
        os.listdir(folder)
"""


@pytest.fixture(autouse=True)
def temporary(tmp_path: Path, monkeypatch: pytest.MonkeyPatch) -> Path:
    folder = tmp_path / "tmp"
    folder.mkdir()
    monkeypatch.setenv("TMPDIR", str(folder))
    monkeypatch.setenv("PYTHONPATH", str(POSIX))
    return folder


@contextmanager
def holder() -> Iterator[tuple[subprocess.Popen[str], Path]]:
    """A process that has a folder, and the folder."""
    words = [sys.executable, "-c", HOLDS]
    with subprocess.Popen(words, stdin=subprocess.PIPE, stdout=subprocess.PIPE, text=True) as process:
        assert process.stdin is not None and process.stdout is not None
        try:
            yield process, Path(process.stdout.readline().strip())
        finally:
            process.stdin.close()


def test_the_next_run_removes_what_a_killed_one_has_left(posix: Posix, temporary: Path) -> None:
    program = posix.compiled("tests/odd.c")
    with holder() as (process, folder):
        assert posix.run(program).returncode == 0
        assert (folder / "a file").exists()  # its owner is alive
        process.kill()
        process.wait()
        assert (folder / "a file").exists()
        assert posix.run(program).returncode == 0
    assert not list(temporary.iterdir())


def test_nothing_else_is_removed(posix: Posix, temporary: Path, tmp_path: Path) -> None:
    target = tmp_path / "target"
    target.mkdir()
    (temporary / "tracehost-run-abcdefgh").symlink_to(target)
    (temporary / "tracehost-run-ijklmnop").write_text("a file")
    for name in ("tracehost-abcdefgh", "tracehost-run-notes", "tracehost-run-abc.efgh"):
        (temporary / name).mkdir()
    before = sorted(temporary.iterdir())
    assert posix.run(posix.compiled("tests/odd.c")).returncode == 0
    assert sorted(temporary.iterdir()) == before and target.exists()


@pytest.mark.skipif(os.geteuid() != 0, reason="only root makes folders of others")
def test_a_folder_of_another_user_stays(posix: Posix, temporary: Path) -> None:
    others = temporary / "tracehost-run-abcdefgh"
    others.mkdir()
    os.chown(others, 12345, 12345)
    assert posix.run(posix.compiled("tests/odd.c")).returncode == 0
    assert others.exists()


def test_runs_that_make_and_remove_folders_leave_each_other_alone(temporary: Path) -> None:
    made = [subprocess.Popen([sys.executable, "-c", MAKES], stderr=subprocess.PIPE, text=True) for _ in range(3)]
    for process in made:
        _, errors = process.communicate(timeout=300)
        assert (errors, process.returncode) == ("", 0)
    assert not list(temporary.iterdir())


def test_a_run_that_is_killed_while_it_makes_a_page(posix: Posix, temporary: Path, tmp_path: Path) -> None:
    """Its viewer waits until the run is killed."""
    program, page, viewer = posix.race("lost_wakeup"), tmp_path / "page.html", tmp_path / "bin" / "tracehost-view"
    viewer.parent.mkdir()
    viewer.write_text('#!/bin/sh\necho "$$" >"$TMPDIR/../viewer"\nexec sleep 1000\n')
    viewer.chmod(0o755)
    words = [
        sys.executable,
        "-c",
        VIEWER,
        str(viewer),
        str(RUN),
        "--no-record",
        "--seed",
        "4",
        "--compare",
        str(page),
        str(program),
    ]
    with subprocess.Popen(words, stderr=subprocess.DEVNULL) as process:
        while not (tmp_path / "viewer").exists() and process.poll() is None:
            time.sleep(0.05)
        process.kill()
    os.kill(int((tmp_path / "viewer").read_text()), signal.SIGKILL)
    assert len(list(temporary.iterdir())) == 1
    assert posix.run(program).returncode == 0
    assert not list(temporary.iterdir())


VIEWER = """
import sys
sys.path[:0] = [sys.argv[2].rpartition("/")[0], sys.argv[2].rpartition("/")[0] + "/../python"]
from tracehost_posix import report, command
report._viewer = lambda: [sys.argv[1]]
sys.exit(command.main(sys.argv[3:]))
"""
