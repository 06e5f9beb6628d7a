"""What a run of tracehost-run leaves that fails and was asked for no record: where, under which name, and until when."""

from __future__ import annotations

import json
import os
import re
import subprocess
from concurrent.futures import ThreadPoolExecutor
from pathlib import Path

import pytest
from posix_kit import CC, RUN, Done, Posix

PROGRAM = r"""
#include <signal.h>
#include <stdlib.h>
#include <sys/wait.h>
#include <unistd.h>
int main(void)
{
    int status;
    if (fork() == 0)
        _exit(getenv("FAILS") != NULL);
    wait(&status);
    return WEXITSTATUS(status);
}
"""
ENDS = ("", ".html", ".lines", ".schedule")


@pytest.fixture(scope="module")
def fails(posix: Posix, tmp_path_factory: pytest.TempPathFactory) -> Path:
    """A program that fails if the environment has FAILS."""
    folder = tmp_path_factory.mktemp("record")
    (folder / "fails.c").write_text(PROGRAM)
    done = posix.execute(CC, "-g", "-o", folder / "fails", folder / "fails.c")
    assert done.returncode == 0, done.stderr
    return folder / "fails"


def run(folder: Path, *words: object, **environment: str) -> Done:
    return subprocess.run(
        [str(RUN), *map(str, words)], capture_output=True, text=True, timeout=120, check=False,
        env={**os.environ, "TRACEHOST_ARTIFACTS": str(folder), **environment},
    )  # fmt: skip


def names(folder: Path) -> list[str]:
    return sorted(path.name for path in folder.iterdir())


def test_a_run_that_fails_leaves_its_record(program: Path, fails: Path, tmp_path: Path) -> None:
    """Its name has the program's and the words; the story and the command are of it, and it runs again as it is recorded."""
    folder = tmp_path / "new" / "folder"
    done = run(folder, "--seed", 3, fails, "with", "words/..", FAILS="1")
    assert done.returncode == 1
    name = names(folder)[0]
    assert re.fullmatch(r"fails\.seed_3_with_words_\.\.-[0-9a-f]{12}\.json", name) and names(folder) == [name + end for end in ENDS]
    lines = done.stderr.splitlines()
    assert lines[-1].split() == ["to", "go", "on", "from", "here:", "tracehost-debug", str(folder / name)]
    told = [place for place, line in enumerate(lines) if line.startswith("tracehost-run: the first process exited with status 1")]
    assert len(told) == 1 and 3 < len(lines[told[0] + 1 :]) <= 20
    again = subprocess.run([program, "--expect", f"{folder / name}.lines", folder / name], capture_output=True)
    assert (again.returncode, again.stderr) == (0, b"")
    replayed = run(folder, "--replay", folder / name, FAILS="1")
    assert replayed.returncode == 1 and "goes as recorded" in replayed.stderr
    assert names(folder) == [name + end for end in ENDS]
    assert b"fails --seed" not in (folder / f"{name}.html").read_bytes() and b'"failure"' in (folder / f"{name}.html").read_bytes()


def test_without_a_folder_it_is_in_a_new_one(fails: Path, tmp_path: Path) -> None:
    done = run(tmp_path, fails, FAILS="1", TRACEHOST_ARTIFACTS="", TMPDIR=str(tmp_path))
    record = Path(done.stderr.splitlines()[-1].split()[-1])
    assert record.is_file() and record.parent.parent == tmp_path and record.name.startswith("fails.run-")
    (left,) = tmp_path.iterdir()
    passes = run(tmp_path, fails, TRACEHOST_ARTIFACTS="", TMPDIR=str(tmp_path))
    assert (passes.returncode, passes.stderr, list(tmp_path.iterdir())) == (0, "", [left])
    refused = run(tmp_path, "--no-record", fails, FAILS="1", TRACEHOST_ARTIFACTS="", TMPDIR=str(tmp_path))
    assert refused.returncode == 1 and "tracehost-debug" not in refused.stderr and list(tmp_path.iterdir()) == [left]


def test_a_pass_removes_only_its_own(fails: Path, tmp_path: Path) -> None:
    """Not what another command, another program or somebody else left, nor the record of a run that goes on."""
    commands: list[list[object]] = [[fails], [fails, "other"], ["--seed", 1, fails]]
    for words in commands:
        assert run(tmp_path, *words, FAILS="1").returncode == 1
    own, other, seeded = (
        next(name for name in names(tmp_path) if name.startswith(front)) for front in ("fails.run", "fails.o", "fails.s")
    )
    ended = subprocess.Popen(["true"])
    ended.wait()
    for process in (os.getpid(), ended.pid):
        (tmp_path / f"{own}.{process}.part").write_text("{}")
        (tmp_path / f"{own}.{process}.part.lines").write_text("")
    stranger = (tmp_path / f"{own}.txt", tmp_path / "fails.run-000000000000.json")
    for path in stranger:
        path.write_text("mine")
    passed = run(tmp_path, fails)
    assert (passed.returncode, passed.stderr) == (0, "")
    kept = [f"{own}.{os.getpid()}.part", f"{own}.{os.getpid()}.part.lines", *(path.name for path in stranger)]
    assert names(tmp_path) == sorted([*kept, *(name + end for name in (other, seeded) for end in ENDS)])


def test_a_record_that_can_t_be_written_is_told(fails: Path, tmp_path: Path) -> None:
    """The run has failed, and that is its status."""
    (tmp_path / "file").write_text("")
    for folder in (tmp_path / "file", Path("/proc")):
        done = run(folder, fails, FAILS="1")
        assert done.returncode == 1 and "tracehost-debug" not in done.stderr
        assert re.search(rf"^tracehost-run: no record is left: {folder}.*: ", done.stderr, re.MULTILINE), done.stderr
        passed = run(folder, fails)
        assert (passed.returncode, passed.stderr) == (0, "")
    assert names(tmp_path) == ["file"]


def test_without_a_story_there_is_the_command(fails: Path, tmp_path: Path) -> None:
    done = run(tmp_path, fails, FAILS="1", TRACEHOST_DEBUG="")
    (name,) = (name for name in names(tmp_path) if name.endswith(".json"))
    assert done.stderr.splitlines() == [
        "tracehost-run: the first process exited with status 1",
        "  1000/100000 in exit",
        f"to go on from here: tracehost-debug {tmp_path / name}",
    ]


def test_runs_of_one_command_at_a_time(program: Path, fails: Path, tmp_path: Path) -> None:
    """Each leaves a whole record in the place of the other's."""
    with ThreadPoolExecutor(4) as pool:
        statuses = [done.returncode for done in pool.map(lambda _: run(tmp_path, fails, FAILS="1", TRACEHOST_DEBUG=""), range(12))]
    assert statuses == [1] * 12
    (name,) = (name for name in names(tmp_path) if name.endswith(".json"))
    assert names(tmp_path) == [name + end for end in ENDS]
    again = subprocess.run([program, "--expect", f"{tmp_path / name}.lines", tmp_path / name], capture_output=True)
    assert (again.returncode, again.stderr) == (0, b"")
    assert json.loads((tmp_path / f"{name}.schedule").read_text())["failed"] == "the first process exited with status 1"


def test_a_search_leaves_the_record_of_what_it_found(posix: Posix, tmp_path: Path) -> None:
    done = run(tmp_path, "--schedules", 300, posix.race("lost_wakeup"))
    assert done.returncode == 1
    (name,) = (name for name in names(tmp_path) if name.endswith(".json"))
    assert name.startswith("lost_wakeup.schedules_300-")
    schedule = json.loads((tmp_path / f"{name}.schedule").read_text())
    assert schedule["switches"] and f"--switches {schedule['switches']}" in done.stderr
    assert run(tmp_path, "--schedules", 5, posix.remedy("lost_wakeup")).returncode == 0
    assert names(tmp_path) == [name + end for end in ENDS]
