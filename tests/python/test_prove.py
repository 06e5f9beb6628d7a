"""`./tracehost --prove`, with a stand-in for the command rt that proves nothing, in a copy of the repository."""

from __future__ import annotations

import os
import shutil
import signal
import subprocess
import sys
import time
from pathlib import Path

import pytest
from checking import TOP, Ended
from stranger import copy

sys.path.insert(0, str(TOP / "tools"))
from crates import below  # noqa: E402

# it notes what it is given, and builds a program unless it is told to fail or to wait
STAND_IN = """#!/bin/sh
find . -type f | sort >"$ROOM/given"
[ "$GATE" != fails ] || { echo 'rt: low NOT PROVED'; exit 1; }
[ "$GATE" != waits ] || { : >"$ROOM/waits"; exec sleep 600; }
mkdir -p crates/tracehost/out
printf '#!/bin/sh\\necho "ran $*"\\n' >crates/tracehost/out/tracehost
chmod +x crates/tracehost/out/tracehost
"""
RAN = "ran some.json --user 1001\n"


class Room:
    """A copy of the repository, without what was built, and an empty folder for files of a run."""

    def __init__(self, top: Path, room: Path) -> None:
        self.top, self.given, self.tmp = top, room / "given", room / "tmp"
        self.built = top / "crates/tracehost/out"
        shutil.rmtree(self.built, ignore_errors=True)
        self.tmp.mkdir()
        (room / "bin").mkdir()
        (room / "bin/rt").write_text(STAND_IN)
        (room / "bin/rt").chmod(0o755)
        self.environment = {"PATH": f"{room}/bin:{os.environ['PATH']}", "ROOM": str(room), "TMPDIR": str(self.tmp)}

    def start(self, gate: str = "") -> subprocess.Popen[str]:
        return subprocess.Popen(
            [self.top / "tracehost", "--prove", "some.json", "--user", "1001"], env={**os.environ, **self.environment, "GATE": gate},
            stdout=subprocess.PIPE, stderr=subprocess.PIPE, text=True, start_new_session=True,
        )  # fmt: skip

    def prove(self, gate: str = "") -> Ended:
        with self.start(gate) as run:
            out, err = run.communicate(timeout=600)
        assert not any(self.tmp.iterdir())
        return Ended(run.returncode, out, err)


@pytest.fixture(scope="module")
def top(tmp_path_factory: pytest.TempPathFactory) -> Path:
    return copy(tmp_path_factory.mktemp("prove") / "copy")


@pytest.fixture
def room(top: Path, tmp_path: Path) -> Room:
    return Room(top, tmp_path)


def test_the_program_is_built_once_and_run(room: Room) -> None:
    assert room.prove()[:2] == (0, RAN)
    room.given.unlink()
    assert room.prove() == (0, RAN, "")
    assert not room.given.exists()
    with open(next((room.top / "crates" / min(below("tracehost"))).glob("src/*.rt")), "a") as source:
        source.write("// changed\n")
    assert room.prove()[:2] == (0, RAN)
    assert room.given.exists()


def test_what_the_gate_is_given(room: Room) -> None:
    """Each source of the crates that the program uses, the program's input, HANDLES, and no edit."""
    room.prove()
    given = {line.removeprefix("./") for line in room.given.read_text().splitlines()}
    folders = [TOP / "crates" / name / part for name in below("tracehost") for part in ("src", "specs", "proofs")]
    sources = {str(path.relative_to(TOP)) for folder in folders for path in folder.rglob("*") if path.is_file()}
    assert {path for path in given if path.split("/")[2:3] in (["src"], ["specs"], ["proofs"])} == sources
    assert {"HANDLES", "crates.txt", "crates/tracehost/stdin"} <= given
    assert not any("must-fail" in path for path in given)


def test_a_failed_proof(room: Room) -> None:
    status, out, err = room.prove("fails")
    assert (status, out) == (1, "")
    assert "rt: low NOT PROVED" in err
    assert not (room.built / "tracehost").exists()


@pytest.mark.parametrize("number", [signal.SIGINT, signal.SIGTERM])
def test_an_interrupt_leaves_nothing(room: Room, number: signal.Signals) -> None:
    signal.signal(signal.SIGINT, signal.default_int_handler)  # a background job of a shell ignores it
    with room.start("waits") as run:
        while not room.given.with_name("waits").exists():
            time.sleep(0.05)
        os.killpg(run.pid, number)
        run.communicate(timeout=300)
    assert run.returncode != 0
    assert not (room.built / "tracehost").exists() and not any(room.tmp.iterdir())


def test_without_the_kit(room: Room) -> None:
    room.environment["PATH"] = "/usr/bin:/bin"
    said = "tracehost: to prove and build it, put the command rt of the Rattle kit on PATH, and run this again\n"
    assert room.prove() == (1, "", said)
