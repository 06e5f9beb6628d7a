"""Recordings on a full disk, in a file that may not grow, or of a process that is killed: a scenario is left.

TRACEHOST_TEST_SCALE multiplies how many processes are killed.
"""

from __future__ import annotations

import errno
import json
import os
import pathlib
import random
import resource
import signal
import subprocess
import sys
import time
from collections.abc import Callable, Iterator

import pytest

sys.path.insert(0, str(pathlib.Path(__file__).resolve().parents[1]))
from tracehost import Host, RecordingFailed, SessionClosed
from tracehost.recording import _File, mend

PACKAGE = pathlib.Path(__file__).resolve().parents[1]
SCALE = int(os.environ.get("TRACEHOST_TEST_SCALE", "1"))
SPAWN = '{"user":1001,"op":"spawn"}'


def named_program() -> str:
    return os.environ["TRACEHOST"]


class Files:
    def __init__(self, room: pathlib.Path) -> None:
        self.scenario, self.lines = room / "session.json", room / "session.out"

    def steps(self) -> int:
        """How many steps the recording has; the other file has to have their lines."""
        steps = len(json.loads(self.scenario.read_bytes())["steps"])
        lines = self.lines.read_text().splitlines()
        assert lines == [f"1001 {n + 1} new {1000 + n} {100000 + n}" for n in range(steps)]
        return steps

    def is_expected(self) -> bool:
        """Whether the program prints these lines for the scenario."""
        done = subprocess.run([named_program(), self.scenario, "--expect", self.lines], stderr=subprocess.PIPE)
        return done.returncode == 0


@pytest.fixture
def files(tmp_path: pathlib.Path) -> Files:
    return Files(tmp_path)


@pytest.fixture
def limit() -> Iterator[Callable[[int], None]]:
    """Sets how long a file may be."""
    soft, hard = resource.getrlimit(resource.RLIMIT_FSIZE)
    yield lambda size: resource.setrlimit(resource.RLIMIT_FSIZE, (size, hard))
    resource.setrlimit(resource.RLIMIT_FSIZE, (soft, hard))


def record_until_it_fails(host: Host) -> tuple[int, RecordingFailed]:
    for count in range(1000):
        try:
            host.line(SPAWN)
        except RecordingFailed as failed:
            return count, failed
    raise AssertionError("it doesn't fail")


@pytest.mark.parametrize("size", [*range(40, 140), 500, 4095, 4096, 4097])
def test_a_file_that_may_not_grow(files: Files, limit: Callable[[int], None], size: int) -> None:
    """At each size the files are those of the steps that fit."""
    host = Host(record=files.scenario, record_lines=files.lines)
    limit(size)
    made, failed = record_until_it_fails(host)
    limit(resource.RLIM_INFINITY)
    assert not isinstance(failed, OSError) and isinstance(failed.__cause__, OSError)
    assert failed.__cause__.errno == errno.EFBIG and "session.json: step" in str(failed)
    assert files.steps() == made
    assert files.is_expected()
    with pytest.raises(SessionClosed):
        host.line(SPAWN)


def fill(patch: pytest.MonkeyPatch, room: int) -> None:
    """From now on the disk of recordings has room for so many bytes more."""
    write_at = _File.write_at

    def write_while_there_is_room(file: _File, place: int, text: bytes) -> int:
        nonlocal room
        grows = max(0, place + len(text) - os.fstat(file._number).st_size)
        if grows > room and not (fits := len(text) - grows + room):
            raise OSError(errno.ENOSPC, os.strerror(errno.ENOSPC))
        elif grows > room:
            text, grows = text[:fits], room
        room -= grows
        return write_at(file, place, text)

    patch.setattr(_File, "write_at", write_while_there_is_room)


@pytest.mark.parametrize("room", range(150))
def test_a_disk_that_is_full_at_each_byte(files: Files, monkeypatch: pytest.MonkeyPatch, room: int) -> None:
    """A short write and ENOSPC after it, at each byte of the first steps, of the lines as of the scenario."""
    host = Host(record=files.scenario, record_lines=files.lines)
    with monkeypatch.context() as patch:
        fill(patch, room)
        made, failed = record_until_it_fails(host)
    assert isinstance(failed.__cause__, OSError) and failed.__cause__.errno == errno.ENOSPC
    of_each = len("1001 1 new 1000 100000\n") + len(",\n") + len(SPAWN)
    assert files.steps() == made == (room + len(",")) // of_each  # the first step has no comma
    with pytest.raises(SessionClosed):
        host.line(SPAWN)


def test_a_real_full_disk(files: Files) -> None:
    """/dev/full takes no byte, and the file is named."""
    with pytest.raises(OSError, match="No space left on device.*/dev/full") as caught:
        Host(record="/dev/full")
    assert caught.value.errno == errno.ENOSPC


def test_a_typed_call_fails_too(files: Files, monkeypatch: pytest.MonkeyPatch) -> None:
    host = Host(record=files.scenario, record_lines=files.lines)
    user = host.user(1001)
    user.spawn()
    fill(monkeypatch, 3)
    with pytest.raises(RecordingFailed):
        user.spawn()
    monkeypatch.undo()
    assert files.steps() == 1


RECORDER = """
import sys, tracehost
host = tracehost.Host(record=sys.argv[1], record_lines=sys.argv[2])
print("begun", flush=True)
while True:
    host.line('{"user":1001,"op":"list","caller":1000}')
"""


def test_a_process_that_is_killed(files: Files) -> None:
    """At any moment the scenario is one, and each of its steps has its line; `mend` cuts off a line too many."""
    chance = random.Random(1)
    for _ in range(20 * SCALE):
        process = subprocess.Popen(
            [sys.executable, "-c", RECORDER, files.scenario, files.lines],
            stdout=subprocess.PIPE, env={**os.environ, "PYTHONPATH": str(PACKAGE)},
        )  # fmt: skip
        assert process.stdout is not None
        process.stdout.readline()
        time.sleep(chance.random() * 0.02)
        process.send_signal(signal.SIGKILL)
        process.wait()
        process.stdout.close()
        steps = json.loads(files.scenario.read_bytes())["steps"]
        assert len(files.lines.read_bytes().splitlines()) - len(steps) in (0, 1)
        assert mend(files.scenario, files.lines) == len(steps)
        assert files.is_expected()


def test_mend_cuts_back_to_whole_steps(files: Files) -> None:
    """For a recording cut at each byte."""
    with Host(record=files.scenario, record_lines=files.lines, kill_on_debugger_exit=False) as host:
        for _ in range(3):
            host.line(SPAWN)
    whole, lines = files.scenario.read_bytes(), files.lines.read_bytes()
    start = whole.index(b"[") + 1
    for end in range(start, len(whole) + 1):
        files.scenario.write_bytes(whole[:end])
        files.lines.write_bytes(lines)
        steps = mend(files.scenario, files.lines)
        assert steps == whole[:end].count(b"}") - (end >= len(whole) - 1)
        assert files.steps() == steps and files.is_expected()
    files.scenario.write_bytes(whole)
    files.lines.write_bytes(lines[:-5])
    assert mend(files.scenario, files.lines) == 2 and files.is_expected()
    files.scenario.write_bytes(whole[: start - 3])
    with pytest.raises(ValueError, match="no recording"):
        mend(files.scenario)


def test_a_forked_child_records_nothing(files: Files) -> None:
    with Host(record=files.scenario, record_lines=files.lines) as host:
        host.line(SPAWN)
        child = os.fork()
        if child == 0:
            host.line(SPAWN)
            host.close()
            os._exit(0)
        assert os.waitpid(child, 0)[1] == 0
        host.line(SPAWN)
    assert files.steps() == 2 and files.is_expected()
