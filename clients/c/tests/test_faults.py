"""The client in C: fork(2) with an open session, and records that can't be written. With the compiler's sanitizers.

TRACEHOST_TEST_SCALE multiplies how many processes fork and are killed.
"""

from __future__ import annotations

import json
import os
import pathlib
import random
import signal
import subprocess
import time

import pytest
from tracehost.recording import mend

TOP = pathlib.Path(__file__).resolve().parents[3]
CLIENT = TOP / "clients/c"
SCALE = int(os.environ.get("TRACEHOST_TEST_SCALE", "1"))
SPAWN = '{"user":1001,"op":"spawn"}'
LINE = "1001 1 new 1000 100000\n"
SANITIZERS = ["-fsanitize=address,undefined", "-fno-sanitize-recover=all"]
WARNINGS = ["-Wall", "-Wextra", "-Wpedantic", "-Wconversion", "-Werror"]
HEADERS = [f"-I{TOP / 'include'}", f"-I{CLIENT}"]


def named_program() -> str:
    return os.environ["TRACEHOST"]


@pytest.fixture(scope="module")
def faults(library: pathlib.Path, tmp_path_factory: pytest.TempPathFactory) -> str:
    """The program of these tests."""
    built = tmp_path_factory.mktemp("faults") / "faults"
    command = ["cc", "-std=c11", "-g", "-pthread", *WARNINGS, *SANITIZERS, *HEADERS, "-Dpwrite=pwrite_of_a_small_disk"]
    sources = [CLIENT / "tests/faults/faults.c", CLIENT / "tracehost_client.c", library / "libtracehost.a"]
    subprocess.run([*command, "-o", built, *sources], check=True)
    return str(built)


def run(*words: object) -> str:
    done = subprocess.run([str(word) for word in words], stdout=subprocess.PIPE, stderr=subprocess.PIPE, timeout=600, text=True)
    assert (done.returncode, done.stderr) == (0, "")
    return done.stdout


def recorded(scenario: pathlib.Path, lines: pathlib.Path) -> int:
    """How many steps are left, with their lines."""
    steps = len(json.loads(scenario.read_bytes())["steps"])
    assert lines.read_text() == "".join(f"1001 {n + 1} new {1000 + n} {100000 + n}\n" for n in range(steps))
    subprocess.run([named_program(), scenario, "--expect", lines], check=True)
    return steps


def test_a_fork(faults: str) -> None:
    """The child has a copy of the session. A thread of the parent sleeps in a wait meanwhile."""
    for _ in range(5 * SCALE):
        run(faults, "fork")


def test_a_disk_that_is_full_at_each_byte(faults: str, tmp_path: pathlib.Path) -> None:
    for room in range(150):
        scenario, lines = tmp_path / f"{room}.json", tmp_path / f"{room}.out"
        made = int(run(faults, "disk", scenario, lines, room))
        assert recorded(scenario, lines) == made == (room + len(",")) // len(LINE + ",\n" + SPAWN)


def test_a_file_that_may_not_grow(faults: str, tmp_path: pathlib.Path) -> None:
    """SIGXFSZ, which would end the program, isn't raised."""
    for size in (*range(45, 120), 4095, 4096, 4097):
        scenario, lines = tmp_path / f"{size}.json", tmp_path / f"{size}.out"
        made = int(run(faults, "limit", scenario, lines, size))
        assert recorded(scenario, lines) == made


RECORDER = r"""
#include "tracehost_client.h"
#include <stdio.h>
int main(int argc, char **argv)
{
    th_host *h = th_open(NULL);
    th_caller self = {1001, 1000};
    if (argc != 3 || th_record(h, argv[1], argv[2]) != 0 || th_spawn(h, 1001, NULL, NULL) != 0)
        return 1;
    puts("begun");
    fflush(stdout);
    while (th_kill(h, self, 1000, 0) == 0)
        ;
    return 1;
}
"""


def steps_of(scenario: pathlib.Path) -> int:
    """How many whole steps a killed program has left. Only a step in which a page of the file ends may be cut, since a kernel
    may end the write of a killed process there. `mend` cuts it off.
    """
    try:
        return len(json.loads(scenario.read_bytes())["steps"])
    except ValueError:
        steps = mend(scenario)
        start = scenario.stat().st_size - 8  # at most so far before the step that was cut
        assert -start % os.sysconf("SC_PAGE_SIZE") < 100
        return steps


def test_a_program_that_is_killed(library: pathlib.Path, tmp_path: pathlib.Path) -> None:
    """Each whole step has its line, and there may be one line more."""
    chance = random.Random(2)
    (tmp_path / "recorder.c").write_text(RECORDER)
    recorder, scenario, lines = tmp_path / "recorder", tmp_path / "s.json", tmp_path / "s.out"
    sources = [tmp_path / "recorder.c", CLIENT / "tracehost_client.c", library / "libtracehost.a"]
    subprocess.run(["cc", "-O1", "-pthread", *HEADERS, "-o", recorder, *sources], check=True)
    for _ in range(40 * SCALE):
        process = subprocess.Popen([recorder, scenario, lines], stdout=subprocess.PIPE)
        assert process.stdout is not None
        process.stdout.readline()
        time.sleep(chance.random() * 0.02)
        process.send_signal(signal.SIGKILL)
        process.wait()
        process.stdout.close()
        assert len(lines.read_bytes().splitlines()) - steps_of(scenario) in (0, 1)
