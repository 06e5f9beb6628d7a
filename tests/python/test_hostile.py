"""Bad input gets its one line on standard error, its status, and nothing on standard output."""

from __future__ import annotations

import os
import resource
import signal
import subprocess
import sys
import threading
from pathlib import Path

import pytest
from checking import answers, run

FOUR = (
    b'{"steps":[{"user":1001,"op":"spawn"},{"user":1002,"op":"spawn"},{"user":1001,"op":"spawn"},'
    b'{"user":1001,"op":"list","caller":1000}]}'
)
SPACES = b" " * 4194304


def zeros(count: int) -> bytes:
    return b'{"steps":[' + b",".join([b"0"] * count) + b"]}"


def listed(caller: bytes) -> bytes:
    return b'{"steps":[{"user":1001,"op":"list","caller":' + caller + b"}]}"


INPUTS = {
    "no bytes": (b"", "BadJson"),
    "text cut short": (FOUR[:60], "BadJson"),
    "4194304 spaces": (SPACES, "BadJson"),
    "4194305 spaces": (SPACES + b" ", "TooLong"),
    "100000 zeros": (zeros(100000), "BadShape at step 1"),
    "100001 zeros": (zeros(100001), "TooManySteps"),
    "a repeated key has its last value": (b'{"steps":[],"steps":[{"user":1001,"op":"fly"}]}', "BadName at step 1"),
    "a number that is written as no whole one": (listed(b"1e3"), "BadShape at step 1"),
    "a caller of 33 bits": (listed(b"4294967296"), "BadNumber at step 1"),
    "bytes that are no UTF-8": (b'{"steps":[{"user":1001,"op":"sp\xffawn"}]}', "BadJson"),
}


@pytest.mark.parametrize("name", INPUTS)
def test_an_input(program: Path, name: str) -> None:
    given, fault = INPUTS[name]
    answers(program, status=1, err=f"tracehost: refused: {fault}\n", given=given)


@pytest.mark.parametrize("length", range(len(FOUR)))
def test_a_scenario_cut_short(program: Path, length: int) -> None:
    answers(program, status=1, err="tracehost: refused: BadJson\n", given=FOUR[:length])


@pytest.mark.parametrize("kind", ["a missing file", "a folder"])
def test_what_cannot_be_read(program: Path, tmp_path: Path, kind: str) -> None:
    answers(program, tmp_path / "missing" if kind == "a missing file" else tmp_path, status=3, err="tracehost: cannot read\n")


@pytest.mark.parametrize("words", ["--fly", "--user 1000", "--user 1065", "--user root"])
def test_a_command_line(program: Path, words: str) -> None:
    """The text of a refusal is clap's."""
    ended = run(program, *words.split())
    assert (ended.status, ended.out) == (2, "") and ended.err


def test_a_full_device(program: Path, tmp_path: Path) -> None:
    scenario = tmp_path / "four"
    scenario.write_bytes(FOUR)
    with open("/dev/full", "wb") as full:
        ended = subprocess.run([program, scenario], stdout=full, stderr=subprocess.PIPE, check=False)
    assert (ended.returncode, ended.stderr) == (3, b"tracehost: cannot write\n")


# ---- odd files, names and limits

CANNOT_READ, TOO_LONG = "tracehost: cannot read\n", "tracehost: refused: TooLong\n"
ODD_FILES = {
    "/dev/zero": (1, TOO_LONG),
    "4 GiB with nothing in it": (1, TOO_LONG),
    "/proc/self/mem": (3, CANNOT_READ),
    "a name of 100,000 characters": (3, CANNOT_READ),
}


@pytest.mark.parametrize("name", ODD_FILES)
def test_an_odd_file(program: Path, tmp_path: Path, name: str) -> None:
    status, said = ODD_FILES[name]
    path = Path(name)
    if name.startswith("4 GiB"):
        path = tmp_path / "sparse"
        path.touch()
        os.truncate(path, 4 << 30)
    elif name.startswith("a name"):
        path = Path("x" * 100000)
    answers(program, path, status=status, err=said)


def test_a_fifo(program: Path, tmp_path: Path) -> None:
    fifo = tmp_path / "fifo"
    os.mkfifo(fifo)
    writer = threading.Thread(target=fifo.write_bytes, args=(FOUR,))
    writer.start()
    lines = run(program, given=FOUR).out
    assert len(lines.splitlines()) == 4
    answers(program, fifo, out=lines)
    writer.join()


def test_odd_words(program: Path, tmp_path: Path) -> None:
    """A name that is no text, and 100,000 words, are no command line. Without any word it reads its standard input."""
    (tmp_path / "a\udcff.json").write_bytes(FOUR)
    many: list[list[Path | str]] = [[tmp_path / "a\udcff.json"], [str(number) for number in range(100000)]]
    for words in many:
        ended = run(program, *words)
        assert (ended.status, ended.out) == (2, "") and ended.err
    without_words = "import ctypes, sys; ctypes.CDLL(None).execve(sys.argv[1].encode(), (ctypes.c_char_p * 1)(None), None)"
    answers(sys.executable, "-c", without_words, program, out=run(program, given=FOUR).out, given=FOUR)


def test_a_limit_of_files(program: Path, tmp_path: Path) -> None:
    """What can't be written whole is told, if the host's signal for it is ignored."""

    def limit() -> None:
        signal.signal(signal.SIGXFSZ, signal.SIG_IGN)
        resource.setrlimit(resource.RLIMIT_FSIZE, (5, 5))

    with open(tmp_path / "out", "wb") as out:
        ended = subprocess.run([program], input=FOUR, stdout=out, stderr=subprocess.PIPE, check=False, preexec_fn=limit)
    assert (ended.returncode, ended.stderr) == (3, b"tracehost: cannot write\n")
    assert (tmp_path / "out").read_bytes() == b"1001 "


def test_a_file_that_is_no_list(program: Path, tmp_path: Path) -> None:
    """Random bytes as a list of what to compare, and a scenario as what it is to print."""
    (tmp_path / "four").write_bytes(FOUR)
    (tmp_path / "bytes").write_bytes(bytes(range(256)) * 12)
    (tmp_path / "list").write_text("four\tfour\n")
    for name in ("bytes", "list"):
        ended = run(program, "--expect-list", name, cwd=tmp_path)
        assert ended.status == {"bytes": 3, "list": 4}[name] and ended.out + ended.err, ended
        assert "\x1b" not in ended.out + ended.err
