"""What `tracehost-run` and `tracehost-cc` print and end with if they can't do their work: one line, and a status other than 0."""

from __future__ import annotations

import os
import pathlib
import subprocess
import sys

import pytest
from checking import needs
from posix_kit import CC as COMPILER
from posix_kit import POSIX, Posix
from posix_kit import RUN as RUNNER

pytestmark = pytest.mark.usefixtures("posix")

RUN = [sys.executable, RUNNER, "--no-record"]
CC = [COMPILER]
CALLS = "#include <unistd.h>\nint main(void) { getppid(); return 0; }\n"
CLOSED, FULL = ">&-", ">/dev/full"


def shell(words: list[object], redirections: str) -> subprocess.CompletedProcess[str]:
    """Runs a command with these redirections of a shell."""
    command = ["sh", "-c", f'"$@" {redirections}', "sh", *words]
    return subprocess.run([str(word) for word in command], capture_output=True, text=True, timeout=120, stdin=subprocess.DEVNULL)


@pytest.fixture(scope="module")
def calls(posix: Posix, tmp_path_factory: pytest.TempPathFactory) -> pathlib.Path:
    """A program that makes a call."""
    folder = tmp_path_factory.mktemp("mistakes")
    (folder / "calls.c").write_text(CALLS)
    done = shell([*CC, "-o", folder / "calls", folder / "calls.c"], "")
    assert done.returncode == 0, done.stderr
    return folder / "calls"


# ---- standard output that is closed or full


@pytest.mark.parametrize("options", ["--digest", "--digest --schedules 5", "--digest --schedules 500", "--help", "-h", "--version"])
@pytest.mark.parametrize("output", [CLOSED, FULL])
def test_what_is_not_printed_is_told(calls: pathlib.Path, options: str, output: str) -> None:
    done = shell([*RUN, *options.split(), calls], output)
    assert done.returncode == 3
    last = done.stderr.splitlines()[-1]
    assert last.startswith("tracehost-run: standard output") and done.stderr.count("standard output") == 1
    assert "Traceback" not in done.stderr and "Exception" not in done.stderr
    assert done.stderr.count("\n") <= (2 if "schedules" in options else 1), done.stderr  # a search's verdict may come before


def test_a_program_without_standard_output_is_not_run(calls: pathlib.Path) -> None:
    done = shell([*RUN, calls], CLOSED)
    assert (done.returncode, done.stderr) == (3, "tracehost-run: standard output is closed\n")


@pytest.mark.parametrize("closed", ["<&-", "2>&-", "<&- 2>&-"])
def test_no_socket_gets_the_number_of_a_standard_file(tmp_path: pathlib.Path, closed: str) -> None:
    source = "#include <sys/stat.h>\nint main(void) { struct stat of; return fstat(0, &of) || !S_ISCHR(of.st_mode) || fstat(2, &of) || S_ISSOCK(of.st_mode); }\n"
    (tmp_path / "looks.c").write_text(source)
    assert shell([*CC, "-o", tmp_path / "looks", tmp_path / "looks.c"], "").returncode == 0
    done = shell([*RUN, "--schedules", 3, tmp_path / "looks"], closed)
    assert done.returncode == 4 and not done.stdout  # it makes no call but its end
    assert shell([*RUN, tmp_path / "looks"], closed).returncode == 0


def test_a_mistake_without_standard_error_has_its_status() -> None:
    done = shell([*RUN, "--bogus"], "2>&-")
    assert (done.returncode, done.stdout) == (2, "")


@pytest.mark.parametrize("words", ["--schedules 3", "--schedules 3 --digest", "--bogus", "--record /nothing/x", "--figures"])
def test_what_standard_error_does_not_take_ends_with_status_3(calls: pathlib.Path, words: str) -> None:
    for output in ("2>/dev/full", "2>/dev/full >/dev/full"):
        assert shell([*RUN, *words.split(), calls], output).returncode == 3


@pytest.mark.parametrize("option", ["--version", "--help", "-dumpmachine", "-print-libgcc-file-name"])
def test_what_the_compiler_does_not_print_is_told(option: str) -> None:
    own, of_compiler = shell([*CC, option], "").stdout.rstrip(), shell(["cc", option], "").stdout.rstrip()
    assert of_compiler and own == (f"{own.partition(of_compiler)[0]}{of_compiler}" if option == "--help" else of_compiler)
    assert ("  --freebsd " in own) == (option == "--help")
    for output in (CLOSED, FULL):
        done = shell([*CC, option], output)
        assert (done.returncode, done.stderr) == (1, "tracehost-cc: standard output can't be written\n")


# ---- a record that can't be written


@pytest.mark.parametrize(
    "path, why", [("nothing/x", "No such file or directory"), ("", "Is a directory"), ("file/x", "Not a directory")]
)
def test_a_record_that_cannot_be_written_is_refused(calls: pathlib.Path, tmp_path: pathlib.Path, path: str, why: str) -> None:
    (tmp_path / "file").write_text("")
    record = tmp_path / path
    done = shell([*RUN, "--record", record, calls], "")
    assert (done.returncode, done.stderr) == (2, f"tracehost-run: --record: {record}: {why}\n")
    assert [file.name for file in tmp_path.iterdir()] == ["file"]


@pytest.mark.parametrize("blocks", [1, 8, 16, 64])
def test_a_record_that_is_too_large_is_told(posix: Posix, tmp_path: pathlib.Path, blocks: int) -> None:
    """A disk that is full at each of the record's files."""
    record = tmp_path / "run.json"
    limited = ["sh", "-c", f'ulimit -f {blocks}; exec "$@"', "sh", *RUN, "--seed", 4, "--record", record]
    done = shell([*limited, posix.race("lost_wakeup")], "")
    assert done.returncode == 3 and "Traceback" not in done.stderr
    assert done.stderr.splitlines()[-1].startswith(f"tracehost-run: --record: {record}")


@pytest.mark.parametrize("kind", ["record", "program"])
def test_a_pipe_or_a_device_is_refused(calls: pathlib.Path, tmp_path: pathlib.Path, kind: str) -> None:
    os.mkfifo(tmp_path / "pipe")
    for path in (tmp_path / "pipe", "/dev/full"):
        refused(["--record", path, calls] if kind == "record" else [path], str(path))


def test_a_record_is_only_written_if_there_is_one(calls: pathlib.Path, tmp_path: pathlib.Path) -> None:
    done = shell([*RUN, "--schedules", 3, "--record", tmp_path / "run.json", calls], "")
    assert done.returncode == 0 and not list(tmp_path.iterdir()), done.stderr


# ---- what is asked for can't be done: one line, and status 2


@pytest.fixture(scope="module")
def odd(posix: Posix) -> pathlib.Path:
    """A program that could be run."""
    return posix.compiled("tests/odd.c")


def refused(words: list[object], wanted: str) -> None:
    done = shell([*RUN, *words], "")
    assert done.returncode == 2 and done.stderr.count("\n") == 1 and wanted in done.stderr, done.stderr


NOTHING = "/nothing/is/here"
MISTAKES = [  # what tracehost-run is given before the program, and what it names
    ("--seed x", "--seed"), ("--seed 0", "--seed"),
    *((f"--{option} -1", f"--{option}") for option in ("schedules", "jobs", "depth", "length", "limit", "patience", "preemptions")),
    ("--strategy best", "--strategy"), ("--sleeps never", "--sleeps"), ("--switches 1:2", "--switches"),
    ("--kill-on-debugger-exit 2", "--kill-on-debugger-exit"), (f"--model {NOTHING}", "no such program"),
    ("--seed 1 --schedules 3", "don't go together"), ("--gdb --with x", "don't go together"), ("--bogus", "unrecognized"),
    ("--with nothing_is_here", "--with"), ("--with '", "--with"), ("--seed 1e3", "'1e3' is no number from 1 to"),
]  # fmt: skip


@pytest.mark.parametrize("words, wanted", MISTAKES, ids=[words for words, _ in MISTAKES])
def test_a_mistake_is_one_line(odd: pathlib.Path, words: str, wanted: str) -> None:
    refused([*words.split(), odd], wanted)


@pytest.mark.parametrize("words, wanted", [("", "no PROGRAM"), (NOTHING, "No such file"), (f"--replay {NOTHING}", "--replay")])
def test_a_program_or_a_record_that_is_not_there(words: str, wanted: str) -> None:
    refused([*words.split()], wanted)


@pytest.mark.parametrize(
    "text", ["", "[]", '{"switches": ""}', '{"switches": 3}', '{"switches": "", "limit": "x", "program": ["x"]}', '{"switches": "x"}']
    + ['{"switches": "", "limit": 9, "program": []}', '{"switches": "", "limit": 9, "program": [3]}', "\udcff"],
)  # fmt: skip
def test_a_schedule_that_is_something_else(tmp_path: pathlib.Path, text: str) -> None:
    for name in ("run.json", "run.json.lines"):
        (tmp_path / name).write_text("")
    (tmp_path / "run.json.schedule").write_text(text, errors="surrogateescape")
    refused(["--replay", tmp_path / "run.json"], f"--replay: {tmp_path}/run.json.schedule: ")


def test_a_record_whose_lines_are_gone(calls: pathlib.Path, tmp_path: pathlib.Path) -> None:
    record = tmp_path / "run.json"
    assert shell([*RUN, "--record", record, calls], "").returncode == 0
    lines = pathlib.Path(f"{record}.lines")
    lines.write_text(lines.read_text().partition("\n")[0] + "\n")
    done = shell([*RUN, "--replay", record], "")
    assert done.returncode == 4 and "goes another way" in done.stderr
    lines.unlink()
    refused(["--replay", record], f"{lines}: No such file or directory")


def test_too_few_open_files_are_told(calls: pathlib.Path) -> None:
    done = shell(["sh", "-c", 'ulimit -n 100; exec "$@"', "sh", *RUN, calls], "")
    assert done.returncode == 3 and "ulimit -n" in done.stderr and done.stderr.count("\n") == 1


@pytest.fixture(scope="module")
def plain(tmp_path_factory: pytest.TempPathFactory) -> pathlib.Path:
    """A program of the system's compiler, and its object."""
    folder = tmp_path_factory.mktemp("plain")
    (folder / "plain.c").write_text("int main(void) { return 0; }\n")
    assert shell(["cc", "-c", "-o", folder / "plain.o", folder / "plain.c"], "").returncode == 0
    assert shell(["cc", "-o", folder / "plain", folder / "plain.o"], "").returncode == 0
    return folder / "plain"


def test_a_program_without_the_runtime(plain: pathlib.Path) -> None:
    refused([plain], "compile it with tracehost-cc")


@needs("go")
def test_a_program_in_go(tmp_path: pathlib.Path, monkeypatch: pytest.MonkeyPatch) -> None:
    text = 'package main\n\n// #include <unistd.h>\nimport "C"\n\nfunc main() { println(C.getpid()) }\n'
    (tmp_path / "main.go").write_text(text)
    (tmp_path / "go.mod").write_text("module cgo\ngo 1.19\n")
    monkeypatch.chdir(tmp_path)
    done = shell(["env", f"CC={COMPILER}", "CGO_ENABLED=1", f"GOCACHE={tmp_path}/cache", "go", "build", "-o", "cgo", "."], "")
    assert done.returncode == 0, done.stderr
    refused(["./cgo"], "it has Go's runtime, which makes threads and system calls past ours")


@pytest.mark.parametrize("words", ["", "--jobs 8 --schedules 90"])
def test_a_program_without_the_header(odd: pathlib.Path, plain: pathlib.Path, tmp_path: pathlib.Path, words: str) -> None:
    link = ["-pthread", "-Wl,-u,tracehost_start", f"-L{POSIX / 'build'}", "-ltracehost-posix"]
    assert shell(["cc", "-o", tmp_path / "headerless", plain.with_suffix(".o"), *link], "").returncode == 0
    refused([*words.split(), tmp_path / "headerless"], "compile its files with tracehost-cc")


def test_a_program_that_is_started_on_its_own_says_by_what_it_is_run(odd: pathlib.Path) -> None:
    done = shell([odd], "")
    assert done.returncode != 0 and done.stderr.count("\n") == 1 and "tracehost-run" in done.stderr
