"""Refused input is explained unasked if standard error is a terminal, and only there."""

from __future__ import annotations

import os
import pty
import subprocess
from pathlib import Path

import pytest

from checking import Ended, run

STEP = '{"user":1001,"op":"spawn"}'
BAD_STEP = '{"user":1001,"op":"spwn"}'
BAD_SCENARIO = '{"steps":[' + BAD_STEP + "]}"
NEW = "1001 1 new 1000 100000\n"
LINE = "tracehost: refused: BadName at step 1\n"
EXPLAINED = '  steps[0].op: "spwn" is no op; did you mean "spawn"?\n'
LINE_EXPLAINED = '  line 1, op: "spwn" is no op; did you mean "spawn"?\n'
REMEDY = '  --kill-on-debugger-exit: a scenario has a key for it, {"kill_on_debugger_exit":0,"steps":[..]}\n'


# the options, and whether they explain on a terminal and elsewhere
CHOICES: list[tuple[list[str], bool, bool]] = [
    ([], True, False),
    (["--explain=auto"], True, False),
    (["--explain"], True, True),
    (["--explain=always"], True, True),
    (["--explain=never"], False, False),
]


def all_of(descriptor: int) -> str:
    """What the program writes to its terminal."""
    parts = []
    while True:
        try:
            part = os.read(descriptor, 65536)
        except OSError:  # the terminal"s other side is closed
            break
        if not part:
            break
        parts.append(part)
    return b"".join(parts).decode().replace("\r\n", "\n")


def with_terminal_error(program: Path, words: list[str], text: str) -> Ended:
    """The status, standard output and standard error of a run whose standard error is a terminal."""
    ours, theirs = pty.openpty()
    with subprocess.Popen([program, *words], stdin=subprocess.PIPE, stdout=subprocess.PIPE, stderr=theirs) as process:
        os.close(theirs)
        out, _ = process.communicate(text.encode(), timeout=60)
    err = all_of(ours)
    os.close(ours)
    return Ended(process.returncode, out.decode(), err)


def with_terminal(program: Path, words: list[str], text: str, error: bool = True) -> Ended:
    """The same of a run that reads from a terminal, to which standard error goes too, or else a pipe."""
    ours, theirs = pty.openpty()
    with subprocess.Popen(
        [program, *words], stdin=theirs, stdout=subprocess.PIPE, stderr=theirs if error else subprocess.PIPE
    ) as process:
        os.close(theirs)
        # the end of input, where a line begins
        os.write(ours, text.encode() + b"\x04")
        out, err = process.communicate(timeout=60)
    shown = all_of(ours)
    os.close(ours)
    return Ended(process.returncode, out.decode(), shown if error else err.decode())


@pytest.mark.parametrize(
    ("words", "on_terminal", "elsewhere"), CHOICES, ids=[" ".join(words) or "no option" for words, _, _ in CHOICES]
)
def test_a_refused_scenario(program: Path, words: list[str], on_terminal: bool, elsewhere: bool) -> None:
    assert with_terminal_error(program, words, BAD_SCENARIO) == Ended(1, "", LINE + EXPLAINED if on_terminal else LINE)
    assert run(program, *words, given=BAD_SCENARIO) == Ended(1, "", LINE + EXPLAINED if elsewhere else LINE)


@pytest.mark.parametrize(
    ("words", "on_terminal", "elsewhere"), CHOICES, ids=[" ".join(words) or "no option" for words, _, _ in CHOICES]
)
def test_a_refused_line(program: Path, words: list[str], on_terminal: bool, elsewhere: bool) -> None:
    words = [*words, "--lines"]
    refused = "refused BadName\n"
    assert with_terminal_error(program, words, BAD_STEP + "\n") == Ended(0, refused, LINE_EXPLAINED if on_terminal else "")
    assert run(program, *words, given=BAD_STEP + "\n") == Ended(0, refused, LINE_EXPLAINED if elsewhere else "")


def test_a_refused_command_line_has_its_remedy_after_the_message(program: Path) -> None:
    words = ["--kill-on-debugger-exit", "0"]
    captured = run(program, *words)
    assert captured.status == 2
    assert "kill_on_debugger_exit" not in captured.err
    assert with_terminal_error(program, words, "") == captured._replace(err=captured.err + REMEDY)
    explained = run(program, *words, "--explain")
    assert explained[:2] == (2, "")
    assert explained.err.endswith(REMEDY)


@pytest.mark.parametrize(
    ("words", "text", "wanted"),
    [
        (["--lines"], STEP, "type one step a line as JSON, for example " + STEP),
        ([], '{"steps":[' + STEP + "]}", 'type a scenario as JSON, for example {"steps":[' + STEP + "]}"),
    ],
    ids=["lines", "a scenario"],
)
def test_a_first_line_says_what_is_typed(program: Path, words: list[str], text: str, wanted: str) -> None:
    ran = with_terminal(program, words, text + "\n")
    assert ran[:2] == (0, NEW)
    assert wanted in ran.err


@pytest.mark.parametrize(("words", "error"), [(["--lines", "--explain=never"], True), (["--lines"], False)])
def test_nothing_is_asked_for(program: Path, words: list[str], error: bool) -> None:
    """If nothing is explained, and if errors don't go to the terminal."""
    assert "type one step" not in with_terminal(program, words, STEP + "\n", error).err


def test_nothing_is_asked_for_at_a_pipe(program: Path) -> None:
    assert with_terminal_error(program, ["--lines"], STEP + "\n") == Ended(0, NEW, "")
