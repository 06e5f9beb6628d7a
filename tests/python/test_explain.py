"""What --explain says besides what the row files in tests/rows/explain show: of lines, files that aren't there, standard
input, and a key that is given twice. test_explain_agrees.py compares it with runs without it."""

from __future__ import annotations

import json
import subprocess
from pathlib import Path
from typing import NamedTuple

import pytest

from checking import answers, run

SPAWN = '{"user":1001,"op":"spawn"}'
NEW = "1001 1 new 1000 100000\n"
CANNOT_READ = "tracehost: cannot read\n"
OPS = '"spawn", "ptrace", "wait4", "kill", "sigaction", "list", "install", "handle" and "turn"'
SPAN = '{"steps":[{"user":1001,"op":"span"}]}\n'
SPAN_REFUSED = "tracehost: refused: BadName at step 1\n"
SPAN_EXPLAINED = '  steps[0].op: "span" is no op; did you mean "spawn"?\n'
KEY_TWICE = '{"steps":[{"user":7,"op":"spawn","user":1001}]}\n'
KEY_TWICE_EXPLAINED = '  steps[0]: the key "user" is given twice; the last one counts\n'


class Case(NamedTuple):
    """A run of the program: its name, its words, its input, and how it ends."""

    name: str
    words: str
    given: str
    status: int = 0
    out: str = ""
    err: str = ""


LINES = Case(
    "lines",
    "--lines --explain",
    "\n".join(
        [
            SPAWN,
            "",
            '{"user":1001,"op":"lst","caller":1000}',
            '{"user":1001,"op":"list"}',
            "[1,]",
            '{"user":1001,"op":"install","caller":1000,"rules":[{"signal":0,"decision":"kill"}]}',
            "7",
            '{"user":1001,"op":"list","caller":1,"caller":1000}',
            '{"user":1001',
        ]
    ),
    out=NEW
    + "refused BadJson\nrefused BadName\nrefused BadShape\nrefused BadJson\nrefused BadNumber\nrefused BadShape\n"
    + "1001 2 pids 1000\nrefused BadJson\n",
    err="""\
  line 2, column 1: expected a value, but the text ends
  line 3, op: "lst" is no op; did you mean "list"?
  line 4: the key "caller" is missing
  line 5, column 4: expected a value, got `]`; leave out the comma before it
  line 6, rules[0].signal: 0 is out of range; expected a whole number from 1 to 31
  line 7: expected an object, got 7
  line 8: the key "caller" is given twice; the last one counts
  line 9, column 13: expected `,` or `}`, but the text ends; what opens at line 9, column 1 isn't closed
""",
)

# in the program's folder are the folder `folder`, one.json with one step, and span.json with a misspelt op
CASES = [
    # what can't be read
    Case("no file", "--explain nothing.json", "", 3, err=CANNOT_READ + "  nothing.json: No such file or directory\n"),
    Case("a folder", "--explain folder", "", 3, err=CANNOT_READ + "  folder: Is a directory\n"),
    Case(
        "no file of lines", "--lines --explain nothing.json", "", 3, err=CANNOT_READ + "  nothing.json: No such file or directory\n"
    ),
    Case(
        "no expected file", "--explain one.json --expect nothing", "", 3, err=CANNOT_READ + "  nothing: No such file or directory\n"
    ),
    # the file of the scenario is the next word, and `-` is standard input
    Case("a file after --explain", "--explain span.json", "", 1, err=SPAN_REFUSED + SPAN_EXPLAINED),
    Case("a scenario from -", "-", f'{{"steps":[{SPAWN}]}}\n', out=NEW),
    Case("a file of the name -", "--explain ./-", "", 3, err=CANNOT_READ + "  ./-: No such file or directory\n"),
    Case("steps from -", "--lines -", SPAWN + "\n", out=NEW),
    # a user without steps
    Case(
        "a user without steps", "--explain --user 1064 one.json", "", err="  --user 1064: the scenario has no step of this user\n"
    ),
    Case("a user without steps, without the option", "--user 1064 one.json", ""),
    Case("a user with steps", "--explain --user 1001 one.json", "", out=NEW),
    # a mistake in each of many steps: ten are reported
    Case(
        "a mistake in each of many steps",
        "--explain",
        f'{{"steps":[{SPAWN}' + ',{"user":1002,"op":"fly"}' * 12 + "]}",
        1,
        err="tracehost: refused: BadName at step 2\n"
        + "".join(f'  steps[{step}].op: "fly" is no op; the ops are {OPS}\n' for step in range(1, 11)),
    ),
    # standard input
    Case("standard input", "--explain", SPAN, 1, err=SPAN_REFUSED + SPAN_EXPLAINED),
    Case("without the option", "", SPAN, 1, err=SPAN_REFUSED),
    Case(
        "a text that is too long",
        "--explain",
        " " * 4194305,
        1,
        err="tracehost: refused: TooLong\n  the scenario has more than 4194304 bytes\n",
    ),
    Case(
        "too many steps",
        "--explain",
        '{"steps":[0' + ",0" * 100000 + "]}",
        1,
        err="tracehost: refused: TooManySteps\n  steps: 100001 steps; a scenario has at most 100000\n",
    ),
    Case(
        "a byte order mark",
        "--explain",
        '\ufeff{"steps":[]}',
        1,
        err="tracehost: refused: BadJson\n  line 1, column 1: a byte order mark begins the text; leave it out\n",
    ),
    Case(
        "a number with a point",
        "--explain",
        '{"steps":[{"user":1001.0,"op":"spawn"}]}\n',
        1,
        err="tracehost: refused: BadShape at step 1\n  steps[0].user: expected a whole number from 1001 to 1064, got 1001.0\n",
    ),
    Case(
        "minus zero",
        "--explain",
        '{"steps":[{"user":1001,"op":"list","caller":-0}]}\n',
        1,
        err="tracehost: refused: BadShape at step 1\n  steps[0].caller: expected a whole number from 0 to 4294967295, got -0\n",
    ),
    # a key that comes more than once is reported although the scenario is run
    Case("a key twice", "--explain", KEY_TWICE, out=NEW, err=KEY_TWICE_EXPLAINED),
    Case("a key twice, without the option", "", KEY_TWICE, out=NEW),
    Case("a key twice, by threads", "--explain --threads", KEY_TWICE, out=NEW, err=KEY_TWICE_EXPLAINED),
    # line by line
    LINES,
    Case(
        "a line that is too long",
        "--lines --explain",
        " " * 65537 + f"\n{SPAWN}\n",
        out="refused TooLong\n" + NEW,
        err="  line 1 has more than 65536 bytes\n",
    ),
]


@pytest.fixture
def folder(tmp_path: Path) -> Path:
    (tmp_path / "folder").mkdir()
    (tmp_path / "one.json").write_text(f'{{"steps":[{SPAWN}]}}\n')
    (tmp_path / "span.json").write_text(SPAN)
    return tmp_path


@pytest.mark.parametrize("case", CASES, ids=[case.name for case in CASES])
def test_what_is_said(program: Path, folder: Path, case: Case) -> None:
    answers(program, *case.words.split(), given=case.given, status=case.status, out=case.out, err=case.err, cwd=folder)


def test_standard_input_that_is_a_folder(program: Path, folder: Path) -> None:
    with subprocess.Popen(
        ["sh", "-c", '"$0" --explain <folder', program], cwd=folder, stdout=subprocess.PIPE, stderr=subprocess.PIPE
    ) as ran:
        out, err = ran.communicate(timeout=60)
    assert (ran.returncode, out, err.decode()) == (3, b"", CANNOT_READ + "  standard input: Is a directory\n")


def test_many_keys_twice(program: Path) -> None:
    ran = run(program, "--explain", given=f'{{"steps":[{SPAWN}' + ',{"op":"spawn","op":"spawn","user":1002}' * 12 + "]}")
    told = [f'  steps[{step}]: the key "op" is given twice; the last one counts\n' for step in range(1, 11)]
    assert ran.err == "".join(told) + "  2 more keys are given more than once\n"


@pytest.mark.parametrize("op", ["span", "lst"])
def test_a_peer_has_been_told_of_a_line_once_it_is_answered(program: Path, tmp_path: Path, op: str) -> None:
    with open(tmp_path / "told", "w") as told:
        session = subprocess.Popen(
            [program, "--lines", "--explain"], stdin=subprocess.PIPE, stdout=subprocess.PIPE, stderr=told, text=True
        )
    with session:
        assert session.stdin and session.stdout
        session.stdin.write(json.dumps({"user": 1001, "op": op}) + "\n")
        session.stdin.flush()
        assert session.stdout.readline() == "refused BadName\n"
        assert f'"{op}" is no op' in (tmp_path / "told").read_text()
        session.stdin.close()
