"""Tables of text, tests/texts/*.txt: what JSON texts are read as, and with which fault a text is refused.

A row is `TEXT -> WANTED`, under the heading of its section, `# NAME`. `-k wait4` runs the rows of the sections of this name.
"""

from __future__ import annotations

import json
from pathlib import Path
from typing import NamedTuple

import pytest
from checking import answers, run
from session_ways import Tools, call, line_answer, opened, seen
from sessions import FIRST_USER, FOLDER, TOP, read_sessions, slug
from tracehost.blocking import Progress
from tracehost.step_words import step_of
from tracehost.typed import TypedCalls

FOLDER_OF_TEXTS = TOP / "tests/texts"
MOST_BYTES, MOST_LINE, MOST_STEPS, MOST_RULES = 4194304, 65536, 100000, 16
SPAWN = '{"user":1001,"op":"spawn"}'
ACCEPTED = "accepted"


class Row(NamedTuple):
    name: str
    given: str
    wanted: str


def rows_of(file: str) -> list[Row]:
    """The rows of a table, by the names of their sections."""
    rows, section, count = [], "", 0
    for line in (FOLDER_OF_TEXTS / file).read_text(encoding="utf-8").splitlines():
        if line.startswith("# "):
            section, count = slug(line[2:]), 0
        elif line:
            given, arrow, wanted = line.rpartition(" -> ")
            assert arrow and wanted, f"`{line}` has no arrow"
            count += 1
            rows.append(Row(f"{section}_{count}", given, wanted))
    return rows


def for_each_row(file: str) -> pytest.MarkDecorator:
    return pytest.mark.parametrize("row", [pytest.param(row, id=row.name) for row in rows_of(file)])


@pytest.fixture(scope="module")
def tools(program: Path, library: Path) -> Tools:
    return Tools(program, library)


def check_scenario(program: Path, text: str, wanted: str) -> None:
    """The program refuses this scenario with this fault, or accepts it."""
    ended = run(program, given=text)
    if wanted == ACCEPTED:
        assert (ended.status, ended.err) == (0, "")
    else:
        assert ended == (1, "", f"tracehost: refused: {wanted}\n")


def check_step(tools: Tools, step: str, wanted: str) -> None:
    """The step is refused with this fault, or accepted: as the second one of a scenario, and as a line."""
    check_scenario(tools.program, f'{{"steps":[{SPAWN},{step}]}}', wanted if wanted == ACCEPTED else f"{wanted} at step 2")
    line = run(tools.program, "--lines", given=step + "\n").out
    refused = None if wanted == ACCEPTED else f"refused {wanted}\n"
    assert line == refused if refused else not line.startswith("refused")
    assert line_answer(opened(tools), False, step) == line.removesuffix("\n")


@for_each_row("scenarios.txt")
def test_scenario(program: Path, row: Row) -> None:
    check_scenario(program, row.given, row.wanted)


@for_each_row("steps.txt")
def test_step(tools: Tools, row: Row) -> None:
    check_step(tools, row.given, row.wanted)


# ---- what a step is read as

TRACEE = read_sessions([FOLDER / "starts.txt"])["starts/a_tracee"]


@for_each_row("meanings.txt")
def test_meaning(program: Path, row: Row) -> None:
    """The trace has the members of the step that the words are."""
    ended = run(program, "--json=trace", given=f'{{"steps":[{row.given}]}}')
    traced = json.loads(ended.out)
    assert {"user": traced["user"], **traced["asked"]} == step_of(row.wanted.split(), FIRST_USER)


@for_each_row("meanings.txt")
def test_effect(tools: Tools, row: Row) -> None:
    """On the host of a debugger and its tracee, the text does what a call with the words' numbers does."""
    by_text, by_call = opened(tools), opened(tools)
    for host in (by_text, by_call):
        for line in TRACEE.lines:
            line_answer(host, False, json.dumps(line.step))
    call(TypedCalls(by_call, Progress()), step_of(row.wanted.split(), FIRST_USER))
    assert line_answer(by_text, False, row.given) == line_answer(by_call, False)
    for user in TRACEE.users:
        assert seen(by_text, user) == seen(by_call, user)


# ---- texts that are too long to be written out


def install(count: int, rule: str) -> str:
    return f'{{"user":1001,"op":"install","caller":1000,"rules":[{",".join([rule] * count)}]}}'


@pytest.mark.parametrize(
    ("count", "rule", "wanted"),
    [
        (MOST_RULES, '{"decision":"leave"}', ACCEPTED),
        (MOST_RULES + 1, '{"decision":"leave"}', "TooManyRules"),
        (MOST_RULES, "0", "BadShape"),
        (MOST_RULES + 1, "0", "TooManyRules"),
    ],
)
def test_how_many_rules(tools: Tools, count: int, rule: str, wanted: str) -> None:
    check_step(tools, install(count, rule), wanted)


@pytest.mark.parametrize(("count", "wanted"), [(MOST_STEPS, "BadShape at step 1"), (MOST_STEPS + 1, "TooManySteps")])
def test_how_many_steps(program: Path, count: int, wanted: str) -> None:
    check_scenario(program, f'{{"steps":[{",".join("0" * count)}]}}', wanted)


@pytest.mark.parametrize(("count", "wanted"), [(MOST_BYTES, "BadJson"), (MOST_BYTES + 1, "TooLong"), (MOST_BYTES + 2, "TooLong")])
def test_how_many_bytes(program: Path, count: int, wanted: str) -> None:
    check_scenario(program, " " * count, wanted)


def test_blanks(program: Path) -> None:
    check_scenario(program, ' \n\t{ "steps" : [ ] } ', ACCEPTED)


def test_deep_nesting(program: Path) -> None:
    check_scenario(program, "[" * 130 + "]" * 130, "BadJson")


@pytest.mark.parametrize("name", ["spawn_and_list", "session"])
def test_each_cut(program: Path, name: str) -> None:
    whole = (TOP / f"tests/rows/sessions/{name}.json").read_text().rstrip()
    check_scenario(program, whole, ACCEPTED)
    for end in range(len(whole)):
        check_scenario(program, whole[:end], "BadJson")


# ---- lines

LINES = f"""{SPAWN}

{{"user":1002,"op":"spawn"}}
{{"user":1001,"op":"fly"}}
{{"user":1065,"op":"spawn"}}
{{"user":1001,"op":"list","caller":7}}
{{"user":1001,"op":"list","caller":1000}}"""
ANSWERS = """1001 1 new 1000 100000
refused BadJson
1002 1 new 2000 104000
refused BadName
refused BadUser
1001 2 error ESRCH 3
1001 3 pids 1000
"""


def test_lines_and_answers(program: Path) -> None:
    answers(program, "--lines", given=LINES, out=ANSWERS)


def test_lines_of_the_library(tools: Tools) -> None:
    host = opened(tools)
    assert [line_answer(host, False, line) for line in LINES.split("\n")] == ANSWERS.splitlines()


@pytest.mark.parametrize(
    ("length", "wanted"),
    [(MOST_LINE, "1001 1 new 1000 100000"), (MOST_LINE + 1, "refused TooLong"), (MOST_LINE + 2, "refused TooLong")],
)
def test_longest_lines(tools: Tools, length: int, wanted: str) -> None:
    line = SPAWN.ljust(length)
    answers(tools.program, "--lines", given=line + "\n", out=wanted + "\n")
    assert line_answer(opened(tools), False, line) == wanted
