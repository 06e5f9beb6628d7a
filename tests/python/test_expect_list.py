"""The scenarios of a list, each compared with its expected lines, by --expect-list."""

from __future__ import annotations

import json
import os
import random
import resource
from pathlib import Path

import pytest
from by_chance import scenario
from checking import Ended, run

SPAWN = '{"steps":[{"user":1001,"op":"spawn"}]}'
LINE = "1001 1 new 1000 100000\n"


@pytest.fixture
def folder(tmp_path: Path) -> Path:
    (tmp_path / "spawn.json").write_text(SPAWN)
    (tmp_path / "right").write_text(LINE)
    (tmp_path / "wrong").write_text(LINE.replace("1000 ", "1001 "))
    (tmp_path / "refused.json").write_text('{"steps":[{"user":1001,"op":"spwan"}]}')
    return tmp_path


def compared(program: Path, folder: Path, rows: str, *words: str) -> Ended:
    (folder / "list").write_text(rows)
    return run(program, "--expect-list", "list", *words, cwd=folder)


SAME, DIFFERENT, REFUSED = "spawn.json\tright\n", "spawn.json\twrong\n", "refused.json\tright\n"
NO_SCENARIO, NO_LINES, NO_TAB = "nothing.json\tright\n", "spawn.json\tnothing\n", "spawn.json right\n"
SAID = {
    DIFFERENT: 'wrong:1: expected "1001 1 new 1001 100000", got "1001 1 new 1000 100000"\n',
    REFUSED: "refused.json: tracehost: refused: BadName at step 1\n",
    NO_SCENARIO: "nothing.json: cannot read\n",
    NO_LINES: "nothing: cannot read\n",
    NO_TAB: 'list: "spawn.json right" isn\'t two names with a tab between them\n',
}


@pytest.mark.parametrize(
    ("rows", "status", "counts"),
    [
        ([SAME], 0, ""),
        ([SAME, SAME, "\n", SAME], 0, ""),
        ([SAME, DIFFERENT, SAME], 4, "3 compared: 1 differ, 0 refused, 0 not read"),
        ([DIFFERENT, REFUSED], 1, "2 compared: 1 differ, 1 refused, 0 not read"),
        ([NO_TAB, SAME], 1, "2 compared: 0 differ, 1 refused, 0 not read"),
        ([DIFFERENT, REFUSED, NO_SCENARIO], 3, "3 compared: 1 differ, 1 refused, 1 not read"),
        ([NO_LINES, SAME], 3, "2 compared: 0 differ, 0 refused, 1 not read"),
        ([], 1, "0 compared: 0 differ, 0 refused, 0 not read"),
    ],
)
def test_a_list(program: Path, folder: Path, rows: list[str], status: int, counts: str) -> None:
    out = "".join(SAID.get(row, "") for row in rows)
    err = f"tracehost: {counts}\n" if counts else ""
    assert compared(program, folder, "".join(rows)) == Ended(status, out, err)


def test_a_last_line_without_a_line_feed(program: Path, folder: Path) -> None:
    assert compared(program, folder, DIFFERENT[:-1]).status == 4


def test_the_options_of_lines(program: Path, folder: Path) -> None:
    (folder / "json").write_text('{"user":1001,"step":1,"reply":"new","pid":1000,"lwp":100000}\n')
    assert compared(program, folder, "spawn.json\tjson\n", "--json").status == 0
    (folder / "empty").write_text("")
    assert compared(program, folder, "spawn.json\tempty\n", "--user", "1002").status == 0
    assert compared(program, folder, SAME, "--threads").status == 0


@pytest.mark.parametrize("words", ["spawn.json", "--expect right", "--lines", "--bless"])
def test_what_cannot_be_used_with_it(program: Path, folder: Path, words: str) -> None:
    ended = compared(program, folder, SAME, *words.split())
    assert (ended.status, ended.out) == (2, "")


@pytest.mark.parametrize("name", ["nothing", "."])
def test_a_list_that_cannot_be_read(program: Path, folder: Path, name: str) -> None:
    assert run(program, "--expect-list", name, cwd=folder) == Ended(3, "", "tracehost: cannot read\n")


def test_control_characters_of_names_are_escaped(program: Path, folder: Path) -> None:
    ended = compared(program, folder, "a\x1b]0;new\x07\tright\nb\x1bc\n")
    assert (ended.status, "\x1b" in ended.out, "\x07" in ended.out) == (3, False, False)


def seconds(before: resource.struct_rusage) -> float:
    after = resource.getrusage(resource.RUSAGE_CHILDREN)
    return after.ru_utime + after.ru_stime - before.ru_utime - before.ru_stime


def test_many_short_scenarios_take_a_tenth_of_a_process_each(program: Path, tmp_path: Path) -> None:
    """Side by side in one run, in processor seconds. A row whose lines were changed is found among them."""
    count, changed = int(os.environ.get("TRACEHOST_TEST_SCALE", "1")) * 400, 123
    chance = random.Random(0)
    rows = []
    before = resource.getrusage(resource.RUSAGE_CHILDREN)
    for index in range(count):
        (tmp_path / f"{index}.json").write_text(json.dumps({"steps": scenario(chance)["steps"][:8]}))
        lines = run(program, f"{index}.json", cwd=tmp_path).out
        (tmp_path / f"{index}.out").write_text(lines + "1001 0 ok\n" if index == changed else lines)
        rows.append(f"{index}.json\t{index}.out\n")
    by_processes = seconds(before)
    before = resource.getrusage(resource.RUSAGE_CHILDREN)
    ended = compared(program, tmp_path, "".join(rows))
    assert ended.status == 4 and ended.out.startswith(f"{changed}.out:") and ended.out.count("\n") == 1
    assert seconds(before) * 10 < by_processes
