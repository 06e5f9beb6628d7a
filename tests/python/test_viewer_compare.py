"""Two runs beside each other: which steps belong together, where the first difference is, and what viewer/make does."""

from __future__ import annotations

import json
import random
import re
from collections import Counter
from pathlib import Path
from typing import Any

import pytest
from by_chance import scenario
from checking import TOP, needs
from compared_runs import Line, Run, Step, Steps, common_runs, compared, lines_of, names_in, node, said, trace_of, with_names
from viewer_pages import run_make
from viewer_runs import long_scenario

RUNS = """
import { commonRuns } from "SOURCE/compare_align.mjs";
const steps = ([asked, whole]) => ({ asked: Int32Array.from(asked), whole: Int32Array.from(whole) });
const run = ({ left, right, length }) => [left, right, length];
console.log(JSON.stringify(given.map(([left, right, ...work]) => commonRuns(steps(left), steps(right), ...work).map(run))));
"""
EDITS = 60
SPAWN: Step = {"user": 1001, "op": "spawn"}


def random_steps(chance: random.Random, letters: int, replies: int) -> Steps:
    asked = [chance.randrange(letters) for _ in range(chance.randrange(40))]
    return Steps(asked, [one * replies + chance.randrange(replies) for one in asked])


def edited(chance: random.Random, steps: Steps, letters: int, replies: int) -> Steps:
    """The steps with some left out, some inserted, some moved, and some answered otherwise."""
    kept = list(zip(steps.asked, steps.whole))
    for _ in range(chance.randrange(8)):
        at = chance.randrange(len(kept) + 1)
        asked = chance.randrange(letters)
        other = (asked, asked * replies + chance.randrange(replies))
        way = chance.randrange(4)
        if way == 0:
            del kept[at : at + chance.randint(1, 4)]
        elif way == 1:
            kept[at:at] = [other] * chance.randint(1, 3)
        elif way == 2:
            kept = kept[at:] + kept[:at]
        else:
            kept[at : at + 1] = [other]
    return Steps([asked for asked, _ in kept], [whole for _, whole in kept])


def random_pairs(count: int) -> list[tuple[Steps, Steps]]:
    chance = random.Random(48)
    pairs = []
    for number in range(count):
        letters, replies = chance.choice([1, 2, 3, 8]), chance.choice([1, 2, 3])
        left = random_steps(chance, letters, replies)
        right = random_steps(chance, letters, replies) if number % 4 == 0 else edited(chance, left, letters, replies)
        pairs.append((left, right))
    return pairs


@needs("node")
def test_steps_belong_together_as_in_the_plain_reference() -> None:
    """200 random pairs, of steps that come often and of some that come once."""
    pairs = random_pairs(200)
    found = node(RUNS, pairs)
    wanted = [[list(run) for run in common_runs(left, right)] for left, right in pairs]
    for pair, got, want in zip(pairs, found, wanted):
        assert got == want, pair
    assert sum(len(runs) > 2 for runs in wanted) > 60, "too few pairs have a run in their middle"


@needs("node")
def test_an_inserted_step_shifts_nothing() -> None:
    steps = list(range(40)) * 3
    left, right = Steps(steps, steps), Steps(steps[:50] + [99] + steps[50:], steps[:50] + [99] + steps[50:])
    assert node(RUNS, [(left, right), (right, left)]) == [[[0, 0, 50], [50, 51, 70]], [[0, 0, 50], [51, 50, 70]]]


@needs("node")
def test_steps_are_compared_one_by_one_if_it_would_take_too_long() -> None:
    """Then each one with the one at its distance from the part's begin, as far as they ask the same."""
    left, right = Steps([1, 2, 3, 4], [1, 2, 3, 4]), Steps([5, 2, 6, 4, 7], [5, 2, 6, 4, 7])
    assert node(RUNS, [(left, right, 0), (left, right)]) == [[[1, 1, 1], [3, 3, 1]], [[1, 1, 1], [3, 3, 1]]]


def changed(chance: random.Random, steps: list[Step]) -> list[Step]:
    """The steps with one left out, doubled, or exchanged for a spawn."""
    at = chance.randrange(len(steps))
    others: list[list[Step]] = [[], [steps[at], steps[at]], [{"user": steps[at]["user"], "op": "spawn"}]]
    return [*steps[:at], *chance.choice(others), *steps[at + 1 :]]


def shuffled(chance: random.Random, steps: list[Step]) -> list[Step]:
    """The steps in another order of users, each user's own in their order."""
    own = {user: [step for step in steps if step["user"] == user] for user in {step["user"] for step in steps}}
    users = [step["user"] for step in steps]
    chance.shuffle(users)
    return [own[user].pop(0) for user in users]


def by_user(lines: list[Line]) -> dict[int, list[Line]]:
    found: dict[int, list[Line]] = {}
    for line in lines:
        found.setdefault(line["user"], []).append(line)
    return found


def first_difference(left: list[Line], right: list[Line]) -> int | None:
    """The first step of a user that isn't the same in both runs, or leaves other rows behind; counted from 1."""

    def whole(line: Line) -> object:
        return {**said(line), "rows": line.get("rows")}

    most = max(len(left), len(right))
    texts = [[whole(line) for line in lines] for lines in (left, right)]
    return next((step + 1 for step in range(most) if texts[0][step : step + 1] != texts[1][step : step + 1]), None)


def check_pairs(pairs: list[dict[str, Any]], traces: tuple[str, str]) -> None:
    """Each step is in one pair, in its user's order; kinds are what the lines say; the first difference is the plain one."""
    names = names_in(traces)
    sides = [lines_of(traces[0]), [with_names(line, names.get(line["user"], {})) for line in lines_of(traces[1])]]
    numbered = [{line["index"]: line for line in lines} for lines in sides]
    assert [sorted(pair[side] for pair in pairs if pair[side]) for side in ("left", "right")] == [sorted(one) for one in numbered]
    users = [by_user(lines) for lines in sides]
    for user in set(users[0]) | set(users[1]):
        own = [pair for pair in pairs if pair["user"] == user]
        for side in ("left", "right"):
            numbers = [pair[side] for pair in own if pair[side]]
            assert numbers == sorted(numbers)
        firsts = [pair for pair in own if pair["first"]]
        at = first_difference(users[0].get(user, []), users[1].get(user, []))
        assert (at is None) == (not firsts)
        if at is not None:
            # of the first pair that differs the steps that are there have this number
            steps = [numbered[place][firsts[0][side]]["step"] for place, side in enumerate(("left", "right")) if firsts[0][side]]
            assert set(steps) == {at}
        check_kinds(own, numbered)


def check_kinds(own: list[dict[str, Any]], numbered: list[dict[int, Line]]) -> None:
    counts, before = {"left": 0, "right": 0}, "same"
    for pair in own:
        left, right = numbered[0].get(pair["left"]), numbered[1].get(pair["right"])
        for side, line in (("left", left), ("right", right)):
            counts[side] += line is not None
        assert pair["counts"] == counts
        assert pair["first"] == (pair["kind"] != "same" and before == "same")
        before = pair["kind"]
        if left is None or right is None:
            assert pair["kind"] == ("left" if right is None else "right")
        elif said(left) == said(right):
            assert pair["kind"] == "same" or (pair["kind"] == "rows" and left["rows"] != right["rows"])
        else:
            assert pair["kind"] == ("reply" if left["asked"] == right["asked"] else "step")


@needs("node")
def test_random_sessions_with_an_edit(program: Path) -> None:
    """Whatever the order of the users: what a user sees depends only on the user's own steps."""
    traces = []
    for seed in range(EDITS):
        chance = random.Random(seed)
        steps = scenario(chance)["steps"]
        traces.append((trace_of(program, steps), trace_of(program, shuffled(chance, changed(chance, steps)))))
    found = compared(traces)
    for pairs, texts in zip(found, traces):
        check_pairs(pairs, texts)
    assert sum(any(pair["first"] for pair in pairs) for pairs in found) > EDITS / 2


def shifted(step: Step) -> Step:
    """A step of user 1001 whose processes but the first, and their LWPs, have a number more by one."""
    if step["user"] != 1001:
        return step
    more = {key: step[key] + 1 for key in ("caller", "target", "which", "lwp") if step.get(key, 0) > 1000 and step[key] != 100_000}
    return {**step, **more}


@needs("node")
@pytest.mark.parametrize("first", [True, False], ids=["right", "left"])
def test_one_more_process_is_one_difference(program: Path, first: bool) -> None:
    """Those behind it got other numbers, and are the same. Only the run that has it is named."""
    steps = long_scenario(400)["steps"]
    more = [*steps[:4], {"user": 1001, "op": "spawn"}, *map(shifted, steps[4:])]
    traces = (trace_of(program, steps), trace_of(program, more))
    (pairs,) = compared([traces if first else traces[::-1]])
    different = [pair for pair in pairs if pair["kind"] != "same"]
    assert [(pair["kind"], pair["left"], pair["right"]) for pair in different] == [
        ("right", None, 5) if first else ("left", 5, None)
    ]
    names = names_in(traces)
    assert set(names) == {1001} and names[1001][1002] == 1001 and names[1001][100_002] == 100_001


@needs("node")
def test_numbers_are_taken_for_others_only_if_more_is_the_same_then(program: Path) -> None:
    for seed in range(EDITS):
        chance = random.Random(seed)
        steps = scenario(chance)["steps"]
        traces = (trace_of(program, steps), trace_of(program, changed(chance, steps)))
        for user, own in names_in(traces).items():
            left, right = ([said(line) for line in lines_of(trace) if line["user"] == user] for trace in traces)
            assert len(set(own.values())) == len(own)
            nobody: dict[int, int] = {}
            counts = [
                sum((Counter(map(json.dumps, left)) & Counter(json.dumps(with_names(line, names)) for line in right)).values())
                for names in (nobody, own)
            ]
            assert counts[0] < counts[1]


@needs("node")
def test_another_order_of_the_users_is_no_difference(program: Path) -> None:
    traces = []
    for seed in range(20):
        chance = random.Random(seed)
        steps = scenario(chance)["steps"]
        traces.append((trace_of(program, steps), trace_of(program, shuffled(chance, steps))))
    for pairs in compared(traces):
        assert {pair["kind"] for pair in pairs} == {"same"}


@needs("node")
def test_steps_of_several_users_are_in_the_order_of_the_left_run(program: Path) -> None:
    """A step that only the right run has is behind those that are before it there."""
    left: list[Step] = [{"user": user, "op": "spawn"} for user in (1001, 1002, 1003, 1001, 1002)]
    right = [*left[:3], {"user": 1003, "op": "spawn"}, *left[3:], {"user": 1004, "op": "spawn"}]
    (pairs,) = compared([(trace_of(program, left), trace_of(program, right))])
    assert [(pair["left"], pair["right"]) for pair in pairs] == [
        (1, 1), (2, 2), (3, 3), (None, 4), (4, 5), (5, 6), (None, 7),
    ]  # fmt: skip


@needs("node")
def test_another_state_behind_the_same_reply_is_a_difference(program: Path) -> None:
    """With another setting the end of a debugger is answered alike, and leaves other processes behind."""
    steps = json.loads((TOP / "examples/death_of_a_debugger_kills.json").read_text())["steps"]
    (pairs,) = compared([(trace_of(program, steps), trace_of(program, steps, kills=False))])
    first = next(pair for pair in pairs if pair["first"])
    assert (first["kind"], first["left"], first["right"]) == ("rows", 10, 10)
    (plain,) = compared([(trace_of(program, steps, "trace"), trace_of(program, steps, "trace", kills=False))])
    assert "rows" not in {pair["kind"] for pair in plain}


# ---- viewer/make


@pytest.fixture
def room(program: Path, tmp_path: Path) -> Path:
    """Files of two runs, and others."""
    (tmp_path / "a").write_text(trace_of(program, [SPAWN, SPAWN]))
    (tmp_path / "b").write_text(trace_of(program, [SPAWN, SPAWN | {"user": 1002}]))
    (tmp_path / "empty").write_text("")
    (tmp_path / "scenario").write_text(json.dumps({"steps": [SPAWN, SPAWN]}))
    (tmp_path / "replies").write_text('{"user":1001,"step":1,"reply":"new","pid":1000,"lwp":100000}\n')
    (tmp_path / "damaged").write_text((tmp_path / "b").read_text()[:-9])
    return tmp_path


def embedded(page: bytes) -> Any:
    found = re.search(r'<script type="application/json" id="embedded">(.*?)</script>', page.decode())
    assert found
    return json.loads(found[1])


def line_of(row: list[int], values: list[Line]) -> Line:
    """The line of a trace that a row of the page is; its index is the step's, since there is one user before the last step."""
    user, step, asked, said, rows = row
    index = step if user == 1001 else 2
    return {"user": user, "step": step, "index": index, "asked": values[asked], **values[said], "rows": values[rows]}


@pytest.mark.parametrize("words", ["a b", "a a", "a empty", "empty b"])
def test_two_traces_are_two_runs(room: Path, words: str) -> None:
    """The status is 0, whether they differ or not; one of them may be of a run without steps."""
    names = words.split()
    done = run_make(*names, cwd=room)
    assert (done.returncode, done.stderr) == (0, b"")
    data = embedded(done.stdout)
    assert data["title"] == " and ".join(names)
    assert [file["name"] for file in data["files"]] == names
    for file in data["files"]:
        assert [line_of(row, data["values"]) for row in file["rows"]] == lines_of((room / file["name"]).read_text())
    assert b'id="pairs"' in done.stdout


@pytest.mark.parametrize("words", ["a", "a scenario", "scenario a", "replies scenario"])
def test_other_files_are_one_run(room: Path, words: str) -> None:
    done = run_make(*words.split(), cwd=room)
    assert (done.returncode, done.stderr) == (0, b"")
    assert b'id="pairs"' not in done.stdout and b'id="picture"' in done.stdout


@pytest.mark.parametrize(
    "words, told",
    [
        ("a none", "none: No such file or directory"),
        ("none b", "none: No such file or directory"),
        ("a replies", "replies isn't a trace; two runs need two traces (tracehost --json=trace)"),
        ("replies b", "replies isn't a trace; two runs need two traces (tracehost --json=trace)"),
        ("empty empty", "empty: there is nothing in it (and 1 more"),
    ],
)
def test_no_page_is_made(room: Path, words: str, told: str) -> None:
    done = run_make(*words.split(), cwd=room)
    assert (done.returncode, done.stdout) == (1, b"")
    assert done.stderr.decode().startswith(f"viewer/make: {told.removesuffix(' (and 1 more')}"), done.stderr


def test_a_page_of_what_can_be_read(room: Path) -> None:
    done = run_make("a", "damaged", cwd=room)
    assert done.returncode == 1
    assert re.fullmatch(rb"viewer/make: damaged, line 2: no JSON: \{.*\n", done.stderr)
    assert embedded(done.stdout)["files"][1]["name"] == "damaged"


def test_files_of_one_name_in_two_folders(room: Path) -> None:
    (room / "other").mkdir()
    (room / "other/a").write_text((room / "b").read_text())
    done = run_make("a", "other/a", "-t", "<b>", cwd=room, check=True)
    data = embedded(done.stdout)
    assert ([file["name"] for file in data["files"]], data["title"]) == (["a", "other/a"], "<b>")


def test_notes(room: Path) -> None:
    done = run_make("a", "b", "--note", "2:the switch: 1:2", "--note=9:</script>", cwd=room, check=True)
    assert embedded(done.stdout)["notes"] == [{"step": 2, "text": "the switch: 1:2"}, {"step": 9, "text": "</script>"}]
    assert b"9:</script>" not in done.stdout
    for word in ("two", "0:a", "-1:a", "1:", ":a", "1" * 20 + ":a"):
        done = run_make("a", "b", f"--note={word}", cwd=room)
        assert (done.returncode, done.stdout) == (2, b"")
        assert f"{word!r} isn't STEP:TEXT, with a STEP from 1" in done.stderr.decode()
    done = run_make("a", "--note", "1:a", cwd=room)
    assert (done.returncode, done.stderr) == (1, b"viewer/make: --note needs two traces\n")


def test_the_policy_is_that_of_the_other_page(room: Path) -> None:
    """Only the page's own script runs."""
    policies = [
        re.findall(r'content="(default-src [^"]*)"', run_make(*words, cwd=room, check=True).stdout.decode())
        for words in (["a", "b"], ["a"])
    ]
    assert [len(found) for found in policies] == [1, 1]
    without = [re.sub("sha256-[^']+", "sha256-", found[0]) for found in policies]
    assert without[0] == without[1] == "default-src 'none'; script-src 'sha256-'; style-src 'unsafe-inline'"
