"""Traces (`--json=trace`): each line is the plain JSON line and the step that it answers.

What is wanted comes from the lines of `--json` and from the scenario, which steps_of_scenario.py reads by docs/FORMAT.md.
"""

from __future__ import annotations

import collections
import json
import os
import random
import subprocess
from pathlib import Path
from typing import Any

import pytest

from by_chance import scenario
from checking import TOP, Ended, run
from row_files import Located, accepted_files, for_each_scenario
from steps_of_scenario import KEYS, Object, asked

MODES: list[list[str]] = [[], ["--threads"], ["--user", "USER"], ["--threads", "--user", "USER"]]
SEEDS = range(60)
LONG_STEPS = 100000
# the bytes of memory that a trace of so many steps may take beside those of plain lines: its links and its buffers
MOST_BYTES_MORE = 4 * LONG_STEPS + 600000
NAMES = (
    "compute raise block enter leave exit fork vfork exec thr_new thr_exit other default ignore catch "
    "decline leave continue detach kill"
)


def compact(value: object) -> str:
    return json.dumps(value, separators=(",", ":"))


def wanted(line: str, steps: list[Object]) -> str:
    """The line of a trace for a line of --json."""
    reply = json.loads(line)
    own = [index for index, step in enumerate(steps) if step["user"] == reply["user"]]
    index = own[reply["step"] - 1]
    head = f'{{"user":{reply["user"]},"step":{reply["step"]},'
    assert line.startswith(head), line
    return f'{head}"index":{index + 1},"asked":{compact(asked(steps[index]))},{line[len(head):]}'


def once(pairs: list[tuple[str, object]]) -> dict[str, object]:
    """The object of these members; no two have one name."""
    assert len(dict(pairs)) == len(pairs), pairs
    return dict(pairs)


def most_memory(program: Path, words: list[str], path: Path) -> int:
    """The most memory that a run had at a time, in bytes."""
    child = subprocess.Popen([program, *words, path], stdout=subprocess.DEVNULL)
    _, status, used = os.wait4(child.pid, 0)
    child.returncode = os.waitstatus_to_exitcode(status)
    assert child.returncode == 0, words
    return int(used.ru_maxrss) * 1024


def compare(program: Path, words: list[str], data: bytes, steps: list[Object]) -> str:
    """A trace is the lines of --json, each with its step. All else is the same."""
    plain = run(program, *words, "--json", given=data)
    lines = [wanted(line, steps) for line in plain.out.splitlines()]
    got = run(program, *words, "--json=trace", given=data)
    assert (got.status, got.out.splitlines(), got.err) == (plain.status, lines, plain.err)
    for line in lines:
        json.loads(line, object_pairs_hook=once)
    return got.out


def compare_modes(program: Path, data: bytes) -> str:
    """All modes; returns the trace in the order of the scenario."""
    steps = json.loads(data)["steps"]
    user = str(steps[-1]["user"]) if steps else "1001"
    traces = [compare(program, [word.replace("USER", user) for word in mode], data, steps) for mode in MODES]
    return traces[0]


def run_again(program: Path, trace: str, data: bytes) -> None:
    """The steps of a trace are a scenario with the lines of its own."""
    lines = [json.loads(line) for line in trace.splitlines()]
    again = json.loads(data) | {"steps": [{"user": line["user"], **line["asked"]} for line in lines]}
    assert run(program, given=json.dumps(again)) == run(program, given=data)


def by_chance(seed: int) -> bytes:
    return json.dumps(scenario(random.Random(seed))).encode()


@for_each_scenario(accepted_files())
def test_a_row_file(program: Path, file: Path) -> None:
    data = (TOP / file).read_bytes()
    run_again(program, compare_modes(program, data), data)


@pytest.mark.parametrize("seed", SEEDS)
def test_a_scenario_by_chance(program: Path, seed: int) -> None:
    data = by_chance(seed)
    run_again(program, compare_modes(program, data), data)


def test_values_of_missing_keys(program: Path) -> None:
    first: Object = {"user": 1001, "op": "ptrace", "caller": 1000, "target": 1001}
    steps: list[Object] = [
        first | {"request": "PT_CONTINUE", "data": 0},
        first | {"request": "PT_SET_EVENT_MASK", "mask": []},
        first | {"request": "PT_SET_EVENT_MASK", "mask": ["PTRACE_SYSCALL", "PTRACE_EXEC", "PTRACE_EXEC"]},
        {"user": 1001, "op": "wait4", "caller": 1000, "which": -9223372036854775808, "options": ["WNOHANG"]},
        {"user": 1001, "op": "wait4", "caller": 4294967295, "which": 9223372036854775807, "options": []},
        {"user": 1001, "op": "install", "caller": 1000, "rules": []},
        {
            "user": 1064,
            "op": "install",
            "caller": 64000,
            "rules": [{"flags": [], "decision": "detach", "pass": 0}, {"flags": ["PL_FLAG_VFORK_DONE"], "decision": "kill"}],
        },
        {"user": 1001, "op": "turn", "lwp": 0, "act": "block", "set": [31, 1, 31]},
        {"user": 1001, "op": "turn", "lwp": 0, "act": "enter", "call": "exit", "code": 0},
        {"user": 1001, "op": "turn", "lwp": 0, "act": "enter", "call": "other", "code": 4294967295},
        {"user": 1001, "op": "install", "caller": 1000, "rules": [{"decision": "continue", "pass": 31}]},
    ]
    compare_modes(program, json.dumps({"steps": steps}).encode())


def test_a_policy_of_the_longest_text(program: Path) -> None:
    rule = {
        "signal": 31,
        "flags": [
            f"PL_FLAG_{name}" for name in ("SCE", "SCX", "EXEC", "FORKED", "CHILD", "BORN", "EXITED", "VFORKED", "VFORK_DONE")
        ],
        "decision": "continue",
        "pass": 31,
    }
    steps: list[Object] = [{"user": 1001, "op": "install", "caller": 4294967295, "rules": [rule] * 16}] * 3
    compare_modes(program, json.dumps({"steps": steps}).encode())


def test_an_empty_scenario(program: Path) -> None:
    assert compare_modes(program, b'{"steps":[]}') == ""


def test_replies_are_the_default(program: Path) -> None:
    data = (TOP / "examples/first.json").read_bytes()
    assert run(program, "--json=replies", given=data) == run(program, "--json", given=data)
    assert run(program, "--lines", "--json=replies", given=b"{}\n") == run(program, "--lines", "--json", given=b"{}\n")


def test_an_expected_trace(program: Path, tmp_path: Path) -> None:
    data, file = (TOP / "examples/first.json").read_bytes(), tmp_path / "trace"
    file.write_text(run(program, "--json=trace", given=data).out)
    assert run(program, "--json=trace", "--expect", file, given=data) == Ended(0, "", "")
    ran = run(program, "--json", "--expect", file, given=data)
    assert ran.status == 4 and ran.out.startswith(f"--- {file}\texpected\n")
    assert f"{file}:1: expected " in ran.err


@pytest.mark.parametrize("words", ["--lines --json=trace", "--json=trace --lines --explain"])
def test_lines_have_no_trace(program: Path, words: str) -> None:
    ran = run(program, *words.split(), given='{"user":1001,"op":"spawn"}\n')
    assert (ran.status, ran.out) == (2, "")
    assert ran.err.splitlines()[0] == "error: the argument '--lines' cannot be used with '--json=trace'"


def test_output_that_cannot_be_written(program: Path) -> None:
    with open("/dev/full", "wb") as full:
        words: list[str | Path] = [program, "--json=trace", TOP / "examples/first.json"]
        done = subprocess.run(words, stdout=full, stderr=subprocess.PIPE, timeout=60, check=False)
    assert (done.stderr, done.returncode) == (b"tracehost: cannot write\n", 3)


def test_many_steps(program: Path, tmp_path: Path) -> None:
    """Each line is found at once, and takes a few bytes."""
    users = [1001 + index % 64 for index in range(LONG_STEPS)]
    path = tmp_path / "long.json"
    path.write_text(compact({"steps": [{"user": user, "op": "list", "caller": 1} for user in users]}))
    assert path.stat().st_size < 4194304
    plain, trace = most_memory(program, ["--json"], path), most_memory(program, ["--json=trace"], path)
    assert trace - plain < MOST_BYTES_MORE
    lines = run(program, "--json=trace", "--threads", path).out.splitlines()
    assert len(lines) == LONG_STEPS
    by_user = sorted(range(LONG_STEPS), key=lambda index: users[index])
    assert [json.loads(line)["index"] - 1 for line in lines] == by_user


def test_the_example_of_the_document(program: Path) -> None:
    page = (TOP / "docs/FORMAT.md").read_text().splitlines()
    at = next(number for number, line in enumerate(page) if line.startswith("    $ ./tracehost --json=trace "))
    shown = [line.strip() for line in page[at + 1 : page.index("", at)]]
    assert run(program, "--json=trace", TOP / page[at].split()[-1]).out.splitlines() == shown


def test_every_name_comes_in_a_trace(located: Located) -> None:
    """Every op, and every name of the schema, is in a step of the row files and the scenarios by chance."""
    texts = [(TOP / located(file)).read_bytes() for file in accepted_files()] + [by_chance(seed) for seed in SEEDS]
    seen: collections.Counter[str] = collections.Counter()
    for text in texts:
        for step in map(asked, json.loads(text)["steps"]):
            members: dict[str, Any] = step
            seen.update(members[key] for key in ("op", "request", "act", "call", "action") if key in members)
            seen.update(rule["decision"] for rule in members.get("rules", []))
    schema = (TOP / "schema/scenario.schema.json").read_text()
    requests = {word for word in schema.split('"') if word.startswith("PT_")}
    assert {*KEYS, *requests, *NAMES.split()} - {*seen} == set()
