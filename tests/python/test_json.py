"""Replies as JSON objects, in every mode.

What is wanted comes from the plain lines, which are turned into objects by the tables of docs/FORMAT.md;
the row files say what the plain lines are.
"""

from __future__ import annotations

import collections
import json
import random
from collections.abc import Iterable
from pathlib import Path
from typing import Any

import pytest

from by_chance import scenario
from checking import TOP, Ended, Word, run
from json_of_lines import MEMBERS, as_json
from row_files import Located, accepted_files, for_each_scenario, scenario_files

SEEDS = range(60)


def once(pairs: list[tuple[str, object]]) -> dict[str, object]:
    """The object of these members; no two have one name."""
    assert len(dict(pairs)) == len(pairs), pairs
    return dict(pairs)


def compare(program: Path, words: list[Word], data: bytes) -> None:
    """What --json prints is the plain text as JSON; all else is the same."""
    plain = run(program, *words, given=data)
    assert run(program, *words, "--json", given=data) == plain._replace(out=as_json(plain.out))
    for line in as_json(plain.out).splitlines():
        json.loads(line, object_pairs_hook=once)


def compare_modes(program: Path, data: bytes, user: str) -> None:
    compare(program, [], data)
    compare(program, ["--user", user], data)
    compare(program, ["--threads"], data)
    compare(program, ["--threads", "--user", user], data)


def compare_lines(program: Path, lines: Iterable[bytes], kill: str = "1") -> None:
    compare(program, ["--lines", "--kill-on-debugger-exit", kill], b"".join(line + b"\n" for line in lines))


def lines_of(made: dict[str, Any]) -> list[bytes]:
    return [json.dumps(step).encode() for step in made["steps"]]


@for_each_scenario(scenario_files())
def test_a_row_file(program: Path, file: Path) -> None:
    path = TOP / file
    words = path.with_suffix(".args")
    data = path.read_bytes()
    compare(program, [*words.read_text().split("\n")[:-1]] if words.exists() else [], data)
    if not path.with_suffix(".err").exists():
        compare(program, ["--threads"], data)
        compare_lines(program, lines_of(json.loads(data)))


@pytest.mark.parametrize("seed", SEEDS)
def test_a_scenario_by_chance(program: Path, seed: int) -> None:
    made = scenario(random.Random(seed))
    data = json.dumps(made).encode()
    assert run(program, given=data).status == 0
    compare_modes(program, data, str(made["steps"][0]["user"]))
    compare_lines(program, lines_of(made), str(made["kill_on_debugger_exit"]))


def test_lines_that_are_no_steps(program: Path) -> None:
    spawn = b'{"user":1001,"op":"spawn"}'
    rules = json.dumps([{"decision": "kill"}] * 17).encode()
    lines = [
        b"",
        spawn,
        spawn[:-1],
        b"[]",
        b'{"user":1,"op":"spawn"}',
        b'{"user":1001,"op":"fly"}',
        b'{"user":1001,"op":"list","caller":-1}',
        b" " * 70000,
        b'{"user":1001,"op":"install","caller":1000,"rules":' + rules + b"}",
        spawn,
    ]
    compare_lines(program, lines)
    assert run(program, "--lines", "--json", given=b"\n").out == '{"refused":"BadJson"}\n'


def test_the_example_of_the_document(program: Path) -> None:
    page = (TOP / "docs/FORMAT.md").read_text().splitlines()
    at = next(number for number, line in enumerate(page) if line.startswith("    $ echo "))
    assert page[at].endswith("' | tracehost --lines --json")
    assert run(program, "--lines", "--json", given=page[at].split("'")[1]) == Ended(0, page[at + 1].strip() + "\n", "")


def test_every_kind_of_reply_is_compared(program: Path, located: Located) -> None:
    """Each status and each decision comes in these tests."""
    texts = [(TOP / located(file)).read_bytes() for file in accepted_files()]
    texts += [json.dumps(scenario(random.Random(seed))).encode() for seed in SEEDS]
    seen: collections.Counter[tuple[str, str]] = collections.Counter()
    for data in texts:
        for line in as_json(run(program, given=data).out).splitlines():
            members = json.loads(line)
            said = next((name for name in ("exited", "signaled", "stopped", "continued") if name in members), "")
            seen[members["reply"], members.get("decision", said)] += 1
    wanted = [(reply, "") for reply in MEMBERS if reply not in ("status", "handled", "ended")]
    wanted += [("status", said) for said in ("exited", "signaled", "stopped", "continued")]
    wanted += [("ended", said) for said in ("exited", "signaled")]
    wanted += [("handled", decision) for decision in ("decline", "leave", "continue", "detach", "kill")]
    assert [kind for kind in wanted if not seen[kind]] == []
