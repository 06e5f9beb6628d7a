"""Lines of a trace that viewer/make reads part by part, each part once, are what they are as a whole; and a page's table of steps
has what the lines have.
"""

from __future__ import annotations

import json
import random
from collections.abc import Iterator
from pathlib import Path
from typing import Any

import pytest
import viewer_runs
from compared_runs import trace_of
from viewer_pages import MAKER, Pages, run_make, viewed

__all__ = ["viewed"]  # a fixture
reading = MAKER.reading
Object = dict[str, Any]
MUTATED = 30_000
PUT_IN = [
    *'{}[]",:\\ -0\x00\u2028', '"user":1002,', '"step":7,', ',"rows":{}', ',"asked":{"op":"spawn"}', ',"reply":"ok"', '"index":1,',
    ',"rows":{"lwps":[]}', "1e400", "NaN", "null", '"user":1001', '{"reply":"ok"}',
]  # fmt: skip


@pytest.fixture(scope="module")
def lines(program: Path) -> list[str]:
    found = []
    for seed in range(4):
        found += trace_of(program, viewer_runs.random_scenario(seed, 300)["steps"]).splitlines()
    return found + trace_of(program, viewer_runs.thread_steps()["steps"], "trace").splitlines()


def mutated(lines: list[str]) -> Iterator[str]:
    dice = random.Random(64)
    for _ in range(MUTATED):
        line = dice.choice(lines)
        for _ in range(dice.choice([1, 1, 1, 2, 3])):
            begin = dice.randrange(len(line) + 1)
            end = min(len(line), begin + dice.choice([0, 0, 1, 2, 9]))
            other = dice.choice(lines)
            at = dice.randrange(len(other))
            line = line[:begin] + dice.choice([*PUT_IN, "", "", other[at : at + dice.randrange(60)]]) + line[end:]
        yield line


def object_of(reply: Any) -> Object:
    """The line, with its members in any order."""
    apart = {name: part.value for name, part in (("asked", reply.asked), ("rows", reply.rows)) if part is not None}
    return {**reply.said.value, "user": reply.user, "step": reply.step, "index": reply.place, **apart}


def test_printed_lines_are_read_in_parts(lines: list[str]) -> None:
    known = reading._Replies()
    for line in lines:
        reply = known.printed(line)
        assert reply is not None and object_of(reply) == json.loads(line)
        parts: list[Any] = [part for part in (reply.asked, reply.said, reply.rows) if part is not None]
        for part in parts:
            assert json.loads(part.text) == part.value and (part.text in line or part is reply.said)
    assert len(known._said) < len(lines) / 2


def test_changed_lines_are_read_as_a_whole_line_is(lines: list[str]) -> None:
    known, read = reading._Replies(), 0
    for line in mutated(lines):
        reply = known.printed(line)
        if reply is None:
            continue
        read += 1
        value = reading.parsed(line)
        assert reading.fault_of_reply(value) is None, line
        assert object_of(reply) == value, line
    assert MUTATED / 20 < read < MUTATED / 2


def test_a_page_has_the_lines_of_its_trace(lines: list[str]) -> None:
    """In the order of the scenario."""
    pages = Pages()
    trace = "".join(f"{line}\n" for line in lines[:300])
    data = run_make(pages.file("trace", "".join(f"{line}\n" for line in reversed(lines[:300])).encode()), check=True).stdout
    text = data.split(b'<script type="application/json" id="embedded">', 1)[1].split(b"</script>", 1)[0]
    (file,) = json.loads(text)["files"]
    values = file["values"]
    found = [
        {"user": user, "step": step, "index": place, "asked": values[asked], **values[said], "rows": values[rows]}
        for place, (user, step, asked, said, rows) in enumerate(file["rows"], 1)
    ]
    assert found == [json.loads(line) for line in trace.splitlines()]
    assert len({json.dumps(value) for value in values}) == len(values)
    pages.folder.cleanup()


def test_a_long_line_takes_no_long_time() -> None:
    """One that looks like parts throughout."""
    front = '{"user":1001,"step":1,"index":1,"asked":'
    for part in ('{"op":"spawn"},"reply":', '{"op":"list","caller":1},"reply":"ok","rows":{"lwps":[]},'):
        assert reading._Replies().printed(front + part * 100_000 + "}") is None
