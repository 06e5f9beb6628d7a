"""The line of the last step by the library, `tracehost_last_step`: what each step of a scenario is, by docs/FORMAT.md.

tests/python/test_sessions.py makes the lines of typed calls anew.
"""

from __future__ import annotations

import json
import random
from collections.abc import Callable
from ctypes import byref, c_size_t, create_string_buffer
from pathlib import Path

import pytest
from by_chance import scenario
from checking import TOP, run
from row_files import accepted_files, for_each_scenario
from session_ways import Tools, line_answer, opened
from steps_of_scenario import Object, asked
from tracehost.blocking import Progress
from tracehost.names import Call, Request
from tracehost.replies import Answered
from tracehost.steps import Enter, Leave
from tracehost.typed import TypedCalls

MOST = 2**32 - 1


@pytest.fixture(scope="module")
def tools(program: Path, library: Path) -> Tools:
    return Tools(program, library)


def compare(tools: Tools, steps: list[Object]) -> None:
    host = opened(tools)
    for step in steps:
        host.exchange(json.dumps(step))
        wanted = {"user": step["user"], **asked(step)}
        assert host.last_step() == json.dumps(wanted, separators=(",", ":"))


@for_each_scenario(accepted_files())
def test_a_row_file(tools: Tools, file: Path) -> None:
    compare(tools, json.loads((TOP / file).read_bytes())["steps"])


@pytest.mark.parametrize("seed", range(60))
def test_a_scenario_by_chance(tools: Tools, seed: int) -> None:
    compare(tools, scenario(random.Random(seed))["steps"])


def test_no_step_was_answered(tools: Tools) -> None:
    host = opened(tools)
    assert host.last_step() is None
    host.exchange('{"user":1001,"op":"spawn"}')
    assert host.exchange("spawn").startswith("refused ")
    assert host.last_step() is None


def test_a_step_that_no_line_is(tools: Tools) -> None:
    host = opened(tools)
    with pytest.raises(Answered):
        TypedCalls(host, Progress()).ptrace(1001, 1000, Request.PT_SET_EVENT_MASK, 1001, 1 << 6)
    assert host.last_step() is None


@pytest.mark.parametrize(("target", "data"), [(1001, 0), (0, 9), (1001, 9), (1000, 0), (MOST, MOST)])
def test_trace_me_ignores_its_target(tools: Tools, tmp_path: Path, target: int, data: int) -> None:
    """ptrace(2): PT_TRACE_ME ignores pid, addr and data. What the session was asked replays."""
    host = opened(tools)
    calls = TypedCalls(host, Progress())
    steps: list[str | None] = []
    lines: list[str] = []
    made: list[Callable[[], object]] = [
        lambda: calls.spawn(1001),
        lambda: calls.turn(1001, 100000, Enter(Call.FORK)),
        lambda: calls.turn(1001, 100000, Leave()),
        lambda: calls.ptrace(1001, 1001, Request.PT_TRACE_ME, target, data),
        lambda: calls.list(1001, 1000),
    ]
    for make in made:
        make()
        steps.append(host.last_step())
        lines.append(line_answer(host, as_json=False))
    assert steps[3] == '{"user":1001,"op":"ptrace","caller":1001,"request":"PT_TRACE_ME"}'
    assert lines[3:] == ["1001 4 ok", "1001 5 pids 1000 1001"]
    scenario, expected = tmp_path / "s.json", tmp_path / "s.out"
    scenario.write_text(json.dumps({"steps": [json.loads(step) for step in steps if step]}))
    expected.write_text("".join(f"{line}\n" for line in lines))
    assert run(tools.program, scenario, "--expect", expected).status == 0


def test_a_copy_has_the_last_step(tools: Tools) -> None:
    host = opened(tools)
    host.exchange('{"user":1001,"op":"spawn"}')
    copy = host.copy()
    host.exchange('{"user":1002,"op":"spawn"}')
    assert copy.last_step() == '{"user":1001,"op":"spawn"}'


@pytest.mark.parametrize("size", [0, 1, 25, 26, 27, 60])
def test_a_room(tools: Tools, size: int) -> None:
    host, step = opened(tools), b'{"user":1001,"op":"spawn"}'
    host.exchange(step.decode())
    room, length = create_string_buffer(b"x" * 64, 64), c_size_t(7)
    assert host.library["last_step"](host.handle, room, size, byref(length)) == 0
    assert (room.raw, length.value) == (step[:size] + b"x" * (64 - min(size, len(step))), len(step))
