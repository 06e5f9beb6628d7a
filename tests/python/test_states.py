"""What a user sees by the library, as numbers and as text; a copy over an open session; why a line isn't a step.

That equal numbers are equal views is proved. Here they are compared with rows that come another way.
"""

from __future__ import annotations

import json
import random
from ctypes import byref, c_size_t, c_uint32, create_string_buffer
from pathlib import Path

import pytest
from by_chance import scenario
from checking import run
from mistakes import read_mistakes
from session_ways import Tools, opened
from tracehost.library import INVALID, NOT_OPEN, Handle, Session

USERS = range(1001, 1005)
# lines of the table of mistakes that aren't steps
NO_STEPS = {
    mistake.name: mistake.input.removesuffix(b"\n").decode("utf-8", "surrogateescape")
    for mistake in read_mistakes()
    if mistake.words == ["--lines"] and mistake.answer.startswith("refused") and mistake.input.find(b"\n") == len(mistake.input) - 1
}


@pytest.fixture(scope="module")
def tools(program: Path, library: Path) -> Tools:
    return Tools(program, library)


def rows_of_trace(program: Path, steps: list[object]) -> list[dict[str, dict[int, object]]]:
    """After each step the rows of its user, put together of what `--json=trace+rows` says that each step changed."""
    ran = run(program, "--json=trace+rows", given=json.dumps({"steps": steps}))
    assert ran.status == 0
    seen: dict[int, dict[str, dict[int, object]]] = {}
    after = []
    for line in map(json.loads, ran.out.splitlines()):
        rows = seen.setdefault(line["user"], {"processes": {}, "lwps": {}})
        for kind, number in (("processes", "pid"), ("lwps", "lwp")):
            for gone in line["rows"].get(f"removed_{kind}", []):
                del rows[kind][gone]
            for row in line["rows"].get(kind, []):
                rows[kind][row[number]] = row
        after.append({kind: dict(rows[kind]) for kind in rows})
    return after


@pytest.mark.parametrize("seed", range(40))
def test_rows_as_text_are_those_of_the_trace(tools: Tools, program: Path, seed: int) -> None:
    steps = scenario(random.Random(seed))["steps"]
    host = opened(tools)
    for step, wanted in zip(steps, rows_of_trace(program, steps)):
        host.exchange(json.dumps(step))
        rows = json.loads(host.rows_text(step["user"]))
        assert {row["pid"]: row for row in rows.get("processes", [])} == wanted["processes"]
        assert {row["lwp"]: row for row in rows.get("lwps", [])} == wanted["lwps"]


@pytest.mark.parametrize("seed", range(40))
def test_states_differ_exactly_if_what_a_user_sees_does(tools: Tools, seed: int) -> None:
    """Rows and states of one session, compared pair by pair. Handlers, cursors and the setting are no rows."""
    steps = scenario(random.Random(seed))["steps"]
    host = opened(tools)
    found: dict[tuple[int, tuple[int, ...]], str] = {}
    for step in steps:
        before = {user: host.state(user) for user in USERS}
        reply = host.exchange(json.dumps(step))
        for user in USERS:
            state, rows = host.state(user), host.rows_text(user)
            assert found.setdefault((user, state), rows) == rows  # equal states, equal rows
            if user != step["user"] or " error " in reply:
                assert state == before[user]  # another's step, or a refusal, changes nothing


def test_equal_states_answer_alike(tools: Tools) -> None:
    """Two ways to one state: what other users did, and a refused step, is no part of it."""
    one, other = opened(tools), opened(tools)
    for line in ('{"user":1001,"op":"spawn"}', '{"user":1001,"op":"spawn"}'):
        one.exchange(line)
        other.exchange('{"user":1002,"op":"spawn"}')
        other.exchange(line)
    other.exchange('{"user":1001,"op":"wait4","caller":1000,"which":-1}')
    assert one.state(1001) == other.state(1001)
    assert one.state(1002) != other.state(1002)
    attach = '{"user":1001,"op":"ptrace","caller":1000,"request":"PT_ATTACH","target":1001}'
    assert one.exchange(attach).split()[2:] == other.exchange(attach).split()[2:] == ["ok"]
    assert one.state(1001) == other.state(1001)


CHANGES = {
    "a disposition": '{"user":1001,"op":"sigaction","caller":1000,"signal":10,"action":"ignore"}',
    "a handler": '{"user":1001,"op":"install","caller":1000,"rules":[{"decision":"kill"}]}',
    "a cursor": '{"user":1001,"op":"kill","caller":1000,"which":1001,"signal":9}',
    "a pending signal": '{"user":1001,"op":"kill","caller":1000,"which":1001,"signal":2}',
    "a process": '{"user":1001,"op":"spawn"}',
}


@pytest.mark.parametrize("line", CHANGES.values(), ids=CHANGES)
def test_a_state_has(tools: Tools, line: str) -> None:
    host = opened(tools)
    for _ in range(2):
        host.exchange('{"user":1001,"op":"spawn"}')
    before = host.state(1001)
    assert " error " not in host.exchange(line)
    assert host.state(1001) != before


def test_a_state_has_the_setting(tools: Tools) -> None:
    host = opened(tools)
    assert host.state(1001) != Session(host.library, kill_on_debugger_exit=False).state(1001)


def test_a_user_that_is_none(tools: Tools) -> None:
    host, length = opened(tools), c_size_t(7)
    room, text = (c_uint32 * 4)(1, 2, 3, 4), create_string_buffer(b"abc", 4)
    for user in (0, 1000, 1065, 2**32 - 1):
        assert host.library["state"](host.handle, user, room, 4, byref(length)) == INVALID
        assert host.library["rows"](host.handle, user, text, 4, byref(length)) == INVALID
    assert (list(room), text.value, length.value) == ([1, 2, 3, 4], b"abc", 7)


@pytest.mark.parametrize("size", [0, 1, 5, 6, 60])
def test_a_room_for_a_state(tools: Tools, size: int) -> None:
    host = opened(tools)
    whole = host.state(1001)
    room, length = (c_uint32 * 64)(*[9] * 64), c_size_t()
    assert host.library["state"](host.handle, 1001, room, size, byref(length)) == 0
    assert length.value == len(whole)
    kept = whole[:size]
    assert tuple(room) == kept + (9,) * (64 - len(kept))


def test_a_copy_over_an_open_session(tools: Tools) -> None:
    one, other = opened(tools), opened(tools)
    one.exchange('{"user":1001,"op":"spawn"}')
    for _ in range(3):
        other.exchange('{"user":1002,"op":"spawn"}')
    one.copy_over(other)
    assert [other.state(user) for user in USERS] == [one.state(user) for user in USERS]
    assert other.exchange('{"user":1001,"op":"spawn"}') == "1001 2 new 1001 100001"
    one.copy_over(one)
    assert one.exchange('{"user":1001,"op":"list","caller":1000}') == "1001 2 pids 1000"


def test_a_copy_over_needs_both_open(tools: Tools) -> None:
    host, closed = opened(tools), Handle()
    assert host.library["copy_over"](host.handle, byref(closed)) == NOT_OPEN
    assert host.library["copy_over"](byref(closed), host.handle) == NOT_OPEN
    assert host.exchange('{"user":1001,"op":"spawn"}') == "1001 1 new 1000 100000"


def test_a_copy_of_one_user(tools: Tools) -> None:
    one, other = opened(tools), opened(tools)
    for user in USERS[:2]:
        one.exchange(f'{{"user":{user},"op":"spawn"}}')
        other.exchange(f'{{"user":{user},"op":"spawn"}}')
        other.exchange(f'{{"user":{user},"op":"spawn"}}')
    kept = [other.state(user) for user in USERS[1:]]
    one.copy_user(other, USERS[0])
    assert other.state(USERS[0]) == one.state(USERS[0])
    assert [other.state(user) for user in USERS[1:]] == kept
    assert other.exchange('{"user":1001,"op":"list","caller":1000}') == "1001 2 pids 1000"
    one.copy_user(one, USERS[0])
    assert one.exchange('{"user":1001,"op":"list","caller":1000}') == "1001 2 pids 1000"


@pytest.mark.parametrize("line", NO_STEPS.values(), ids=NO_STEPS)
def test_an_explanation_is_the_programs(tools: Tools, program: Path, line: str) -> None:
    said = run(program, "--lines", "--explain", given=line + "\n")
    assert said.out.startswith("refused ")
    assert opened(tools).explain(line) == said.err != ""


def test_a_step_has_no_explanation(tools: Tools) -> None:
    assert opened(tools).explain('{"user":1001,"op":"spawn"}') == ""


def test_an_explanation_calls_the_line_by_its_number(tools: Tools) -> None:
    said = opened(tools).explain("{}", 41)
    assert said is not None and said.startswith("  line 41")
