"""Traces with rows (`--json=trace+rows`): each line is that of `--json=trace` and what its step changed of its user's rows.

The rows of all lines so far are the view that the library has after the same steps, in the same order.
"""

from __future__ import annotations

import enum
import json
import random
import subprocess
from collections import defaultdict
from pathlib import Path
from typing import Any, NamedTuple

import pytest
from by_chance import scenario
from checking import TOP, Ended, run
from row_files import accepted_files, for_each_scenario
from session_ways import Tools, opened
from tracehost.rows import LwpRow, ProcessRow, ProcessState, lwp_row, process_row

Object = dict[str, Any]
NOT_IN_VIEW = ("ignore", "catch")  # the library's rows have no dispositions


@pytest.fixture(scope="module")
def tools(program: Path, library: Path) -> Tools:
    return Tools(program, library)


def member(value: object) -> object:
    """A field of a row as JSON."""
    if isinstance(value, frozenset):
        return [signal.name for signal in sorted(value)]
    if isinstance(value, enum.IntFlag):
        return [flag.name for flag in type(value) if flag in value]
    if isinstance(value, enum.IntEnum):
        return value.name
    if isinstance(value, enum.Enum):
        return value.value if isinstance(value.value, str) else value.name.lower()
    return value


def as_object(row: NamedTuple) -> Object:
    """A row of the view as an object: without what is false, 0, empty or none."""
    return {name: member(value) for name, value in row._asdict().items() if value}


def process_object(row: ProcessRow, word: int) -> Object:
    made = as_object(row) | {"state": row.state.name.lower()}
    return made | {"status": word} if row.state is ProcessState.ZOMBIE else made


def lwp_object(row: LwpRow) -> Object:
    return as_object(row) | {"mode": row.mode.name.lower()}


class State:
    """A user's rows, by their numbers and in their order, by the lines so far."""

    def __init__(self) -> None:
        self.processes: dict[int, Object] = {}
        self.lwps: dict[int, Object] = {}

    def change(self, rows: Object) -> None:
        assert set(rows) <= {"processes", "lwps", "removed_processes", "removed_lwps"}
        for kept, changed, number in ((self.processes, "processes", "pid"), (self.lwps, "lwps", "lwp")):
            for gone in rows.get(f"removed_{changed}", []):
                del kept[gone]
            for row in rows.get(changed, []):
                assert kept.get(row[number]) != row, "a row that is as it was"
                kept[row[number]] = row

    def seen(self) -> tuple[list[Object], list[Object]]:
        processes = [self.processes[pid] for pid in sorted(self.processes)]
        return [{key: row[key] for key in row if key not in NOT_IN_VIEW} for row in processes], [*self.lwps.values()]


def plain(line: Object) -> Object:
    return {key: value for key, value in line.items() if key != "rows"}


def compare(tools: Tools, data: bytes) -> None:
    trace = run(tools.program, "--json=trace", given=data)
    rows = run(tools.program, "--json=trace+rows", given=data)
    assert (rows.status, rows.err) == (trace.status, trace.err) == (0, "")
    lines = [json.loads(line) for line in rows.out.splitlines()]
    assert [plain(line) for line in lines] == [json.loads(line) for line in trace.out.splitlines()]
    given = json.loads(data)
    host = opened(tools, given.get("kill_on_debugger_exit", 1) != 0)
    states: defaultdict[int, State] = defaultdict(State)
    for line in lines:
        host.exchange(json.dumps({"user": line["user"], **line["asked"]}))
        states[line["user"]].change(line["rows"])
        for user, state in states.items():
            processes, lwps = host.rows(user)
            wanted = [process_object(process_row(row), row.status) for row in processes], [lwp_object(lwp_row(row)) for row in lwps]
            assert state.seen() == wanted, (line, user)


@for_each_scenario(accepted_files())
def test_a_row_file(tools: Tools, file: Path) -> None:
    compare(tools, (TOP / file).read_bytes())


@pytest.mark.parametrize("seed", range(60))
def test_a_scenario_by_chance(tools: Tools, seed: int) -> None:
    compare(tools, json.dumps(scenario(random.Random(seed))).encode())


def rows_of(program: Path, steps: list[Object], *words: str) -> list[Object]:
    got = run(program, "--json=trace+rows", *words, given=json.dumps({"steps": steps}))
    assert (got.status, got.err) == (0, "")
    return [json.loads(line)["rows"] for line in got.out.splitlines()]


SPAWN: Object = {"user": 1001, "op": "spawn"}
FIRST: Object = {"pid": 1000, "parent": 1, "state": "runs"}


def test_dispositions(program: Path) -> None:
    """sigaction(2): what a process ignores and catches; exec(2) leaves only what it ignores."""
    act: Object = {"user": 1001, "op": "sigaction", "caller": 1000}
    turn: Object = {"user": 1001, "op": "turn", "lwp": 100000}
    steps = [
        SPAWN,
        act | {"signal": 30, "action": "ignore"},
        act | {"signal": 2, "action": "catch"},
        act | {"signal": 30, "action": "default"},
        act | {"signal": 15, "action": "ignore"},
        turn | {"act": "enter", "call": "exec"},
        turn | {"act": "leave"},
    ]
    rows = rows_of(program, steps)
    assert [made["processes"] for made in rows[:5]] == [
        [FIRST],
        [FIRST | {"ignore": ["SIGUSR1"]}],
        [FIRST | {"ignore": ["SIGUSR1"], "catch": ["SIGINT"]}],
        [FIRST | {"catch": ["SIGINT"]}],
        [FIRST | {"ignore": ["SIGTERM"], "catch": ["SIGINT"]}],
    ]
    assert rows[6]["processes"] == [FIRST | {"ignore": ["SIGTERM"]}]


def test_a_stop_by_hand(program: Path) -> None:
    """PT_ATTACH stops the process; a wait reports the stop once."""
    steps = [
        SPAWN,
        SPAWN,
        {"user": 1001, "op": "ptrace", "caller": 1000, "request": "PT_ATTACH", "target": 1001},
        {"user": 1001, "op": "wait4", "caller": 1000, "which": 1001},
        {"user": 1001, "op": "wait4", "caller": 1000, "which": 1001},
    ]
    rows = rows_of(program, steps)
    stopped = {"pid": 1001, "parent": 1, "tracer": 1000, "state": "trace_stop", "stop_signal": "SIGSTOP", "stop_lwp": 100001}
    stopped["events"] = ["PTRACE_EXEC"]  # an attach asks for it
    assert rows[2]["processes"][-1] == stopped
    assert rows[3] == {"processes": [stopped | {"reported": True}]}
    assert rows[4] == {}


def test_one_user(program: Path) -> None:
    """--user: the lines of one user have the same rows."""
    steps = [SPAWN, SPAWN | {"user": 1002}, SPAWN]
    both = rows_of(program, steps)
    assert rows_of(program, steps, "--user", "1001") == [both[0], both[2]]
    assert rows_of(program, steps, "--user", "1003") == []


@pytest.mark.parametrize("option", ["--lines", "--threads"])
def test_other_options(program: Path, option: str) -> None:
    got = run(program, "--json=trace+rows", option, given="")
    assert got.status == 2
    assert got.err.startswith(f"error: the argument '{option}' cannot be used with '--json=trace+rows'\n")


def test_expected_rows(program: Path, tmp_path: Path) -> None:
    text = json.dumps({"steps": [SPAWN]})
    wanted = tmp_path / "wanted"
    wanted.write_text(run(program, "--json=trace+rows", given=text).out)
    assert run(program, "--json=trace+rows", "--expect", wanted, given=text) == Ended(0, "", "")
    assert run(program, "--json=trace", "--expect", wanted, given=text).status == 4


def test_a_full_disk(program: Path) -> None:
    text = json.dumps({"steps": [SPAWN]})
    with open("/dev/full", "wb") as full:
        got = subprocess.run(
            [program, "--json=trace+rows"], input=text, stdout=full, stderr=subprocess.PIPE, text=True, check=False
        )
    assert (got.returncode, got.stderr) == (3, "tracehost: cannot write\n")
