"""viewer/perfetto writes Chrome's trace event format.

SCHEMA is what that format's description demands of a file. The steps come from the trace, and stops from its rows
(--json=trace+rows), or of small sessions from docs/FORMAT.md. Queries are those of docs/VIEWER.md.
"""

from __future__ import annotations

import collections
import json
import os
import random
import re
import subprocess
import sys
from pathlib import Path
from typing import Any

import pytest

import damage
from by_chance import scenario
from checking import TOP, load_script
from perfetto_tables import Tables
from row_files import accepted_files, for_each_scenario

jsonschema = pytest.importorskip("jsonschema")
Event = dict[str, Any]

SCRIPT = TOP / "viewer/perfetto"
EXAMPLES = [file for file in accepted_files() if file.parent.name == "examples"]
SEEDS = range(60)
perfetto = load_script(SCRIPT)
WHOLE, TEXT, OBJECT = {"type": "integer"}, {"type": "string", "minLength": 1}, {"type": "object"}


def event_schema(phase: str, **members: object) -> Event:
    """An event of a phase has these members, and no other ones."""
    properties = {"ph": {"const": phase}, "name": TEXT, "pid": WHOLE, "tid": WHOLE, **members}
    return {"type": "object", "required": list(properties), "properties": properties, "additionalProperties": False}


# https://docs.google.com/document/d/1CvAClvFfyA5R-PhYUmn5OOQtYMH4h6I0nSsKchNAySU describes the format
ARROW = {"id": WHOLE, "cat": TEXT, "ts": WHOLE}
SCHEMA = {
    "type": "object",
    "required": ["traceEvents"],
    "additionalProperties": False,
    "properties": {
        "traceEvents": {
            "type": "array",
            "items": {
                "oneOf": [
                    event_schema("X", cat=TEXT, ts=WHOLE, dur={"type": "integer", "minimum": 1}, args=OBJECT),
                    event_schema("s", **ARROW),
                    event_schema("f", bp={"const": "e"}, **ARROW),
                    event_schema("M", args={"type": "object", "minProperties": 1}),
                ]
            },
        }
    },
}
VALIDATOR = jsonschema.Draft7Validator(SCHEMA)


def by_chance(seed: int) -> bytes:
    return json.dumps(scenario(random.Random(seed))).encode()


def trace_of(program: Path, data: bytes, *options: str, json: str = "trace") -> str:
    return subprocess.run(
        [program, f"--json={json}", *options], input=data, capture_output=True, check=True, timeout=60
    ).stdout.decode()


def convert(*words: str, data: str = "") -> tuple[str, str, int]:
    done = subprocess.run([sys.executable, str(SCRIPT), *words], input=data.encode(), capture_output=True, check=False, timeout=60)
    return done.stdout.decode(), done.stderr.decode(), done.returncode


def written(trace: str) -> list[Event]:
    """The events in the command's output."""
    out, err, status = convert("-", data=trace)
    assert (err, status) == ("", 0), err
    made = json.loads(out)
    assert set(made) == {"traceEvents"}
    events: list[Event] = made["traceEvents"]
    return events


def test_damaged_traces(program: Path) -> None:
    """Traces with wrong values: each is converted, or refused in one line. DAMAGED sets how many, 2,000 at first."""
    chance = random.Random(46)
    ways = ("trace", "trace+rows")
    traces = [trace_of(program, (TOP / file).read_bytes(), json=how).splitlines() for file in EXAMPLES for how in ways]
    outcomes: collections.Counter[str] = collections.Counter()
    for _ in range(int(os.environ.get("DAMAGED", "2000"))):
        text = "\n".join(damage.damaged_lines(chance.choice(traces), chance))
        try:
            json.dumps(perfetto.events_of(text))
            outcomes["converted"] += 1
        except perfetto.Refused as refused:
            assert re.search(r"\Aline \d+: no line of tracehost --json=trace: [ -~]+\Z", str(refused))
            outcomes["refused"] += 1
    assert min(outcomes["converted"], outcomes["refused"]) > 200, outcomes


def test_a_damaged_file() -> None:
    line = '{"user":1001,"step":1,"index":1,"asked":{"op":"turn"},"reply":"ok"}\n'
    told = f'no line of tracehost --json=trace: in its step: "lwp" is missing or of a wrong form: {line}'
    assert convert("-", data=line) == ("", f"viewer/perfetto: standard input, line 1: {told}", 1)


def test_a_full_disk(program: Path, tmp_path: Path) -> None:
    """What was there stays."""
    trace, made = tmp_path / "t", tmp_path / "made.json"
    trace.write_text(trace_of(program, (TOP / EXAMPLES[0]).read_bytes()))
    made.write_text("older")
    small = "import resource, runpy; resource.setrlimit(resource.RLIMIT_FSIZE, (50, 50)); "
    code = small + f"runpy.run_path({str(SCRIPT)!r}, run_name='__main__')"
    done = subprocess.run([sys.executable, "-c", code, str(trace), "-o", str(made)], capture_output=True, check=False)
    assert (done.returncode, made.read_text()) == (1, "older")
    assert done.stderr.decode().endswith("made.json: File too large\n"), done.stderr
    assert {*tmp_path.iterdir()} == {trace, made}


def check_forms(events: list[Event]) -> None:
    """Names come first, all else by rising time."""
    VALIDATOR.validate({"traceEvents": events})
    timed = [event for event in events if event["ph"] != "M"]
    assert [event["ph"] for event in events[: len(events) - len(timed)]] == ["M"] * (len(events) - len(timed))
    assert [event["ts"] for event in timed] == sorted(event["ts"] for event in timed)


def is_stop(event: Event) -> bool:
    return bool(event["ph"] == "X" and event["cat"] == "stop")


def check_steps(events: list[Event], lines: list[Event]) -> None:
    """Each step is there once, at its time, with what was asked and replied, on a row of its user."""
    steps = [event for event in events if event["ph"] == "X" and not is_stop(event)]
    assert [(event["ts"], event["dur"]) for event in steps] == [(line["index"], 1) for line in lines]
    for event, line in zip(steps, lines):
        args = event["args"]
        told = {key: args[key] for key in ("user", "step", "index", "asked")}
        assert {**told, **args["reply"]} == {key: value for key, value in line.items() if key != "rows"}
        asked = line["asked"]
        if "caller" in asked:
            assert event["pid"] == asked["caller"]
        if "lwp" in asked:
            assert event["tid"] == asked["lwp"]


def check_stops(events: list[Event]) -> None:
    """No two of a process or of an LWP overlap."""
    ends: dict[tuple[str, int], int] = collections.defaultdict(int)
    for event in events:
        if is_stop(event):
            for row in (("process", event["pid"]), ("LWP", event["tid"])):
                assert event["ts"] >= ends[row], event
                ends[row] = event["ts"] + event["dur"]


def check_names(events: list[Event]) -> None:
    """Each process and each row with an event has one name."""
    names = collections.Counter((event["name"], event["pid"], event["tid"]) for event in events if event["ph"] == "M")
    assert set(names.values()) - {1} == set()
    processes = {pid for name, pid, _ in names if name == "process_name"}
    rows = {(pid, tid) for name, pid, tid in names if name == "thread_name"}
    for event in events:
        if event["ph"] != "M":
            assert event["pid"] in processes
            assert (event["pid"], event["tid"]) in rows


def check_arrows(events: list[Event]) -> Tables:
    """Each leads from a stop to the first step that reports it; no later stop of the process begins before that step."""
    tables = Tables(events)
    for stop, report in tables.arrows():
        assert is_stop(stop) and not is_stop(report)
        assert report["args"]["reply"]["pid"] == stop["pid"]
        assert stop["ts"] <= report["ts"] <= stop["ts"] + stop["dur"]
    stops = [json.dumps(stop) for stop, _ in tables.arrows()]
    assert len({*stops}) == len(stops)
    return tables


def check(trace: str) -> list[Event]:
    events: list[Event] = perfetto.events_of(trace)
    lines = sorted((json.loads(line) for line in trace.splitlines()), key=lambda line: int(line["index"]))
    check_forms(events)
    check_steps(events, lines)
    check_stops(events)
    check_names(events)
    check_arrows(events)
    return events


def stops_of_rows(lines: list[Event]) -> list[tuple[int, int, int, str]]:
    """Each stop that the rows of a trace have: its process, its first step, the step after its last one, its signal."""
    seen: dict[int, Event] = {}
    stops: list[tuple[int, int, int, str]] = []
    since: dict[int, tuple[int, Event]] = {}
    same = ("state", "stop_signal", "stop_lwp")
    for line in [*lines, {"index": lines[-1]["index"] + 1, "rows": {"removed_processes": list(range(100000))}}]:
        for pid in line["rows"].get("removed_processes", []):
            seen.pop(pid, None)
        seen.update({row["pid"]: row for row in line["rows"].get("processes", [])})
        for pid, (at, row) in list(since.items()):
            if any(seen.get(pid, {}).get(key) != row.get(key) for key in same):
                stops.append((pid, at, line["index"], row["stop_signal"]))
                del since[pid]
        for pid, row in seen.items():
            if row["state"] in ("trace_stop", "job_stop"):
                since.setdefault(pid, (line["index"], row))
    return sorted(stops)


def reports_of(lines: list[Event]) -> list[tuple[int, int]]:
    """The process and the step of each report of a stop; of a stop that handlers leave, the first one."""
    told: list[tuple[int, int]] = []
    kept: set[int] = set()
    for line in lines:
        changed = {row["pid"] for row in line["rows"].get("processes", [])} | {*line["rows"].get("removed_processes", [])}
        if line["reply"] == "handled" or "stopped" in line:
            if line["pid"] not in kept:
                told.append((line["pid"], line["index"]))
        kept -= changed
        kept |= {row["pid"] for row in line["rows"].get("processes", []) if row.get("reported")}
    return sorted(told)


def check_rows(trace: str) -> Tables:
    """Stops and reports are exactly those of the rows."""
    events = check(trace)
    lines = [json.loads(line) for line in trace.splitlines()]
    stops = [
        (event["pid"], event["ts"], event["ts"] + event["dur"], event["name"].split()[0]) for event in events if is_stop(event)
    ]
    assert sorted(stops) == stops_of_rows(lines)
    tables = check_arrows(events)
    assert sorted((stop["pid"], report["ts"]) for stop, report in tables.arrows()) == reports_of(lines)
    return tables


@for_each_scenario(EXAMPLES)
def test_an_example(program: Path, file: Path) -> None:
    data = (TOP / file).read_bytes()
    events = check(trace_of(program, data))
    assert events == written(trace_of(program, data))
    # the order of the lines doesn't matter
    assert events == check(trace_of(program, data, "--threads"))
    check(trace_of(program, data, "--user", "1001"))
    check_rows(trace_of(program, data, json="trace+rows"))


@pytest.mark.parametrize("seed", SEEDS)
def test_a_scenario_by_chance(program: Path, seed: int) -> None:
    check(trace_of(program, by_chance(seed)))
    check_rows(trace_of(program, by_chance(seed), json="trace+rows"))


@pytest.mark.parametrize("how", ["trace", "trace+rows"])
def test_stops_and_reports_come_by_chance(program: Path, how: str) -> None:
    events = [event for seed in SEEDS for event in perfetto.events_of(trace_of(program, by_chance(seed), json=how))]
    assert sum(map(is_stop, events)) > 100
    assert sum(event["ph"] == "s" for event in events) > 50


def test_stops_of_a_followed_fork(program: Path) -> None:
    """The stops that docs/FORMAT.md gives: the attached target, the fork's exit, and the child's first."""
    events = check(trace_of(program, (TOP / "examples/follow_a_fork.json").read_bytes()))
    stops = [
        (event["name"], event["pid"], event["tid"], event["ts"], event["ts"] + event["dur"]) for event in events if is_stop(event)
    ]
    assert stops == [
        ("SIGSTOP", 1001, 100001, 3, 6),
        ("SIGTRAP SCX FORKED", 1001, 100001, 8, 13),
        ("SIGSTOP", 1002, 100002, 11, 14),
    ]


def test_rows_show_what_replies_do_not(program: Path) -> None:
    """A followed child is in its first stop from the fork on. A stop ends when SIGCONT is posted, not at the next turn."""

    def stops(example: str) -> list[tuple[str, int, int, int]]:
        events = check(trace_of(program, (TOP / f"examples/{example}.json").read_bytes(), json="trace+rows"))
        return [(event["name"], event["tid"], event["ts"], event["ts"] + event["dur"]) for event in events if is_stop(event)]

    assert ("SIGSTOP SCX CHILD", 100002, 8, 14) in stops("follow_a_fork")
    assert stops("job_control") == [("SIGSTOP", 100001, 6, 10)]
    assert stops("death_of_a_debugger_leaves") == [("SIGSTOP", 100001, 4, 8), ("SIGSTOP", 100002, 6, 10)]


def queries() -> list[str]:
    """Those of docs/VIEWER.md."""
    (block,) = re.findall(r"^```sql\n(.*?)^```$", (TOP / "docs/VIEWER.md").read_text(), re.MULTILINE | re.DOTALL)
    return [text for text in block.split(";\n") if text.strip()]


def test_queries(program: Path) -> None:
    """Of a session in which a stop is reported after a step, one after two, and one never."""
    attach: Event = {"op": "ptrace", "caller": 1000, "request": "PT_ATTACH"}
    wait: Event = {"op": "wait4", "caller": 1000}
    steps: list[Event] = [*[{"op": "spawn"}] * 4, attach | {"target": 1001}, wait | {"which": 1001}, attach | {"target": 1003}]
    steps += [attach | {"target": 1002}, {"op": "list", "caller": 1000}, wait | {"which": 1002}]
    data = json.dumps({"steps": [{"user": 1001, **step} for step in steps]}).encode()
    unreported, longest, by_process = queries()
    for how in ("trace", "trace+rows"):
        tables = check_arrows(check(trace_of(program, data, json=how)))
        assert tables.ask(unreported) == [(7, "SIGSTOP")]
        assert tables.ask(longest) == [("SIGSTOP", 8, 2), ("SIGSTOP", 5, 1)]
        assert tables.ask(by_process) == [(1000, 7), (1001, 1), (1002, 1), (1003, 1)]


@pytest.mark.parametrize("seed", [seed for seed in SEEDS if seed % 6 == 0])
def test_queries_by_chance(program: Path, seed: int) -> None:
    """They say what the rows say."""
    trace = trace_of(program, by_chance(seed), json="trace+rows")
    lines = [json.loads(line) for line in trace.splitlines()]
    tables = check_rows(trace)
    unreported, longest, by_process = queries()
    reported = reports_of(lines)
    wanted = [
        (at, signal)
        for pid, at, end, signal in stops_of_rows(lines)
        if not any(pid == of and at < by <= end for of, by in reported)
    ]
    assert sorted((step, str(name).split()[0]) for step, name in tables.ask(unreported)) == sorted(wanted)
    times = [steps for _, _, steps in tables.ask(longest)]
    assert len(times) == len(reported) and times == sorted(times, reverse=True)
    assert sum(count for _, count in tables.ask(by_process)) == len(lines)


def test_rows_of_wrong_forms(program: Path) -> None:
    good = json.loads(trace_of(program, (TOP / "examples/first.json").read_bytes(), json="trace+rows").splitlines()[0])
    row = good["rows"]["processes"][0]
    for rows, told in (
        ([], 'in its rows: "rows" is of a wrong form'),
        ({"processes": {}}, 'in its rows: "processes" is of a wrong form'),
        ({"processes": [row | {"pid": "1000"}]}, 'in its rows: "processes" is of a wrong form'),
        ({"processes": [row | {"state": "job_stop", "stop_signal": "<b>"}]}, 'in its rows: "processes" is of a wrong form'),
        ({"lwps": [{"lwp": 100000}]}, 'in its rows: "lwps" is of a wrong form'),
        ({"lwps": [{"lwp": 100000, "pid": 1000, "flags": [1]}]}, 'in its rows: "lwps" is of a wrong form'),
        ({"removed_lwps": [-1]}, 'in its rows: "removed_lwps" is of a wrong form'),
    ):
        out, err, status = convert("-", data=json.dumps(good | {"rows": rows}))
        assert (out, status) == ("", 1) and f"line 1: no line of tracehost --json=trace: {told}: " in err


def test_stops_that_a_handler_ends(program: Path) -> None:
    """A handler that continues the process or kills it ends the stop: none lasts beyond its `handle`."""
    events = check(trace_of(program, (TOP / "examples/sandbox.json").read_bytes()))
    stops = [(event["name"], event["ts"], event["ts"] + event["dur"]) for event in events if is_stop(event)]
    assert stops == [("SIGSTOP", 3, 7), ("SIGTRAP SCE", 8, 9), ("SIGTRAP SCE", 11, 12), ("SIGTRAP SCX EXEC", 13, 14)]


def test_names(program: Path) -> None:
    events = check(trace_of(program, (TOP / "examples/two_users.json").read_bytes()))
    named = {(event["name"], event["pid"]): event["args"] for event in events if event["ph"] == "M"}
    assert named["process_name", 1000] == {"name": "process of user 1001"}
    assert named["process_name", 2001] == {"name": "process of user 1002"}
    lwps = {(event["pid"], event["tid"]) for event in events if event["name"] == "thread_name" and event["args"]["name"] == "LWP"}
    assert lwps == {(1001, 100001), (2001, 104001)}


def test_files(program: Path, tmp_path: Path) -> None:
    trace = trace_of(program, (TOP / "examples/first.json").read_bytes())
    source, target = tmp_path / "trace", tmp_path / "made.json"
    source.write_text(trace)
    assert convert(str(source), "-o", str(target)) == ("", "", 0)
    assert target.read_text() == convert("-", data=trace)[0]
    out, err, status = convert(str(target) + ".none")
    assert (out, status) == ("", 1)
    assert re.search(r"\Aviewer/perfetto: .*made\.json\.none: No such file or directory\n\Z", err)


def test_texts_that_are_no_trace(program: Path) -> None:
    good = trace_of(program, (TOP / "examples/first.json").read_bytes()).splitlines()[0]
    plain = '{"user":1001,"step":1,"reply":"ok"}'
    for bad, why in (
        ("1001 1 ok", "no JSON"),
        ("[]", "no object"),
        ("{", "no JSON"),
        (plain, "it has no step"),
        (plain.replace('"reply"', '"index":"1","asked":{"op":"list"},"reply"'), "no index of a step"),
        ('{"user":1001,"op":"spawn"}', "no number of a step"),
    ):
        out, err, status = convert("-", data=f"{good}\n{bad}\n")
        told = f"viewer/perfetto: standard input, line 2: no line of tracehost --json=trace: {why}: {bad}\n"
        assert (out, err, status) == ("", told, 1)
    assert written("") == []
