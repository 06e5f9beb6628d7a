"""A session in time (`tracehost-debug`): against the library's rows, by brute force, and by the programs that it saves."""

from __future__ import annotations

import io
import json
import os
import re
import shlex
import subprocess
import sys
from pathlib import Path
from typing import Any

import pytest
from c_programs import HEADERS, WARNINGS, output
from cargo import Cargo
from checking import TOP, needs
from viewer_runs import random_scenario

sys.path.insert(0, str(TOP / "clients/python"))
from tracehost import Host, library as libraries
from tracehost.program import default as program
from tracehost.prompt import Prompt
from tracehost.saving import Session, read_session
from tracehost.shrinking import Keep, shrink
from tracehost.step_words import step_of, words_of
from tracehost.story import story
from tracehost.timeline import Refused, Timeline, answer_text

ROWS = sorted((TOP / "tests/rows/sessions").glob("*.json"))
RANDOM = [random_scenario(seed, 300) for seed in range(4)]
VFORK = TOP / "examples/vfork_and_exec.json"


@pytest.fixture(autouse=True)
def over_the_library(library: Path, monkeypatch: pytest.MonkeyPatch) -> None:
    monkeypatch.setenv("TRACEHOST_LIBRARY", str(library / "libtracehost.so"))
    monkeypatch.setenv("TRACEHOST", program())


def opened() -> libraries.Session:
    return libraries.Session(libraries.find())


def steps_of(scenario: dict[str, Any]) -> list[dict[str, Any]]:
    steps: list[dict[str, Any]] = scenario["steps"]
    return steps


def command(*words: object) -> subprocess.CompletedProcess[str]:
    environment = {**os.environ, "PYTHONPATH": str(TOP / "clients/python")}
    return subprocess.run(
        [sys.executable, "-m", "tracehost.debug", *map(str, words)], env=environment, capture_output=True, text=True, check=False
    )


# ---- words


@pytest.mark.parametrize("file", ROWS, ids=lambda file: str(file.stem))
def test_words_are_the_step(file: Path) -> None:
    """What is read from the words of a step is the step that the library says it was asked for."""
    first, again = opened(), opened()
    for step in steps_of(json.loads(file.read_text()))[:300]:
        if "mask" in step.get("request", "").lower() and isinstance(step.get("mask"), int):
            continue
        read = step_of(shlex.split(words_of(step)), step["user"])
        assert first.exchange(json.dumps(step)) == again.exchange(json.dumps(read)), words_of(step)
        assert first.last_step() == again.last_step()


def test_a_continued_process_has_words() -> None:
    lines: tuple[str, ...] = (
        "spawn",
        "turn 100000 enter fork",
        "turn 100000 leave",
        "kill 1000 1001 SIGSTOP",
        "turn 100001 compute",
    )
    lines += ("kill 1000 1001 SIGCONT", "wait4 1000 WCONTINUED")
    assert Timeline([step_of(line.split(), 1001) for line in lines]).steps[-1].answer() == "1001 continued"


def test_each_reply_has_words() -> None:
    """No kind of reply is shown only by its name, but those that are only a name."""
    seen: dict[str, str] = {}
    for file in ROWS:
        scenario = json.loads(file.read_text())
        if len(scenario["steps"]) < 300:
            for step in Timeline(scenario["steps"], _setting(scenario)).steps:
                seen.setdefault(step.reply["reply"], answer_text(step.reply))
    plain = {kind for kind, text in seen.items() if text == kind}
    assert plain == {"ok", "nothing", "held"}
    assert set(seen) == plain | {
        "new",
        "number",
        "status",
        "info",
        "lwps",
        "pids",
        "mask",
        "handled",
        "stopped",
        "caught",
        "ended",
        "error",
    }


def _setting(scenario: dict[str, Any]) -> bool | None:
    return bool(scenario["kill_on_debugger_exit"]) if "kill_on_debugger_exit" in scenario else None


# ---- rows in time


@pytest.mark.parametrize("seed", range(len(RANDOM)))
def test_the_rows_are_those_of_the_library(seed: int) -> None:
    """At each step, of each user, also if one goes there from the end."""
    steps = steps_of(RANDOM[seed])
    timeline, host = Timeline(steps), opened()
    users = timeline.users()
    wanted: list[dict[int, dict[str, Any]]] = []
    for step in steps:
        host.exchange(json.dumps(step))
        texts = [json.loads(host.rows_text(user)) for user in users]
        rows = [row for text in texts for row in (*text.get("processes", ()), *text.get("lwps", ()))]
        wanted.append({row.get("lwp") or row["pid"]: row for row in rows})
    for at in range(len(steps), 0, -1):
        assert {number: row for user in users for number, row in timeline.rows(at, user).items()} == wanted[at - 1]


@pytest.mark.parametrize("seed", range(len(RANDOM)))
def test_the_last_change_of_a_field(seed: int) -> None:
    """Against the rows after each step."""
    timeline = Timeline(steps_of(RANDOM[seed]))
    checked = 0
    for user in timeline.users():
        rows = [timeline.rows(at, user) for at in range(len(timeline) + 1)]
        for number in sorted({number for one in rows for number in one})[:12]:
            for field in (None, "state", "pending", "tracer", "mode"):
                last = None
                for at in range(1, len(timeline) + 1):
                    before, after = rows[at - 1].get(number), rows[at].get(number)
                    same = before == after if field is None else (before or {}).get(field) == (after or {}).get(field)
                    last = last if same else at
                    assert timeline.last_change(at, user, number, field) == last
                    checked += last is not None
    assert checked > 1000


def test_causes_go_back_to_who_did_it() -> None:
    """The end by a signal: who sent it, to a process whose stop had been continued."""
    timeline = Timeline([
        {"user": 1001, "op": "spawn"}, {"user": 1001, "op": "spawn"},
        {"user": 1001, "op": "kill", "caller": 1000, "which": 1001, "signal": 15},
        {"user": 1001, "op": "list", "caller": 1000},
        {"user": 1001, "op": "turn", "lwp": 100001, "act": "compute"},
        {"user": 1001, "op": "spawn"},
    ])  # fmt: skip
    assert [(cause.depth, cause.step.number) for cause in timeline.causes(6, 1001, 1001, "state")] == [(0, 5), (1, 3)]
    assert timeline.causes(4, 1001, 1002) == []


# ---- the prompt


def said(session: Session, *lines: str, at: int | None = None) -> str:
    text = io.StringIO()
    prompt = Prompt(session, at, stdout=text)
    try:
        for line in lines:
            prompt.onecmd(line)
    finally:
        prompt.close()
    return text.getvalue()


def test_forwards_and_back() -> None:
    session = read_session(str(VFORK))
    places = re.findall(
        r"^> +(\d+)",
        said(
            session,
            "goto 3",
            "next",
            "n 2",
            "back",
            "p",
            "b 2",
            "continue held",
            "reverse stop",
            "c 1002 state",
            "rc PT_ATTACH",
            "c error",
        ),
        re.MULTILINE,
    )
    assert places == ["3", "4", "6", "5", "4", "2", "13", "8", "12", "3"]
    for words, wanted in (
        ("goto 21", "the last step is 20"),
        ("goto x", "goto N"),
        ("c error", "no step after this one has error"),
        ("back 21", "beginning"),
    ):
        assert wanted in said(session, words)


def test_a_step_in_the_past_is_a_branch() -> None:
    """It is answered as a session that has only the steps before, and the session stays as it is."""
    session = read_session(str(VFORK))
    text = said(
        session,
        "goto 12",
        "turn 100001 compute",
        "turn 100002 enter exit 3",
        "turn 100002 leave",
        "branches",
        "compare",
        "branch 0",
        "compare 1",
        "undo",
    )
    with Host() as host:
        lines = [host.line(json.dumps(step)) for step in session.steps[:12]]
        lines = [host.line(json.dumps({"user": 1001, **step})) for step in (
            {"op": "turn", "lwp": 100001, "act": "compute"}, {"op": "turn", "lwp": 100002, "act": "enter", "call": "exit", "code": 3},
            {"op": "turn", "lwp": 100002, "act": "leave"},
        )]  # fmt: skip
    assert all(line in text for line in lines)
    assert "branch 1, after step 12" in text and "  0: 20 steps, the session\n> 1: 15 steps, from step 12 of branch 0" in text
    assert "13 steps are the same" in text and "+ 1002: " in text
    assert text.endswith("there is no step to undo\n")


def test_why_a_step_is_refused_in_the_past() -> None:
    text = said(read_session(str(VFORK)), "goto 13", "goto 5", "kill 1000 77 9", "back", "next")
    assert "held   (LWP 100001 waits for the child of its vfork)" in text
    assert text.count("ESRCH") == 2 and text.count("(user 1001 has no process 77)") == 2


@pytest.mark.parametrize(
    "commands, status",
    [("state; list; why 1001", 0), ("back; fly; state", 1), ("kill 1000 1001 SIGFOO", 1), ("goto 99", 1), ("quit; fly", 0)],
)
def test_a_batch_has_a_status(commands: str, status: int) -> None:
    done = command(VFORK, "--batch", commands)
    assert (done.returncode, done.stderr) == (status, "")
    assert all(f"tracehost> {one.strip()}\n" in done.stdout for one in commands.removesuffix("; fly").split(";"))
    assert "no step: fly" in done.stdout or "quit" in commands or "fly" not in commands


# ---- a story


@pytest.mark.parametrize("file", [*ROWS, *(TOP / "examples").glob("*.json")], ids=lambda file: str(file.stem))
def test_a_story_has_twenty_lines(file: Path) -> None:
    if file.stem == "broken":
        return
    session = read_session(str(file))
    for at in sorted({0, len(session.steps) // 3, len(session.steps) // 2, len(session.steps)}) if len(session.steps) < 300 else ():
        lines = story(session, "FILE", at)
        assert len(lines) <= 20 and all(len(line) <= 150 for line in lines)
        assert lines[-1] == f"to go on from here: tracehost-debug FILE{'' if at == len(session.steps) else f' --at {at}'}"


def test_a_story_says_why_and_whom_it_concerns() -> None:
    done = command(VFORK, "--story", "--at", "13")
    lines = done.stdout.splitlines()
    assert lines[0] == "step 13 of user 1001: turn 100001 compute -> held   (LWP 100001 waits for the child of its vfork)"
    assert lines[1:4] == [
        "  LWP 100001: pid 1001, mode waits_for_vfork, vfork_child 1002",
        "  1001: parent 1, tracer 1000, state runs, events PTRACE_EXEC PTRACE_FORK PTRACE_VFORK",
        "  1000: parent 1, state runs",
    ]
    assert re.findall(r"^ +(\d+) \w+ \d", done.stdout, re.MULTILINE) == ["9", "10", "11", "12", "13"]
    assert command("--story").returncode == 2


# ---- files


def test_a_trace_is_its_session(tmp_path: Path) -> None:
    """With and without rows, and of a host whose debuggers' ends detach."""
    for scenario in (VFORK, TOP / "examples/death_of_a_debugger_leaves.json"):
        for style in ("--json=trace", "--json=trace+rows"):
            trace = tmp_path / "trace"
            trace.write_bytes(subprocess.run([program(), style, scenario], stdout=subprocess.PIPE, check=True).stdout)
            found, wanted = read_session(str(trace)), read_session(str(scenario))
            lines = [step.words() for step in Timeline(found.steps, found.kill_on_debugger_exit).steps]
            assert lines == [step.words() for step in Timeline(wanted.steps, wanted.kill_on_debugger_exit).steps]


@pytest.mark.parametrize("text, wanted", [
    ("", "it has no step"), ("[]", "neither a scenario nor a trace"), ('{"steps":[{"user":1001,"op":"fly"}]}', "refused: BadName at step 1"),
    ('{"user":1001,"step":1,"index":1,"asked":{"op":"spawn"},"reply":"ok"}', "answers these steps in another way"), ("\udcff", "neither"),
])  # fmt: skip
def test_what_is_no_session(text: str, wanted: str, tmp_path: Path) -> None:
    file = tmp_path / "file"
    file.write_bytes(text.encode("utf-8", "surrogateescape"))
    done = command(file, "--batch", "list")
    assert done.returncode == 1 and done.stderr.startswith("tracehost-debug: ") and wanted in done.stderr
    done = command(tmp_path / "none", "--batch", "list")
    assert (done.returncode, done.stderr) == (1, f"tracehost-debug: {tmp_path}/none: No such file or directory\n")


def saved(tmp_path: Path, name: str) -> Path:
    """A file that the prompt saves: a session that detaches at a debugger's end, up to its tenth step."""
    said(read_session(str(TOP / "examples/death_of_a_debugger_leaves.json")), f"save {tmp_path / name}", at=10)
    return tmp_path / name


def test_saved_as_a_scenario(tmp_path: Path) -> None:
    file = saved(tmp_path, "s.json")
    lines = (TOP / "examples/death_of_a_debugger_leaves.out").read_text().splitlines()[:10]
    assert subprocess.run([program(), file], stdout=subprocess.PIPE, text=True, check=True).stdout.splitlines() == lines


@pytest.mark.parametrize("fails", [False, True])
def test_saved_as_a_test_in_python(tmp_path: Path, fails: bool) -> None:
    file = saved(tmp_path, "test_saved.py")
    file.write_text(file.read_text().replace("1001 10 ", "1001 11 ") if fails else file.read_text())
    environment = {**os.environ, "PYTHONPATH": str(TOP / "clients/python")}
    done = subprocess.run(
        [sys.executable, "-m", "pytest", "-q", "-p", "no:cacheprovider", file],
        env=environment,
        stdout=subprocess.PIPE,
        text=True,
        check=False,
    )
    assert done.returncode == int(fails) and ("1 failed" if fails else "1 passed") in done.stdout


@pytest.mark.parametrize("fails", [False, True])
def test_saved_as_a_test_in_c(tmp_path: Path, library: Path, fails: bool) -> None:
    file = saved(tmp_path, "saved.c")
    file.write_text(file.read_text().replace("1001 10 ", "1001 11 ") if fails else file.read_text())
    output("cc", "-std=c11", *WARNINGS, *HEADERS, file, library / "libtracehost.a", "-o", tmp_path / "saved")
    done = subprocess.run([tmp_path / "saved"], stdout=subprocess.PIPE, text=True, check=False)
    assert done.returncode == int(fails) and done.stdout.startswith("step 10: " if fails else "")


@needs("cargo")
def test_saved_as_a_test_in_rust(tmp_path: Path, library: Path) -> None:
    (tmp_path / "src").mkdir()
    crate = TOP / "clients/rust"
    (tmp_path / "Cargo.toml").write_text(
        f'[package]\nname = "saved"\nedition = "2021"\n[dependencies]\ntracehost = {{ path = "{crate}" }}\n'
    )
    saved(tmp_path / "src", "lib.rs")
    assert "test death_of_a_debugger_leaves ... ok" in Cargo(tmp_path, library, tmp_path / "target")("test")


# ---- shorter


def noisy(seed: int) -> Session:
    """A tracee that a signal ends, which its debugger passes on, among new processes of the same user and another's steps."""
    noise = [step for step in steps_of(random_scenario(seed, 300)) if step["user"] == 1002]
    own: list[dict[str, Any]] = [
        {"op": "spawn"}, {"op": "spawn"}, {"op": "ptrace", "caller": 1000, "request": "PT_ATTACH", "target": 1001},
        {"op": "wait4", "caller": 1000, "which": -1}, {"op": "kill", "caller": 1000, "which": 1001, "signal": 15},
        {"op": "ptrace", "caller": 1000, "request": "PT_CONTINUE", "target": 1001}, {"op": "turn", "lwp": 100001, "act": "compute"},
        {"op": "wait4", "caller": 1000, "which": -1},
        {"op": "ptrace", "caller": 1000, "request": "PT_CONTINUE", "target": 1001, "data": 15}, {"op": "wait4", "caller": 1000, "which": -1},
    ]  # fmt: skip
    steps: list[dict[str, Any]] = []
    for at, step in enumerate(own):
        steps += [{"user": 1001, "op": "spawn"}] * (at > 1) + noise[at * 7 : at * 7 + 7] + [{"user": 1001, **step}]
    return Session("noisy", steps, None)


@pytest.mark.parametrize("seed", range(3))
def test_shorter(seed: int) -> None:
    """The last step is answered alike: by two processes, PT_ATTACH, a wait, PT_CONTINUE with the signal, and a wait."""
    session = noisy(seed)
    shorter = shrink(session, Keep.of("last"))
    assert len(session.steps) > 70
    words = [step.words() for step in Timeline(shorter.session.steps).steps]
    assert words[2:] == [
        "ptrace 1000 PT_ATTACH 1001 -> ok", "wait4 1000 -> 1001 stopped SIGSTOP", "ptrace 1000 PT_CONTINUE 1001 SIGTERM -> ok",
        "wait4 1000 -> 1001 signaled SIGTERM",
    ]  # fmt: skip


def test_shorter_by_a_reply() -> None:
    """The first reply with the words, whose process has another number in the shorter session."""
    shorter = shrink(noisy(1), Keep.of("reply=1001 stopped SIGTERM"))
    found = Timeline(shorter.session.steps)
    assert found.steps[-1].answer() == "1001 stopped SIGTERM" and len(found) <= 8
    with pytest.raises(Refused, match="no reply has the words fly"):
        shrink(noisy(1), Keep.of("reply=fly"))


def test_shorter_by_what_to_look_at(tmp_path: Path) -> None:
    """The signal that isn't passed on: no step of the nine can be missed."""
    file, out = tmp_path / "long.json", tmp_path / "short.json"
    session = noisy(1)
    steps = [{**step, "data": 0} if step.get("data") == 15 else step for step in session.steps]
    file.write_text(session._replace(steps=steps).text())
    done = command(file, "--shrink", out, "--keep", "notice=drops its SIGTERM")
    assert done.returncode == 0 and done.stdout.startswith(f"9 of {len(steps)} steps keep PT_CONTINUE of "), done.stderr
    found = Timeline(json.loads(out.read_text())["steps"]).steps
    assert [step.words() for step in found[2:]] == [
        "ptrace 1000 PT_ATTACH 1001 -> ok", "wait4 1000 -> 1001 stopped SIGSTOP", "kill 1000 1001 SIGTERM -> ok",
        "ptrace 1000 PT_CONTINUE 1001 -> ok", "turn 100001 compute -> LWP 100001 stopped SIGTERM, no flags",
        "wait4 1000 -> 1001 stopped SIGTERM", "ptrace 1000 PT_CONTINUE 1001 -> ok",
    ]  # fmt: skip
    done = command(file, "--shrink", out, "--keep", "notice=fly")
    assert done.returncode == 1 and "nothing to look at has the words fly; PT_CONTINUE of " in done.stderr


def test_shorter_by_a_command(tmp_path: Path) -> None:
    """Its status stays: that of grep for the numbers of the shorter session's run."""
    file, out = tmp_path / "long.json", tmp_path / "short.json"
    file.write_text(noisy(2).text())
    grep = f"{program()} {{}} | grep -q ' status [0-9]* 15$'"
    done = command(file, "--shrink", out, "--keep", f"status={grep}")
    assert done.returncode == 0 and done.stdout.startswith("6 of "), done.stderr
    assert len(json.loads(out.read_text())["steps"]) == 6


@pytest.mark.parametrize(
    "status, wanted", [("nosuchcommand {}", "the shell can't run it, status 127"), ("exit 3", "status 3 without any step too")]
)
def test_a_status_that_says_nothing_of_the_steps(tmp_path: Path, status: str, wanted: str) -> None:
    """Else no step at all would keep it."""
    done = command(VFORK, "--shrink", tmp_path / "out", "--keep", f"status={status}")
    assert done.returncode == 1 and wanted in done.stderr and not (tmp_path / "out").exists()


def test_shorter_by_its_fault(tmp_path: Path) -> None:
    out = tmp_path / "short.json"
    assert command(TOP / "examples/broken.json", "--shrink", out, "--keep", "fault").returncode == 0
    done = subprocess.run([program(), out], stderr=subprocess.PIPE, text=True, check=False)
    assert (done.returncode, done.stderr) == (1, "tracehost: refused: BadName at step 1\n")
    done = command(VFORK, "--shrink", out, "--keep", "fault")
    assert (done.returncode, done.stderr) == (1, "tracehost-debug: vfork_and_exec: the program takes it\n")


@pytest.mark.parametrize("words", [["--keep", "x"], ["--keep", "reply="], ["--keep", "notice"], ["--keep", "last=3"]])
def test_what_cannot_be_kept(words: list[str], tmp_path: Path) -> None:
    assert command(VFORK, "--shrink", tmp_path / "out", *words).returncode == 2
    assert not (tmp_path / "out").exists()
