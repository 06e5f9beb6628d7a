"""Coverage of the model (`tracehost-coverage`): known sessions have met exactly the known rows, and what isn't read is told."""

from __future__ import annotations

import html.parser
import json
import os
import subprocess
import sys
from collections import Counter
from pathlib import Path

import pytest
from checking import TOP
from posix_kit import Posix
from viewer_runs import random_scenario

sys.path[:0] = [str(TOP / "clients/python"), str(TOP / "clients/python/tests")]
import worlds
from tracehost import Host, goals
from tracehost.covered import Coverage, Unnamed
from tracehost.explore import explore
from tracehost.program import default as program
from tracehost.refusals import Rows, asked_by, conditions
from tracehost.step_words import step_of
from tracehost.timeline import Timeline, scenario_text

# sessions with known steps, and what each step meets
KNOWN: dict[str, list[tuple[str, list[str]]]] = {
    "attach": [
        ("spawn", ["reply spawn new", "process new -> runs", "lwp new -> runs"]),
        ("spawn", ["reply spawn new", "process new -> runs", "lwp new -> runs"]),
        ("ptrace 1000 PT_ATTACH 1001", ["reply PT_ATTACH ok", "process runs -> trace_stop untold", "stop SIGSTOP"]),
        ("ptrace 1000 PT_CONTINUE 1001", ["refusal PT_CONTINUE stop_not_told"]),
        ("wait4 1000", ["reply wait4 status stopped by a signal", "process trace_stop untold -> trace_stop told"]),
        ("turn 100001 compute", ["refusal compute lwp_in_trace_stop"]),
        ("ptrace 1000 PT_CONTINUE 1001", ["reply PT_CONTINUE ok", "process trace_stop told -> runs traced"]),
        ("ptrace 1000 PT_CONTINUE 1001", ["refusal PT_CONTINUE in_no_stop"]),
        ("wait4 1000", ["reply wait4 nothing"]),
        ("turn 100001 enter exit 3", ["reply enter ok", "lwp runs -> in_call"]),
        ("turn 100001 leave", ["reply leave ended", "process runs traced -> zombie traced", "lwp in_call -> gone"]),
        ("wait4 1000", ["reply wait4 status exited", "process zombie traced -> gone"]),
        ("list 1001", ["refusal list caller_gone"]),
        ("1002: spawn", ["reply spawn new", "process new -> runs", "lwp new -> runs"]),
        ("1002: kill 2000 1000 9", ["refusal kill process_gone"]),
    ],
    "vfork": [
        ("spawn", ["reply spawn new", "process new -> runs", "lwp new -> runs"]),
        ("turn 100000 enter vfork", ["reply enter ok", "lwp runs -> in_call"]),
        ("turn 100000 leave", ["reply leave new", "process new -> runs", "lwp new -> runs", "lwp in_call -> waits_for_vfork"]),
        ("turn 100000 compute", ["refusal compute lwp_waits"]),
        ("turn 100001 enter exit 1", ["reply enter ok", "lwp runs -> in_call"]),
        (
            "turn 100001 leave",
            ["reply leave ended", "process runs -> zombie", "lwp in_call -> gone", "lwp waits_for_vfork -> runs"],
        ),
        ("wait4 1000", ["reply wait4 status exited", "process zombie -> gone"]),
    ],
    "job control": [
        ("spawn", ["reply spawn new", "process new -> runs", "lwp new -> runs"]),
        ("turn 100000 enter fork", ["reply enter ok", "lwp runs -> in_call"]),
        ("turn 100000 leave", ["reply leave new", "process new -> runs", "lwp new -> runs", "lwp in_call -> runs"]),
        ("kill 1000 1001 SIGTSTP", ["reply kill ok"]),
        ("turn 100001 compute", ["reply compute stopped", "process runs -> job_stop untold", "stop by job control SIGTSTP"]),
        ("wait4 1000", ["reply wait4 nothing"]),
        (
            "wait4 1000 WUNTRACED",
            ["reply wait4 status stopped by job control", "process job_stop untold -> job_stop told"],
        ),
        ("list 1001", ["refusal list caller_in_job_stop"]),
        ("kill 1000 1001 SIGCONT", ["reply kill ok", "process job_stop told -> runs"]),
        ("wait4 1000 WCONTINUED", ["reply wait4 status continued"]),
        ("sigaction 1001 SIGTERM catch", ["reply sigaction ok catch"]),
    ],
}  # fmt: skip


@pytest.fixture(autouse=True)
def over_the_library(library: Path, monkeypatch: pytest.MonkeyPatch) -> None:
    monkeypatch.setenv("TRACEHOST_LIBRARY", str(library / "libtracehost.so"))
    monkeypatch.setenv("TRACEHOST", program())


def timeline_of(words: list[str]) -> Timeline:
    return Timeline([step_of(step.split(), 1001) for step in words])


def times_of(coverage: Coverage) -> Counter[str]:
    return Counter({goal: met.times for goal, met in coverage.met.items()})


def covered(*words: object, given: str | None = None) -> subprocess.CompletedProcess[str]:
    environment = {**os.environ, "PYTHONPATH": str(TOP / "clients/python")}
    command = [sys.executable, "-m", "tracehost.coverage", *map(str, words)]
    return subprocess.run(command, env=environment, input=given, capture_output=True, text=True, check=False)


# ---- what is met


@pytest.mark.parametrize("name", KNOWN)
def test_known_steps_meet_exactly_the_known_rows(name: str) -> None:
    words = [step for step, _ in KNOWN[name]]
    for end, (step, wanted) in enumerate(KNOWN[name], 1):
        before, after = Coverage(), Coverage()
        before.add(timeline_of(words[: end - 1]), "before")
        after.add(timeline_of(words[:end]), "after")
        assert times_of(after) - times_of(before) == Counter(wanted), step


def test_the_first_place_and_the_times() -> None:
    coverage = Coverage()
    for name in KNOWN:
        coverage.add(timeline_of([step for step, _ in KNOWN[name]]), name)
    met = coverage.met["reply wait4 nothing"]
    assert (met.times, met.first) == (2, ("attach", 9))
    assert (coverage.traces, coverage.steps) == (3, sum(map(len, KNOWN.values())))
    again = Coverage()
    again.add_counts(json.loads(json.dumps(coverage.counts())))
    assert (again.met, again.traces, again.steps) == (coverage.met, 3, coverage.steps)


@pytest.mark.parametrize("seed", range(3))
def test_random_sessions(seed: int) -> None:
    """Refusals are those that the library's own rows explain, and all that is met is in the tables."""
    steps = random_scenario(seed, 400)["steps"]
    coverage = Coverage()
    coverage.add(Timeline(steps), "random")
    assert coverage.steps == len(steps) and set(coverage.met) <= set(goals.ALL)
    refused: Counter[str] = Counter()
    with Host() as host:
        for step in steps:
            words = host.line(json.dumps(step)).split()
            if words[2] in ("error", "held"):
                asked = asked_by(step)
                rows = Rows(host._rows(step["user"]))
                answer = words[3] if words[2] == "error" else "held"
                first = next(c for c in conditions(asked) if c.answer == answer and c.holds(asked, rows))
                refused[f"refusal {goals.name_of(step)} {first.name}"] += 1
    assert refused and Counter({goal: n for goal, n in times_of(coverage).items() if goal.startswith("refusal")}) == refused


def test_each_row_has_words() -> None:
    words = {goal: goals.words_of(goal) for goal in goals.ALL}
    assert all(text and "{" not in text for _, text in words.values()) and len(set(words.values())) == len(words)
    assert words["lwp waits_for_vfork -> runs"] == ("", "a vfork's end while its parent waits")
    assert words["refusal PT_ATTACH traced_already"] == ("PT_ATTACH", "EBUSY, TARGET is traced already")


def test_rows_at_the_limits() -> None:
    """What random sessions never reach: the most processes, LWPs and handlers that a user may have."""
    coverage = Coverage()
    threads = ["turn 100000 enter thr_new", "turn 100000 leave"] * 752
    coverage.add(timeline_of(["spawn", *["install 1000"] * 65, *["spawn"] * 250]), "handlers, processes")
    coverage.add(timeline_of(["spawn"] * 249 + threads + ["spawn"]), "LWPs")
    coverage.add(timeline_of(["spawn"] * 250 + ["turn 100000 enter fork", "turn 100000 leave"]), "a fork")
    wanted = "install most_handlers", "spawn most_processes", "spawn most_lwps", "leave most_lwps", "leave most_processes"
    assert {name: coverage.met[f"refusal {name}"].times for name in wanted} == dict.fromkeys(wanted, 1)


def test_a_row_that_no_table_has(monkeypatch: pytest.MonkeyPatch) -> None:
    """It is a fault of the tables: it isn't passed over."""
    monkeypatch.delitem(goals.ALL, "reply spawn new")
    with pytest.raises(Unnamed, match="first, step 1: no table has 'reply spawn new'"):
        Coverage().add(timeline_of(["spawn"]), "first")


def test_records_of_other_tools(tmp_path: Path, posix: Posix) -> None:
    """Of tracehost-run: the lost wake-up of its race. Of a search: a helper's stop that comes before the wait."""
    record = tmp_path / "run.json"
    done = posix.run("--schedules", 300, "--record", record, posix.race("lost_wakeup"))
    assert done.returncode == 1, done.stderr
    found = explore(worlds.stop_before_wait(False))
    found.save(tmp_path / "race.json")
    for trace, wanted in (("run.json", "reply raise ok"), ("race.json", "refusal PT_DETACH stop_not_told")):
        done = covered(tmp_path / trace, "--omit", "[!r]*", "--lcov", tmp_path / "lcov")
        assert done.returncode == 0 and done.stderr == ""
        name, words = goals.words_of(wanted)
        line = (tmp_path / "lcov.rows").read_text().splitlines().index(f"{name}: {words}") + 1
        assert f"DA:{line},0" not in (tmp_path / "lcov").read_text().splitlines(), trace


# ---- traces that can't be read


def scenario(path: Path, *words: str) -> Path:
    path.write_text(scenario_text([step_of(step.split(), 1001) for step in words], None))
    return path


@pytest.mark.parametrize("beside", [False, True])
@pytest.mark.parametrize(
    ("text", "said"),
    [
        (None, "No such file or directory"),
        ("", "it has no step"),
        ("[]", "neither a scenario nor a trace"),
        ('{"steps":[{"user":1001,"op":"fly"}]}', "refused: BadName at step 1"),
        ('{"user":1001,"step":1,"index":1,"asked":{"op":"spawn"},"reply":"ok"}', "answers these steps in another way"),
        ('{"steps":[{"user":1001,', "neither a scenario nor a trace"),
    ],
)
def test_what_cannot_be_read(tmp_path: Path, text: str | None, said: str, beside: bool) -> None:
    """It is told by name, and the others are counted."""
    bad = tmp_path / "bad.json"
    if text is not None:
        bad.write_text(text)
    good = [scenario(tmp_path / "good.json", "spawn")] if beside else []
    done = covered(bad, *good)
    assert done.returncode == 1 and f"tracehost-coverage: not read: {bad}: " in done.stderr and said in done.stderr
    assert f"{len(good)} traces, {len(good)} steps" in done.stdout


def test_folders(tmp_path: Path) -> None:
    """All that is below them; one without a trace isn't passed over."""
    (tmp_path / "a/b").mkdir(parents=True)
    (tmp_path / "empty").mkdir()
    for name in ("a/1.json", "a/b/2.json"):
        scenario(tmp_path / name, "spawn")
    (tmp_path / "a/1.out").write_text("1001 1 new 1000 100000\n")
    done = covered(tmp_path / "a")
    assert done.returncode == 0 and "2 traces, 2 steps" in done.stdout and done.stderr == ""
    done = covered(tmp_path / "a", tmp_path / "empty")
    assert (done.returncode, done.stderr) == (
        1, f"tracehost-coverage: not read: {tmp_path}/empty: there is no trace in it\n"
    )  # fmt: skip
    assert covered("-", given=(tmp_path / "a/1.json").read_text()).returncode == 0


def test_odd_files(tmp_path: Path) -> None:
    """Names that are bytes, links in a circle, and a FIFO, which nobody writes. A name's control characters aren't printed."""
    for name in (b"\xff\n.json", b"<i>.json"):
        Path(os.fsdecode(os.fsencode(tmp_path) + b"/" + name)).write_text('{"steps":[{"user":1001,"op":"spawn"}]}')
    (tmp_path / "loop").symlink_to(".")
    done = covered(tmp_path, "--html", tmp_path / "page.html")
    assert done.returncode == 0 and "2 traces, 2 steps" in done.stdout
    assert b"<i>.json" not in (tmp_path / "page.html").read_bytes()
    os.mkfifo(tmp_path / "fifo.json")
    (tmp_path / "bad\x1b[31m.json").write_text("[]")
    done = covered(tmp_path)
    assert done.returncode == 1 and "\x1b" not in done.stderr and "bad\\x1b[31m.json: neither" in done.stderr
    assert f"{tmp_path}/fifo.json: it is no file" in done.stderr


def test_a_program_that_is_not_there(tmp_path: Path) -> None:
    done = covered("--program", tmp_path / "none", scenario(tmp_path / "s.json", "spawn"))
    assert done.returncode == 1 and f"{tmp_path}/none: No such file or directory" in done.stderr


# ---- reports


class Read(html.parser.HTMLParser):
    """The cells of a page, and its elements."""

    def __init__(self) -> None:
        super().__init__()
        self.names: set[str] = set()
        self.never = 0

    def handle_starttag(self, tag: str, attrs: list[tuple[str, str | None]]) -> None:
        self.names.add(tag)
        self.never += tag == "tr" and ("class", "never") in attrs


def test_reports(tmp_path: Path) -> None:
    """The page and lcov say the same as the table. A name with markup is text."""
    odd = scenario(tmp_path / "<script>alert(1)<img src=x>.json", *(step for step, _ in KNOWN["attach"]))
    page, info = tmp_path / "page.html", tmp_path / "cov.info"
    done = covered(odd, "--html", page, "--lcov", info)
    assert done.returncode == 0, done.stderr
    met = len({goal for _, wanted in KNOWN["attach"] for goal in wanted})
    total = next(line.split() for line in done.stdout.splitlines() if line.startswith("all "))
    assert total[1:3] == [str(met), str(len(goals.ALL))]
    read = Read()
    read.feed(page.read_text())
    assert read.names.isdisjoint({"script", "img"}) and read.never == len(goals.ALL) - met
    records = info.read_text().splitlines()
    source = Path(next(line[3:] for line in records if line.startswith("SF:")))
    counts = [tuple(map(int, line[3:].split(","))) for line in records if line.startswith("DA:")]
    assert [number for number, _ in counts] == list(range(1, len(source.read_text().splitlines()) + 1))
    assert (records[-3], records[-2], records[-1]) == (f"LF:{len(goals.ALL)}", f"LH:{met}", "end_of_record")
    assert sum(count > 0 for _, count in counts) == met
    lines = source.read_text().splitlines()
    assert counts[lines.index("wait4: the reply nothing")][1] == 1


def test_options(tmp_path: Path) -> None:
    first = scenario(tmp_path / "first.json", "spawn")
    done = covered(first, *(f"--omit={kind} *" for kind in ("refusal", "stop", "process", "lwp")), "--fail-under", 2)
    assert done.returncode == 2 and "never met, replies:" in done.stdout and "refusals" not in done.stdout
    assert "tracehost-coverage: 1.6 % were met, and 2 % are asked for" in done.stderr
    assert covered(first, "--fail-under", "0.1").returncode == 0
    done = covered(first, "--omit", "*")
    assert done.returncode == 1 and "--omit leaves out all rows" in done.stderr
    for words in (["--fail-under", "nan"], ["--fail-under", "101"], ["--fail-under", "x"], ["--omit", "stops *"]):
        assert covered(first, *words).returncode == 2, words
    done = covered(first, "--html", "/dev/full")
    assert (done.returncode, done.stderr) == (1, "tracehost-coverage: /dev/full: No space left on device\n")
