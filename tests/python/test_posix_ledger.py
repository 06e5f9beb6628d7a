"""`tracehost-run` as a task: a ledger that resumes, failures that count as one, slow runs, brokers that die.

A search that is killed, and started again until it ends, leaves the same bytes as one that isn't.
"""

from __future__ import annotations

import fcntl
import json
import os
import random
import re
import resource
import shutil
import signal
import subprocess
import sys
import time
from collections import Counter
from collections.abc import Callable, Iterator, Sequence
from pathlib import Path

import pytest
from posix_kit import CC, POSIX, RACES, RUN, Done, Posix

sys.path[:0] = [str(POSIX), str(POSIX.parent / "python")]

from tracehost_posix import pool, tally  # noqa: E402
from tracehost_posix.broker import Broker, find  # noqa: E402
from tracehost_posix.ledger import block_of  # noqa: E402
from tracehost_posix.outcome import Result  # noqa: E402
from tracehost_posix.setting import ALL_POINTS, Died, Setting, Task  # noqa: E402

SCALE = int(os.environ.get("TRACEHOST_TEST_SCALE", "1"))
SEEDS = 700
"""Two whole blocks and two parts."""
SEARCH = ["--seeds", f"100..{99 + SEEDS}", "--keep-going", "--json"]


def setting_of(program: Path) -> Setting:
    place = find()
    assert place is not None
    return Setting([str(program)], place, "")


class Whole:
    """A search that nothing has ended."""

    def __init__(self, posix: Posix, folder: Path) -> None:
        self.program = posix.race("stale_lwp")
        self.ledger = folder / "ledger"
        self.done = posix.run(*SEARCH, "--ledger", self.ledger, self.program)
        assert self.done.returncode == 1, self.done.stderr
        self.text = self.ledger.read_bytes()
        self.lines = self.text.splitlines(keepends=True)

    def words(self, ledger: Path, *more: object) -> list[object]:
        return [*SEARCH, *more, "--ledger", ledger, self.program]

    def check(self, done: Done, ledger: Path) -> None:
        """The search came to the same."""
        assert (done.returncode, done.stdout, done.stderr) == (1, self.done.stdout, self.done.stderr)
        assert ledger.read_bytes() == self.text


@pytest.fixture(scope="module")
def whole(posix: Posix, tmp_path_factory: pytest.TempPathFactory) -> Whole:
    return Whole(posix, tmp_path_factory.mktemp("ledger"))


# ---- what a ledger has


def test_it_has_a_line_for_each_block(whole: Whole) -> None:
    head, *blocks = map(json.loads, whole.lines)
    assert [block["seeds"] for block in blocks] == [[100, 255], [256, 511], [512, 767], [768, 799]]
    assert len({block["digest"] for block in blocks}) == len(blocks)
    assert {"program", "model", "broker", "seeds", "strategy", "limit"} <= head.keys()


def test_it_has_what_each_run_comes_to(posix: Posix, whole: Whole) -> None:
    """Every seed is run by itself here."""
    broker = Broker(setting_of(whole.program))
    try:
        results = [broker.result(Task(seed=seed)) for seed in range(100, 100 + SEEDS)]
    finally:
        broker.close()
    blocks = [json.loads(line) for line in whole.lines[1:]]
    failures = Counter(result.why for result in results if result.why is not None)
    found: Counter[str] = Counter()
    for block in blocks:
        found.update({why: count for why, (count, _) in block["failures"].items()})
    assert found == failures
    assert {legs for block in blocks for legs in block["different"].split()} == {f"{result.legs:x}" for result in results}
    report = json.loads(whole.done.stdout)
    assert (report["schedules"], report["different"]) == (SEEDS, len({result.legs for result in results}))
    assert {failure["why"]: failure["count"] for failure in report["failures"]} == failures
    firsts = {why: next(100 + at for at, result in enumerate(results) if result.why == why) for why in failures}
    assert {failure["why"]: failure["seed"] for failure in report["failures"]} == firsts


def test_each_failure_is_cut_down_once(posix: Posix, whole: Whole) -> None:
    for failure in json.loads(whole.done.stdout)["failures"]:
        done = posix.run("--switches", failure["switches"], whole.program)
        assert done.returncode == 1 and done.stderr.splitlines()[-1 - len(failure["blamed"])].endswith(failure["why"]), done.stderr


def test_it_is_the_same_whatever_the_number_of_jobs(posix: Posix, whole: Whole, tmp_path: Path) -> None:
    whole.check(posix.run(*whole.words(tmp_path / "ledger", "--jobs", 3)), tmp_path / "ledger")


def test_the_first_failure_ends_it(posix: Posix, whole: Whole, tmp_path: Path) -> None:
    words = ["--seeds", "1..1000", "--ledger", tmp_path / "ledger", whole.program]
    once, again = posix.run("--jobs", 2, *words), posix.run(*words)
    assert once.returncode == 1 and "fails under --seed 16, after 15 schedules that passed" in once.stderr
    assert (again.returncode, again.stderr) == (1, once.stderr)
    assert [json.loads(line)["seeds"] for line in (tmp_path / "ledger").read_text().splitlines()[1:]] == [[1, 16]]


# ---- a search that is ended


def test_killed_again_and_again_it_comes_to_the_same(posix: Posix, whole: Whole, tmp_path: Path) -> None:
    ledger, kills = tmp_path / "ledger", 0
    for size in (1, *(len(b"".join(whole.lines[:count])) + 1 for count in range(1, 4))):
        words = [str(word) for word in (sys.executable, RUN, "--no-record", *whole.words(ledger))]
        search = subprocess.Popen(words, stdout=subprocess.DEVNULL, stderr=subprocess.DEVNULL)
        while search.poll() is None and not (ledger.exists() and ledger.stat().st_size >= size):
            time.sleep(0.002)
        search.kill()
        kills += search.wait() == -signal.SIGKILL
    assert kills > 1
    whole.check(posix.run(*whole.words(ledger)), ledger)


CUTS = ["nothing", "half the head", "the head without its end", "the head", "half a block", "a block", "half the last"]


@pytest.mark.parametrize("cut", CUTS)
def test_what_was_cut_is_made_again(posix: Posix, whole: Whole, tmp_path: Path, cut: str) -> None:
    head, first, *_, last = whole.lines
    ledger = tmp_path / "ledger"
    texts = [b"", head[:50], head[:-1], head, head + first[:99], head + first, whole.text[: -len(last) // 2]]
    ledger.write_bytes(texts[CUTS.index(cut)])
    whole.check(posix.run(*whole.words(ledger)), ledger)


def checked(line: bytes, old: str, new: str) -> bytes:
    """The line with another text in it, which is there once, or with another value of a member."""
    text, count = re.subn(old, new, line.decode())
    assert count == 1
    return text.encode()


DAMAGES: dict[str, tuple[int, Callable[[bytes], bytes]]] = {
    "a figure that is none": (1, lambda line: checked(line, '"new": "1', '"new": "x')),
    "no failures": (1, lambda line: checked(line, r'"failures": \{.*?\}', '"failures": {}')),
    "a run that isn't new": (2, lambda line: checked(line, '"new": "1', '"new": "0')),
    "one question more": (2, lambda line: checked(line, r'("sums": \[\d+, )', r"\g<1>1")),
    "another digest": (3, lambda line: checked(line, r'("digest": )"..', r'\g<1>"zz')),
    "another checksum": (3, lambda line: checked(line, r'("check": )"..', r'\g<1>"zz')),
    "no checksum": (3, lambda line: checked(line, ', "check": ".*"', "")),
    "white space": (1, lambda line: line.replace(b"{", b"{ ", 1)),
    "a line that is gone": (2, lambda line: b""),
    "a line twice": (3, lambda line: line + line),
    "no line feed": (1, lambda line: line[:-1] + b" "),
    "bytes that are no text": (4, lambda line: b"\xff" + line[1:]),
}


@pytest.mark.parametrize("damage", DAMAGES)
def test_a_damaged_line_is_run_again_and_said(posix: Posix, whole: Whole, tmp_path: Path, damage: str) -> None:
    at, change = DAMAGES[damage]
    ledger, lines = tmp_path / "ledger", list(whole.lines)
    lines[at] = change(lines[at])
    ledger.write_bytes(b"".join(lines))
    done = posix.run(*whole.words(ledger))
    wrong = at + 1 + (damage == "a line twice")
    first = [100, 256, 512, 768, 800][wrong - 2]
    said = f"tracehost-run: --ledger: {ledger}: line {wrong} is damaged: seeds are run again from {first} on\n"
    assert done.stderr.startswith(said), done.stderr
    done.stderr = done.stderr.removeprefix(said)
    whole.check(done, ledger)


def test_no_changed_byte_of_a_line_is_believed(whole: Whole) -> None:
    line = whole.lines[3].decode().rstrip("\n")
    dice = random.Random(65)
    assert block_of(line, 512).line() == line
    for at in range(0, len(line), max(1, len(line) // (400 * SCALE))):
        for changed in (line[:at] + line[at + 1 :], line[:at] + dice.choice('01"{}[],: ae') + line[at + 1 :]):
            if changed != line:
                with pytest.raises(ValueError):
                    block_of(changed, 512)


def test_a_full_disk_ends_it_with_status_3(posix: Posix, whole: Whole, tmp_path: Path) -> None:
    """At each kind of write; what comes later goes on from there."""
    done = posix.run(*whole.words(Path("/dev/full")))
    assert (done.returncode, done.stderr) == (3, "tracehost-run: --ledger: /dev/full: No space left on device\n")
    for size in (10, len(whole.lines[0]) + 10, len(b"".join(whole.lines[:2])) + 10):
        ledger = tmp_path / str(size)
        full = subprocess.run(
            [str(word) for word in (sys.executable, RUN, "--no-record", *whole.words(ledger))],
            preexec_fn=lambda: resource.setrlimit(resource.RLIMIT_FSIZE, (size, size)),
            capture_output=True, text=True, check=False,
        )  # fmt: skip
        assert (full.returncode, full.stderr) == (3, f"tracehost-run: --ledger: {ledger}: File too large\n")
        assert ledger.stat().st_size == size
        whole.check(posix.run(*whole.words(ledger)), ledger)


# ---- whose ledger it is


def test_two_at_once_are_refused(posix: Posix, whole: Whole, tmp_path: Path) -> None:
    ledger = tmp_path / "ledger"
    words = [str(word) for word in (sys.executable, RUN, "--no-record", *whole.words(ledger))]
    first = subprocess.Popen(words, stdout=subprocess.PIPE, stderr=subprocess.PIPE, text=True)
    while not (ledger.exists() and ledger.stat().st_size > 0):
        time.sleep(0.002)
    second = posix.run(*whole.words(ledger))
    out, errors = first.communicate()
    assert (second.returncode, second.stderr) == (2, f"tracehost-run: --ledger: {ledger}: another tracehost-run has it\n")
    whole.check(subprocess.CompletedProcess(words, first.returncode, out, errors), ledger)


@pytest.mark.parametrize(
    "name, words",
    [
        ("seeds", ["--seeds", "100..800"]),
        ("limit", ["--limit", 300]),
        ("strategy", ["--strategy", "pct"]),
        ("strict", ["--strict"]),
    ],
)
def test_another_search_is_refused(posix: Posix, whole: Whole, name: str, words: list[object]) -> None:
    done = posix.run(*SEARCH, *words, "--ledger", whole.ledger, whole.program)
    assert done.returncode == 2 and f"it is of another search: {name} is " in done.stderr, done.stderr
    assert whole.ledger.read_bytes() == whole.text


@pytest.mark.parametrize("name", ["model", "broker"])
def test_another_model_or_broker_is_refused(posix: Posix, whole: Whole, tmp_path: Path, name: str) -> None:
    head = json.loads(whole.lines[0])
    other = whole.text.replace(head[name].encode(), b"0" * 16, 1)
    (tmp_path / "ledger").write_bytes(other)
    done = posix.run(*whole.words(tmp_path / "ledger"))
    assert done.returncode == 2 and f'it is of another search: {name} is "{"0" * 16}" there, and ' in done.stderr, done.stderr
    assert (tmp_path / "ledger").read_bytes() == other


def test_another_program_is_refused(posix: Posix, whole: Whole) -> None:
    done = posix.run(*SEARCH, "--ledger", whole.ledger, posix.remedy("stale_lwp"))
    assert done.returncode == 2 and "it is of another search: program is " in done.stderr, done.stderr
    done = posix.run(*SEARCH, "--ledger", whole.ledger, whole.program, "word")
    assert done.returncode == 2 and 'arguments is [] there, and ["word"] here' in done.stderr, done.stderr
    assert whole.ledger.read_bytes() == whole.text


def test_another_file_is_refused(posix: Posix, whole: Whole, tmp_path: Path) -> None:
    for text in (b"# Notes\n", b"\0" * 100, b"{}\n", b"[]\n", b"\xff\n", b"1"):
        other = tmp_path / "other"
        other.write_bytes(text)
        done = posix.run(*whole.words(other))
        assert (done.returncode, done.stderr) == (2, f"tracehost-run: --ledger: {other}: it is no ledger of tracehost-run\n")
        assert other.read_bytes() == text
    done = posix.run(*whole.words(tmp_path / "none" / "ledger"))
    assert done.returncode == 2 and done.stderr.endswith("ledger: No such file or directory\n")


# ---- options that only a search has


@pytest.mark.parametrize(
    "words, said",
    [
        (["--ledger", "f"], "--ledger needs --schedules or --seeds"),
        (["--seed", "1", "--keep-going"], "--keep-going needs --schedules or --seeds"),
        (["--preemptions", "1", "--ledger", "f"], "--ledger needs --schedules or --seeds"),
        (["--json"], "--json needs --schedules, --seeds or --preemptions"),
        (["--seeds", "1..9", "--schedules", "9"], "--schedules and --seeds don't go together"),
        (["--seeds", "1..9", "--ledger", "f", "--digest"], "--ledger and --digest don't go together"),
        (["--seeds", "1..9", "--json", "--digest"], "--json and --digest don't go together"),
        (["--seeds", "9..1"], "--seeds: '9..1' is no range A..B of seeds"),
        (["--seeds", "0..1"], "--seeds: '0' is no number from 1 to 4611686018427387903"),
        (["--seeds", "7"], "--seeds: '7' is no range A..B of seeds"),
    ],
)
def test_a_mistake_is_told(posix: Posix, words: Sequence[str], said: str) -> None:
    done = posix.run(*words, "program")
    assert (done.returncode, done.stderr) == (2, f"tracehost-run: {said}\n")


def test_json_of_other_searches(posix: Posix) -> None:
    done = posix.run("--json", "--preemptions", 1, posix.race("lost_wakeup"))
    report = json.loads(done.stdout)
    assert done.returncode == report["status"] == 1
    assert [(failure["count"], failure["seed"]) for failure in report["failures"]] == [(1, None)]
    done = posix.run("--json", "--schedules", 20, posix.remedy("lost_wakeup"))
    report = json.loads(done.stdout)
    assert (done.returncode, report["status"], report["failures"], report["schedules"]) == (0, 0, [], 21)


def test_a_program_that_fails_under_every_schedule_needs_no_switch(posix: Posix, tmp_path: Path) -> None:
    source, program = tmp_path / "fails.c", tmp_path / "fails"
    source.write_text("#include <unistd.h>\nint main(void) { if (fork() == 0) { getpid(); _exit(0); } getpid(); return 1; }\n")
    assert posix.execute(CC, "-o", program, source).returncode == 0
    done = posix.run("--json", "--seeds", "5..9", program)
    assert json.loads(done.stdout)["failures"][0]["switches"] == "" and "0 are enough" in done.stderr, done.stderr


# ---- workers


class Fake(pool.Worker):
    """Answers at once, or waits until others have answered so many tasks."""

    ahead = 4
    answered = 0

    def __init__(self, waits_for: int) -> None:
        super().__init__()
        self._read, self._write = os.pipe()
        self._waits_for = waits_for
        self._held = 0

    def fileno(self) -> int:
        return self._read

    def send(self, task: Task) -> None:
        self._held += 1
        if self._waits_for <= Fake.answered:
            self.answer()

    def answer(self) -> None:
        os.write(self._write, b"x" * self._held)
        self._held = 0

    def receive(self) -> list[Result | Exception]:
        got = len(os.read(self._read, 1))
        Fake.answered += got
        if Fake.answered == SLOW:
            slow.answer()
        return [Result(None, 2, 2, 2, "", "", 0, 0, 0)] * got

    def close(self) -> None:
        os.close(self._read)
        os.close(self._write)


SLOW = 3000
slow: Fake


def test_a_slow_run_stalls_no_other(monkeypatch: pytest.MonkeyPatch) -> None:
    global slow
    slow, fast = Fake(SLOW), Fake(0)
    monkeypatch.setattr(Fake, "answered", 0)
    runs = pool.Pool(Setting([], "", ""), 2)

    def start(place: int) -> Fake:
        runs._workers.insert(place, [slow, fast][place])
        return [slow, fast][place]

    monkeypatch.setattr(runs, "_start", start)
    signal.alarm(60)  # a stall
    try:
        seeds = [task.seed for task, _ in runs.results(Task(seed=seed) for seed in range(1, 2 * SLOW))]
    finally:
        signal.alarm(0)
        runs.close()
    assert seeds == list(range(1, 2 * SLOW))


@pytest.mark.parametrize("jobs", [1, 2])
def test_a_broker_that_is_killed_is_started_again(posix: Posix, whole: Whole, tmp_path: Path, jobs: int) -> None:
    ledger = tmp_path / "ledger"
    words = [str(word) for word in (sys.executable, RUN, "--no-record", *whole.words(ledger, "--jobs", jobs))]
    search = subprocess.Popen(words, stdout=subprocess.PIPE, stderr=subprocess.PIPE, text=True)
    while not (ledger.exists() and ledger.read_bytes().count(b"\n") > 1):
        time.sleep(0.002)
    for broker in children(search.pid):
        os.kill(broker, signal.SIGKILL)
    out, errors = search.communicate()
    whole.check(subprocess.CompletedProcess(words, search.returncode, out, errors), ledger)


def children(pid: int) -> list[int]:
    return [int(word) for word in Path(f"/proc/{pid}/task/{pid}/children").read_text().split()]


def test_a_task_at_which_brokers_die_ends_the_search(posix: Posix, monkeypatch: pytest.MonkeyPatch) -> None:
    runs = pool.Pool(setting_of(posix.remedy("lost_wakeup")), 1)
    deaths: list[int] = []

    def results(self: Broker, tasks: Iterator[Task], digest: bool) -> Iterator[tuple[Task, Result]]:
        self.ask([next(tasks)])
        deaths.append(self.pids()[0])
        os.kill(deaths[-1], signal.SIGKILL)
        raise Died("it has ended")
        yield

    monkeypatch.setattr(Broker, "results", results)
    try:
        with pytest.raises(pool.WorkerEnded, match="3 workers have died: it has ended"):
            list(runs.results(iter([Task(seed=1)])))
    finally:
        runs.close()
    assert len(deaths) == pool.DEATHS


# ---- numbers that are the same in every process


@pytest.mark.parametrize("name", RACES)
def test_the_numbers_of_runs_are_the_same_in_every_process(posix: Posix, name: str) -> None:
    found = []
    for _ in range(2):
        broker = Broker(setting_of(posix.race(name)))
        try:
            legs = [broker.result(Task(seed=seed)).legs for seed in range(1, 20)]
            found.append((legs, [point.state for point in broker.result(Task(switches=(), points=ALL_POINTS)).points]))
        finally:
            broker.close()
    assert found[0] == found[1]


EXECS = """
#include <sys/wait.h>
#include <unistd.h>

int
main(int argc, char **argv)
{
	int status;
	pid_t child = fork();

	if (child == 0 && argc > 1)
		execl(argv[1], "true", (char *)NULL);
	return (child <= 0 || waitpid(child, &status, 0) != child || status != 0);
}
"""


def numbers_of(errors: str) -> list[str]:
    return re.findall(r"1 runs, (\d+) questions, (\d+) steps", errors)


def test_the_numbers_of_a_run_are_the_same_however_long_the_host_takes(posix: Posix, tmp_path: Path) -> None:
    """An exec's file can't be opened as long as it has a lease."""
    source, program, file = tmp_path / "execs.c", tmp_path / "execs", tmp_path / "file"
    source.write_text(EXECS)
    assert posix.execute(CC, "-o", program, source).returncode == 0
    shutil.copy("/bin/true", file)
    wanted = numbers_of(posix.run("--figures", program, file).stderr)
    before = signal.signal(signal.SIGIO, lambda number, frame: None)
    lease = os.open(file, os.O_RDONLY)
    try:
        fcntl.fcntl(lease, fcntl.F_SETLEASE, fcntl.F_WRLCK)
        words = [sys.executable, str(RUN), "--no-record", "--figures", str(program), str(file)]
        with subprocess.Popen(words, stderr=subprocess.PIPE, text=True) as run:
            while run.poll() is None and fcntl.fcntl(lease, fcntl.F_GETLEASE) == fcntl.F_WRLCK:
                time.sleep(0.01)
            time.sleep(0.5)  # three looks at a thread that sleeps, and more
            fcntl.fcntl(lease, fcntl.F_SETLEASE, fcntl.F_UNLCK)
            errors = run.communicate()[1]
    finally:
        os.close(lease)
        signal.signal(signal.SIGIO, before)
    assert wanted and numbers_of(errors) == wanted, errors


def test_the_share_of_new_is_that_of_the_last_runs() -> None:
    sums = tally.Tally()
    for legs in [*range(50), *range(50), *range(25, 75)]:
        sums.add(1, Result(None, 2, 2, 2, "", "", 0, 0, 0, legs=legs))
    assert (len(sums.schedules), sums.share_of_new()) == (75, 25)
