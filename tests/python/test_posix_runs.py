"""A run of `tracehost-run` depends on its schedule only, and not on the runs before it or on the worker that makes it.

Cases, races, examples and small programs run plain and under seeds by one job and by three, in which each run has other ones
before it. What is printed has to be the same, and the status: the digests of all steps, answers and output, what failed,
and where; and no run is at fault itself. By default each eighth case runs, under few seeds; if TRACEHOST_TEST_SCALE is 20,
as in a nightly run, all do, under 20, and by priorities and preemptions too: more than 40,000 runs.
"""

from __future__ import annotations

import json
import os
import pathlib
import random
import re
import shutil
import subprocess
import sys

import pytest
from posix_kit import CC, POSIX, RACES, SCALE, Posix, cases
from posix_kit import RUN as RUNNER

RUN = [sys.executable, RUNNER, "--no-record"]
WHOLE = SCALE >= 20
SEEDS = 20 if WHOLE else 4
NEVER_THE_SAME = {  # a run depends on the host: on processor time, or on how long a call of the host sleeps
    "busy_threads",
    "compute_and_spin",
    "cpu_clock",
    "spin_on_flag",
    "stdio_on_pipe",
    "exec_of_shell",
}


def run(words: list[object], timeout: int = 900, **more: str) -> subprocess.CompletedProcess[bytes]:
    return subprocess.run([str(word) for word in words], capture_output=True, timeout=timeout, env={**os.environ, **more})


def sources() -> dict[str, tuple[str, list[str]]]:
    """Programs by their names: the source in clients/posix, and the compiler's flags."""
    found: dict[str, tuple[str, list[str]]] = {
        path.stem: (f"tests/{path.name}", []) for path in sorted((POSIX / "tests").glob("*_test.c"))
    }
    for name in RACES:
        found[f"race_{name}"], found[f"right_{name}"] = (f"races/{name}.c", []), (f"races/{name}.c", ["-DRIGHT"])
    for path in sorted((POSIX / "tests" / "programs").glob("*.c*")):
        flags = re.search(r"^ \* flags: (.*?) *$", path.read_text().partition("*/")[0], re.MULTILINE)
        found[f"program_{path.stem}"] = (f"tests/programs/{path.name}", flags[1].partition("|")[0].split() if flags else [])
    for name in ("examples/truss.c", "examples/traced.c", "tests/truss_interrupted.c"):
        found[pathlib.Path(name).stem] = (name, [])
    return found


SOURCES = sources()


def commands() -> list[list[str]]:
    """Each program with its arguments."""
    listed = [name.split(".") for name in cases()]
    programs = [[name] for name in SOURCES if name.startswith("program_") and name[len("program_") :] not in NEVER_THE_SAME]
    races = [[name] for name in SOURCES if name.startswith(("race_", "right_"))]
    examples = [["truss", "-f", "@traced"], ["truss_interrupted", "@truss"]]  # the debugger reads files of the host
    return (listed + programs if WHOLE else listed[::8] + programs[::4]) + races + examples


@pytest.fixture(scope="module")
def room(tmp_path_factory: pytest.TempPathFactory) -> pathlib.Path:
    return tmp_path_factory.mktemp("runs")


def built(posix: Posix, name: str) -> pathlib.Path:
    source, flags = SOURCES[name]
    if source.endswith(".cpp") and shutil.which("g++") is None:
        pytest.skip("g++ isn't here")
    return posix.compiled(source, *flags)


def words_of(posix: Posix, words: list[str]) -> list[object]:
    """The command, with its programs built."""
    program: list[object] = [built(posix, words[0])]
    return program + [built(posix, word[1:]) if word[0] == "@" else word for word in words[1:]]


def by_one_and_three(options: list[object], words: list[object]) -> tuple[int, bytes, bytes]:
    """What tracehost-run ends with, and prints, by one job and by three."""
    ends = []
    for jobs in (1, 3):
        done = run([*RUN, "--jobs", jobs, *options, *words])
        ends.append((done.returncode, done.stdout, done.stderr))
    assert ends[0] == ends[1]
    assert ends[0][0] in (0, 1) or b"nothing was tried" in ends[0][2], ends[0]  # by a program that makes no call
    return ends[0]


WAYS: dict[str, list[object]] = {"random": [], "pct": ["--strategy", "pct"], "preemptions": ["--preemptions", 2]}


@pytest.mark.parametrize("way", WAYS if WHOLE else ["random"])
@pytest.mark.parametrize("words", commands(), ids=".".join)
def test_each_run_is_the_same_after_others(posix: Posix, words: list[str], way: str) -> None:
    status, printed, _ = by_one_and_three([*WAYS[way], "--digest", "--schedules", SEEDS], words_of(posix, words))
    digests = re.findall(rb"^(?:plain|\d+) [0-9a-f]{16}$", printed, re.MULTILINE)
    assert len(digests) == SEEDS + 1 if status == 0 and way == "random" else len(digests) >= 1


STRATEGIES: list[list[object]] = [
    ["--strategy", "pct", "--schedules", 6 * SEEDS],
    ["--preemptions", 1, "--schedules", 15 * SEEDS],
    ["--calls", "--schedules", SEEDS],
    ["--strict", "--schedules", SEEDS],
    ["--sleeps", "last", "--schedules", SEEDS],
    ["--kill-on-debugger-exit", 0, "--schedules", SEEDS],
    ["--limit", 60, "--schedules", SEEDS],
]


@pytest.mark.parametrize("options", STRATEGIES, ids=[str(options[0]) for options in STRATEGIES])
@pytest.mark.parametrize(
    "name", ["race_lost_wakeup", "race_group_stop", "race_tracer_dies", "right_status_stolen", "right_step_over_breakpoint"]
)
def test_each_search_is_the_same_after_others(posix: Posix, name: str, options: list[object]) -> None:
    by_one_and_three(["--digest", *options], [built(posix, name)])


@pytest.mark.parametrize("name", [name for name in SOURCES if name.startswith("race_")])
def test_the_same_records(posix: Posix, room: pathlib.Path, name: str) -> None:
    """A failing run has the same files each time, and is run again from them."""
    seeds = 20 if name in ("race_attach_to_stopped", "race_stale_lwp") else 30
    files = []
    for jobs in (1, 3):
        record = room / str(jobs) / f"{name}.json"
        record.parent.mkdir(exist_ok=True)
        done = run([*RUN, "--jobs", jobs, "--schedules", seeds, "--record", record, built(posix, name)])
        assert done.returncode == 1, done.stderr
        files.append([(path.name, path.read_bytes()) for path in sorted(record.parent.glob(f"{name}.json*"))])
    assert files[0] == files[1]
    assert [kind for kind, _ in files[0]] == [f"{name}.json{kind}" for kind in ("", ".html", ".lines", ".schedule")]
    done = run([*RUN, "--replay", room / "1" / f"{name}.json"])
    assert (done.returncode, b"goes as recorded" in done.stderr) == (1, True), done.stderr


@pytest.mark.parametrize("name", ["race_lost_wakeup", "race_step_over_breakpoint"])
def test_several_jobs_print_the_same(posix: Posix, name: str) -> None:
    by_one_and_three(["--jobs", 3, "--schedules", 20], [built(posix, name)])


ASKS = {  # a statement of a program, and the question that it is
    "getpid();": "call",
    "getppid();": "getppid",
    "sched_yield();": "yield",
    "kill(getppid(), 0);": "getppid kill",
    "raise(SIGWINCH);": "thr_kill",
    "signal(SIGUSR1, SIG_IGN);": "action",
    "close(-1);": "io",
    "alarm(100);": "timer",
    "waitpid(-1, 0, WNOHANG);": "wait",
    "nanosleep(&none, 0);": "sleep",
    "ptrace(PT_CONTINUE, 1, (caddr_t)1, 0);": "ptrace",
    "sigprocmask(SIG_BLOCK, &one, 0);": "mask",
}
HEAD = """#include <sys/types.h>
#include <sys/ptrace.h>
#include <sys/wait.h>
#include <sched.h>
#include <signal.h>
#include <time.h>
#include <unistd.h>
int main(void) { struct timespec none = {0, 0}; sigset_t one; sigemptyset(&one); sigaddset(&one, SIGUSR2); """


def test_the_table_of_calls(posix: Posix, room: pathlib.Path) -> None:
    """The broker's table says which steps a call makes that doesn't wait: a run has just these."""
    posix.compiled("examples/traced.c")  # the broker is built
    table = dict(
        line.split("\t")[0::2][:2] for line in run([POSIX / "build" / "tracehost-broker", "--calls"]).stdout.decode().splitlines()
    )
    (room / "calls.c").write_text(f"{HEAD}{' '.join(ASKS)} return 0; }}\n")
    assert run([CC, "-w", "-o", room / "calls", room / "calls.c"]).returncode == 0
    assert run([*RUN, "--record", room / "calls.json", room / "calls"]).returncode == 0
    steps = json.loads((room / "calls.json").read_text())["steps"]
    made = [step["act"] if step["op"] == "turn" else step["op"] for step in steps]
    questions = ["hello", *" ".join(ASKS.values()).split(), "exit"]
    assert made == ["spawn", *(word for name in questions for word in table[name].split())]


def test_the_page_has_the_table_of_calls(posix: Posix) -> None:
    """docs/POSIX.md has each call of the broker's table that isn't only a look, with its code, steps and topics."""
    posix.compiled("examples/traced.c")  # the broker is built
    made = []
    for line in run([POSIX / "build" / "tracehost-broker", "--calls"]).stdout.decode().splitlines():
        _, code, steps, *topics, of = line.split("\t")
        if any([steps, *topics]):
            made.append([of, steps.replace("enter", f"enter {code}") if code != "0" else steps, *topics])
    page = (
        (POSIX.parents[1] / "docs" / "POSIX.md").read_text().partition("<!-- tools/pages calls -->")[2].partition("<!-- end -->")[0]
    )
    rows = [[cell.strip(" `") for cell in row.strip("|").split("|")] for row in page.split("\n") if row.startswith("|")]
    assert rows[2:] == made and len(made) > 40


DRAWS = """
#include <stdio.h>
#include <stdlib.h>
#include "twister.h"
int main(int count, char **words)
{
	struct twister t;
	unsigned long seed = strtoul(words[1], NULL, 10);
	unsigned key[] = {(unsigned)seed, (unsigned)(seed >> 32)};
	seed_twister(&t, key, key[1] == 0 ? 1 : 2);
	for (int i = 0; i < 2000; i++) {
		printf("%.17g ", draw(&t));
		printf("%u\\n", draw_below(&t, i % 97 + 1));
	}
	return count != 2;
}
"""


@pytest.mark.parametrize("seed", [1, 2, 4294967295, 4294967296, (1 << 62) - 1])
def test_a_seed_draws_the_numbers_of_the_mersenne_twister(tmp_path: pathlib.Path, seed: int) -> None:
    """Those of Python's `random`, which has the same generator: so a seed is the same schedule on each machine."""
    (tmp_path / "draws.c").write_text(DRAWS)
    broker = POSIX / "broker"
    done = run(["cc", "-I", broker, "-o", tmp_path / "draws", tmp_path / "draws.c", broker / "twister.c"])
    assert done.returncode == 0, done.stderr
    drawn = run([tmp_path / "draws", seed]).stdout.decode().splitlines()
    expected = random.Random(seed)
    assert drawn == [f"{expected.random():.17g} {expected.choice(range(i % 97 + 1))}" for i in range(2000)]
