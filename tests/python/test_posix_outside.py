"""Programs that nobody here wrote, on the model: Debian's `posixtestsuite`, the Open POSIX Test Suite, and `libunwind`.

Their source packages are downloaded into a folder of its own, and nothing of them stays; `POSIXTESTSUITE` and `LIBUNWIND`
may name unpacked ones. Each program of the suite's interfaces below runs plain and under 20 seeds. All have to pass, except
those of clients/posix/tests/OUTSIDE.txt, which have the result and the reason that it names. libunwind is configured
for FreeBSD and built, and its test-ptrace prints a backtrace at each instruction of a program. All this takes a quarter
of an hour: it runs if `TRACEHOST_OUTSIDE_SUITE` is 1. If source packages can't be had the tests are skipped. Programs that
would set the clock are left out, and nothing here runs as root.
"""

from __future__ import annotations

import json
import os
import pathlib
import re
import subprocess
import sys
from collections.abc import Iterator
from concurrent.futures import ThreadPoolExecutor
from typing import NamedTuple

import pytest
from outside_programs import SUITE, Outside, outside_room
from posix_kit import POSIX, once, shared_folder

TABLE = POSIX / "tests" / "OUTSIDE.txt"
SCHEDULES = 20
PASSING = 1000
"""At least so many pass plain and under all seeds, or fail only by a race of their own."""
INTERFACES = re.compile(
    r"sig.*|raise|kill|killpg|fork|getpid|sem_.*|nanosleep|clock_.*|time|sched_yield|timer_.*"
    r"|pthread_(atfork|create|join|exit|detach|kill|self|equal|once|key.*|[gs]etspecific|cleanup.*|mutex.*|cond.*|barrier.*"
    r"|rwlock.*|spin.*|cancel|testcancel|setcancel.*|sigmask|attr_.*)"
)
SETS_THE_CLOCK = re.compile(r"clock_settime|settimeofday|adjtime")
RESULTS = {
    "compile",
    "fail",
    "unresolved",
    "unsupported",
    "untested",
    "refused",
    "end",
    "deadlock",
    "hang",
    "slow",
    "seeds",
    "varies",
}
"""`seeds`: it passes plain, and fails under a seed. `varies`: with the machine or its load."""
STATUSES = {"1": "fail", "255": "fail", "2": "unresolved", "4": "unsupported", "5": "untested"}

pytestmark = pytest.mark.skipif(
    not SUITE,
    reason="TRACEHOST_OUTSIDE_SUITE=1 runs the outside suite, in a quarter of an hour",
)


class Expected(NamedTuple):
    result: str
    reason: str


def expected() -> dict[str, Expected]:
    """The programs that don't simply pass."""
    rows = (line.split() for line in TABLE.read_text().splitlines() if line and line[0] != "#")
    return {name: Expected(result, reason) for name, result, reason in rows}


def result(done: subprocess.CompletedProcess[str]) -> str:
    """What came of a search of `tracehost-run`, in a word."""
    if re.search(r"^tracehost-run: \d+ schedules passed", done.stderr, re.MULTILINE):
        return "pass"  # also of one that makes no call, whose status is 4
    why = re.search(r"fails under (the plain schedule|--seed \d+), after \d+ schedules that passed: (.*)", done.stderr)
    if why is None:
        return f"status {done.returncode}: {done.stderr.strip()[-300:]}"
    if why[1] != "the plain schedule":
        return "seeds"
    exited = re.search(r"exited with status (\d+)", why[2])
    if exited is not None:
        return STATUSES.get(exited[1], why[2])
    words = {"which isn't among the calls": "refused", "no end": "end", "deadlock": "deadlock", "hang": "hang"}
    return next((word for text, word in words.items() if text in why[2]), why[2])


def run_one(outside: Outside, suite: pathlib.Path, source: pathlib.Path) -> str:
    """Compiles a program and runs it."""
    program = outside.room / f"{source.parent.name}_{source.stem}"
    flags = ["-g", "-w", "-std=gnu99", "-include", outside.room / "sigpoll.h", "-I", suite / "include", "-I", source.parent]
    if outside.run([POSIX / "tracehost-cc", *flags, "-o", program, source, "-lrt", "-lm"]).returncode != 0:
        return "compile"
    try:
        return result(outside.run([sys.executable, POSIX / "tracehost-run", "--patience", "5", "--schedules", SCHEDULES, program]))
    except subprocess.TimeoutExpired:
        return "slow"
    finally:
        program.unlink()


@pytest.fixture(scope="module")
def outside(program: pathlib.Path) -> Iterator[Outside]:
    yield from outside_room(program)


def all_results(outside: Outside) -> dict[str, str]:
    suite = outside.source("posixtestsuite")
    # FreeBSD has SIGIO, and not its other name
    (outside.room / "sigpoll.h").write_text("#define SIGPOLL SIGIO\n")
    sources = [path for path in sorted(suite.glob("conformance/interfaces/*/*.c")) if INTERFACES.fullmatch(path.parent.name)]
    sources = [path for path in sources if re.fullmatch(r"\d+-\d+(-buildonly)?", path.stem)]
    sources = [path for path in sources if not SETS_THE_CLOCK.search(path.read_text(errors="replace"))]
    with ThreadPoolExecutor(max(1, len(os.sched_getaffinity(0)) // 2)) as pool:
        found = pool.map(lambda source: run_one(outside, suite, source), sources)
        return {f"{source.parent.name}/{source.stem}": word for source, word in zip(sources, found)}


@pytest.fixture(scope="module")
def results(outside: Outside, tmp_path_factory: pytest.TempPathFactory) -> dict[str, str]:
    """What came of each program, by `INTERFACE/FILE`. One worker of pytest runs them all."""
    file = shared_folder(tmp_path_factory) / "outside.json"
    once(file, lambda: file.write_text(json.dumps(all_results(outside))))
    found: dict[str, str] = json.loads(file.read_text())
    return found


def test_the_table_says_what_each_reason_is() -> None:
    said = set(re.findall(r"^#   ([a-zA-Z_-]+): ", TABLE.read_text(), re.MULTILINE))
    for name, row in expected().items():
        assert row.result in RESULTS and row.reason in said, name
    assert said == {row.reason for row in expected().values()}


def test_all_have_the_results_of_the_table(results: dict[str, str]) -> None:
    rows = expected()
    wanted = {name: rows[name].result if name in rows else "pass" for name in results}
    differ = [
        f"{name}: {found} instead of {wanted[name]}" for name, found in results.items() if wanted[name] not in (found, "varies")
    ]
    assert not differ, "\n".join(differ)


def test_the_table_names_no_other_program(results: dict[str, str]) -> None:
    assert expected().keys() <= results.keys()


def test_enough_pass(results: dict[str, str]) -> None:
    """Those that fail under a seed count only if the table says that they have a race of their own."""
    races = {name for name, row in expected().items() if (row.result, row.reason) == ("seeds", "race")}
    assert sum(word == "pass" or name in races and word == "seeds" for name, word in results.items()) >= PASSING


STEPPED = """\
static volatile int signals;
static void handler(int number) { signals += number == SIGUSR1; }
int two(int x) { return x + 2; }
int three(int x) { return two(x) + 3; }
int main(int argc, char **argv)
{
	signal(SIGUSR1, handler);
	signal(SIGUSR2, handler);
	kill(getpid(), SIGUSR1); /* test-ptrace steps from here to the other signal */
	int result = three(argc) - 6;
	kill(getpid(), SIGUSR2);
	return result + (signals != 1);
}
"""


def test_ptrace_of_libunwind_prints_its_backtraces(outside: Outside) -> None:
    source, room = outside.source("libunwind"), outside.room
    compiler = str(POSIX / "tracehost-cc")
    (room / "stepped.c").write_text(STEPPED)
    done = outside.run([compiler, "-g", "-O1", "-fno-inline", "-o", room / "stepped", room / "stepped.c"])
    assert done.returncode == 0, done.stderr
    options = [
        "--host=x86_64-unknown-freebsd14",
        "--disable-shared",
        "--disable-minidebuginfo",
        "--disable-coredump",
        "--disable-cxx-exceptions",
    ]
    build = f"""mkdir build && cd build && {source}/configure {" ".join(options)} --disable-documentation CC='{compiler} --freebsd' \
        CFLAGS='-g -O1 -w' && make -C src && make -C tests test-ptrace"""
    done = outside.run(["sh", "-c", build], 3000)
    assert done.returncode == 0, done.stdout[-2000:] + done.stderr[-2000:]
    run = [sys.executable, POSIX / "tracehost-run", "--limit", 10**7]
    command = [room / "build" / "tests" / "test-ptrace", "-v", "-c", "-t", room / "stepped"]
    done = outside.run([*run, *command])
    assert done.returncode == 0 and done.stdout.endswith("SUCCESS\n"), done.stdout[-2000:] + done.stderr
    frames = [re.findall(r"^[0-9a-f]{16} (\w+)", trace, re.MULTILINE) for trace in done.stdout.split("================")]
    assert ["two", "three", "main"] in [names[:3] for names in frames]
    assert all(names[-1] == "_start" for names in frames if names)
    done = outside.run([*run, "--schedules", 5, *command], 600)
    assert done.returncode == 0 and "6 schedules passed" in done.stderr, done.stderr
