"""When a thread that makes no call hangs, or is made to ask: by what it has had of a processor, or slept. How busy the host is
doesn't matter, nor what a virtual machine's host takes away of its time."""

from __future__ import annotations

import os
import re
import shutil
import subprocess
import sys
import time
from collections.abc import Iterator
from contextlib import contextmanager
from pathlib import Path

import pytest
from checking import TOP
from posix_kit import CC, POSIX, RUN, Done, Posix

COMPUTES = "#include <time.h>\nint main(void) { while (clock() < 1.5 * CLOCKS_PER_SEC) ; return 0; }\n"
EXECUTES = (
    "#include <sys/wait.h>\n#include <unistd.h>\n"
    "int main(int c, char **v) { int s; pid_t p = fork();\n"
    "if (p == 0) { execv(v[1], v + 1); _exit(99); } return waitpid(p, &s, 0) != p || s != 0; }\n"
)
LEAKS = "#include <unistd.h>\nint main(void) { return getpid() == 0; }\n"


LOCKS = (
    "#include <sys/file.h>\n#include <sys/wait.h>\n#include <fcntl.h>\n#include <unistd.h>\n"
    "int main(int c, char **v) { int s, lock = open(v[1], O_RDWR | O_CREAT, 0666); pid_t p = fork();\n"
    'if (p == 0) { execl("/bin/sh", "sh", "-c", "(./holds $1 $2 &) | read line", "sh", v[1], v[2], (char *)0); _exit(99); }\n'
    "return waitpid(p, &s, 0) != p || s != 0 || flock(lock, LOCK_EX) != 0; }\n"
)
"""It waits in the host for a lock that a program in the background has."""
HOLDS = (
    "#include <sys/file.h>\n#include <fcntl.h>\n#include <stdlib.h>\n#include <time.h>\n#include <unistd.h>\n"
    "int main(int c, char **v) { struct timespec time = {0, atol(v[2]) * 1000000};\n"
    'if (flock(open(v[1], O_RDWR), LOCK_EX) != 0) return 1; write(1, "locked\\n", 7); close(1);\n'
    "if (vfork() == 0) { nanosleep(&time, 0); _exit(0); } return 0; }\n"
)
"""It is in a call of the host's that no signal ends, for so many milliseconds: as one that has no processor, or waits for a disk."""

WAITS = "#include <unistd.h>\nint main(void) { pause(); return 0; }\n"
BEGINS_ONCE = (
    "#include <fcntl.h>\n#include <unistd.h>\n__attribute__((constructor)) static void begin(void)\n"
    '{ while (open("begun", O_CREAT | O_EXCL | O_WRONLY, 0600) < 0) sleep(1000); }\n'
)
"""A library whose second copy waits for ever, before the program's runtime begins."""


@pytest.fixture(scope="module")
def room(posix: Posix, tmp_path_factory: pytest.TempPathFactory) -> Path:
    """A folder with programs: those of tracehost-cc, and others."""
    folder = tmp_path_factory.mktemp("patience")
    programs = {
        "computes": ("cc", COMPUTES),
        "holds": ("cc", HOLDS),
        "executes": (CC, EXECUTES),
        "locks": (CC, LOCKS),
        "waits": (CC, WAITS),
    }
    for name, (compiler, text) in programs.items():
        (folder / f"{name}.c").write_text(text)
        done = posix.execute(compiler, "-w", "-D_GNU_SOURCE", "-o", folder / name, folder / f"{name}.c")
        assert done.returncode == 0, done.stderr
    return folder


def run(*words: object, cwd: Path, processor: int | None = None) -> Done:
    """tracehost-run, on one processor if one is given."""
    return subprocess.run(
        [sys.executable, str(RUN), "--no-record", *map(str, words)], cwd=cwd, stdin=subprocess.DEVNULL, capture_output=True,
        text=True, timeout=600, check=False,
        preexec_fn=None if processor is None else lambda: os.sched_setaffinity(0, [processor]),
    )  # fmt: skip


@contextmanager
def busy(loops: int) -> Iterator[int]:
    """A processor, which so many others use too."""
    processor = min(os.sched_getaffinity(0))
    words = [sys.executable, "-c", f"import os; os.sched_setaffinity(0, [{processor}])\nwhile os.getppid() == {os.getpid()}: pass"]
    others = [subprocess.Popen(words) for _ in range(loops)]
    try:
        yield processor
    finally:
        for other in others:
            other.kill()
            other.wait()


def test_a_program_without_the_runtime_that_has_no_processor_does_not_hang(room: Path) -> None:
    """It takes more than the patience, and less of a processor."""
    with busy(4) as processor:
        began = time.monotonic()
        done = run("--patience", 5, "./executes", "./computes", cwd=room, processor=processor)
        assert time.monotonic() - began > 5
    assert (done.returncode, done.stderr) == (0, "")


@pytest.mark.parametrize("text", ["while :; do :; done", "sleep 100", "sleep 100 & wait"])
def test_one_that_computes_or_sleeps_for_longer_hangs(room: Path, text: str) -> None:
    done = run("--patience", 1, "./executes", "/bin/sh", "-c", text, cwd=room)
    assert done.returncode == 1 and "hang: 1001/100001 has made no call for 1 s" in done.stderr, done.stderr
    assert "1001/100001 in a program without the runtime; that was its last call" in done.stderr


@pytest.mark.parametrize("text", ["sleep 100", "sleep 100 & wait"])
def test_one_that_has_started_a_process_of_the_model_hangs_as_early(room: Path, text: str) -> None:
    """The quickest of three runs each."""
    took: dict[str, list[float]] = {text: [], f"./waits & {text}": []}
    for _ in range(3):
        for command, times in took.items():
            began = time.monotonic()
            done = run("--patience", 3, "./executes", "/bin/sh", "-c", command, cwd=room)
            times += [time.monotonic() - began]
            assert done.returncode == 1 and "hang: 1001/100001 has made no call for 3 s" in done.stderr, done.stderr
    alone, beside = [min(times) for times in took.values()]
    assert beside < 1.1 * alone, took


@pytest.mark.parametrize("command", ["./begins; exit 0", "./begins & wait", "./begins | ./waits"])
def test_a_started_program_that_never_begins_is_no_verdict(posix: Posix, room: Path, command: str) -> None:
    (room / "once.c").write_text(BEGINS_ONCE)
    (room / "begun").unlink(missing_ok=True)
    (room / "libonce.so").unlink(missing_ok=True)
    linked = [f"-L{room}", "-Wl,--no-as-needed", "-lonce", f"-Wl,-rpath,{room}"]
    for words in (
        ["cc", "-shared", "-o", room / "libonce.so", room / "once.c"],
        [CC, "-o", room / "begins", room / "waits.c", *linked],
    ):
        done = posix.execute(*words, "-w", "-fPIC")
        assert done.returncode == 0, done.stderr
    done = run("--patience", 1, "./executes", "/bin/sh", "-c", command, cwd=room)
    assert done.returncode == 3, done.stderr
    assert f"{room}/begins, which a program without the runtime has started in 1001, has said nothing for 1 s" in done.stderr


def test_the_calls_of_one_take_no_patience(room: Path) -> None:
    """They come faster than the thread is looked at."""
    text = "i=0; while [ $i -lt 1000 ]; do kill -0 $PPID || exit 1; i=$((i + 1)); done"
    done = run("--patience", 5, "./executes", "/bin/sh", "-c", text, cwd=room)
    assert (done.returncode, done.stderr) == (0, "")


@pytest.mark.parametrize("first", [True, False], ids=["first image", "later image"])
@pytest.mark.parametrize("compiler", ["gcc", "clang"])
def test_a_look_for_leaks_is_no_part_of_a_schedule(posix: Posix, room: Path, compiler: str, first: bool) -> None:
    """However long the sanitizer's process takes, for which the thread spins."""
    (room / "leaks.c").write_text(LEAKS)
    words = ["-w", "-fsanitize=address", "-o", room / f"leaks_{compiler}", room / "leaks.c"]
    if shutil.which(compiler) is None or posix.execute(compiler, *words).returncode != 0:
        pytest.skip(f"no {compiler} with sanitizers is here")
    assert posix.execute("env", f"CC={compiler}", CC, *words).returncode == 0
    command = [*([] if first else ["./executes"]), f"./leaks_{compiler}"]
    quiet = run("--digest", "--figures", *command, cwd=room)
    assert quiet.returncode == 0, quiet.stderr
    with busy(3) as processor:
        for _ in range(5):
            done = run("--digest", "--figures", *command, cwd=room, processor=processor)
            assert (done.returncode, done.stdout) == (0, quiet.stdout), done.stderr


def test_one_that_sleeps_for_another_that_is_held_up_is_not_asked(room: Path) -> None:
    """Such a run hasn't come to rest, however long it takes."""
    runs = []
    for milliseconds in (0, 900):
        began = time.monotonic()
        done = run("--digest", "./locks", room / "lock", milliseconds, cwd=room)
        assert time.monotonic() - began > milliseconds / 1e3
        runs.append((done.returncode, done.stdout, done.stderr))
    assert runs[0] == runs[1] and runs[0][0] == 0, runs


# ---- a host that takes processors away from a virtual machine: its kernel counts that as the thread's time

Plant = tuple[str, str, str]
"""A file of broker or runtime, a text that it has once, and what is there instead."""
SET_TICK = "\t{ struct itimerspec t = {{0, %d000}, {0, %d000}}; timer_settime(own.tick, 0, &t, NULL); }\n"


def ticks_each(microseconds: int) -> list[Plant]:
    """A thread has a tick so often by the clock, while it doesn't wait for an answer: the time before is taken away from it."""
    asks, goes_on = "\town.questions++;\n", "\ttracehost_go_on(steps, lands);\n"
    return [
        ("runtime/ticks.c", "timer_create(CLOCK_THREAD_CPUTIME_ID", "timer_create(CLOCK_MONOTONIC"),
        ("runtime/ticks.c", "every = {{0, TICK_MS * 1000000}, {0, TICK_MS * 1000000}}", "every = {{0, 0}, {0, 0}}"),
        ("runtime/link.c", asks, asks + SET_TICK % (0, 0)),
        ("runtime/link.c", goes_on, goes_on + SET_TICK % (microseconds, microseconds)),
    ]


SECONDS_ARE_TAKEN: Plant = (
    "runtime/ticks.c", "return used.tv_sec * 1000 + used.tv_nsec / 1000000;", "static __thread long taken; return 1000 * ++taken + used.tv_sec;",
)  # fmt: skip
STOLEN: dict[str, tuple[list[Plant], Plant]] = {
    "often at one place": (ticks_each(20), ("runtime/ticks.c", "begin_steps(general(context));", 'return "poke 2";')),
    "for long": ([*ticks_each(500), SECONDS_ARE_TAKEN], ("runtime/ticks.c", "had < LATEST_MS ? had : LATEST_MS", "had")),
}
"""How it is taken away; and a change of the rule that then is seen."""


PROGRAMS: dict[str, list[str]] = {"tests/events_test.c": ["exec_leaves_one_lwp"], "races/stop_lost_at_detach.c": []}
"""Those that don't spin, with their words."""


def changed_files(plants: list[Plant], room: Path) -> Path:
    """A folder as clients/posix, with these changes."""
    for top, folder in ((TOP, room), (TOP / "clients", room / "clients")):
        folder.mkdir(exist_ok=True)
        for path in top.iterdir():
            if not path.name.startswith(".") and path not in (TOP / "clients", POSIX):
                (folder / path.name).symlink_to(path)
    made = Path(shutil.copytree(POSIX, room / "clients" / "posix", symlinks=True))
    for name, old, new in plants:
        source = made / name
        text = source.read_text()
        assert text.count(old) == 1, f"{name} has no {old!r} any more"
        source.write_text(text.replace(old, new))
    return made


@pytest.mark.parametrize("is_seen", [False, True], ids=["as it is", "another rule"])
@pytest.mark.parametrize("how", STOLEN)
def test_time_that_a_host_takes_away_changes_no_schedule(posix: Posix, tmp_path: Path, how: str, is_seen: bool) -> None:
    """And what is taken away here is enough for a rule that believes the host's kernel to change some."""
    posix.compiled("examples/traced.c")  # the runtime is built
    plants, other_rule = STOLEN[how]
    changed = changed_files([*plants, *([other_rule] if is_seen else [])], tmp_path / "changed") / CC.name
    printed: dict[Path, list[str]] = {}
    for compiler in (CC, changed):
        printed[compiler] = []
        for source, case in PROGRAMS.items():
            program = tmp_path / "program"
            done = posix.execute(compiler, "-g", "-w", "-DRIGHT", "-o", program, POSIX / source, seconds=1200)
            assert done.returncode == 0, done.stderr
            done = posix.run("--digest", "--schedules", 20, program, *case)
            assert done.returncode == 0, done.stderr
            printed[compiler] += re.findall(r"^(?:plain|\d+) [0-9a-f]{16}$", done.stdout, re.MULTILINE)
    assert len(printed[CC]) == len(printed[changed]) == 2 * 21
    assert (printed[CC] != printed[changed]) == is_seen


COMPUTES_SHORTLY = "#include <unistd.h>\nint main(void) { for (volatile long i = 0; i < 15000000; i++) ; return getppid() == 0; }\n"
"""For less than the time after which it would be made to ask."""
TOLD_AS_ASLEEP: Plant = (
    "broker/watch.c",
    "\tif (letter == 'D' &&",
    "\tif (letter == 'R')\n\t\tletter = 'S';\n\tif (letter == 'D' &&",
)
"""As a kernel tells a thread that loses its processor in the midst of wait4(2)."""
BELIEVED: Plant = (
    "broker/watch.c",
    "if (letter == 'S' && !sleeps_somewhere(pid, tid))",
    "if (false && !sleeps_somewhere(pid, tid))",
)


@pytest.mark.parametrize("is_seen", [False, True], ids=["as it is", "another rule"])
def test_one_without_a_processor_that_is_told_as_asleep_is_not_asked(posix: Posix, tmp_path: Path, is_seen: bool) -> None:
    posix.compiled("examples/traced.c")  # the runtime is built
    changed = changed_files([TOLD_AS_ASLEEP, *([BELIEVED] if is_seen else [])], tmp_path / "changed")
    (tmp_path / "computes.c").write_text(COMPUTES_SHORTLY)
    done = posix.execute(changed / CC.name, "-O0", "-o", tmp_path / "computes", tmp_path / "computes.c", seconds=1200)
    assert done.returncode == 0, done.stderr
    quiet = posix.run("--digest", tmp_path / "computes")
    with busy(8) as processor:
        told = subprocess.run(
            ["taskset", "-c", str(processor), sys.executable, str(changed / RUN.name), "--no-record", "--digest", tmp_path / "computes"],
            stdin=subprocess.DEVNULL, capture_output=True, text=True, timeout=600, check=False,
        )  # fmt: skip
    assert (told.returncode, quiet.returncode) == (0, 0), told.stderr
    assert (told.stdout != quiet.stdout) == is_seen
