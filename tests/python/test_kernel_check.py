"""`kernel/check`: the library that logs a program's calls, and `tracehost-check`, which explains such a log by the model.

Logs of recorded runs have an explanation: the record's own turns. Programs are logged on this host's kernel.
"""

from __future__ import annotations

import os
import re
import resource
import shutil
import signal
import subprocess
import sys
from collections.abc import Callable, Sequence
from pathlib import Path
from typing import Optional

import pytest

from checking import TOP, needs
from log_checker import CHECK, ROOT, Checker, Verdict, recorded
from posix_kit import RACES, SCALE, Posix, once, shared_folder

TABLE = "name\tstep\tcondition\tmodel\tkernel\tthen\twhy\twhere\n"


@pytest.fixture
def checker(library: Path, tmp_path: Path) -> Checker:
    return Checker(library, tmp_path)


@pytest.fixture(scope="module")
def logger(tmp_path_factory: pytest.TempPathFactory) -> Path:
    """libtracehost-log.so, by the system's compiler, without a warning."""
    made = shared_folder(tmp_path_factory) / "libtracehost-log.so"
    return once(made, lambda: compile_c(LOGGER, made, *LIBRARY))


@pytest.fixture(scope="module")
def tracer(tmp_path_factory: pytest.TempPathFactory) -> Path:
    made = shared_folder(tmp_path_factory) / "tracer"
    return once(made, lambda: compile_c([CHECK / "tests/tracer.c"], made))


LOGGER = [CHECK / name for name in ("tracehost-log.c", *(f"log-{part}.c" for part in ("calls", "requests", "signals", "words")))]
LIBRARY = ["-O2", "-std=gnu11", "-fPIC", "-shared"]


def compile_c(sources: Sequence[Path], made: Path, *flags: str, compiler: str = "cc") -> None:
    words = [compiler, "-g", "-Wall", "-Wextra", "-Werror", *flags, "-pthread", "-o", str(made), *map(str, sources)]
    done = subprocess.run(words, capture_output=True, text=True, check=False)
    assert done.returncode == 0, done.stderr


def logged(
    logger: Path, log: Path, *words: object, status: int = 0, setup: Optional[Callable[[], None]] = None, **more: str
) -> subprocess.CompletedProcess[str]:
    """Runs a program on this host's kernel, whose calls are logged."""
    environment = {**os.environ, "TRACEHOST_LOG": str(log), "LD_PRELOAD": str(logger), **more}
    done = subprocess.run(
        [str(word) for word in words], env=environment, capture_output=True, text=True, timeout=120, check=False, preexec_fn=setup
    )
    assert done.returncode == status, done.stderr
    return done


# ---- logs of recorded runs


@needs("cc")
@pytest.mark.parametrize("race", RACES)
def test_logs_of_races(posix: Posix, checker: Checker, tmp_path: Path, race: str) -> None:
    ways: list[list[str]] = [[], ["-DRIGHT"]]
    for flags in ways:
        for seed in range(3 * SCALE):
            lines = recorded(posix, tmp_path, f"races/{race}.c", flags=flags, seed=seed)
            assert len(lines) > 10
            verdict = checker.of_text("\n".join([*lines, ""]))
            assert verdict.status == 0 and verdict.text.startswith("explained"), verdict.text


@needs("cc")
def test_log_of_a_truss(posix: Posix, checker: Checker, tmp_path: Path) -> None:
    """Stops at the entries and exits of calls, forks that are followed, and threads."""
    traced = posix.compiled("examples/traced.c")
    lines = recorded(posix, tmp_path, "examples/truss.c", "-f", "-o", "/dev/null", str(traced), seed=1)
    verdict = checker.of_text("\n".join([*lines, ""]))
    assert verdict.status == 0, verdict.text
    wrong = [line.replace("flags=PL_FLAG_EXITED", "flags=PL_FLAG_BORN") for line in lines]
    verdict = checker.of_text("\n".join([*wrong, ""]))
    assert (verdict.status, verdict.line) == (1, 1 + next(at for at, line in enumerate(lines) if line != wrong[at]))


# ---- what is said


def test_a_refusal_is_explained(checker: Checker) -> None:
    log = f"""{ROOT}1/1 1 asks fork
1/1 1 told 20
1/1 2 asks ptrace request=PT_ATTACH pid=20
1/1 2 told 0
1/1 3 asks ptrace request=PT_CONTINUE pid=20 data=0
1/1 3 told 0
"""
    verdict = checker.of_text(log)
    assert (verdict.status, verdict.line) == (1, 7)
    assert "ptrace(PT_CONTINUE, 20) by 1: EBUSY, no wait has reported the stop of 20" in verdict.text
    assert "it was asked in line 6" in verdict.text


def test_hidden_turns_are_counted(checker: Checker) -> None:
    log = f"""{ROOT}1/1 1 asks fork
1/1 1 told 20
1/1 2 asks kill pid=20 signal=SIGTERM
1/1 2 told 0
1/1 3 asks wait4 pid=-1 options=-
1/1 3 told 20 status=signaled:SIGTERM
1/1 4 asks exit code=0
"""
    assert checker.of_text(log) == Verdict(0, None, "explained, 1 hidden turn, 3 answers\n")


def test_calls_that_the_model_lacks(checker: Checker) -> None:
    log = f"""{ROOT}1/1 1 asks ptrace request=PTRACE_SEIZE pid=20
1/1 1 told 0
1/1 2 asks ptrace request=PT_READ_D pid=20
1/1 2 told 0
1/1 3 asks wait4 pid=-1 options=-
1/1 3 told 20 status=stopped:SIGTRAP
1/1 4 asks kill pid=7 signal=SIGTERM
1/1 4 told -1 errno=ESRCH
"""
    verdict = checker.of_text(log)
    assert verdict.text.startswith("explained, except 3 calls that the model doesn't have, 0 hidden turns, 1 answer\n")
    assert verdict.status == 0


def test_children_of_such_processes(checker: Checker) -> None:
    """Who is traced in a way that the model lacks, and each child, is left out; other calls aren't."""
    log = f"""{ROOT.replace("model", "Linux")}1/1 1 asks fork
1/1 1 told 20
1/1 2 asks ptrace request=PTRACE_SEIZE pid=20
1/1 2 told 0
20/20 0 begins fork=1/1.1
20/20 1 asks fork
20/20 1 told 21
1/1 3 asks wait4 pid=-1 options=0x40000000
1/1 3 told 21 status=stopped:SIGTRAP event=stop
1/1 4 asks ptrace request=PT_SYSCALL pid=21 data=0
1/1 4 told 0
20/20 2 asks exit code=0
1/1 5 asks wait4 pid=-1 options=-
1/1 5 told 20 status=exited:0
1/1 6 asks kill pid=1 signal=0
1/1 6 told {{answer}}
"""
    right = checker.of_text(log.format(answer=0))
    assert right.status == 0 and right.text.startswith("explained, except 4 calls "), right.text
    wrong = checker.of_text(log.format(answer="-1 errno=ESRCH"))
    assert (wrong.status, wrong.line) == (1, 17), wrong.text


def test_a_signal_that_no_call_sends(checker: Checker) -> None:
    """A trap needs no call; SIGUSR1 does."""
    log = f"{ROOT}1/1 1 asks fork\n1/1 1 told 20\n1/1 2 asks wait4 pid=20 options=-\n1/1 2 told 20 status=signaled:SIGSEGV\n"
    verdict = checker.of_text(log)
    assert verdict.status == 0 and "1 signal that no call of the log has sent" in verdict.text
    verdict = checker.of_text(log.replace("SIGSEGV", "SIGUSR1"))
    assert (verdict.status, verdict.line) == (1, 5)


def test_a_kernel_may_be_late(checker: Checker) -> None:
    """There SIGKILL and an attach take effect after the call; in the model at once."""
    log = f"""{ROOT}1/1 1 asks fork
1/1 1 told 20
20/20 0 begins fork=1/1.1
1/1 2 asks ptrace request=PT_ATTACH pid=20
1/1 2 told 0
20/20 1 asks sigaction signal=SIGUSR1 action=catch
20/20 1 told 0
1/1 3 asks wait4 pid=20 options=-
1/1 3 told 20 status=stopped:SIGSTOP
1/1 4 asks kill pid=20 signal=SIGKILL
1/1 4 told 0
1/1 5 asks wait4 pid=20 options=WNOHANG
1/1 5 told 0
1/1 6 asks wait4 pid=20 options=-
1/1 6 told 20 status=signaled:SIGKILL
"""
    for system in ("Linux", "FreeBSD"):
        assert checker.of_text(log.replace("system=model", f"system={system}")).status == 0
    verdict = checker.of_text(log)
    assert (verdict.status, verdict.line) == (1, 7), verdict.text
    assert "a debugger has stopped 20 by SIGSTOP" in verdict.text


def test_a_signal_to_a_group(checker: Checker) -> None:
    """The model has no groups: the call is left out, but may have sent the signal to any process."""
    log = f"""{ROOT}1/1 1 asks fork
1/1 1 told 20
1/1 2 asks wait4 pid=20 options=-
1/1 2 told 20 status=signaled:SIGTERM
"""
    assert (checker.of_text(log).status, checker.of_text(log).line) == (1, 5)
    sent = log.replace("1/1 2", "1/1 3").replace("1/1 3 asks", "1/1 2 asks kill pid=-9 signal=SIGTERM\n1/1 2 told 0\n1/1 3 asks")
    verdict = checker.of_text(sent)
    assert verdict.status == 0 and verdict.text.startswith("explained, except 1 call "), verdict.text


def test_a_vfork_waits(checker: Checker) -> None:
    """Its parent has no line before the child has asked for an exec or its exit."""
    begin = ROOT.replace("system=model", "system=Linux")
    log = f"{begin}1/1 1 asks vfork\n20/20 0 begins vfork=1/1.1\n{{early}}20/20 1 asks execve path=a\n{{late}}"
    early = checker.of_text(log.format(early="1/1 2 asks kill pid=20 signal=0\n", late=""))
    late = checker.of_text(log.format(early="", late="1/1 2 asks kill pid=20 signal=0\n1/1 2 told 0\n"))
    assert (early.status, early.line, late.status) == (1, 4, 0), early.text + late.text


def test_too_many_states(checker: Checker) -> None:
    """It gives up, and says where: that is no explanation."""
    asks = "".join(f"{pid}/{pid} 1 asks kill pid=1 signal={name}\n" for pid, name in zip(range(20, 29), ["SIGUSR1", "SIGUSR2"] * 5))
    forks = "".join(f"1/1 {n} asks fork\n1/1 {n} told {19 + n}\n{19 + n}/{19 + n} 0 begins fork=1/1.{n}\n" for n in range(1, 10))
    catch = "1/1 10 asks sigaction signal=SIGUSR1 action=catch\n1/1 10 told 0\n"
    verdict = checker.of_text(f"{ROOT}{forks}{catch}{asks}28/28 1 told 0\n", "--states", 20)
    assert verdict.status == 3 and "gave up: more than 20 states at line 40" in verdict.text, verdict.text


@pytest.mark.parametrize(
    ("then", "status", "said"),
    [("follow", 0, "  listed difference attached_itself: 1\n"), ("end", 3, "attached_itself ends the comparison: Because.")],
)
def test_listed_differences(checker: Checker, tmp_path: Path, then: str, status: int, said: str) -> None:
    log = f"{ROOT}1/1 1 asks ptrace request=PT_ATTACH pid=1\n1/1 1 told -1 errno=EPERM\n"
    table = tmp_path / "table.tsv"
    row = "attached_itself\tptrace * PT_ATTACH *\tcaller=target target.state=runs\terror EINVAL 22\terror EPERM 1"
    table.write_text(f"{TABLE}{row}\t{then}\tBecause.\tnowhere\n")
    assert checker.of_text(log).status == 1
    verdict = checker.of_text(log, "--differences", table)
    assert verdict.status == status and said in verdict.text, verdict.text
    table.write_text(f"{TABLE}{row.replace('caller=target', 'caller!=target')}\t{then}\tBecause.\tnowhere\n")
    assert checker.of_text(log, "--differences", table).status == 1


# ---- what is no log


NO_LOGS: dict[str, tuple[bytes, int]] = {
    "empty": (b"", 1),
    "another file": (b"#!/bin/sh\n", 1),
    "another form": (ROOT.replace("log=1", "log=2").encode(), 1),
    "torn": (ROOT.encode() + b"1/1 1 asks for", 2),
    "NUL": (ROOT.encode() + b"1/1 1 asks fork\0\n", 2),
    "junk": (ROOT.encode() + bytes(range(256)) + b"\n", 2),
    "not text": (ROOT.encode() + b"1/1 1 asks execve path=\xff\n", 2),
    "long": (ROOT.encode() + b"1/1 1 asks execve path=" + b"a" * 9000 + b"\n", 2),
    "a word twice": (ROOT.encode() + b"1/1 1 asks kill pid=1 pid=2 signal=0\n", 2),
    "no begin": (ROOT.encode() + b"2/2 1 asks fork\n", 2),
    "a gap": (ROOT.encode() + b"1/1 2 asks fork\n", 2),
    "no answer": (ROOT.encode() + b"1/1 1 asks fork\n1/1 2 asks fork\n", 3),
    "no question": (ROOT.encode() + b"1/1 1 told 0\n", 2),
    "no request": (ROOT.encode() + b"1/1 1 asks ptrace pid=1\n", 2),
    "no number": (ROOT.encode() + b"1/1 1 asks kill pid=x signal=0\n", 2),
    "no status": (ROOT.encode() + b"1/1 1 asks wait4 pid=-1 options=-\n1/1 1 told 5 status=dead\n", 3),
    "no origin": (ROOT.encode() + b"2/2 0 begins fork=abc\n", 2),
    "no parent": (ROOT.encode() + b"2/2 0 begins\n", 2),
    "large numbers": (ROOT.encode() + b"1/1 99999999999999999999 asks fork\n", 2),
}


@pytest.mark.parametrize("name", NO_LOGS)
def test_no_log(checker: Checker, name: str) -> None:
    text, line = NO_LOGS[name]
    verdict = checker.of_text(text)
    assert (verdict.status, verdict.line) == (2, line), verdict.text


def test_command_line(checker: Checker, tmp_path: Path) -> None:
    log, missing, folder = tmp_path / "a log: 1\n2", tmp_path / "missing", tmp_path / "folder"
    log.write_text(ROOT)
    folder.mkdir()
    assert checker.run(log).returncode == 0
    commands: list[list[object]] = [[], [missing], [folder], ["--states", "0", log], ["--differences", missing, log]]
    assert [checker.run(*words).returncode for words in commands] == [2, 2, 2, 2, 3]
    (tmp_path / "table").write_text("name\n")
    assert checker.run("--differences", tmp_path / "table", log).returncode == 2
    with open("/dev/full", "w") as full:
        command = [sys.executable, str(CHECK / "tracehost-check"), str(log)]
        done = subprocess.run(command, env=checker.environment, stdout=full, stderr=subprocess.PIPE, check=False)
        assert done.returncode == 3 and b"Traceback" not in done.stderr


# ---- programs on this host's kernel

NOT_TRACED = "not_traced\tptrace * PT_*\t\terror EPERM 1\terror ESRCH 3\tfollow\tIt is ESRCH there.\tptrace(2), ERRORS\n"
OTHERS = """fixed\tsigaction *\t\tok\terror EINVAL 22\tfollow\tSIGKILL and SIGSTOP can't be set.\tsigaction(2), ERRORS
"""


@needs("cc")
@pytest.mark.skipif(sys.platform != "linux", reason="a kernel of Linux")
@pytest.mark.parametrize("what", ["exec", "attach", "jobs", "threads", "vfork", "handlers", "library"])
def test_tracer(logger: Path, tracer: Path, checker: Checker, tmp_path: Path, what: str) -> None:
    log, table = tmp_path / "log of a tracer", tmp_path / "table"
    table.write_text(TABLE + NOT_TRACED)
    for _ in range(3 * SCALE):
        log.unlink(missing_ok=True)
        logged(logger, log, tracer, what)
        verdict = checker.of(log, "--differences", table)
        assert verdict.status == 0 and verdict.text.startswith("explained, "), verdict.text
        assert "except" not in verdict.text and "no call" not in verdict.text and "doesn't tell" not in verdict.text
    lines = log.read_text().splitlines()
    assert len(lines) > 10 and (what == "attach") == ("not_traced: 1" in verdict.text)


@needs("cc")
@pytest.mark.skipif(sys.platform != "linux", reason="a kernel of Linux")
def test_a_status_that_the_kernel_did_not_tell(logger: Path, tracer: Path, checker: Checker, tmp_path: Path) -> None:
    log = tmp_path / "log"
    logged(logger, log, tracer, "exec")
    lines = log.read_text().splitlines(keepends=True)
    at = next(at for at, line in enumerate(lines) if "status=exited:0" in line)
    lines[at] = lines[at].replace("exited:0", "exited:1")
    verdict = checker.of_text("".join(lines))
    assert (verdict.status, verdict.line) == (1, at + 1), verdict.text


@needs("cc", "strace")
@pytest.mark.skipif(sys.platform != "linux", reason="a kernel of Linux")
def test_strace(logger: Path, checker: Checker, tmp_path: Path) -> None:
    """It traces in a way that the model doesn't have: that is said."""
    log, table = tmp_path / "log", tmp_path / "table"
    table.write_text(TABLE + NOT_TRACED + OTHERS)
    logged(logger, log, "strace", "-o", tmp_path / "out", "true")
    verdict = checker.of(log, "--differences", table)
    assert verdict.status == 0 and re.match(r"explained, except \d+ calls that the model doesn't have", verdict.text), verdict.text


@needs("cc", "gdb")
@pytest.mark.skipif(sys.platform != "linux", reason="a kernel of Linux")
def test_gdb(logger: Path, tracer: Path, checker: Checker, tmp_path: Path) -> None:
    log, table = tmp_path / "log", tmp_path / "table"
    table.write_text(TABLE + NOT_TRACED + OTHERS)
    words = ["gdb", "-batch", "-nx", "-ex", "break main", "-ex", "run", "-ex", "cont", "--args", tracer, "nothing"]
    done = logged(logger, log, *words)
    assert "exited normally" in done.stdout, done.stdout + done.stderr
    verdict = checker.of(log, "--differences", table)
    assert verdict.status == 0 and "answers" in verdict.text, verdict.text


# ---- the library disturbs nobody


@needs("cc", "clang")
def test_compilers(tmp_path: Path) -> None:
    for compiler in ("cc", "clang"):
        compile_c(LOGGER, tmp_path / compiler, *LIBRARY, compiler=compiler)
    slow = ["cc", "-O0", "-fPIC", "-shared", "-o", str(tmp_path / "slow"), str(CHECK / "tracehost-log.c")]
    assert subprocess.run(slow, capture_output=True, check=False).returncode != 0  # vfork needs a jump


@needs("cc")
def test_without_a_log(logger: Path, tracer: Path, tmp_path: Path) -> None:
    """No name, an empty one, a folder, no right, a full disk, a FIFO that nobody reads: the program goes on."""
    os.mkfifo(tmp_path / "fifo")
    for log in ("", tmp_path, "/dev/full", "/proc/nothing", tmp_path / "fifo", "x" * 5000):
        logged(logger, log, tracer, "exec")  # type: ignore[arg-type]  # a name that is none
    assert sorted(path.name for path in tmp_path.iterdir()) == ["fifo"]


@needs("cc")
def test_a_limit_of_files(logger: Path, tracer: Path, checker: Checker, tmp_path: Path) -> None:
    """Beyond it a write posts SIGXFSZ, which would end the program: the log is cut, and that is found."""
    log = tmp_path / "log"
    logged(logger, log, tracer, "exec", setup=lambda: resource.setrlimit(resource.RLIMIT_FSIZE, (700, 700)))
    assert log.stat().st_size == 700
    verdict = checker.of(log)
    assert verdict.status == 2 and verdict.line is not None, verdict.text


@needs("cc")
def test_it_leaves_no_descriptor(logger: Path, tmp_path: Path) -> None:
    source, program = tmp_path / "source.c", tmp_path / "program"
    source.write_text(
        """#include <errno.h>
#include <fcntl.h>
#include <signal.h>
#include <unistd.h>
int main(void) {
    int before = dup(0), after;
    close(before);
    errno = 77;
    kill(getpid(), 0);
    if (errno != 77 || kill(getpid(), 1000) != -1 || errno != EINVAL) return 1;
    after = dup(0);
    return before != after || fcntl(after + 1, F_GETFD) != -1;
}
"""
    )
    compile_c([source], program)
    logged(logger, tmp_path / "log", program)
    lines = (tmp_path / "log").read_text().splitlines()
    assert [line.split(" ", 2)[2] for line in lines[3:]] == [
        f"asks kill pid={lines[0].split('/')[0]} signal=1000",
        "told -1 errno=EINVAL",
        "asks exit code=0",
    ]


@needs("cc")
def test_many_write_at_once(logger: Path, tmp_path: Path) -> None:
    """Processes and threads append whole lines, and each has all its numbers."""
    source, program, log = tmp_path / "source.c", tmp_path / "program", tmp_path / "log"
    source.write_text(
        """#include <pthread.h>
#include <signal.h>
#include <sys/wait.h>
#include <unistd.h>
static void *many(void *unused) { for (int i = 0; i < 200; i++) kill(getpid(), 0); return unused; }
int main(void) {
    pthread_t other;
    for (int i = 0; i < 4; i++) if (fork() == 0) { pthread_create(&other, 0, many, 0); many(0); pthread_join(other, 0); _exit(0); }
    while (wait(0) > 0);
    return 0;
}
"""
    )
    compile_c([source], program)
    logged(logger, log, program)
    text = log.read_text()
    for caller in {line.split(" ")[0] for line in text.splitlines()}:
        told = re.findall(rf"^{caller} (\d+) told", text, re.MULTILINE)
        assert told == [str(number) for number in range(1, len(told) + 1)]
    assert text.count(" asks kill ") == text.count(" signal=0\n") == 1600


@needs("cc")
def test_a_killed_program(logger: Path, tracer: Path, checker: Checker, tmp_path: Path) -> None:
    """Its log is whole, and the checker says whose end it doesn't tell."""
    for number in range(5):
        log = tmp_path / f"log{number}"  # of its own: children that have outlived a killed program still write to the one before
        environment = {**os.environ, "TRACEHOST_LOG": str(log), "LD_PRELOAD": str(logger)}
        with subprocess.Popen([tracer, "handlers"], env=environment) as run:
            while not log.exists() or not log.read_bytes().count(b"\n"):
                pass
            run.send_signal(signal.SIGKILL)
        verdict = checker.of(log)
        assert verdict.status == 0 and (
            "doesn't tell the end of" in verdict.text or " exit code=0" in log.read_text()
        ), verdict.text


def test_make(tmp_path: Path) -> None:
    """The Makefile by itself builds the library."""
    if shutil.which("make") is None or shutil.which("cc") is None:
        pytest.skip("not installed: make, cc")
    shutil.copytree(CHECK, tmp_path / "check", ignore=shutil.ignore_patterns("build", "tracehost_check"))
    done = subprocess.run(["make", "-C", tmp_path / "check"], capture_output=True, text=True, check=False)
    assert done.returncode == 0 and not done.stderr, done.stderr
    assert (tmp_path / "check/build/libtracehost-log.so").exists()
