"""The debugger of clients/posix/examples at work on a program, under many schedules, and all registers at many stops.

TRACEHOST_TEST_SCALE multiplies schedules and rounds: a nightly run has 20, which are 1,000 schedules of each script.
"""

from __future__ import annotations

import os
import pathlib
import re
import shutil
import subprocess
import sys

import pytest
from posix_kit import CC, SCALE, Posix
from posix_kit import RUN as RUNNER

pytestmark = pytest.mark.usefixtures("posix")

RUN = [sys.executable, RUNNER, "--no-record"]


def run(words: list[object], **more: str) -> subprocess.CompletedProcess[str]:
    return subprocess.run([str(word) for word in words], capture_output=True, text=True, timeout=3000, env={**os.environ, **more})


@pytest.fixture(scope="module", params=["g++ -pie", "g++ -no-pie", "clang++ -pie"])
def command(request: pytest.FixtureRequest, posix: Posix, tmp_path_factory: pytest.TempPathFactory) -> list[object]:
    """A debugger and what it debugs, by two compilers, at fixed and at other addresses."""
    compiler, link = request.param.split()
    if shutil.which(compiler) is None:
        pytest.skip(f"{compiler} isn't here")
    room = tmp_path_factory.mktemp("debugger")
    debugger = posix.compiled("examples/debugger.cpp", compiler=compiler)
    frames = ["-O1", "-fno-omit-frame-pointer", f"-f{link[1:]}", link]
    return [debugger, "-x", room / "script", posix.compiled("examples/debugged.c", *frames)]


SCRIPTS = {
    "loop 20": (
        [
            "break work",
            "continue",
            "require $rdi 0",
            "backtrace",
            "step 2",
            "delete work",
            "finish",
            "require $rax 1",
            "require counter 0",
        ]
        + [
            "break outer",
            "continue 3",
            "require $rdi 3",
            "next",
            "next",
            "next",
            "next",
            "set counter 77",
            "print counter",
            "delete outer",
        ]
        + ["continue", "continue"],
        ["breakpoint work+0", "#0 work+0", r"#1 outer\+\d+", r"#2 main\+\d+", r"at work\+\d+", r"at outer\+\d+", "returned 1"]
        + ["breakpoint outer+0", *4 * [r"at outer\+\d+"], "counter = 77", r"signal 30 at main\+\d+", "exited with 0"],
    ),
    "factorial": (
        [
            "break factorial",
            "continue 4",
            "require $rdi 2",
            "backtrace",
            "delete factorial",
            "finish",
            "finish",
            "finish",
            "require $rax 24",
        ]
        + ["set $rax 5", "continue"],
        ["breakpoint factorial+0", "#0 factorial+0", *3 * [r"#\d factorial\+\d+"], r"#4 main\+\d+"]
        + [
            r"at factorial\+\d+",
            "returned 2",
            r"at factorial\+\d+",
            "returned 6",
            r"at factorial\+\d+",
            "returned 24",
            "exited with 1",
        ],
    ),
    "forks": (
        ["break work", "continue", "require $rdi 1", "continue"],
        ["breakpoint work+0", "exited with 0"],
    ),
    "forks child": (
        ["follow child", "break work", "continue", "require $rdi 2", "threads", "finish", "require $rax 5", "continue"],
        ["breakpoint work+0", r"\* 100002 work\+0", r"at main\+\d+", "returned 5", "exited with 5"],
    ),
    "threads": (
        ["break work", "continue 5", "step", "continue 5", "delete work", "continue"],
        ["breakpoint work+0", r"at work\+\d+", "breakpoint work+0", "exited with 0"],
    ),
}


def lines_match(text: str, wanted: list[str]) -> bool:
    lines = text.splitlines()
    return len(lines) == len(wanted) and all(line == form or re.fullmatch(form, line) for line, form in zip(lines, wanted))


def write(command: list[object], lines: list[str], words: str) -> list[object]:
    """The debugger with this script, on the program with these words."""
    pathlib.Path(str(command[2])).write_text("".join(f"{line}\n" for line in lines))
    return [*command, *words.removesuffix(" child").split()]


@pytest.mark.parametrize("words", SCRIPTS)
def test_script(words: str, command: list[object]) -> None:
    script, wanted = SCRIPTS[words]
    done = run([*RUN, *write(command, script, words)])
    assert done.returncode == 0, done.stdout + done.stderr
    assert lines_match(done.stdout, wanted), done.stdout
    assert "not proved" in done.stderr


@pytest.mark.parametrize("command", ["g++ -pie"], indirect=True)
@pytest.mark.parametrize("words", SCRIPTS)
def test_script_under_schedules(words: str, command: list[object]) -> None:
    all_words = write(command, SCRIPTS[words][0], words)
    done = run([*RUN, "--jobs", 2, "--schedules", 50 * SCALE, *all_words])
    assert done.returncode == 0, done.stderr
    assert f"{50 * SCALE + 1} schedules passed" in done.stderr
    assert run([*RUN, "--verify", "--strategy", "pct", "--schedules", 5, *all_words]).returncode == 0


@pytest.mark.parametrize("command", ["g++ -pie"], indirect=True)
def test_thousand_breakpoints(command: list[object]) -> None:
    """A breakpoint in a loop is met each time, with the loop's number in the argument's register."""
    again = {i: ["continue"] for i in range(8, 1000, 25)}  # past the signal that the program sends itself
    hits = [line for i in range(1000) for line in ("continue", *again.get(i, []), f"require $rdi {i}")]
    done = run([*RUN, "--limit", 1000000, *write(command, ["break work", *hits, "delete work", "continue"], "loop 1000")])
    assert done.returncode == 0, done.stdout + done.stderr
    assert done.stdout.count("breakpoint work+0\n") == 1000
    assert done.stdout.endswith("exited with 0\n")


def test_every_register(posix: Posix) -> None:
    """None is wrong at a stop, and none that the debugger has set is wrong when the program goes on."""
    program = posix.compiled("tests/every_register.c")
    rounds = 500 * SCALE
    done = run([*RUN, "--limit", 10000000, program, rounds])
    assert (done.stdout, done.returncode) == (f"{rounds} rounds, 0 wrong at a stop, none behind it\n", 0), done.stderr
    done = run([*RUN, "--jobs", 2, "--schedules", 50, program, 20])
    assert done.returncode == 0, done.stderr


def test_strict_has_no_registers(posix: Posix) -> None:
    program = posix.compiled("tests/every_register.c")
    done = run([*RUN, "--strict", program, 1])
    assert done.returncode == 1
    assert "PT_GETREGS: Invalid argument" in done.stderr and "not proved" not in done.stderr


FREEBSD = """
#include <sys/param.h>
#include <sys/procctl.h>
#include <sys/ptrace.h>
#include <sys/sysctl.h>
#include <sys/user.h>
#include <elf.h>
#include <libutil.h>
#include <machine/psl.h>
#include <machine/ptrace.h>
#include <machine/reg.h>
#include <machine/ucontext.h>
#include <netinet/in.h>
#include <pthread_np.h>
#if !defined(__FreeBSD__) || __FreeBSD_version < 1300000 || defined(__linux__)
#error "not FreeBSD"
#endif
#ifdef __cplusplus
#include <filesystem>
#include <map>
#include <random>
#include <thread>
#endif
int main(void) { return getpid() != 1000; }
"""


@pytest.mark.parametrize("compiler", ["cc", "clang", "g++", "clang++"])
def test_source_that_asks_for_freebsd(compiler: str, tmp_path: pathlib.Path) -> None:
    if shutil.which(compiler) is None:
        pytest.skip(f"{compiler} isn't here")
    source = tmp_path / f"source.{'cpp' if '+' in compiler else 'c'}"
    source.write_text(FREEBSD)
    words = ["env", f"CC={compiler}", CC, "-Wall", "-Werror", "-o", tmp_path / "program", source]
    assert run(words).returncode != 0
    done = run([*words, "--freebsd"])
    assert done.returncode == 0, done.stderr
    assert run([*RUN, tmp_path / "program"]).returncode == 0
