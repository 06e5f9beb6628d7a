"""Test programs in C, C++, Rust and Go whose tests fail, or pass, in the ways that their names say; and what they leave."""

from __future__ import annotations

import json
import os
import re
import resource
import shutil
import subprocess
from collections.abc import Callable, Mapping
from pathlib import Path
from typing import NamedTuple

import pytest
from c_programs import HEADERS, NONE, STRICT, WARNINGS, compiled, output, sanitized
from checking import TOP, Word
from client_programs import CLIENT, SOURCE
from golang import Go

CPP = TOP / "clients/cpp/tests"
SECONDS = 300
WITH_COMMANDS = {"PATH": f"{TOP / 'bin'}:{os.environ['PATH']}"}  # for tracehost-debug, which tells a story
STORY = "step 8 of user 1001: wait4 1000 -> 1001 stopped SIGSEGV"
"""The first line of that of a test that is called `fails`."""
STEPS = 8
"""Of a test that is called `fails`."""
IN_PYTHON = """
import os
from tracehost import Compute, Host, Raise, Request, Signal


def debug(tracehost: Host, wanted: Signal) -> None:
    user = tracehost.user(1001)
    debugger, target = user.process(user.spawn()), user.spawn()
    debugger.ptrace(Request.PT_ATTACH, target.pid)
    debugger.wait4()
    debugger.ptrace(Request.PT_STEP, target.pid)
    user.turn(target.tid, Raise(Signal.SIGSEGV))
    user.turn(target.tid, Compute())
    assert os.WSTOPSIG(debugger.wait4().status) == wanted
"""
"""The session of all these programs: a debugger that takes a SIGSEGV for the end of a PT_STEP, if SIGTRAP is wanted."""
EMBEDDED = re.compile(r'<script type="application/json" id="embedded">(.*?)</script>', re.DOTALL)


def stem_of(program: Path, test: str) -> str:
    """PROGRAM.TEST-DIGEST: plain characters, not too many, and 48 bits of an FNV-1a of the program's path and the test's name."""
    digest = 14695981039346656037
    for byte in os.fsencode(program) + b"\0" + os.fsencode(test) + b"\0":
        digest = (digest ^ byte) * 1099511628211 % 2**64
    names = (os.fsencode(name)[:most] for name, most in ((program.name, 30), (test, 50)))
    plain = [re.sub(rb"[^A-Za-z0-9_.-]", b"_", name).decode() for name in names]
    return f"{plain[0]}.{plain[1]}-{digest % 2**48:012x}"


class Ran(NamedTuple):
    status: int
    said: str
    left: list[str]


class Failing:
    """A test program: the command for a case, and for one with another name."""

    def __init__(self, name: str, program: Path, command: Callable[[str, str | None], list[str]]) -> None:
        self.name, self.program, self._command = name, program, command
        self.environment: Mapping[str, str] = {}

    def stem(self, test: str) -> str:
        """How the names of a test's files begin."""
        return stem_of(self.program, test)

    def command(self, case: str) -> list[str]:
        return self._command(case, None)

    def __call__(
        self, case: str, folder: Path | None, named: str | None = None, room: int = 0, environment: Mapping[str, str] = NONE
    ) -> Ran:
        """Runs a case that leaves its files in the folder. `room` is the most bytes of a file, 0 for no limit."""
        surroundings = {**os.environ, **self.environment, **environment}
        surroundings.pop("TRACEHOST_ARTIFACTS", None)
        if folder is not None:
            surroundings["TRACEHOST_ARTIFACTS"] = str(folder)
        limit = (lambda: resource.setrlimit(resource.RLIMIT_FSIZE, (room, room))) if room else None
        ran = subprocess.run(
            self._command(case, named), env=surroundings, cwd=TOP, stdin=subprocess.DEVNULL, stdout=subprocess.PIPE,
            stderr=subprocess.STDOUT, timeout=SECONDS, check=False, preexec_fn=limit,
        )  # fmt: skip
        left = [] if folder is None or not folder.is_dir() else sorted(path.name for path in folder.iterdir())
        return Ran(ran.returncode, ran.stdout.decode(errors="replace"), left)


def in_c(room: Path, library: Path, *more_flags: str) -> Failing:
    flags: list[Word] = ["-std=c11", *WARNINGS, "-Wconversion", "-g", "-pthread", *sanitized(), *HEADERS, *more_flags]
    made = compiled(room / "c", *flags, CLIENT / "tests/failing.c", SOURCE, library / "libtracehost.a")
    return Failing("c", made, lambda case, named: [str(made), case, *([named] if named else [])])


def in_cpp(room: Path, library: Path, *more_flags: str) -> Failing:
    flags: list[Word] = ["-std=c++17", *STRICT, "-g", "-pthread", *sanitized(), *HEADERS, *more_flags]
    made = compiled(room / "cpp", *flags, CPP / "failing.cpp", library / "libtracehost.a", compiler="c++")
    return Failing("cpp", made, lambda case, named: [str(made), case, *([named] if named else [])])


def in_gtest(room: Path, library: Path) -> Failing:
    if not Path("/usr/include/gtest/gtest.h").exists():
        pytest.skip("not installed: libgtest-dev")
    words: list[Word] = ["-std=c++17", *STRICT, "-g", "-pthread", *sanitized(), *HEADERS, CPP / "failing_gtest.cpp"]
    words += [library / "libtracehost.a", "-lgtest_main", "-lgtest"]
    made = compiled(room / "gtest", *words, compiler="c++")
    return Failing("gtest", made, lambda case, named: [str(made), f"--gtest_filter={case}"])


def in_catch2(room: Path, library: Path) -> Failing:
    three, two = Path("/usr/include/catch2/catch_all.hpp"), Path("/usr/include/catch2/catch.hpp")
    if not three.exists() and not two.exists():
        pytest.skip("not installed: catch2")
    words: list[Word] = ["-std=c++17", *STRICT, "-g", "-pthread", *sanitized(), *HEADERS, CPP / "failing_catch2.cpp"]
    words += [library / "libtracehost.a", *(["-lCatch2Main", "-lCatch2"] if three.exists() else [])]
    made = compiled(room / "catch2", *words, compiler="c++")
    return Failing("catch2", made, lambda case, named: [str(made), case])


def in_rust(room: Path, library: Path) -> Failing:
    environment = {"TRACEHOST_LIB_DIR": str(library), "CARGO_TARGET_DIR": str(room / "rust")}
    words = ["cargo", "test", "--offline", "--quiet", "--test", "failing"]
    said = output(*words, "--no-run", "--message-format=json", cwd=TOP / "clients/rust", environment=environment)
    found = [json.loads(line).get("executable") for line in said.splitlines()]
    made = next(path for path in found if path)
    program = Path(re.sub(r"-[0-9a-f]{16}$", "", made))
    return Failing("rust", program, lambda case, named: [made, "--ignored", "--exact", case])


def in_go(room: Path, library: Path) -> Failing:
    (room / "go").mkdir()
    made = Go(library, room / "go").test_program(room / "go.test")

    def command(case: str, named: str | None) -> list[str]:
        return ["env", "TRACEHOST_FAILS=1", str(made), f"-test.run=^{case}$"]

    return Failing("go", TOP / made.name, command)  # a package's tests are known by the folder that they run in


Make = Callable[[Path, Path], Failing]  # of a folder and the library
MADE: dict[str, Make] = {
    "c": in_c,
    "cpp": in_cpp,
    "gtest": in_gtest,
    "catch2": in_catch2,
    "rust": in_rust,
    "go": in_go,
}
COMMANDS = {"rust": ["cargo"], "go": ["go", "pkg-config"]}  # that making needs
CASES = {"gtest": "debugger.{}", "go": "Test{}"}


def passes(failing: Failing) -> str:
    """Its case that passes."""
    return CASES.get(failing.name, "{}").format("Passes" if failing.name == "go" else "passes")


def fails(failing: Failing) -> str:
    """Its case that fails."""
    return CASES.get(failing.name, "{}").format("Fails" if failing.name == "go" else "fails")


class Programs:
    """The test programs, each compiled once it is needed. They find the program that is to be tested."""

    def __init__(
        self, room: Path, library: Path, program: Path, environment: Mapping[str, str], made: Mapping[str, Make] = MADE
    ) -> None:
        self._room, self._library, self._program, self._made = room, library, program, made
        self._environment = {"TRACEHOST": str(program), **environment}
        self._programs: dict[str, Failing] = {}

    def __getitem__(self, language: str) -> Failing:
        for command in COMMANDS.get(language, []):
            if shutil.which(command) is None:
                pytest.skip(f"not installed: {command}")
        if language not in self._programs:
            self._programs[language] = self._made[language](self._room, self._library)
            self._programs[language].environment = self._environment
        return self._programs[language]


@pytest.fixture
def failing(request: pytest.FixtureRequest, programs: Programs) -> Failing:
    """The test program in a language, of the module's programs."""
    return programs[request.param]


def languages(*names: str) -> pytest.MarkDecorator:
    return pytest.mark.parametrize("failing", names, indirect=True)


def page_of(path: Path) -> dict[str, object]:
    """What a page was made from: its files, and the failure."""
    found = EMBEDDED.search(path.read_text(encoding="utf-8"))
    assert found
    page: dict[str, object] = json.loads(found[1])
    return page
