"""The library's lines against those of `tracehost --lines`, in words and as objects, by tests/in_process/lines.c. Also the
Python client's typed calls on the library, against the same steps as lines of the program. The row files say what the
program's lines are.
"""

from __future__ import annotations

import collections
import json
import random
import shutil
import subprocess
import sys
from collections.abc import Iterable, Iterator, Sequence
from pathlib import Path
from typing import Any, NamedTuple

import pytest
from by_chance import scenario
from checking import TOP
from library_programs import WAYS, Programs, programs
from row_files import Located, scenario_files

sys.path[:0] = [str(TOP / "clients/python"), str(TOP / "clients/python/tests")]

from replay import call, replayed  # noqa: E402
from tracehost import Host  # noqa: E402

__all__ = ["programs"]  # a fixture
SCENARIOS = 2000
BATCH = 100  # how many sessions one process of lines.c has
TYPED = 50
SECONDS = 600
STYLES: list[list[str]] = [[], ["--json"]]
# the first words of replies in docs/FORMAT.md, section 7, and of a line that is refused
KINDS = ("ok new number status nothing info lwps pids mask handled stopped caught ended held error refused").split()


class Session(NamedTuple):
    lines: bytes
    kill: bool

    @classmethod
    def of_steps(cls, steps: list[dict[str, Any]], kill: object) -> Session:
        return cls(b"".join(line_of(step) for step in steps), bool(kill))


def line_of(step: dict[str, Any]) -> bytes:
    return json.dumps(step).encode() + b"\n"


def rows(located: Located) -> Iterator[Session]:
    """The row files and examples that have steps, as they are: steps that are refused too."""
    for file in scenario_files():
        try:
            made = json.loads((TOP / located(file)).read_bytes())
        except ValueError:
            continue
        if isinstance(made, dict) and isinstance(made.get("steps"), list):
            yield Session.of_steps(made["steps"], made.get("kill_on_debugger_exit", 1))


def without_a_byte(chance: random.Random, line: bytes) -> bytes:
    """The line without one of its bytes, other than its line feed."""
    place = chance.randrange(len(line) - 1)
    return line[:place] + line[place + 1 :]


def by_chance(seed: int) -> Session:
    """A session by chance. One line in fifty lacks a byte, and most of these are no steps."""
    chance = random.Random(seed)
    made = scenario(chance)
    lines = [line_of(step) for step in made["steps"]]
    for place in chance.sample(range(len(lines)), len(lines) // 50):
        lines[place] = without_a_byte(chance, lines[place])
    return Session(b"".join(lines), bool(made["kill_on_debugger_exit"]))


def is_step(step: dict[str, object]) -> bool:
    """Whether a step by chance isn't refused: PT_TRACE_ME has no target."""
    return step.get("request") != "PT_TRACE_ME" or "target" not in step


def answers(command: list[str], lines: bytes) -> bytes:
    done = subprocess.run(command, input=lines, stdout=subprocess.PIPE, stderr=subprocess.DEVNULL, timeout=SECONDS)
    assert done.returncode == 0, (command, done.returncode)
    return done.stdout


def of_program(program: Path, session: Session, style: Sequence[str] = ()) -> list[bytes]:
    setting = ["--kill-on-debugger-exit", str(int(session.kill))]
    return answers([str(program), "--lines", "--explain=never", *style, *setting], session.lines).splitlines(keepends=True)


def for_library(sessions: Iterable[Session]) -> bytes:
    """The lines of sessions, which one process of LINES makes one after the other."""
    return b"".join(b"\f%d\n" % session.kill + session.lines for session in sessions)


def kind_of(line: bytes) -> str:
    """The word that begins the reply of a line in words."""
    words = line.decode().split()
    return words[0] if words[0] == "refused" else words[2]


class Lines:
    """The library's lines and the program's, which are compared byte for byte. It counts the kinds of replies."""

    def __init__(self, program: Path, made: Path) -> None:
        self.program, self._made = program, made
        self.kinds: collections.Counter[str] = collections.Counter()

    def compare(self, sessions: list[Session], first: int = 0) -> None:
        """Compares each session, in words and as objects. `first` is the number of the first one."""
        for style in STYLES:
            made = answers([str(self._made), *style], for_library(sessions)).splitlines(keepends=True)
            for number, session in enumerate(sessions, first):
                wanted = of_program(self.program, session, style)
                assert wanted == made[: len(wanted)], (number, style)
                del made[: len(wanted)]
                if not style:
                    self.kinds.update(kind_of(line) for line in wanted)
            assert made == []


@pytest.fixture
def lines(program: Path, programs: Programs) -> Lines:
    return Lines(program, programs("lines", *WAYS["plain"].flags))


@pytest.fixture
def named(library: Path, program: Path, monkeypatch: pytest.MonkeyPatch) -> None:
    """The library and the program are those that the environment names."""
    monkeypatch.setenv("TRACEHOST_LIBRARY", str(library / "libtracehost.so"))
    monkeypatch.setenv("TRACEHOST", str(program))


def test_the_row_files(lines: Lines, located: Located) -> None:
    sessions = list(rows(located))
    assert len(sessions) > 100
    lines.compare(sessions)


@pytest.mark.parametrize("way", WAYS)
def test_the_row_files_by_each_way(programs: Programs, program: Path, located: Located, way: str) -> None:
    """With the compiler's sanitizers and in valgrind too."""
    how, sessions = WAYS[way], list(rows(located))
    if how.before and shutil.which(how.before[0]) is None:
        pytest.skip(f"not installed: {how.before[0]}")
    made = answers([*how.before, str(programs("lines", *how.flags))], for_library(sessions))
    assert made.splitlines(keepends=True) == [line for session in sessions for line in of_program(program, session)]


def test_scenarios_by_chance(lines: Lines) -> None:
    """Each kind of reply is among them, and refused lines."""
    for first in range(0, SCENARIOS, BATCH):
        lines.compare([by_chance(seed) for seed in range(first, first + BATCH)], first)
    assert [kind for kind in KINDS if lines.kinds[kind] == 0] == []
    assert set(lines.kinds) <= set(KINDS)


def test_lines_that_are_no_steps(lines: Lines) -> None:
    spawn = b'{"user":1001,"op":"spawn"}'
    texts = [b"", b" ", spawn, spawn + b"\r", b"\xff", b"{", spawn + spawn, b"\0", spawn.replace(b"1001", b"1065")]
    texts += [b" " * (65536 - len(spawn)) + spawn, b" " * (65537 - len(spawn)) + spawn, b"[" * 200, spawn]
    lines.compare([Session(b"\n".join(texts), True)])


@pytest.mark.usefixtures("named")
@pytest.mark.parametrize("seed", range(SCENARIOS, SCENARIOS + TYPED))
def test_typed_calls_from_python(program: Path, seed: int) -> None:
    made = scenario(random.Random(seed))
    steps = [step for step in made["steps"] if is_step(step)]
    session = Session.of_steps(steps, made["kill_on_debugger_exit"])
    with Host(kill_on_debugger_exit=session.kill) as host:
        assert replayed(host, steps, call) == b"".join(of_program(program, session)).decode().splitlines()
