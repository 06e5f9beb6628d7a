"""Why steps are refused, in Python, C, C++ and Rust: the same words, and the errno that was answered.

Sessions of three kinds of random steps, and by hand up to the limits of a user. Every condition of format/refusals.toml is
met, or says why no line meets it.
"""

from __future__ import annotations

import collections
import errno
import json
import random
import sys
from collections.abc import Iterator
from pathlib import Path
from typing import Any, NamedTuple

import by_chance
import pytest
from c_programs import HEADERS, compiled, output
from checking import TOP, Checks, needs
from client_programs import Programs, programs
from fuzz_steps import World
from reference.reading import read_step
from reference.runs import Host as SecondModel

sys.path[:0] = [str(TOP / "clients" / part) for part in ("python", "python/tests", "c/tests")]

from random_steps import Chance, random_step  # noqa: E402
from replay import FREEBSD_ERRNO  # noqa: E402
from tracehost import Held, Host  # noqa: E402
from tracehost.conditions import CALLS, CONDITIONS  # noqa: E402
from tracehost.names import CALLER_OPS  # noqa: E402
from tracehost.refusals import Rows, asked_by, conditions  # noqa: E402
from words import words  # noqa: E402

__all__ = ["programs"]  # a fixture
Step = dict[str, Any]
pytestmark = [needs("cc"), needs("c++"), needs("cargo")]


class Session(NamedTuple):
    name: str
    kills: int
    steps: list[Step]


# ---- sessions


def in_a_small_world(seed: int) -> Session:
    """By what the second model says of it."""
    chance, kills = random.Random(seed), seed % 2
    host, world = SecondModel(kills == 1), World(chance, "small")
    steps: list[Step] = []
    for _ in range(200):
        steps.append({"user": 1001, **world.next(host.views[1001])})
        host.line(*read_step(steps[-1]), False)
    return Session(f"world{seed}", kills, steps)


def of_random_steps(seed: int) -> Session:
    chance = Chance(seed)
    return Session(f"random{seed}", seed % 2, [random_step(chance) for _ in range(250)])


def of_a_scenario(seed: int) -> Session:
    scenario = by_chance.scenario(random.Random(seed))
    return Session(f"scenario{seed}", scenario["kill_on_debugger_exit"], scenario["steps"])


def spawn(user: int = 1001) -> Step:
    return {"user": user, "op": "spawn"}


def turn(lwp: int, act: str, **keys: Any) -> Step:
    return {"user": 1001, "op": "turn", "lwp": lwp, "act": act, **keys}


def call(op: str, caller: int, **keys: Any) -> Step:
    return {"user": 1001, "op": op, "caller": caller, **keys}


def forked(lwp: int, kind: str = "fork") -> list[Step]:
    return [turn(lwp, "enter", call=kind), turn(lwp, "leave")]


def up_to_the_limits() -> Iterator[Session]:
    yield Session("handlers", 1, [spawn(), *[call("install", 1000, rules=[]) for _ in range(65)]])
    yield Session("processes", 1, [spawn(), turn(100000, "enter", call="fork"), *[spawn()] * 250, turn(100000, "leave")])
    threads = [spawn(), *[step for _ in range(999) for step in forked(100000, "thr_new")], *forked(100000, "thr_new"), spawn()]
    yield Session("lwps", 1, [*threads, turn(100000, "compute")])


def by_hand() -> Session:
    """What random steps seldom meet."""
    steps = [spawn(), call("kill", 1000, which=-1, signal=1), *forked(100000), *forked(100001, "vfork"), turn(100001, "compute")]
    steps += [call("ptrace", 1001, request="PT_ATTACH", target=1000), call("wait4", 1001, which=1000)]
    steps += [call("ptrace", 1001, request="PT_CONTINUE", target=1000)]
    steps += [call("ptrace", 1001, request="PT_TRACE_ME"), call("ptrace", 1000, request="PT_ATTACH", target=1001)]
    steps += [turn(5, "compute"), call("ptrace", 1001, request="PT_ATTACH", target=0)]
    steps += [call("ptrace", 1001, request="PT_ATTACH", target=77), call("ptrace", 1001, request="PT_ATTACH", target=103999)]
    steps += [turn(100000, "raise", signal=signal) for signal in (0, 32, 2**31, 2**32 - 1)]
    return Session("by_hand", 1, steps)


def sessions() -> list[Session]:
    made = [of_random_steps(seed) for seed in range(60)] + [in_a_small_world(seed) for seed in range(40)]
    return [*made, *(of_a_scenario(seed) for seed in range(40)), *up_to_the_limits(), by_hand()]


# ---- what each language says


def first_condition(host: Host, step: Step, answer: str) -> str:
    """The first condition that holds. It has the answer; one that rows don't show only counts if it is the answer's."""
    asked = asked_by(step)
    rows = Rows(host._rows(asked.user))
    found = (one for one in conditions(asked) if (one.answer == answer if one.unseen else one.holds(asked, rows)))
    first = next(found)
    assert first.answer == answer, (step, answer, first.name)
    return first.name


def in_python(session: Session, met: set[str]) -> str:
    lines, counts = [], collections.Counter[int]()
    with Host(kill_on_debugger_exit=bool(session.kills)) as host:
        for step in session.steps:
            user = step["user"]
            counts[user] += 1
            try:
                lines.append(host.step(step))
            except (Held, OSError) as error:
                name = "held" if isinstance(error, Held) else errno.errorcode[error.errno or 0]
                answer = "held" if name == "held" else f"error {name} {FREEBSD_ERRNO[name]}"
                lines += [f"{user} {counts[user]} {answer}", f"  {error.strerror if isinstance(error, OSError) else error}"]
                met.add(first_condition(host, step, name))
    return "".join(f"{line}\n" for line in lines)


@pytest.fixture(scope="module")
def folder(tmp_path_factory: pytest.TempPathFactory) -> Path:
    """The steps of each session: as lines, and as the words that C reads."""
    made = tmp_path_factory.mktemp("sessions")
    for session in sessions():
        path = made / session.name
        path.with_suffix(".steps").write_text("".join(json.dumps(step) + "\n" for step in session.steps))
        path.with_suffix(".calls").write_text("".join(words(step) + "\n" for step in session.steps))
        path.with_suffix(".setting").write_text(str(session.kills))
    return made


@pytest.fixture(scope="module")
def python(library: Path) -> tuple[dict[str, str], set[str]]:
    """What is said in Python, by session, and the conditions that were met."""
    met: set[str] = set()
    with pytest.MonkeyPatch.context() as patch:
        patch.setenv("TRACEHOST_LIBRARY", str(library / "libtracehost.so"))
        return {session.name: in_python(session, met) for session in sessions()}, met


def test_each_condition_is_met(python: tuple[dict[str, str], set[str]]) -> None:
    _, met = python
    assert met == {condition.name for condition in CONDITIONS if not condition.never}


def test_each_condition_is_of_a_call() -> None:
    assert {name for call in CALLS for name in call.order} == {condition.name for condition in CONDITIONS}
    assert {call.op for call in CALLS} == {"spawn", "turn", *CALLER_OPS}


def test_in_c(programs: Programs, folder: Path, python: tuple[dict[str, str], set[str]], checks: Checks) -> None:
    said, _ = python
    for name, wanted in said.items():
        steps = (folder / f"{name}.calls").read_bytes()
        kills = (folder / f"{name}.setting").read_text()
        checks.check(output(programs["plain", "replay"], kills, "explain", given=steps) == wanted, name)


def test_in_cpp(library: Path, folder: Path, tmp_path: Path, python: tuple[dict[str, str], set[str]], checks: Checks) -> None:
    said, _ = python
    source = TOP / "clients/cpp/tests/explain.cpp"
    program = compiled(tmp_path / "explain", "-std=c++11", *HEADERS, source, library / "libtracehost.a", compiler="c++")
    for name, wanted in said.items():
        kills = (folder / f"{name}.setting").read_text()
        checks.check(output(program, kills, given=(folder / f"{name}.steps").read_bytes()) == wanted, name)


def test_in_rust(library: Path, folder: Path, tmp_path: Path, python: tuple[dict[str, str], set[str]], checks: Checks) -> None:
    said, _ = python
    environment = {"TRACEHOST_LIB_DIR": str(library), "CARGO_TARGET_DIR": str(tmp_path), "TRACEHOST_STEPS": str(folder)}
    words = ["--offline", "--quiet", "--test", "explain", "--", "--ignored"]
    output("cargo", "test", *words, cwd=TOP / "clients/rust", environment=environment)
    for name, wanted in said.items():
        checks.check((folder / f"{name}.rust").read_text() == wanted, name)
