"""The benchmarks' yardstick, bench/baseline, prints what the program prints: row files, examples, cases and random scenarios.
Its library answers as the program's does, in lines and typed calls, also on copies of sessions.
"""

from __future__ import annotations

import itertools
import json
import os
import random
import re
import shutil
import subprocess
from pathlib import Path
from typing import Any

import cases
import instructions
import pytest
import scenarios

from c_programs import WARNINGS, compiled
from checking import TOP, Checks
from fuzz import Fuzz, lines_of, text_of
from library_programs import OWN, SOURCES, Programs, programs
from row_files import Located, scenario_files

__all__ = ["programs"]  # a fixture

SCALE = int(os.environ.get("TRACEHOST_TEST_SCALE", "1"))
# a step with a value that is none of its key's, whose key comes again; and whether the text is JSON
REPLACED = {
    "null": True,
    '{"a":[1,{}],"b":"\\ud83d\\ude00\\n"}': True,
    "[" * 124 + "]" * 124: True,
    "-0.5e-7": True,
    "99999999999999999999": True,
    '"a name that is far longer than any other name"': True,
    "[" * 125 + "]" * 125: False,
    "1e400": False,
    "01": False,
    "[1,]": False,
    '"\\ud83d"': False,
    '"\\x"': False,
    "tru": False,
}


@pytest.fixture(scope="module")
def baseline(tmp_path_factory: pytest.TempPathFactory) -> Path:
    """The program. Its library is beside it."""
    cargo = shutil.which("cargo")
    if cargo is None:
        pytest.skip("needs cargo")
    folder = tmp_path_factory.mktemp("baseline")
    words = [cargo, "build", "--quiet", "--release", "--offline", "--target-dir", str(folder)]
    subprocess.run(words, cwd=TOP / "bench/baseline", check=True)
    return folder / "release/baseline"


def agrees(program: Path, baseline: Path, file: Path) -> bool:
    """Whether both print the same lines, or both refuse the text."""
    wanted = subprocess.run([program, file], capture_output=True)
    got = subprocess.run([baseline, file], capture_output=True)
    return (got.returncode, got.stdout) == (wanted.returncode, wanted.stdout)


def test_row_files_and_examples(program: Path, baseline: Path, located: Located, checks: Checks) -> None:
    for file in scenario_files():
        checks.check(agrees(program, baseline, TOP / located(file)), str(file))


def test_cases(program: Path, baseline: Path, checks: Checks, tmp_path: Path) -> None:
    """Those of bench/worst.py, small."""
    file = tmp_path / "scenario.json"
    for name, make, _ in [*cases.CASES, *cases.SCALES]:
        for size in (2, 5):
            prepared, rounds = make(size)
            scenarios.write([*prepared, *itertools.islice(rounds, 50)], str(file))
            checks.check(agrees(program, baseline, file), f"{name}, {size}")


def test_loads(program: Path, baseline: Path, checks: Checks, tmp_path: Path) -> None:
    """Those of bench/instructions.py; the longest preparation has some 16,000 steps."""
    file = tmp_path / "scenario.json"
    for name, load in instructions.LOADS.items():
        scenarios.write(load(17000), str(file), instructions.SPELLINGS.get(name, scenarios.plain))
        ended = subprocess.run([baseline, file], capture_output=True)
        checks.check(ended.returncode == 0 and agrees(program, baseline, file), name)


def respelled(value: object) -> object:
    """The same value with the keys of each object in the opposite order."""
    if isinstance(value, dict):
        return {key: respelled(value[key]) for key in reversed(value)}
    return [respelled(one) for one in value] if isinstance(value, list) else value


def test_other_spellings(program: Path, baseline: Path, checks: Checks, tmp_path: Path) -> None:
    """Examples in which spaces, escapes or the order of keys are not as programs write them: the lines are the same."""
    file = tmp_path / "scenario.json"
    for example in sorted((TOP / "examples").glob("*.json")):
        wanted = subprocess.run([program, example], capture_output=True)
        value = json.loads(example.read_text())
        plain = json.dumps(value, separators=(",", ":"))
        for text in (plain, json.dumps(respelled(value), indent="\t"), scenarios.escaped(0, plain)):
            file.write_text(text)
            got = subprocess.run([baseline, file], capture_output=True)
            same = (got.returncode, got.stdout) == (wanted.returncode, wanted.stdout)
            checks.check(same, f"{example}: {text[:80]}")


@pytest.mark.parametrize(("value", "is_json"), REPLACED.items())
def test_a_wrong_value(program: Path, baseline: Path, tmp_path: Path, value: str, is_json: bool) -> None:
    """It counts for nothing, since its key comes again."""
    file = tmp_path / "scenario.json"
    file.write_text(f'{{"steps":[{{"op":{value},"user":1001,"op":"spawn"}}]}}')
    ended = subprocess.run([baseline, file], capture_output=True, text=True)
    wanted = (0, "1001 1 new 1000 100000\n", "") if is_json else (1, "", "baseline: refused\n")
    assert (ended.returncode, ended.stdout, ended.stderr) == wanted
    assert agrees(program, baseline, file)


def random_steps(program: Path, folder: Path, seed: int, checks: Checks) -> tuple[list[dict[str, Any]], int]:
    """Steps of all users, and the setting."""
    chance = random.Random(f"baseline {seed}")
    kills = chance.randrange(2)
    return Fuzz(program, folder, str(seed), checks).worlds(chance, kills)[0], kills


def test_random_scenarios(program: Path, baseline: Path, checks: Checks, tmp_path: Path) -> None:
    for seed in range(6 * SCALE):
        steps, kills = random_steps(program, tmp_path, seed, checks)
        file = tmp_path / "scenario.json"
        file.write_bytes(text_of(steps, kills))
        checks.check(agrees(program, baseline, file), f"seed {seed}")


@pytest.mark.parametrize("name", ["nothing", "folder"])
def test_what_cannot_be_read(baseline: Path, tmp_path: Path, name: str) -> None:
    (tmp_path / "folder").mkdir()
    ended = subprocess.run([baseline, tmp_path / name], capture_output=True, text=True)
    assert (ended.returncode, ended.stdout, ended.stderr) == (3, "", "baseline: cannot read\n")


def test_a_full_device(baseline: Path) -> None:
    with open("/dev/full", "wb") as full:
        ended = subprocess.run([baseline, TOP / "examples/first.json"], stdout=full, stderr=subprocess.PIPE, text=True)
    assert (ended.returncode, ended.stderr) == (3, "baseline: cannot write\n")


def with_library(baseline: Path, made: Path, name: str) -> Path:
    """A program of tests/in_process with the yardstick's library, whose code isn't for programs that may lie anywhere."""
    words = ["-std=c11", *WARNINGS, "-O2", "-no-pie", *OWN]
    return compiled(made, *words, SOURCES / f"{name}.c", baseline.with_name("libbaseline.a"))


def test_typed_calls_and_copies(programs: Programs, baseline: Path, checks: Checks, tmp_path: Path) -> None:
    ours, theirs = programs("replies", "-O2"), with_library(baseline, tmp_path / "replies", "replies")
    for seed in range(SCALE):
        words = ["100000", str(seed)]
        wanted = subprocess.run([ours, *words], check=True, capture_output=True).stdout
        got = subprocess.run([theirs, *words], check=True, capture_output=True).stdout
        kinds = {line.split()[1] for line in wanted.splitlines() if line.startswith(b"0: ")}
        checks.check(len(kinds) == 15 and b"3: " in wanted and got == wanted, f"seed {seed}")


@pytest.mark.parametrize("style", [[], ["--json"]], ids=["words", "objects"])
def test_lines(program: Path, baseline: Path, checks: Checks, tmp_path: Path, style: list[str]) -> None:
    """Of a line that is no step the yardstick only says so."""
    ours = with_library(baseline, tmp_path / "lines", "lines")
    for seed in range(2 * SCALE):
        steps, kills = random_steps(program, tmp_path, seed, checks)
        lines = lines_of(steps) + b'{"user":1001,"op":"spawn"\n\n[]\n{"op":"spawn", "user" : 1001 }\r\n'
        wanted = subprocess.run(
            [program, "--lines", *style, "--kill-on-debugger-exit", str(kills)], input=lines, check=True, capture_output=True
        ).stdout
        got = subprocess.run([ours, *style, str(kills)], input=lines, check=True, capture_output=True).stdout
        refused = re.compile(rb'^(refused \w+|\{"refused":"\w+"\})$', re.MULTILINE)
        checks.check(got.count(b"refused\n") == 3 and got == refused.sub(b"refused", wanted), f"seed {seed}")
