"""The texts of tests/, and hostile ones, are read alike as scenarios are read and by serde_json.

The program test_scenarios compares the readings: crates/test_scenarios/src/readings.rt.
"""

from __future__ import annotations

import json
import os
import random
import subprocess
from collections.abc import Iterable, Iterator
from pathlib import Path

import pytest

from checking import TOP
from fuzz_texts import hostile
from mistakes import read_mistakes
from row_files import Located, scenario_files

READINGS = TOP / "crates/test_scenarios/out/test_scenarios"
HOSTILE = 5_000
pytestmark = pytest.mark.skipif(
    not os.access(READINGS, os.X_OK), reason="the program test_scenarios is not built: the gate builds it"
)


@pytest.fixture(scope="module")
def rows(located: Located) -> list[Path]:
    """The row files and examples."""
    return [TOP / located(file) for file in scenario_files()]


def texts_of_tests(rows: list[Path]) -> Iterator[bytes]:
    """Each row file and each of its lines, and the inputs of the mistakes."""
    for path in rows:
        text = path.read_bytes()
        yield text
        yield from text.splitlines()
    for mistake in read_mistakes():
        yield mistake.input
        yield from mistake.input.splitlines()


def value_of(path: Path) -> object:
    try:
        value: object = json.loads(path.read_bytes())
    except ValueError:
        return None
    return value


def hostile_texts(rows: list[Path], chance: random.Random) -> Iterator[bytes]:
    """Faulty texts, made of the smaller scenarios of the row files."""
    scenarios = [value for path in rows if path.stat().st_size < 4000 and isinstance(value := value_of(path), dict)]
    for _ in range(HOSTILE):
        yield hostile(chance, chance.choice(scenarios))


def compare(texts: Iterable[bytes]) -> subprocess.CompletedProcess[bytes]:
    framed = b"".join(b"%d\n%s" % (len(text), text) for text in texts)
    return subprocess.run([READINGS], input=framed, capture_output=True, timeout=300)


def check_alike(texts: list[bytes]) -> None:
    done = compare(texts)
    assert done.stderr == b""
    assert done.stdout == b"%d texts of the input and 100000 by chance are read alike\n" % len(texts)
    assert done.returncode == 0


def test_the_texts_of_tests(rows: list[Path]) -> None:
    texts = list(texts_of_tests(rows))
    assert len(texts) > 1000
    check_alike(texts)


def test_hostile_texts(rows: list[Path]) -> None:
    check_alike(list(hostile_texts(rows, random.Random(44))))


def test_an_input_that_is_cut_off_is_no_success() -> None:
    for framed in (b"x\n", b"2\n[", b"-1\n"):
        done = subprocess.run([READINGS], input=framed, capture_output=True, timeout=300)
        assert (done.stdout, done.returncode != 0) == (b"", True)
