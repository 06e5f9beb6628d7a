"""Random hostile suites with the plugin for pytest and without it: the same outcomes, in the same order, and the same status.

TRACEHOST_TEST_SCALE multiplies the number of suites: 1 for some 20 seconds.
"""

from __future__ import annotations

import importlib.util
import json
import os
import pathlib
import subprocess
import sys
from concurrent.futures import ThreadPoolExecutor

import pytest

import tracehost

sys.path.insert(0, str(pathlib.Path(__file__).resolve().parent))
from hostile_suites import WORKERS, Suite, made  # noqa: E402

SCALE = int(os.environ.get("TRACEHOST_TEST_SCALE", "1"))
CLIENT = pathlib.Path(tracehost.__file__).resolve().parents[1]
PLUGINS = ["xdist", "pytest_forked", "pytest_rerunfailures", "pytest_subtests"]
SECONDS = 600

# the fixtures that the plugin has, without what it does
PLAIN = """
import pytest
from tracehost import Host

@pytest.fixture(scope="session")
def new_tracehost():
    return lambda name="session", **settings: Host(**settings)

@pytest.fixture
def tracehost():
    with Host() as host:
        yield host
"""
# Writes each report; what tests patch later isn't used. It is no chance when an object in a cycle goes.
CONFTEST = """
import gc, json, os
from os import write

gc.disable()
encode = json.JSONEncoder().encode
log = os.dup(os.open("outcomes", os.O_WRONLY | os.O_CREAT | os.O_APPEND))

def pytest_runtest_logreport(report):
    if not is_worker:
        kind = type(report.longrepr).__name__
        write(log, (encode([report.nodeid, report.when, report.outcome, kind]) + "\\n").encode())

is_worker = "PYTEST_XDIST_WORKER" in os.environ
"""


def outcomes(suite: Suite, room: pathlib.Path, *words: str) -> tuple[int, list[list[str]], str]:
    """The status of a run, its reports, those of a test together, and what it printed."""
    room.mkdir()
    for name, text in {**suite.files, "plain.py": PLAIN, "conftest.py": CONFTEST}.items():
        (room / name).write_text(text)
    path = os.pathsep.join([str(CLIENT), str(room), os.environ.get("PYTHONPATH", "")])
    environment = {name: value for name, value in os.environ.items() if not name.startswith("PYTEST_")}
    done = subprocess.run(
        [sys.executable, "-m", "pytest", "-p", "no:cacheprovider", "-p", "no:randomly", f"--basetemp={room / 'base'}", *words, *suite.words],
        cwd=room, env={**environment, "PYTHONPATH": path}, stdin=subprocess.DEVNULL, stdout=subprocess.PIPE,
        stderr=subprocess.STDOUT, text=True, errors="replace", check=False, timeout=SECONDS,
    )  # fmt: skip
    reports = [json.loads(line) for line in (room / "outcomes").read_text().splitlines()]
    return done.returncode, sorted(reports, key=lambda report: report[0]), done.stdout


@pytest.mark.parametrize("seed", range(6 * SCALE))
def test_the_outcomes_are_the_same(tmp_path: pathlib.Path, seed: int) -> None:
    suite = made(seed, [name for name in PLUGINS if importlib.util.find_spec(name)])
    artifacts = [f"--tracehost-artifacts={suite.folder}"] if suite.folder else []
    ways = {"without": ["-p", "no:tracehost.pytest_plugin", "-p", "plain"], "with": ["-p", "tracehost.pytest_plugin", *artifacts]}
    with ThreadPoolExecutor(2) as pool:
        runs = {name: pool.submit(outcomes, suite, tmp_path / name, *words) for name, words in ways.items()}
    without, with_it = (runs[name].result() for name in ways)
    assert without[1], without[2]
    if suite.words == WORKERS and without[0] == pytest.ExitCode.INTERNAL_ERROR:  # pytest's own; what came until then is chance
        assert with_it[0] == without[0]
    else:
        assert with_it[:2] == without[:2], with_it[2][-5000:]
