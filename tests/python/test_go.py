"""The client in Go, clients/go, over the library: its own tests, every scenario of tests/rows and examples by typed calls, random
sessions whose lines the program compares, the example, a test that fails, and the code of docs/CLIENTS.md.
"""

from __future__ import annotations

import os
import re
import shutil
import subprocess
from pathlib import Path
from typing import Any

import pytest
from c_programs import HEADERS, output
from checking import TOP, Checks, needs, run
from client_programs import FILES, words
from failing_programs import STEPS, STORY, WITH_COMMANDS, page_of
from golang import MODULE, Go
from row_files import Located
from stranger import block

__all__ = ["words"]  # a fixture
PAGE = (TOP / "docs/CLIENTS.md").read_text(encoding="utf-8")
GIVEN_MORE = ("TestFails", "TestPasses", "TestSideBySide", "TestSteps", "TestScenarios", "TestCodes")

pytestmark = needs("go", "gcc", "pkg-config")


@pytest.fixture(scope="module")
def go(library: Path, tmp_path_factory: pytest.TempPathFactory) -> Go:
    return Go(library, tmp_path_factory.mktemp("go"))


def test_its_format() -> None:
    assert output("gofmt", "-l", MODULE) == ""


def test_vet(go: Go) -> None:
    go("vet", "./...")


def test_it_has_at_most_900_lines() -> None:
    """A client over the library is small. The tables are generated."""
    sources = [path for path in MODULE.glob("*.go") if path.name != "tables.go" and not path.name.endswith("_test.go")]
    assert sum(bool(line.strip()) for path in sources for line in path.read_text().splitlines()) <= 900


def test_its_own_tests(go: Go, program: Path, checks: Checks) -> None:
    """Each of them counts as a check. Those that this module gives more are skipped there."""
    for result, name in re.findall(
        r"^--- (\w+): (\w+)", go("test", "-v", ".", environment={"TRACEHOST": str(program)}), re.MULTILINE
    ):
        checks.check(result == "PASS" or name in GIVEN_MORE, name)


def test_its_pointers(go: Go) -> None:
    """Each pointer that goes to C is checked, and those that C stores."""
    go("test", "-count=1", ".", environment={"GODEBUG": "cgocheck=2"})


def test_the_scenarios(go: Go, words: Path, located: Located, tmp_path: Path) -> None:
    shutil.copytree(words, tmp_path / "words")
    for file in map(located, FILES):
        shutil.copy((TOP / file).with_suffix(".out"), tmp_path / "words" / str(file.with_suffix(".out")).replace("/", "-"))
    environment = {"TRACEHOST_WORDS": str(tmp_path / "words")}
    said = go("test", "-count=1", "-v", "-run", "^TestScenarios$", ".", environment=environment)
    ((scenarios, calls),) = re.findall(r"^(\d+) scenarios, (\d+) typed calls$", said, re.MULTILINE)
    assert int(scenarios) == len(FILES) and int(calls) > 10000


def test_random_sessions(go: Go, program: Path, tmp_path: Path) -> None:
    """The program answers the recorded scenarios by what the typed calls have returned."""
    go("test", "-count=1", "-run", "^TestRandomSessions$", ".", environment={"TRACEHOST_RECORDS": str(tmp_path)})
    records = sorted(tmp_path.glob("*.json"))
    assert len(records) == 100
    for record in records:
        assert run(program, record, "--expect", record.with_suffix(".out")).status == 0, record.read_text()


def test_a_library_that_runs_out_of_memory(tmp_path: Path) -> None:
    source = MODULE / "testdata/codes.c"
    output("cc", "-std=c11", "-O1", "-fPIC", *HEADERS, "-c", "-o", tmp_path / "codes.o", source)
    output("ar", "rcs", tmp_path / "libtracehost.a", tmp_path / "codes.o")
    command = ["test", "-count=1", "-v", "-run", "^TestCodes$", "."]
    assert "--- PASS: TestCodes" in Go(tmp_path, tmp_path)(*command, environment={"TRACEHOST_CODES": "1"})


def test_the_example(go: Go) -> None:
    assert go("run", "./examples/debugger") == (TOP / "clients/debugger.out").read_text()


@pytest.fixture(scope="module")
def failed(go: Go, program: Path, tmp_path_factory: pytest.TempPathFactory) -> tuple[Path, str]:
    """Where a failing test leaves its session, and what it prints."""
    folder = tmp_path_factory.mktemp("failed")
    environment = {"TRACEHOST": str(program), "TRACEHOST_ARTIFACTS": str(folder), "TRACEHOST_FAILS": "1"}
    return folder, go("test", "-count=1", "-run", "^TestFails$", ".", environment=environment, status=1)


def test_a_failed_test(failed: tuple[Path, str], program: Path) -> None:
    """The same as in other languages, whose test of this session has the same story and a page of the same step."""
    folder, said = failed
    (scenario,) = folder.glob("*.json")
    assert re.fullmatch(r"tracehost\.test\.TestFails-[0-9a-f]{12}\.json", scenario.name)
    assert sorted(path.suffix for path in folder.iterdir()) == [".html", ".json", ".out"]
    assert STORY in said and f"to go on from here: tracehost-debug {scenario}" in said
    assert run(program, scenario, "--expect", scenario.with_suffix(".out")).status == 0
    assert len(scenario.with_suffix(".out").read_text().splitlines()) == STEPS
    failure: Any = page_of(scenario.with_suffix(".html"))["failure"]
    assert failure["step"] == STEPS
    assert run(TOP / "bin/tracehost-debug", scenario, given="state\n").status == 0


def test_a_test_that_dies(go: Go, tmp_path: Path) -> None:
    """Its files keep the process's number, and its next run tells, and removes them."""
    environment = {"TRACEHOST_ARTIFACTS": str(tmp_path), "TRACEHOST_FAILS": "dies"}
    go("test", "-count=1", "-run", "^TestFails$", ".", environment=environment, status=1)
    assert sorted(re.sub(r"\d+$", "N", path.name.partition("-")[2][12:]) for path in tmp_path.iterdir()) == [".json.N", ".out.N"]
    environment["TRACEHOST_FAILS"] = "passes"
    said = go("test", "-count=1", "-v", "-run", "^TestFails$", ".", environment=environment)
    assert "left by a test that ended its process" in said and not [*tmp_path.iterdir()]


def test_processes_at_once(go: Go, program: Path, tmp_path: Path) -> None:
    """Of one test, in one folder: the scenario and the lines that stay are those of one process."""
    go("test", "-c", "-o", tmp_path / "debugger.test")
    environment = {
        **os.environ,
        **WITH_COMMANDS,
        "TRACEHOST_ARTIFACTS": str(tmp_path / "left"),
        "TRACEHOST": "/none",
        "TRACEHOST_DEBUG": "/none",
    }
    command = [str(tmp_path / "debugger.test"), "-test.run", "^TestFails$"]
    for _ in range(5):
        runs = [
            subprocess.Popen(
                command, cwd=MODULE, env={**environment, "TRACEHOST_FAILS": way}, stdout=subprocess.PIPE, stderr=subprocess.STDOUT
            )
            for way in ("1", "passes", "1", "passes", "1", "1")
        ]
        said = [one.communicate()[0].decode() for one in runs]
        assert [one.returncode for one in runs] == [1, 0, 1, 0, 1, 1], said
        assert not any("record stays" in one for one in said), said
        left = sorted(path.suffix for path in (tmp_path / "left").iterdir())
        assert left in ([], [".json", ".out"]), left
        for scenario in (tmp_path / "left").glob("*.json"):
            assert run(program, scenario, "--expect", scenario.with_suffix(".out")).status == 0


@pytest.fixture
def page(tmp_path: Path) -> Path:
    """A module that requires the client as the page shows it."""
    (tmp_path / "main.go").write_text(block("CLIENTS.md", "go"))
    (clients,) = re.findall(r"^    (go mod edit .*)$", PAGE, re.MULTILINE)
    (tmp_path / "go.mod").write_text("module page\n\ngo 1.19\n")
    subprocess.run(clients.replace("../tracehost", str(TOP)), shell=True, cwd=tmp_path, check=True)
    return tmp_path


def test_the_page(go: Go, page: Path) -> None:
    wanted = re.search(r"\nprints\n\n((?:    .*\n)+)", PAGE.partition("\n## Go\n")[2])
    assert wanted and go("run", ".", cwd=page) == re.sub("^    ", "", wanted[1], flags=re.MULTILINE)


def test_a_clone_has_what_the_page_needs(page: Path, tmp_path: Path) -> None:
    """`. ./activate` names the clone's library to pkg-config."""
    command = f"cd '{TOP}' && . ./activate && cd '{page}' && go vet ."
    environment = {**os.environ, "GOPROXY": "off", "GOCACHE": str(tmp_path / "cache")}
    environment.pop("PKG_CONFIG_PATH", None)
    subprocess.run(["sh", "-c", command], env=environment, check=True)


def test_a_library_of_another_version(library: Path, page: Path) -> None:
    archive, version = (library / "libtracehost.a").read_bytes(), run(TOP / "tools/version").out.strip()
    here, there = f"{version}\0".encode(), f"{version[:-1]}x\0".encode()
    assert archive.count(here) == 1
    (page / "libtracehost.a").write_bytes(archive.replace(here, there))
    built = subprocess.run(
        ["go", "run", "."], cwd=page, env={**os.environ, **Go(page, page).environment}, capture_output=True, text=True, check=False
    )
    assert built.returncode == 1
    assert f"the library is of version {version[:-1]}x, and this package of {version}" in built.stderr, built.stderr
