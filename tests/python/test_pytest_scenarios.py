"""The plugin that runs scenarios as tests: passes, differences, refusals, and what it writes."""

from __future__ import annotations

import os
import re
import shutil
import subprocess
import sys
from pathlib import Path
from xml.etree import ElementTree

import pytest
from checking import TOP

EXAMPLES = sorted(path.stem for path in (TOP / "examples").glob("*.json"))


@pytest.fixture
def folder(tmp_path: Path) -> Path:
    """The examples, in a folder below one with an odd name."""
    made = tmp_path / "a folder's $x" / "below"
    shutil.copytree(
        TOP / "examples", made, ignore=lambda _, names: [name for name in names if not re.search(r"\.(json|out|err|status)$", name)]
    )
    return made


def run(folder: Path, program: Path, *words: object, plugin: str = "scenarios") -> subprocess.CompletedProcess[str]:
    environment = {**os.environ, "PYTHONPATH": str(TOP / "clients/python"), "TRACEHOST": str(program)}
    command = [sys.executable, "-m", "pytest", "-p", f"tracehost.pytest_{plugin}", "-p", "no:cacheprovider", "-q", "-rA"]
    command += [f"--tracehost-scenarios={folder.parent}", *map(str, words)]
    return subprocess.run(command, cwd=folder.parent.parent, env=environment, stdout=subprocess.PIPE, text=True, check=False)


def outcomes(done: subprocess.CompletedProcess[str]) -> dict[str, str]:
    return {
        Path(path).stem: word
        for word, path in re.findall(r"^(PASSED|FAILED|ERROR) (.*?\.json)::scenario", done.stdout, re.MULTILINE)
    }


def test_the_examples_pass(folder: Path, program: Path) -> None:
    """Also the one that is refused, as its files say; and the results are pytest's own, as JUnit's."""
    report = folder / "junit.xml"
    done = run(folder, program, f"--junit-xml={report}")
    assert done.returncode == 0 and outcomes(done) == dict.fromkeys(EXAMPLES, "PASSED"), done.stdout
    cases = ElementTree.parse(report).getroot().findall(".//testcase")
    assert len(cases) == len(EXAMPLES) and not any(list(case) for case in cases)


def test_beside_the_fixtures(folder: Path, program: Path) -> None:
    """A clone's page names only this plugin. An installed package names both, which is one plugin of a name."""
    for words in ((), ("-p", "tracehost.pytest_scenarios")):
        done = run(folder, program, *words, plugin="plugin")
        assert done.returncode == 0 and outcomes(done) == dict.fromkeys(EXAMPLES, "PASSED"), done.stdout
    done = run(folder, program, "-p", "no:tracehost.pytest_scenarios", plugin="plugin")
    assert done.returncode == 4 and outcomes(done) == {}


def test_other_json_files_are_no_tests(folder: Path, program: Path, tmp_path: Path) -> None:
    (tmp_path / "other.json").write_text('{"steps":[]}')
    (tmp_path / "test_one.py").write_text("def test_one(): pass\n")
    done = run(folder, program, tmp_path)
    assert len(outcomes(done)) == len(EXAMPLES) and f"{len(EXAMPLES) + 1} passed" in done.stdout


@pytest.mark.parametrize("change, wanted", [
    (lambda folder: (folder / "first.out").write_text("1001 1 ok\n"), r'-1001 1 ok\n\+1001 1 new 1000 100000'),
    (lambda folder: (folder / "first.out").unlink(), r"cannot read"),
    (lambda folder: (folder / "first.json").write_text('{"steps":[{"user":1001,"op":"fly"}]}'), r'refused: BadName at step 1\n.*"fly"'),
    (lambda folder: (folder / "first.status").write_text("1\n"), r"status 0 in place of 1"),
    (lambda folder: ((folder / "first.status").write_text("0\n"), (folder / "first.out").write_text("x\n")), r"-x"),
    (lambda folder: ((folder / "first.json").write_text("{"), (folder / "first.status").write_text("1")), r"standard output has"),
    (lambda folder: ((folder / "first.json").write_text("{"), (folder / "first.status").write_text("1"), (folder / "first.err").write_text("x\n")), r"BadJson\s+in place of\s+x"),
], ids=["differs", "no lines", "refused", "not refused", "status 0 and other lines", "a fault and lines", "another fault"])  # fmt: skip
def test_what_fails(folder: Path, program: Path, change: object, wanted: str) -> None:
    """By its name, with the program's words, and only that."""
    assert callable(change)
    change(folder)
    done = run(folder, program)
    assert done.returncode == 1
    assert outcomes(done) == {name: "FAILED" if name == "first" else "PASSED" for name in EXAMPLES}
    assert re.search(wanted, done.stdout), done.stdout
    assert "Traceback" not in done.stdout


def test_a_link_is_a_test_too(folder: Path, program: Path, tmp_path: Path) -> None:
    """Of a scenario elsewhere: it isn't left out unseen."""
    shutil.move(folder / "first.json", tmp_path / "first.json")
    (folder / "first.json").symlink_to(tmp_path / "first.json")
    assert outcomes(run(folder, program)) == dict.fromkeys(EXAMPLES, "PASSED")
    (folder / "first.out").write_text("x\n")
    assert outcomes(run(folder, program))["first"] == "FAILED"


def test_blessed_lines_fail_once(folder: Path, program: Path) -> None:
    wanted = (folder / "first.out").read_text()
    (folder / "first.out").unlink()
    (folder / "job_control.out").write_text("x\n")
    done = run(folder, program, "--tracehost-bless")
    assert {name for name, word in outcomes(done).items() if word == "FAILED"} == {"first", "job_control"}
    assert (folder / "first.out").read_text() == wanted
    assert run(folder, program).returncode == 0


def test_a_program_that_cannot_run(folder: Path, tmp_path: Path) -> None:
    """A fault of ours is no difference."""
    done = run(folder, tmp_path / "none")
    assert done.returncode == 1 and set(outcomes(done).values()) == {"FAILED"} and "No such file or directory" in done.stdout
