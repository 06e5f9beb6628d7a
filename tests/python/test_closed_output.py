"""No command ends with status 0 if its output can't be written: it says why in one line. A closed standard input too.

    python3 -m pytest tests/python/test_closed_output.py
"""

from __future__ import annotations

import os
import pathlib
import subprocess

import pytest

TOP = pathlib.Path(__file__).resolve().parents[2]
STEP = '{"user":1001,"step":1,"index":1,"asked":{"op":"spawn"},"reply":"new","pid":1000,"lwp":100000}'

# what each command is called in its own messages, and its words; TRACE is a file with a trace
COMMANDS = {
    "viewer/make --help": ("viewer/make", "viewer/make --help"),
    "viewer/make": ("viewer/make", "viewer/make"),
    "viewer/make TRACE": ("viewer/make", 'viewer/make "$TRACE"'),
    "viewer/perfetto --help": ("viewer/perfetto", "viewer/perfetto --help"),
    "viewer/perfetto TRACE": ("viewer/perfetto", 'viewer/perfetto "$TRACE"'),
    "tools/sbom --help": ("tools/sbom", "tools/sbom --help"),
    "tools/sbom": ("tools/sbom", "tools/sbom"),
    "tracehost-coverage --help": ("tracehost-coverage", "python3 -m tracehost.coverage --help"),
    "tracehost-coverage TRACE": ("tracehost-coverage", "python3 -m tracehost.coverage examples/first.json"),
    "tracehost-debug --help": ("tracehost-debug", "python3 -m tracehost.debug --help"),
    "tracehost-debug": ("tracehost-debug", "echo spawn | python3 -m tracehost.debug"),
    "tracehost-debug FILE": ("tracehost-debug", "python3 -m tracehost.debug --batch list examples/first.json"),
}
WAYS = {">&-": "Bad file descriptor", ">/dev/full": "No space left on device"}


@pytest.fixture
def trace(tmp_path: pathlib.Path) -> pathlib.Path:
    file = tmp_path / "trace"
    file.write_text(f"{STEP}\n")
    return file


def run(code: str, trace: pathlib.Path) -> tuple[int, str]:
    """The status of a command of the shell, and what it prints on standard error."""
    environment = {**os.environ, "TRACE": str(trace), "PYTHONPATH": str(TOP / "clients/python")}
    done = subprocess.run(["bash", "-c", code], cwd=TOP, env=environment, stderr=subprocess.PIPE, text=True, timeout=300)
    return done.returncode, done.stderr


@pytest.mark.parametrize("way", WAYS)
@pytest.mark.parametrize("name", COMMANDS)
def test_an_output_that_cannot_be_written(trace: pathlib.Path, name: str, way: str) -> None:
    own_name, code = COMMANDS[name]
    assert run(f"{code} {way}", trace) == (1, f"{own_name}: standard output: {WAYS[way]}\n")


@pytest.mark.parametrize("name", COMMANDS)
def test_both_outputs_closed(trace: pathlib.Path, name: str) -> None:
    status, _ = run(f"{COMMANDS[name][1]} >&- 2>&-", trace)
    assert status == 1


@pytest.mark.parametrize(
    "code", ["viewer/make -", "viewer/perfetto -", "python3 -m tracehost.debug", "python3 -m tracehost.debug -"]
)
def test_a_closed_input(trace: pathlib.Path, code: str) -> None:
    own_name = "tracehost-debug" if "debug" in code else code.split()[0]
    assert run(f"{code} <&- >/dev/null", trace) == (1, f"{own_name}: standard input: Bad file descriptor\n")


@pytest.mark.parametrize("name", [name for name in COMMANDS if name.endswith("--help")])
@pytest.mark.parametrize("way", ["", "<&-"])
def test_help(trace: pathlib.Path, name: str, way: str) -> None:
    """It needs no standard input."""
    assert run(f"{COMMANDS[name][1]} {way} | grep -q {COMMANDS[name][0].rpartition('/')[2]}; exit ${{PIPESTATUS[0]}}", trace) == (
        0,
        "",
    )


@pytest.mark.parametrize("way", WAYS)
@pytest.mark.parametrize("code", ["tools/deb --help", "tools/version", "tools/version --time", "tools/program", "tools/library"])
def test_a_tool(trace: pathlib.Path, code: str, way: str) -> None:
    """The shell or a command of the system says why."""
    status, said = run(f"{code} {way}", trace)
    assert status != 0 and said.endswith(f"{WAYS[way]}\n") and said.count("\n") == 1, said


@pytest.mark.parametrize("way", WAYS)
def test_the_program(trace: pathlib.Path, way: str) -> None:
    """By the launcher, and as the package of Python starts it."""
    for code in ("./tracehost --version", "./tracehost examples/first.json"):
        assert run(f"{code} {way}", trace) == (3, "tracehost: cannot write\n")
