"""./test: what its names mean, its counts and its status, in a small repository with stand-ins for rt and pytest."""

from __future__ import annotations

import os
import shutil
import signal
import subprocess
import sys
import time
from pathlib import Path
from xml.sax.saxutils import quoteattr

import pytest

from checking import TOP, Ended, load_script

# notes its words; $RT is what it prints, $STATUS its status, and with $BUILDS it builds the program
RT = """#!/bin/sh
echo "rt $*" >>"$ROOM/ran"
[ -z "$BUILDS" ] || { mkdir -p crates/tracehost/out && cp "$0" crates/tracehost/out/tracehost; }
printf '%b' "${RT-7 passed, 0 failed\\n}"
exit "${STATUS-0}"
"""
# notes its words after the report; $COUNTS are what it reports: tests, failures, errors and skipped; with $CASES the tests of the file `cases`
PYTEST = """\
import os, sys
if __name__ == "__main__":
    if "--collect-only" in sys.argv:
        rows = [f"rows.py::test_row[{row}]" for row in ("examples/first", "rows/explain/key_twice", "rows/signals/first")]
        names = ["lines.py::test_both", "lines.py::test_each[one case]", *rows, "rows.py::test_other"]
        print(*(f"tests/python/test_{name}" for name in names), "", "6 tests collected", sep="\\n")
        sys.exit()
    print("tested:", os.environ.get("TRACEHOST"))
    *_, report = (word.partition("=")[2] for word in sys.argv if word.startswith("--junit-xml="))
    with open(os.environ["ROOM"] + "/ran", "a") as ran:
        print("pytest", *(word for word in sys.argv[3:] if not word.startswith("--junit-xml=")), file=ran)
    names = ("tests", "failures", "errors", "skipped")
    if counts := os.environ.get("COUNTS", "3 0 0 0").split():
        with open(report, "w") as file:
            cases = open(f"{os.environ['ROOM']}/cases").read() if "CASES" in os.environ else ""
            counted = " ".join(f'{n}="{c}"' for n, c in zip(names, counts))
            file.write(f"<testsuites><testsuite {counted}>{cases}</testsuite></testsuites>")
    sys.exit(int(os.environ.get("ENDS", "0")))
"""
TOOLS = {
    "sources": "echo 1",
    "program": ":",
    "build_library.py": "exit ${BUILD-0}",
    "release": 'echo "${RELEASE-2 passed, 0 failed, 0 skipped}"',
}
FILES = """crates/signals/src/lib.rt crates/lines/src/lib.rt tests/python/test_lines.py tests/python/test_rows.py
clients/python/tests/test_lines.py xdist.py"""
ROW = "tests/python/test_rows.py::test_row"
LINES = "tests/python/test_lines.py clients/python/tests/test_lines.py"


class Small:
    """A small repository."""

    def __init__(self, room: Path) -> None:
        self.room, self.top = room, room / "top"
        for name in FILES.split():
            self.write(f"top/{name}", "")
        shutil.copy(TOP / "test", self.top)
        self.write("top/tests/packages.txt", "# a command that is here\nsome-package sh\n")
        self.write("top/pytest.py", PYTEST)
        self.write("bin/rt", RT)
        for name, code in TOOLS.items():
            self.write(f"top/tools/{name}", f"#!/bin/sh\n{code}\n")

    def write(self, name: str, text: str) -> None:
        path = self.room / name
        path.parent.mkdir(parents=True, exist_ok=True)
        path.write_text(text)
        path.chmod(0o755)

    def test(self, *words: str, **environment: str) -> Ended:
        (self.room / "ran").unlink(missing_ok=True)
        ran = subprocess.run(
            [self.top / "test", *words], cwd=self.top, capture_output=True, text=True, check=False,
            env={**os.environ, "PATH": f"{self.room}/bin:/usr/bin:/bin", "ROOM": str(self.room), **environment},
        )  # fmt: skip
        return Ended(ran.returncode, ran.stdout, ran.stderr)

    def ran(self) -> list[str]:
        ran = self.room / "ran"
        return ran.read_text().splitlines() if ran.exists() else []


@pytest.fixture
def small(tmp_path: Path) -> Small:
    return Small(tmp_path)


def last(ended: Ended) -> tuple[int, str]:
    return ended.status, ended.out.splitlines()[-1]


def test_everything(small: Small) -> None:
    """The gate's counts, one for its edits and one for the library, the release's, and pytest's."""
    assert last(small.test()) == (0, "14 passed, 0 failed, 0 skipped")
    assert small.ran() == ["rt ci", "pytest"]


@pytest.mark.parametrize(
    "name, runs",
    [
        ("gate", "rt ci"),
        ("signals", "rt ci signals"),
        ("crates/lines", "rt ci lines"),
        ("lines", f"pytest {LINES}"),
        ("tests/python/test_lines.py", f"pytest {LINES}"),
        ("rows", "pytest tests/python/test_rows.py"),
        ("explain", f"pytest {ROW}[rows/explain/key_twice]"),
        ("rows/signals", f"pytest {ROW}[rows/signals/first]"),
        ("key_twice", f"pytest {ROW}[rows/explain/key_twice]"),
        ("tests/rows/explain/key_twice.json", f"pytest {ROW}[rows/explain/key_twice]"),
        ("first", f"pytest {ROW}[examples/first] {ROW}[rows/signals/first]"),
        ("test_both", "pytest tests/python/test_lines.py::test_both"),
        ("one case", "pytest tests/python/test_lines.py::test_each[one case]"),
        ("rows::test_row", "pytest tests/python/test_rows.py::test_row"),
    ],
)
def test_what_a_name_means(small: Small, name: str, runs: str) -> None:
    """`lines` and `signals` are of several kinds: the first of them in --help is meant."""
    assert small.test(name).status == 0
    assert small.ran() == [runs]


def test_the_parts_come_before_pytest(small: Small) -> None:
    assert last(small.test("lines", "signals", "release", "-x", "-n", "4")) == (0, "12 passed, 0 failed, 0 skipped")
    assert small.ran() == ["rt ci signals", f"pytest -x -n 4 {LINES}"]


def test_a_choice_of_tests_runs_only_pytest(small: Small) -> None:
    assert small.test("-k", "some").status == 0
    assert small.ran() == ["pytest -k some"]


@pytest.mark.parametrize("names", [["nothing"], ["lines", "nothing"], ["gate", "crates/nothing"], ["rows/nothing"]])
def test_an_unknown_name(small: Small, names: list[str]) -> None:
    """Nothing runs, and the names that there are are printed."""
    ended = small.test(*names)
    assert (ended.status, ended.out) == (2, "")
    assert ended.err.startswith(f"test: {names[-1]}: unknown; there are gate, release, coverage,")
    assert small.ran() == []


@pytest.mark.parametrize(
    "words, environment, ends",
    [
        (["lines"], {"COUNTS": "9 1 2 3", "ENDS": "1"}, (1, "3 passed, 3 failed, 3 skipped")),
        (["lines"], {"COUNTS": "2 0 0 2"}, (1, "0 passed, 0 failed, 2 skipped")),
        (["lines"], {"COUNTS": "2 0 0 0", "ENDS": "3"}, (1, "2 passed, 1 failed, 0 skipped")),
        (["lines"], {"COUNTS": "", "ENDS": "4"}, (1, "0 passed, 1 failed, 0 skipped")),
        (["release", "lines"], {"COUNTS": ""}, (1, "2 passed, 1 failed, 0 skipped")),
        (["release", "lines"], {"COUNTS": "1 0 0 0<"}, (1, "2 passed, 1 failed, 0 skipped")),
        (["signals"], {"RT": "4 passed, 2 failed (and more)\n", "STATUS": "1"}, (1, "4 passed, 2 failed, 0 skipped")),
        (["signals"], {"RT": "4 passed, 0 failed\n", "STATUS": "2"}, (1, "4 passed, 1 failed, 0 skipped")),
        (["signals"], {"RT": "killed\n", "STATUS": "0"}, (1, "0 passed, 1 failed, 0 skipped")),
        (["signals"], {"RT": ""}, (1, "0 passed, 1 failed, 0 skipped")),
        (["gate"], {"RT": "rt: BAD EDIT: one\n4 passed, 0 failed\n"}, (1, "4 passed, 1 failed, 0 skipped")),
        (["gate"], {"BUILD": "1"}, (1, "8 passed, 1 failed, 0 skipped")),
        (["release"], {"RELEASE": "1 passed, 1 failed, 1 skipped"}, (1, "1 passed, 1 failed, 1 skipped")),
        (["release", "lines"], {"RELEASE": "0 passed, 0 failed, 2 skipped"}, (0, "3 passed, 0 failed, 2 skipped")),
    ],
)
def test_counts_and_status(small: Small, words: list[str], environment: dict[str, str], ends: tuple[int, str]) -> None:
    assert last(small.test(*words, **environment)) == ends


def told(ended: Ended) -> list[str]:
    """What is said of failures at the end, before the counts."""
    *lines, _ = ended.out.splitlines()
    return lines[lines.index("== what failed") + 1 :] if "== what failed" in lines else []


def test_what_failed_in_the_gate(small: Small) -> None:
    """The lines that tell of it, wherever they are, and the last 15; not the edits that are refused, as they must be."""
    low = ["rt: low NOT PROVED", "rt: low/one.edit: NOT REFUSED: the crate is still proved", "rt: low: refused: it has no head"]
    fine = ["rt: high proved", "rt: high/two.edit: refused, as it must be: a goal", "rt: must-fail edits: 9 refused", "0 failed"]
    last_lines = [f"rt: line {number}" for number in range(14)] + ["5 passed, 3 failed"]
    ended = small.test("gate", RT="\\n".join([*fine, *low, *fine, *last_lines]) + "\\n", STATUS="1")
    assert last(ended) == (1, "6 passed, 3 failed, 0 skipped")
    assert told(ended) == ["rt ci", *(f"  {line}" for line in [*low, *last_lines])]


def test_most_lines_of_a_gate(small: Small) -> None:
    lines = [*(f"rt: crate{number} NOT PROVED" for number in range(130)), *["rt: more"] * 14, "0 passed, 130 failed"]
    ended = small.test("signals", RT="\\n".join(lines) + "\\n", STATUS="1")
    kept = [*lines[:100], ".. and 30 more", *lines[-15:]]
    assert told(ended) == ["rt ci signals", *(f"  {line}" for line in kept)]


@pytest.mark.parametrize("is_old", [False, True], ids=["none", "an old one"])
def test_no_program_was_built(small: Small, is_old: bool) -> None:
    """Then no test runs, also if there is a program of an earlier gate."""
    if is_old:
        small.write("top/crates/tracehost/out/tracehost", "")
    ended = small.test(RT="0 passed, 1 failed\\n", STATUS="1")
    assert last(ended) == (1, "1 passed, 2 failed, 1 skipped")
    assert small.ran() == ["rt ci"]
    assert told(ended) == ["rt ci", "  0 passed, 1 failed", "no program was built: the tests were not run"]


def test_a_gate_that_fails_may_have_built_the_program(small: Small) -> None:
    """An edit that is still proved is one that says nothing of the program."""
    ended = small.test(RT="6 passed, 1 failed\\n", STATUS="1", BUILDS="1")
    assert last(ended) == (1, "12 passed, 1 failed, 0 skipped")
    assert small.ran() == ["rt ci", "pytest"]
    assert f"tested: {small.top}/crates/tracehost/out/tracehost" in ended.out


def case(name: str, *faults: tuple[str, str], text: str = "", module: str = "tests.python.test_lines") -> str:
    said = "".join(f"<{kind} message={quoteattr(message)}>{text}</{kind}>" for kind, message in faults)
    return f'<testcase classname="{module}" name={quoteattr(name)}>{said}</testcase>'


def test_what_failed_in_pytest(small: Small) -> None:
    """A line for each failure, with its first line, and one for all errors of one text."""
    cases = [
        case("test_both"),
        case("test_each[one case]", ("failure", "AssertionError: assert 1 == 2\n  + where 1 = f()")),
        case("test_it", ("failure", "ValueError: no"), module="tests.python.test_lines.Pages"),
        *(case(f"test_{number}", ("error", 'failed on setup with "Failed: no program"')) for number in range(7000)),
        case("tests.python.test_lines", ("error", "collection failure"), text="import x\nE   ImportError: no x\n", module=""),
    ]
    small.write("cases", "".join(cases))
    ended = small.test("lines", COUNTS="7004 2 7001 0", CASES="1", ENDS="1")
    assert last(ended) == (1, "1 passed, 7003 failed, 0 skipped")
    lines = "tests/python/test_lines.py"
    assert told(ended) == [
        "pytest",
        f"  FAILED {lines}::test_each[one case] - AssertionError: assert 1 == 2",
        f"  FAILED {lines}::Pages::test_it - ValueError: no",
        f'  ERROR {lines}::test_0 and 6999 more - failed on setup with "Failed: no program"',
        f"  ERROR {lines} - collection failure: ImportError: no x",
    ]


def test_most_lines_of_pytest(small: Small) -> None:
    small.write("cases", "".join(case(f"test_{number}", ("failure", f"KeyError: {number}")) for number in range(103)))
    ended = small.test("lines", COUNTS="103 103 0 0", CASES="1", ENDS="1")
    assert len(told(ended)) == 1 + 100 + 1
    assert told(ended)[-2:] == ["  FAILED tests/python/test_lines.py::test_99 - KeyError: 99", "  .. and 3 more"]


def test_a_pytest_that_ends_without_a_report(small: Small) -> None:
    ended = small.test("lines", COUNTS="", ENDS="4", TRACEHOST="/a/program")
    assert told(ended) == ["pytest (status 4): it left no report", "  tested: /a/program"]


def test_a_command_that_leaves_a_process(small: Small) -> None:
    """The process holds the pipe of what the command prints."""
    small.write("bin/rt", "#!/bin/sh\nsleep 300 &\necho $! >$ROOM/pid\necho 1 passed, 0 failed\n")
    began = time.monotonic()
    try:
        assert last(small.test("signals")) == (0, "1 passed, 0 failed, 0 skipped")
        assert time.monotonic() - began < 200
    finally:
        os.kill(int((small.room / "pid").read_text()), signal.SIGKILL)


def test_nothing_failed(small: Small) -> None:
    assert told(small.test("lines")) == []


def test_what_runs_is_said_first(small: Small) -> None:
    ended = small.test()
    assert ended.out.startswith(
        """== what runs; times are of four cores without other work
gate: proofs, tests and must-fail edits of all crates; some 80 minutes from nothing
release: the release's files, against those that are built here
pytest: all tests; some 21 minutes with `-n 4`, up to four times as long without; `./test quick` takes three at most
== gate
"""
    )
    ended = small.test("signals", "lines", "key_twice", "-x", PATH="/usr/bin:/bin")
    assert ended.out.startswith(
        """== what runs; times are of four cores without other work
signals: `rt ci signals`
pytest: lines, key_twice
skipped: the crate signals needs the command rt of the Rattle kit: put the kit's bin/ on PATH
== pytest
"""
    )


def test_quick(small: Small) -> None:
    """With the release's program, or the one that is named; on up to four cores, or as many as are named."""
    cores, release = min(4, len(os.sched_getaffinity(0))), f"release/{os.uname().machine}-linux"
    ended = small.test("quick", TRACEHOST="", PATH="/usr/bin:/bin")
    assert last(ended) == (0, "3 passed, 0 failed, 0 skipped")
    assert small.ran()[0].startswith(f"pytest -n {cores} tests/python/test_rows.py tests/python/test_sessions.py ")
    assert f"tested: {small.top}/{release}/tracehost" in ended.out and "note:" not in ended.out
    assert "tested: /a/program" in small.test("quick", "-n", "2", TRACEHOST="/a/program").out
    assert small.ran()[0].startswith("pytest -n 2 tests/python/test_rows.py ")
    for digest, is_other in ("1", False), ("2", True):
        small.write(f"top/{release}/MANIFEST", f'{{"name": "sources", "digest": {{"sha256": "{digest}"}}}},\n')
        assert ("\nnote: the release was built from other sources " in small.test("quick", TRACEHOST="").out) == is_other


def test_the_tests_of_quick_are_there() -> None:
    tests = load_script(TOP / "test").QUICK
    words = [sys.executable, "-m", "pytest", "--collect-only", "-q", "-p", "no:cacheprovider", *tests]
    ran = subprocess.run(words, cwd=TOP, stdout=subprocess.PIPE, text=True, check=False)
    assert ran.returncode == 0 and ran.stdout.count("::") > 1000, ran.stdout


def test_without_the_kit(small: Small) -> None:
    ended = small.test("gate", "signals", "lines", PATH="/usr/bin:/bin")
    assert last(ended) == (0, "3 passed, 0 failed, 2 skipped")
    assert "skipped: the gate needs the command rt of the Rattle kit" in ended.out


def test_a_report_for_others(small: Small) -> None:
    """It is counted too, and one of an earlier run isn't."""
    report = small.room / "report.xml"
    assert last(small.test("lines", f"--junit-xml={report}")) == (0, "3 passed, 0 failed, 0 skipped")
    assert report.exists()
    assert last(small.test("lines", f"--junit-xml={report}", COUNTS="", ENDS="4")) == (1, "0 passed, 1 failed, 0 skipped")


def test_what_is_missing_is_named(small: Small) -> None:
    small.write("top/tests/packages.txt", "no-such-package no-such-command\n")
    ended = small.test("lines", "--no-install")
    assert last(ended) == (0, "3 passed, 0 failed, 0 skipped")
    assert "\n  sudo apt-get install -y --no-install-recommends no-such-package\n" in ended.out


def test_help(small: Small) -> None:
    ended = small.test("--help")
    assert (ended.status, ended.err, small.ran()) == (0, "", [])
    assert ended.out.startswith("usage: ./test [NAME..]")
