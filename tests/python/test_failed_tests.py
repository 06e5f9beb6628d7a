"""What a test in C, C++ or Rust leaves if it fails: scenario, lines and page. One that passes leaves nothing.

A full disk, odd names, two tests of a name, threads, forks, aborts and a missing viewer change no test's outcome.
"""

from __future__ import annotations

import fcntl
import os
import pty
import re
import signal
import subprocess
import termios
import time
from concurrent.futures import ThreadPoolExecutor
from pathlib import Path

import pytest
from c_programs import sanitized
from checking import TOP, needs, run
from failing_programs import (
    MADE,
    STEPS,
    STORY,
    WITH_COMMANDS,
    Failing,
    Programs,
    failing,
    fails,
    in_c,
    in_cpp,
    languages,
    page_of,
    passes,
    stem_of,
)

__all__ = ["failing"]  # a fixture
pytestmark = [needs("cc"), needs("c++")]
VIEWER = TOP / "viewer/make"
TICK = 0.05  # seconds, by which a file's time may be behind
# what the page says of a failure; else the assertion
SAID = {
    "c": "TH_WSTOPSIG(status) == wanted",
    "rust": "assertion `left == right` failed",
    "go": "the test has failed",  # the package testing tells no more
}


@pytest.fixture(scope="module")
def programs(library: Path, program: Path, tmp_path_factory: pytest.TempPathFactory) -> Programs:
    """They find the viewer that is to be tested."""
    return Programs(tmp_path_factory.mktemp("failing"), library, program, {"TRACEHOST_VIEW": str(VIEWER)})


def key(failing: Failing) -> str:
    return failing.name.split()[0]


def files(*stems: str) -> list[str]:
    return sorted(f"{stem}.{end}" for stem in stems for end in ("html", "json", "out"))


def check_record(folder: Path, stem: str, program: Path, steps: int = STEPS) -> None:
    """The scenario has so many steps, and the program prints its lines."""
    ran = run(program, folder / f"{stem}.json", "--expect", folder / f"{stem}.out")
    assert (ran.status, ran.err) == (0, "")
    assert len((folder / f"{stem}.out").read_text().splitlines()) == steps


def check_page(folder: Path, stem: str, test: str, said: str, step: int | None = STEPS) -> None:
    """The page shows the test, what was said, and the step; if that is None, any."""
    failure = page_of(folder / f"{stem}.html")["failure"]
    assert isinstance(failure, dict)
    assert failure["test"] == test and step in (failure["step"], None)
    assert said in failure["message"]


@languages(*MADE)
def test_one_that_passes_leaves_nothing(failing: Failing, tmp_path: Path) -> None:
    ran = failing(passes(failing), tmp_path / "left")
    assert (ran.status, ran.left) == (0, []), ran.said
    assert "tracehost:" not in ran.said


@languages(*MADE)
def test_one_that_fails(failing: Failing, tmp_path: Path, program: Path) -> None:
    """In a folder that isn't there yet. Its files are named, the story is told, and the assertion is on the page."""
    folder, case = tmp_path / "a b" / "left", fails(failing)
    ran = failing(case, folder, environment=WITH_COMMANDS)
    stem = failing.stem(case)
    assert ran.status != 0 and ran.left == files(stem), ran.said
    check_record(folder, stem, program)
    check_page(folder, stem, case, SAID.get(key(failing), "signal_after_step(test)"))
    for file in ran.left:
        assert str(folder / file) in ran.said
    indent = " " * 8 if failing.name == "go" else ""  # of go test's logs
    assert f"\n{indent}{STORY}\n" in ran.said and ran.said.count("to go on from here: ") == 1


@languages(*MADE)
def test_without_a_folder(failing: Failing, tmp_path: Path, program: Path) -> None:
    """Each test has its own, below the one for temporary files."""
    case = fails(failing)
    ran = failing(case, None, environment={"TMPDIR": str(tmp_path)})
    (folder,) = tmp_path.iterdir()
    assert ran.status != 0 and folder.name.startswith(f"tracehost-{case}-")
    assert sorted(path.name for path in folder.iterdir()) == files(failing.stem(case))
    assert folder.stat().st_mode & 0o77 == 0
    check_record(folder, failing.stem(case), program)
    assert failing(passes(failing), None, environment={"TMPDIR": str(tmp_path)}).status == 0
    assert [*tmp_path.iterdir()] == [folder]


@languages("c", "cpp", "rust")
def test_a_later_run_takes_the_place_of_an_earlier_one(failing: Failing, tmp_path: Path, program: Path) -> None:
    case = fails(failing)
    stem = failing.stem(case)
    for file in [*files(stem, f"{stem}-2"), f"{stem}.json.1", f"{stem}.out.1"]:
        (tmp_path / file).write_text("an earlier run\n" * 1000)
    time.sleep(TICK)
    ran = failing(case, tmp_path)
    assert ran.left == files(stem), ran.said
    assert f"tracehost: left by a test that ended its process: {tmp_path / stem}.json.1\n" in ran.said
    check_record(tmp_path, stem, program)
    check_page(tmp_path, stem, case, "")


@languages(*MADE)
def test_one_that_passes_removes_what_it_has_left(failing: Failing, tmp_path: Path) -> None:
    """No other test's, no other program's of this name, and none that somebody has."""
    test = passes(failing)
    stem, others = failing.stem(test), ["mine.txt", f"{failing.stem('passes_too')}.json", f"{failing.program.name}.{test}.json"]
    others += files(stem_of(Path("/another") / failing.program.name, test))
    for file in [*others, *files(stem, f"{stem}-2"), f"{stem}.json.1", f"{stem}.out.1", f"{stem}.json.2"]:
        (tmp_path / file).write_text("an earlier run\n")
    with open(tmp_path / f"{stem}.json.2", encoding="utf-8") as running:
        fcntl.flock(running, fcntl.LOCK_EX)  # by a process that is alive
        time.sleep(TICK)
        ran = failing(test, tmp_path)
    assert (ran.status, ran.left) == (0, sorted([*others, f"{stem}.json.2"])), ran.said


@languages("c", "cpp", "rust")
def test_two_of_the_same_name(failing: Failing, tmp_path: Path, program: Path) -> None:
    ran = failing("twice", tmp_path)
    stems = [failing.stem("twice"), f"{failing.stem('twice')}-2"]
    assert ran.left == files(*stems), ran.said
    for stem in stems:
        check_record(tmp_path, stem, program)


@languages("c", "cpp", "rust")
def test_eight_threads(failing: Failing, tmp_path: Path, program: Path) -> None:
    stem = failing.stem("threads")
    stems = [stem, *(f"{stem}-{number}" for number in range(2, 9))]
    assert failing("threads", tmp_path).left == files(*stems)
    for stem in stems:
        check_record(tmp_path, stem, program)
        check_page(tmp_path, stem, "threads", "")


@languages("c", "cpp", "rust")
def test_processes_at_once(failing: Failing, tmp_path: Path, program: Path) -> None:
    """Four times the same test: the files that stay are of one of them."""
    with ThreadPoolExecutor(4) as pool:
        assert all(ran.status != 0 for ran in pool.map(lambda _: failing("fails", tmp_path), range(4)))
    stem = failing.stem("fails")
    assert sorted(path.name for path in tmp_path.iterdir()) == files(stem)
    check_record(tmp_path, stem, program)


ODD = {
    "a/b \u00e9": "a_b___-",
    "..": "..-",
    "-x": "-x-",
    "a\nb": "a_b-",
    "x" * 300: "x" * 50 + "-",
    "a;$(touch y)'\"": "a___touch_y___-",
}


@languages("c", "cpp", "rust")
def test_odd_names(failing: Failing, tmp_path: Path, program: Path) -> None:
    """A digest tells them apart, and nothing in them is a path or a command."""
    for number, (name, wanted) in enumerate(ODD.items()):
        folder = tmp_path / str(number)
        ran = failing("fails", folder, name, environment={"TEST_NAME": name})
        (stem,) = {file.rsplit(".", 1)[0] for file in ran.left}
        assert stem == failing.stem(name) and stem.startswith(f"{failing.program.name}.{wanted}")
        assert len(stem) <= 94 and ran.left == files(stem)
        check_record(folder, stem, program)
        check_page(folder, stem, name[:255] if failing.name == "c" else name, "")


@languages("c", "cpp")
def test_a_name_that_is_no_text(failing: Failing, tmp_path: Path) -> None:
    ran = failing("fails", tmp_path, os.fsdecode(b"a\xff\xfeb"))
    (stem,) = {file.rsplit(".", 1)[0] for file in ran.left}
    assert stem.startswith(f"{failing.program.name}.a__b-") and ran.left == files(stem)


@languages(*MADE)
@pytest.mark.parametrize("room", [1, 400])
def test_a_full_disk(failing: Failing, tmp_path: Path, program: Path, room: int) -> None:
    """It is told, and changes no outcome: what fails has the record of the steps before."""
    passed = failing(passes(failing), tmp_path, room=room)
    assert (passed.status, passed.left) == (0, []), passed.said
    assert "not recorded" in passed.said
    case = fails(failing)
    failed = failing(case, tmp_path, room=room)
    assert failed.status not in (0, -25) and "not recorded" in failed.said
    stem = failing.stem(case)
    assert f"{stem}.html" not in failed.left
    if room > 100:
        lines = len((tmp_path / f"{stem}.out").read_text().splitlines())
        assert 1 <= lines < STEPS
        check_record(tmp_path, stem, program, lines)


@languages(*MADE)
def test_a_folder_that_cannot_be_made(failing: Failing, tmp_path: Path) -> None:
    (tmp_path / "file").write_text("")
    for folder in (tmp_path / "file" / "left", tmp_path / "file"):
        passed = failing(passes(failing), folder)
        assert passed.status == 0 and "not recorded" in passed.said, passed.said
        failed = failing(fails(failing), folder)
        assert failed.status != 0 and "not recorded" in failed.said
    assert (tmp_path / "file").read_text() == ""


@languages("c", "cpp", "rust")
def test_a_link_in_place_of_the_scenario(failing: Failing, tmp_path: Path, program: Path) -> None:
    """The record takes the link's name, and nothing is written to what it leads to."""
    case = fails(failing)
    (tmp_path / "precious").write_text("precious")
    (tmp_path / f"{failing.stem(case)}.json").symlink_to(tmp_path / "precious")
    failed = failing(case, tmp_path)
    assert failed.status != 0 and failed.left == sorted([*files(failing.stem(case)), "precious"])
    assert not (tmp_path / f"{failing.stem(case)}.json").is_symlink()
    check_record(tmp_path, failing.stem(case), program)
    assert (tmp_path / "precious").read_text() == "precious"


@languages("c", "cpp", "rust")
def test_a_folder_in_place_of_the_scenario(failing: Failing, tmp_path: Path) -> None:
    """The record keeps the name that it has while the test runs, and that is told."""
    case = fails(failing)
    (tmp_path / f"{failing.stem(case)}.json").mkdir()
    failed = failing(case, tmp_path)
    folder, scenario, lines = [name for name in failed.left if ".html." not in name]  # in Rust the page is made by then
    assert failed.status != 0 and re.fullmatch(r"\d+", scenario.removeprefix(f"{folder}."))
    assert f"tracehost: the record stays {tmp_path / scenario}: Is a directory" in failed.said
    assert lines == scenario.replace(".json.", ".out.")


@languages("c", "cpp", "rust")
@pytest.mark.parametrize("missing", ["TRACEHOST", "TRACEHOST_VIEW"])
def test_without_the_program_or_the_viewer(failing: Failing, tmp_path: Path, program: Path, missing: str) -> None:
    case = fails(failing)
    ran = failing(case, tmp_path, environment={missing: "/nowhere/program", "TRACEHOST_DEBUG": ""})
    assert ran.status != 0 and ran.left == files(failing.stem(case))[1:]
    assert "there is no /nowhere/program" in ran.said and "page:     none" in ran.said
    assert ran.said.count(f"tracehost: to go on from here: tracehost-debug {tmp_path / failing.stem(case)}.json\n") == 1
    check_record(tmp_path, failing.stem(case), program)


@languages("c", "cpp", "rust")
def test_a_viewer_that_fails(failing: Failing, tmp_path: Path, program: Path) -> None:
    ran = failing(fails(failing), tmp_path, environment={"TRACEHOST_VIEW": "/bin/false"})
    assert ran.status != 0 and len(ran.left) == 2 and "page:     none" in ran.said


@pytest.mark.parametrize("language", ["c", "c that aborts", "cpp"])
def test_a_viewer_that_hangs(language: str, library: Path, program: Path, tmp_path: Path) -> None:
    """It is killed after a while, here of a second, and the program goes on."""
    if language == "cpp":
        failing = in_cpp(tmp_path, library, "-DTRACEHOST_SECONDS_FOR_A_PAGE=1")
    else:
        failing = in_c(tmp_path, library, "-DTH_SECONDS_FOR_A_PAGE=1")
    viewer = tmp_path / "viewer"
    viewer.write_text(f"#!/bin/sh\necho $$ > {tmp_path}/number\nexec sleep 1000\n")
    viewer.chmod(0o700)
    case = "aborts" if "aborts" in language else "fails"
    ran = failing(case, tmp_path / "left", environment={"TRACEHOST": str(program), "TRACEHOST_VIEW": str(viewer)})
    assert (
        ran.status == (-6 if case == "aborts" else 1) and ran.left == files(failing.stem(case))[1:] and "page:     none" in ran.said
    )
    number = (tmp_path / "number").read_text().strip()
    shown = run("ps", "-o", "stat=", "-p", number).out  # a zombie if nobody collects orphans here
    assert not shown or shown.startswith("Z")


@languages("c", "cpp")
def test_a_forked_child_leaves_nothing(failing: Failing, tmp_path: Path) -> None:
    """It fails, and its parent passes."""
    ran = failing("forks", tmp_path)
    assert (ran.status, ran.left) == (0, []), ran.said
    assert "page:" not in ran.said


@languages("c", "cpp")
def test_files_that_a_test_closes(failing: Failing, tmp_path: Path) -> None:
    """Those that it opens then get their numbers, and nothing is written into them; it passes, and the loss is told."""
    ran = failing("closes_files", tmp_path)
    assert (ran.status, ran.left) == (0, []), ran.said
    assert "not recorded from step 1 on: " in ran.said and "Bad file descriptor" in ran.said


@languages("c", "cpp", "rust")
def test_a_test_without_a_step(failing: Failing, tmp_path: Path, program: Path) -> None:
    ran = failing("no_step", tmp_path)
    stem = failing.stem("no_step")
    assert ran.left == [f"{stem}.json", f"{stem}.out"] and "page:     none" in ran.said
    check_record(tmp_path, stem, program, 0)


# ---- C


@languages("c", "cpp")
def test_abort_by_assert(failing: Failing, tmp_path: Path, program: Path) -> None:
    ran = failing("aborts", tmp_path)
    stem = failing.stem("aborts")
    assert ran.status == -6 and ran.left == files(stem), ran.said
    check_record(tmp_path, stem, program)
    check_page(tmp_path, stem, "aborts", "SIGABRT")


@languages("c")
@pytest.mark.parametrize("case", ["aborts", "aborts_elsewhere"])
def test_abort(failing: Failing, tmp_path: Path, program: Path, case: str) -> None:
    """By assert(3), in any thread, while a test is open."""
    ran = failing(case, tmp_path)
    stem = failing.stem(case)
    assert ran.status == -6 and ran.left == files(stem), ran.said
    assert "Assertion `h" in ran.said
    check_record(tmp_path, stem, program)
    check_page(tmp_path, stem, case, "SIGABRT")


@languages("c")
def test_a_program_that_handles_abort(failing: Failing, tmp_path: Path, program: Path) -> None:
    """It may go on, so the files keep the names of a test that runs. Its handler is called, once they are told."""
    ran = failing("handles_abort", tmp_path)
    scenario, lines = ran.left
    assert ran.status == 9 and re.fullmatch(r"\d+", scenario.removeprefix(f"{failing.stem('handles_abort')}.json."))
    assert f"tracehost: scenario: {tmp_path / scenario}\ntracehost: lines:    {tmp_path / lines}\n" in ran.said
    replayed = run(program, tmp_path / scenario, "--expect", tmp_path / lines)
    assert (replayed.status, replayed.err) == (0, "")


@languages("c")
def test_a_child_that_aborts(failing: Failing, tmp_path: Path) -> None:
    ran = failing("forks_and_aborts", tmp_path)
    assert (ran.status, ran.left) == (0, []), ran.said


@languages("c")
def test_a_session_that_is_closed_in_a_test(failing: Failing, tmp_path: Path) -> None:
    ran = failing("closes", tmp_path)
    assert ran.left == files(failing.stem("closes"))
    check_page(tmp_path, failing.stem("closes"), "closes", "th_close came before th_test_end")


@languages("c")
def test_what_begins_too_late(failing: Failing, tmp_path: Path) -> None:
    ran = failing("misuse", tmp_path)
    assert (ran.status, ran.left) == (0, []), ran.said


# ---- signals that end the program

WITHOUT_ASAN = {"ASAN_OPTIONS": "handle_segv=0:handle_sigbus=0:handle_sigfpe=0:allow_user_segv_handler=1"}
CASE = "is_signalled"


@languages("c", "cpp")
@pytest.mark.parametrize("how", [*map(str, [signal.SIGINT, signal.SIGTERM, signal.SIGALRM, signal.SIGBUS]), "fault"])
def test_a_signal_ends_the_program(failing: Failing, tmp_path: Path, program: Path, how: str) -> None:
    """The files have their last names, they are told, and the signal ends the program."""
    ran = failing(CASE, tmp_path, environment={**WITHOUT_ASAN, "TEST_SIGNAL": how})
    number = signal.SIGSEGV if how == "fault" else signal.Signals(int(how))
    stem = failing.stem(CASE)
    assert ran.status == -number and ran.left == files(stem), ran.said
    check_record(tmp_path, stem, program)
    check_page(tmp_path, stem, CASE, number.name)
    page, scenario, lines = ran.left
    files_told = {"page:     ": page, "scenario: ": scenario, "lines:    ": lines, "to go on from here: tracehost-debug ": scenario}
    for label, file in files_told.items():
        assert ran.said.count(f"tracehost: {label}{tmp_path / file}\n") == 1


@languages("c", "cpp")
def test_a_handler_that_was_there_before(failing: Failing, tmp_path: Path) -> None:
    """That of the address sanitizer is called with what the fault brings, once the files are told."""
    if not sanitized():
        pytest.skip("no sanitizer is here")
    ran = failing(CASE, tmp_path, environment={"TEST_SIGNAL": "fault"})
    scenario, lines = ran.left
    told, sanitizer = ran.said.split("AddressSanitizer", 1)
    assert ran.status == 1 and "SEGV on unknown address 0x000000000008" in sanitizer
    assert scenario.startswith(f"{failing.stem(CASE)}.json.")
    assert f"tracehost: scenario: {tmp_path / scenario}\ntracehost: lines:    {tmp_path / lines}\n" in told


@languages("c", "cpp")
def test_control_c_of_a_terminal(failing: Failing, tmp_path: Path, program: Path) -> None:
    """It comes from the kernel."""
    ours, theirs = pty.openpty()
    environment = {**os.environ, **failing.environment, "TRACEHOST_ARTIFACTS": str(tmp_path), "TEST_SIGNAL": "wait"}
    process = subprocess.Popen(
        failing.command(CASE), env=environment, stdin=theirs, stdout=subprocess.PIPE, stderr=subprocess.PIPE, text=True,
        start_new_session=True, preexec_fn=lambda: fcntl.ioctl(theirs, termios.TIOCSCTTY, 0),
    )  # fmt: skip
    assert process.stdout and process.stdout.readline() == "waits\n"
    os.write(ours, b"\x03")
    _, said = process.communicate(timeout=300)
    for number in (ours, theirs):
        os.close(number)
    stem = failing.stem(CASE)
    assert process.returncode == -signal.SIGINT and f"tracehost: scenario: {tmp_path / stem}.json\n" in said
    assert sorted(path.name for path in tmp_path.iterdir()) == files(stem)
    check_record(tmp_path, stem, program)


@languages("c", "cpp")
def test_a_program_that_is_killed(failing: Failing, tmp_path: Path, program: Path) -> None:
    """The test's next run tells of its record, and takes it away."""
    ran = failing(CASE, tmp_path, environment={"TEST_SIGNAL": str(int(signal.SIGKILL))})
    scenario, lines = ran.left
    assert ran.status == -signal.SIGKILL and scenario.startswith(f"{failing.stem(CASE)}.json.")
    replayed = run(program, tmp_path / scenario, "--expect", tmp_path / lines)
    assert (replayed.status, replayed.err) == (0, "")
    assert failing("passes", tmp_path).left == ran.left
    time.sleep(TICK)
    again = failing(CASE, tmp_path)
    assert (again.status, again.left) == (0, [])
    assert again.said == f"tracehost: left by a test that ended its process: {tmp_path / scenario}\n"


# ---- C++


@languages("cpp", "gtest", "catch2")
def test_an_exception(failing: Failing, tmp_path: Path, program: Path) -> None:
    case = "debugger.throws" if failing.name == "gtest" else "throws"
    stem = failing.stem(case)
    assert failing(case, tmp_path).left == files(stem)
    check_record(tmp_path, stem, program)
    check_page(tmp_path, stem, case, "an exception")


@languages("gtest", "catch2")
def test_a_check_that_goes_on(failing: Failing, tmp_path: Path, program: Path) -> None:
    """The page is of the first failure, and of its step."""
    case = "debugger.goes_on" if failing.name == "gtest" else "goes on"
    stem = failing.stem(case)
    assert failing(case, tmp_path).left == files(stem)
    check_record(tmp_path, stem, program, STEPS + 1)
    check_page(tmp_path, stem, case, "signal_after_step(test)", STEPS)


@languages("cpp")
def test_a_stream_that_throws(failing: Failing, tmp_path: Path, program: Path) -> None:
    """Standard error is full. The program goes on."""
    ran = failing("loses_standard_error", tmp_path)
    stem = failing.stem("loses_standard_error")
    assert (ran.status, ran.left) == (0, files(stem))
    check_record(tmp_path, stem, program)


@languages("gtest")
def test_googletest(failing: Failing, tmp_path: Path) -> None:
    for number, (tests, fails) in enumerate(
        {"debugger.asserts": "", "debugger.failed_before": "", "fixture.*": "fixture.fails"}.items()
    ):
        assert failing(tests, tmp_path / str(number)).left == files(failing.stem(fails or tests))
    test = "debugger.fails_in_a_thread"
    failing(test, tmp_path / "6")
    check_page(tmp_path / "6", failing.stem(test), test, "Expected equality", None)
    dies = failing("debugger.dies", tmp_path / "4")
    assert dies.left == files(failing.stem("debugger.dies")), dies.said
    assert failing("all/numbered.*", tmp_path / "5").left == files(*(failing.stem(f"all/numbered.fails/{n}") for n in range(3)))


@languages("gtest")
def test_replies_in_words(failing: Failing, tmp_path: Path) -> None:
    said = failing("debugger.compares_replies", tmp_path).said
    assert [words for words in ('"held"', '"error ESRCH"', "ok, 1001 ended by SIGKILL\n") if words not in said] == [], said


@languages("catch2")
def test_catch2(failing: Failing, tmp_path: Path) -> None:
    assert failing("requires", tmp_path / "1").left == files(failing.stem("requires"))
    stem = failing.stem("sections")
    assert failing("sections", tmp_path / "2").left == files(stem, f"{stem}-2")
    allowed = failing("may fail", tmp_path / "3")
    assert (allowed.status, allowed.left) == (0, [])


# ---- Rust


@languages("rust")
def test_a_test_that_returns_an_error(failing: Failing, tmp_path: Path, program: Path) -> None:
    case = "returns_an_error"
    stem = failing.stem(case)
    assert failing(case, tmp_path).left == files(stem)
    check_record(tmp_path, stem, program)
    check_page(tmp_path, stem, case, "stopped by Some(SIGSEGV)")
    assert failing("returns_no_error", tmp_path / "passed").left == []


@languages("rust")
@pytest.mark.parametrize("case", ["question_mark", "question_mark_of_a_box"])
def test_a_test_that_returns_what_a_call_returns(failing: Failing, tmp_path: Path, program: Path, case: str) -> None:
    """By `?`: its last step was refused, and libtest shows the error."""
    stem = failing.stem(case)
    ran = failing(case, tmp_path, environment=WITH_COMMANDS)
    assert (ran.status, ran.left) == (101, files(stem)), ran.said
    check_record(tmp_path, stem, program, 3)
    check_page(tmp_path, stem, case, "error EPERM", 3)
    assert re.search(r"^step 3 of user 1001: .* -> EPERM   \(1001 isn't traced\)$", ran.said, re.MULTILINE), ran.said
    assert f"tracehost: scenario: {tmp_path / stem}.json\n" in ran.said


@languages("rust")
@pytest.mark.parametrize("case", ["ends_with_a_refusal", "should_panic"])
def test_what_looks_as_a_failure_and_passes(failing: Failing, tmp_path: Path, case: str) -> None:
    """A last step that is refused, as the test expects; a panic that has to come."""
    ran = failing(case, tmp_path)
    assert (ran.status, ran.left) == (0, []), ran.said
    assert "tracehost:" not in ran.said


@languages("rust")
def test_another_panic_than_the_one_that_has_to_come(failing: Failing, tmp_path: Path, program: Path) -> None:
    stem = failing.stem("should_panic_otherwise")
    ran = failing("should_panic_otherwise", tmp_path)
    assert (ran.status, ran.left) == (101, files(stem)), ran.said
    check_record(tmp_path, stem, program, 3)


@languages("rust")
def test_a_test_that_passes_beside_one_that_fails(failing: Failing, tmp_path: Path) -> None:
    """If it ends with a refusal, too."""
    command = failing.command("ends_with_a_refusal") + ["question_mark"]
    environment = {**os.environ, **failing.environment, "TRACEHOST_ARTIFACTS": str(tmp_path)}
    ran = subprocess.run(command, env=environment, stdout=subprocess.PIPE, text=True, timeout=300, check=False)
    assert "1 passed; 1 failed" in ran.stdout
    assert sorted(path.name for path in tmp_path.iterdir()) == files(failing.stem("question_mark"))


@languages("rust")
def test_a_program_that_dies(failing: Failing, tmp_path: Path, program: Path) -> None:
    ran = failing("dies", tmp_path)
    scenario, lines = ran.left
    assert ran.status == -6 and scenario.startswith(f"{failing.stem('dies')}.json.")
    replayed = run(program, tmp_path / scenario, "--expect", tmp_path / lines)
    assert (replayed.status, replayed.err) == (0, "")
    time.sleep(TICK)
    assert f"tracehost: left by a test that ended its process: {tmp_path / scenario}\n" in failing("dies", tmp_path).said


@languages("rust")
def test_a_panic_that_was_there_before(failing: Failing, tmp_path: Path) -> None:
    ran = failing("begins_in_a_panic", tmp_path)
    assert (ran.status, ran.left) == (0, []), ran.said


@languages("rust")
def test_a_full_standard_error(failing: Failing, tmp_path: Path, program: Path) -> None:
    """What can't be printed doesn't abort the program."""
    with open("/dev/full", "wb") as full:
        environment = {**os.environ, **failing.environment, "TRACEHOST_ARTIFACTS": str(tmp_path)}
        words = [*failing.command("fails"), "--nocapture"]
        ran = subprocess.run(words, env=environment, stdout=subprocess.PIPE, stderr=full, text=True, timeout=300, check=False)
    assert ran.returncode == 101 and "test result: FAILED. 0 passed; 1 failed" in ran.stdout
    check_record(tmp_path, failing.stem("fails"), program)
