"""A run's lines against those of a file, by --expect: the status, what it says of the first line that differs, and the diff,
which patch(1) applies. --bless: the file gets the lines, whole or not at all."""

from __future__ import annotations

import difflib
import random
import re
import resource
import subprocess
from pathlib import Path

import pytest

from checking import Ended, answers, needs, run

SCENARIO = """{"steps":[
{"user":1002,"op":"spawn"},
{"user":1001,"op":"spawn"},
{"user":1002,"op":"list","caller":2000},
{"user":1001,"op":"list","caller":1000},
{"user":1002,"op":"list","caller":1}
]}
"""
LINES = """1002 1 new 2000 104000
1001 1 new 1000 100000
1002 2 pids 2000
1001 2 pids 1000
1002 3 error ESRCH 3
"""
OF_1002 = "".join(line for line in LINES.splitlines(keepends=True) if line.startswith("1002 "))
BY_USER = "".join(sorted(LINES.splitlines(keepends=True), key=lambda line: line[:4]))
CANNOT_READ = "tracehost: cannot read\n"
NO_PATTERNS = "  lines are compared byte by byte, without patterns: a scenario's numbers are the same in each run\n"

Case = tuple[str, str, str, str]


def line_changed(text: str, number: int, pattern: str, new: str) -> str:
    """The text with one change in this line."""
    lines = text.splitlines(keepends=True)
    lines[number - 1], count = re.subn(pattern, new, lines[number - 1], count=1)
    assert count == 1
    return "".join(lines)


@pytest.fixture
def folder(tmp_path: Path) -> Path:
    """The folder that the program runs in, with the scenario."""
    (tmp_path / "scenario.json").write_text(SCENARIO)
    (tmp_path / "no_steps.json").write_text('{"steps":[]}\n')
    (tmp_path / "folder").mkdir()
    return tmp_path


@pytest.mark.parametrize(
    ("words", "text"),
    [
        pytest.param("scenario.json --expect lines", LINES, id="equal"),
        pytest.param("scenario.json --user 1002 --expect lines", OF_1002, id="equal, of one user"),
        pytest.param("scenario.json --threads --expect lines", BY_USER, id="equal, by threads"),
        pytest.param("--threads --user 1002 --expect=lines scenario.json", OF_1002, id="equal, of one user by threads"),
        pytest.param("scenario.json --user 1003 --expect lines", "", id="no line of a user without steps"),
        pytest.param("no_steps.json --expect lines", "", id="no line without steps"),
    ],
)
def test_the_same_lines(program: Path, folder: Path, words: str, text: str) -> None:
    (folder / "lines").write_text(text)
    answers(program, *words.split(), cwd=folder)


# of each: its name, the lines that are expected, the words, and what is said
DIFFERENT: list[Case] = [
    ("a changed line", line_changed(LINES, 4, "1000$", "1000 1001"), "scenario.json",
     '4: expected "1001 2 pids 1000 1001", got "1001 2 pids 1000"\n  it answers steps[3], step 2 of user 1001\n'),
    ("the first of several", LINES.replace("pids", "pid").replace("ESRCH", "EPERM"), "scenario.json",
     '3: expected "1002 2 pid 2000", got "1002 2 pids 2000"\n  it answers steps[2], step 2 of user 1002\n'),
    ("the first line is missing", LINES.split("\n", 1)[1], "scenario.json",
     '1: expected "1001 1 new 1000 100000", got "1002 1 new 2000 104000"\n  it answers steps[0], step 1 of user 1002\n'),
    ("carriage returns", LINES.replace("\n", "\r\n"), "scenario.json",
     '1: expected "1002 1 new 2000 104000\\r", got "1002 1 new 2000 104000"\n  it answers steps[0], step 1 of user 1002\n'),
    ("bytes that are no text", '\udcff"\\\n', "scenario.json",
     '1: expected "\\xff\\"\\\\", got "1002 1 new 2000 104000"\n  it answers steps[0], step 1 of user 1002\n' + NO_PATTERNS),
    ("of one user", line_changed(OF_1002, 3, "ESRCH 3", "EPERM 1"), "scenario.json --user 1002",
     '3: expected "1002 3 error EPERM 1", got "1002 3 error ESRCH 3"\n  it answers steps[4], step 3 of user 1002\n'),
    ("by threads", line_changed(BY_USER, 4, "2000", "2001"), "scenario.json --threads",
     '4: expected "1002 2 pids 2001", got "1002 2 pids 2000"\n  it answers steps[2], step 2 of user 1002\n'),
    ("by threads, of the first user", line_changed(BY_USER, 2, "1000", "1001"), "scenario.json --threads",
     '2: expected "1001 2 pids 1001", got "1001 2 pids 1000"\n  it answers steps[3], step 2 of user 1001\n'),
    ("a missing line", LINES.rsplit("\n", 2)[0] + "\n", "scenario.json",
     '5: expected the end of the file, got "1002 3 error ESRCH 3"\n  it answers steps[4], step 3 of user 1002\n'),
    ("an extra line", LINES + "1002 4 ok\n", "scenario.json", '6: expected "1002 4 ok", got no more lines\n'),
    ("an extra line that is empty", LINES + "\n", "scenario.json", '6: expected "", got no more lines\n'),
    ("no line feed at the end", LINES[:-1], "scenario.json",
     '5: expected "1002 3 error ESRCH 3", got "1002 3 error ESRCH 3\\n"\n  it answers steps[4], step 3 of user 1002\n'),
    ("an empty file", "", "scenario.json",
     '1: expected the end of the file, got "1002 1 new 2000 104000"\n  it answers steps[0], step 1 of user 1002\n'),
    ("a line without steps", LINES, "no_steps.json", '1: expected "1002 1 new 2000 104000", got no more lines\n'),
]  # fmt: skip


def patched(folder: Path, name: str, diff: str) -> bytes:
    """What patch(1) makes of a file by a diff of it."""
    words = ["patch", "--silent", "--output=-", name]
    return subprocess.run(words, input=diff.encode(errors="surrogateescape"), cwd=folder, check=True, capture_output=True).stdout


@needs("patch")
@pytest.mark.parametrize(("text", "words", "said"), [case[1:] for case in DIFFERENT], ids=[case[0] for case in DIFFERENT])
def test_a_line_that_differs(program: Path, folder: Path, text: str, words: str, said: str) -> None:
    (folder / "changed").write_bytes(text.encode(errors="surrogateescape"))
    ended = run(program, *words.split(), "--expect", "changed", cwd=folder)
    assert (ended.status, ended.err) == (4, f"changed:{said}")
    assert ended.out.startswith("--- changed\texpected\n+++ changed\tgot\n@@ ")
    lines = run(program, *words.split(), cwd=folder).out
    assert patched(folder, "changed", ended.out).decode() == lines


def many_steps(count: int) -> str:
    """A scenario of this many steps, of two users by turns."""
    steps = (f'{{"user":{1001 + index % 2},"op":"list","caller":{1000 * (1 + index % 2)}}}' for index in range(count))
    spawns = '{"user":1001,"op":"spawn"},{"user":1002,"op":"spawn"},'
    return f'{{"steps":[{spawns}{",".join(steps)}]}}'


@needs("patch")
@pytest.mark.parametrize("seed", range(40))
def test_the_diff_of_changes_by_chance(program: Path, tmp_path: Path, seed: int) -> None:
    chance = random.Random(seed)
    (tmp_path / "run").write_text(many_steps(chance.randrange(1, 60)))
    lines = run(program, "run", cwd=tmp_path).out.splitlines(keepends=True)
    expected = list(lines)
    for _ in range(chance.randrange(1, 8)):
        place = chance.randrange(len(expected) + 1)
        count = chance.randrange(4)
        expected[place : place + chance.randrange(4)] = [f"other {chance.random()}\n"] * count
    text = "".join(expected)[: -1 if chance.random() < 0.3 else None]
    (tmp_path / "wanted").write_text(text)
    ended = run(program, "run", "--expect", "wanted", cwd=tmp_path)
    assert (ended.status == 0) == (text == "".join(lines))
    if ended.status:
        assert patched(tmp_path, "wanted", ended.out).decode() == "".join(lines)


def test_a_diff_shows_three_lines_around_a_change_and_its_step(program: Path, tmp_path: Path) -> None:
    (tmp_path / "run").write_text(many_steps(30))
    lines = run(program, "run", cwd=tmp_path).out.splitlines(keepends=True)
    expected = [*lines[:10], "1001 6 pids 7\n", *lines[11:28], *lines[29:]]
    (tmp_path / "wanted").write_text("".join(expected))
    diff = run(program, "run", "--expect", "wanted", cwd=tmp_path).out
    wanted = "".join(difflib.unified_diff(expected, lines, "wanted", "wanted", "expected", "got"))
    first, second = (
        ' steps[10], step 6 of user 1001: {"op":"list","caller":1000}',
        ' steps[28], step 15 of user 1001: {"op":"list","caller":1000}',
    )
    assert diff == wanted.replace("+8,7 @@", f"+8,7 @@{first}").replace("+26,7 @@", f"+26,7 @@{second}")


def test_a_step_that_installs_a_handler_is_whole(program: Path, tmp_path: Path) -> None:
    rules = '[{"signal":5,"decision":"continue","pass":9}]'
    steps = f'{{"user":1001,"op":"spawn"}},{{"user":1001,"op":"install","caller":1000,"rules":[]}},{{"user":1001,"op":"install","caller":1000,"rules":{rules}}}'
    (tmp_path / "run").write_text(f'{{"steps":[{steps}]}}')
    lines = run(program, "run", cwd=tmp_path).out.splitlines(keepends=True)
    (tmp_path / "wanted").write_text("".join(lines[:2]))
    diff = run(program, "run", "--expect", "wanted", cwd=tmp_path).out
    assert f'@@ steps[2], step 3 of user 1001: {{"op":"install","caller":1000,"rules":{rules}}}\n' in diff


@pytest.mark.parametrize(
    "pattern", ["1001 1 new * *", "1001 1 new <pid> 100000", "1001 1 new \\d+ 100000", "1001 1 new $P 100000", "1001 ? new"]
)
def test_patterns_are_refused_with_the_reason(program: Path, folder: Path, pattern: str) -> None:
    (folder / "wanted").write_text(LINES.replace("1001 1 new 1000 100000", pattern))
    ended = run(program, "scenario.json", "--expect", "wanted", cwd=folder)
    assert ended.status == 4
    assert ended.err.endswith(
        "\n  lines are compared byte by byte, without patterns: a scenario's numbers are the same in each run\n"
    )


def test_a_diff_of_many_lines_takes_little_time(program: Path, tmp_path: Path) -> None:
    """Each line differs, and each change is a replaced line: a diff that compared all lines with all would take minutes."""
    (tmp_path / "run").write_text(many_steps(40_000))
    lines = run(program, "run", cwd=tmp_path).out
    (tmp_path / "wanted").write_text(lines.replace(" pids ", " pid "))
    before = resource.getrusage(resource.RUSAGE_CHILDREN).ru_utime
    ended = run(program, "run", "--expect", "wanted", cwd=tmp_path)
    assert ended.status == 4 and ended.out.count("\n+1") == 40_000
    assert resource.getrusage(resource.RUSAGE_CHILDREN).ru_utime - before < 5


@pytest.mark.skipif(not Path("/dev/full").exists(), reason="needs /dev/full")
def test_a_diff_that_cannot_be_written(program: Path, folder: Path) -> None:
    (folder / "wanted").write_text(LINES.replace("pids", "pid"))
    with open("/dev/full", "wb") as full:
        ended = subprocess.run(
            [program, "scenario.json", "--expect", "wanted"], cwd=folder, stdout=full, stderr=subprocess.PIPE, check=False
        )
    assert (ended.returncode, ended.stderr) == (3, b"tracehost: cannot write\n")


# ---- --bless


def bless(program: Path, folder: Path, name: str, *words: str) -> Ended:
    return run(program, "scenario.json", "--expect", name, "--bless", *words, cwd=folder)


def left(folder: Path) -> set[str]:
    return {path.name for path in folder.iterdir()} - {"scenario.json", "no_steps.json", "folder"}


@pytest.mark.parametrize(("words", "text"), [("", LINES), ("--user 1002", OF_1002), ("--threads", BY_USER)])
def test_a_file_gets_the_lines(program: Path, folder: Path, words: str, text: str) -> None:
    (folder / "wanted").write_text(text.replace("pids", "pid"))
    ended = bless(program, folder, "wanted", *words.split())
    assert (ended.status, ended.err) == (0, "")
    assert ended.out.startswith("--- wanted\texpected\n")
    assert (folder / "wanted").read_text() == text
    answers(program, "scenario.json", *words.split(), "--expect", "wanted", cwd=folder)
    assert left(folder) == {"wanted"}


def test_a_file_that_is_not_there_is_made(program: Path, folder: Path) -> None:
    assert bless(program, folder, "new") == Ended(0, "", "")
    assert (folder / "new").read_text() == LINES


def test_a_file_with_the_lines_stays(program: Path, folder: Path) -> None:
    (folder / "wanted").write_text(LINES)
    before = (folder / "wanted").stat()
    assert bless(program, folder, "wanted") == Ended(0, "", "")
    after = (folder / "wanted").stat()
    assert (after.st_ino, after.st_mtime_ns) == (before.st_ino, before.st_mtime_ns)


@pytest.mark.parametrize("mode", [0o400, 0o600, 0o644, 0o666, 0o755])
def test_a_file_keeps_its_mode(program: Path, folder: Path, mode: int) -> None:
    (folder / "wanted").write_text("old\n")
    (folder / "wanted").chmod(mode)
    assert bless(program, folder, "wanted").status == 0
    assert (folder / "wanted").read_text() == LINES and (folder / "wanted").stat().st_mode & 0o7777 == mode


def test_a_link_stays_a_link(program: Path, folder: Path) -> None:
    (folder / "target").write_text("old\n")
    (folder / "link").symlink_to("target")
    assert bless(program, folder, "link").status == 0
    assert (folder / "link").is_symlink() and (folder / "target").read_text() == LINES


def test_a_file_beside_it_is_left(program: Path, folder: Path) -> None:
    (folder / "wanted").write_text("old\n")
    (folder / "wanted.new").write_text("mine\n")
    ended = bless(program, folder, "wanted", "--explain")
    assert (ended.status, ended.err) == (3, "tracehost: cannot write\n  wanted.new: File exists\n")
    assert ((folder / "wanted").read_text(), (folder / "wanted.new").read_text()) == ("old\n", "mine\n")


def test_a_full_disk_leaves_the_file(program: Path, folder: Path) -> None:
    (folder / "wanted").write_text("old\n")

    def little_room() -> None:
        resource.setrlimit(resource.RLIMIT_FSIZE, (20, 20))

    ended = subprocess.run(
        [program, "scenario.json", "--expect", "wanted", "--bless"],
        cwd=folder,
        preexec_fn=little_room,
        capture_output=True,
        check=False,
    )
    assert ended.returncode not in (0, 4)
    assert (folder / "wanted").read_text() == "old\n"


@pytest.mark.skipif(not Path("/dev/full").exists(), reason="needs /dev/full")
def test_a_device_is_written_to_and_stays(program: Path, folder: Path) -> None:
    ended = bless(program, folder, "/dev/full")
    assert (ended.status, ended.err) == (3, "tracehost: cannot write\n")
    assert not Path("/dev/full").is_file()


@pytest.mark.parametrize("name", ["folder", "nowhere/wanted"])
def test_what_cannot_be_blessed(program: Path, folder: Path, name: str) -> None:
    assert bless(program, folder, name) == Ended(3, "", "tracehost: cannot write\n")


def test_bless_needs_a_file(program: Path, folder: Path) -> None:
    ended = run(program, "scenario.json", "--bless", "--explain", cwd=folder)
    assert (ended.status, ended.out) == (2, "")
    assert ended.err.endswith("  --bless: name the file that gets the lines, --expect FILE\n")


def test_bless_after_a_refused_scenario_leaves_the_file(program: Path, folder: Path) -> None:
    (folder / "list.json").write_text("[]\n")
    (folder / "wanted").write_text("old\n")
    answers(
        program, "list.json", "--expect", "wanted", "--bless", status=1, err="tracehost: refused: BadShape at step 0\n", cwd=folder
    )
    assert (folder / "wanted").read_text() == "old\n"


@pytest.mark.parametrize("name", ["nothing", "folder"])
def test_what_cannot_be_read(program: Path, folder: Path, name: str) -> None:
    answers(program, "scenario.json", "--expect", name, status=3, err=CANNOT_READ, cwd=folder)


@pytest.mark.skipif(not Path("/dev/zero").exists(), reason="needs /dev/zero")
def test_a_file_without_an_end(program: Path, folder: Path) -> None:
    said = CANNOT_READ + "  /dev/zero: file too large\n"
    answers(program, "scenario.json", "--explain", "--expect", "/dev/zero", status=3, err=said, cwd=folder)
    (folder / "list").write_text("scenario.json\t/dev/zero\n")
    assert run(program, "--expect-list", "list", cwd=folder).status == 3


# names of files, and how messages show them: none writes to a terminal's title or cursor
NAMES = {
    "escape": ("title\x1b]0;new\x07", "title\\u{1b}]0;new\\u{7}"),
    "line feed": ("two\nlines", "two\\nlines"),
    "letters": ("größe", "größe"),
}


@pytest.mark.parametrize(("name", "shown"), NAMES.values(), ids=NAMES)
def test_control_characters_of_a_name_are_escaped(program: Path, folder: Path, name: str, shown: str) -> None:
    said = run(program, "scenario.json", "--explain", "--expect", name, cwd=folder)
    assert (said.status, said.out) == (3, "")
    assert said.err == f"{CANNOT_READ}  {shown}: No such file or directory\n"
    (folder / name).write_text(LINES + "1002 4 ok\n")
    ended = run(program, "scenario.json", "--expect", name, cwd=folder)
    assert (ended.status, ended.err) == (4, f'{shown}:6: expected "1002 4 ok", got no more lines\n')
    assert ended.out.startswith(f"--- {shown}\texpected\n+++ {shown}\tgot\n")


def test_a_refused_scenario_before_the_file_is_read(program: Path, folder: Path) -> None:
    (folder / "list.json").write_text("[]\n")
    answers(program, "--expect", "nothing", "list.json", status=1, err="tracehost: refused: BadShape at step 0\n", cwd=folder)


def test_lines_are_not_expected(program: Path, folder: Path) -> None:
    ran = run(program, "--lines", "--expect", "lines", cwd=folder)
    assert (ran.status, ran.out) == (2, "")
    assert "'--lines' cannot be used with '--expect <FILE>'" in ran.err
