"""tools/kernel_results: what a kernel has answered, in docs/DIFFERENCES.md."""

from __future__ import annotations

import random
import re
import shutil
import sys
from collections.abc import Callable
from pathlib import Path

import pytest
from checking import TOP, Ended, load_script, run

sys.path.insert(0, str(TOP / "tools"))
from kit_parts import PARTS, Kit, case_names, version  # noqa: E402

TOOL = TOP / "tools/kernel_results"
PAGE = TOP / "docs/DIFFERENCES.md"
HEADING = "what\tpart\tname\tverdict\tlisted\tcompared\tsteps\tline\tstep\tmodel\tkernel\tshortest"
VERDICTS = {"exec_test vfork_shares_memory": "listed", "waits_test orphans": "not tried", "wait_test orphans": "differs"}
"""Of cases; the others are the same."""
NO_ROWS = {"ignored_by_default", "kill_no_signal", "raise_0"}
"""Differences that no manual page's sentence is about."""


def made_up(identity: str) -> list[str]:
    """The lines of a whole file of results, without their ends."""
    lines = [
        f"# tracehost-kit\t{version()}\t{identity}\t100",
        "# kernel\tFreeBSD\t14.9-NONE\tFreeBSD 14.9-NONE GENERIC",
        "# machine\tamd64\t4 processors",
        "# date\t2026-12-24T18:00:00Z",
        "# cases run by\tFreeBSD",
        HEADING,
    ]
    for part, sessions in PARTS.items():
        lines += [f"session\t{part}\t{name}\tsame\t-\t9\t9\t-\t-\t-\t-\t-" for name in sessions.names(sessions.number)]
    lines += [f"case\tcases\t{name}\t{VERDICTS.get(name, 'same')}\t-\t-\t-\t-\t-\tpass\tpass\t-" for name in case_names()]
    return [*lines, f"# end\t{len(lines) - 6}"]


@pytest.fixture(scope="module")
def whole() -> list[str]:
    return made_up(Kit.of_tree().identity)


class Desk:
    """A copy of the page, and a file of results."""

    def __init__(self, folder: Path) -> None:
        self.page, self.file = folder / "page.md", folder / "results.tsv"
        shutil.copy(PAGE, self.page)

    def write(self, *words: str | Path) -> Ended:
        return run(sys.executable, TOOL, "--page", self.page, *words)

    def take(self, lines: list[str]) -> Ended:
        self.file.write_text("".join(f"{line}\n" for line in lines))
        return self.write(self.file)

    def cells(self) -> list[list[str]]:
        """The cells of the tables' rows."""
        lines = [line for line in self.page.read_text().splitlines() if line.startswith("|")]
        rows = [[cell.strip() for cell in line.strip("|").split("|")] for line in lines if not line.startswith("|---")]
        return [row for row in rows if row[-1] != "kernel"]


@pytest.fixture
def desk(tmp_path: Path) -> Desk:
    return Desk(tmp_path)


def rows_of_the_page() -> set[str]:
    lines = [line for line in PAGE.read_text().splitlines() if line.startswith("|") and not line.startswith("|---")]
    cells = [[cell.strip() for cell in line.strip("|").split("|")[:3]] for line in lines]
    return {"|".join(row) for row in cells if row[2] != "here"}


def test_without_a_file(desk: Desk) -> None:
    """Nothing was tried. All rows are there, and a second time changes nothing."""
    assert desk.write() == Ended(0, "", "")
    cells = desk.cells()
    assert {row[3] for row in cells} == {"-"}
    assert {"|".join(row[:3]) for row in cells} == rows_of_the_page() and len(cells) == len(rows_of_the_page())
    first = desk.page.read_bytes()
    assert "as all so far" in first.decode()
    assert desk.write() == Ended(0, "", "") and desk.page.read_bytes() == first


def test_a_kernels_column(desk: Desk, whole: list[str]) -> None:
    """Rows that differ come first, those without an answer last; without a file the page is again as before."""
    desk.write()
    untried = desk.page.read_bytes()
    assert desk.take(whole) == Ended(0, "", "")
    cells = desk.cells()
    found = {row[2]: row[3] for row in cells}
    assert {"|".join(row[:3]) for row in cells} == rows_of_the_page()
    assert found["there is none; a C program's child has a copy ([POSIX.md](POSIX.md))"] == "differs (1 of 1)"
    assert found["to process 1, which collects zombies at once"] == "differs (1 of 1)"
    assert found["left out: SIGCHLD comes for stops too"] == "same (1)"
    assert found["always succeeds"] == "-"
    assert "FreeBSD 14.9-NONE (amd64, 2026-12-24)" in desk.page.read_text()
    for table in desk.page.read_text().split("\n## ")[1:]:
        ends = [line.rstrip("|").rsplit("|", 1)[1] for line in table.splitlines() if line.startswith("| ")][1:]
        ranks = [0 if end.startswith("differs") else 1 if end.startswith("same") else 2 for end in ends]
        assert ranks == sorted(ranks)
    first = desk.page.read_bytes()
    assert desk.take(whole) == Ended(0, "", "") and desk.page.read_bytes() == first
    desk.write()
    assert desk.page.read_bytes() == untried


def test_listed_differences_are_counted(desk: Desk, whole: list[str], tmp_path: Path) -> None:
    """A name of freebsd.tsv, as often as it was met, beside a case."""
    tool = load_script(TOOL)
    answers = tool.Answers()
    answers.same["a"], answers.differs["a"], answers.same["b"] = 5, 2, 3
    assert [answers.cell(names) for names in (["a"], ["b"], ["a", "b"], ["c"], [])] == [
        "differs (2 of 7)",
        "same (3)",
        "differs (2 of 10)",
        "-",
        "-",
    ]
    lines = [*whole[:-1], "difference\tsome_name\t2\t7", whole[-1]]
    assert desk.take(lines).status == 0


def test_each_row_has_a_line_and_each_name_is_known() -> None:
    tool = load_script(TOOL)
    ties = tool.read_ties()
    tool.check_names(ties)
    assert len(ties) == len(rows_of_the_page())
    differences = {row["name"] for row in tool.rows_of(tool.FREEBSD)}
    listed = re.findall(r"^([a-z]\w*) (\w+)$", (TOP / "clients/posix/tests/DIFFERENCES.txt").read_text(), re.MULTILINE)
    tied = {name for tie in ties for name in tie.names}
    assert {".".join(case) for case in listed} <= tied
    assert differences - tied == NO_ROWS


# ---- files that are refused


def refused(desk: Desk, lines: list[str]) -> str:
    before = desk.page.read_bytes()
    ended = desk.take(lines)
    assert (ended.status, ended.out) == (2, "") and desk.page.read_bytes() == before
    return ended.err


def changed(lines: list[str], old: str, new: str) -> list[str]:
    """The first line with a text has another one."""
    place = next(place for place, line in enumerate(lines) if old in line)
    return [*lines[:place], lines[place].replace(old, new, 1), *lines[place + 1 :]]


CHANGES: dict[str, tuple[Callable[[list[str]], list[str]], str]] = {
    "another kit": (lambda lines: changed(lines, lines[0].split("\t")[2], "0" * 64), "of another kit"),
    "another version": (lambda lines: changed(lines, version(), "0.1.0"), "of another kit"),
    "a try": (lambda lines: changed(lines, "\t100", "\t5"), "of a kit for a try"),
    "Linux": (lambda lines: changed(lines, "FreeBSD\t14.9", "Linux\t6.1"), "it is of Linux"),
    "cases of the model": (lambda lines: changed(lines, "by\tFreeBSD", "by\ttracehost-run"), "and the page is on FreeBSD"),
    "no kernel": (lambda lines: [line for line in lines if not line.startswith("# kernel")], "it doesn't say its kernel"),
    "no date": (lambda lines: changed(lines, "2026-12-24T", "soon "), "no date"),
    "a row less": (lambda lines: [*lines[:9], *lines[10:-1], f"# end\t{len(lines) - 8}"], "it hasn't shared 1"),
    "a row more": (lambda lines: [*lines[:9], *lines[8:-1], f"# end\t{len(lines) - 6}"], "more than once"),
    "a count": (lambda lines: [*lines[:-1], "# end\t1"], "its last line"),
    "an unknown name": (lambda lines: changed(lines, "shared 1 7\t", "shared 9 7\t"), "shared 1 7 of shared"),
    "another part": (lambda lines: changed(lines, "\tshared\tshared 1 7", "\tfreebsd\tshared 1 7"), "shared 1 7 of"),
    "a verdict": (lambda lines: changed(lines, "\tsame\t", "\tgood\t"), "line 7: not a row"),
    "columns": (lambda lines: changed(lines, "what\t", "what\twhen\t"), "other columns"),
    "a short row": (lambda lines: changed(lines, "\t9\t9\t", "\t9\t"), "line 7: not a row"),
    "a difference": (lambda lines: [*lines[:-1], "difference\tx\t8\t7", lines[-1]], "not a row"),
    "nothing": (lambda lines: [], "not a file of results"),
    "another file": (lambda lines: ["# A page"], "not a file of results"),
}


@pytest.mark.parametrize("kind", CHANGES)
def test_refused(desk: Desk, whole: list[str], kind: str) -> None:
    change, said = CHANGES[kind]
    lines = change(whole)
    assert lines != whole
    assert said in refused(desk, lines)


def test_torn_files(desk: Desk, whole: list[str]) -> None:
    """Cut anywhere, or with a hole, it is refused."""
    content = "".join(f"{line}\n" for line in whole).encode()
    tool, chance = load_script(TOOL), random.Random(6)
    for cut in [0, 1, len(content) - 1, len(content) - 7, *(chance.randrange(len(content)) for _ in range(20))]:
        desk.file.write_bytes(content[:cut])
        with pytest.raises(tool.Refused):
            tool._Reader(desk.file).answers()
    hole = chance.randrange(len(content) // 2)
    desk.file.write_bytes(content[:hole] + bytes(4096) + content[hole + 4096 :])
    with pytest.raises(tool.Refused):
        tool._Reader(desk.file).answers()
    desk.file.write_bytes(b"\xff" + content)
    assert desk.write(desk.file).status == 2
    assert desk.write(desk.file.with_name("none.tsv")).status == 2


@pytest.mark.parametrize(
    "old, new, said",
    [
        ("| they are |", "| they are. |\n| vfork(2), BUGS | more | new here |", "0 lines of pages.tsv"),
        ("| execve(2) | may fail | always succeeds |-|\n", "", "0 rows are of this line"),
        ("isn't reported", "is not told", "0 lines of pages.tsv"),
    ],
)
def test_a_page_that_has_changed(desk: Desk, old: str, new: str, said: str) -> None:
    text = desk.page.read_text()
    assert old in text
    desk.page.write_text(text.replace(old, new, 1))
    before = desk.page.read_bytes()
    ended = desk.write()
    assert ended.status == 2 and said in ended.err and desk.page.read_bytes() == before
