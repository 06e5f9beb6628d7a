"""The parts of pages that `tools/pages` makes are those of the present sources.

Then, in a copy of the sources: a change makes a part older, the totals of docs/internals/TRUST.md change with what is cited,
and a cited item that is gone is an error.
"""

from __future__ import annotations

import re
import shutil
import sys
from collections.abc import Callable, Iterator
from pathlib import Path

import pytest

from checking import TOP, Ended, needs, run

sys.path.insert(0, str(TOP / "tools"))
from crates import listed  # noqa: E402

ARCHITECTURE, TRUST, PYTHON, POSIX = "docs/internals/ARCHITECTURE.md", "docs/internals/TRUST.md", "docs/PYTHON.md", "docs/POSIX.md"
QUESTIONS = "clients/posix/broker/questions.c"
LOWEST = next(iter(listed()))
CLIENT = "clients/python/tracehost"
SECONDS = 600  # a loaded machine takes its time


def pages(*words: str, top: Path = TOP) -> Ended:
    return run(sys.executable, top / "tools/pages", *words, seconds=SECONDS)


@pytest.mark.parametrize("name", ["crates", "python", "calls", "totals", "kit", "imports"])
def test_a_part_is_no_older_than_the_sources(name: str) -> None:
    checked = pages("check", name)
    if checked.status == 3:
        pytest.skip(checked.err.strip())
    assert checked == Ended(0, "", "")


def test_the_table_has_each_crate_once() -> None:
    lines = (TOP / "crates.txt").read_text(encoding="utf-8").splitlines()
    crates = [line.partition(":")[0].split()[0] for line in lines if line and not line.startswith("#")]
    page = (TOP / ARCHITECTURE).read_text(encoding="utf-8")
    table = page.partition("<!-- tools/pages crates -->")[2].partition("<!-- end -->")[0]
    rows = [row.split(" | ") for row in table.splitlines() if row.startswith("| `")]
    assert [row[0] for row in rows] == [f"| `{crate}`" for crate in crates]
    assert all(len(row) == 3 and len(row[2]) > len("| x |") for row in rows)


@pytest.fixture(scope="module")
def whole(tmp_path_factory: pytest.TempPathFactory) -> Path:
    """A copy of what the pages are made from."""
    folder = tmp_path_factory.mktemp("copy")
    for path in [*map(TOP.joinpath, ("tools", CLIENT)), *TOP.glob("crates/*/src"), *TOP.glob("crates/*/specs")]:
        shutil.copytree(path, folder / path.relative_to(TOP))
    for name in ("crates.txt", QUESTIONS, ARCHITECTURE, TRUST, PYTHON, POSIX):
        (folder / name).parent.mkdir(parents=True, exist_ok=True)
        shutil.copy(TOP / name, folder / name)
    return folder


Change = Callable[[str, str, str], None]


@pytest.fixture
def change(whole: Path) -> Iterator[Change]:
    """Replaces the first text of a file of the copy that a pattern fits, until the test ends."""
    before: dict[Path, str] = {}

    def replace(name: str, pattern: str, new: str) -> None:
        path = whole / name
        text = path.read_text(encoding="utf-8")
        before.setdefault(path, text)
        changed, count = re.subn(pattern, new, text, count=1, flags=re.MULTILINE)
        assert count == 1
        path.write_text(changed, encoding="utf-8")

    yield replace
    for path, text in before.items():
        path.write_text(text, encoding="utf-8")


def file_with(pattern: str) -> str:
    """The one file of a crate that has such a line."""
    files = [path for part in ("src", "specs") for path in TOP.glob(f"crates/*/{part}/**/*.*")]
    (found,) = (path for path in files if re.search(pattern, path.read_text(encoding="utf-8"), re.MULTILINE))
    return str(found.relative_to(TOP))


@pytest.mark.parametrize("name, file, pattern, new, page", [
    ("crates", "crates.txt", f"^{LOWEST}:", f"{LOWEST}: memchr", ARCHITECTURE),
    ("crates", f"crates/{LOWEST}/src/lib.rt", "^//! ", "//! Another ", ARCHITECTURE),
    ("kit", "crates.txt", f"^{LOWEST}:", f"{LOWEST}: memchr", TRUST),
    ("totals", file_with("^-- a step by a user$"), "^-- a step by a user$", "-- one\n-- a step by a user", TRUST),
    ("calls", QUESTIONS, '"enter kill leave compute"', '"enter kill leave"', POSIX),
    ("python", f"{CLIENT}/host.py", "def list\\(", "def pids(", PYTHON),
    ("python", f"{CLIENT}/steps.py", "The LWP runs in user mode", "It runs", PYTHON),
])  # fmt: skip
def test_a_change_makes_a_part_older(whole: Path, change: Change, name: str, file: str, pattern: str, new: str, page: str) -> None:
    pytest.importorskip("hypothesis")
    change(page, r"\A", "")
    change(file, pattern, new)
    assert pages("check", name, top=whole) == Ended(
        1, "", f"pages: {page}: `{name}` is older than the sources; `tools/pages write` writes it\n"
    )
    assert pages("write", name, top=whole).status == 0
    assert pages("check", name, top=whole) == Ended(0, "", "")


# ---- the lists of TRUST.md


def lines(top: Path, of: str) -> int:
    """The number of lines that the list prints for a file, or for all parts."""
    found = re.findall(rf"^ *(\d+){of}$", pages("print", "definitions", top=top).out, re.MULTILINE)
    assert found
    return sum(map(int, found))


@pytest.mark.parametrize("more, pattern, new, of", [
    (1, "^-- a step by a user$", "-- one\n-- a step by a user", ""),
    (0, "^-- whether a step installs a handler$", "-- one\n-- whether a step installs a handler", ""),  # that nothing cites
    (4, "^caller_of s = None$", "caller_of s = None ◌ installs", ""),  # that cites one more
    *((1, rf"^pub trait {name}\b", rf"/// More.\npub trait {name}", rf"  FILE: .*\b{name}\b.*") for name in ("Kept", "Report", "Scripted")),
])  # fmt: skip
def test_the_list_follows_citations(whole: Path, change: Change, more: int, pattern: str, new: str, of: str) -> None:
    file = file_with(pattern)
    before = lines(whole, of.replace("FILE", file))
    change(file, pattern, new)
    assert lines(whole, of.replace("FILE", file)) - before == more


TYPES = r"^((?:pub(?:\(crate\))? )?(?:struct|enum)) {0}\b"


@pytest.mark.parametrize("pattern, new, error", [
    *((TYPES.format(it), r"\1 Elsewhere", rf"\b{it} leads to no type of CRATE") for it in ("Keys", "Fields", "KeyError", "Request", "LwpData")),
    (r"^(?:abbrev )?(?:pub )?max_lwps :", "pub elsewhere :", "max_lwps leads to no definition of CRATE"),
    ("run_list", "gone", "there is no function gone"),
    (r"machine.rt \*", "machine.rt gone", "there is no function gone"),
    ("other_step:differ,view", "other_step:differ,gone", "other_step has no clause gone"),
    ("machine.rt", "gone.rt", "No such file or directory: .*gone.rt'"),
])  # fmt: skip
def test_a_cited_name_that_is_gone_is_an_error(whole: Path, change: Change, pattern: str, new: str, error: str) -> None:
    file = file_with(pattern) if "CRATE" in error else "tools/trust.py"
    change(file, pattern, new)
    error, made = error.replace("CRATE", file.split("/")[1]), pages("print", "definitions", top=whole)
    assert (made.status, made.out) == (1, "") and re.fullmatch(f"pages: .*{error}\n", made.err)


def names_of(part: str, top: Path) -> tuple[set[str], int]:
    """What a part lists, and how many lines that is."""
    found = re.search(rf"^==== {part}\nlines  of .+\n((?:[^=\n].*\n)+)", pages("print", "definitions", top=top).out, re.MULTILINE)
    assert found
    return {name for line in found[1].splitlines() for name in line.partition(": ")[2].split(", ")}, int(found[1].split()[-1])


def test_isolation_alone_needs_no_rule_of_the_machine(whole: Path, change: Change) -> None:
    """What a step does is cited by the other clauses only, and so a clause that is named more brings it."""
    names, count = names_of("Isolation alone", whole)
    assert {"view", "View", "Step"} < names and names.isdisjoint({"step", "MakesStep", "Ran"}) and 500 < count < 700
    change("tools/trust.py", "two_lists:seen,equal", "two_lists:seen,equal,first")
    names, count = names_of("Isolation alone", whole)
    assert {"step", "Ran"} < names and count > 1500


def test_each_call_of_the_header_is_in_a_part() -> None:
    header = (TOP / "include/tracehost.h").read_text(encoding="utf-8")
    calls = {*re.findall(r"^[\w ]+[ *](tracehost_\w+)\(", header, re.MULTILINE)}
    named = {*re.findall(r"\btracehost_\w+", pages("print", "definitions").out)} - {"tracehost_c"}
    assert len(calls) > 20 and calls - named == {"tracehost_strerror", "tracehost_version"}  # which aren't proved


@needs("objdump")
@pytest.mark.parametrize("what, file", [("program", "tracehost"), ("library", "libtracehost.so")])
def test_the_page_has_each_function_that_is_imported(what: str, file: str) -> None:
    """By another reader of the tables."""
    page = (TOP / TRUST).read_text(encoding="utf-8").partition("<!-- tools/pages imports -->")[2].partition("<!-- end -->")[0]
    listed = re.search(rf"^The {what}: ((?:.+\n)+)", page, re.MULTILINE)
    table = run("objdump", "-T", TOP / "release/x86_64-linux" / file).out
    imported = re.findall(r"^\w+ +(?! *w)\w* +\w* *\*UND\*\s+\w+(?: +\(?\w[\w.]*\)?)? +(\w+)$", table, re.MULTILINE)
    assert listed and re.findall(r"`(\w+)`", listed[1]) == sorted(imported) and "malloc" in imported


def test_each_module_of_tests_is_printed_with_its_head() -> None:
    printed = re.findall(r"^(\S+)\n    \S", pages("print", "tests").out, re.MULTILINE)
    assert {f"clients/{name}/tests/test_{what}.py" for name, what in (("c", "faults"), ("python", "debug"))} < {*printed}
    assert len(printed) == sum(len([*TOP.glob(f"{folder}/test_*.py")]) for folder in ("tests/python", "clients/*/tests"))


def test_a_name_that_is_no_part() -> None:
    assert pages("print", "nothing").status == 2
