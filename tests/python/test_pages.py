"""The commands that pages show print what follows them there. They run in a copy of this repository, as a reader runs them.

`..` is any text. The commands that install are those of test_install.py and test_pip.py, and test_cookbook.py runs those of
the cookbook.
"""

from __future__ import annotations

import pathlib
import re
import subprocess
from typing import NamedTuple

import pytest
from stranger import PATH, TOP, block, clone, needs, run

__all__ = ["clone"]  # a fixture
SUITE = "PLANT=coalesce ./test_suite"  # by test_clients_examples.py, which has compiled it
SHELL = "python -m tracehost"


class Shown(NamedTuple):
    """A command of a page, and the text that follows it."""

    command: str
    text: str


class Printed(NamedTuple):
    """What a command prints on both streams, and its status."""

    text: str
    status: int


def blocks(page: str) -> list[str]:
    """The indented blocks of a page."""
    text = re.sub(r"^```.*?^```$", "", (TOP / page).read_text(encoding="utf-8"), flags=re.MULTILINE | re.DOTALL)
    return [re.sub(r"^    ", "", block, flags=re.MULTILINE) for block in re.findall(r"(?:^    .*\n)+", text, re.MULTILINE)]


def shown(page: str) -> list[Shown]:
    """The commands behind a prompt."""
    found = [re.findall(r"^\$ (.*)\n((?:(?!\$ ).*\n)*)", block, re.MULTILINE) for block in blocks(page)]
    return [Shown(*pair) for pairs in found for pair in pairs]


class Reader:
    """Who types a page's commands, one after the other, in the top folder of a clone."""

    def __init__(self, clone: pathlib.Path, room: pathlib.Path) -> None:
        self._clone, self._exports = clone, ["true"]
        (room / "bin").mkdir()
        (room / "bin/tracehost").symlink_to(run([clone / "tools/program"], clone).strip())
        self._environment = {"PATH": f"{room}/bin:{PATH}", "HOME": str(room), "PYTHONPATH": str(clone / "clients/python")}

    def types(self, command: str, lines: str = "") -> Printed:
        if command.startswith(("export ", ". ")):
            self._exports.append(command)
            return Printed("", 0)
        done = subprocess.run(
            ["bash", "-c", f"{' && '.join(self._exports)}\n{command}"], cwd=self._clone, env=self._environment,
            input=lines, timeout=600, stdout=subprocess.PIPE, stderr=subprocess.STDOUT, text=True,
        )  # fmt: skip
        return Printed(done.stdout, done.returncode)

    def has(self, command: str, text: str) -> Printed:
        """A command with what it is given on its standard input: in the text these are the steps, or follow a prompt."""
        given = {"./tracehost --lines": r"^(\{.*\n)", SHELL: r"^tracehost> (.*\n)"}.get(command, r"(?!)")
        lines = "".join(re.findall(given, text, re.MULTILINE))
        printed = self.types("python3 -m tracehost.debug" if command == SHELL else command, lines)
        wanted = re.sub(given, "", text, flags=re.MULTILINE).rstrip("\n")
        pattern = ".*".join(map(re.escape, wanted.split("..")))
        assert re.fullmatch(pattern, printed.text.rstrip("\n"), re.DOTALL), f"{command}\n{printed.text}"
        return printed


NAMES = ["README.md", *(str(path.relative_to(TOP)) for path in sorted(TOP.glob("docs/**/*.md")))]
APART = "docs/TUTORIAL.md"  # by test_tutorial.py, which writes the files that its commands need
PAGES = [page for page in NAMES if shown(page) and page != APART]


@needs("cc", "g++", "make", "addr2line", "python3")
@pytest.mark.parametrize("page", PAGES)
def test_a_page(clone: pathlib.Path, tmp_path: pathlib.Path, page: str) -> None:
    """Behind a command without a text there is a status of 0."""
    reader = Reader(clone, tmp_path)
    for command, text in shown(page):
        if command != SUITE:
            status = reader.has(command, text).status if text else reader.types(command).status
            assert text or status == 0, command


@needs("python3")
def test_the_commands_of_the_viewer(clone: pathlib.Path, tmp_path: pathlib.Path) -> None:
    """They print nothing, and leave a page, and a file for Perfetto."""
    reader = Reader(clone, tmp_path)
    commands = [
        line for block in blocks("docs/VIEWER.md") for line in block.splitlines() if re.match(r"\./|viewer/make trace", line)
    ]
    assert len(commands) == 3
    for command in commands:
        assert reader.types(command) == Printed("", 0)
    assert (clone / "page.html").read_text(encoding="utf-8").rstrip().endswith("</html>")
    assert (clone / "fork.json").read_text(encoding="utf-8").startswith("{")


@needs("python3")
def test_the_search_in_python(clone: pathlib.Path, tmp_path: pathlib.Path) -> None:
    """The test of the page fails with the lines after it, and passes once `debug` returns at ProcessLookupError."""
    reader, attach = Reader(clone, tmp_path), "        await debugger.ptrace(Request.PT_ATTACH, target.pid)\n"
    page, code = (TOP / "docs/SEARCH.md").read_text(encoding="utf-8"), block("SEARCH.md", "python")
    command, lines = re.findall(r"^`(PYTHONPATH=.*)` fails.*\n.*\n*((?:    .*\n)+)", page, re.MULTILINE)[0]
    (clone / "test_attach.py").write_text(code, encoding="utf-8")
    failed = reader.types(command)
    assert failed.status == 1
    printed = re.sub(r"^E? *", "", failed.text, flags=re.MULTILINE)
    assert re.sub(r"^ *", "", lines, flags=re.MULTILINE) in printed, failed.text
    mended = f"        try:\n    {attach}        except ProcessLookupError:\n            return\n"
    assert code.count(attach) == 1
    (clone / "test_attach.py").write_text(code.replace(attach, mended), encoding="utf-8")
    assert reader.types(command).status == 0
    said = " ".join(re.findall(r"prints `(all[^`]*)`", page)[0].split())
    searched = "from tracehost.explore import explore; from test_attach import world; print(explore(world))"
    assert reader.types(f'python3 -c "{searched}"') == Printed(f"{said}\n", 0)


def test_the_session_of_the_format(program: pathlib.Path) -> None:
    """The scenario at the end of section 9 prints the lines after it."""
    text = (TOP / "docs/FORMAT.md").read_text(encoding="utf-8").partition("\n## 9. ")[2].partition("\n## ")[0]
    scenario, lines = (
        re.sub(r"^    ", "", block, flags=re.MULTILINE) for block in re.findall(r"(?:^    .*\n)+", text, re.MULTILINE)
    )
    done = subprocess.run([program], input=scenario, stdout=subprocess.PIPE, text=True, check=True)
    assert done.stdout == lines
