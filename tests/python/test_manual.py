"""The manual page is rendered without a warning. Its options, and those of the completions, are those of --help. Its
examples, and those of --help, print what they say."""

from __future__ import annotations

import re
import subprocess
from pathlib import Path

import pytest

from checking import TOP, needs, run

PAGE = TOP / "man/tracehost.1"
OPTION = re.compile(r"(?:^|(?<=[^-a-zA-Z]))--?[a-zA-Z][a-z-]*")
# an option in --help: its short form, its long one and its value
DESCRIBED = re.compile(r"^ +((?:-[a-zA-Z], )?--[a-z-]+)( <[^>]+>|\[=<[^>]+>\])?  +[A-Z]")


@pytest.fixture(scope="module")
def help_text(program: Path) -> str:
    ran = run(program, "--help")
    return ran.out + ran.err


@pytest.fixture(scope="module")
def options(help_text: str) -> set[str]:
    """The options, long and short, that --help names."""
    part = help_text[help_text.index("Options:") :]
    found = set(OPTION.findall(" ".join(re.findall(r"^ +((?:-[a-zA-Z], )?--[a-z-]+)", part, re.MULTILINE))))
    assert found
    return found


@needs("groff")
def test_the_page_is_rendered() -> None:
    ran = run("groff", "-mdoc", "-ww", "-Tutf8", PAGE)
    assert (ran.status, ran.err) == (0, "")
    assert ran.out.count("\n") > 50


def test_options_of_the_page(options: set[str]) -> None:
    lines = re.findall(r"^\.It Fl (.*)", PAGE.read_text(), re.MULTILINE)
    listed = [re.sub(r" (Ar|Cm) .*", "", "-" + line).replace(" , -", " --") for line in lines]
    assert set(OPTION.findall("\n".join(listed))) == options


def test_options_of_the_completions_for_bash(options: set[str]) -> None:
    lists = re.findall(r'(?:scenario|lines|all)="([^"]*)"', (TOP / "completions/tracehost.bash").read_text())
    assert set(OPTION.findall("\n".join(lists))) == options


def test_options_of_the_completions_for_zsh(options: set[str]) -> None:
    parts = re.findall(r"\)(--[a-z-]+|'\{-[a-zA-Z],--[a-z]+\})", (TOP / "completions/_tracehost").read_text())
    assert set(OPTION.findall("\n".join(parts))) == options


def test_each_argument_is_described(help_text: str) -> None:
    assert re.search(r"^  \[FILE\]  [A-Z]", help_text, re.MULTILINE)
    lines = help_text[help_text.index("Options:") :].split("\n\n")[0].splitlines()[1:]
    assert [line for line in lines if not DESCRIBED.match(line)] == []


def run_in_shell(program: Path, folder: Path, command: str, cwd: Path) -> str:
    """What the command prints if `tracehost` is this program."""
    (folder / "tracehost").symlink_to(program)
    ran = subprocess.run(
        ["bash", "-c", f"PATH=$0:$PATH; {command}", folder],
        cwd=cwd,
        stdin=subprocess.DEVNULL,
        stdout=subprocess.PIPE,
        text=True,
        check=True,
    )
    return ran.stdout


def test_the_examples_of_the_help(program: Path, help_text: str, tmp_path: Path) -> None:
    examples = [line.removeprefix("  ") for line in help_text[help_text.index("Examples:") :].splitlines() if line.startswith("  ")]
    assert len(examples) >= 3
    for number, example in enumerate(examples):
        folder = tmp_path / str(number)
        folder.mkdir()
        run_in_shell(program, folder, example, TOP)


@pytest.mark.parametrize("word", ["--version", "-V"])
def test_the_version(program: Path, word: str) -> None:
    found = re.search(r'^const VERSION: &str = "([^"]+)";$', (TOP / "crates/tracehost/src/main.rt").read_text(), re.MULTILINE)
    assert found
    assert run(program, word).out == f"tracehost {found[1]}\n"


@pytest.mark.parametrize(
    "command", ["viewer/make", "viewer/perfetto", "clients/posix/tracehost-run", "clients/posix/tracehost-corpus"]
)
def test_the_version_of_another_command(command: str) -> None:
    version = run(TOP / "tools/version").out.strip()
    assert run(TOP / command, "--version").out in (f"{command} {version}\n", f"{Path(command).name} {version}\n")


@pytest.fixture(scope="module")
def examples() -> list[str]:
    """The blocks `.Bd -literal` of the page: commands after `$ ` and what they print."""
    return re.findall(r"^\.Bd -literal.*?\n(.*?)^\.Ed", PAGE.read_text(), re.MULTILINE | re.DOTALL)


def test_the_first_example_of_the_page(program: Path, tmp_path: Path, examples: list[str]) -> None:
    scenario = re.search(r'^\{"steps".*?^\]\}\n', examples[0], re.MULTILINE | re.DOTALL)
    assert scenario
    (tmp_path / "attach.json").write_text(scenario[0])
    printed = re.split(r"^\$ tracehost.*\n", examples[0], maxsplit=1, flags=re.MULTILINE)[1]
    assert printed
    assert run(program, "attach.json", cwd=tmp_path).out == printed


def test_the_second_example_of_the_page(program: Path, tmp_path: Path, examples: list[str]) -> None:
    command, printed = examples[1].removeprefix("$ ").split("\n", 1)
    assert printed
    assert run_in_shell(program, tmp_path, command, tmp_path) == printed
