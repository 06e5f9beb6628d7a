"""Each mistake of tests/client_mistakes.tsv is told by the client that it is made with: where it is, or what to write.

The columns of the table are the client; the mistake; code of Python or C, words of the prompt or a command; and what has to
be in the message, between ` && `, or - if the message doesn't help. The mistakes of tests/mistakes.tsv in scenarios are also
made with the viewer, which asks the program.
"""

from __future__ import annotations

import csv
import io
import pathlib
import signal
import subprocess
from collections.abc import Iterator
from pathlib import Path
from typing import NamedTuple

import pytest
import tracehost
from tracehost.prompt import Prompt
from tracehost.saving import Session

import mistakes
from checking import TOP, needs

TABLE = TOP / "tests/client_mistakes.tsv"
COMMANDS = {
    "viewer/make": TOP / "viewer/make", "viewer/perfetto": TOP / "viewer/perfetto",
    "tracehost-run": TOP / "clients/posix/tracehost-run", "tracehost-cc": TOP / "clients/posix/tracehost-cc",
}  # fmt: skip
FILES = {
    "word.txt": b"hello\n", "plain.txt": b"1001 1 new 1000 100000\n", "bytes": b"\x7fELF\x02\x01\x01\0\0", "empty": b"",
    "cut.json": b'{"steps":[{"user":1001,"op":"spawn"}', "good.json": b'{"steps":[{"user":1001,"op":"spawn"}]}\n',
    "op.json": b'{"steps":[{"user":1001,"op":"spwan"}]}',
}  # fmt: skip
# the first use of tracehost-cc compiles the runtime
SECONDS = 300
# of so many mistakes, at least so many are told so that one can mend them
MOST_OF_ALL, LEAST_TOLD = 225, 215


class Mistake(NamedTuple):
    client: str
    name: str
    what: str
    wanted: list[str]

    @property
    def is_told(self) -> bool:
        return self.wanted != ["-"]


def read() -> list[Mistake]:
    with open(TABLE, encoding="utf-8", newline="") as file:
        rows = csv.reader(file, delimiter="\t", quoting=csv.QUOTE_NONE)
        next(rows)
        return [Mistake(client, name, what, words.split(" && ")) for client, name, what, words in rows]


ALL = read()
OF_PROGRAM = mistakes.read_mistakes()
IN_SCENARIOS = [mistake for mistake in OF_PROGRAM if mistake.answer.startswith("refused:") and mistake.words == ["input"]]


def told_by(*clients: str) -> pytest.MarkDecorator:
    """A mark that runs a test for each mistake that one of these clients tells."""
    chosen = [mistake for mistake in ALL if mistake.client in clients and mistake.is_told]
    return pytest.mark.parametrize("mistake", chosen, ids=[f"{mistake.client}: {mistake.name}" for mistake in chosen])


@pytest.fixture(scope="module")
def room(tmp_path_factory: pytest.TempPathFactory) -> Path:
    """The folder that the mistakes are made in."""
    folder = tmp_path_factory.mktemp("room")
    for name, data in FILES.items():
        (folder / name).write_bytes(data)
    return folder


@pytest.fixture(autouse=True)
def surroundings(room: Path, program: Path, monkeypatch: pytest.MonkeyPatch) -> None:
    monkeypatch.chdir(room)
    monkeypatch.setenv("TRACEHOST", str(program))


def by_python(mistake: Mistake) -> str:
    """The message of what is raised; "" for nothing."""
    with tracehost.Host() as host:
        user = host.user(1001)
        names = {name: getattr(tracehost, name) for name in tracehost.__all__}
        names |= {"signal": signal, "pathlib": pathlib, "host": host, "user": user}
        names |= {"debugger": user.process(user.spawn()), "target": user.spawn()}
        try:
            exec(mistake.what, names)
        except Exception as error:  # whatever a client raises
            return str(error)
    return ""


@told_by("python")
def test_in_python(mistake: Mistake, library: Path, monkeypatch: pytest.MonkeyPatch) -> None:
    monkeypatch.setenv("TRACEHOST_LIBRARY", str(library / "libtracehost.so"))
    said = by_python(mistake)
    assert all(words in said for words in mistake.wanted), said


@told_by("prompt")
def test_at_the_prompt(mistake: Mistake) -> None:
    """What it prints after two steps."""
    printed = io.StringIO()
    prompt = Prompt(Session("session", (), None), stdin=io.StringIO(), stdout=printed)
    try:
        for line in ("spawn", "spawn", mistake.what):
            prompt.onecmd(line)
    finally:
        prompt.close()
    said = printed.getvalue().split("\n", 2)[2]
    assert all(words in said for words in mistake.wanted), said


def by_command(words: list[str]) -> subprocess.CompletedProcess[str]:
    return subprocess.run(
        [COMMANDS[words[0]], *words[1:]], stdin=subprocess.DEVNULL, stdout=subprocess.PIPE, stderr=subprocess.PIPE,
        timeout=SECONDS, encoding="utf-8", errors="replace", check=False,
    )  # fmt: skip


@told_by("viewer", "runner")
def test_of_a_command(mistake: Mistake) -> None:
    ran = by_command(mistake.what.split(" "))
    assert ran.returncode != 0
    assert all(words in ran.stderr for words in mistake.wanted), ran.stderr


@pytest.fixture(scope="module")
def said_by_library(library: Path, room: Path) -> Iterator[dict[str, str]]:
    """What the library's codes say, for each call of the table in a C program."""
    calls = [mistake for mistake in ALL if mistake.client == "library"]
    (room / "calls.c").write_text(program_of(calls), encoding="utf-8")
    command: list[str | Path] = [
        "cc",
        "-std=c11",
        f"-I{TOP}/include",
        "-o",
        room / "calls",
        room / "calls.c",
        library / "libtracehost.a",
    ]
    subprocess.run(command, check=True)
    said = subprocess.run([room / "calls"], stdout=subprocess.PIPE, text=True, check=True).stdout.splitlines()
    yield dict(zip([mistake.name for mistake in calls], said, strict=True))


def program_of(calls: list[Mistake]) -> str:
    """A C program that makes the calls, and prints what their codes say, a line each."""
    lines = "".join(f'    printf("%s\\n", tracehost_strerror({mistake.what}));\n' for mistake in calls)
    return f"""#include <stdio.h>
#include <tracehost.h>

int main(void)
{{
    tracehost h = TRACEHOST_CLOSED, closed = TRACEHOST_CLOSED, ended = TRACEHOST_CLOSED;
    const tracehost_rule rule = {{0, 0, 5, 0}};
    tracehost_reply reply;
    tracehost_open(true, &ended);
    tracehost_close(&ended);
    tracehost_open(true, &h);
{lines}    return (int)tracehost_close(&h);
}}
"""


@needs("cc")
@told_by("library")
def test_in_c(mistake: Mistake, said_by_library: dict[str, str]) -> None:
    said = said_by_library[mistake.name]
    assert all(words in said for words in mistake.wanted), said


@pytest.mark.parametrize("mistake", IN_SCENARIOS, ids=[mistake.name for mistake in IN_SCENARIOS])
def test_in_the_viewer(mistake: mistakes.Mistake, room: Path) -> None:
    """The viewer says what the program explains. It draws steps and replies without a scenario around them."""
    (room / "input").write_bytes(mistake.input)
    ran = by_command(["viewer/make", "input"])
    if ran.returncode == 0:
        assert ran.stdout.startswith("<!DOCTYPE html>")
    else:
        assert mistake.remedy in ran.stderr
        assert mistake.place in ran.stderr


def test_most_mistakes_are_told() -> None:
    """The program tells each of its own."""
    told, count = sum(mistake.is_told for mistake in ALL) + len(OF_PROGRAM), len(ALL) + len(OF_PROGRAM)
    print(f"told so that one can mend them: {told} of {count} mistakes")
    assert count >= MOST_OF_ALL
    assert told * MOST_OF_ALL >= LEAST_TOLD * count
    assert {mistake.client for mistake in ALL if mistake.is_told} == {"python", "prompt", "viewer", "runner", "library"}
