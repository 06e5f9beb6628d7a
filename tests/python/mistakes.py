"""The table of mistakes, tests/mistakes.tsv, and runs of the program with them.

The columns of the table are the mistake; the words of the command line, in which `input` is a file with the input that is
on standard input too; the input, in which \\n, \\0, \\xHH (a byte) and \\uHHHH (a character) are escapes; the answer; and
with --explain the place and the remedy. The answer is the line on standard error without `tracehost: `, the first line of
clap's message, or with --lines a line of standard output. If clap's message contains the remedy there is no place.
"""

from __future__ import annotations

import csv
import re
from pathlib import Path
from typing import NamedTuple

import checking
from checking import TOP, Ended

TABLE = TOP / "tests/mistakes.tsv"
ESCAPE = re.compile(r"\\(?:(n)|(0)|x([0-9a-f]{2})|u([0-9a-f]{4}))")


class Mistake(NamedTuple):
    name: str
    words: list[str]
    input: bytes
    answer: str
    place: str
    remedy: str

    @property
    def has_option(self) -> bool:
        """Whether the command line has --explain already. It can't have it twice."""
        return any(word.startswith("--explain=") for word in self.words)


def unescaped(text: str) -> bytes:
    """The bytes of an input, in which some characters are escaped."""

    def bytes_of(found: re.Match[str]) -> str:
        line_feed, nul, byte, character = found.groups()
        if line_feed:
            return "\n"
        if nul:
            return "\0"
        # bytes that aren't UTF-8 on their own pass through as surrogates
        return bytes.fromhex(byte).decode("utf-8", "surrogateescape") if byte else chr(int(character, 16))

    return ESCAPE.sub(bytes_of, text).encode("utf-8", "surrogateescape")


def read_mistakes() -> list[Mistake]:
    with open(TABLE, encoding="utf-8", newline="") as file:
        rows = csv.reader(file, delimiter="\t", quoting=csv.QUOTE_NONE)
        next(rows)
        return [
            Mistake(name, words.split(" "), unescaped(text), answer, place, remedy)
            for name, words, text, answer, place, remedy in rows
        ]


def run(program: Path, room: Path, mistake: Mistake, *options: str) -> Ended:
    (room / "input").write_bytes(mistake.input)
    ended = checking.run(program, *options, *mistake.words, given=mistake.input, cwd=room)
    # the usage that clap prints names the options that are given, --explain too
    return ended._replace(err=ended.err.replace(" --explain[=<WHEN>]", ""))
