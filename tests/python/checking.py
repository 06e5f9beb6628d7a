"""Runs of the program that tests compare, and what a test needs."""

from __future__ import annotations

import importlib.machinery
import importlib.util
import shutil
import subprocess
import sys
from pathlib import Path
from typing import Any, NamedTuple

import pytest

from checks import Checks as Checks

TOP = Path(__file__).resolve().parents[2]
SECONDS = 60
Word = str | Path


class Ended(NamedTuple):
    """How a run ended: its status, standard output and standard error."""

    status: int
    out: str
    err: str


def run(program: Word, *words: Word, given: str | bytes = b"", cwd: Word | None = None, seconds: float = SECONDS) -> Ended:
    """Runs a program with these words and this input. Bytes that are no text are kept as they are (surrogates)."""
    data = given.encode(errors="surrogateescape") if isinstance(given, str) else given
    ended = subprocess.run([program, *words], input=data, capture_output=True, cwd=cwd, timeout=seconds, check=False)
    out, err = (stream.decode(errors="surrogateescape") for stream in (ended.stdout, ended.stderr))
    return Ended(ended.returncode, out, err)


def answers(
    program: Word, *words: Word, status: int = 0, out: str = "", err: str = "", given: str | bytes = b"", cwd: Word | None = None
) -> None:
    """The program with these words ends with this status, and prints exactly these texts."""
    assert run(program, *words, given=given, cwd=cwd) == Ended(status, out, err)


def load_script(path: Path) -> Any:
    """A Python program whose file name has no ending, as a module."""
    loader = importlib.machinery.SourceFileLoader(path.name, str(path))
    spec = importlib.util.spec_from_loader(path.name, loader)
    assert spec
    module = importlib.util.module_from_spec(spec)
    sys.modules[path.name] = module  # for its classes
    loader.exec_module(module)
    return module


def needs(*commands: str) -> pytest.MarkDecorator:
    """A mark that skips a test if one of these commands isn't installed."""
    missing = [command for command in commands if shutil.which(command) is None]
    return pytest.mark.skipif(bool(missing), reason=f"not installed: {', '.join(missing)}")


def first_block(page: Path, language: str) -> str:
    """The first block of a page in this language, without its fences."""
    text = page.read_text(encoding="utf-8")
    return text.split(f"```{language}\n", 1)[1].split("```", 1)[0]
