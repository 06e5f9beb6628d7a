"""Each mistake of tests/mistakes.tsv is refused with one line if standard error is captured, and with --explain its place and
remedy follow. mistakes.py describes the table."""

from __future__ import annotations

from pathlib import Path

import pytest

from checking import Ended
from mistakes import Mistake, read_mistakes, run

LEAST_MISTAKES = 106
MISTAKES = read_mistakes()


def check_refusal(mistake: Mistake, captured: Ended) -> None:
    if mistake.answer.startswith("error: "):
        assert captured.status == 2
        assert captured.err.split("\n")[0].rstrip() == mistake.answer
    elif mistake.answer.startswith("refused "):
        assert (captured.status, captured.err) == (0, "")
        assert mistake.answer in captured.out.split("\n")
    else:
        status = 3 if mistake.answer == "cannot read" else 1
        assert captured == Ended(status, "", f"tracehost: {mistake.answer}\n")


def check_explanation(mistake: Mistake, captured: Ended, explained: Ended) -> None:
    assert explained[:2] == captured[:2]
    assert explained.err.startswith(captured.err)
    added = explained.err[len(captured.err) :]
    if mistake.place:
        assert any(line.startswith(f"  {mistake.place}: ") and mistake.remedy in line for line in added.split("\n")), added
    else:
        # clap's message says it, and nothing follows
        assert added == ""
        assert mistake.remedy in captured.err


@pytest.mark.parametrize("mistake", MISTAKES, ids=[mistake.name for mistake in MISTAKES])
def test_mistake(program: Path, tmp_path: Path, mistake: Mistake) -> None:
    captured = run(program, tmp_path, mistake)
    check_refusal(mistake, captured)
    if not mistake.has_option:
        assert run(program, tmp_path, mistake, "--explain=never") == captured
    explained = captured if mistake.has_option else run(program, tmp_path, mistake, "--explain")
    check_explanation(mistake, captured, explained)


def test_the_table() -> None:
    assert len(MISTAKES) >= LEAST_MISTAKES
    assert len({mistake.name for mistake in MISTAKES}) == len(MISTAKES)
