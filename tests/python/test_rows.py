"""Each row file, tests/rows/*/NAME.json and examples/NAME.json: the program prints NAME.out. long_rows.py makes some of them.

If they exist, NAME.err is standard error, else it is empty. NAME.args contains the words before the file, a word a line,
and NAME.status the exit status, else it is 0.
"""

from __future__ import annotations

from pathlib import Path

from checking import TOP, answers
from row_files import for_each_scenario, scenario_files


def text_beside(file: Path, ending: str) -> str:
    """The text of a row's file with another ending; empty if there is none."""
    path = TOP / file.with_suffix(ending)
    return path.read_bytes().decode(errors="surrogateescape") if path.exists() else ""


@for_each_scenario(scenario_files())
def test_row(program: Path, file: Path) -> None:
    words = [word for word in text_beside(file, ".args").split("\n") if word]
    status = int(text_beside(file, ".status") or 0)
    answers(program, *words, file, status=status, out=text_beside(file, ".out"), err=text_beside(file, ".err"), cwd=TOP)


def test_each_file_belongs_to_a_row() -> None:
    files = [path for folder in (TOP / "tests/rows", TOP / "examples") for path in folder.rglob("*") if path.is_file()]
    assert {path for path in files if not path.with_suffix(".json").exists()} == set()
    assert {path for path in files if not path.with_suffix(".out").exists()} == set()
