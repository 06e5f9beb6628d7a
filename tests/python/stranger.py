"""What a reader of the pages does: commands in a copy of this repository, with only PATH and HOME in the environment."""

from __future__ import annotations

import pathlib
import re
import shutil
import subprocess
from collections.abc import Mapping

import pytest

TOP = pathlib.Path(__file__).resolve().parents[2]
PATH = "/usr/local/bin:/usr/bin:/bin"
NONE: Mapping[str, str] = {}


def needs(*commands: str) -> pytest.MarkDecorator:
    missing = [command for command in commands if shutil.which(command, path=f"{PATH}:/usr/sbin:/sbin") is None]
    return pytest.mark.skipif(bool(missing), reason=f"not installed: {', '.join(missing)}")


def run(command: list[object], cwd: pathlib.Path, environment: Mapping[str, str] = NONE, status: int = 0) -> str:
    """What a command prints on both streams, in an environment of PATH, HOME and these."""
    given = {"PATH": PATH, "HOME": str(cwd), **environment}
    done = subprocess.run(
        [str(word) for word in command], cwd=cwd, env=given, timeout=1800,  # a loaded machine takes its time
        stdin=subprocess.DEVNULL, stdout=subprocess.PIPE, stderr=subprocess.STDOUT, encoding="utf-8", errors="replace",
    )  # fmt: skip
    assert done.returncode == status, f"{command}: status {done.returncode}\n{done.stdout[-3000:]}"
    return done.stdout


def shell(text: str, cwd: pathlib.Path, environment: Mapping[str, str] = NONE) -> str:
    return run(["sh", "-c", text], cwd, environment)


def block(page: str, language: str, count: int = 0) -> str:
    """A block of code of a page."""
    text = (TOP / "docs" / page).read_text(encoding="utf-8")
    return str(re.findall(rf"^```{language}\n(.*?)^```$", text, re.MULTILINE | re.DOTALL)[count])


def copy(place: pathlib.Path) -> pathlib.Path:
    """A copy of this repository's files."""
    listed = subprocess.run(["git", "ls-files", "-co", "--exclude-standard", "-z"], cwd=TOP, stdout=subprocess.PIPE, check=True)
    for name in filter(None, listed.stdout.decode().split("\0")):
        if (TOP / name).exists():
            (place / name).parent.mkdir(parents=True, exist_ok=True)
            shutil.copy2(TOP / name, place / name, follow_symlinks=False)
    return place


def copy_with_builds(place: pathlib.Path) -> pathlib.Path:
    """The same, with the program and the library that were built here."""
    made = copy(place)
    for built in ("crates/tracehost/out", "crates/tracehost_c/out"):
        if (TOP / built).exists():
            shutil.copytree(TOP / built, made / built)
    return made


@pytest.fixture(scope="module")
def clone(tmp_path_factory: pytest.TempPathFactory) -> pathlib.Path:
    return copy(tmp_path_factory.mktemp("clones") / "a clone")
