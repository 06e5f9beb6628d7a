"""Rust programs on the model: tracehost-ld links them, with each rustc that is installed, and tracehost-run runs them."""

from __future__ import annotations

import os
import re
import shutil
import subprocess
from pathlib import Path

import pytest

from posix_kit import POSIX, SCALE, Done, Posix

LD = POSIX / "tracehost-ld"
PROGRAMS = POSIX / "tests" / "rust"
SCHEDULES = 50 * SCALE
COMPILERS = [path for path in dict.fromkeys([shutil.which("rustc"), "/usr/bin/rustc"]) if path and Path(path).exists()]
"""rustup's, and Debian's."""

pytestmark = [
    pytest.mark.usefixtures("posix"),
    pytest.mark.skipif(not COMPILERS or not shutil.which("objcopy"), reason="needs rustc and binutils"),
]


def linked(room: Path, compiler: str, program: Path, *flags: str) -> Done:
    made = room / program.stem
    words = [compiler, "--edition", "2021", "-g", "-C", f"linker={LD}", *flags, "-o", made, program]
    return Posix.execute(*words)


def made_of(room: Path, compiler: str, name: str, *flags: str) -> Path:
    done = linked(room, compiler, PROGRAMS / f"{name}.rs", *flags)
    assert done.returncode == 0, done.stderr[-4000:]
    return room / name


@pytest.mark.parametrize("compiler", COMPILERS)
class TestRust:
    @pytest.mark.parametrize("strategy", ["random", "pct"])
    @pytest.mark.parametrize(("name", "prints"), [("debugger", "4 events\n"), ("processes", "all\n")])
    def test_passes(self, posix: Posix, tmp_path: Path, compiler: str, name: str, prints: str, strategy: str) -> None:
        made = made_of(tmp_path, compiler, name)
        plain = posix.run(made)
        assert (plain.returncode, plain.stdout) == (0, prints), plain.stderr
        done = posix.run("--schedules", SCHEDULES, "--strategy", strategy, made)
        assert done.returncode == 0 and f"{SCHEDULES + 1} schedules passed" in done.stderr, done.stderr

    def test_a_race_is_found(self, posix: Posix, tmp_path: Path, compiler: str) -> None:
        made = made_of(tmp_path, compiler, "debugger", "--cfg", "race")
        done = posix.run("--schedules", 200, made)
        assert done.returncode == 1 and "the first process exited with status 101" in done.stderr, done.stderr
        assert re.search(r"debugger\.rs:\d+", done.stdout + done.stderr)

    @pytest.mark.parametrize("flags", [["-O"], ["-C", "panic=abort"], ["-C", "linker-flavor=gcc"]], ids=" ".join)
    def test_ways_to_link(self, posix: Posix, tmp_path: Path, compiler: str, flags: list[str]) -> None:
        assert posix.run("--schedules", 5, made_of(tmp_path, compiler, "debugger", *flags)).returncode == 0

    @pytest.mark.parametrize("flags", [["-C", "lto=fat"], ["-C", "prefer-dynamic"]], ids=" ".join)
    def test_rusts_library_has_to_be_told_apart(self, tmp_path: Path, compiler: str, flags: list[str]) -> None:
        done = linked(tmp_path, compiler, PROGRAMS / "debugger.rs", *flags)
        assert done.returncode == 1 and "tracehost-ld: Rust's own library isn't among the files" in done.stderr
        assert not (tmp_path / "debugger").exists()


CONFIG = """\
[target.x86_64-unknown-linux-gnu]
rustflags = ["-C", "linker=tracehost-ld"]
runner = "tracehost-run"
"""


@pytest.mark.skipif(shutil.which("cargo") is None, reason="needs cargo")
def test_cargo(tmp_path: Path) -> None:
    """By three lines of its configuration. A script of the build isn't the model's."""
    for folder in (".cargo", "src"):
        (tmp_path / folder).mkdir()
    (tmp_path / "Cargo.toml").write_text('[package]\nname = "debugger"\nversion = "0.1.0"\nedition = "2021"\n')
    (tmp_path / ".cargo" / "config.toml").write_text(CONFIG)
    (tmp_path / "build.rs").write_text('fn main() { println!("cargo:rerun-if-changed=build.rs"); }\n')
    shutil.copy(PROGRAMS / "debugger.rs", tmp_path / "src" / "main.rs")
    assert CONFIG in (POSIX.parents[1] / "docs" / "POSIX.md").read_text().replace("    ", "")
    environment = {**os.environ, "PATH": f"{POSIX}:{os.environ['PATH']}"}
    words = ["cargo", "run", "--quiet", "--offline", "--target", "x86_64-unknown-linux-gnu"]
    done = subprocess.run(words, cwd=tmp_path, env=environment, capture_output=True, text=True, timeout=300, check=False)
    assert (done.returncode, done.stdout) == (0, "4 events\n"), done.stderr


class TestMistakes:
    def test_usage(self) -> None:
        told, none = Posix.execute(LD, "--help"), Posix.execute(LD)
        assert (told.returncode, told.stderr) == (0, "") and told.stdout.startswith("usage: rustc -C linker=tracehost-ld")
        assert (none.returncode, none.stdout, none.stderr) == (2, "", told.stdout)

    def test_a_file_of_arguments(self, tmp_path: Path) -> None:
        """rustc writes them into one if they are many."""
        (tmp_path / "arguments").write_text("a\\ b.o\n-lc\n")
        done = Posix.execute(LD, f"@{tmp_path}/arguments")
        assert done.returncode == 1 and "Rust's own library isn't among the files" in done.stderr

    def test_a_file_that_is_not_there(self, tmp_path: Path) -> None:
        done = Posix.execute(LD, f"@{tmp_path}/none")
        assert done.returncode == 1 and done.stderr.startswith("tracehost-ld: ") and "none" in done.stderr
