"""The client in Rust, clients/rust, over the library: every scenario of tests/rows and examples by typed calls, random typed
calls beside the same calls by text, and its example. test_rust_crates.py has its tests and its documentation.
"""

from __future__ import annotations

import os
import re
import shutil
import subprocess
from pathlib import Path

import pytest
from c_programs import output
from cargo import Cargo
from checking import TOP, needs, run
from client_programs import FILES, words
from row_files import Located
from stranger import block

__all__ = ["words"]  # a fixture
CRATE = TOP / "clients/rust"
PAGE = ["1001 stopped SIGSTOP", "1001 signaled SIGKILL", "99: No such process"]

pytestmark = needs("cargo")


@pytest.fixture(scope="module")
def cargo(library: Path, tmp_path_factory: pytest.TempPathFactory) -> Cargo:
    return Cargo(CRATE, library, tmp_path_factory.mktemp("cargo"))


def test_the_scenarios(cargo: Cargo, words: Path, located: Located, tmp_path: Path) -> None:
    shutil.copytree(words, tmp_path / "words")
    for file in map(located, FILES):
        shutil.copy((TOP / file).with_suffix(".out"), tmp_path / "words" / str(file.with_suffix(".out")).replace("/", "-"))
    command = ["--quiet", "--test", "replay", "--", "--ignored", "--nocapture"]
    said = cargo("test", *command, environment={"TRACEHOST_WORDS": str(tmp_path / "words")})
    assert re.findall(r"^(\d+) scenarios, ", said, re.MULTILINE) == [str(len(FILES))]


@needs("cc", "ar")
def test_a_library_that_runs_out_of_memory(cargo: Cargo, tmp_path: Path) -> None:
    made, source = tmp_path / "library.o", CRATE / "tests/memory/library.c"
    output("cc", "-std=c11", "-Wall", "-Werror", "-O1", "-fPIC", "-I", TOP / "include", "-c", "-o", made, source)
    output("ar", "rcs", tmp_path / "libtracehost.a", made)
    environment = {"TRACEHOST_LIB_DIR": str(tmp_path), "CARGO_TARGET_DIR": str(tmp_path)}
    cargo("test", "--quiet", "--test", "memory", "--", "--ignored", environment=environment)


def built_with(library: bytes, room: Path) -> subprocess.CompletedProcess[str]:
    """What `cargo run --example debugger` comes to over an archive."""
    room.mkdir()
    (room / "libtracehost.a").write_bytes(library)
    environment = {**os.environ, "TRACEHOST_LIB_DIR": str(room), "CARGO_TARGET_DIR": str(room / "target")}
    words = ["cargo", "run", "--offline", "--quiet", "--example", "debugger"]
    return subprocess.run(words, cwd=CRATE, env=environment, capture_output=True, text=True, check=False)


@needs("ar")
def test_a_library_of_another_version(library: Path, tmp_path: Path) -> None:
    """The build refuses it, also if its version only ends like the crate's; and so does the first call."""
    archive, version = (library / "libtracehost.a").read_bytes(), run(TOP / "tools/version").out.strip()
    here, there = f"{version}\0".encode(), f"{version[:-1]}x\0".encode()
    assert archive.count(here) == 1
    at = archive.index(here)
    longer = archive[: at - 1] + b"1" + archive[at:]
    for number, changed in enumerate((archive.replace(here, there), longer)):
        built = built_with(changed, tmp_path / str(number))
        assert built.returncode != 0 and f"libtracehost.a isn't of this crate's version, {version}" in built.stderr
    (tmp_path / "version").write_text(f"\0{version}\0")
    (tmp_path / "unseen.a").write_bytes(archive.replace(here, there))
    output("ar", "q", tmp_path / "unseen.a", tmp_path / "version")
    ran = built_with((tmp_path / "unseen.a").read_bytes(), tmp_path / "call")
    assert ran.returncode == 1 and ran.stderr.endswith("Error: OtherLibrary\n"), ran.stderr


def test_the_example(cargo: Cargo) -> None:
    assert cargo("run", "--quiet", "--example", "debugger") == (TOP / "clients/debugger.out").read_text()


@needs("pkg-config")
def test_the_page(cargo: Cargo, library: Path, tmp_path: Path) -> None:
    """The code of its README, in a package that depends on the crate. Away from the checkout pkg-config finds the library,
    and without it the build says what is missing.
    """
    crate, page, config = tmp_path / "away/clients/rust", tmp_path / "page", tmp_path / "pkgconfig"
    shutil.copytree(CRATE, crate)
    (page / "src").mkdir(parents=True)
    config.mkdir()
    (page / "src/main.rs").write_text(block("../clients/rust/README.md", "rust"))
    (page / "Cargo.toml").write_text(
        f'[package]\nname = "page"\nedition = "2021"\n[dependencies]\ntracehost = {{ path = "{crate}" }}\n'
    )
    environment = {**os.environ, **cargo.environment, "PKG_CONFIG_LIBDIR": str(config)}
    del environment["TRACEHOST_LIB_DIR"]
    command = ["cargo", "run", "--offline", "--quiet"]
    without = subprocess.run(command, cwd=page, env=environment, capture_output=True, text=True, check=False)
    assert without.returncode != 0 and "tracehost: there is no libtracehost.a" in without.stderr
    (config / "tracehost.pc").write_text(f"libdir={library}\nName: tracehost\nDescription: -\nVersion: 0\n")
    built = subprocess.run(command, cwd=page, env=environment, capture_output=True, text=True, check=False)
    assert (built.returncode, built.stdout.splitlines()) == (0, PAGE), built.stderr


def test_unsafe_code_is_in_one_module() -> None:
    found = [path.name for path in (CRATE / "src").rglob("*.rs") if "unsafe_code" in path.read_text()]
    assert found == ["sys.rs"]
