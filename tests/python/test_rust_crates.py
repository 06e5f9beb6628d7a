"""The crates clients/rust and clients/explore: their tests, the code of their documentation, their format."""

from __future__ import annotations

import re
import subprocess
from pathlib import Path

import pytest
from c_programs import output
from cargo import Cargo
from checking import TOP, Checks, needs, run

CRATES = [TOP / "clients/rust", TOP / "clients/explore"]

pytestmark = needs("cargo")


@pytest.fixture(scope="module", params=CRATES, ids=[crate.name for crate in CRATES])
def cargo(request: pytest.FixtureRequest, library: Path, tmp_path_factory: pytest.TempPathFactory) -> Cargo:
    return Cargo(request.param, library, tmp_path_factory.mktemp("cargo"))


def needs_part(part: str) -> None:
    if subprocess.run(["cargo", part, "--version"], capture_output=True, check=False).returncode:
        pytest.skip(f"cargo has no {part}")


def test_the_version(cargo: Cargo) -> None:
    """Also of the crates that it depends on: all of them are this repository's."""
    version = run(TOP / "tools/version").out.strip()
    for file in ("Cargo.toml", "Cargo.lock"):
        assert set(re.findall(r'^version = "(.*)"', (cargo.crate / file).read_text(), re.MULTILINE)) == {version}


@pytest.mark.parametrize("name", ["LICENSE", "THIRD-PARTY.txt"])
def test_its_package_has_the_licenses(cargo: Cargo, name: str) -> None:
    """What is built with it contains the library."""
    assert (cargo.crate / name).read_bytes() == (TOP / name).read_bytes()
    assert name in cargo("package", "--list", "--allow-dirty").splitlines()


def test_it_compiles(cargo: Cargo) -> None:
    cargo("build", "--quiet", "--all-targets")


def test_clippy(cargo: Cargo) -> None:
    needs_part("clippy")
    cargo("clippy", "--quiet", "--all-targets", "--", "-D", "warnings")


def test_its_format(cargo: Cargo) -> None:
    needs_part("fmt")
    output("cargo", "fmt", "--check", cwd=cargo.crate)


def test_its_documentation(cargo: Cargo) -> None:
    cargo("doc", "--quiet", "--no-deps", environment={"RUSTDOCFLAGS": "-Dwarnings"})


def test_its_own_tests(cargo: Cargo, checks: Checks) -> None:
    """Each of them counts as a check."""
    for name, result in re.findall(r"^test (.*) \.\.\. (\w+)", cargo("test", "--release"), re.MULTILINE):
        if result != "ignored":
            checks.check(result == "ok", name)
