"""Which library and program a checkout has: those of its present sources, undamaged; and each Python that is here."""

from __future__ import annotations

import hashlib
import os
import pathlib
import platform
import shutil
import subprocess
import sys

import pytest

TOP = pathlib.Path(__file__).resolve().parents[3]
RELEASE = pathlib.Path("release", f"{platform.machine()}-linux")

if not (TOP / RELEASE / "libtracehost.so").exists():
    pytest.skip("there is no release for this machine", allow_module_level=True)


class Checkout:
    """A small one: a source for each crate, and the released files with a manifest of these sources."""

    def __init__(self, top: pathlib.Path) -> None:
        self.top = top
        for folder in ("tools", str(RELEASE), "clients/python/tracehost"):
            shutil.copytree(TOP / folder, top / folder, ignore=shutil.ignore_patterns("__pycache__"))
        (top / "crates.txt").write_text("tracehost:\ntracehost_c: tracehost\n")
        for crate in ("tracehost", "tracehost_c"):
            (top / "crates" / crate / "src").mkdir(parents=True)
            (top / "crates" / crate / "src" / "main.rt").write_text("// a source\n")
        self.note()

    def note(self) -> None:
        def sources(crate: str) -> str:
            return subprocess.run([self.top / "tools/sources", crate], stdout=subprocess.PIPE, text=True).stdout.strip()

        facts = ["version 1.0", "kit a kit", "needs Linux", "library-needs Linux"]
        facts += [f"sources {sources('tracehost')}", f"library-sources {sources('tracehost_c')}"]
        words = [sys.executable, "tools/manifest.py", "write", str(RELEASE)]
        subprocess.run(words, cwd=self.top, input="\n".join(facts), text=True, check=True)

    def python(self, code: str) -> str:
        """What it prints, or the last line of its traceback."""
        environment = {name: value for name, value in os.environ.items() if not name.startswith("TRACEHOST")}
        done = subprocess.run(
            [sys.executable, "-c", f"from tracehost import Host\nfrom tracehost.program import default\n{code}"],
            stdout=subprocess.PIPE, stderr=subprocess.PIPE, text=True, cwd=self.top,
            env={**environment, "PYTHONPATH": str(self.top / "clients/python")},
        )  # fmt: skip
        return done.stdout.strip() if done.returncode == 0 else done.stderr.strip().splitlines()[-1]


@pytest.fixture
def checkout(tmp_path: pathlib.Path) -> Checkout:
    return Checkout(tmp_path / "a check out")


def test_the_release_of_the_present_sources(checkout: Checkout) -> None:
    assert checkout.python("print(Host()._session.library.path)") == str(checkout.top / RELEASE / "libtracehost.so")
    assert checkout.python("print(default())") == str(checkout.top / RELEASE / "tracehost")


def test_a_damaged_library(checkout: Checkout) -> None:
    with (checkout.top / RELEASE / "libtracehost.so").open("ab") as file:
        file.write(b"x")
    said = checkout.python("Host()")
    assert said.startswith("FileNotFoundError: tracehost: the library is not built here from the present sources")


def test_a_damaged_program(checkout: Checkout) -> None:
    with (checkout.top / RELEASE / "tracehost").open("ab") as file:
        file.write(b"x")
    said = checkout.python("default()")
    assert (
        said.startswith("FileNotFoundError: tracehost: ") and "its digest is not that of its manifest; ./tracehost --prove" in said
    )


def test_a_changed_source(checkout: Checkout) -> None:
    (checkout.top / "crates/tracehost/src/main.rt").write_text("// a change\n")
    said = checkout.python("default()")
    assert (
        said.startswith("FileNotFoundError: tracehost: ")
        and "the release was built from other sources; ./tracehost --prove" in said
    )
    said = checkout.python("Host()")
    assert said.startswith("FileNotFoundError: tracehost: the library is not built here from the present sources")


class Package:
    """The package as pip installs it, with the release's program and library and their digests."""

    def __init__(self, folder: pathlib.Path) -> None:
        self.folder = folder
        self.package = folder / "tracehost"
        shutil.copytree(TOP / "clients/python/tracehost", self.package, ignore=shutil.ignore_patterns("__pycache__"))
        for place, name in (("bin", "tracehost"), ("lib", "libtracehost.so")):
            (self.package / place).mkdir()
            shutil.copy(TOP / RELEASE / name, self.package / place)
        files = ("bin/tracehost", "lib/libtracehost.so")
        sums = [f"{hashlib.sha256((self.package / name).read_bytes()).hexdigest()}  {name}\n" for name in files]
        (self.package / "SHA256SUMS").write_text("".join(sums))

    def python(self, code: str) -> str:
        """What it prints, or the last line of its traceback."""
        environment = {name: value for name, value in os.environ.items() if not name.startswith("TRACEHOST")}
        done = subprocess.run(
            [sys.executable, "-c", f"from tracehost import Host\nfrom tracehost.program import default\n{code}"],
            stdout=subprocess.PIPE, stderr=subprocess.PIPE, text=True, cwd=self.folder,
            env={**environment, "PYTHONPATH": str(self.folder)},
        )  # fmt: skip
        return done.stdout.strip() if done.returncode == 0 else done.stderr.strip().splitlines()[-1]


@pytest.fixture
def package(tmp_path: pathlib.Path) -> Package:
    return Package(tmp_path / "pack ages")


def test_a_package_as_it_was_built(package: Package) -> None:
    assert package.python("print(Host()._session.library.path)") == str(package.package / "lib/libtracehost.so")
    assert package.python("print(Host().user(1001).spawn())") == "New(pid=1000, tid=100000)"
    assert package.python("print(default())") == str(package.package / "bin/tracehost")


def test_a_changed_library_of_a_package(package: Package) -> None:
    path = package.package / "lib/libtracehost.so"
    with path.open("ab") as file:
        file.write(b"x")
    said = package.python("Host()")
    assert said.startswith(f"FileNotFoundError: {path}: its digest isn't that of ")
    assert said.endswith("it was changed; install the package again")


def test_a_changed_program_of_a_package(package: Package) -> None:
    path = package.package / "bin/tracehost"
    with path.open("ab") as file:
        file.write(b"x")
    assert package.python("print(Host()._session.library.path)") == str(package.package / "lib/libtracehost.so")
    assert package.python("default()").startswith(f"FileNotFoundError: {path}: its digest isn't that of ")


def test_a_package_without_digests(package: Package) -> None:
    (package.package / "SHA256SUMS").unlink()
    said = package.python("Host()")
    assert said.endswith("lib/libtracehost.so: the package has no SHA256SUMS to compare it with; install it again")
    assert package.python("default()").startswith("FileNotFoundError: ")


def test_the_viewer_of_a_package_alone(tmp_path: pathlib.Path) -> None:
    """Outside a checkout it is that of the package, else `tracehost-view`, else that of the program's prefix."""
    package, prefix = tmp_path / "packages", tmp_path / "prefix"
    shutil.copytree(TOP / "clients/python/tracehost", package / "tracehost", ignore=shutil.ignore_patterns("__pycache__"))
    (prefix / "bin").mkdir(parents=True)
    shutil.copy(TOP / RELEASE / "tracehost", prefix / "bin")
    (tmp_path / "s.json").write_text('{"steps":[]}')
    code = "from tracehost import view; print(view('s.json').name)"
    environment = {"PATH": f"{prefix}/bin:/usr/bin:/bin", "PYTHONPATH": str(package)}
    counted = {name: value for name, value in os.environ.items() if name.startswith(("COVERAGE", "PYTHONUSERBASE"))}

    def made() -> str:
        done = subprocess.run(
            [sys.executable, "-c", code], cwd=tmp_path, env={**environment, **counted},
            stdout=subprocess.PIPE, stderr=subprocess.PIPE, text=True,
        )  # fmt: skip
        return done.stdout.strip() or done.stderr.strip().splitlines()[-1]

    if not any(pathlib.Path(root, "share/tracehost/viewer/make").exists() for root in ("/usr", "/usr/local")):
        assert made() == "FileNotFoundError: the viewer isn't installed: there is no tracehost-view (docs/INSTALL.md)"
    viewer = shutil.copytree(TOP / "viewer", prefix / "share/tracehost/viewer")
    assert made() == "s.html"
    viewer.rename(package / "tracehost/viewer")
    assert made() == "s.html"
    (prefix / "bin/tracehost-view").symlink_to(package / "tracehost/viewer/make")
    (package / "tracehost/viewer").rename(package / "viewer")
    (prefix / "bin/tracehost-view").unlink()
    (prefix / "bin/tracehost-view").symlink_to(package / "viewer/make")
    assert made() == "s.html"


def pythons() -> list[str]:
    """Each other Python here from 3.9 on: those of the system, and of pyenv."""
    found = [shutil.which(f"python3.{minor}") for minor in range(9, 20)]
    ours = [str(path) for path in sorted((pathlib.Path.home() / ".pyenv/versions").glob("3.*/bin/python"))]
    runs = []
    for python in [*filter(None, found), *ours]:
        version = subprocess.run(
            [python, "-c", "import sys; print(sys.version_info >= (3, 9))"], stdout=subprocess.PIPE, text=True,
            stderr=subprocess.DEVNULL,
        )  # fmt: skip
        if version.stdout.strip() == "True":
            runs.append(python)
    return runs


@pytest.mark.parametrize("python", pythons())
@pytest.mark.parametrize("name", ["tracehost", "recording", "blocking", "library"])
def test_each_python(python: str, name: str) -> None:
    folder = pathlib.Path(__file__).parent
    libraries = {"TRACEHOST_LIBRARY": str(TOP / RELEASE / "libtracehost.so"), "TRACEHOST": str(TOP / RELEASE / "tracehost")}
    done = subprocess.run(
        [python, "-W", "error", folder / f"test_{name}.py"], stderr=subprocess.PIPE, text=True,
        env={**libraries, **os.environ},
    )  # fmt: skip
    assert done.returncode == 0, done.stderr[-2000:]
