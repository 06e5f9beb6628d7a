"""`pip install ./clients/python` in a fresh environment without a network: the command, the client and the viewer run there,
and mypy sees its types. From sources without a program pip installs only the client.
"""

from __future__ import annotations

import hashlib
import os
import re
import shutil
import subprocess
import sys
from collections.abc import Iterator, Mapping
from pathlib import Path

import pytest
from checking import TOP, first_block
from library_programs import have_build_ids
from stranger import NONE, PATH, copy_with_builds, needs, run

sys.path.insert(0, str(TOP / "tools"))
from third_party import license_of_all  # noqa: E402

VERSION = subprocess.run([TOP / "tools/version"], stdout=subprocess.PIPE, text=True, check=True).stdout.strip()
OFFLINE = "--no-build-isolation --no-index"
FIRST = (TOP / "examples/first.out").read_text()
PAGES = ["README.md", "clients/python/README.md"]
SPAWN = "import tracehost; print(tracehost.Host().user(1001).spawn().pid)"
BUILDS = """import ensurepip, venv, importlib.util as u, setuptools
assert u.find_spec("wheel") or u.find_spec("setuptools.command.bdist_wheel")
assert int(setuptools.__version__.split(".")[0]) >= 61"""
TEST_ONE = "def test_one(tracehost): assert tracehost.user(1001).spawn().pid == 1000\n"


class Environment:
    """A fresh environment of Python with the package, and the sources that it was built from."""

    def __init__(self, room: Path, python: str) -> None:
        self.room, self.bin = room, room / "environment/bin"
        self.sources = copy_with_builds(room / "sources")
        self.program = run([self.sources / "tools/program"], room).strip()
        run([python, "-m", "venv", "--system-site-packages", room / "environment"], room)
        self.pip("./clients/python")
        self.package = Path(self.python("-c", "import tracehost; print(tracehost.__path__[0])").strip())

    def pip(self, *words: str | Path) -> None:
        run([self.bin / "pip", "install", *OFFLINE.split(), *words], self.sources)

    def python(self, *words: str | Path, environment: Mapping[str, str] = NONE, status: int = 0) -> str:
        return run([self.bin / "python", *words], self.room, environment, status)

    def has_library(self) -> bool:
        return subprocess.run([self.sources / "tools/library"], capture_output=True, check=False).returncode == 0

    def page(self, name: str = "README.md") -> Path:
        """The Python of a page, as a file."""
        (self.room / "page.py").write_text(first_block(TOP / name, "python"))
        return self.room / "page.py"


@pytest.fixture(scope="module")
def installed(tmp_path_factory: pytest.TempPathFactory) -> Environment:
    for python in (sys.executable, shutil.which("python3") or "", "/usr/bin/python3"):
        if python and subprocess.run([python, "-c", BUILDS], stderr=subprocess.DEVNULL, check=False).returncode == 0:
            return Environment(tmp_path_factory.mktemp("pip"), python)
    pytest.skip("no python3 here has venv, setuptools 61 and wheel: pip isn't tried")


def test_the_package_has_the_license() -> None:
    assert (TOP / "LICENSE").read_bytes() == (TOP / "clients/python/LICENSE").read_bytes()


def test_what_is_installed_has_both_licenses(installed: Environment) -> None:
    (folder,) = installed.package.parent.glob("tracehost-*.dist-info")
    for name in ("LICENSE", "THIRD-PARTY.txt"):
        (found,) = folder.rglob(name)
        assert found.read_bytes() == (TOP / name).read_bytes()
    assert f"\nLicense: {license_of_all()}\n" in (folder / "METADATA").read_text(encoding="utf-8")


def test_the_version(installed: Environment) -> None:
    listed = run([installed.bin / "pip", "list"], installed.room)
    assert re.search(rf"^tracehost +{re.escape(VERSION)}$", listed, re.MULTILINE)
    assert installed.python("-c", "import tracehost; print(tracehost.__version__)") == f"{VERSION}\n"


def test_the_command(installed: Environment) -> None:
    assert run([installed.bin / "tracehost", TOP / "examples/first.json"], installed.room) == FIRST


def test_the_package_as_a_command(installed: Environment) -> None:
    assert installed.python("-m", "tracehost", TOP / "examples/first.json") == FIRST


@pytest.mark.parametrize("page", PAGES)
def test_the_code_of_a_page(installed: Environment, tmp_path: Path, page: str) -> None:
    """Another `tracehost` on the path isn't taken."""
    (tmp_path / "tracehost").symlink_to("/bin/false")
    wanted = re.search(r"^prints\n\n((?:    .*\n)+)", (TOP / page).read_text(encoding="utf-8"), re.MULTILINE)
    assert wanted
    printed = installed.python(installed.page(page), environment={"PATH": f"{tmp_path}:{PATH}"})
    assert printed == re.sub("^    ", "", wanted[1], flags=re.MULTILINE)


def test_the_page_of_a_recording(installed: Environment, tmp_path: Path) -> None:
    code = """import sys, tracehost
tracehost.Host(record=sys.argv[1]).close()
assert tracehost.view(sys.argv[1]).stat().st_size > 0"""
    installed.python("-c", code, tmp_path / "session.json")


def test_the_digests_of_the_packages_files(installed: Environment) -> None:
    lines = (installed.package / "SHA256SUMS").read_text().splitlines()
    assert lines
    for line in lines:
        digest, name = line.split("  ")
        assert hashlib.sha256((installed.package / name).read_bytes()).hexdigest() == digest


def test_the_viewer_is_in_the_package(installed: Environment) -> None:
    assert (installed.package / "viewer/make").exists()


def test_pytest_finds_the_plugin(installed: Environment) -> None:
    (entries,) = installed.package.parent.glob("tracehost-*.dist-info/entry_points.txt")
    assert "tracehost.pytest_plugin = tracehost.pytest_plugin" in entries.read_text().splitlines()


def test_a_session_is_in_the_process(installed: Environment) -> None:
    has_library = installed.has_library()
    assert (installed.package / "lib/libtracehost.so").exists() == has_library
    said = installed.python("-c", SPAWN, status=0 if has_library else 1)
    assert said == "1000\n" if has_library else "no libtracehost.so: TRACEHOST_LIBRARY names none" in said


def test_a_library_that_was_changed_is_refused(installed: Environment) -> None:
    if not installed.has_library():
        pytest.skip("there is no library of the present sources to install")
    library = installed.package / "lib/libtracehost.so"
    whole = library.read_bytes()
    library.write_bytes(whole + b"x\n")
    try:
        said = installed.python("-c", SPAWN, status=1)
    finally:
        library.write_bytes(whole)
    assert "libtracehost.so: its digest isn't that of" in said


def test_the_environment_names_the_library(installed: Environment) -> None:
    installed.python(installed.page(), environment={"TRACEHOST_LIBRARY": "/nowhere/libtracehost.so"}, status=1)


@pytest.mark.parametrize("client", ["installed", "of the clone"])
@pytest.mark.parametrize("words", [(), ("-p", "tracehost.pytest_plugin")], ids=["found", "named"])
def test_the_plugin(installed: Environment, tmp_path: Path, words: tuple[str, ...], client: str) -> None:
    """The command of docs/CLIENTS.md, in an environment that has the package, and in a clone too."""
    if subprocess.run([installed.bin / "python", "-c", "import pytest"], stderr=subprocess.DEVNULL, check=False).returncode:
        pytest.skip("the environment has no pytest: the plugin isn't tried there")
    (tmp_path / "test_one.py").write_text(TEST_ONE)
    here = {"PYTHONPATH": str(installed.sources / "clients/python"), "TRACEHOST": installed.program}
    environment = NONE if client == "installed" else here
    command: list[str | Path] = ["-m", "pytest", "-q", "-p", "no:cacheprovider", *words, tmp_path / "test_one.py"]
    assert "1 passed" in installed.python(*command, environment=environment)


def test_sources_without_a_program(installed: Environment, tmp_path: Path) -> None:
    """A copy of the client and of the version's place: only the client is installed, with no command."""
    for name in ("clients", "tools"):
        shutil.copytree(TOP / name, tmp_path / name, ignore=shutil.ignore_patterns("build", "__pycache__", "*.egg-info"))
    shutil.copy(TOP / "LICENSE", tmp_path)
    (tmp_path / "crates/tracehost/src").mkdir(parents=True)
    shutil.copy(TOP / "crates/tracehost/src/main.rt", tmp_path / "crates/tracehost/src")
    installed.pip("--target", tmp_path / "only", tmp_path / "clients/python")
    assert not (tmp_path / "only/bin").exists()
    library = installed.package / "lib/libtracehost.so"
    run([sys.executable, installed.page()], tmp_path, {"PYTHONPATH": str(tmp_path / "only"), "TRACEHOST_LIBRARY": str(library)})


@needs("make", "objdump")
def test_the_wheel(installed: Environment, tmp_path: Path) -> None:
    """The machines that it is for have the newest version of the C library that the program names, or a newer one."""
    words = [f"OUT={tmp_path}", f"PYTHON={installed.bin}/python", f"PIPFLAGS={OFFLINE}"]
    run(["make", "wheel", *words], installed.sources)
    newest = max(map(int, re.findall(r"GLIBC_2\.(\d+)", run(["objdump", "-T", installed.program], tmp_path))))
    tag = f"py3-none-manylinux_2_{newest}_{os.uname().machine}"
    assert [path.name for path in tmp_path.glob("*.whl")] == [f"tracehost-{VERSION}-{tag}.whl"]


# ---- tracehost-cc and tracehost-run, by `pip install ./clients/posix`


@pytest.fixture(scope="module")
def with_runtime(installed: Environment) -> Iterator[Environment]:
    """The sources are gone once the package is installed; nothing of it is left once it is removed."""
    if not installed.has_library():
        pytest.skip("there is no library of the present sources for the broker")
    installed.pip("./clients/posix")
    elsewhere = installed.sources.rename(installed.room / "elsewhere")
    yield installed
    elsewhere.rename(installed.sources)
    run([installed.bin / "pip", "uninstall", "--yes", "tracehost-posix"], installed.room)
    assert not [path for path in installed.package.parent.glob("tracehost_*") if path.name != "tracehost"]
    assert not (installed.bin / "tracehost-run").exists() and not (installed.bin / "tracehost-cc").exists()


@needs("cc", "make")
def test_a_race_by_the_runtime_of_a_wheel(with_runtime: Environment, tmp_path: Path) -> None:
    """It is found, and recorded with its page, by the environment's own tracehost and viewer."""
    commands, made, record = with_runtime.bin, tmp_path / "lost_wakeup", tmp_path / "run.json"
    run([commands / "tracehost-cc", "-g", "-o", made, TOP / "clients/posix/races/lost_wakeup.c"], tmp_path)
    said = run([commands / "tracehost-run", "--jobs", "2", "--schedules", "300", "--record", record, made], tmp_path, status=1)
    assert "tracehost-run: of its 4 switches 1 is enough: --switches 100000.60:100001\n" in said
    assert Path(f"{record}.html").read_text(encoding="utf-8").rstrip().endswith("</html>")
    assert run([commands / "tracehost", "--expect", f"{record}.lines", record], tmp_path) == ""
    assert "goes as recorded" in run([commands / "tracehost-run", "--replay", record, made], tmp_path, status=1)


def test_the_runtime_has_both_licenses(with_runtime: Environment) -> None:
    """Its broker contains the library."""
    for name in ("LICENSE", "THIRD-PARTY.txt"):
        assert (with_runtime.package.parent / "tracehost_runtime" / name).read_bytes() == (TOP / name).read_bytes()
    (metadata,) = with_runtime.package.parent.glob("tracehost_posix-*.dist-info/METADATA")
    assert f"\nLicense: {license_of_all()}\n" in metadata.read_text(encoding="utf-8")


@needs("cc", "make", "readelf")
def test_each_program_of_a_wheel_has_a_build_id(with_runtime: Environment) -> None:
    packages = with_runtime.package, with_runtime.package.parent / "tracehost_runtime"
    assert have_build_ids(*packages) == dict.fromkeys(["tracehost", "tracehost-broker", "libtracehost.so"], True)


@needs("cc", "make")
@pytest.mark.parametrize("command", ["tracehost-run", "tracehost-corpus"])
def test_the_version_of_the_runtime_of_a_wheel(with_runtime: Environment, tmp_path: Path, command: str) -> None:
    assert run([with_runtime.bin / command, "--version"], tmp_path) == f"{command} {VERSION}\n"


@pytest.mark.parametrize("command", ["tracehost-view", "tracehost-perfetto"])
def test_the_commands_of_the_viewer(installed: Environment, tmp_path: Path, command: str) -> None:
    trace, made = tmp_path / "trace", tmp_path / "made"
    trace.write_text(run([installed.bin / "tracehost", "--json=trace", TOP / "examples/first.json"], tmp_path))
    assert run([installed.bin / command, trace, "-o", made], tmp_path) == ""
    script = "make" if command == "tracehost-view" else "perfetto"
    assert made.read_text(encoding="utf-8") == run([TOP / "viewer" / script, trace], tmp_path)
    assert run([installed.bin / command, "nosuch"], tmp_path, status=1) == f"{command}: nosuch: No such file or directory\n"


def test_the_debugger(installed: Environment, tmp_path: Path) -> None:
    """It finds the program and the library of the package."""
    words = [installed.bin / "tracehost-debug", TOP / "examples/first.json", "--batch", "goto 3; list 1000"]
    assert "1001 3 pids 1000 1001\n" in run(words, tmp_path)


@needs("mypy")
@pytest.mark.parametrize(("more", "wanted"), [("", 0), ("name: str = user.spawn().pid\n", 1)], ids=["right", "wrong"])
def test_mypy_sees_types(installed: Environment, tmp_path: Path, more: str, wanted: int) -> None:
    page = tmp_path / "page.py"
    page.write_text(installed.page().read_text() + more)
    words = ["mypy", "--strict", "--python-executable", installed.bin / "python", "--cache-dir", tmp_path / "mypy"]
    said = run([*words, page], tmp_path, status=wanted)
    assert said.count('has type "int", variable has type "str"') == wanted
