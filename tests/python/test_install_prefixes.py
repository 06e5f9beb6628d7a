"""`make install` into a prefix and a staged root, and the Debian package, each in a fresh folder: the program, the manual pages,
the completions, the viewer, the client in C, the library, and C programs on the model are found and run there. Nothing
stays behind `make uninstall`. test_install.py does it as a stranger does.
"""

from __future__ import annotations

import os
import re
import shutil
import subprocess
import sys
from collections.abc import Iterator
from pathlib import Path

import pytest
from c_programs import output
from checking import TOP, needs, run
from library_programs import have_build_ids
from stranger import block, copy_with_builds

sys.path.insert(0, str(TOP / "tools"))
from third_party import parts  # noqa: E402

MACHINE = os.uname().machine
FIRST = (TOP / "examples/first.out").read_text()
EXAMPLE = TOP / "examples/first.json"
PAGES = ["tracehost", "tracehost-view", "tracehost-perfetto", "tracehost-cc", "tracehost-ld", "tracehost-run", "tracehost-corpus"]
STOPPED = "1001 stopped: word 4479\n"
# a trace of one step, since the program that is installed may be older than traces
TRACE = '{"user":1001,"step":1,"index":1,"asked":{"op":"spawn"},"reply":"new","pid":1000,"lwp":100000}\n'
DPKG = ["--force-depends", "--force-script-chrootless"]


@pytest.fixture(scope="module", autouse=True)
def plain() -> Iterator[None]:
    """Nothing in the environment names what is installed."""
    with pytest.MonkeyPatch.context() as patch:
        for name in ("MAKEFLAGS", "TRACEHOST", "PYTHONPATH"):
            patch.delenv(name, raising=False)
        yield


@pytest.fixture(scope="session")
def version() -> str:
    return run(TOP / "tools/version").out.strip()


class Installed:
    """What is found in a prefix below a root, with libraries in a folder of the prefix."""

    def __init__(self, root: Path | None, prefix: str, libraries: str) -> None:
        self.root = root
        self.prefix = Path(f"{root or ''}{prefix}")
        self.libraries = self.prefix / libraries
        self.environment = {"PATH": f"{self.prefix}/bin:{os.environ['PATH']}"}

    def run(self, *words: str | Path, **more: str) -> str:
        return output(*words, environment={**self.environment, **more})

    def shell(self, code: str, **more: str) -> str:
        return self.run("sh", "-c", code, **more)

    def flags(self, package: str, words: str, folder: Path | None = None) -> str:
        """What pkg-config prints of a package, in the client's folder with the library's, or another one."""
        both = f"{self.prefix / 'share/pkgconfig'}:{self.libraries / 'pkgconfig'}"
        environment = {"PKG_CONFIG_PATH": str(folder or both)}
        return self.run("pkg-config", *words.split(), package, PKG_CONFIG_SYSROOT_DIR=str(self.root or ""), **environment).strip()


@pytest.fixture(scope="module")
def sources(tmp_path_factory: pytest.TempPathFactory) -> Path:
    """Another process may build in the folders of this repository."""
    return copy_with_builds(tmp_path_factory.mktemp("sources"))


class DebianRoot:
    """A root with the Debian package in it."""

    def __init__(self, folder: Path, package: Path) -> None:
        self.folder = folder
        if os.geteuid() == 0:
            (folder / "var/lib/dpkg").mkdir(parents=True)
            (folder / "var/lib/dpkg/status").touch()
            self.dpkg("--install", package)
        else:
            output("dpkg-deb", "--extract", package, folder)

    def dpkg(self, *words: str | Path) -> None:
        output("dpkg", f"--root={self.folder}", f"--log={self.folder}.log", *DPKG, *words)


@pytest.fixture(scope="module")
def package(sources: Path, tmp_path_factory: pytest.TempPathFactory) -> Path:
    for command in ("dpkg", "dpkg-deb", "strip"):
        if shutil.which(command) is None:
            pytest.skip(f"not installed: {command}")
    room = tmp_path_factory.mktemp("package")
    output("tools/deb", room, cwd=sources)
    (made,) = room.glob("*.deb")
    return made


@pytest.fixture(scope="module")
def debian(package: Path) -> DebianRoot:
    return DebianRoot(package.parent / "root", package)


@pytest.fixture(scope="module", params=["stage", "prefix", "package"])
def installed(request: pytest.FixtureRequest, sources: Path, tmp_path_factory: pytest.TempPathFactory) -> Iterator[Installed]:
    """`make uninstall` removes all of it; what becomes of the package is test_the_package_is_removed."""
    if request.param == "package":
        debian: DebianRoot = request.getfixturevalue("debian")
        yield Installed(debian.folder, "/usr", f"lib/{MACHINE}-linux-gnu")
        return
    room = tmp_path_factory.mktemp("installed")
    words = [f"DESTDIR={room}", "PREFIX=/usr"] if request.param == "stage" else [f"PREFIX={room}"]
    output("make", "install", *words, cwd=sources)
    yield Installed(room, "/usr", "lib") if request.param == "stage" else Installed(None, str(room), "lib")
    output("make", "uninstall", *words, cwd=sources)
    assert left(room) == []


def left(room: Path) -> list[Path]:
    return [path for path in room.rglob("*") if not path.is_dir() or "tracehost" in path.name]


def test_the_program(installed: Installed) -> None:
    assert installed.run("tracehost", EXAMPLE) == FIRST


def test_licenses_go_along(installed: Installed) -> None:
    """That of others at least in full; Debian's is in the package's file `copyright`."""
    folder = installed.prefix / "share/doc/tracehost"
    assert (folder / "THIRD-PARTY.txt").read_bytes() == (TOP / "THIRD-PARTY.txt").read_bytes()
    is_package = (folder / "copyright").exists()
    assert is_package or (folder / "LICENSE").read_bytes() == (TOP / "LICENSE").read_bytes()


@needs("readelf")
def test_each_program_has_a_build_id(installed: Installed) -> None:
    """The broker too, which is compiled here."""
    assert have_build_ids(installed.prefix) == dict.fromkeys(["tracehost", "tracehost-broker", "libtracehost.so.1"], True)


@needs("bash")
def test_bash_completes(installed: Installed) -> None:
    folder = installed.prefix / "share/bash-completion/completions"
    installed.run("bash", "--norc", "-c", 'source "$1" && complete -p tracehost', "-", folder / "tracehost")


def test_the_story_of_a_session(installed: Installed) -> None:
    """As a failing test in C, C++ or Rust tells it."""
    assert installed.run("tracehost-debug", "--story", EXAMPLE).splitlines()[-1].startswith("to go on from here: tracehost-debug ")


def test_the_schema(installed: Installed) -> None:
    name = "schema/scenario.schema.json"
    assert (installed.prefix / "share/tracehost" / name).read_bytes() == (TOP / name).read_bytes()


def test_the_viewer(installed: Installed, tmp_path: Path) -> None:
    lines = tmp_path / "lines"
    lines.write_text(installed.run("tracehost", "--json", EXAMPLE))
    assert installed.run("tracehost-view", lines, EXAMPLE) == output(TOP / "viewer/make", lines, EXAMPLE)


def test_files_for_perfetto(installed: Installed, tmp_path: Path) -> None:
    (tmp_path / "trace").write_text(TRACE)
    assert installed.run("tracehost-perfetto", tmp_path / "trace") == output(TOP / "viewer/perfetto", tmp_path / "trace")


@needs("man")
def test_man_finds_the_pages(installed: Installed) -> None:
    assert len(installed.run("man", "-w", *PAGES, MANPATH=str(installed.prefix / "share/man")).splitlines()) == len(PAGES)


@needs("pkg-config", "cc")
def test_the_client_in_c(installed: Installed, tmp_path: Path, version: str) -> None:
    """By the line that docs/INSTALL.md shows."""
    assert installed.flags("tracehost-client", "--modversion") == version
    if run(TOP / "tools/library").status:
        pytest.skip("there is no library of the present sources to install")
    source, made = tmp_path / "prog.c", tmp_path / "prog"
    source.write_text(block("CLIENTS.md", "c"))
    words = [installed.flags("tracehost-client", word) for word in ("--variable=source", "--cflags --libs")]
    installed.shell(f"cc -o {made} {source} {' '.join(words)}")
    start = {"LD_LIBRARY_PATH": str(installed.libraries)} if installed.root else {}
    assert installed.shell(f"{made} 2>/dev/null", **start) == "1001 stopped: SIGSTOP\n"


@needs("pkg-config", "cc")
@pytest.mark.parametrize("kind", ["shared object", "archive"])
def test_the_library(installed: Installed, tmp_path: Path, version: str, kind: str) -> None:
    """The program in C of docs/CLIENTS.md. In a root that isn't the system's, LD_LIBRARY_PATH takes its linker's place."""
    if run(TOP / "tools/library").status:
        pytest.skip("there is no library of the present sources to install")
    config = installed.libraries / "pkgconfig"
    assert installed.flags("tracehost", "--modversion", config) == version
    source, made = tmp_path / "inside.c", tmp_path / "inside"
    source.write_text(block("CLIENTS.md", "c", 1))
    shared = kind == "shared object"
    flags = installed.flags("tracehost", "--cflags --libs" if shared else "--cflags", config)
    installed.shell(f"cc -o {made} {source} {flags} {'' if shared else installed.libraries / 'libtracehost.a'}")
    start = {"LD_LIBRARY_PATH": str(installed.libraries)} if installed.root and shared else {}
    assert installed.run(made, **start) == STOPPED


@needs("cc")
def test_a_c_program_on_the_model(installed: Installed, tmp_path: Path) -> None:
    """tracehost-run finds the program, and makes the page of the record."""
    made, record = tmp_path / "traced", tmp_path / "run.json"
    installed.run("tracehost-cc", "-o", made, TOP / "clients/posix/examples/traced.c")
    installed.run("tracehost-run", "--record", record, made)
    assert run(installed.prefix / "bin/tracehost", "--expect", f"{record}.lines", record).status == 0
    assert Path(f"{record}.html").read_text().rstrip().endswith("</html>")


@needs("cc")
def test_a_corpus(installed: Installed, tmp_path: Path) -> None:
    """tracehost-corpus finds the program."""
    for kind in ("json", "out"):
        shutil.copy(TOP / f"examples/first.{kind}", tmp_path)
    assert installed.run("tracehost-corpus", tmp_path) == ""
    (tmp_path / "first.out").write_text("?\n")
    assert installed.shell(f"tracehost-corpus '{tmp_path}' || echo $?").endswith("\n1\n")


@needs("pkg-config", "cc")
def test_a_c_program_by_the_flags(installed: Installed, tmp_path: Path) -> None:
    """By the line that docs/POSIX.md shows."""
    config, made = installed.libraries / "pkgconfig", tmp_path / "traced"
    flags = [installed.flags("tracehost-posix", word, config) for word in ("--cflags", "--libs")]
    installed.shell(f"cc {flags[0]} -o {made} {TOP}/clients/posix/examples/traced.c {flags[1]}")
    installed.run("tracehost-run", made)


def test_without_a_compiler(sources: Path, tmp_path: Path) -> None:
    """All else is installed, and it says what is missing."""
    words = ["CC=no-such-compiler", f"PREFIX={tmp_path}"]
    ran = subprocess.run(["make", "install", *words], cwd=sources, capture_output=True, text=True, check=False)
    assert ran.returncode == 0
    said = "there is no no-such-compiler: tracehost-cc, tracehost-run, tracehost-corpus and tracehost-ld"
    assert any(line.startswith(said) for line in (ran.stdout + ran.stderr).splitlines())
    assert output(tmp_path / "bin/tracehost", EXAMPLE) == FIRST
    assert not (tmp_path / "bin/tracehost-run").exists()
    output("make", "uninstall", *words, cwd=sources)
    assert left(tmp_path) == []


@needs("groff")
@pytest.mark.parametrize("page", ["tracehost-view", "tracehost-perfetto"])
def test_groff_renders(page: str) -> None:
    output("groff", "-mdoc", "-ww", "-Tutf8", f"man/{page}.1")


# ---- CMake, without the library


@pytest.fixture(scope="module")
def without_library(sources: Path, tmp_path_factory: pytest.TempPathFactory) -> Path:
    room = tmp_path_factory.mktemp("without library")
    output("make", "install", f"PREFIX={room}", "CC=no-such-compiler", cwd=sources)
    for library in room.glob("lib/libtracehost.*"):
        library.unlink()
    return room


@needs("cmake", "cc")
@pytest.mark.parametrize("words, said", [
    ("REQUIRED", "there is no {0}/lib/libtracehost.so"),
    ("", "there is no {0}/lib/libtracehost.so"),
    ("REQUIRED COMPONENTS library client", "there is no {0}/lib/libtracehost.so"),
    ("REQUIRED COMPONENTS other", "no component is called other; there are library and client"),
    ("REQUIRED COMPONENTS client", "there is no {0}/lib/libtracehost.so"),
    ("REQUIRED OPTIONAL_COMPONENTS client library", "found: 1"),
])  # fmt: skip
def test_cmake_says_why(without_library: Path, tmp_path: Path, words: str, said: str) -> None:
    (tmp_path / "CMakeLists.txt").write_text(
        f"cmake_minimum_required(VERSION 3.12)\nproject(prog C)\nfind_package(tracehost {words})\n"
        'if(TARGET tracehost::client)\nset(has TRUE)\nendif()\nmessage(STATUS "found: ${tracehost_FOUND} ${has}")\n'
    )
    command = ["cmake", f"-S{tmp_path}", f"-B{tmp_path}/out", f"-DCMAKE_PREFIX_PATH={without_library}"]
    ran = subprocess.run(command, capture_output=True, text=True, check=False)
    printed = re.sub(r"\s+", " ", ran.stdout + ran.stderr)  # CMake wraps messages
    assert said.format(without_library) in printed, printed
    assert (ran.returncode == 0) == ("found: " in printed) and (words == "") == ("found: 0" in printed)


# ---- the Debian package


@needs("lintian")
def test_lintian(package: Path) -> None:
    output("lintian", "--fail-on", "error", package)


def test_the_copyright_of_the_package(debian: DebianRoot) -> None:
    """Each file that contains the model is also under the terms of others, which are there."""
    text = (debian.folder / "usr/share/doc/tracehost/copyright").read_text(encoding="utf-8")
    head, *rest = (dict(re.findall(r"^(\S+): (.*)$", part, re.MULTILINE)) for part in text.split("\n\n"))
    assert head["Format"] == "https://www.debian.org/doc/packaging-manuals/copyright-format/1.0/"
    every, ours = (part for part in rest if "Files" in part)
    assert (every["Files"], every["License"]) == ("*", "BSD-2-Clause")
    assert ours["License"].split(" and ") == [part["License"] for part in rest if "Files" not in part]
    folder = f"usr/lib/{MACHINE}-linux-gnu"
    libraries = {f"{folder}/libtracehost.{ending}" for ending in ("a", "so", "so.1")}
    contain_it = {"usr/bin/tracehost", *libraries, f"{folder}/tracehost-posix/build/tracehost-broker"}
    assert set(ours["Files"].split()) == contain_it and all((debian.folder / name).exists() for name in contain_it)
    for part in parts():
        assert re.search(rf"^ (.*, )?{part.name}(,|$)", text, re.MULTILINE)
        assert all(f"\n {line}\n" in text for line in part.copyright)
    granted = "Permission is hereby granted, free of charge"
    assert text.count(granted) == (TOP / "THIRD-PARTY.txt").read_text(encoding="utf-8").count(granted) > 5


@needs("objdump")
def test_the_c_library_that_the_package_needs(package: Path, debian: DebianRoot) -> None:
    symbols = output("objdump", "-T", debian.folder / "usr/bin/tracehost")
    newest = max(map(int, re.findall(r"GLIBC_2\.(\d+)", symbols)))
    assert output("dpkg-deb", "--field", package, "Depends") == f"libc6 (>= 2.{newest})\n"


def test_the_package_is_removed(package: Path, tmp_path: Path) -> None:
    """With what root's tracehost-run has written there."""
    if os.geteuid() != 0:
        pytest.skip("only root can use dpkg --install")
    root = DebianRoot(tmp_path / "root", package)
    (root.folder / f"usr/lib/{MACHINE}-linux-gnu/tracehost-posix/tracehost_posix/__pycache__").mkdir()
    root.dpkg("--remove", "tracehost")
    assert [path for path in root.folder.rglob("*") if "tracehost" in path.name] == []
