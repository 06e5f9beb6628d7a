"""Installing as a stranger does: by the commands of docs/INSTALL.md, in a copy of this repository, with nothing in the
environment but PATH and HOME. What is installed is used without LD_LIBRARY_PATH.

    python3 -m pytest tests/python/test_install.py
    python3 -m pytest tests/python/test_install.py --debian     in a fresh Debian too, for some ten minutes more
"""

from __future__ import annotations

import os
import pathlib
import re
import shutil
import subprocess
import sys
from collections.abc import Iterator, Mapping

import pytest
from places import Debian, Place, rust
from stranger import NONE, PATH, TOP, block, clone, copy, needs, run, shell
from test_pages import Printed, Reader, shown

__all__ = ["clone"]  # a fixture
INSTALL = (TOP / "docs/INSTALL.md").read_text(encoding="utf-8")
BUILDS = "import venv, ensurepip, setuptools; assert int(setuptools.__version__.split('.')[0]) >= 61; import wheel"


class Installed:
    """A prefix in a place, and a folder to work in."""

    def __init__(self, place: Place, prefix: str, known: bool = False) -> None:
        """`known`: a prefix that the system's linker, pkg-config and CMake know."""
        self.place, self.prefix, self.room = place, prefix, f"{place.home}/work{prefix.replace('/', '_') if known else ''}"
        self.environment = {} if known else {
            "PATH": f"{prefix}/bin:{PATH}",
            "PKG_CONFIG_PATH": f"{prefix}/lib/pkgconfig:{prefix}/share/pkgconfig",
            "CMAKE_PREFIX_PATH": prefix,
        }  # fmt: skip

    def shell(self, code: str, environment: Mapping[str, str] = NONE) -> str:
        return self.place.shell(code, self.room, {**self.environment, **environment})

    def write(self, name: str, text: str) -> None:
        self.place.write(f"{self.room}/{name}", text)

    def files(self) -> list[pathlib.Path]:
        """What is in the prefix; in that of the system only what is named after us."""
        top = self.place.outside(self.prefix)
        found = (path for path in top.rglob("*") if not path.is_symlink())
        return [path for path in found if self.prefix != "/usr" or "tracehost" in str(path.relative_to(top))]


HERE = ["plain", "spaces, umask 077, CFLAGS"]
BY_ROOT, BY_PACKAGE = "Debian, by root into /usr/local", "Debian, by the package"
DEBIAN = [BY_ROOT, "Debian, into ~/.local", BY_PACKAGE]


def pytest_generate_tests(metafunc: pytest.Metafunc) -> None:
    """--debian adds a fresh Debian."""
    if "installed" in metafunc.fixturenames:
        layouts = [*HERE, *(DEBIAN if metafunc.config.getoption("--debian") else [])]
        metafunc.parametrize("installed", layouts, indirect=True, scope="module")


@pytest.fixture(scope="module")
def debian(tmp_path_factory: pytest.TempPathFactory) -> Debian:
    return Debian(tmp_path_factory.mktemp("fresh"))


@pytest.fixture(scope="module")
def installed(request: pytest.FixtureRequest, tmp_path_factory: pytest.TempPathFactory) -> Iterator[Installed]:
    """By one of the commands of docs/INSTALL.md. Once it is removed nothing is left."""
    if request.param == BY_PACKAGE:
        yield from of_package(request.getfixturevalue("debian"))
    else:
        yield from of_make(request, tmp_path_factory)


def of_package(place: Debian) -> Iterator[Installed]:
    """The Debian package, by apt."""
    assert "    tools/deb\n    sudo apt install ./out/tracehost_*.deb\n" in INSTALL and "`sudo apt remove tracehost`" in INSTALL
    place.shell("tools/deb", place.clone)
    place.shell("apt install --yes ./out/tracehost_*.deb", place.clone, root=True)
    made = Installed(place, "/usr", known=True)
    made.write("empty", "")
    yield made
    place.shell("apt remove --yes tracehost", "/", root=True)
    assert made.files() == []


def of_make(request: pytest.FixtureRequest, tmp_path_factory: pytest.TempPathFactory) -> Iterator[Installed]:
    """`make install`, twice, as an update is, and `make uninstall`."""
    layout: str = request.param
    place = request.getfixturevalue("debian") if layout in DEBIAN else Place(tmp_path_factory.mktemp("home"))
    known = layout == BY_ROOT
    prefix = "/usr/local" if known else f"{place.home}/{'a prefix' if layout == HERE[1] else '.local'}"
    words = "" if known else f" PREFIX='{prefix}'"
    odd = layout == HERE[1]
    flags = {"CFLAGS": "-O2 -Wconversion -Wshadow"} if odd else NONE
    for _ in range(2):
        place.shell(f"umask {'077' if odd else '022'}; make install{words}", place.clone, flags, root=known)
    made = Installed(place, prefix, known)
    made.write("empty", "")
    yield made
    place.shell(f"make uninstall{words}", place.clone, root=known)
    left = place.outside(prefix).rglob("*")
    assert [path for path in left if "tracehost" in path.name or not (known or path.is_dir())] == []


def test_everybody_may_read_what_is_installed(installed: Installed) -> None:
    for path in installed.files():
        assert path.stat().st_mode & 0o444 == 0o444, path
        assert not path.is_dir() or path.stat().st_mode & 0o111 == 0o111, path


def test_the_program(installed: Installed) -> None:
    printed = installed.shell(f"tracehost '{installed.place.clone}/examples/first.json'")
    assert printed == (TOP / "examples/first.out").read_text()


@needs("cc", "pkg-config")
def test_c_with_the_library(installed: Installed) -> None:
    """The command of docs/INSTALL.md, and the program starts without LD_LIBRARY_PATH."""
    command = "cc prog.c $(pkg-config --cflags --libs tracehost)"
    assert f"    {command}\n" in INSTALL
    installed.write("prog.c", block("CLIENTS.md", "c", 1))
    installed.shell(evaluated(command))
    assert installed.shell("./a.out") == "1001 stopped: word 4479\n"


@needs("cc", "pkg-config")
def test_c_with_the_client(installed: Installed) -> None:
    command = "cc prog.c $(pkg-config --variable=source tracehost-client) $(pkg-config --cflags --libs tracehost-client)"
    assert f"    {command}\n" in INSTALL
    installed.write("prog.c", block("CLIENTS.md", "c"))
    if " " in installed.prefix:  # the variable has no quotes
        command = command.replace("$(pkg-config --variable=source tracehost-client)", '\\"$SOURCE\\"')
        command = f"SOURCE=$(pkg-config --variable=source tracehost-client); {evaluated(command)}"
    installed.shell(command)
    assert installed.shell("./a.out 2>/dev/null") == "1001 stopped: SIGSTOP\n"


def evaluated(command: str) -> str:
    """The command by eval, as docs/INSTALL.md says for folders with a space."""
    return f'eval "{command}"'


@needs("c++", "pkg-config")
def test_cpp(installed: Installed) -> None:
    installed.write("prog.cpp", block("CLIENTS.md", "cpp"))
    installed.shell('eval "c++ -std=c++11 prog.cpp $(pkg-config --cflags --libs tracehost)"')
    assert installed.shell("./a.out") == "4479\n"


@needs("cmake", "cc", "make")
@pytest.mark.parametrize("target, count, wanted", [
    ("tracehost::tracehost", 1, "1001 stopped: word 4479\n"),
    ("tracehost::archive", 1, "1001 stopped: word 4479\n"),
    ("tracehost::client", 0, "1001 stopped: SIGSTOP\n"),
])  # fmt: skip
def test_cmake(installed: Installed, target: str, count: int, wanted: str) -> None:
    """The lines of docs/INSTALL.md, with each target that they name."""
    lines = block("INSTALL.md", "cmake")
    assert target in lines
    lines = lines.replace("PRIVATE tracehost::tracehost", f"PRIVATE {target}")
    room = target.replace(":", "_")
    head = "cmake_minimum_required(VERSION 3.12)\nproject(prog C)\nadd_executable(prog prog.c)\n"
    installed.write(f"{room}/CMakeLists.txt", head + lines)
    installed.write(f"{room}/prog.c", block("CLIENTS.md", "c", count))
    installed.shell(f"cmake -S {room} -B {room}/out && cmake --build {room}/out")
    assert installed.shell(f"{room}/out/prog 2>/dev/null") == wanted


@needs("cmake", "cc", "make")
@pytest.mark.parametrize("version, found", [("0.3", True), ("0.99", False), ("1.0", False)])
def test_versions_in_cmake(installed: Installed, version: str, found: bool) -> None:
    room = f"version-{version}"
    installed.write(
        f"{room}/CMakeLists.txt",
        f"cmake_minimum_required(VERSION 3.12)\nproject(prog C)\nfind_package(tracehost {version} QUIET)\n"
        'message(STATUS "found: ${tracehost_FOUND}")\n',
    )
    assert f"found: {int(found)}" in installed.shell(f"cmake -S {room} -B {room}/out")


@needs("meson", "ninja", "cc", "pkg-config")
def test_meson(installed: Installed) -> None:
    """As docs/INSTALL.md says: `dependency('tracehost')` finds the library by pkg-config."""
    assert "In Meson `dependency('tracehost')` finds the library by pkg-config." in INSTALL
    installed.write(
        "meson/meson.build",
        """project('prog', 'c')
executable('inside', 'inside.c', dependencies: dependency('tracehost'))
""",
    )
    installed.write("meson/inside.c", block("CLIENTS.md", "c", 1))
    installed.shell("meson setup meson/out meson && ninja -C meson/out")
    assert installed.shell("meson/out/inside") == "1001 stopped: word 4479\n"


@pytest.mark.skipif(shutil.which("cargo") is None, reason="not installed: cargo")
def test_rust(installed: Installed) -> None:
    """The program of clients/rust/README.md, in a package that depends on the clone's crate, as that page says."""
    readme = (TOP / "clients/rust/README.md").read_text(encoding="utf-8")
    code, printed, depends = (readme.split(f"```{kind}\n")[1].split("```")[0] for kind in ("rust", "text", "toml"))
    depends = depends.replace("../tracehost", installed.place.clone)
    installed.write("rust/Cargo.toml", f'[package]\nname = "prog"\nversion = "0.1.0"\nedition = "2021"\n{depends}')
    installed.write("rust/src/main.rs", code)
    assert installed.shell("cd rust && cargo run --offline --quiet", rust(installed.place)) == printed


@needs("python3")
def test_python(installed: Installed) -> None:
    """The commands of docs/INSTALL.md for Debian's pip, then README's ten lines, and a test of docs/CLIENTS.md."""
    commands = "python3 -m venv --system-site-packages env\n    env/bin/pip install --no-build-isolation ./clients/python"
    assert f"    {commands}\n" in INSTALL
    place = installed.place
    place.shell(" && ".join(line.strip() for line in commands.splitlines()), place.clone)
    python = f"'{place.clone}/env/bin/python'"
    readme = (TOP / "README.md").read_text(encoding="utf-8")
    installed.write("ten.py", readme.split("```python\n")[1].split("```")[0])
    wanted = readme.split("```python\n")[1].split("prints\n\n")[1].split("\n\n")[0]
    assert place.shell(f"{python} ten.py", installed.room) == re.sub("^    ", "", wanted, flags=re.MULTILINE) + "\n"
    installed.write("test_attach.py", block("CLIENTS.md", "python", 1))
    assert "# test_attach.py" in installed.place.read(f"{installed.room}/test_attach.py")
    assert "2 passed" in place.shell(f"{python} -m pytest -q -p no:cacheprovider test_attach.py", installed.room)


@needs("python3", "unshare", "cc", "make")
def test_python_without_a_network(clone: pathlib.Path, tmp_path: pathlib.Path) -> None:
    """The same commands, and the runtime's package, on a machine that has only itself."""
    if subprocess.run(["unshare", "-rn", "true"], stderr=subprocess.DEVNULL).returncode:
        pytest.skip("this user can't make a network namespace")
    if subprocess.run(["/usr/bin/python3", "-c", BUILDS], stderr=subprocess.DEVNULL).returncode:
        pytest.skip("/usr/bin/python3 has no venv, setuptools 61 and wheel")
    commands = INSTALL.partition("Without a network:\n\n")[2].partition("\n\n")[0]
    made, installs = (line.strip() for line in commands.splitlines())
    run(["unshare", "-rn", "sh", "-c", f"{made} && {installs} ./clients/posix"], clone)
    bin = clone / "env/bin"
    said = run(
        [bin / "python", "-c", "import tracehost; print(tracehost.Host().user(1001).spawn().pid, tracehost.__version__)"], tmp_path
    )
    assert said == f"1000 {run([clone / 'tools/version'], tmp_path)}"
    assert run([bin / "tracehost-run", "--version"], tmp_path).startswith("tracehost-run ")
    shutil.rmtree(clone / "env")


@needs("cc", "python3", "pkg-config")
def test_c_for_freebsd(installed: Installed) -> None:
    """tracehost-cc, tracehost-run, and pkg-config's flags of docs/POSIX.md."""
    installed.write("traced.c", (TOP / "clients/posix/examples/traced.c").read_text())
    installed.shell("tracehost-cc -o traced traced.c && tracehost-run ./traced")
    flags = 'eval "cc $(pkg-config --cflags tracehost-posix) -o traced traced.c $(pkg-config --libs tracehost-posix)"'
    installed.shell(f"{flags} && tracehost-run ./traced")


@needs("cc", "python3")
def test_a_race(installed: Installed) -> None:
    """It is found by the commands of docs/POSIX.md, and leaves a page."""
    races = f"{installed.place.clone}/clients/posix/races"
    said = installed.shell(
        f"tracehost-cc -g -o lost_wakeup '{races}/lost_wakeup.c' &&"
        " tracehost-run --schedules 300 --record run.json ./lost_wakeup; test $? -eq 1"
    )
    assert "tracehost-run: of its 4 switches 1 is enough: --switches 100000.60:100001" in said
    assert installed.shell("tracehost --expect run.json.lines run.json") == ""
    assert installed.place.read(f"{installed.room}/run.json.html").rstrip().endswith("</html>")


@needs("python3")
def test_the_viewer(installed: Installed) -> None:
    trace = f"tracehost --json=trace '{installed.place.clone}/examples/first.json'"
    installed.shell(f"{trace} | tracehost-view -o page.html - ")
    assert installed.place.read(f"{installed.room}/page.html").rstrip().endswith("</html>")
    installed.shell(f"{trace} | tracehost-perfetto - >trace")


@needs("bash")
def test_completions(installed: Installed) -> None:
    """For all five commands, from the folder that bash-completion looks into; options come from each command's --help."""
    folder = f"{installed.prefix}/share/bash-completion/completions"
    for name, option in (("tracehost", "--explain"), ("tracehost-run", "--seed"), ("tracehost-view", "--title")):
        words = f"COMP_WORDS=('{installed.prefix}/bin/{name}' '{option[:4]}') COMP_CWORD=1"
        code = f"""source '{folder}/{name}'
            complete -p {name} >/dev/null || exit
            {words}
            $(complete -p {name} | sed 's/.*-F \\([^ ]*\\).*/\\1/') '{installed.prefix}/bin/{name}'
            printf '%s\\n' "${{COMPREPLY[@]}}" """
        assert option in installed.shell(code).split(), name
    for name in ("tracehost-perfetto", "tracehost-cc"):
        assert installed.place.outside(f"{folder}/{name}").exists()
    of_zsh = "vendor-completions" if installed.prefix == "/usr" else "site-functions"
    for name in ("_tracehost", "_tracehost-commands"):
        assert installed.place.outside(f"{installed.prefix}/share/zsh/{of_zsh}/{name}").exists()


# ---- clones


class ReaderThere(Reader):
    """Who types a page's commands in a place's clone, where nothing is installed."""

    def __init__(self, place: Place) -> None:
        self._place, self._exports = place, ["true"]

    def types(self, command: str, lines: str = "") -> Printed:
        if command.startswith("export "):
            self._exports.append(command)
            return Printed("", 0)
        exports = "\n".join(self._exports)
        text = self._place.shell(f"{exports}\n{{ {command}\n}} <<'LINES'\n{lines}LINES\necho status=$?", self._place.clone)
        text, _, status = text.rpartition("status=")
        return Printed(text, int(status))


@pytest.mark.parametrize("page", ["README.md", "docs/POSIX.md"])
def test_the_commands_of_a_page_in_a_fresh_clone(request: pytest.FixtureRequest, page: str) -> None:
    if not request.config.getoption("--debian"):
        pytest.skip("only with --debian: elsewhere test_pages.py types them")
    reader = ReaderThere(request.getfixturevalue("debian"))
    commands = shown(page)
    assert len(commands) >= 5
    for command, text in commands:
        status = reader.has(command, text).status if text else reader.types(command).status
        assert text or status == 0, command


@needs("meson", "ninja", "cc")
def test_a_subproject_of_meson(clone: pathlib.Path, tmp_path: pathlib.Path) -> None:
    """The wrap of docs/INSTALL.md: the library, and the client as source."""
    (tmp_path / "subprojects").mkdir()
    (tmp_path / "subprojects/tracehost").symlink_to(clone)
    (tmp_path / "subprojects/tracehost.wrap").write_text(block("INSTALL.md", "ini"))
    (tmp_path / "meson.build").write_text(
        """project('prog', 'c')
executable('inside', 'inside.c', dependencies: dependency('tracehost', allow_fallback: true))
executable('client', 'client.c', dependencies: dependency('tracehost-client', allow_fallback: true))
"""
    )
    (tmp_path / "inside.c").write_text(block("CLIENTS.md", "c", 1))
    (tmp_path / "client.c").write_text(block("CLIENTS.md", "c"))
    shell("meson setup out && ninja -C out", tmp_path)
    assert run(["out/inside"], tmp_path) == "1001 stopped: word 4479\n"
    assert "1001 stopped: SIGSTOP\n" in run(["out/client"], tmp_path)


@needs("meson", "ninja", "cc", "pkg-config")
def test_meson_beside_an_installed_library(clone: pathlib.Path, tmp_path: pathlib.Path) -> None:
    """pkg-config finds the library, and the wrap has the client."""
    folder = run([clone / "tools/library"], tmp_path).strip()
    (tmp_path / "tracehost.pc").write_text(
        f"Name: tracehost\nDescription: installed\nVersion: 7.7\nCflags: -I${{pcfiledir}}\nLibs: -L${{pcfiledir}} -ltracehost\n"
    )
    for path in (pathlib.Path(folder, "libtracehost.a"), clone / "include/tracehost.h"):
        shutil.copy(path, tmp_path)
    (tmp_path / "subprojects").mkdir()
    (tmp_path / "subprojects/tracehost").symlink_to(clone)
    (tmp_path / "subprojects/tracehost.wrap").write_text(block("INSTALL.md", "ini"))
    (tmp_path / "meson.build").write_text(
        """project('prog', 'c')
inside = dependency('tracehost')
assert(inside.version() == '7.7')
executable('inside', 'inside.c', dependencies: inside)
executable('client', 'client.c', dependencies: dependency('tracehost-client'))
"""
    )
    (tmp_path / "inside.c").write_text(block("CLIENTS.md", "c", 1))
    (tmp_path / "client.c").write_text(block("CLIENTS.md", "c"))
    run(["sh", "-c", "meson setup out && ninja -C out"], tmp_path, {"PKG_CONFIG_PATH": str(tmp_path)})
    assert run(["out/inside"], tmp_path) == "1001 stopped: word 4479\n"


def test_a_clone_that_cannot_be_written(clone: pathlib.Path, tmp_path: pathlib.Path) -> None:
    """tracehost-cc builds its runtime and the broker below XDG_CACHE_HOME."""
    view = tmp_path / "read only"
    view.mkdir()
    mount = f"mount --bind '{clone}' '{view}' && mount -o remount,bind,ro '{view}'"
    if subprocess.run(["unshare", "-m", "sh", "-c", mount], stderr=subprocess.DEVNULL).returncode:
        pytest.skip("this user can't make a read-only mount")
    shutil.copy(clone / "clients/posix/examples/traced.c", tmp_path)
    script = f"""{mount} && rm -rf '{clone}/clients/posix/build' && cd '{tmp_path}' &&
        export XDG_CACHE_HOME='{tmp_path}/a cache' &&
        '{view}/tracehost' '{view}/examples/first.json' &&
        '{view}/clients/posix/tracehost-cc' -o traced traced.c &&
        TRACEHOST=$('{view}/tools/program') '{view}/clients/posix/tracehost-run' ./traced"""
    printed = run(["unshare", "-m", "sh", "-c", script], tmp_path)
    assert printed.startswith((TOP / "examples/first.out").read_text())
    assert list((tmp_path / "a cache/tracehost").glob("*/build/libtracehost-posix.a"))


def test_without_dev_fd(clone: pathlib.Path, tmp_path: pathlib.Path) -> None:
    """As in a chroot that has no /proc: the program and the library are found."""
    hide = "mount -t tmpfs none /proc && test ! -e /dev/fd/0"
    if subprocess.run(["unshare", "-m", "sh", "-c", hide], stderr=subprocess.DEVNULL).returncode:
        pytest.skip("this user can't hide /proc")
    script = f"{hide} && rm -rf '{clone}/out' && '{clone}/tracehost' '{clone}/examples/first.json' && '{clone}/tools/library'"
    printed = run(["unshare", "-m", "sh", "-c", script], tmp_path)
    assert printed == (TOP / "examples/first.out").read_text() + f"{clone}/release/{os.uname().machine}-linux\n"


def test_a_program_without_permission(clone: pathlib.Path, tmp_path: pathlib.Path) -> None:
    other = copy(tmp_path / "clone")
    (other / f"release/{os.uname().machine}-linux/tracehost").chmod(0o644)
    assert "tracehost may not be run: it has no permission for that" in run([other / "tools/program"], tmp_path, status=1)


def test_a_wheel_twice(clone: pathlib.Path, tmp_path: pathlib.Path) -> None:
    """The command of docs/INSTALL.md without a network, with two umasks: the same bits."""
    pythons = ["/usr/bin/python3", shutil.which("python3") or sys.executable, sys.executable]
    builders = [python for python in pythons if not subprocess.run([python, "-c", BUILDS], stderr=subprocess.DEVNULL).returncode]
    if not builders:
        pytest.skip("no python3 here has venv, setuptools 61 and wheel")
    run([builders[0], "-m", "venv", "--system-site-packages", tmp_path / "env"], tmp_path)
    command = 'make wheel PIPFLAGS="--no-build-isolation --no-index"'
    assert command in INSTALL
    wheels = []
    for name, umask in (("one", "022"), ("two", "077")):
        shell(f"umask {umask}; {command} OUT='{tmp_path / name}' PYTHON='{tmp_path}/env/bin/python'", clone)
        (wheel,) = (tmp_path / name).glob("*.whl")
        wheels.append((wheel.name, wheel.read_bytes()))
        shutil.rmtree(clone / "clients/python/build", ignore_errors=True)
    assert wheels[0] == wheels[1]


def test_the_usage_of_tools_deb(clone: pathlib.Path) -> None:
    assert "usage: tools/deb [FOLDER]" in run(["tools/deb", "--help"], clone)
    assert "usage: tools/deb [FOLDER]" in run(["tools/deb", "--nothing"], clone, status=2)
    assert "usage: tools/deb [FOLDER]" in run(["tools/deb", "one", "two"], clone, status=2)
    assert not (clone / "--help").exists() and not (clone / "--nothing").exists()


def test_no_page_names_a_version_in_a_command() -> None:
    for page in [*(TOP / "docs").rglob("*.md"), TOP / "README.md", *(TOP / "clients").rglob("README.md")]:
        for line in page.read_text(encoding="utf-8").splitlines():
            assert not re.match(r"    .*tracehost[_-]\d+\.\d+\.\d+", line), (page, line)
