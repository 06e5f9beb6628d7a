"""The runtime, cases, examples and races compile without a warning; pkg-config has the flags; groff renders the pages."""

from __future__ import annotations

import re
import sys
from pathlib import Path

import pytest
from checking import TOP, needs
from library_programs import is_without_notes
from posix_kit import POSIX, RACES, Posix

SOURCES = [
    *(f"tests/{path.name}" for path in sorted(POSIX.glob("tests/*.c"))),
    *(f"examples/{path.name}" for path in sorted(POSIX.glob("examples/*.c"))),
]


def test_the_runtime_and_the_broker_have_no_warning(posix: Posix, tmp_path: Path) -> None:
    done = posix.execute("make", "-s", "-C", POSIX, f"build={tmp_path}", "WERROR=-Werror")
    assert (done.returncode, done.stderr) == (0, "")
    assert (tmp_path / "libtracehost-posix.a").exists() and (tmp_path / "tracehost-broker").exists()


@needs("readelf", "nm")
def test_what_is_built_is_hardened(posix: Posix, tmp_path: Path) -> None:
    """Canaries and checked functions are in both parts; the broker's tables can't be written, and each object is ready for CET."""
    assert posix.execute("make", "-s", "-C", POSIX, f"build={tmp_path}").returncode == 0
    broker = tmp_path / "tracehost-broker"
    dynamic = posix.execute("readelf", "-Wdl", broker).stdout
    assert "BIND_NOW" in dynamic and " PIE" in dynamic and "GNU_RELRO" in dynamic
    assert "RWE" not in dynamic
    assert re.search("Build ID: [0-9a-f]{40}$", posix.execute("readelf", "-n", broker).stdout, re.MULTILINE)
    for file in (broker, tmp_path / "libtracehost-posix.a"):
        undefined = posix.execute("nm", "-u", file).stdout
        assert "__stack_chk_fail" in undefined and "__snprintf_chk" in undefined, file
    objects = [path for path in sorted(tmp_path.glob("*.o")) if path.stem not in ("entry", "by_name")]  # these are assembly
    assert len(objects) > 25
    for path in objects:
        assert "IBT, SHSTK" in posix.execute("readelf", "-n", path).stdout, path


@needs("readelf")
def test_all_of_the_broker_is_ready_for_cet(posix: Posix, library: Path, tmp_path: Path) -> None:
    """The linker reports what isn't. It may be the C library's start, as Debian's is not; then the broker isn't marked either."""
    archive = library / "libtracehost.a"
    words = [f"build={tmp_path}", f"LIBTRACEHOST={archive}", "CFLAGS=-O2 -Wl,-z,cet-report=warning"]
    done = posix.execute("make", "-s", "-C", POSIX, *words, str(tmp_path / "tracehost-broker"))
    assert done.returncode == 0
    found = set(re.findall(r"(\S+): warning: missing", done.stderr))
    of_c = {file for file in found if re.fullmatch(r"S?crt[1in]\.o|libc_nonshared\.a", Path(file.partition("(")[0]).name)}
    assert found - of_c == ({f"{archive}(tracehost.o)"} if is_without_notes(library) else set())
    assert ("IBT, SHSTK" in posix.execute("readelf", "-n", tmp_path / "tracehost-broker").stdout) == (not found)


@pytest.mark.parametrize("staged", [False, True])
def test_modules_are_compiled_where_they_are_installed(posix: Posix, tmp_path: Path, staged: bool) -> None:
    words = [f"DESTDIR={tmp_path / 'stage'}", "PREFIX=/usr"] if staged else [f"PREFIX={tmp_path / 'stage' / 'usr'}"]
    done = posix.execute("make", "-s", "-C", POSIX, "install", f"PYTHON={sys.executable}", *words)
    assert (done.returncode, done.stderr) == (0, "")
    folder = tmp_path / "stage/usr/lib/tracehost-posix/tracehost_posix"
    modules = {path.stem for path in folder.glob("*.py")}
    compiled = {path.name.partition(".")[0] for path in folder.glob("__pycache__/*.pyc")}
    assert "command" in modules and compiled == (set() if staged else modules)
    assert (folder.parent / "tracehost-run").read_text().startswith(f"#!{sys.executable} -S\n")


@pytest.mark.parametrize("source", SOURCES)
def test_it_compiles(posix: Posix, source: str) -> None:
    assert posix.compiled(source).exists()


@pytest.mark.parametrize("name", RACES)
def test_a_race_compiles(posix: Posix, name: str) -> None:
    assert posix.race(name).exists()


@pytest.mark.parametrize("name", RACES)
def test_a_remedy_compiles(posix: Posix, name: str) -> None:
    assert posix.remedy(name).exists()


@needs("clang")
def test_the_cases_compile_by_clang(posix: Posix) -> None:
    assert posix.compiled("tests/fork_test.c", compiler="clang").exists()


@needs("clang")
def test_a_case_compiled_by_clang_passes(posix: Posix) -> None:
    done = posix.run(posix.compiled("tests/fork_test.c", compiler="clang"), "follow_fork_both_attached")
    assert done.returncode == 0, done.stderr


@needs("pkg-config")
def test_a_program_of_the_flags_of_pkg_config_runs(posix: Posix, tmp_path: Path, monkeypatch: pytest.MonkeyPatch) -> None:
    posix.compiled("examples/traced.c")  # the runtime is built
    monkeypatch.setenv("PKG_CONFIG_PATH", str(POSIX / "build"))
    flags = [posix.execute("pkg-config", kind, "tracehost-posix").stdout.split() for kind in ("--cflags", "--libs")]
    assert all(flags)
    done = posix.execute("cc", "-o", tmp_path / "traced", *flags[0], POSIX / "examples/traced.c", *flags[1])
    assert done.returncode == 0, done.stderr
    assert posix.run(tmp_path / "traced").returncode == 0


@needs("groff")
@pytest.mark.parametrize("page", ["tracehost-run", "tracehost-cc", "tracehost-ld", "tracehost-corpus"])
def test_groff_renders(posix: Posix, page: str) -> None:
    done = posix.execute("groff", "-mdoc", "-ww", "-Tutf8", TOP / f"man/{page}.1")
    assert (done.returncode, done.stderr) == (0, "") and done.stdout
