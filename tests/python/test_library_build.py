"""How tools/build_library.py compiles and links, without a proof: by the kit's tools, of a module that stands for the proved one."""

from __future__ import annotations

import re
import shutil
import subprocess
import sys
from collections.abc import Callable
from pathlib import Path

import pytest
from c_programs import output
from checking import TOP, needs

sys.path.insert(0, str(TOP / "tools"))
import build_library  # noqa: E402

TOOL = TOP / "tools/build_library.py"
CLANG = build_library.KIT / "toolchain/bin/clang"
OF_WORDS = {"tracehost_version", "tracehost_strerror"}  # library/words.c
CALLS = re.findall(r"\b(tracehost_\w+);", (TOP / "library/tracehost.map").read_text(encoding="utf-8"))
pytestmark = [needs("readelf", "objdump"), pytest.mark.skipif(not CLANG.exists(), reason="not installed: the Rattle kit")]
LANDING = "endbr64"

# functions that are called by their address, and one with a table of jumps
MODULE = """
static int one(int x) { return x + NUMBER; }
static int other(int x) { return x * 3; }
int (*const by_address[2])(int) = {one, other};
__attribute__((noinline)) static int chosen(int x)
{
    switch (x) {
    case 0: return 5;
    case 1: return 91;
    case 2: return one(x + 77);
    case 3: return 81;
    case 4: return other(x);
    case 5: return 17;
    default: return 0;
    }
}
"""


class Maker:
    """Makes the library of a module, which differs by its number, in a folder."""

    def __init__(self, room: Path) -> None:
        self.room = room
        (room / "toolchain").mkdir()
        self.toolchain = Path(build_library.toolchain(str(room / "toolchain")))

    def tool(self, name: str, *words: str | Path) -> None:
        """One of the tools that the compiler of the proved module finds."""
        subprocess.run([self.toolchain / "bin" / name, *words], cwd=self.room, check=True)

    def module(self, number: int) -> str:
        calls = "".join(
            f"int {name}(int x) {{ return by_address[x & 1](x) + chosen(x); }}\n" for name in CALLS if name not in OF_WORDS
        )
        (self.room / "module.c").write_text(MODULE.replace("NUMBER", str(number)) + calls)
        target = ["--target=x86_64-unknown-linux-gnu", "--no-default-config", "-march=x86-64-v2", "-ffunction-sections"]
        words = ["-fno-asynchronous-unwind-tables", "-ffreestanding", "-nostdinc", "-O1", "-fPIC"]
        self.tool("kit-clang", *target, *words, "-emit-llvm", "-c", "module.c", "-o", "module.bc")
        return "module.bc"

    def __call__(self, folder: str, number: int = 1) -> Path:
        module = self.module(number)
        self.tool("clang", "--target=x86_64-unknown-linux-gnu", "--no-default-config", "-O2", "-fPIC", "-ffunction-sections",
                  "-x", "ir", module, "-c", "-o", "member.o")  # fmt: skip
        archive = self.room / "archive.a"
        archive.unlink(missing_ok=True)
        self.tool("llvm-ar", "rcsD", archive, "member.o")
        output(sys.executable, TOOL, archive, self.room / folder)
        return self.room / folder


@pytest.fixture(scope="module")
def maker(tmp_path_factory: pytest.TempPathFactory) -> Maker:
    return Maker(tmp_path_factory.mktemp("library"))


@pytest.fixture(scope="module")
def made(maker: Maker) -> Path:
    return maker("first")


def build_id(library: Path) -> str:
    (found,) = re.findall(r"Build ID: ([0-9a-f]{40})$", output("readelf", "-n", library / "libtracehost.so"), re.MULTILINE)
    return str(found)


def test_the_same_module_gives_the_same_bits(maker: Maker, made: Path) -> None:
    again = maker("again")
    for name in build_library.NAMES:
        assert (made / name).read_bytes() == (again / name).read_bytes()


def test_another_module_has_another_build_id(maker: Maker, made: Path) -> None:
    assert build_id(made) != build_id(maker("other", number=2))


def test_it_exports_the_calls(made: Path) -> None:
    names = {line.split()[-1] for line in output("objdump", "-T", made / "libtracehost.so").splitlines() if ".text" in line}
    assert names == set(CALLS)


def member(library: Path) -> Path:
    output("ar", "x", library / "libtracehost.a", cwd=library)
    return library / "tracehost.o"


@pytest.mark.parametrize("file", [member, lambda library: library / "libtracehost.so"], ids=["archive", "shared"])
def test_it_is_ready_for_cet(made: Path, file: Callable[[Path], Path]) -> None:
    """It says so, and each function that can be called by its address begins with a landing, in the words in C too."""
    assert "x86 feature: IBT, SHSTK\n" in output("readelf", "-n", file(made))
    code = output("objdump", "-d", "--no-show-raw-insn", member(made))
    first = dict(re.findall(r"^[0-9a-f]+ <(\w+)>:\n +[0-9a-f]+:\t(\w+)", code, re.MULTILINE))
    assert {*CALLS, "one", "other"} <= set(first)
    assert {name for name in (*CALLS, "one", "other") if first[name] != LANDING} == set()
    assert first["chosen"] != LANDING


def test_each_function_has_an_unwind_table(made: Path) -> None:
    """The compiler of the stand-in was told to leave them out."""
    frames = output("readelf", "--debug-dump=frames", member(made))
    code = output("objdump", "-d", member(made))
    assert frames.count(" FDE ") >= len(re.findall(r"^[0-9a-f]+ <", code, re.MULTILINE)) > len(CALLS)


def test_a_part_that_is_not_ready_is_seen(maker: Maker, tmp_path: Path) -> None:
    """Of a module that the kit's clang itself has compiled, nothing says that it is."""
    module = maker.module(1)
    shutil.copy(maker.room / module, tmp_path / "plain.bc")
    words = ["--target=x86_64-unknown-linux-gnu", "--no-default-config", "-O2", "-fPIC", "-x", "ir"]
    maker.tool("kit-clang", *words, tmp_path / "plain.bc", "-c", "-o", tmp_path / "member.o")
    maker.tool("llvm-ar", "rcsD", tmp_path / "archive.a", tmp_path / "member.o")
    output(sys.executable, TOOL, tmp_path / "archive.a", tmp_path / "made")
    assert "IBT" not in output("readelf", "-n", member(tmp_path / "made"))
