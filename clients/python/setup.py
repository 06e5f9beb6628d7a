"""Builds the client. Its version is the program's. The wheel contains the program and the library, if the repository
has them, and the viewer.
"""

from __future__ import annotations

import hashlib
import pathlib
import re
import shutil
import subprocess
import sysconfig

from setuptools import setup
from setuptools.command.build_py import build_py

HERE = pathlib.Path(__file__).resolve().parent
TOOLS = HERE.parent.parent / "tools"
VIEWER = HERE.parent.parent / "viewer"


def answer_of(tool: str, *words: str) -> str | None:
    """What a script in tools/ prints; None if it finds nothing, or outside the repository."""
    if not (TOOLS / tool).exists():
        return None
    done = subprocess.run([TOOLS / tool, *words], stdout=subprocess.PIPE, text=True)
    return done.stdout.strip() if done.returncode == 0 else None


def version() -> str:
    found = answer_of("version")
    if found is None:  # a source distribution
        lines = (HERE / "PKG-INFO").read_text(encoding="utf-8").splitlines()
        found = next(line for line in lines if line.startswith("Version: ")).partition(" ")[2]
    return found


def platform(files: list[pathlib.Path]) -> str:
    """The tag of the machines that run these files: Linux with the C library that they need, or a later one."""
    minor = max(int(number) for file in files for number in re.findall(rb"GLIBC_2\.(\d+)", file.read_bytes()))
    return f"manylinux_2_{minor}_" + sysconfig.get_platform().removeprefix("linux-")


path = answer_of("program")
program = pathlib.Path(path) if path else None
folder = answer_of("library")
library = pathlib.Path(folder, "libtracehost.so") if folder else None


class BuildPackage(build_py):
    """Builds from nothing, so that no older file gets into a wheel, and adds the program and the viewer."""

    def run(self) -> None:
        shutil.rmtree(pathlib.Path(self.build_lib, "tracehost"), ignore_errors=True)
        super().run()
        if getattr(self, "editable_mode", False):
            return
        package = pathlib.Path(self.build_lib, "tracehost")
        if VIEWER.exists():
            shutil.copytree(VIEWER, package / "viewer", ignore=shutil.ignore_patterns("__pycache__", "tests"))
        if program is not None:
            (package / "bin").mkdir()
            shutil.copy(program, package / "bin" / "tracehost")
        if library is not None:
            (package / "lib").mkdir()
            shutil.copy(library, package / "lib")
        copies = [path for path in (package / "bin" / "tracehost", package / "lib" / "libtracehost.so") if path.exists()]
        if copies:  # the client compares them: tracehost/packaged.py
            sums = [f"{hashlib.sha256(path.read_bytes()).hexdigest()}  {path.relative_to(package)}\n" for path in copies]
            (package / "SHA256SUMS").write_text("".join(sums), encoding="ascii")


built = [file for file in (program, library) if file is not None]
commands = [f"tracehost-{name} = tracehost.__main__:{name}" for name in ("view", "perfetto") if VIEWER.exists()]
commands += [f"tracehost-{name} = tracehost.__main__:{name}" for name in ("debug", "coverage")] if program else []
commands += ["tracehost = tracehost.__main__:main"] if program else []

setup(
    version=version(),
    license=(answer_of("licenses", "sum") if built else None) or "BSD-2-Clause",
    cmdclass={"build_py": BuildPackage},
    # the name is the module's, so that pytest takes -p tracehost.pytest_plugin and an installed package for one plugin
    entry_points={
        "pytest11": [f"tracehost.{name} = tracehost.{name}" for name in ("pytest_plugin", "pytest_scenarios")],
        "console_scripts": commands,
    },
    options={"bdist_wheel": {"plat_name": platform(built)}} if built else {},
)
