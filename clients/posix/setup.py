"""Builds a wheel of what `make install` puts into lib/tracehost-posix. It needs make and a compiler for C."""

from __future__ import annotations

import pathlib
import shutil
import subprocess
import sysconfig
import tempfile

from setuptools import setup
from setuptools.command.build_py import build_py

HERE = pathlib.Path(__file__).resolve().parent
TOP = HERE.parents[1]
BUILD = HERE / "build"  # the Makefile's folder, which git ignores


class BuildPackage(build_py):
    """Adds the installed folder to the package."""

    def run(self) -> None:
        package = pathlib.Path(self.build_lib, "tracehost_runtime")
        shutil.rmtree(package, ignore_errors=True)
        super().run()
        with tempfile.TemporaryDirectory() as room:
            subprocess.run(["make", "--silent", "-C", HERE, "install", f"DESTDIR={room}", "PREFIX=/usr"], check=True)
            shutil.copytree(pathlib.Path(room, "usr/lib/tracehost-posix"), package, dirs_exist_ok=True)
        for name in ("LICENSE", "THIRD-PARTY.txt"):  # the broker contains the library
            shutil.copy(TOP / name, package)


def answer_of(tool: str, *words: str) -> str:
    return subprocess.run([TOP / "tools" / tool, *words], stdout=subprocess.PIPE, text=True, check=True).stdout.strip()


BUILD.mkdir(exist_ok=True)
setup(
    version=answer_of("version"),
    license=answer_of("licenses", "sum"),
    cmdclass={"build_py": BuildPackage},
    options={
        "build": {"build_base": str(BUILD / "wheel")},
        "egg_info": {"egg_base": str(BUILD)},
        "bdist_wheel": {"plat_name": sysconfig.get_platform()},
    },
)
