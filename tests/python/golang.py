"""The go command for the client in Go."""

from __future__ import annotations

import os
from collections.abc import Mapping
from pathlib import Path

from c_programs import NONE, output
from checking import TOP, Word

MODULE = TOP / "clients/go"


class Go:
    """The go command, over the library to test, without a network."""

    def __init__(self, library: Path, room: Path) -> None:
        pc = (TOP / "include/tracehost.pc").read_text().replace("${pcfiledir}/..", str(TOP))
        (room / "tracehost.pc").write_text(pc.replace("${top}/release/x86_64-linux", str(library)))
        self.environment = {
            "PATH": f"{TOP / 'bin'}:{os.environ['PATH']}",
            "PKG_CONFIG_PATH": str(room),
            "GOCACHE": str(room / "cache"),  # go's own cache doesn't notice another library
            "GOPROXY": "off",
            "GOFLAGS": "-mod=readonly",
        }

    def __call__(self, *command: Word, cwd: Path = MODULE, environment: Mapping[str, str] = NONE, status: int = 0) -> str:
        return output("go", *command, cwd=cwd, environment={**self.environment, **environment}, status=status)

    def test_program(self, made: Path) -> Path:
        """The client's own tests as a program."""
        self("test", "-c", "-o", made)
        return made
