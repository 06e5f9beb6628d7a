"""cargo for a crate of this repository."""

from __future__ import annotations

from collections.abc import Mapping
from pathlib import Path

from c_programs import NONE, output


class Cargo:
    """cargo for the crate, over the library to test, in a folder of its own."""

    def __init__(self, crate: Path, library: Path, target: Path) -> None:
        self.crate = crate
        self.target = target
        self.environment = {"TRACEHOST_LIB_DIR": str(library), "CARGO_TARGET_DIR": str(target)}

    def __call__(self, command: str, *words: str, environment: Mapping[str, str] = NONE) -> str:
        return output("cargo", command, "--offline", *words, cwd=self.crate, environment={**self.environment, **environment})
