"""The checkout that the package is run from, if it is: which program and which library are of its present sources."""

from __future__ import annotations

import functools
import os


@functools.lru_cache(maxsize=None)
def answer_of(tool: str) -> str | None:
    """What ``tools/program`` or ``tools/library`` prints, a path; None outside a checkout.

    They compare digests of the sources and of the files. Raises FileNotFoundError with what they say if neither what
    was built there nor the release is of the present sources, or the release is damaged.
    """
    top = os.path.realpath(f"{__file__}/../../../..")
    if not os.path.exists(f"{top}/crates.txt"):
        return None
    import subprocess  # installed packages need none

    done = subprocess.run(
        [f"{top}/tools/{tool}"],
        stdin=subprocess.DEVNULL, stdout=subprocess.PIPE, stderr=subprocess.PIPE, encoding="utf-8", errors="replace",
    )  # fmt: skip
    if done.returncode:
        raise FileNotFoundError(done.stderr.strip() or f"{top}/tools/{tool}: status {done.returncode}")
    return done.stdout.strip()
