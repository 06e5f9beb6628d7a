"""The program and the library that were installed with this package: those that it was built with."""

from __future__ import annotations

import functools
import os

_SUMS = "SHA256SUMS"


@functools.lru_cache(maxsize=None)
def file_of(name: str) -> str | None:
    """The path of the package's file of this name; None if it has none.

    Raises FileNotFoundError, with the reason, if it isn't the file that the package was built with. The package has the
    digests in the form of sha256sum(1).
    """
    package = os.path.dirname(os.path.realpath(__file__))
    path = f"{package}/{name}"
    if not os.path.exists(path):
        return None
    import hashlib  # takes as long to import as all of the client

    try:
        with open(f"{package}/{_SUMS}", encoding="ascii") as sums:
            lines = sums.read().splitlines()
    except (OSError, ValueError):
        raise FileNotFoundError(f"{path}: the package has no {_SUMS} to compare it with; install it again") from None
    with open(path, "rb") as file:
        digest = hashlib.sha256(file.read()).hexdigest()
    if f"{digest}  {name}" not in lines:
        raise FileNotFoundError(f"{path}: its digest isn't that of {package}/{_SUMS}: it was changed; install the package again")
    return path
