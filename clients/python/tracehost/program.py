"""Where the program is."""

from __future__ import annotations

import os
from collections.abc import Sequence

from . import checkout, packaged


def bundled() -> str | None:
    """The path of the program that was installed with this package; None if the package has none.

    Raises FileNotFoundError if it isn't the one that the package was built with.
    """
    path = packaged.file_of("bin/tracehost")
    return path if path is not None and os.access(path, os.X_OK) else None


def default() -> str:
    """What the environment's ``TRACEHOST`` names, else the package's own program, else the checkout's, else
    ``tracehost`` on the path.

    Raises FileNotFoundError if the checkout's isn't of its present sources, or the package's was changed.
    """
    return os.environ.get("TRACEHOST") or bundled() or checkout.answer_of("program") or "tracehost"


def explained(words: Sequence[str]) -> Sequence[str]:
    """A command line that also asks for reasons if $TRACEHOST_EXPLAIN says so, or if $CI is set: nobody can ask again there."""
    choice = os.environ.get("TRACEHOST_EXPLAIN", "always" if os.environ.get("CI") else "auto")
    is_chosen = any(word.startswith("--explain") for word in words)
    return words if is_chosen or choice not in ("always", "never") else [f"--explain={choice}", *words]
