"""The command ``tracehost``, and ``python -m tracehost``: runs the program that was installed with this package. The commands
``tracehost-view`` and ``tracehost-perfetto`` are those of its viewer.

``python -m tracehost`` without words on a terminal is the prompt of ``tracehost-debug``.
"""

from __future__ import annotations

import importlib.machinery
import importlib.util
import os
import signal
import sys
from typing import NoReturn

from .program import bundled, explained
from .viewing import viewer_folders


def main() -> NoReturn:
    try:
        program = bundled()
    except FileNotFoundError as error:
        sys.exit(f"tracehost: {error}")
    if program is None:
        sys.exit("tracehost: this package was installed without the program")
    for ignored in (signal.SIGPIPE, signal.SIGXFSZ):  # by Python; the program would inherit that
        signal.signal(ignored, signal.SIG_DFL)
    os.execv(program, ["tracehost", *explained(sys.argv[1:])])


def view() -> None:
    _of_viewer("make")


def perfetto() -> None:
    _of_viewer("perfetto")


def debug() -> None:
    from .debug import main as prompt

    sys.exit(prompt())


def coverage() -> None:
    from .coverage import main as count

    sys.exit(count())


def _of_viewer(name: str) -> None:
    """Runs a script of the viewer by the name that it was called by, in the package or its checkout."""
    sys.dont_write_bytecode = True
    script = next((folder / name for folder in viewer_folders() if (folder / name).exists()), None)
    if script is None:
        sys.exit(f"{os.path.basename(sys.argv[0])}: this package was installed without the viewer")
    loader = importlib.machinery.SourceFileLoader(f"viewer_{name}", str(script))
    spec = importlib.util.spec_from_loader(loader.name, loader)
    assert spec is not None
    module = sys.modules[loader.name] = importlib.util.module_from_spec(spec)
    loader.exec_module(module)
    module.main(sys.argv[1:])


if __name__ == "__main__":
    if len(sys.argv) == 1 and sys.stdin.isatty() and sys.stdout.isatty():
        from .debug import main as prompt

        sys.exit(prompt())
    main()
