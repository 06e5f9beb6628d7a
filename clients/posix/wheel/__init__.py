"""The commands of the wheel. Its folder is that of an installed lib/tracehost-posix."""

from __future__ import annotations

import importlib
import os
import sys
from collections.abc import Callable
from typing import NoReturn

HOME = os.path.dirname(os.path.abspath(__file__))


def cc() -> NoReturn:
    """tracehost-cc."""
    _become("tracehost-cc")


def ld() -> NoReturn:
    """tracehost-ld."""
    _become("tracehost-ld")


def run() -> int:
    """tracehost-run: in this process, whose name says in which folder other commands are."""
    return _main("command")


def corpus() -> int:
    """tracehost-corpus."""
    return _main("corpus")


def _become(command: str) -> NoReturn:
    os.execv(os.path.join(HOME, command), [command, *sys.argv[1:]])


def _main(module: str) -> int:
    sys.path[:0] = [HOME, os.path.join(HOME, "python")]
    main: Callable[[], int] = importlib.import_module(f"tracehost_posix.{module}").main
    try:
        return main()
    except KeyboardInterrupt:
        return 130
