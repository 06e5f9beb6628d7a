"""What a function of `Process.handle_with` decides."""

from __future__ import annotations

import sys

from .checks import of_kind, word
from .names import Decision, Request

if sys.version_info >= (3, 10):
    Verdict = Decision | tuple[Decision, int]
else:
    from typing import Union

    Verdict = Union[Decision, tuple[Decision, int]]
"""What a function of `Process.handle_with` returns."""
REQUESTS = {
    Decision.CONTINUE: Request.PT_CONTINUE,
    Decision.DETACH: Request.PT_DETACH,
    Decision.KILL: Request.PT_KILL,
}


def verdict(given: object) -> tuple[Decision, int]:
    """The decision, and the signal that is passed on; 0 for none."""
    decision, passed = given if isinstance(given, tuple) and len(given) == 2 else (given, 0)
    of_kind("decision", Decision, decision)
    if passed and decision not in (Decision.CONTINUE, Decision.DETACH):
        raise ValueError(f"decision: {decision.name} passes on no signal")
    return decision, word("signal", passed)
