"""Values of a scenario with one change, and the kinds of steps: each is changed once."""

from __future__ import annotations

from collections.abc import Iterator
from typing import Any

# values that a key may be given; none is 1.0 or -0, which are whole numbers for a schema and not for the program
OTHERS: list[Any] = [None, -1, 0, 31, 32, 256, 1065, 4294967296, 2**63, 1.5, "fork", "", [32], ["PL_FLAG_SCE"], {}]


def shape(step: Any) -> str:
    """What kind of step it is: its names and its keys."""
    if not isinstance(step, dict):
        return type(step).__name__
    return repr([(key, step[key] if key in ("op", "act", "call", "request") else "") for key in sorted(step)])


def changes(value: Any) -> Iterator[Any]:
    """The value with one change, somewhere in it."""
    if isinstance(value, dict):
        for key in value:
            yield {k: v for k, v in value.items() if k != key}
            for other in OTHERS:
                yield {**value, key: other}
            for changed in changes(value[key]):
                yield {**value, key: changed}
        for key in ("fly", "data", "pass", "code"):
            yield {**value, key: 1}
    elif isinstance(value, list):
        yield value * 17
        for place, item in enumerate(value):
            for other in OTHERS:
                yield value[:place] + [other] + value[place + 1 :]
            for changed in changes(item):
                yield value[:place] + [changed] + value[place + 1 :]
