"""Damaged texts: lines of JSON with values, keys, bytes or lines changed, for what has to refuse them in one line."""

from __future__ import annotations

import json
import random
from typing import Any

STRANGE: list[Any] = [
    None, True, False, 0, -1, 1, 1.5, 1e300, 2**32, 2**64, -(2**63), "", "x", "__proto__", "\u2028", "\ud800", "SIGKILL",
    "ok", "handled", "turn", [], {}, [[]], [None], {"a": 1}, "9" * 50, ["PL_FLAG_SCE"], 1001, 100000, "PT_CONTINUE",
]  # fmt: skip


def places(value: Any, path: tuple[Any, ...] = ()) -> list[tuple[Any, ...]]:
    """The ways to each value inside of this one."""
    found = [path]
    items = value.items() if isinstance(value, dict) else enumerate(value) if isinstance(value, list) else ()
    for key, item in items:
        found += places(item, (*path, key))
    return found


def damaged_value(value: Any, chance: random.Random) -> Any:
    """The value with one part of it changed, added, removed or moved."""
    value = json.loads(json.dumps(value))
    path = chance.choice(places(value))
    if not path:
        return chance.choice(STRANGE)
    inside = value
    for key in path[:-1]:
        inside = inside[key]
    way = chance.randrange(5)
    if way == 0:
        del inside[path[-1]]
    elif way == 1 and isinstance(inside, dict):
        inside[chance.choice(("lwp", "pid", "target", "op", "reply", "at", "index", "extra"))] = chance.choice(STRANGE)
    elif way == 2 and isinstance(inside, dict):
        inside[chance.choice(list(inside))] = inside[path[-1]]
    else:
        inside[path[-1]] = chance.choice(STRANGE)
    return value


def damaged_line(line: str, chance: random.Random) -> str:
    """The line with a part of its value changed, or some of its characters."""
    if chance.random() < 0.8:
        return json.dumps(damaged_value(json.loads(line), chance), separators=(",", ":"))
    at = chance.randrange(len(line))
    return chance.choice((line[:at], line[:at] + chance.choice('{}[],:"\\\0x7') + line[at + 1 :], line[:at] + line[at + 1 :]))


def damaged_lines(lines: list[str], chance: random.Random) -> list[str]:
    """The lines with up to three changes, some moved, doubled or left out."""
    lines = list(lines)
    for _ in range(chance.randint(1, 3)):
        at = chance.randrange(len(lines))
        way = chance.randrange(8)
        if way == 0 and len(lines) > 1:
            del lines[at]
        elif way == 1:
            lines.insert(chance.randrange(len(lines)), lines[at])
        elif way == 2:
            other = chance.randrange(len(lines))
            lines[at], lines[other] = lines[other], lines[at]
        else:
            try:
                lines[at] = damaged_line(lines[at], chance) or "{}"
            except ValueError:  # it has been damaged before
                pass
    return lines
