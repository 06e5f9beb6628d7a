"""Makes a session of the words of its steps: the model's replies, the turns of its LWPs, and the rows."""

from __future__ import annotations

import random
from collections.abc import Sequence
from typing import Optional

from .form import Text
from .kinds import any_order
from .model import NO_ROWS, Model, Rows, Settler, Unsettled, changed_lines, lines_of, user_of


def remade(name: str, kills: bool, steps: Sequence[str]) -> Optional[Text]:
    """None if an order of turns decides what comes of a step."""
    model, settler = Model(kills), Settler(random.Random(0), any_order)
    lines: list[str] = []
    known: dict[int, dict[str, str]] = {}
    rows: dict[int, Rows] = {}
    for words in steps:
        user = user_of(words)
        try:
            group = settler.group(model, words)
        except Unsettled:
            return None
        rows[user] = model.rows(user).since(rows.get(user, NO_ROWS), group)
        after = lines_of(user, rows[user])
        lines += [*map(str, group), *changed_lines(known.get(user, {}), after)]
        known[user] = after
    return Text(name, kills, lines)
