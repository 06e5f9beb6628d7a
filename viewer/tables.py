"""The steps of a trace as a table, as pages contain them: of each step the places of its parts among the values.

Most parts of a long session come often, and a page has each once.
"""

from __future__ import annotations

import json

import reading
from renaming import Row


class Values:
    """Values of JSON, each once, in the order in which they come first."""

    def __init__(self, is_sorted: bool = False) -> None:
        """If it `is_sorted`, objects whose members have another order are the same."""
        self._is_sorted = is_sorted
        self._places: dict[str, int] = {}
        self._values: list[object] = []
        self._parts: dict[str, int] = {}  # the places of parts by their texts
        self._text = json.JSONEncoder(separators=(",", ":"), sort_keys=is_sorted).encode

    def place(self, value: object) -> int:
        return self._place(self._text(value), value)

    def place_of(self, part: reading.Part) -> int:
        place = self._parts.get(part.text)
        if place is None:
            place = self.place(part.value) if self._is_sorted else self._place(part.text, part.value)
            self._parts[part.text] = place
        return place

    def _place(self, text: str, value: object) -> int:
        place = self._places.setdefault(text, len(self._values))
        if place == len(self._values):
            self._values.append(value)
        return place

    def all(self) -> list[object]:
        return self._values

    def text(self) -> str:
        """All of them as a JSON text."""
        return f"[{','.join(self._places)}]"


def rows_of(file: reading.Read, values: Values) -> list[Row]:
    """The steps of a trace in the order of the scenario."""
    rows = []
    for reply in sorted(file.replies, key=lambda reply: reply.place):
        parts = (reply.asked, reply.said, reply.rows)
        rows.append([reply.user, reply.step, *(-1 if part is None else values.place_of(part) for part in parts)])
    return rows
