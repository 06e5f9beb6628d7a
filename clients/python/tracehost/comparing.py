"""Two sessions side by side. Processes and LWPs that got other numbers in the second one are compared as the same."""

from __future__ import annotations

import difflib
import importlib.util
import json
import re
from collections.abc import Callable, Iterator, Mapping, Sequence
from pathlib import Path
from typing import Any, NamedTuple

from .timeline import Refused, Step, Timeline, tree_of
from .viewing import viewer_folders

_MOST_SHOWN = 20  # steps of a user that differ, on each side
_NO_REPLY = ("user", "step", "index", "asked", "rows")


class Difference(NamedTuple):
    """Steps of a user in one session that the other hasn't, and those in their place."""

    left: Sequence[Step]
    right: Sequence[Step]


class Compared(NamedTuple):
    """Two sessions of a user."""

    user: int
    names: Mapping[int, int]
    """From the second one's numbers to the first one's, for those that are others."""
    same: int
    differences: list[Difference]


class _Values:
    """Values of JSON by their places, each once."""

    def __init__(self) -> None:
        self.all: list[object] = []
        self._places: dict[str, int] = {}

    def place(self, value: object) -> int:
        text = json.dumps(value, sort_keys=True)
        if text not in self._places:
            self._places[text] = len(self.all)
            self.all.append(value)
        return self._places[text]


def _renaming() -> Any:
    """The module of the viewer that finds the numbers. Raises Refused if the viewer isn't there."""
    installed = (Path(__file__).resolve().parents[2], Path("/usr/local/share/tracehost"), Path("/usr/share/tracehost"))
    folders = [*viewer_folders(), *(folder / "viewer" for folder in installed)]
    for file in (folder / "renaming.py" for folder in folders):
        spec = importlib.util.spec_from_file_location("tracehost_renaming", file) if file.exists() else None
        if spec is not None and spec.loader is not None:
            module = importlib.util.module_from_spec(spec)
            spec.loader.exec_module(module)
            return module
    raise Refused("the viewer isn't installed, which compares two sessions (docs/INSTALL.md)")


def _row(step: Step, values: _Values) -> list[int]:
    said = {name: value for name, value in step.reply.items() if name not in _NO_REPLY}
    return [step.user, step.number, values.place(step.asked), values.place(said)]


def compared(left: Timeline, right: Timeline) -> list[Compared]:
    """Both sessions, user by user. Raises Refused."""
    renaming, values = _renaming(), _Values()
    rows = [[_row(step, values) for step in timeline.steps] for timeline in (left, right)]
    other = renaming.Renaming(*rows, values.all, values.place)
    found = []
    for user in sorted({*left.users(), *right.users()}):
        steps = [[step for step in timeline.steps if step.user == user] for timeline in (left, right)]
        keys = [[tuple(row[2:4]) for row in rows[0] if row[0] == user]]
        keys.append([tuple(other.keys(row) or row[2:4])[:2] for row in rows[1] if row[0] == user])
        found.append(_of_user(user, other.names.get(user, {}), steps, keys))
    return found


def _of_user(user: int, names: Mapping[int, int], steps: Sequence[Sequence[Step]], keys: Sequence[Sequence[object]]) -> Compared:
    (one, other), most = keys, min(map(len, keys))
    begin = next((at for at in range(most) if one[at] != other[at]), most)
    end = next((at for at in range(most - begin) if one[-1 - at] != other[-1 - at]), most - begin)
    middle = [own[begin : len(own) - end] for own in keys]
    same, differences = begin + end, []
    for kind, i, j, k, m in difflib.SequenceMatcher(None, middle[0], middle[1], autojunk=False).get_opcodes():
        if kind == "equal":
            same += j - i
        else:
            differences.append(Difference(steps[0][begin + i : begin + j], steps[1][begin + k : begin + m]))
    return Compared(user, names, same, differences)


def differences_of(left: Timeline, right: Timeline, names: tuple[str, str]) -> tuple[list[str], bool]:
    """How two sessions of these names differ, in lines, and whether they do. Raises Refused."""
    users = compared(left, right)
    same, most = sum(user.same for user in users), max(len(left), len(right))
    lines = [f"{same} of {most} steps are the same"]
    first = min((one for user in users for one in user.differences), key=_place, default=None)
    lines += [] if first is None else [f"the first difference: {_first(first, names)}"]
    for user in users:
        lines += _names_of(user, names)
        for mark, place in (("-", 0), ("+", 1)):
            shown = [step for difference in user.differences for step in difference[place]]
            lines += [f"{mark} {step.number:5} {step.user}: {step.words()}" for step in shown[:_MOST_SHOWN]]
            lines += [f"{mark} and {len(shown) - _MOST_SHOWN} more"] if len(shown) > _MOST_SHOWN else []
    ends = [*_ends(left, right, users, names[1])]
    return [*lines, *(["at the end:", *ends] if ends else [])], first is not None or bool(ends)


def _place(difference: Difference) -> int:
    return min(step.number for side in difference for step in side[:1])


def _first(difference: Difference, names: tuple[str, str]) -> str:
    """Which side makes which step."""
    (one, *_), (other, *_) = [*difference.left, None], [*difference.right, None]
    if one is None or other is None:
        made, name = (one, names[0]) if other is None else (other, names[1])
        assert made is not None
        return f"only {name} makes step {made.number} of user {made.user}, {made.words()}"
    if one.asked == other.asked:
        return f"step {one.number} of user {one.user}, {one.words()}; {names[1]} answers {other.answer()}"
    return f"step {one.number} of user {one.user} in {names[0]}, {one.words()}; {names[1]} has {other.words()}"


def _names_of(user: Compared, names: tuple[str, str]) -> list[str]:
    if not user.names:
        return []
    new, old = min(user.names.items())
    more = f", and {len(user.names) - 1} more" if len(user.names) > 1 else ""
    return [f"user {user.user}: {old} of {names[0]} is {new} in {names[1]}{more}"]


def _ends(left: Timeline, right: Timeline, users: Sequence[Compared], other_name: str) -> Iterator[str]:
    """The rows at the ends that differ, with the numbers of the left one, if it has them."""
    renaming = _renaming()
    for user in users:
        name: Callable[[int], int] = renaming.on_the_left(user.names)
        one = left.rows(len(left), user.user)
        found = (renaming.renamed(row, name) for row in right.rows(len(right), user.user).values())
        other = {row.get("lwp") or row["pid"]: row for row in found}
        trees = [tree_of(one), [re.sub(r"(?<!\w)-(\d+)", rf"\1 of {other_name}", line) for line in tree_of(other)]]
        for mark, tree, another in (("-", *trees), ("+", *reversed(trees))):
            yield from (f"{mark} {line.strip()}" for line in tree if line not in another)
