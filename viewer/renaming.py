"""Two runs in which processes and LWPs got other numbers: which number of the right run is which of the left one."""

from __future__ import annotations

import difflib
from collections import Counter, defaultdict
from collections.abc import Callable, Iterable, Mapping, Sequence
from typing import Any

Row = list[int]  # a user, the user's number of the step, and the places of its values: what was asked, the reply, the rows
Names = dict[int, int]  # from the right run's numbers to the left one's
MOST_MATCHED = 2000  # steps of a user
FIRST = 1000  # the least number of a process; users, signals and codes are no numbers of processes
# the members of steps, replies and rows whose value is a process or an LWP, or several
NUMBERS = {"caller", "target", "which", "lwp", "pid", "child", "pids", "lwps", "parent", "tracer", "stop_lwp", "vfork_child"}
LISTS = {"processes", "lwps", "removed_processes", "removed_lwps"}


def renamed(value: Any, name: Callable[[int], Any], is_number: bool = False) -> Any:
    """The value with other numbers of processes and LWPs."""
    if isinstance(value, dict):
        return {key: renamed(one, name, key in NUMBERS or key in LISTS) for key, one in value.items()}
    if isinstance(value, list):
        return [renamed(one, name, is_number) for one in value]
    return name(value) if is_number and isinstance(value, int) and not isinstance(value, bool) and value >= FIRST else value


def on_the_left(names: Names) -> Callable[[int], int]:
    """The left run's number of each of the right one. One without, that is another's there, is none of the left run's."""
    taken = set(names.values())
    return lambda number: names.get(number, -number if number in taken else number)


class Renaming:
    """The numbers of the right run that are others in the left one. Each value is looked at once: most come often."""

    def __init__(self, left: Sequence[Row], right: Sequence[Row], values: Sequence[object], place: Callable[[object], int]) -> None:
        """`place` is that of a value among the values, and a new one for another value."""
        self._values, self._place = values, place
        self._shapes: dict[int, int] = {}
        self._numbers: dict[int, list[int]] = {}
        self._keys: dict[tuple[int, int], int] = {}
        self.names: dict[int, Names] = {}
        for user in {row[0] for row in right}:
            one, other = ([row for row in rows if row[0] == user] for rows in (left, right))
            self._find(user, one, other)

    def keys(self, row: Row) -> Row:
        """The places that a right run's values would have with the left run's numbers; none if its user has the same."""
        user, _, *places = row
        return [self._key(user, place) if place >= 0 else -1 for place in places] if user in self.names else []

    def _find(self, user: int, left: Sequence[Row], right: Sequence[Row]) -> None:
        """Finds the user's numbers; only if more steps are the same with these."""
        counts = Counter((row[2], row[3]) for row in left)
        before = sum((counts & Counter((row[2], row[3]) for row in right)).values())
        if before == min(len(left), len(right)):
            return
        names = {new: old for new, old in _chosen(self._votes(left, right)).items() if new != old}
        self.names[user] = names
        after = sum((counts & Counter((self._key(user, row[2]), self._key(user, row[3])) for row in right)).values())
        if after <= before:
            del self.names[user]

    def _votes(self, left: Sequence[Row], right: Sequence[Row]) -> dict[int, Counter[int]]:
        """How often a number of the right run is where a number of the left one is, in steps that are alike except for their
        numbers: those that both runs begin, or end, with, and if they aren't long those that match between. Each counts as
        often as there are such steps one after the other."""
        shapes = [[(self._shape(row[2]), self._shape(row[3])) for row in rows] for rows in (left, right)]
        most = min(map(len, shapes))
        begin = next((at for at in range(most) if shapes[0][at] != shapes[1][at]), most)
        end = next((at for at in range(most - begin) if shapes[0][-1 - at] != shapes[1][-1 - at]), most - begin)
        blocks = [(0, 0, begin), (len(left) - end, len(right) - end, end)]
        middle = [own[begin : len(own) - end] for own in shapes]
        if begin + end < most and max(map(len, middle)) <= MOST_MATCHED:
            matched = difflib.SequenceMatcher(None, middle[0], middle[1], autojunk=False).get_matching_blocks()
            blocks += [(begin + i, begin + j, size) for i, j, size in matched]
        votes: dict[int, Counter[int]] = defaultdict(Counter)
        for i, j, size in blocks:
            for one, other in zip(left[i : i + size], right[j : j + size]):
                for place, other_place in zip(one[2:4], other[2:4]):
                    for old, new in zip(self._numbers_of(place), self._numbers_of(other_place)):
                        votes[new][old] += size
        return votes

    def _shape(self, place: int) -> int:
        if place not in self._shapes:
            self._shapes[place] = self._place(renamed(self._values[place], lambda _: "#"))
        return self._shapes[place]

    def _numbers_of(self, place: int) -> Iterable[int]:
        if place not in self._numbers:
            self._numbers[place] = []
            renamed(self._values[place], self._numbers[place].append)
        return self._numbers[place]

    def _key(self, user: int, place: int) -> int:
        if (user, place) not in self._keys:
            self._keys[user, place] = self._place(renamed(self._values[place], on_the_left(self.names[user])))
        return self._keys[user, place]


def _chosen(votes: Mapping[int, Counter[int]]) -> Names:
    """A number of the left run for each of the right one, none twice: those with most votes first."""
    names: Names = {}
    taken = set()
    for _, new, old in sorted((-count, new, old) for new, counts in votes.items() for old, count in counts.items()):
        if new not in names and old not in taken:
            names[new] = old
            taken.add(old)
    return names
