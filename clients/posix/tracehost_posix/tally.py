"""What the runs of a search come to, in the order of their schedules."""

from __future__ import annotations

from collections import deque
from typing import TYPE_CHECKING, NamedTuple

from .outcome import Result

if TYPE_CHECKING:
    from .ledger import Block

LAST = 100
"""The figures say how many of the last LAST schedules were new."""


class Failures(NamedTuple):
    """The schedules that fail in the same words."""

    times: int
    first: int | None
    """The seed of the first one; None if the schedule has none."""


class Sums:
    """Numbers of runs that are added up."""

    def __init__(self) -> None:
        self.runs = self.questions = self.steps = self.passed = self.skipped = self.examined = 0
        self.most = 0
        """Questions of a run."""
        self.failures: dict[str, Failures] = {}
        self.remarks: dict[str, None] = {}
        """Sentences on what wasn't the model's."""

    def add(self, other: Sums) -> None:
        self.runs += other.runs
        self.questions += other.questions
        self.steps += other.steps
        self.passed += other.passed
        self.skipped += other.skipped
        self.examined += other.examined
        self.most = max(self.most, other.most)
        self.remarks.update(other.remarks)
        for why, failures in other.failures.items():
            self.fail(why, failures)

    def add_run(self, seed: int | None, result: Result) -> None:
        self.runs += 1
        self.questions += result.questions
        self.steps += result.steps
        self.passed += result.passed
        self.skipped += result.skipped
        self.examined += result.examined
        if result.questions > self.most:
            self.most = result.questions
        if result.remarks:
            self.remarks.update(dict.fromkeys(result.remarks))
        if result.why is not None:
            self.fail(result.why, Failures(1, seed))

    def fail(self, why: str, failures: Failures) -> None:
        known = self.failures.get(why)
        self.failures[why] = failures if known is None else known._replace(times=known.times + failures.times)


def sums_of(seed: int | None, result: Result) -> Sums:
    """Those of one run."""
    sums = Sums()
    sums.add_run(seed, result)
    return sums


class Tally:
    """What all runs of a search come to."""

    def __init__(self) -> None:
        self.sums = Sums()
        self.repeated = 0
        """Of the runs, those that were left: they would only have repeated others."""
        self.schedules: set[int] = set()
        """The runs. Those that differ only in the order of legs that commute count as one."""
        self.news: deque[bool] = deque(maxlen=LAST)
        """Of the last runs, whether nothing like them had run before."""

    def add(self, seed: int | None, result: Result) -> bool:
        """Whether nothing like this run has run before."""
        self.sums.add_run(seed, result)
        if result.repeats:
            self.repeated += 1
            return False
        new = result.legs not in self.schedules
        self.schedules.add(result.legs)
        self.news.append(new)
        return new

    def recount(self, block: Block) -> None:
        """What is new of a block that was counted without those before it."""
        numbers = iter(block.different)
        legs = [next(numbers) if new else None for new in block.new]
        block.new = [number is not None and number not in self.schedules for number in legs]
        block.different = [number for number in block.different if number not in self.schedules]

    def take(self, block: Block) -> None:
        """Adds the runs of a block."""
        self.sums.add(block.sums)
        self.schedules.update(block.different)
        self.news.extend(block.new)

    def share_of_new(self) -> int:
        """Of the last runs, in percent."""
        return 100 * sum(self.news) // len(self.news)
