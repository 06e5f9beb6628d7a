"""Checks that are counted within a test."""

from __future__ import annotations

MOST_SHOWN = 10


class Checks:
    """How many checks a test made, and which of them failed. It is the fixture `checks`."""

    def __init__(self) -> None:
        self.made = 0
        self.failures: list[str] = []

    def check(self, holds: bool, text: str) -> None:
        """Counts one check. The text says what is wrong if it doesn't hold."""
        self.made += 1
        if not holds:
            self.failures.append(text)

    def end(self) -> None:
        """Fails if a check failed, or if none was made."""
        assert self.made, "the test made no check"
        shown = "\n".join(self.failures[:MOST_SHOWN])
        assert not self.failures, f"{len(self.failures)} of {self.made} checks failed:\n{shown}"
