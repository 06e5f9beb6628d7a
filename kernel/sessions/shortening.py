"""usage: kernel/shorten [--player FILE] [--differences FILE] SESSIONS NAME

Cuts a session that differs down to the fewest steps that still differ in the same way, and prints it.
"""

from __future__ import annotations

import argparse
import re
import sys
import tempfile
from collections.abc import Callable, Sequence
from pathlib import Path
from typing import Optional

from .ending import status_of
from .form import Text, texts_in
from .playing import DIFFERS, NOT_DONE, SAME, Player, Result, play
from .remaking import remade
from .running import add_player

_NUMBERS = re.compile(r"\b\d{4,}\b")


class CannotPlay(Exception):
    """The player didn't do its work."""


def way(result: Result) -> tuple[str, str, str]:
    """How a session differs, whatever numbers its processes and LWPs have."""
    step, model, kernel = (_NUMBERS.sub("N", text) for text in (result.step, result.model, result.kernel))
    return step, model, kernel


class Shortener:
    def __init__(self, player: Player, folder: Path) -> None:
        self._player, self._folder = player, folder
        self.runs = 0

    def differs(self, session: Text) -> Optional[tuple[str, str, str]]:
        """The way in which the session differs; None if all is the same, or listed. Raises CannotPlay."""
        self.runs += 1
        file = self._folder / "session.txt"
        file.write_text(f"{session}\n", encoding="utf-8")
        played = play(self._player, file, self._folder / "results.tsv")
        if played.fault(1):
            raise CannotPlay(played.fault(1))
        return None if played.results[0].is_told else way(played.results[0])

    def shortest(self, session: Text) -> Optional[Text]:
        """The shortest session found that differs as this one does; None if it doesn't differ. Raises CannotPlay."""
        wanted = self.differs(session)
        if wanted is None:
            return None

        def still_differs(steps: Sequence[str]) -> bool:
            text = remade(session.name, session.kills, steps)
            try:
                return text is not None and self.differs(text) == wanted
            except CannotPlay:  # without some steps another may be none that the kernel can be asked for
                return False

        steps = session.steps()
        if not still_differs(steps):
            return session
        return remade(session.name, session.kills, fewest(steps, still_differs))


def fewest(steps: Sequence[str], holds: Callable[[Sequence[str]], bool]) -> list[str]:
    """Leaves out halves, then smaller parts, and at last single steps, as long as it holds of the rest."""
    kept, size = list(steps), max(1, len(steps) // 2)
    while True:
        place, before = 0, len(kept)
        while place < len(kept):
            rest = kept[:place] + kept[place + size :]
            if rest and holds(rest):
                kept = rest
            else:
                place += size
        if size == 1 and len(kept) == before:
            return kept
        size = max(1, size // 2)


def _find(file: Path, name: str) -> Text:
    """Raises OSError and ValueError."""
    for text in texts_in(file):
        if text.name == name:
            return text
    raise ValueError(f"{file}: no session is named {name}")


def main(words: Optional[list[str]] = None) -> int:
    return status_of("shorten", lambda: _main(words))


def _main(words: Optional[list[str]]) -> int:
    parser = argparse.ArgumentParser(prog="shorten", description=__doc__, formatter_class=argparse.RawDescriptionHelpFormatter)
    add_player(parser)
    parser.add_argument("sessions", type=Path, metavar="SESSIONS")
    parser.add_argument("name", metavar="NAME")
    options = parser.parse_args(words)
    try:
        session = _find(options.sessions, options.name)
        with tempfile.TemporaryDirectory(prefix="tracehost-kernel-") as folder:
            shortener = Shortener(Player(options.player, options.differences, options.time), Path(folder))
            shortest = shortener.shortest(session)
    except ValueError as error:
        print(f"shorten: {error}", file=sys.stderr)
        return 2
    except CannotPlay as error:
        print(f"shorten: {error}", file=sys.stderr)
        return NOT_DONE
    if shortest is None:
        print(f"shorten: {session.name} doesn't differ", file=sys.stderr)
        return SAME
    print(shortest)
    print(f"shorten: {len(shortest.steps())} of {len(session.steps())} steps, {shortener.runs} runs", file=sys.stderr)
    return DIFFERS
