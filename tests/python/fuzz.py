"""Compares the program with the second model in reference/, on random scenarios and on hostile texts.

    PYTHONPATH=. python3 tests/python/fuzz.py PROGRAM FOLDER [--seed SEED] [--steps COUNT | --seconds SECONDS]

A seed is DAY, or DAY/ROUND to begin at a round. Each round is one text of 64 users, each with a world of their own, and
then some hostile texts. A scenario that differs is shrunk, and left in a file in FOLDER.
"""

from __future__ import annotations

import argparse
import itertools
import json
import random
import subprocess
import sys
import time
from collections.abc import Callable, Sequence
from pathlib import Path
from typing import Any, NamedTuple

from checks import Checks
from fuzz_steps import World
from fuzz_texts import hostile
from reference.reading import Fault, read_scenario, read_step
from reference.runs import Host, run_lines, run_scenario

Step = dict[str, Any]
USERS = range(1001, 1065)
# kinds of worlds, each with its users and the numbers of steps that a user may have
SIZES = {"small": (USERS, (60, 150, 150, 300)), "crowd": (USERS[:6], (1200,)), "churn": (USERS[:1], (9500,))}
TEXTS, LINES = 20, 200
MOST_FILES = 20


class Case(NamedTuple):
    """A text, the words that the program gets before it, and whether it is lines or a scenario."""

    words: tuple[str, ...]
    data: bytes


class Answer(NamedTuple):
    status: int
    out: bytes
    error: bytes


def text_of(steps: Sequence[Step], kills: int) -> bytes:
    lines = ",\n".join([json.dumps(step, separators=(",", ":")) for step in steps])
    return f'{{"kill_on_debugger_exit":{kills},"steps":[\n{lines}\n]}}\n'.encode()


def lines_of(steps: Sequence[Step]) -> bytes:
    return "".join([json.dumps(step) + "\n" for step in steps]).encode()


def joined(lines: Sequence[str]) -> bytes:
    return "".join([line + "\n" for line in lines]).encode()


def expected(case: Case) -> Answer:
    """What the second model answers."""
    words, as_json = case.words, "--json" in case.words
    if "--lines" in words:
        kills = words[words.index("--kill-on-debugger-exit") + 1] == "1"
        lines = case.data.removesuffix(b"\n").split(b"\n") if case.data else []
        return Answer(0, joined(list(run_lines(lines, kills, as_json))), b"")
    try:
        rows = run_scenario(case.data, as_json)
    except Fault as fault:
        return Answer(1, b"", f"tracehost: refused: {fault}\n".encode())
    if "--threads" in words:
        rows.sort(key=lambda row: row[0])
    user = int(words[words.index("--user") + 1]) if "--user" in words else None
    return Answer(0, joined([line for owner, line in rows if user in (None, owner)]), b"")


class Fuzz:
    def __init__(self, program: Path, folder: Path, seed: str, checks: Checks) -> None:
        self.program = program
        self.folder = folder
        self.seed = seed
        self.checks = checks
        self.steps = self.texts = self.files = 0

    def printed(self, case: Case) -> Answer:
        """What the program answers."""
        ran = subprocess.run([self.program, *case.words], input=case.data, capture_output=True)
        return Answer(ran.returncode, ran.stdout, ran.stderr)

    def differs(self, case: Case) -> bool:
        return self.printed(case) != expected(case)

    # ---- a round

    def round(self, number: int) -> None:
        chance = random.Random(f"{self.seed}/{number}")
        where = f"seed {self.seed}/{number}"
        kills = chance.randrange(2)
        steps, lines = self.worlds(chance, kills)
        self.steps += len(steps)
        for words, wanted in ways(chance, kills, lines):
            data = lines_of(steps) if "--lines" in words else text_of(steps, kills)
            got = self.printed(Case(words, data))
            same = got == Answer(0, wanted, b"") if wanted is not None else got == expected(Case(words, data))
            self.checks.check(same, f'{where}: {" ".join(words) or "plain"}')
            if not same:
                self.keep(where, self.shrunk_steps(steps, kills, words), words)
        self.hostile_round(chance, where, steps, kills)

    def worlds(self, chance: random.Random, kills: int) -> tuple[list[Step], list[tuple[int, str]]]:
        """Steps of all users in some order, and the lines that the second model prints for them."""
        kind = chance.choices(list(SIZES), [96, 2, 2])[0]
        users, lengths = SIZES[kind]
        length = chance.choice(lengths)
        host = Host(kills == 1)
        makers = {user: World(chance, kind) for user in users}
        order = [user for user in users for _ in range(length)]
        chance.shuffle(order)
        steps, lines = [], []
        for user in order:
            step = {"user": user, **makers[user].next(host.views[user])}
            lines.append((user, host.line(*read_step(step), False)))
            steps.append(step)
        return steps, lines

    def hostile_round(self, chance: random.Random, where: str, steps: list[Step], kills: int) -> None:
        for number in range(TEXTS):
            first = chance.randrange(len(steps))
            value = {"steps": steps[first : first + chance.randint(0, 6)]}
            if chance.random() < 0.3:
                value["kill_on_debugger_exit"] = kills  # type: ignore[assignment]
            self.text(where, Case((), hostile(chance, value)))
        lines = [hostile(chance, chance.choice(steps)).replace(b"\n", b" ") for _ in range(LINES)]
        words = ("--lines", "--kill-on-debugger-exit", str(kills))
        self.text(where, Case(words, b"".join([line + b"\n" for line in lines])), LINES)

    def text(self, where: str, case: Case, texts: int = 1) -> None:
        self.texts += texts
        same = not self.differs(case)
        self.checks.check(same, f"{where}: a hostile text")
        if not same:
            parts = case.data.splitlines(keepends=True) if texts > 1 else [bytes([byte]) for byte in case.data]
            shrunk = shrink(parts, lambda left: self.differs(Case(case.words, b"".join(left))))
            self.keep(where, b"".join(shrunk), case.words)

    # ---- what differs

    def shrunk_steps(self, steps: list[Step], kills: int, words: tuple[str, ...]) -> bytes:
        """The text of as few of the steps as still differ: one user's, if those do."""

        def data(left: Sequence[Step]) -> bytes:
            return lines_of(left) if "--lines" in words else text_of(left, kills)

        def fails(left: Sequence[Step]) -> bool:
            return self.differs(Case(words, data(left)))

        alone = ([step for step in steps if step["user"] == user] for user in USERS)
        return data(shrink(next((left for left in alone if fails(left)), steps), fails))

    def keep(self, where: str, data: bytes, words: tuple[str, ...]) -> None:
        """Leaves a text that differs in a file, and prints where it is and what was printed."""
        self.files += 1
        if self.files > MOST_FILES:
            return
        path = self.folder / f"{self.seed}-{self.files}.json"
        path.write_bytes(data)
        case = Case(words, data)
        print(f'{where}: {path}\n  tracehost {" ".join(words)} {path}')
        difference(expected(case), self.printed(case))


def ways(chance: random.Random, kills: int, lines: list[tuple[int, str]]) -> list[tuple[tuple[str, ...], bytes | None]]:
    """Ways to run a scenario, each with the output that is wanted; without one the second model is asked again."""
    plain = joined([line for _, line in lines])
    by_user = joined([line for _, line in sorted(lines, key=lambda row: row[0])])
    user = chance.choice(lines)[0]
    others: list[tuple[tuple[str, ...], bytes | None]] = [
        (("--threads",), by_user),
        (("--user", str(user)), joined([line for owner, line in lines if owner == user])),
        (("--lines", "--kill-on-debugger-exit", str(kills)), plain),
    ]
    if chance.random() < 0.05:
        json_words: tuple[str, ...] = ("--json",)
        others = [(json_words, None), ((*json_words, "--threads"), None)]
    return [((), plain), chance.choice(others)]


def difference(wanted: Answer, got: Answer) -> None:
    """Prints the first lines in which two answers differ."""
    if (wanted.status, wanted.error) != (got.status, got.error):
        print(f"  reference: status {wanted.status} {wanted.error!r}\n  program:   status {got.status} {got.error!r}")
    pairs = itertools.zip_longest(wanted.out.splitlines(), got.out.splitlines())
    for number, (want, found) in enumerate(pairs, 1):
        if want != found:
            print(f"  line {number}\n  reference: {want!r}\n  program:   {found!r}")
            return


def shrink(items: Sequence[Any], fails: Callable[[Sequence[Any]], bool]) -> Sequence[Any]:
    """Takes pieces away, large ones first, while the rest still fails."""
    size = len(items)
    while size := size // 2:
        at = 0
        while at < len(items):
            rest = [*items[:at], *items[at + size :]]
            if fails(rest):
                items = rest
            else:
                at += size
    return items


def make_rounds(fuzz: Fuzz, first: int, steps: int | None, seconds: float) -> None:
    """Makes rounds from the first on, for so many steps, or else for this time."""
    began = time.monotonic()
    for number in itertools.count(first):
        fuzz.round(number)
        spent = time.monotonic() - began
        if fuzz.steps >= steps if steps is not None else spent >= seconds:
            break
    print(
        f"seed {fuzz.seed}: {fuzz.steps} steps and {fuzz.texts} hostile texts in {spent:.0f} s,"
        f" {fuzz.steps / spent:.0f} steps a second, rounds {first} to {number}: {fuzz.files} differ"
    )


def today() -> str:
    return time.strftime("%Y%m%d", time.gmtime())


def main() -> int:
    parser = argparse.ArgumentParser()
    parser.add_argument("program", type=Path)
    parser.add_argument("folder", type=Path)
    parser.add_argument("--seed", default=today())
    parser.add_argument("--steps", type=int)
    parser.add_argument("--seconds", type=float, default=60)
    chosen = parser.parse_args()
    seed, _, first = chosen.seed.partition("/")
    fuzz = Fuzz(chosen.program, chosen.folder, seed, Checks())
    make_rounds(fuzz, int(first or 0), chosen.steps, chosen.seconds)
    return 1 if fuzz.checks.failures or not fuzz.checks.made else 0


if __name__ == "__main__":
    sys.exit(main())
