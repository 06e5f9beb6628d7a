"""Sessions of a changed model: a refusal exchanged for another answer, a stop that is left out, a row with another field.

The player has to find each fault at its line. So faults are planted only in steps that it has compared and found the same.
"""

from __future__ import annotations

import random
import re
from collections import Counter, defaultdict
from collections.abc import Iterator, Mapping, Sequence
from pathlib import Path
from typing import NamedTuple

from .form import Text, made_in, texts_in
from .model import step_in
from .playing import Player, Result, play

_NO_SUCH_ANSWER = "error EAGAIN 35"
_STOPS = re.compile(r"state=(?:trace|job)_stop")
# of each field a value that it doesn't have; the fields that no kernel shows aren't here
_FIELDS: Mapping[str, Sequence[str]] = {
    "state": ("runs", "job_stop", "zombie"),
    "parent": ("1", "999"),
    "tracer": ("0", "999"),
    "lwps": ("1", "2"),
    "pending": ("-", "30"),
    "ignored": ("-", "14"),
    "caught": ("-", "14"),
    "blocked": ("-", "14"),
}


class Fault(NamedTuple):
    """A session with one line that isn't the model's, and the number of this line in the session, from 0."""

    kind: str
    session: Text
    line: int


def _changed(session: Text, line: int, text: str) -> Text:
    """The session up to the rows after this line, with another text there."""
    end = line + 1
    while end < len(session.lines) and session.lines[end].startswith("="):
        end += 1
    return session._replace(lines=[*session.lines[:line], text, *session.lines[line + 1 : end]])


def _of_reply(session: Text, line: int) -> Iterator[Fault]:
    words, reply = made_in(session.lines[line])
    if reply == "held" or reply.startswith("error"):
        step = step_in(words)
        name = step.get("request") or step.get("act") or step["op"]
        answer = "ok" if reply == "held" else _NO_SUCH_ANSWER
        yield Fault(f"refusal {name} {reply}", _changed(session, line, f"{words} -> {answer}"), line)
    if reply.startswith("caught"):
        yield Fault("reply caught", _changed(session, line, f"{words} -> caught {1 + int(reply.split()[1]) % 31}"), line)
    if reply.startswith("status"):
        _, pid, word = reply.split()
        yield Fault("reply status", _changed(session, line, f"{words} -> status {pid} {int(word) ^ 256}"), line)
    if reply == "nothing":
        yield Fault("reply nothing", _changed(session, line, f"{words} -> {_NO_SUCH_ANSWER}"), line)
    if reply.startswith("pids") and len(reply.split()) > 2:
        yield Fault("reply pids", _changed(session, line, f"{words} -> {reply.rsplit(' ', 1)[0]}"), line)


def _of_row(session: Text, line: int) -> Iterator[Fault]:
    text = session.lines[line]
    if text.startswith("= gone"):
        return
    kind = text.split()[1]
    if "state=zombie" in text:
        status = re.search(r" status=(\d+)", text)
        if status:
            changed = text.replace(status[0], f" status={int(status[1]) ^ 256}")
            yield Fault("row process status", _changed(session, line, changed), line)
        return
    if _STOPS.search(text):
        yield Fault(f"stop left out, {_STOPS.findall(text)[0]}", _changed(session, line, _STOPS.sub("state=runs", text)), line)
    for field, values in _FIELDS.items():
        has = re.search(rf" {field}=(\S+)", text)
        for value in values if has else ():
            if has and value != has[1]:
                changed = text.replace(f" {field}={has[1]}", f" {field}={value}", 1)
                yield Fault(f"row {kind} {field}", _changed(session, line, changed), line)
                break


def faults_of(session: Text) -> Iterator[Fault]:
    for line, text in enumerate(session.lines):
        yield from _of_row(session, line) if text.startswith("=") else _of_reply(session, line)


def planted(sessions: Sequence[Text], seed: int, each: int) -> list[Fault]:
    """Up to so many faults of each kind."""
    chance = random.Random(seed)
    kinds: defaultdict[str, list[Fault]] = defaultdict(list)
    for session in sessions:
        for fault in faults_of(session):
            kinds[fault.kind].append(fault)
    chosen = [fault for _, faults in sorted(kinds.items()) for fault in chance.sample(faults, min(each, len(faults)))]
    return [fault._replace(session=fault.session._replace(name=f"fault {place}")) for place, fault in enumerate(chosen)]


class Counts(NamedTuple):
    """How many faults of each kind were planted, and how many were found."""

    planted: Counter[str]
    found: Counter[str]

    def missed(self) -> list[str]:
        return [kind for kind, count in self.planted.items() if self.found[kind] < count]


def found_by(player: Player, sessions: Path, results: Sequence[Result], each: int, folder: Path) -> tuple[Counts, str]:
    """Plants faults in the sessions of a file that were the same as the model's, and plays them: what was found, and why the
    player failed, "" if it didn't."""
    same = {result.session for result in results if result.verdict == "same"}
    faults = planted([text for text in texts_in(sessions) if text.name in same], 1, each)
    if not faults:
        return Counts(Counter(), Counter()), "no session was the same as the model's, in which a fault could be planted"
    file = folder / "faults.txt"
    file.write_text("".join(f"{fault.session}\n" for fault in faults), encoding="utf-8")
    played = play(player, file, folder / "faults.tsv")
    fault = played.fault(len(faults))
    return Counts(Counter(), Counter()) if fault else count(faults, played.results), fault


def count(faults: Sequence[Fault], results: Sequence[Result]) -> Counts:
    verdicts = {result.session: result for result in results}
    found = Counter(fault.kind for fault in faults if verdicts[fault.session.name].verdict == "differs")
    return Counts(Counter(fault.kind for fault in faults), found)
