"""The tables of format/scenario.toml."""

from __future__ import annotations

import dataclasses
import pathlib
import re
from typing import Literal

from . import replies
from .strict import Place, Row, Source

# the keys of each table's entries
SHAPES = {
    "ranges": "user word byte signal pass",
    "limits": "processes lwps handlers rules steps process_numbers lwp_numbers first_process first_lwp",
    "signals": "names",
    "key": "name kind",
    "op": "name keys about effect answers usage [keys_text] [replies] [help]",
    "request": "name variant number keys about effect answers help [data]",
    "data.signal": "key title about",
    "data.switch": "key title about",
    "data.count": "key",
    "data.ignored": "key title about",
    "act": "name library keys about effect answers help keys_text [client]",
    "call": "name library keys about effect answers help keys_text [code]",
    "event": "name about [number] [both]",
    "stop_flag": "name number library about effect",
    "option": "name number",
    "action": "name number client",
    "decision": "name number keys about effect",
    "error": "name number words",
    **replies.SHAPES,
}
# the tables of names, by the fields of Format
TABLES = {
    "ops": "op",
    "requests": "request",
    "acts": "act",
    "calls": "call",
    "events": "event",
    "stop_flags": "stop_flag",
    "options": "option",
    "actions": "action",
    "decisions": "decision",
    "errors": "error",
}
# the table whose names a key has
NAMES = {"data": "data", "code": "ranges", "both": "event", "replies": "reply"}
# the tables whose names are quoted in texts
QUOTED = ("key", "op", "request", "act", "call", "action", "decision", "reply")
QUOTE = r"`(?:help )?([^`]*)`"
CONSTANT = r"\b(?:PT|PTRACE|PL_FLAG)_[A-Z_]*\b"


class Key(str):
    """A key that belongs to a name; one that is written in brackets may be missing."""

    @property
    def name(self) -> str:
        return self.strip("[]")

    @property
    def is_needed(self) -> bool:
        return not self.startswith("[")


Kind = Literal[
    "user", "word", "integer", "op", "act", "call", "request", "action",
    "options", "rules", "signals", "events", "flags", "decision", "pass",
]  # fmt: skip


@dataclasses.dataclass(frozen=True)
class NamedKey:
    """A key of steps or of rules, and the kind of its values."""

    name: str
    kind: Kind

    @property
    def variant(self) -> str:
        return self.name.capitalize()


@dataclasses.dataclass(frozen=True)
class Entry:
    """A name of a table. format/scenario.toml says what its fields are."""

    name: str
    variant: str = ""
    number: int | None = None
    library: int | None = None
    keys: tuple[Key, ...] = ()
    data: str | None = None
    code: str | None = None
    client: str = ""
    both: tuple[str, ...] = ()
    about: str = ""
    effect: str = ""
    keys_text: str | None = None
    answers: str = ""
    replies: tuple[str, ...] = ()
    usage: tuple[str, ...] = ()
    help: str = ""
    words: str = ""

    @classmethod
    def of(cls, row: Row) -> Entry:
        found: Row = {key: tuple(value) if isinstance(value, list) else value for key, value in row.items()}
        found["keys"] = tuple(map(Key, row.get("keys", ())))
        return cls(**found)

    @property
    def bit(self) -> int:
        """The number in include/tracehost.h."""
        found = self.number if self.library is None else self.library
        assert found is not None, f"{self.name} has no number"
        return found

    @property
    def needed(self) -> list[str]:
        """The keys that may not be missing."""
        return [key.name for key in self.keys if key.is_needed]

    @property
    def reply_names(self) -> list[str]:
        """The replies to it, except a refusal."""
        found = list(self.replies) or re.findall(r"`(\w+)`", self.answers)
        assert found, f"{self.name} has no replies"
        return found


@dataclasses.dataclass(frozen=True)
class Data:
    """What the key `data` is for some requests."""

    key: str
    title: str = ""
    about: str = ""


@dataclasses.dataclass(frozen=True)
class Format:
    """All tables."""

    ranges: dict[str, tuple[int, int]]
    limits: dict[str, int]
    signals: tuple[str, ...]
    data: dict[str, Data]
    keys: tuple[NamedKey, ...]
    ops: tuple[Entry, ...]
    requests: tuple[Entry, ...]
    acts: tuple[Entry, ...]
    calls: tuple[Entry, ...]
    events: tuple[Entry, ...]
    stop_flags: tuple[Entry, ...]
    options: tuple[Entry, ...]
    actions: tuple[Entry, ...]
    decisions: tuple[Entry, ...]
    errors: tuple[Entry, ...]
    shapes: replies.Shapes

    @property
    def numbers(self) -> dict[str, int]:
        """The limits as constants."""
        limits = self.limits
        return {
            "FIRST_USER": self.ranges["user"][0],
            "LAST_USER": self.ranges["user"][1],
            "LAST_SIGNAL": self.ranges["signal"][1],
            "MAX_PROCESSES": limits["processes"],
            "MAX_LWPS": limits["lwps"],
            "MAX_HANDLERS": limits["handlers"],
            "MAX_RULES": limits["rules"],
            "FIRST_PROCESS": limits["first_process"],
            "PROCESS_NUMBERS": limits["process_numbers"],
            "LAST_PROCESS": limits["first_lwp"] - 1,
            "FIRST_LWP": limits["first_lwp"],
            "LWP_NUMBERS": limits["lwp_numbers"],
        }

    @property
    def resuming(self) -> list[Entry]:
        """The requests that let the target go on, and may pass it a signal."""
        return by_number(tuple(request for request in self.requests if request.data == "signal"))

    @classmethod
    def read(cls, path: pathlib.Path) -> Format:
        source = Source(path, SHAPES)
        ranges, data = source.table("ranges", tuple[int, ...]), source.tables("data")
        keys = tuple(NamedKey(**row) for _, row in source.entries("key", NamedKey))
        names = {"ranges": list(ranges), "data": list(data)}
        names |= {table: source.names(table) for table in (*TABLES.values(), "key", "reply")}
        tables = {}
        for field, table in TABLES.items():
            rows = list(source.entries(table, Entry))
            for place, row in rows:
                check_entry(source, place, row, names)
            tables[field] = tuple(Entry.of(row) for _, row in rows)
        for name, ends in ranges.items():
            if len(ends) != 2 or ends[0] > ends[1]:
                source.wrong(Place("ranges", 0, name), f"{ends} has to be the least and the most")
        signals = source.table("signals", tuple[str, ...])["names"]
        if list(ranges["signal"]) != [1, len(set(signals))]:
            source.wrong(Place("signals", 0, "names"), f"{len(set(signals))} names, of the signals {ranges['signal']}")
        return cls(
            ranges={name: (least, most) for name, (least, most) in ranges.items()},
            limits=source.table("limits", int),
            signals=tuple(signals),
            data={name: Data(**row) for name, row in data.items()},
            keys=keys,
            shapes=replies.Shapes.read(source),
            **tables,
        )


def check_entry(source: Source, place: Place, row: Row, names: dict[str, list[str]]) -> None:
    """Each word of the entry that is a name of another table is one there."""
    for key, value in row.items():
        at = place._replace(key=key)
        for word in value if isinstance(value, list) else [value]:
            if key == "keys":
                source.known(at, Key(word).name, names["key"])
            elif key == "usage" and word.split(" ")[0] != row["name"]:
                source.wrong(at, f"{word!r} has to begin with {row['name']}")
            elif key in NAMES:
                source.known(at, word, names[NAMES[key]])
            elif key == "answers":
                source.mentioned(at, QUOTE, word, names["reply"])
            elif isinstance(word, str):
                source.mentioned(at, QUOTE, word, [name for table in QUOTED for name in names[table]])
                source.mentioned(at, CONSTANT, word, names["request"] + names["event"] + names["stop_flag"])
    if place.table == "event" and ("number" in row) == ("both" in row):
        source.wrong(place, f"{row['name']} has to have either a number or both")


def by_number(entries: tuple[Entry, ...]) -> list[Entry]:
    return sorted(entries, key=lambda entry: entry.bit if entry.number is None else entry.number)


def wrapped(items: list[str], width: int, first: str, more: str) -> list[str]:
    """Lines of items, each line as long as fits; the lines after the first begin with `more`."""
    lines, line = [], first + items[0]
    for item in items[1:]:
        if len(line) + len(item) > width:
            lines.append(line)
            line = more + item.lstrip()
        else:
            line += item
    return [*lines, line]
