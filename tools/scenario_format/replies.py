"""The tables of replies and rows in format/scenario.toml."""

from __future__ import annotations

import dataclasses
import re
from typing import Literal, NamedTuple

from .strict import Place, Row, Source

SHAPES = {
    "field": "name kind about [member] [freebsd] [python] [rust] [doc]",
    "reply": "name number words changes about [at] [more] [python] [rust] [freebsd]",
    "row.process": "name kind [about] [json] [only] [when] [choices] [python] [doc] [others]",
    "row.lwp": "name kind [about] [json] [only] [when] [choices] [python] [doc] [others]",
}
MEMBERS = {"handler": ("has_handler", "handler"), "decision": ("decision", "pass")}
FieldKind = Literal[
    "word", "status", "signal", "event", "flags", "signals", "events", "handler", "decision", "error", "list"
]  # fmt: skip
MemberKind = Literal["word", "number", "count", "flag", "choice", "call", "status", "signal", "flags", "signals", "events"]


@dataclasses.dataclass(frozen=True)
class Field:
    """A field of replies. format/scenario.toml says what its fields are."""

    name: str
    kind: FieldKind
    about: str
    member: str = ""
    freebsd: str = ""
    python: str = ""
    rust: str = ""
    doc: str = ""

    @property
    def members(self) -> tuple[str, ...]:
        """Its members of struct tracehost_reply."""
        return MEMBERS.get(self.kind, (self.member or self.name,))


class Part(NamedTuple):
    """What stands between two spaces of a line: a fixed word, or a field behind `key=`, or without one."""

    word: str
    key: str = ""
    field: Field | None = None


@dataclasses.dataclass(frozen=True)
class Reply:
    """A reply. format/scenario.toml says what its fields are."""

    name: str
    number: int
    words: str
    changes: bool
    about: str
    at: tuple[str, ...] = ()
    more: tuple[str, ...] = ()
    python: str = ""
    rust: str = ""
    freebsd: Literal["", "first", "also"] = ""
    parts: tuple[Part, ...] = ()

    @property
    def fields(self) -> list[Field]:
        return [part.field for part in self.parts if part.field is not None]


@dataclasses.dataclass(frozen=True)
class Member:
    """A member of a row. format/scenario.toml says what its fields are."""

    name: str
    kind: MemberKind
    about: str = ""
    json: str = ""
    only: Literal["", "json"] = ""
    when: str = ""
    choices: tuple[str, ...] = ()
    python: str = ""
    doc: str = ""
    others: tuple[str, ...] = ()


@dataclasses.dataclass(frozen=True)
class Shapes:
    """All fields, replies and rows."""

    fields: tuple[Field, ...]
    replies: tuple[Reply, ...]
    rows: dict[str, tuple[Member, ...]]

    @classmethod
    def read(cls, source: Source) -> Shapes:
        fields = {row["name"]: Field(**row) for _, row in source.entries("field", Field)}
        replies = []
        for place, row in source.entries("reply", Reply):
            for key in ("at", "more"):
                for name in row.get(key, ()):
                    source.known(place._replace(key=key), name, fields)
            parts = _parts(source, place._replace(key="words"), row["words"], fields)
            replies.append(dataclasses.replace(Reply(**_tuples(row)), parts=parts))
        if [reply.number for reply in replies] != list(range(len(replies))):
            source.wrong(Place("reply"), "the numbers of replies have to be 0, 1 and so on")
        rows = {}
        for name in source.parts("row"):
            made = list(source.entries(f"row.{name}", Member))
            choices = [choice for _, row in made for choice in row.get("choices", ())]
            for place, row in made:
                source.known(place._replace(key="when"), row.get("when", ""), ["", *choices])
                if not (row["kind"] == "choice") == ("choices" in row) == ("python" in row):
                    source.wrong(place, "a choice, and nothing else, has choices, and a class in Python")
            rows[name] = tuple(Member(**_tuples(row)) for _, row in made)
        return cls(tuple(fields.values()), tuple(replies), rows)

    @property
    def members(self) -> dict[str, str]:
        """The members of struct tracehost_reply behind `kind`, and what they are."""
        found: dict[str, str] = {}
        for field in self.fields:
            for member in field.members:
                found.setdefault(member, field.about if member == field.members[0] else "")
        return found


def _tuples(row: Row) -> Row:
    return {key: tuple(value) if isinstance(value, list) else value for key, value in row.items()}


def _parts(source: Source, place: Place, words: str, fields: dict[str, Field]) -> tuple[Part, ...]:
    parts = []
    for word in words.split():
        found = re.fullmatch(r"(?:(\w+)=)?\{(.*)\}", word)
        if found:
            source.known(place, found[2], fields)
            parts.append(Part("", found[1] or "", fields[found[2]]))
        else:
            parts.append(Part(word))
    return tuple(parts)
