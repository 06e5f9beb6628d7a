"""Tables in TOML, read strictly: a key, a type or a name that isn't known ends the tool, which tells the file and the line."""

from __future__ import annotations

import collections
import difflib
import pathlib
import re
import tomllib
import types
import typing
from collections.abc import Collection, Iterator
from typing import Any, NamedTuple, NoReturn

Row = dict[str, Any]
FEW = 20


class Place(NamedTuple):
    """A key of a table's entry, or the entry itself."""

    table: str
    entry: int = 0
    key: str = ""


def places(text: str) -> dict[Place, int]:
    """The line of each header, and of each key."""
    found: dict[Place, int] = {}
    entries: collections.Counter[str] = collections.Counter()
    at = Place("")
    for number, line in enumerate(text.splitlines(), 1):
        if header := re.match(r"\[\[?([\w.]+)\]", line):
            at = Place(header[1], entries[header[1]])
            entries[header[1]] += 1
            found[at] = number
        elif key := re.match(r"(\w+)\s*=", line):
            found[at._replace(key=key[1])] = number
    return found


class Source:
    """A file of tables, which tells where something in it is wrong."""

    def __init__(self, path: pathlib.Path, shapes: dict[str, str]) -> None:
        """`shapes` has the keys of each table's entries; one in brackets may be missing. Any key fits `*`."""
        text = path.read_text(encoding="utf-8")
        self._name = f"{path.parent.name}/{path.name}"
        self._lines = places(text)
        self._shapes = shapes
        try:
            self._tables: Row = tomllib.loads(text)
        except tomllib.TOMLDecodeError as error:
            why, _, place = str(error).partition(" (at line ")
            raise SystemExit(f"format: {self._name}:{place.split(',')[0]}: {why}") from None
        tables = {shape.split(".")[0] for shape in shapes}
        for table in self._tables:
            self.known(Place(table), table, tables)
        for table in tables - set(self._tables):
            self.wrong(Place(""), f"there is no [{table}]")

    def wrong(self, place: Place, why: str) -> NoReturn:
        line = self._lines.get(place) or self._lines.get(place._replace(key="")) or 1
        raise SystemExit(f"format: {self._name}:{line}: {why}")

    def known(self, place: Place, word: object, words: Collection[str]) -> None:
        if word in words:
            return
        names = sorted(set(words))
        near = difflib.get_close_matches(str(word), names, 1, 0)
        few = ", ".join(names) if len(names) <= FEW else f"{len(names)} names; did you mean {near[0]!r}?"
        self.wrong(place, f"{word!r} is none of {few}")

    def mentioned(self, place: Place, pattern: str, text: str, words: Collection[str]) -> None:
        """Each word of the text that has this form is one of these."""
        for word in re.findall(pattern, text):
            self.known(place, word, words)

    def table(self, name: str, kind: Any) -> Row:
        """The keys of `[name]`; all its values are of this type."""
        row: Row = self._found(name) or {}
        self._keys(Place(name), row, self._shapes[name])
        for key, value in row.items():
            self._is(Place(name, 0, key), value, kind)
        return row

    def tables(self, name: str) -> dict[str, Row]:
        """The tables `[name.first]` and so on."""
        return {key: self.table(f"{name}.{key}", str) for key in self.parts(name)}

    def parts(self, name: str) -> list[str]:
        """The names of all tables `[name.first]` and so on, or of tables `[[name.first]]`."""
        inner = [shape.split(".")[1] for shape in self._shapes if shape.startswith(f"{name}.")]
        for key in self._tables[name]:
            self.known(Place(f"{name}.{key}"), key, inner)
        return inner

    def entries(self, table: str, types_of: type) -> Iterator[tuple[Place, Row]]:
        """The entries of `[[table]]`. Each has the keys of its shape, with the types that the class gives them."""
        rows, hints = self._found(table), typing.get_type_hints(types_of)
        if not isinstance(rows, list):
            self.wrong(Place(table), f"[{table}] has to be [[{table}]]")
        names: set[str] = set()
        for number, row in enumerate(rows):
            place = Place(table, number)
            self._keys(place, row, self._shapes[table])
            for key, value in row.items():
                self._is(place._replace(key=key), value, hints[key])
            if row.get("name") in names:
                self.wrong(place._replace(key="name"), f"{row['name']!r} is there already")
            names.update([row["name"]] if "name" in row else [])
            yield place, row

    def names(self, table: str) -> list[str]:
        return [row["name"] for row in self._found(table) if isinstance(row, dict) and "name" in row]

    def _found(self, name: str) -> Any:
        """The table or the tables of this name, which may have a point."""
        found: Any = self._tables
        for part in name.split("."):
            found = found.get(part) if isinstance(found, dict) else None
        return found

    def _keys(self, place: Place, row: Row, shape: str) -> None:
        words = [word.strip("[]") for word in shape.split()]
        for key in row if shape != "*" else ():
            self.known(place._replace(key=key), key, words)
        for word in shape.split():
            if word[0] not in "[*" and word not in row:
                self.wrong(place, f"{word} is missing")

    def _is(self, place: Place, value: object, hint: Any) -> None:
        if not _fits(value, hint):
            self.wrong(place, f"{value!r} has to be {_in_words(hint)}")


def _fits(value: object, hint: Any) -> bool:
    origin, arguments = typing.get_origin(hint), typing.get_args(hint)
    if origin is tuple:
        return isinstance(value, list) and all(_fits(item, arguments[0]) for item in value)
    if origin in (typing.Union, types.UnionType):
        return any(_fits(value, one) for one in arguments)
    if origin is typing.Literal:
        return value in arguments
    if issubclass(hint, str):
        return isinstance(value, str)
    return isinstance(value, hint) and isinstance(value, bool) == (hint is bool)


def _in_words(hint: Any) -> str:
    origin, arguments = typing.get_origin(hint), typing.get_args(hint)
    if origin is tuple:
        return f"an array, with each value {_in_words(arguments[0])}"
    if origin in (typing.Union, types.UnionType):
        return " or ".join(_in_words(one) for one in arguments if one is not type(None))
    if origin is typing.Literal:
        return f"one of {', '.join(arguments)}"
    return "a text" if issubclass(hint, str) else "true or false" if hint is bool else "a whole number"
