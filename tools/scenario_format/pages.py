"""The tables of docs/FORMAT.md, and the lists of names in the manual page."""

from __future__ import annotations

import itertools

from .tables import Entry, Format, wrapped


def table(head: list[str], rows: list[list[str]]) -> str:
    lines = [head, ["---"] * len(head), *rows]
    return "".join(row(cells) for cells in lines)


def row(cells: list[str]) -> str:
    if set(cells) == {"---"}:
        return "|" + "---|" * len(cells) + "\n"
    return "|" + "".join(f" {cell} |" if cell else " |" for cell in cells) + "\n"


def keys_of(entry: Entry) -> str:
    if entry.keys_text is not None:
        return entry.keys_text
    return ", ".join(f"`{key.name}`" if key.is_needed else f"[`{key.name}`]" for key in entry.keys)


def in_rows(entries: tuple[Entry, ...]) -> list[list[str]]:
    """A row of names, keys, effect and answers; neighbours with the same effect share one."""
    rows = []
    for effect, group in itertools.groupby(entries, key=lambda entry: entry.effect):
        alike = list(group)
        rows.append([", ".join(f"`{entry.name}`" for entry in alike), keys_of(alike[0]), effect, alike[0].answers])
    return rows


def ops(form: Format) -> str:
    return table(["op", "keys", "effect", "answers"], in_rows(form.ops))


def requests(form: Format) -> str:
    return table(["request", "keys", "effect", "answers"], in_rows(form.requests))


def acts(form: Format) -> str:
    return table(["act", "keys", "what the LWP does", "answers"], in_rows(form.acts))


def calls(form: Format) -> str:
    return table(["call", "`code`", "its work", "answers"], in_rows(form.calls))


def decisions(form: Format) -> str:
    return table(["decision", "effect"], [[f"`{entry.name}`", entry.effect] for entry in form.decisions])


def stop_flags(form: Format) -> str:
    return table(["flag", "stop"], [[f"`{entry.name}`", entry.effect] for entry in form.stop_flags])


def manual_requests(form: Format) -> str:
    *names, last = [entry.name for entry in form.requests]
    items = [f"{name} , " for name in names[:-1]] + [names[-1]]
    lines = [line.rstrip() for line in wrapped(items, 120, ".Dv ", ".Dv ")]
    return "\n".join([*lines, "and", f".Dv {last} ."]) + "\n"
