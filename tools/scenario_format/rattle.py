"""The tables in Rattle: the keys of each name, for explanations."""

from __future__ import annotations

from .tables import Entry, Format, Key

WRITTEN = "Written by `tools/format` from format/scenario.toml."


KINDS = {
    "word": "Kind::Number(WORD)",
    "integer": "Kind::Whole",
    "request": "Kind::Choice(Table::Request)",
    "act": "Kind::Choice(Table::Act)",
    "call": "Kind::Choice(Table::Call)",
    "action": "Kind::Name(Table::Action)",
    "options": "Kind::Names(Table::WaitOption)",
    "events": "Kind::Names(Table::Event)",
    "signals": "Kind::Numbers(SIGNAL)",
    "rules": "Kind::Rules",
    "pass": "Kind::Number(PASS)",
}


def key(entry: Entry, of: Key, kinds: dict[str, str]) -> str:
    if of.name in ("caller", "target"):
        return of.name.upper()
    kind = KINDS[kinds[of.name]] if of.name != "code" else f"Kind::Number({str(entry.code).upper()})"
    return f'Key::{"Needed" if of.is_needed else "Optional"}("{of.name}", {kind})'


def case(entry: Entry, kinds: dict[str, str]) -> str:
    """An entry of a table of cases, laid out as rustfmt does."""
    keys = [key(entry, of, kinds) for of in entry.keys]
    names = [of.name for of in entry.keys]
    if names == ["target", "data"]:
        return f'    Case("{entry.name}", TARGET_AND_DATA),\n'
    if names == ["pass"]:
        return f'    Case("{entry.name}", PASSED),\n'
    listed = ", ".join(keys)
    if len(f'"{entry.name}", &[{listed}]') <= 60:
        return f'    Case("{entry.name}", &[{listed}]),\n'
    if len(listed) <= 60:
        return f'    Case(\n        "{entry.name}",\n        &[{listed}],\n    ),\n'
    lines = "".join(f"            {text},\n" for text in keys)
    return f'    Case(\n        "{entry.name}",\n        &[\n{lines}        ],\n    ),\n'


def cases(name: str, entries: tuple[Entry, ...], form: Format) -> str:
    kinds: dict[str, str] = {key.name: key.kind for key in form.keys}
    lines = "".join(case(entry, kinds) for entry in entries)
    return f"pub(crate) const {name}: [Case; {len(entries)}] = [\n{lines}];\n"


def span(name: str, ends: tuple[int, int]) -> str:
    least, most = ends
    short = f"const {name}: Range = Range {{ least: {least}, most: {most} }};"
    if len(f"least: {least}, most: {most}") <= 18:
        return short + "\n"
    return f"const {name}: Range = Range {{\n    least: {least},\n    most: {most},\n}};\n"


def all_keys(form: Format) -> list[str]:
    """All keys of scenarios, steps and rules, each once, in the order in which they are checked."""
    found = ["steps", "kill_on_debugger_exit", "user", "op"]
    below = {
        "request": form.requests,
        "act": form.acts,
        "call": form.calls,
        "rules": (Entry(name="rule", keys=tuple(Key(f"[{name}]") for name in ("signal", "flags", "decision", "pass"))),),
    }

    def add(entries: tuple[Entry, ...]) -> None:
        for name in (key.name for entry in entries for key in entry.keys):
            if name not in found:
                found.append(name)
                add(below.get(name, ()))

    add(form.ops)
    return found


def explained_tables(form: Format) -> str:
    """crates/diagnostics/src/tables.rt"""
    ranges = "\n".join(span(name.upper(), ends) for name, ends in form.ranges.items())
    asked = (
        '\nconst CALLER: Key = Key::Needed("caller", Kind::Number(WORD));\n\n'
        'const TARGET: Key = Key::Needed("target", Kind::Number(WORD));\n\n'
        "/// The keys of a request with a target and data.\n"
        'const TARGET_AND_DATA: &[Key] = &[TARGET, Key::Optional("data", Kind::Number(WORD))];\n\n'
        "/// The signal that a process goes on with.\n"
        'const PASSED: &[Key] = &[Key::Optional("pass", Kind::Number(PASS))];\n\n'
        "/// All keys of scenarios, steps and rules.\npub(crate) const KEYS: &[&str] = &[\n"
        + "".join(f'    "{name}",\n' for name in all_keys(form))
        + "];\n\n"
        "/// The keys of every step, which come first.\n"
        "pub(crate) const STEP: [Key; 2] = [\n"
        '    Key::Needed("user", Kind::Number(USER)),\n'
        '    Key::Needed("op", Kind::Choice(Table::Op)),\n];\n\n'
        "/// The keys of a rule.\n"
        "pub(crate) const RULE: [Key; 3] = [\n"
        '    Key::Optional("signal", Kind::Number(SIGNAL)),\n'
        '    Key::Optional("flags", Kind::Names(Table::StopFlag)),\n'
        '    Key::Needed("decision", Kind::Choice(Table::Decision)),\n];\n\n'
    )
    return (
        f"//! The names of a scenario, with the keys that belong to each. {WRITTEN}\n\n"
        "use crate::format::{Case, Key, Kind, Range, Table};\n\n" + ranges + asked
    ) + "\n".join(
        [
            cases("OPS", form.ops, form),
            cases("REQUESTS", form.requests, form),
            cases("EVENTS", form.events, form),
            cases("WAIT_OPTIONS", form.options, form),
            cases("ACTIONS", form.actions, form),
            cases("ACTS", form.acts, form),
            cases("CALLS", form.calls, form),
            cases("DECISIONS", form.decisions, form),
            cases("STOP_FLAGS", form.stop_flags, form),
        ]
    )
