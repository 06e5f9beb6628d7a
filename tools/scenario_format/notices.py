"""The rules of format/notices.toml, what a debugger's author may want to look at, and what is written from them."""

from __future__ import annotations

import dataclasses
import itertools
import json
import pathlib

from .conditions import PLACEHOLDER, Refusals, check_expression
from .refusals import Language
from .strict import Source

SHAPES = {"facts": "*", "rule": "name kind of holds words means [at]"}
TEXTS = ("request",)  # facts that are no numbers


@dataclasses.dataclass(frozen=True)
class Rule:
    """A rule. format/notices.toml says what its fields are."""

    name: str
    kind: str
    of: str
    holds: str
    words: str
    means: str
    at: str = ""


@dataclasses.dataclass(frozen=True)
class Notices:
    """All rules, in order, and the numbers that their expressions name."""

    rules: tuple[Rule, ...]
    refusals: Refusals

    @classmethod
    def read(cls, path: pathlib.Path, refusals: Refusals) -> Notices:
        source = Source(path, SHAPES)
        facts: dict[str, list[str]] = source.table("facts", tuple[str, ...])
        rules = []
        for place, row in source.entries("rule", Rule):
            source.known(place._replace(key="kind"), row["kind"], ["wrong", "open"])
            source.known(place._replace(key="of"), row["of"], facts)
            known = facts[row["of"]]
            source.known(place._replace(key="at"), row.get("at", ""), ["", *known])
            source.mentioned(place._replace(key="words"), PLACEHOLDER, row["words"], known)
            numbers = [fact for fact in known if fact not in TEXTS]
            check_expression(source, place._replace(key="holds"), row["holds"], refusals.numbers, {}, numbers, {})
            rules.append(Rule(**row))
        return cls(tuple(rules), refusals)


PYTHON = Language('f["{}"]', "", " and ", " or ", "not ")
JAVASCRIPT = Language("f.{}", "", equal="===", unequal="!==")


def python_rules(notices: Notices) -> str:
    rows = ""
    for rule in notices.rules:
        words = ", ".join(json.dumps(text) for text in (rule.name, rule.kind, rule.of, rule.at, rule.words))
        rows += f"    Rule({words}, lambda f: {PYTHON.expression(rule.holds, notices.refusals)}),\n"
    return f"RULES = (\n{rows})\n"


def viewer_rules(notices: Notices) -> str:
    rows = ""
    for rule in notices.rules:
        names = {"name": rule.name, "kind": rule.kind, "of": rule.of, "at": rule.at, "words": rule.words}
        members = ", ".join(f"{name}: {json.dumps(value)}" for name, value in names.items())
        rows += f"  {{ {members},\n    holds: (f) => {JAVASCRIPT.expression(rule.holds, notices.refusals)} }},\n"
    return f"export const RULES = [\n{rows}];\n"


def page(notices: Notices) -> str:
    """The rules of each kind in a column."""
    columns = [[rule.means for rule in notices.rules if rule.kind == kind] for kind in ("wrong", "open")]
    rows = "".join(f"| {wrong} | {still_open} |\n" for wrong, still_open in itertools.zip_longest(*columns, fillvalue=""))
    return f"\n| red: may be wrong | blue: still open at the end |\n|---|---|\n{rows}\n"
