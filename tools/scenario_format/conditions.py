"""The tables of format/refusals.toml: the conditions of refusals, and the calls that ask for them."""

from __future__ import annotations

import ast
import dataclasses
import pathlib
import re
from collections.abc import Sequence

from .strict import Place, Source
from .tables import Format

SHAPES = {
    "numbers": "*",
    "groups": "*",
    "call": "op text order [request]",
    "condition": "name answer words [possible] [holds] [unseen] [never]",
}
ARGUMENTS = "user caller target which lwp signal data request act action unnamed".split()
IN_TEXTS = [*ARGUMENTS, "rules"]
# the functions of rows, with how many arguments they have
FUNCTIONS = {
    **dict.fromkeys(("processes", "lwps"), 0),
    **dict.fromkeys(("process_of", "state", "parent", "tracer", "was_told", "is_live"), 1),
    **dict.fromkeys(("owner", "mode", "call_of", "is_suspended"), 1),
    **dict.fromkeys(("traces", "has_child"), 2),
}
COMPARED = (ast.Eq, ast.NotEq, ast.Lt, ast.LtE, ast.Gt, ast.GtE)
# what expressions consist of
PARTS = (
    *(ast.Expression, ast.BoolOp, ast.And, ast.Or, ast.UnaryOp, ast.Not, ast.USub, ast.Compare, ast.In, *COMPARED),
    *(ast.Constant, ast.Name, ast.Load, ast.Call),
)
PLACEHOLDER = r"\{(.*?)\}"


@dataclasses.dataclass(frozen=True)
class Condition:
    """A condition. format/refusals.toml says what its fields are."""

    name: str
    answer: str
    words: str
    possible: str = ""
    holds: str = ""
    unseen: str = ""
    never: str = ""


@dataclasses.dataclass(frozen=True)
class Call:
    """A call, and its conditions in order."""

    op: str
    text: str
    order: tuple[str, ...]
    request: str = ""

    def number(self, refusals: Refusals) -> int:
        """The number of its request; -1 for any."""
        return refusals.numbers[self.request] if self.request else -1


@dataclasses.dataclass(frozen=True)
class Refusals:
    """All calls and conditions, and the numbers that expressions name."""

    calls: tuple[Call, ...]
    conditions: tuple[Condition, ...]
    requests: dict[str, int]
    numbers: dict[str, int]
    sets: dict[str, tuple[int, ...]]

    @classmethod
    def read(cls, path: pathlib.Path, form: Format) -> Refusals:
        source = Source(path, SHAPES)
        requests = {request.name: request.bit for request in form.requests}
        numbers = {**source.table("numbers", int), **_numbers(form), **requests}
        sets = {
            "SIGNAL_REQUESTS": tuple(request.bit for request in form.requests if request.data == "signal"),
            "DATA_REQUESTS": tuple(request.bit for request in form.requests if request.data not in (None, "ignored")),
        }
        conditions = []
        for place, row in source.entries("condition", Condition):
            source.mentioned(place._replace(key="words"), PLACEHOLDER, row["words"], [*IN_TEXTS, *form.numbers])
            source.known(place._replace(key="answer"), row["answer"], ["held", *(error.name for error in form.errors)])
            for key in {"possible", "holds"} & set(row):
                functions = FUNCTIONS if key == "holds" else {}
                check_expression(source, place._replace(key=key), row[key], numbers, sets, ARGUMENTS, functions)
            conditions.append(Condition(**{**row, "words": with_numbers(row["words"], form.numbers)}))
        calls = _calls(source, form)
        asked = {name for call in calls for name in call.order}
        for number, condition in enumerate(conditions):
            if condition.name not in asked:
                source.wrong(Place("condition", number, "name"), f"no call asks for {condition.name!r}")
        return cls(calls, tuple(conditions), requests, numbers, sets)


def with_numbers(words: str, numbers: dict[str, int]) -> str:
    """The words with numbers in place of their names."""
    return re.sub(PLACEHOLDER, lambda match: str(numbers.get(match[1], match[0])), words)


def _numbers(form: Format) -> dict[str, int]:
    """The numbers of format/scenario.toml that expressions name."""
    signals = {name: number for number, name in enumerate(form.signals, 1)}
    acts = {f"ACT_{act.name.upper()}": act.bit for act in form.acts}
    calls = {f"CALL_{call.name.upper()}": call.bit for call in form.calls}
    actions = {f"ACTION_{action.name.upper()}": action.bit for action in form.actions}
    return {**form.numbers, **signals, **acts, **calls, **actions}


def _calls(source: Source, form: Format) -> tuple[Call, ...]:
    conditions = source.names("condition")
    groups: dict[str, list[str]] = source.table("groups", tuple[str, ...])
    for group, names in groups.items():
        for name in names:
            source.known(Place("groups", 0, group), name, conditions)
    calls = []
    for place, row in source.entries("call", Call):
        source.known(place._replace(key="op"), row["op"], [op.name for op in form.ops])
        source.known(place._replace(key="request"), row.get("request", ""), ["", *(request.name for request in form.requests)])
        source.mentioned(place._replace(key="text"), PLACEHOLDER, row["text"], IN_TEXTS)
        for name in row["order"]:
            source.known(place._replace(key="order"), name, [*groups, *conditions])
        order = [name for entry in row["order"] for name in groups.get(entry, [entry])]
        calls.append(Call(row["op"], row["text"], tuple(order), row.get("request", "")))
    return tuple(calls)


def check_expression(
    source: Source,
    place: Place,
    text: str,
    numbers: dict[str, int],
    sets: dict[str, tuple[int, ...]],
    arguments: Sequence[str],
    functions: dict[str, int],
) -> None:
    """Its names are arguments, numbers, sets and functions."""
    try:
        nodes = list(ast.walk(ast.parse(text, mode="eval")))
    except SyntaxError as error:
        source.wrong(place, f"{text!r} is no expression: {error.msg}")
    called = [node.func for node in nodes if isinstance(node, ast.Call)]
    members = [node.comparators[0] for node in nodes if isinstance(node, ast.Compare) and isinstance(node.ops[0], ast.In)]
    for node in nodes:
        if isinstance(node, ast.Call) and isinstance(node.func, ast.Name):
            source.known(place, node.func.id, functions)
            if len(node.args) != functions[node.func.id] or node.keywords:
                source.wrong(place, f"{node.func.id} takes {functions[node.func.id]} arguments")
        elif isinstance(node, ast.Name) and node in members:
            source.known(place, node.id, sets)
        elif isinstance(node, ast.Name) and node not in called:
            source.known(place, node.id, [*arguments, *numbers])
        elif isinstance(node, ast.Constant) and type(node.value) is not int:
            source.wrong(place, f"{node.value!r} is no whole number")
        elif not isinstance(node, PARTS):
            source.wrong(place, f"{text!r} has a {type(node).__name__}, which no language is written for")
