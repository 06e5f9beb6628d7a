"""Why a step is refused, in the clients in Python, C, C++ and Rust: what is written from format/refusals.toml."""

from __future__ import annotations

import ast
import dataclasses
import json
from collections.abc import Iterator
from typing import NamedTuple

from .conditions import Condition, Refusals
from .tables import wrapped


@dataclasses.dataclass(frozen=True)
class Language:
    """How a language writes an expression: an argument, a call of a function of rows, and the words between."""

    argument: str
    function: str
    both: str = " && "
    either: str = " || "
    negated: str = "!"
    equal: str = "=="
    unequal: str = "!="

    def expression(self, text: str, refusals: Refusals) -> str:
        return self._of(ast.parse(text, mode="eval").body, refusals, False)

    def _of(self, node: ast.expr, refusals: Refusals, is_part: bool) -> str:
        if isinstance(node, ast.BoolOp):
            between = self.both if isinstance(node.op, ast.And) else self.either
            return self._joined([self._of(value, refusals, True) for value in node.values], between, is_part)
        if isinstance(node, ast.Compare):
            return self._comparison(node, refusals, is_part)
        if isinstance(node, ast.UnaryOp) and isinstance(node.op, ast.Not):
            inner = self._of(node.operand, refusals, False)
            return self.negated + (inner if isinstance(node.operand, (ast.Call, ast.Name)) else f"({inner})")
        if isinstance(node, ast.UnaryOp) and isinstance(node.op, ast.USub):
            return f"-{self._of(node.operand, refusals, True)}"
        if isinstance(node, ast.Constant):
            return str(node.value)
        if isinstance(node, ast.Name):
            number = refusals.numbers.get(node.id)
            return self.argument.format(node.id) if number is None else str(number)
        assert isinstance(node, ast.Call) and isinstance(node.func, ast.Name), ast.dump(node)
        arguments = [self._of(argument, refusals, False) for argument in node.args]
        return self.function.format(node.func.id, ", ".join(arguments)).replace("(r, )", "(r)")

    def _comparison(self, node: ast.Compare, refusals: Refusals, is_part: bool) -> str:
        terms = [node.left, *node.comparators]
        if isinstance(node.ops[0], ast.In):
            assert isinstance(terms[1], ast.Name)
            term = self._of(terms[0], refusals, True)
            return self._joined([f"{term} {self.equal} {number}" for number in refusals.sets[terms[1].id]], self.either, is_part)
        signs = {ast.Eq: self.equal, ast.NotEq: self.unequal, ast.Lt: "<", ast.LtE: "<=", ast.Gt: ">", ast.GtE: ">="}
        written = [self._of(term, refusals, True) for term in terms]
        parts = [f"{left} {signs[type(op)]} {right}" for left, op, right in zip(written, node.ops, written[1:])]
        return self._joined(parts, self.both, is_part)

    @staticmethod
    def _joined(parts: list[str], between: str, is_part: bool) -> str:
        text = between.join(parts)
        return f"({text})" if is_part and len(parts) > 1 else text


PYTHON = Language("a.{}", "r.{}({})", " and ", " or ", "not ")
C = Language("a->{}", "{}(r, {})")
CPP = Language("a.{}", "r.{}({})")
RUST = CPP
JAVASCRIPT = Language("a.{}", "r.{}({})", equal="===", unequal="!==")


def in_cases(refusals: Refusals, language: Language, field: str, case: str) -> str:
    """A case for each condition that has this expression."""
    found = [(condition.name, getattr(condition, field)) for condition in refusals.conditions]
    return "".join(case.format(name.upper(), language.expression(text, refusals)) for name, text in found if text)


# ---- Python


def python_conditions(refusals: Refusals) -> str:
    lines = []
    for condition in refusals.conditions:
        possible = PYTHON.expression(condition.possible or "True", refusals)
        holds = PYTHON.expression(condition.holds or "True", refusals)
        more = f", unseen={json.dumps(condition.unseen)}" if condition.unseen else ""
        more += f", never={json.dumps(condition.never)}" if condition.never else ""
        words = ", ".join(map(json.dumps, (condition.name, condition.answer, condition.words)))
        lines.append(f"    Condition({words}, lambda a: {possible}, lambda a, r: {holds}{more}),\n")
    return f"CONDITIONS = (\n{''.join(lines)})\n"


def python_calls(refusals: Refusals) -> str:
    calls = ""
    for call in refusals.calls:
        order = ", ".join(map(json.dumps, call.order))
        calls += f'    Call("{call.op}", {call.number(refusals)}, "{call.text}", ({order},)),\n'
    return f"CALLS = (\n{calls})\n"


def python_sets(refusals: Refusals) -> str:
    """The requests that pass their data on as a signal, and those that have a use for it."""
    return "".join(f"{name} = {numbers}\n" for name, numbers in refusals.sets.items())


# ---- C


def as_it_is(text: str) -> str:
    return f"/* clang-format off */\n{text}/* clang-format on */\n"


def c_enumerators(refusals: Refusals) -> str:
    items = [f"THP_{condition.name.upper()}, " for condition in refusals.conditions]
    lines = wrapped([*items[:-1], items[-1].rstrip(", ")], 116, "    ", "    ")
    return as_it_is("enum thp_condition {\n" + "".join(line.rstrip() + "\n" for line in lines) + "};\n")


def c_conditions(refusals: Refusals) -> str:
    """The answers and the words of the conditions, and what arguments say of them."""
    rows = "".join(f'    {{"{condition.answer}", "{condition.words}"}},\n' for condition in refusals.conditions)
    cases = in_cases(refusals, C, "possible", "    case THP_{}: return {};\n")
    return as_it_is(
        f"static const struct condition CONDITIONS[] = {{\n{rows}}};\n\n"
        "static int is_possible(enum thp_condition condition, const struct thp_asked *a)\n"
        f"{{\n    switch (condition) {{\n{cases}    default: return 1;\n    }}\n}}\n"
    )


def sets_as_functions(refusals: Refusals, function: str) -> str:
    """Which requests pass their data on as a signal, and which have a use for it."""
    bare = Language("{}", "{}({})")
    return "".join(
        function.format(name, bare.expression(f"request in {numbers}", refusals))
        for name, numbers in {"passes_signal": "SIGNAL_REQUESTS", "takes_data": "DATA_REQUESTS"}.items()
    )


def c_sets(refusals: Refusals) -> str:
    return as_it_is(sets_as_functions(refusals, "static int {}(int64_t request) {{ return {}; }}\n"))


def c_calls(refusals: Refusals) -> str:
    orders, calls = "", ""
    for n, call in enumerate(refusals.calls):
        names = ", ".join(f"THP_{name.upper()}" for name in call.order)
        orders += f"static const enum thp_condition ORDER_{n}[] = {{{names}}};\n"
        calls += f'    {{THP_{call.op.upper()}, {call.number(refusals)}, "{call.text}", ORDER_{n}, COUNT(ORDER_{n})}},\n'
    return as_it_is(f"{orders}static const struct call ASKED_CALLS[] = {{\n{calls}}};\n")


def c_holds(refusals: Refusals) -> str:
    cases = in_cases(refusals, C, "holds", "    case THP_{}: return {};\n")
    return as_it_is(
        "static int holds(enum thp_condition condition, const struct thp_asked *a, const struct rows *r)\n"
        f"{{\n    switch (condition) {{\n{cases}    default: return 1;\n    }}\n}}\n"
    )


# ---- C++ and Rust


class Tests(NamedTuple):
    """A condition's two tests as bodies of closures, and the names of their parameters."""

    condition: Condition
    possible: str
    holds: str
    asked: str
    argument: str
    rows: str


def tests_in(language: Language, refusals: Refusals, unused: str) -> Iterator[Tests]:
    for condition in refusals.conditions:
        possible, holds = (
            language.expression(test or "True", refusals).replace("True", "true") for test in (condition.possible, condition.holds)
        )
        asked, argument, rows = (
            name if f"{name}." in body else unused for name, body in (("a", possible), ("a", holds), ("r", holds))
        )
        yield Tests(condition, possible, holds, asked, argument, rows)


def cpp_tables(refusals: Refusals) -> str:
    conditions = ""
    for condition, possible, holds, asked, argument, rows in tests_in(CPP, refusals, ""):
        conditions += (
            f'    static const condition {condition.name} = {{"{condition.answer}", "{condition.words}",\n'
            f"        [](const asked &{asked}) {{ return {possible}; }},\n"
            f"        [](const asked &{argument}, const rows &{rows}) {{ return {holds}; }}}};\n"
        )
    calls = "".join(
        f'        {{"{call.op}", {call.number(refusals)}, "{call.text}", {{{", ".join(f"&{name}" for name in call.order)}}}}},\n'
        for call in refusals.calls
    )
    return f"{conditions}    static const std::vector<call> made = {{\n{calls}    }};\n"


def cpp_sets(refusals: Refusals) -> str:
    return sets_as_functions(refusals, "inline bool {}(std::int64_t request) {{ return {}; }}\n")


def cpp_requests(refusals: Refusals) -> str:
    rows = wrapped([f'{{"{name}", {number}}}, ' for name, number in refusals.requests.items()], 116, "        ", "        ")
    return (
        "    static const std::vector<std::pair<std::string, std::int64_t>> requests = {\n"
        + "".join(line.rstrip() + "\n" for line in rows)
        + "    };\n"
    )


def rust_requests(refusals: Refusals) -> str:
    return "".join(f'        "{name}" => {number},\n' for name, number in refusals.requests.items())


def rust_sets(refusals: Refusals) -> str:
    """The requests that pass their data on as a signal, and those that have a use for it."""
    return "".join(f"pub const {name}: &[i64] = &{list(numbers)};\n" for name, numbers in refusals.sets.items())


def rust_tables(refusals: Refusals) -> str:
    conditions = ""
    for condition, possible, holds, asked, argument, rows in tests_in(RUST, refusals, "_"):
        conditions += (
            f"static {condition.name.upper()}: Condition = Condition {{\n"
            f'    answer: "{condition.answer}", words: "{condition.words}",\n'
            f"    possible: |{asked}| {possible}, holds: |{argument}, {rows}| {holds},\n}};\n"
        )
    calls = ""
    for call in refusals.calls:
        order = ", ".join(f"&{name.upper()}" for name in call.order)
        calls += f'    Call {{ op: "{call.op}", request: {call.number(refusals)}, text: "{call.text}", order: &[{order}] }},\n'
    return f"{conditions}\npub static CALLS: &[Call] = &[\n{calls}];\n"


# ---- the viewer


def viewer_conditions(refusals: Refusals) -> str:
    rows = ""
    for condition, possible, holds, asked, argument, row in tests_in(JAVASCRIPT, refusals, "_"):
        of_rows = "()" if argument == row == "_" else argument if row == "_" else f"({argument}, {row})"
        rows += (
            f"  {condition.name}: {{ answer: {json.dumps(condition.answer)}, words: {json.dumps(condition.words)},\n"
            f"    possible: {'()' if asked == '_' else '(a)'} => {possible}, holds: {of_rows.replace('a', '(a)') if of_rows == 'a' else of_rows} => {holds} }},\n"
        )
    return f"export const CONDITIONS = {{\n{rows}}};\n"


def viewer_calls(refusals: Refusals) -> str:
    rows = ""
    for call in refusals.calls:
        rows += f"  {{ op: {json.dumps(call.op)}, request: {call.number(refusals)}, order: {json.dumps(list(call.order))} }},\n"
    return f"export const ASKED_CALLS = [\n{rows}];\n"


def viewer_numbers(refusals: Refusals) -> str:
    """Numbers of requests, acts, system calls and actions by their names in steps, and which requests take a signal or data."""
    tables = {"REQUEST_NUMBERS": refusals.requests}
    for kind in ("ACT", "CALL", "ACTION"):
        found = {
            name.removeprefix(f"{kind}_").lower(): number
            for name, number in refusals.numbers.items()
            if name.startswith(f"{kind}_")
        }
        tables[f"{kind}_NUMBERS"] = found
    lines = [
        f"export const {name} = {{ {', '.join(f'{key}: {value}' for key, value in table.items())} }};\n"
        for name, table in tables.items()
    ]
    lines += [f"export const {name} = {json.dumps(list(numbers))};\n" for name, numbers in refusals.sets.items()]
    return "".join(lines)
