"""Replies and rows as JSON objects and as words: in the viewer, and in the second model."""

from __future__ import annotations

import re

from .constants import names, quoted
from .replies import Field, Member, Part, Reply
from .tables import Format, wrapped

# ---- the forms of members, in the viewer's JavaScript and Python


class Checks:
    """How a language writes the form of a value."""

    def __init__(self, script: bool) -> None:
        self.script = script
        self.word, self.name, self.signal = ("isWord", "isName", "isSignal") if script else ("is_word", "is_name", "is_signal")

    def call(self, script: str, python: str, *arguments: str) -> str:
        return f"{script if self.script else python}({', '.join(arguments)})"

    def list_of(self, check: str) -> str:
        return self.call("listOf", "list_of", check)

    def one_of(self, values: list[str]) -> str:
        return self.call("oneOf", "one_of", *quoted(values))

    def maybe(self, check: str) -> str:
        return self.call("maybe", "_maybe", check)

    def members(self, members: dict[str, str]) -> str:
        """An object with these members; one without a name is all those of another object."""
        if not members:
            return "{}"
        key = "{}: {}" if self.script else '"{}": {}'
        spread = "...{}" if self.script else "**{}"
        items = [spread.format(check) if name.startswith("*") else key.format(name, check) for name, check in members.items()]
        return ("{{ {} }}" if self.script else "{{{}}}").format(", ".join(items))


def of_field(checks: Checks, field: Field) -> dict[str, str]:
    """The members that a field has, with their forms."""
    spread = {"status": "STATUS", "signal": "SIGNAL", "decision": "DECISION", "error": "ERROR"}
    if field.kind in spread:
        return {f"*{field.kind}": spread[field.kind] if checks.script else f"_{spread[field.kind]}"}
    forms = {
        "word": checks.word,
        "event": checks.one_of(["SIGNAL", "NONE"]),
        "flags": checks.list_of(checks.name),
        "signals": checks.list_of(checks.signal),
        "events": checks.list_of(checks.name),
        "list": checks.list_of(checks.word),
        "handler": checks.call("orNull", "_or_null", checks.word),
    }
    return {"by" if field.kind == "handler" else field.name: forms[field.kind]}


def of_reply(checks: Checks, reply: Reply) -> str:
    inner: dict[str, str] = {}
    members: dict[str, str] = {}
    for field in reply.fields:
        if field.name in reply.at:
            inner |= of_field(checks, field)
            members["at"] = checks.call("objectOf", "_object_of", checks.members(inner))
        else:
            members |= of_field(checks, field)
    return checks.members(members)


def of_member(checks: Checks, member: Member) -> str:
    maybe = checks.maybe
    if member.kind == "choice":
        one = checks.one_of([choice for choice in member.choices if choice])
        return maybe(one) if "" in member.choices else one
    forms = {
        "word": checks.word,
        "flag": maybe(checks.call("oneOf", "one_of", "true" if checks.script else "True")),
        "call": maybe(checks.name),
        "signal": maybe(checks.signal),
        "signals": maybe(checks.list_of(checks.signal)),
        "flags": maybe(checks.list_of(checks.name)),
        "events": maybe(checks.list_of(checks.name)),
    }
    return forms.get(member.kind, maybe(checks.word))


def row_lines(checks: Checks, rows: tuple[Member, ...]) -> str:
    key = "  {}: {},\n" if checks.script else '    "{}": {},\n'
    return "".join(key.format(member.json or member.name, of_member(checks, member)) for member in rows)


def folded(line: str, indent: str) -> str:
    """A line that is too long over several."""
    first, *more = re.split("(?<=,) ", line)
    texts = wrapped([first, *(f" {item}" for item in more)], 118, "", indent)
    return "".join(f"{text}\n" for text in texts)


def decision_names(form: Format) -> list[str]:
    return names(form.decisions)


def viewer_replies(form: Format) -> str:
    checks = Checks(True)
    rows = "".join(folded(f"  {reply.name}: {of_reply(checks, reply)},", "    ") for reply in form.shapes.replies)
    decision = f"{{ decision: {checks.one_of(decision_names(form))}, pass: isPassed }}"
    return (
        f"const DECISION = {decision};\n/**\n * The members of each reply, with their forms.\n *\n"
        " * @type {Map<string, Record<string, (value: any) => boolean>>}\n */\n"
        f"const REPLIES = new Map(Object.entries({{\n{rows}}}));\n"
    )


def viewer_rows(form: Format) -> str:
    return "".join(f"const {name.upper()} = {{\n{row_lines(Checks(True), rows)}}};\n" for name, rows in form.shapes.rows.items())


def viewer_python_replies(form: Format) -> str:
    checks = Checks(False)
    rows = "".join(folded(f'    "{reply.name}": {of_reply(checks, reply)},', " " * 8) for reply in form.shapes.replies)
    decision = f'{{"decision": {checks.one_of(decision_names(form))}, "pass": _is_passed}}'
    return (
        f"_DECISION: dict[str, Check] = {decision}\n"
        f"# the members of each reply\nREPLIES: dict[str, dict[str, Check]] = {{\n{rows}}}  # fmt: skip\n"
    )


def viewer_python_rows(form: Format) -> str:
    return "".join(
        f"_{name.upper()}: dict[str, Check] = {{\n{row_lines(Checks(False), rows)}}}\n" for name, rows in form.shapes.rows.items()
    )


# ---- the words of a line

IN_SCRIPT = {
    "word": "{}.{}",
    "status": "{}.word",
    "signal": "{}.number",
    "event": "{}.event",
    "flags": "joined({}.flags)",
    "signals": "numbers({}.{})",
    "events": "joined({}.events)",
    "handler": '{}.by ?? "none"',
    "decision": "decidedWords({})",
    "error": "errorWords({})",
}


def script_word(reply: Reply, part: Part) -> str:
    if part.field is None:
        return part.word
    value = IN_SCRIPT[part.field.kind].format("reply.at" if part.field.name in reply.at else "reply", part.field.name)
    return f"{part.key}=${{{value}}}" if part.key else f"${{{value}}}"


def in_texts(words: list[str], width: int) -> list[str]:
    """The words as texts of at most this width, each with its space."""
    texts = [words[0]]
    for word in words[1:]:
        if len(texts[-1]) + len(word) > width:
            texts[-1] += " "
            texts.append(word)
        else:
            texts[-1] += f" {word}"
    return texts


def is_list(reply: Reply) -> bool:
    return [field.kind for field in reply.fields] == ["list"]


def viewer_words(form: Format) -> str:
    rows = ""
    for reply in form.shapes.replies:
        if is_list(reply):
            rows += f'  {reply.name}: (reply) => ["{reply.name}", ...reply.{reply.fields[0].name}].join(" "),\n'
            continue
        texts = in_texts([reply.name, *(script_word(reply, part) for part in reply.parts)], 100)
        rows += f"  {reply.name}: ({'reply' if reply.fields else ''}) => " + "\n    + ".join(f"`{text}`" for text in texts) + ",\n"
    kind = "/** @type {Map<string, (reply: any) => string>} */\n"
    return f"{kind}const WORDS = new Map(Object.entries({{\n{rows}}}));\n"


# ---- the second model

MODEL_TYPES = {
    "word": "int",
    "status": "int",
    "signal": "int",
    "event": "bool",
    "flags": "Names",
    "signals": "Signals",
    "events": "Names",
    "handler": "int | None",
    "decision": "str",
    "error": "str",
    "list": "tuple[int, ...]",
}
MODEL_WORDS = {
    "word": "reply.{}",
    "status": "reply.{}",
    "signal": "reply.{}",
    "event": "event_in_words(reply.{})",
    "flags": "flags_in_words(reply.{})",
    "signals": "signals_in_words(reply.{})",
    "events": "events_in_words(reply.{})",
    "handler": "handler_in_words(reply.{})",
    "decision": "decision_in_words(reply)",
    "error": "error_in_words(reply.{})",
}
MODEL_MEMBERS = {
    "status": "**status(reply.{0})",
    "signal": "**signal(reply.{0})",
    "event": '"{0}": event_in_words(reply.{0})',
    "flags": '"{0}": ordered(reply.{0}, names.FLAGS)',
    "signals": '"{0}": signal_names(reply.{0})',
    "events": '"{0}": ordered(reply.{0}, names.EVENTS)',
    "handler": '"by": reply.{0}',
    "decision": "**decided(reply)",
    "error": "**error(reply.{0})",
}


def model_class(reply: Reply) -> str:
    text = ""
    for field in reply.fields:
        text += f"    {field.name}: {MODEL_TYPES[field.kind]}\n" + ("    passed: int\n" if field.kind == "decision" else "")
    return f"class {reply.name.title()}(NamedTuple):\n{text or '    pass' + chr(10)}\n\n"


def model_classes(form: Format) -> str:
    classes = "".join(model_class(reply) for reply in form.shapes.replies)
    union = " | ".join(reply.name.title() for reply in form.shapes.replies)
    return f"{classes}Reply: TypeAlias = (\n    {union}\n)\n\n\n"


def model_word(part: Part) -> str:
    if part.field is None:
        return part.word
    value = MODEL_WORDS[part.field.kind].format(part.field.name)
    return f"{part.key}={{{value}}}" if part.key else f"{{{value}}}"


def model_said(reply: Reply) -> str:
    """An expression for the words of a reply."""
    if is_list(reply):
        return f'" ".join(["{reply.name}", *map(str, reply.{reply.fields[0].name})])'
    texts = in_texts([reply.name, *(model_word(part) for part in reply.parts)], 100)
    if len(texts) == 1:
        return f'{"f" if reply.fields else ""}"{texts[0]}"'
    return "(\n" + "".join(f'                f"{text}"\n' for text in texts) + "            )"


def model_words(form: Format) -> str:
    cases = "".join(
        f"        case {reply.name.title()}():\n            return {model_said(reply)}\n" for reply in form.shapes.replies
    )
    return f"def in_words(reply: Reply) -> str:\n    match reply:\n{cases}\n\n"


def model_member(field: Field) -> str:
    return MODEL_MEMBERS.get(field.kind, '"{0}": reply.{0}').format(field.name)


def in_lines(before: str, items: list[str], indent: str) -> str:
    """A dictionary as black lays it out."""
    short = f"{indent}{before}{{{', '.join(items)}}}\n"
    if len(short) <= 133:
        return short
    return f"{indent}{before}{{\n" + "".join(f"{indent}    {item},\n" for item in items) + f"{indent}}}\n"


def model_members(form: Format) -> str:
    text = ""
    for reply in form.shapes.replies:
        at = [model_member(field) for field in reply.fields if field.name in reply.at]
        items = [model_member(field) for field in reply.fields if field.name not in reply.at]
        text += f"        case {reply.name.title()}():\n"
        if at:
            place = next(place for place, field in enumerate(reply.fields) if field.name in reply.at)
            items.insert(place, '"at": at')
            text += in_lines("at = ", at, " " * 12)
        text += in_lines("return ", items, " " * 12)
    return f"def members_of(reply: Reply) -> dict[str, object]:\n    match reply:\n{text}\n\n"
