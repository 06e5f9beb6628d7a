"""Replies and rows in the library's header and in the client in Python: their types, and what reads them."""

from __future__ import annotations

from .constants import quoted
from .replies import Field, Member, Reply
from .tables import Format, wrapped

WIDTH = 133

# ---- the library's header


def declared(members: dict[str, str]) -> str:
    return "".join(f"    uint32_t {name};{f' /* {about} */' if about else ''}\n" for name, about in members.items())


def members_of(reply: Reply) -> list[str]:
    """Its members of struct tracehost_reply."""
    return [member for field in reply.fields for member in field.members] + list(reply.more)


def library_reply(form: Format) -> str:
    return f"typedef struct tracehost_reply {{\n    uint32_t kind;\n{declared(form.shapes.members)}}} tracehost_reply;\n"


def library_kinds(form: Format) -> str:
    """The kinds of replies, each with its members."""
    *most, last = form.shapes.replies
    text = ""
    for reply in form.shapes.replies:
        item = f"TRACEHOST_{reply.name.upper()} = {reply.number}{'' if reply is last else ','}"
        about = f" /* {' '.join(members_of(reply))} */" if reply.fields else ""
        text += f"    {item:24}{about}".rstrip() + "\n"
    return f"enum {{ /* kinds of replies, each with its members; docs/FORMAT.md has their meaning */\n{text}}};\n"


def in_struct(rows: tuple[Member, ...]) -> list[Member]:
    return [row for row in rows if row.only != "json"]


def library_rows(form: Format) -> str:
    return "".join(
        f"typedef struct tracehost_{name} {{\n{declared({row.name: row.about for row in in_struct(rows)})}}} tracehost_{name};\n"
        for name, rows in form.shapes.rows.items()
    )


# ---- the structs in Python and in Rust


def structs(form: Format) -> dict[str, list[str]]:
    found = {"reply": ["kind", *form.shapes.members]}
    return found | {name: [row.name for row in in_struct(rows)] for name, rows in form.shapes.rows.items()}


def words_call(named: list[str]) -> str:
    """The members as black lays them out."""
    short = f'    _fields_ = Words.fields("{" ".join(named)}")\n'
    if len(short) <= WIDTH:
        return short
    first, *more = wrapped([named[0], *(f" {name}" for name in named[1:])], 112, "", " ")
    return "    _fields_ = Words.fields(\n" + "".join(f'        "{text}"\n' for text in (first, *more)) + "    )\n"


def python_structs(form: Format) -> str:
    classes = []
    for (name, members), head in zip(structs(form).items(), ("Reply", "CProcess", "CLwp"), strict=True):
        named = [PYTHON_MEMBER.get(member, member) for member in members]
        annotated = "".join(f"    {member}: int\n" for member in named)
        classes.append(f'class {head}(Words):\n    """``struct tracehost_{name}``."""\n\n{annotated}{words_call(named)}\n\n')
    return "".join(classes)


def rust_structs(form: Format) -> str:
    return "\n".join(
        f"record! {{\n    /// `tracehost_{name}`\n    {name.title()} {{\n"
        + "".join(f"        {member},\n" for member in members)
        + "    }\n}\n"
        for name, members in structs(form).items()
    )


# ---- the client in Python

PYTHON_MEMBER = {"pass": "passed"}
PYTHON_TYPES = {
    "word": "int",
    "status": "int",
    "signal": "Signal",
    "event": "LwpEvent",
    "flags": "StopFlag",
    "signals": "frozenset[Signal]",
    "events": "EventMask",
    "handler": "int | None",
    "decision": "Decision",
    "list": "tuple[int, ...]",
    "error": "NoReturn",
}
# what a field is by its members of the struct
FROM_STRUCT = {
    "word": "reply.{}",
    "status": "status_of(reply.{})",
    "signal": "Signal(reply.{})",
    "event": "LwpEvent(reply.{})",
    "flags": "flags_of(reply.{})",
    "signals": "signals_of(reply.{})",
    "events": "events_of(reply.{})",
    "handler": "reply.handler if reply.has_handler else None",
    "decision": "*_decision(reply)",
    "error": "raise_number(reply.{})",
}


def python_names(reply: Reply, field: Field) -> list[str]:
    """The field's name in the reply's class, and other names of it."""
    own = [field.python, field.name, "lwpid"] if field.python else [field.name]
    if reply.freebsd and field.freebsd:
        return [field.freebsd, *own] if reply.freebsd == "first" else [*own, field.freebsd]
    return own


def python_class(reply: Reply) -> str:
    text, others = f'class {reply.python}(NamedTuple):\n    """{reply.about}"""\n\n', ""
    for field in reply.fields:
        name, *more = python_names(reply, field)
        text += f"    {name}: {PYTHON_TYPES[field.kind]}\n"
        if field.kind == "decision":
            text += "    pass_signal: int | None\n"
        if field.doc:
            text += f'    """{field.doc}"""\n'
        for other in more:
            others += f"\n    @property\n    def {other}(self) -> {PYTHON_TYPES[field.kind]}:\n"
            others += f'        """As `{name}`."""\n        return self.{name}\n'
    return f"{text}{others}\n\n"


def python_classes(form: Format) -> str:
    return "".join(python_class(reply) for reply in form.shapes.replies if reply.python)


def made(reply: Reply) -> str:
    """The class of its values, if they have more than one field or a class of their own."""
    return reply.python or {"status": "Waited"}.get(reply.name, "")


def struct_reader(reply: Reply) -> str:
    """The function that reads the library's struct."""
    values = [FROM_STRUCT[field.kind].format(field.members[0]) for field in reply.fields]
    kind = made(reply) or PYTHON_TYPES[reply.fields[0].kind]
    head = f"def _read_{reply.name}(reply: Reply) -> {kind}:\n"
    if kind == "NoReturn":
        return f"{head}    {values[0]}\n\n\n"
    one = values[0] + "," * (len(values) == 1)
    short = f"    return _new({made(reply)}, ({', '.join([one, *values[1:]])}))\n" if made(reply) else f"    return {values[0]}\n"
    if len(short) <= WIDTH:
        return f"{head}{short}\n\n"
    return f"{head}    return {made(reply)}(\n" + "".join(f"        {value},\n" for value in values) + "    )\n\n\n"


def is_list(reply: Reply) -> bool:
    return [field.kind for field in reply.fields] == ["list"]


def python_struct_readers(form: Format) -> str:
    return "".join(struct_reader(reply) for reply in form.shapes.replies if reply.fields and not is_list(reply))


def python_table(form: Format) -> str:
    """For each kind of reply, whether its step may have changed something, and its reader."""

    def reader(reply: Reply) -> str:
        if reply.name == "held":
            return "_held"
        return "numbers" if is_list(reply) else f"_read_{reply.name}" if reply.fields else "_nothing"

    return "".join(f"            ({reply.changes}, {reader(reply)}),\n" for reply in form.shapes.replies)


def python_changes(form: Format) -> str:
    names = ", ".join(quoted(reply.name for reply in form.shapes.replies if reply.changes))
    return f"_CHANGES = frozenset(({names}))\n"


# ---- rows in Python

ROW_TYPES = {
    "number": "Optional[int]",
    "flag": "bool",
    "call": "Optional[Call]",
    "status": "Optional[int]",
    "signal": "Optional[Signal]",
    "signals": "frozenset[Signal]",
    "flags": "StopFlag",
    "events": "EventMask",
}
FROM_ROW = {
    "number": "row.{} or None",
    "flag": "bool(row.{})",
    "call": "CALLS[row.{}]",
    "status": "status_of(row.{})",
    "signal": "Signal(row.{0}) if row.{0} else None",
    "signals": "signals_of(row.{})",
    "flags": "flags_of(row.{})",
    "events": "events_of(row.{})",
}


def row_type(row: Member) -> str:
    if row.kind == "choice":
        return f"Optional[{row.python}]" if "" in row.choices else row.python
    return ROW_TYPES.get(row.kind, "int")


def row_value(row: Member, rows: list[Member]) -> str:
    if row.kind == "choice":
        value = f"{row.python}(row.{row.name})"
        return f"{value} if row.{row.name} else None" if "" in row.choices else value
    value = FROM_ROW.get(row.kind, "row.{}").format(row.name)
    if row.when:
        chosen = next(one for one in rows if row.when in one.choices)
        value += f" if row.{chosen.name} == {chosen.python}.{row.when.upper()}.value else None"
    return value


def row_class(name: str, rows: list[Member]) -> str:
    about = {"process": "A process of the user, a zombie too.", "lwp": "An LWP of the user."}[name]
    text, others = f'class {name.title()}Row(NamedTuple):\n    """{about}"""\n\n', ""
    for row in rows:
        text += f"    {row.json or row.name}: {row_type(row)}\n" + (f'    """{row.doc}"""\n' if row.doc else "")
        for other in row.others:
            others += f"\n    @property\n    def {other}(self) -> {row_type(row)}:\n"
            others += f'        """As `{row.name}`."""\n        return self.{row.name}\n'
    return f"{text}{others}\n\n"


def python_choices(form: Format) -> str:
    text = ""
    for row in (row for rows in form.shapes.rows.values() for row in rows if row.python):
        about = "The stop that an LWP meets at its next turn." if "" in row.choices else ""
        about = about or f"What {'a process' if row.name == 'state' else 'an LWP'} is in."
        members = "".join(f"    {choice.upper()} = {number}\n" for number, choice in enumerate(row.choices) if choice)
        text += f'class {row.python}(enum.Enum):\n    """{about}"""\n\n{members}\n\n'
    return text


def python_rows(form: Format) -> str:
    text = python_choices(form)
    for name, all_rows in form.shapes.rows.items():
        rows = in_struct(all_rows)
        values = "".join(f"        {row_value(row, rows)},\n" for row in rows)
        text += row_class(name, rows)
        text += f"def {name}_row(row: C{name.title()}) -> {name.title()}Row:\n    return {name.title()}Row(\n{values}    )\n\n\n"
    return text
