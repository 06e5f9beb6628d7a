"""Replies in the clients in C and Rust: their types, and what reads them."""

from __future__ import annotations

from .constants import as_it_is, lines
from .objects import is_list
from .replies import Field, Part, Reply
from .tables import Format

# ---- C

C_TYPES = {"pid": "th_pid", "lwp": "th_lwpid", "child": "th_pid", "code": "unsigned"}
C_NAMES = {"ok": "DONE"}
TOLD = {
    "flags": "flags_of(told->{})",
    "handler": "told->has_handler ? (int)told->{} : -1",
    "error": "thp_errno_numbered(told->{})",
}


def c_name(reply: Reply) -> str:
    return C_NAMES.get(reply.name, reply.name.upper())


def in_lines(form: Format) -> list[Field]:
    """The fields that lines have."""
    used = {field.name for reply in form.shapes.replies for field in reply.fields}
    return [field for field in form.shapes.fields if field.name in used]


def is_unsigned(field: Field) -> bool:
    return C_TYPES.get(field.name) == "unsigned"


def c_kinds(form: Format) -> str:
    kinds = [f"THP_{c_name(reply)}" for reply in form.shapes.replies]
    text = "".join(f"    {kind},\n" for kind in kinds)
    return f"enum thp_kind {{ /* up to THP_ERROR in the order of tracehost.h */\n{text}    THP_REFUSED\n}};\n"


def c_reply(form: Format) -> str:
    text = "".join(
        f"    {'unsigned' if is_unsigned(field) else 'int'} {field.name};\n" for field in in_lines(form) if field.kind != "list"
    ).replace("    int decision;\n", "    int decision, pass;\n")
    return (
        "/* A reply has the fields of its kind; the others are 0, and -1 is no handler. The error has the host system's number. */\n"
        f"struct thp_reply {{\n    enum thp_kind kind;\n{text}    size_t count; /* of a list */\n}};\n"
    )


def c_taken(form: Format) -> str:
    text = ""
    for field in in_lines(form):
        if field.kind == "list":
            continue
        plain = "told->{}" if is_unsigned(field) else "(int)told->{}"
        text += f"    reply->{field.name} = {TOLD.get(field.kind, plain).format(field.members[-1 if field.kind == 'handler' else 0])};\n"
        if field.kind == "decision":
            text += "    reply->pass = (int)told->pass;\n"
    return f"{text}    reply->count = told->count;\n"


def reply_named(form: Format, name: str) -> Reply:
    return next(reply for reply in form.shapes.replies if reply.name == name)


def c_type(field: Field) -> str:
    return "th_sigset" if field.kind == "signals" else C_TYPES.get(field.name, "int")


def header_info(form: Format) -> str:
    fields = reply_named(form, "info").fields
    text = "".join(f"    {c_type(field)} {field.freebsd};\n" for field in fields)
    return f"struct th_lwpinfo {{\n{text}}};\n"


def header_handled(form: Format) -> str:
    text = ""
    for field in reply_named(form, "handled").fields[1:]:
        if field.kind == "handler":
            text += "    int handler; /* which of the caller's handlers decided, from 0; -1 if all declined */\n"
        elif field.kind == "decision":
            text += "    enum th_decision decision;\n    int pass;\n"
        else:
            text += f"    {c_type(field)} {field.name};\n"
    stopped = "    int stopped; /* 1: a trace stop, and all that follows holds; 0: only a status */\n"
    return f"struct th_handled {{\n{stopped}{text}}};\n"


def c_info(form: Format) -> str:
    items = [
        f"(th_sigset)reply.{field.name}" if field.kind == "signals" else f"reply.{field.name}"
        for field in reply_named(form, "info").fields
    ]
    return as_it_is(f"    struct th_lwpinfo info = {{\n{lines(items, 116, '        ', end='')}    }};\n", "    ")


def c_handled(form: Format) -> str:
    items = [".stopped = reply.kind == THP_HANDLED"]
    for field in reply_named(form, "handled").fields[1:]:
        cast = "(enum th_decision)" if field.kind == "decision" else ""
        items.append(f".{field.name} = {cast}reply.{field.name}")
    text = lines([*items, ".pass = reply.pass"], 116, " " * 12, end="")
    return as_it_is(f"        struct th_handled told = {{\n{text}        }};\n", "        ")


# ---- Rust

RUST_TYPES = {
    "word": "u32",
    "status": "WaitStatus",
    "signal": "Signal",
    "event": "bool",
    "flags": "StopFlags",
    "signals": "SignalSet",
    "events": "EventMask",
    "handler": "Option<u32>",
    "decision": "Decision",
    "list": "Vec<u32>",
}
RUST_RAW = {
    "word": "raw.{}",
    "status": "status(raw)",
    "signal": "signal(raw)",
    "event": "raw.{} == 1",
    "flags": "StopFlags(raw.{})",
    "signals": "SignalSet(raw.{})",
    "events": "EventMask(raw.{})",
    "handler": "(raw.has_handler == 1).then_some(raw.handler)",
    "decision": 'Decision::from_numbers(raw.decision, raw.pass).expect("a decision")',
    "list": "numbers()",
}
RUST_SHOWN = {
    "status": "{}.word()",
    "signal": "{}.number()",
    "event": 'if {} {{ "SIGNAL" }} else {{ "NONE" }}',
    "handler": '{}.map_or("none".to_owned(), |index| index.to_string())',
}
RUST_DOCS = {
    "pid": "The process.",
    "lwp": "The LWP.",
    "status": "What a wait reports of it.",
    "signal": "The signal of the stop.",
    "event": "Whether this LWP reports the stop: PL_EVENT_SIGNAL; else `pl_event` is PL_EVENT_NONE.",
    "flags": "What the stop is about.",
    "mask": "`pl_sigmask`: the signals that it blocks.",
    "pending": "`pl_siglist`: the signals that are pending for it.",
    "child": "The new process of a fork, or 0.",
    "code": "The number of the system call, or 0.",
    "handler": "Which of the caller's handlers decided, from 0; `None` if all declined.",
    "decision": "What was done.",
}


def answers(form: Format) -> list[Reply]:
    """The replies that aren't errors."""
    return [reply for reply in form.shapes.replies if reply.name not in ("held", "error")]


def variant(reply: Reply) -> str:
    return "Done" if reply.name == "ok" else reply.name.title()


def rust_name(field: Field) -> str:
    return field.rust or field.name


def rust_member(reply: Reply, field: Field, indent: str, public: str = "") -> str:
    doc = RUST_DOCS.get(field.name, field.about)
    if reply.freebsd == "first" and not doc.startswith("`"):
        doc = f"`{field.freebsd}`: {doc[0].lower()}{doc[1:]}"
    return f"{indent}/// {doc}\n{indent}{public}{rust_name(field)}: {RUST_TYPES[field.kind]},\n"


def rust_written(reply: Reply, prefix: str) -> str:
    """The statement that prints a reply's words."""
    if not reply.fields:
        return f'f.write_str("{reply.name}")'
    words, values = [reply.name], []
    for part in reply.parts:
        if part.field is None:
            words.append(part.word)
            continue
        name = prefix + rust_name(part.field)
        is_inline = name.isidentifier() and part.field.kind not in RUST_SHOWN
        values += [] if is_inline else [RUST_SHOWN.get(part.field.kind, "{}").format(name)]
        place = f"{{{name}}}" if is_inline else "{}"
        words.append(f"{part.key}={place}" if part.key else place)
    text = f'f, "{" ".join(words)}"'
    short = f"write!({', '.join([text, *values])})"
    if len(short) <= 100:
        return short
    return f"write!(\n            {text},\n{lines(values, 100, ' ' * 12, end='')}        )"


def rust_struct(reply: Reply) -> str:
    members = "".join(rust_member(reply, field, "    ", "pub ") for field in reply.fields)
    return (
        f"/// {reply.about.replace('``', '`')}\n#[derive(Clone, Copy, Debug, PartialEq, Eq, Hash)]\n"
        f"pub struct {reply.rust} {{\n{members}}}\n\n"
        f"impl fmt::Display for {reply.rust} {{\n    #[rustfmt::skip]\n"
        "    fn fmt(&self, f: &mut fmt::Formatter<'_>) -> fmt::Result {\n"
        f"        {rust_written(reply, 'self.')}\n    }}\n}}\n"
    )


def rust_variant(reply: Reply) -> str:
    doc = f"    /// {reply.about.replace('``', '`')}\n    {variant(reply)}"
    if reply.rust:
        return f"{doc}({reply.rust}),\n"
    if len(reply.fields) < 2:
        return doc + "".join(f"({RUST_TYPES[field.kind]})" for field in reply.fields) + ",\n"
    return f"{doc} {{\n{''.join(rust_member(reply, field, '        ') for field in reply.fields)}    }},\n"


def rust_replies(form: Format) -> str:
    structs = "\n".join(rust_struct(reply) for reply in answers(form) if reply.rust)
    variants = "".join(map(rust_variant, answers(form)))
    return (
        f'{structs}\n/// The reply to a call. It is printed in the words of a line: docs/FORMAT.md, "The output".\n'
        f"#[derive(Clone, Debug, PartialEq, Eq, Hash)]\npub enum Reply {{\n{variants}}}\n"
    )


def rust_pattern(reply: Reply) -> str:
    fields = ", ".join(map(rust_name, reply.fields))
    if reply.rust:
        return f"{variant(reply)}({reply.name})"
    if not reply.fields:
        return variant(reply)
    return f"{variant(reply)}({fields})" if len(reply.fields) == 1 else f"{variant(reply)} {{ {fields} }}"


def rust_display(form: Format) -> str:
    arms = ""
    for reply in answers(form):
        written = f"{reply.name}.fmt(f)" if reply.rust else rust_written(reply, "")
        if is_list(reply):
            written = f'listed(f, "{reply.name}", {reply.fields[0].name})'
        arms += f"            Reply::{rust_pattern(reply)} => {written},\n"
    return (
        "impl fmt::Display for Reply {\n    #[rustfmt::skip]\n    fn fmt(&self, f: &mut fmt::Formatter<'_>) -> fmt::Result {\n"
        f"        match self {{\n{arms}        }}\n    }}\n}}\n"
    )


def rust_value(field: Field) -> str:
    return RUST_RAW[field.kind].format(field.members[0])


def rust_readers(form: Format) -> str:
    text = ""
    for reply in answers(form):
        if reply.rust:
            items = "".join(f"        {rust_name(field)}: {rust_value(field)},\n" for field in reply.fields)
            head = f"#[rustfmt::skip]\npub(crate) fn {reply.name}(raw: &sys::Reply) -> {reply.rust} {{\n"
            text += f"{head}    {reply.rust} {{\n{items}    }}\n}}\n\n"
    return f"{text}{rust_reply(form)}"


def rust_reply(form: Format) -> str:
    arms = ""
    for reply in answers(form):
        values = [rust_value(field) for field in reply.fields]
        made = f"({', '.join(values)})" if reply.fields else ""
        if reply.rust:
            made = f"({reply.name}(raw))"
        elif len(reply.fields) > 1:
            made = f" {{ {', '.join(f'{rust_name(field)}: {rust_value(field)}' for field in reply.fields)} }}"
        arms += f"        {reply.number} => Reply::{variant(reply)}{made},\n"
    return (
        "/// The reply that has these fields, and for a list these numbers.\n#[rustfmt::skip]\n"
        "pub(crate) fn reply(raw: &sys::Reply, numbers: impl FnOnce() -> Vec<u32>) -> Reply {\n    match raw.kind {\n"
        f'{arms}        kind => unreachable!("the library has no reply {{kind}}"),\n    }}\n}}\n'
    )


def rust_errors(form: Format) -> str:
    return "".join(f"const {name.upper()}: u32 = {reply_named(form, name).number};\n" for name in ("held", "error"))
