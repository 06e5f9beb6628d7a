"""The tables of the clients: the library's header, the clients in C, Python and Rust, and the viewer."""

from __future__ import annotations

import dataclasses
import json
import pathlib
import re
import subprocess
import textwrap

from . import constants
from .tables import Entry, Format, by_number, wrapped


def enumerators(entries: list[Entry]) -> str:
    """The lines of an enum of include/tracehost.h."""
    found = [f"TRACEHOST_{entry.name} = {entry.bit}" for entry in entries]
    items = [f"{item}, " for item in found[:-1]] + found[-1:]
    return "".join(line.rstrip() + "\n" for line in wrapped(items, 116, "    ", "    "))


def library_enum(about: str, entries: list[Entry]) -> str:
    return f"enum {{ /* {about} */\n{enumerators(entries)}}};\n"


def library_names(form: Format) -> str:
    """The requests, events and flags of include/tracehost.h."""
    single = [event for event in form.events if not event.both]
    flags = "flags of a stop: the model's own bits, and not those of pl_flags"
    return (
        library_enum("requests of ptrace(2), by their numbers in <sys/ptrace.h>", by_number(form.requests))
        + library_enum("events: the data of PT_SET_EVENT_MASK", single)
        + library_enum(flags, list(form.stop_flags))
        + library_enum("dispositions", [dataclasses.replace(action, name=action.name.upper()) for action in form.actions])
        + library_enum("options of wait4; no wait blocks", list(form.options))
        + library_enum("decisions of a rule", [dataclasses.replace(one, name=one.name.upper()) for one in form.decisions])
        + constants.library_limits(form)
    )


def version() -> str:
    """The program's version."""
    tool = pathlib.Path(__file__).resolve().parent.parent / "version"
    return subprocess.run([tool], stdout=subprocess.PIPE, text=True, check=True).stdout.strip()


def library_version(form: Format) -> str:
    """The version in include/tracehost.h."""
    return f'#define TRACEHOST_VERSION "{version()}"\n'


def pkg_config_version(form: Format) -> str:
    """The version in include/tracehost.pc."""
    return f"Version: {version()}\n"


def command_version(form: Format) -> str:
    """The version of a command in Python."""
    return f'VERSION = "{version()}"\n'


def package_version(form: Format) -> str:
    """The version of the client in Python."""
    return f'__version__ = "{version()}"\n'


# ---- the client in C


def defines(entries: list[Entry]) -> str:
    return "".join(f"#define TH_{entry.name} {entry.number}\n" for entry in entries)


def bits(entries: tuple[Entry, ...]) -> str:
    lines = []
    for entry in entries:
        if entry.both:
            lines.append(f"#define TH_{entry.name} ({' | '.join('TH_' + name for name in entry.both)})\n")
        else:
            lines.append(f"#define TH_{entry.name} 0x{entry.number:04x}\n")
    return "".join(lines)


def header_requests(form: Format) -> str:
    return defines(by_number(form.requests))


def header_events(form: Format) -> str:
    return bits(form.events)


def header_flags(form: Format) -> str:
    return bits(form.stop_flags)


def c_table(name: str, rows: list[tuple[str, str]]) -> str:
    lines = "".join(f'    {{"{text}", {value}}},\n' for text, value in rows)
    return f"static const struct thp_name {name}[] = {{\n{lines}}};\n"


def same_names(name: str, entries: list[Entry]) -> str:
    return c_table(name, [(entry.name, f"TH_{entry.name}") for entry in entries])


def c_names(form: Format) -> str:
    actions = {"default": "TH_SIG_DFL", "ignore": "TH_SIG_IGN", "catch": "TH_SIG_CATCH"}
    return "\n".join(
        [
            same_names("REQUESTS", by_number(form.requests)),
            same_names("EVENTS", [event for event in form.events if not event.both]),
            same_names("STOP_FLAGS", list(form.stop_flags)),
            same_names("OPTIONS", list(form.options)),
            c_table("ACTIONS", [(action.name, actions[action.name]) for action in form.actions]),
            c_table("DECISIONS", [(one.name, f"TH_{one.name.upper()}") for one in form.decisions]),
            c_table("CALLS", [(call.name, f"TH_CALL_{call.name.upper()}") for call in form.calls]),
        ]
    )


def c_cases(entries: list[Entry], prefix: str, indent: str) -> str:
    return "".join(f"{indent}case {prefix}{entry.name}:\n" for entry in entries)


def c_without_data(form: Format) -> str:
    """The requests that are answered by a value, and whose data means nothing."""
    found = [entry for entry in by_number(form.requests) if entry.data == "ignored" and entry.reply_names != ["ok"]]
    return c_cases(found, "TH_", "    ")


def c_for_a_number(form: Format) -> str:
    return c_cases([entry for entry in by_number(form.requests) if entry.reply_names == ["number"]], "TH_", "    ")


def broker_requests(form: Format) -> str:
    rows = "".join(f'\t[TRACEHOST_{entry.name}] = "{entry.name}",\n' for entry in by_number(form.requests))
    return f"static const char *const requests[] = {{\n{rows}}};\n"


def runtime_requests(form: Format) -> str:
    """The requests that take numbers only: no address of the debugger's."""
    plain = [entry for entry in form.requests if "mask" not in entry.needed and entry.reply_names in (["ok"], ["number"])]
    return c_cases(by_number(tuple(plain)), "", "\t")


# ---- the client in Python


def python_overloads(form: Format) -> str:
    """The types of `Process.ptrace`."""
    types = {"mask": "EventMask", "info": "LwpInfo", "number": "int", "lwps": "tuple[int, ...]"}
    text = ""
    for entry in form.requests:
        if (returned := types.get(entry.reply_names[0])) is not None:
            data = "data: int" if entry.data == "count" else "data: int = 0"
            text += f"    @overload\n    def ptrace(self, request: Literal[Request.{entry.name}], target: int, {data}) -> {returned}: ...\n"
    return text


def python_class(head: str, about: str, members: list[str]) -> str:
    lines = "".join(f"    {member}\n" for member in members)
    return f'class {head}:\n    """{about}"""\n\n{lines}'


def python_bits(entries: tuple[Entry, ...]) -> list[str]:
    return [
        f"{entry.name} = {' | '.join(entry.both)}" if entry.both else f"{entry.name} = 0x{entry.number:04X}" for entry in entries
    ]


def python_requests(form: Format) -> str:
    members = [f"{entry.name} = {entry.number}" for entry in by_number(form.requests)]
    made = python_class("Request(enum.IntEnum)", "The requests of ptrace(2), with the numbers of <sys/ptrace.h>.", members)
    return f"{made}\n\n"


def python_flags(form: Format) -> str:
    events = python_class(
        "EventMask(enum.IntFlag)",
        "The events that a traced process stops for, with the bits of <sys/ptrace.h>.",
        python_bits(form.events),
    )
    flags = python_class(
        "StopFlag(enum.IntFlag)",
        "What a stop is about: ``pl_flags``, with the bits of <sys/ptrace.h>.",
        python_bits(form.stop_flags),
    )
    return f"{events}\n\n{flags}\n\n"


def python_names(form: Format) -> str:
    actions = [f'{action.client} = "{action.name}"' for action in form.actions]
    calls = [f'{call.name.upper()} = "{call.name}"' for call in form.calls]
    decisions = [f'{decision.name.upper()} = "{decision.name}"' for decision in form.decisions]
    return "".join(
        f"{made}\n\n"
        for made in [
            python_class(
                "Action(enum.Enum)",
                "What a process does with a signal, as ``sa_handler`` of sigaction(2) says it.",
                actions,
            ),
            python_class("Call(enum.Enum)", "A system call that an LWP enters.", calls),
            python_class("Decision(enum.Enum)", "What a stop handler does with a stop.", decisions),
        ]
    )


def python_ops(form: Format) -> str:
    names = ", ".join(f'"{op.name}"' for op in form.ops if "caller" in op.needed)
    return f"CALLER_OPS = ({names})\n"


def python_usage(form: Format) -> str:
    """The forms of the ops at the prompt, two in a line."""
    forms = [form for op in form.ops for form in op.usage]
    width = max(len(left) for left in forms[::2]) + 2
    lines = [f"  {left:{width}}{right}".rstrip() for left, right in zip(forms[::2], [*forms[1::2], ""])]
    return '_STEPS = """\\\n' + "\n".join(lines) + '"""\n'


def python_help(form: Format) -> str:
    """The help of the prompt for each name that has one."""
    lines = []
    for entry in [*form.ops, *form.acts, *form.calls, *form.requests]:
        text = f'f"{entry.help} {{_PASS}}"' if entry.data == "signal" else f'"{entry.help}"'
        if entry.help:
            lines.append(f'    "{entry.name}": {text},\n')
    return f"_NAMES = {{\n{''.join(lines)}}}\n"


# ---- the client in Rust


@dataclasses.dataclass(frozen=True)
class Taken:
    """What a request takes: its type, the name of a value, and the number that the library takes for it."""

    kind: str = ""
    name: str = ""
    number: str = "0"


TAKEN = {
    "signal": Taken("(Option<Signal>)", "(signal)", "passed(signal)"),
    "switch": Taken("(bool)", "(set)", "set.into()"),
    "count": Taken("(u32)", "(most)", "most"),
}
MASK = Taken("(EventMask)", "(mask)", "mask.bits()")


def taken(request: Entry) -> Taken:
    return MASK if "mask" in request.needed else TAKEN.get(request.data or "", Taken())


def rust_about(request: Entry) -> str:
    """What a request does, without the words of the prompt."""
    text = re.sub("^ptrace PID [^:]*: ", "", request.help)
    text = text.replace(" if DATA is 0", "").replace("the first DATA", "at most so many")
    if text[1].islower():
        text = text[0].lower() + text[1:]
    if request.data == "signal":
        text += " It may be passed a signal."
    reply = request.reply_names[0].title()
    return text if reply == "Ok" else f"{text} Answered by [`Reply::{reply}`](crate::Reply::{reply})."


def rust_requests(form: Format) -> str:
    """The requests of ptrace(2), and their numbers."""
    variants, arms = "", ""
    for request in form.requests:
        lines = textwrap.wrap(f"{request.name}: {rust_about(request)}", 112)
        variants += "".join(f"    /// {line}\n" for line in lines) + f"    {request.variant}{taken(request).kind},\n"
    for request in by_number(form.requests):
        data = taken(request)
        arms += f"            Request::{request.variant}{data.name} => ({request.number}, {data.number}),\n"
    return (
        "/// A request of ptrace(2), with its data.\n"
        "#[derive(Clone, Copy, Debug, PartialEq, Eq, Hash)]\n"
        f"pub enum Request {{\n{variants}}}\n\n"
        "impl Request {\n"
        "    /// The number in FreeBSD's `<sys/ptrace.h>`, and the data.\n"
        "    pub(crate) fn numbers(self) -> (u32, u32) {\n"
        f"        match self {{\n{arms}        }}\n    }}\n}}\n"
    )


# ---- the viewer


def viewer_map(name: str, about: str, rows: list[tuple[str, list[str]]]) -> str:
    items = [f"{key}: {json.dumps(values)}, " for key, values in rows]
    lines = "".join(line.rstrip() + "\n" for line in wrapped(items, 120, "  ", "  "))
    return f"/** {about} */\nconst {name} = new Map(Object.entries({{\n{lines}}}));\n"


def viewer_python_map(name: str, about: str, rows: list[tuple[str, list[str]]]) -> str:
    items = [f"{json.dumps(key)}: ({''.join(json.dumps(value) + ', ' for value in values).rstrip()}), " for key, values in rows]
    lines = "".join(line.rstrip() + "\n" for line in wrapped(items, 120, "    ", "    "))
    return f"# {about}\n{name}: dict[str, tuple[str, ...]] = {{\n{lines}}}  # fmt: skip\n"


def viewer_python_ops(form: Format) -> str:
    """The replies of each op, and its keys."""
    return (
        viewer_python_map(
            "ANSWERS", "the replies of each op, beside error and held", [(op.name, op.reply_names) for op in form.ops]
        )
        + viewer_python_map(
            "NEEDED", "the keys that a step of each op has, beside user and op", [(op.name, op.needed) for op in form.ops]
        )
        + viewer_python_map("NEEDED_BY_ACT", "the keys that an act has", [(act.name, act.needed) for act in form.acts])
    )


def viewer_ops(form: Format) -> str:
    """The replies of each op, and its keys."""
    answers = [(op.name, op.reply_names) for op in form.ops]
    needed = [(op.name, op.needed) for op in form.ops]
    by_act = [(act.name, act.needed) for act in form.acts]
    return (
        viewer_map("ANSWERS", "The replies of each op, beside `error` and `held`.", answers)
        + viewer_map("NEEDED", "The keys that a step of each op has, beside `user` and `op`.", needed)
        + viewer_map("NEEDED_BY_ACT", "The keys that an act has.", by_act)
    )
