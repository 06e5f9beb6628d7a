"""Limits, signals, errors, flags and classes of requests, in each language."""

from __future__ import annotations

from collections.abc import Iterable

from .tables import Entry, Format, by_number, wrapped


def lines(items: Iterable[str], width: int, indent: str, between: str = ", ", end: str = ",") -> str:
    """Items in lines that are as long as fits, with `end` after the last one."""
    each = list(items)
    texts = [f"{item}{between}" for item in each[:-1]] + [each[-1] + end]
    return "".join(line.rstrip() + "\n" for line in wrapped(texts, width, indent, indent))


def quoted(names: Iterable[str]) -> list[str]:
    return [f'"{name}"' for name in names]


def names(entries: Iterable[Entry]) -> list[str]:
    return [entry.name for entry in entries]


def events(form: Format) -> list[Entry]:
    """The events of one bit, by their bits."""
    return [event for event in form.events if not event.both]


def signals(form: Format) -> dict[str, int]:
    return {name: number for number, name in enumerate(form.signals, 1)}


# ---- C


def c_enum(about: str, items: dict[str, int], prefix: str, indent: str = "    ") -> str:
    text = lines((f"{prefix}{name} = {number}" for name, number in items.items()), 116, indent, end="")
    return f"enum {{ /* {about} */\n{text}}};\n"


def library_limits(form: Format) -> str:
    return c_enum("limits, and first and last numbers", form.numbers, "TRACEHOST_")


def library_acts(form: Format) -> str:
    acts = {act.client or act.name.upper(): act.bit for act in by_number(form.acts)}
    calls = {call.name.upper(): call.bit for call in by_number(form.calls)}
    about = "acts of an LWP; `argument` is RAISE's signal, and BLOCK's signals, signal n as bit n - 1"
    return c_enum(about, acts, "TRACEHOST_") + c_enum(
        "calls that TRACEHOST_ENTER enters; `argument` is EXIT's status, 0 to 255, and OTHER's number", calls, "TRACEHOST_"
    )


def c_defines(prefix: str, items: dict[str, int]) -> str:
    return "".join(f"#define {prefix}{name} {number}\n" for name, number in items.items())


def header_options(form: Format) -> str:
    return c_defines("TH_", {option.name: option.bit for option in form.options})


def header_signals(form: Format) -> str:
    return c_defines("TH_", signals(form))


def header_errors(form: Format) -> str:
    return c_defines("TH_", {error.name: error.bit for error in form.errors})


def as_it_is(text: str, indent: str = "") -> str:
    return f"{indent}/* clang-format off */\n{text}{indent}/* clang-format on */\n"


def c_errors(form: Format) -> str:
    rows = "".join(f'    {{"{error.name}", {error.name}, TH_{error.name}, "{error.words}"}},\n' for error in form.errors)
    names_of = lines(quoted(form.signals), 128, "    ")
    return f"static const struct error ERRORS[] = {{\n{rows}}};\n\n" + as_it_is(
        f"static const char *const SIGNALS[] = {{\n{names_of}}};\n"
    )


def cpp_signals(form: Format) -> str:
    return f"        static const char *const names[] = {{\n{lines(quoted(form.signals), 116, '            ', end='')}        }};\n"


def cpp_replies(form: Format) -> str:
    """The names of replies by their kinds, and of errors."""
    cases = "".join(f'        case {error.bit}: return "{error.name}";\n' for error in form.errors)
    kinds = lines(quoted(reply.name for reply in form.shapes.replies), 116, "        ", end="")
    return (
        f"    static const char *const kinds[] = {{\n{kinds}    }};\n"
        f"    static const auto error = [](std::uint32_t number) -> std::string {{\n        switch (number) {{\n{cases}"
        "        default: return std::to_string(number);\n        }\n    };\n"
    )


# ---- the broker


def broker_names(form: Format) -> str:
    tables = {
        "call_names": names(by_number(form.calls)),
        "actions": names(by_number(form.actions)),
        "option_names": names(by_number(form.options)),
        "events": names(events(form)),
    }
    each = (f"static const char *const {name}[] = {{{', '.join(quoted(found))}}};\n" for name, found in tables.items())
    return as_it_is("".join(each))


def broker_flags(form: Format) -> str:
    bits = ", ".join(str(flag.number) for flag in form.stop_flags)
    return f"\tstatic const uint16_t flags[] = {{{bits}}}; /* FreeBSD's, by the model's bits */\n"


def broker_classes(form: Format) -> str:
    """All events, and which requests let their target go on."""
    bits = lines((f"TRACEHOST_{event.name}" for event in events(form)), 112, "\t", " | ", ";")
    tests = lines((f"request == TRACEHOST_{request.name}" for request in form.resuming), 112, "\t\t", " || ", ";")
    return as_it_is(f"static const uint32_t events =\n{bits}\nstatic bool resumes(int64_t request)\n{{\n\treturn\n{tests}}}\n")


NOT_ON_LINUX = ("SIGEMT", "SIGINFO")


def broker_signals(form: Format) -> str:
    """FreeBSD's number of each signal of the host's."""
    items = (f"[{name}] = {number}" for name, number in signals(form).items() if name not in NOT_ON_LINUX)
    return as_it_is(f"\tstatic const int signals[] = {{[0] = 0,\n{lines(items, 116, chr(9) * 2, end='};')}", "\t")


# ---- Python


def python_enum(head: str, about: str, members: dict[str, int]) -> str:
    text = "".join(f"    {name} = {number}\n" for name, number in members.items())
    return f'class {head}:\n    """{about}"""\n\n{text}\n\n'


def python_limits(form: Format) -> str:
    return "".join(f"{name.replace('MAX_', 'MOST_')} = {number}\n" for name, number in form.numbers.items())


def python_signals(form: Format) -> str:
    options = {option.name: option.bit for option in form.options}
    about = "Options of wait4(2), with the bits of <sys/wait.h>. No wait blocks, so WNOHANG changes nothing."
    return python_enum("WaitOption(enum.IntFlag)", about, options) + python_enum(
        "Signal(enum.IntEnum)",
        "FreeBSD's signals, which `signal.Signals` of another system numbers differently.",
        signals(form),
    )


def python_errors(form: Format) -> str:
    items = ", ".join(f'{error.bit}: "{error.name}"' for error in form.errors)
    return f"_ERRNOS = {{{items}}}\n"


def python_numbers(form: Format) -> str:
    calls = ", ".join(f"Call.{call.name.upper()}" for call in by_number(form.calls))
    acts = ", ".join(f"_{act.name.upper()}" for act in form.acts)
    return f"{acts} = {', '.join(str(act.bit) for act in form.acts)}\nCALLS = ({calls})\n"


# ---- the second model in Python


def tuple_of(name: str, items: Iterable[str]) -> str:
    words = quoted(items)
    short = f"{name}: Final = ({', '.join(words)})\n"
    return short if len(short) <= 120 else f"{name}: Final = (\n{lines(words, 116, '    ')})  # fmt: skip\n"


def reference_names(form: Format) -> str:
    bare = lines((f'{number}: "{name[3:]}"' for name, number in signals(form).items()), 116, "    ")
    errors = ", ".join(f'"{error.name}": {error.bit}' for error in form.errors if error.name != "ENOMEM")
    return (
        f"SIGNAL_NAMES: Final = {{\n{bare}}}  # fmt: skip\nERRORS: Final = {{{errors}}}\n"
        + tuple_of("FLAGS", names(form.stop_flags))
        + tuple_of("EVENTS", names(events(form)))
        + tuple_of("WITHOUT_DATA", names(request for request in form.requests if request.data is None))
        + tuple_of("WITH_DATA", names(request for request in form.requests if request.data is not None))
        + "REQUESTS: Final = (*WITHOUT_DATA, *WITH_DATA)\n"
        + tuple_of("PASSING", names(form.resuming))
        + tuple_of("CALLS", names(form.calls))
        + tuple_of("ACTS", names(form.acts))
        + tuple_of("OPTIONS", names(form.options))
        + tuple_of("ACTIONS", names(form.actions))
        + tuple_of("DECISIONS", names(form.decisions))
        + "".join(f"{name}: Final = {number}\n" for name, number in form.numbers.items())
    )


# ---- Rust


def rust_rows(items: dict[str, int]) -> str:
    return "".join(f"        {name} = {number},\n" for name, number in items.items())


def rust_signals(form: Format) -> str:
    return rust_rows(signals(form))


def rust_errors(form: Format) -> str:
    return rust_rows({error.name: error.bit for error in form.errors})


def rust_error_words(form: Format) -> str:
    return "".join(f'            Errno::{error.name} => "{error.words}",\n' for error in form.errors)


def rust_events(form: Format) -> str:
    return rust_rows({event.name: event.bit for event in events(form)})


def rust_flags(form: Format) -> str:
    return rust_rows({flag.name: flag.bit for flag in form.stop_flags})


def rust_pl_flags(form: Format) -> str:
    bits = ", ".join(f"0x{flag.number:04x}" for flag in form.stop_flags)
    return f"    const PL_FLAGS: [u32; {len(form.stop_flags)}] = [{bits}];\n"


def rust_options(form: Format) -> str:
    return rust_rows({option.name: option.bit for option in form.options})


def rust_limits(form: Format) -> str:
    last, rules = form.numbers["LAST_PROCESS"], form.numbers["MAX_RULES"]
    return f"pub const LAST_PROCESS: u32 = {last:_};\npub const MAX_RULES: usize = {rules};\n"


# ---- the viewer


def viewer_names(form: Format) -> str:
    resuming = ", ".join(quoted(names(form.resuming)))
    wanted = ("FIRST_USER", "LAST_USER", "FIRST_PROCESS", "PROCESS_NUMBERS", "LAST_PROCESS", "FIRST_LWP", "LWP_NUMBERS")
    numbers = "".join(f"export const {name} = {form.numbers[name]};\n" for name in wanted)
    return (
        f"export const SIGNALS = [\n{lines(quoted(('SIG-', *form.signals)), 116, '  ')}];\n{numbers}"
        f"/** The requests that let their target go on. */\nexport const RESUMES = [{resuming}];\n"
    )


def viewer_python_names(form: Format) -> str:
    users = form.numbers
    return (
        f"SIGNALS = [\n{lines(quoted(form.signals), 116, '    ')}]  # fmt: skip\n"
        f"FIRST_USER, LAST_USER, LAST_PROCESS = {users['FIRST_USER']}, {users['LAST_USER']}, {users['LAST_PROCESS']}\n"
        f"# the requests that let their target go on\nRESUMES = ({', '.join(quoted(names(form.resuming)))})\n"
    )
