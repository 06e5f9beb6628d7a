"""A session that is read from a file, and files that it is saved as: a scenario, or a test in Python, C or Rust."""

from __future__ import annotations

import errno
import json
import os
import sys
from collections.abc import Callable, Mapping, Sequence
from pathlib import Path
from typing import Any, NamedTuple, Optional

from .timeline import Refused, lines_of, scenario_text


class Session(NamedTuple):
    """The steps of a session."""

    name: str
    steps: Sequence[Mapping[str, Any]]
    kill_on_debugger_exit: Optional[bool]

    def text(self) -> str:
        """The scenario."""
        return scenario_text(self.steps, self.kill_on_debugger_exit)


def read_session(path: str, program: Optional[str] = None, may_be_refused: bool = False) -> Session:
    """The session of a scenario or a trace; "-" is standard input. Raises OSError, and Refused if it is neither, or the
    program refuses a scenario that may not be refused."""
    text = _input() if path == "-" else Path(path).read_bytes()
    name = "session" if path == "-" else Path(path).name.partition(".")[0]
    found = scenario_in(text)
    if found is None:
        return _session_of_trace(path, name, text, program)
    if not may_be_refused:
        lines_of(text.decode("utf-8", "surrogateescape"), program=program)  # it says what is wrong with the scenario
    setting = found.get("kill_on_debugger_exit")
    return Session(name, found["steps"], None if setting is None else bool(setting))


def _input() -> bytes:
    if sys.stdin is None:  # the caller has closed it
        raise OSError(errno.EBADF, os.strerror(errno.EBADF), "standard input")
    return sys.stdin.buffer.read()


def scenario_in(text: bytes) -> Optional[dict[str, Any]]:
    """The text as an object with an array of steps; None if it is none."""
    try:
        found = json.loads(text)
    except ValueError:
        return None
    return found if isinstance(found, dict) and isinstance(found.get("steps"), list) else None


def _session_of_trace(path: str, name: str, text: bytes, program: Optional[str]) -> Session:
    """The steps of a trace. It doesn't have the setting of its host: the one with these replies is it."""
    try:
        lines = [json.loads(line) for line in text.splitlines() if line.strip()]
        steps = [{"user": line["user"], **line["asked"]} for line in lines]
    except (ValueError, KeyError, TypeError):
        raise Refused(f"{path}: neither a scenario nor a trace, the lines of --json=trace") from None
    if not steps:
        raise Refused(f"{path}: it has no step")
    replies = [_reply_of(line) for line in lines]
    for setting in (None, False):
        session = Session(name, steps, setting)
        if [_reply_of(json.loads(line)) for line in lines_of(session.text(), "--json=trace", program=program)] == replies:
            return session
    raise Refused(
        f"{path}: the program answers these steps in another way: the trace has only some users' steps, or is another program's"
    )


def _reply_of(line: Mapping[str, Any]) -> dict[str, Any]:
    return {name: value for name, value in line.items() if name not in ("rows", "index")}


def save(session: Session, path: str, program: Optional[str] = None) -> None:
    """Writes the session: a test if the file's name ends with .py, .c or .rs, else a scenario. Raises OSError."""
    file = Path(path).expanduser()
    maker = _TESTS.get(file.suffix)
    text = session.text() if maker is None else maker(session, lines_of(session.text(), program=program))
    file.write_text(text, encoding="utf-8")


_QUOTED = {'"': '\\"', "\\": "\\\\"}


def _quoted(text: str) -> str:
    """A string of C and of Rust. Steps and replies have no other letters that need an escape."""
    return '"' + "".join(_QUOTED.get(letter, letter) for letter in text) + '"'


def _pairs(session: Session, lines: Sequence[str]) -> list[tuple[str, str]]:
    """The steps as lines, and their answers."""
    return [(json.dumps(step, separators=(",", ":")), line) for step, line in zip(session.steps, lines)]


def _python_test(session: Session, lines: Sequence[str]) -> str:
    steps = "".join(f"    ({step!r}, {line!r}),\n" for step, line in _pairs(session, lines))
    setting = session.kill_on_debugger_exit
    given = "" if setting is None else f"kill_on_debugger_exit={setting}"
    return f"""import tracehost

# a step, and the line of its reply
STEPS = [
{steps}]


def test_{_identifier(session.name)}() -> None:
    with tracehost.Host({given}) as host:
        for number, (step, line) in enumerate(STEPS, 1):
            assert host.line(step) == line, f"step {{number}}: {{step}}"
"""


def _c_test(session: Session, lines: Sequence[str]) -> str:
    steps = "".join(f"    {{{_quoted(step)},\n     {_quoted(line)}}},\n" for step, line in _pairs(session, lines))
    return f"""#include <stdbool.h>
#include <stdint.h>
#include <stdio.h>
#include <string.h>
#include <tracehost.h>

/* A step, and the line of its reply. */
static const struct {{
    const char *step, *line;
}} steps[] = {{
{steps}}};

int main(void)
{{
    static uint8_t line[65536]; /* longer than any line */
    tracehost host = TRACEHOST_CLOSED;
    int failed = tracehost_open({str(session.kill_on_debugger_exit is not False).lower()}, &host) != TRACEHOST_OK;

    for (size_t i = 0; !failed && i < sizeof steps / sizeof steps[0]; i++) {{
        size_t length = 0, wanted = strlen(steps[i].line);

        tracehost_line(&host, false, (const uint8_t *)steps[i].step, strlen(steps[i].step), line, sizeof line, &length);
        failed = length != wanted + 1 || memcmp(line, steps[i].line, wanted) != 0;
        if (failed)
            printf("step %zu: %s: %.*s in place of %s\\n", i + 1, steps[i].step, (int)length - 1, line, steps[i].line);
    }}
    tracehost_close(&host);
    return failed;
}}
"""


def _rust_test(session: Session, lines: Sequence[str]) -> str:
    steps = "".join(f"    (\n        {_quoted(step)},\n        {_quoted(line)},\n    ),\n" for step, line in _pairs(session, lines))
    return f"""use tracehost::{{Session, Settings}};

/// A step, and the line of its reply.
const STEPS: &[(&str, &str)] = &[
{steps}];

#[test]
fn {_identifier(session.name)}() {{
    let settings = Settings {{ kill_on_debugger_exit: {str(session.kill_on_debugger_exit is not False).lower()} }};
    let mut session = Session::with_settings(settings).unwrap();
    for (step, line) in STEPS {{
        assert_eq!(session.line(step).unwrap(), *line, "{{step}}");
    }}
}}
"""


def _identifier(name: str) -> str:
    """The name with only letters, digits and underscores, which no digit begins."""
    word = "".join(letter if letter.isascii() and letter.isalnum() else "_" for letter in name).lower()
    return word if word and not word[0].isdigit() else f"session_{word}"


_TESTS: dict[str, Callable[[Session, Sequence[str]], str]] = {".py": _python_test, ".c": _c_test, ".rs": _rust_test}
