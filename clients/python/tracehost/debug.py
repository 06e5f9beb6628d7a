"""``tracehost-debug [FILE]``: a prompt over a session, forwards and backwards in time.

FILE is a scenario, such as a failed test leaves, or a trace; without it the session is new. A line is a command or a step,
an op of docs/FORMAT.md with the values of its keys in their order:

    tracehost> spawn
    tracehost> ptrace 1000 PT_ATTACH 1001
    tracehost> wait4 1000
    tracehost> back
    tracehost> why 1001 state

or a step as JSON. A step in the middle begins a branch, and the session stays as it is. `help` lists all.
"""

from __future__ import annotations

import argparse
import os
import sys
from collections.abc import Sequence
from typing import Optional

from .comparing import differences_of
from .outputs import Parser, closed, status_of
from .prompt import Prompt
from .saving import Session, read_session
from .shrinking import Keep, shrink, shrink_refused
from .story import story
from .timeline import Refused, Timeline

__all__ = ["main"]

_HISTORY = "~/.tracehost_history"
_NAME = "tracehost-debug"


def _use_history() -> None:
    """Keeps the lines of earlier sessions in a file, if Python has readline."""
    try:
        import atexit
        import readline
    except ImportError:
        return
    path = os.path.expanduser(os.environ.get("TRACEHOST_HISTORY", _HISTORY))
    readline.set_completer_delims(" \t\n")
    try:
        readline.read_history_file(path)
    except OSError:
        pass
    readline.set_history_length(1000)

    def write() -> None:
        try:
            readline.write_history_file(path)
        except OSError:
            pass

    atexit.register(write)


def _options() -> argparse.ArgumentParser:
    parser = Parser(prog=_NAME, description="A prompt over a session, forwards and backwards in time.")
    parser.add_argument(
        "file", metavar="FILE", nargs="?", help="a scenario or a trace, - for standard input; a new session without it"
    )
    parser.add_argument("--at", type=int, metavar="N", help="begin after step N, from 1; else after the last one")
    parser.add_argument("--story", action="store_true", help="print what the session comes to, in at most twenty lines")
    parser.add_argument("--called", metavar="NAME", help="FILE's name in the story, if it will have another one")
    parser.add_argument(
        "--batch", metavar="COMMANDS", help="do these commands, with ; between two, and leave; status 1 if one fails"
    )
    parser.add_argument(
        "--compare", metavar="FILE", help="print how another session differs, whatever numbers processes got; status 1 if it does"
    )
    parser.add_argument("--shrink", metavar="OUT", help="write a scenario with fewer steps that keeps what --keep says")
    parser.add_argument(
        "--keep",
        default="last",
        metavar="WHAT",
        help="last: the last step and its reply (the default); notice=TEXT: what --story says to look at with these words; "
        "reply=TEXT: a reply with these words; fault: the fault of a refused scenario; status=COMMAND: the status of a shell's "
        "command, in which {} is the scenario",
    )
    parser.add_argument("--program", help="the program that runs scenarios; else $TRACEHOST, else the package's own")
    parser.add_argument("--kill-on-debugger-exit", choices=("0", "1"), help="of a new session, as for tracehost --lines")
    return parser


def _session_of(given: argparse.Namespace, parser: argparse.ArgumentParser) -> Session:
    if given.file is None:
        if given.shrink is not None or given.compare is not None or given.at is not None or given.story:
            parser.error("--at, --compare, --story and --shrink need a FILE")
        setting = None if given.kill_on_debugger_exit is None else given.kill_on_debugger_exit == "1"
        return Session("session", (), setting)
    if given.kill_on_debugger_exit is not None:
        parser.error("--kill-on-debugger-exit is FILE's own")
    return read_session(given.file, given.program, may_be_refused=given.shrink is not None and given.keep == "fault")


def _shrink(given: argparse.Namespace, session: Session, parser: argparse.ArgumentParser) -> int:
    try:
        keep = Keep.of(given.keep)
    except ValueError as error:
        parser.error(str(error))
    shorter = shrink_refused(session, given.program) if keep.kind == "fault" else shrink(session, keep, given.program)
    with open(given.shrink, "w", encoding="utf-8") as out:
        out.write(shorter.session.text())
    print(f"{len(shorter.session.steps)} of {len(session.steps)} steps keep {shorter.kept} ({shorter.runs} runs): {given.shrink}")
    return 0


def _compare(given: argparse.Namespace, left: Session) -> int:
    """The status is that of diff(1)."""
    right = read_session(given.compare, given.program)
    one, other = (Timeline(session.steps, session.kill_on_debugger_exit, given.program) for session in (left, right))
    names = (left.name, right.name) if left.name != right.name else (given.file, given.compare)
    lines, do_differ = differences_of(one, other, names)
    print("\n".join(lines))
    return int(do_differ)


def _run(words: Optional[Sequence[str]]) -> int:
    parser = _options()
    given = parser.parse_args(words)
    session = _session_of(given, parser)
    if given.shrink is not None:
        return _shrink(given, session, parser)
    if given.compare is not None:
        return _compare(given, session)
    if given.at is not None and not 0 <= given.at <= len(session.steps):
        parser.error(f"--at {given.at}: there are {len(session.steps)} steps")
    if given.story:
        print("\n".join(story(session, given.called or given.file, given.at, given.program)))
        return 0
    prompt = Prompt(session, given.at, given.program)
    try:
        if given.batch is not None:
            return prompt.batch(given.batch)
        return _converse(prompt, given.file == "-")
    finally:
        prompt.close()


def _converse(prompt: Prompt, is_input_used: bool) -> int:
    """Reads commands until the end of the input. If the session was read from it, from the terminal."""
    if is_input_used:
        sys.stdin = open("/dev/tty", encoding="utf-8")
    if sys.stdin is None:
        raise closed("standard input")
    terminal = sys.stdin.isatty()
    if terminal:
        _use_history()
    else:
        prompt.be_quiet()
    while True:
        try:
            prompt.cmdloop()
            return 0
        except KeyboardInterrupt:
            print()
            prompt.intro = ""


def main(words: Optional[Sequence[str]] = None) -> int:
    """Runs the prompt until the end of its input."""
    return status_of(_NAME, lambda: _run_or_say(words))


def _run_or_say(words: Optional[Sequence[str]]) -> int:
    try:
        return _run(words)
    except Refused as error:
        print(f"{_NAME}: {error}", file=sys.stderr)
        return 1


if __name__ == "__main__":
    sys.exit(main())
