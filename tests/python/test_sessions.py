"""Sessions of text, tests/sessions/*.txt: in each way in which a session can be made, each step has the reply beside it.

A session of several users is also made without the others: each user has the same replies, and sees the same at the end.
The name of a session is `FILE/NAME`, with `_` in place of blanks: `./test tracing/a_followed_fork_stops_parent_and_child`, or
`-k a_followed_fork`.
"""

from __future__ import annotations

from collections.abc import Callable, Iterable
from pathlib import Path

import pytest
from long_sessions import LONG
from session_ways import (
    WAYS,
    Tools,
    Way,
    by_calls,
    by_last_steps,
    by_library,
    by_lines,
    by_scenario,
    by_threads,
    by_user,
    call,
    opened,
    seen,
)
from sessions import FOLDER, NoSession, Session, read_sessions, sessions_of
from tracehost.blocking import Progress
from tracehost.typed import TypedCalls

SESSIONS = {
    **read_sessions(sorted(FOLDER.glob("*.txt"))),
    **{f"long/{name}": session for name, session in LONG.items()},
}


@pytest.fixture(scope="module")
def tools(program: Path, library: Path) -> Tools:
    return Tools(program, library)


def side_by_side(session: Session, lines: Iterable[str]) -> list[str]:
    """Each step with its line, so that a difference shows the step."""
    return [f"{line.words} -> {answer}" for line, answer in zip(session.lines, lines, strict=True)]


def for_each(chosen: Callable[[Session], bool]) -> pytest.MarkDecorator:
    """A mark that runs a test for each session that is chosen, as its argument `name`."""
    return pytest.mark.parametrize("name", [name for name, session in SESSIONS.items() if chosen(session)])


def is_text(session: Session) -> bool:
    return not session.only_calls


def check(tools: Tools, name: str, way: Way) -> None:
    session = SESSIONS[name]
    assert side_by_side(session, way(tools, session)) == side_by_side(session, session.printed())


@for_each(is_text)
def test_scenario(tools: Tools, name: str) -> None:
    check(tools, name, by_scenario)


@for_each(is_text)
def test_lines(tools: Tools, name: str) -> None:
    check(tools, name, by_lines)


@for_each(is_text)
def test_threads(tools: Tools, name: str) -> None:
    check(tools, name, by_threads)


@for_each(is_text)
def test_user(tools: Tools, name: str) -> None:
    check(tools, name, by_user)


@for_each(is_text)
def test_library(tools: Tools, name: str) -> None:
    check(tools, name, by_library)


@for_each(lambda session: True)
def test_calls(tools: Tools, name: str) -> None:
    check(tools, name, by_calls)


@for_each(is_text)
def test_last_steps(tools: Tools, name: str) -> None:
    check(tools, name, by_last_steps)


def seen_by(tools: Tools, session: Session, user: int) -> tuple[bytes, bytes]:
    """The user's rows after the session."""
    host = opened(tools, session.kills)
    calls = TypedCalls(host, Progress())
    for line in session.lines:
        call(calls, line.step)
    return seen(host, user)


@for_each(lambda session: len(session.users) > 1)
def test_alone(tools: Tools, name: str) -> None:
    session = SESSIONS[name]
    for user in session.users:
        own = session.of(user)
        assert side_by_side(own, by_calls(tools, own)) == side_by_side(own, own.printed())
        assert seen_by(tools, own, user) == seen_by(tools, session, user)
    assert any(any(seen_by(tools, session, user)) for user in session.users)


# ---- a fault of a session is found

ASKED = "# Spawn and list\nspawn -> new 1000 100000\nlist 1000 -> "


@pytest.mark.parametrize("way", WAYS)
def test_a_wrong_reply_is_found(tools: Tools, way: Way) -> None:
    right, wrong = [sessions_of(ASKED + reply, {})["spawn_and_list"] for reply in ("pids 1000", "pids 1000 1001")]
    printed = way(tools, right)
    assert printed == right.printed()
    assert way(tools, wrong) == printed != wrong.printed()


@pytest.mark.parametrize(
    ("text", "reason"),
    [
        ("", "the text has no session"),
        ("# Only a name", "the text has no session"),
        ("spawn -> ok", "`spawn -> ok` is no heading"),
        ("# A\nafter: nothing of this name\nspawn -> ok", "no session is named nothing of this name"),
        ("# A\nkill_on_debugger_exit: 0", "`# A` has no steps"),
        ("# A\nspawn", "`spawn` has no arrow and reply"),
        ("# A\nspawn -> ", "`spawn ->` has no arrow and reply"),
        ("# A\nspwan -> ok", "no step: spwan; did you mean spawn?"),
        ("# A\nspawn -> ok\n\n# a\nspawn -> ok", "two sessions are named a"),
    ],
)
def test_a_text_that_is_no_session_is_refused(text: str, reason: str) -> None:
    with pytest.raises(NoSession) as refused:
        sessions_of(text, {})
    assert reason in str(refused.value)
