"""The prompt of ``tracehost-debug``: commands that go through a session in time, and steps."""

from __future__ import annotations

import cmd
import json
import shlex
import subprocess
import tempfile
from collections.abc import Callable, Mapping, Sequence
from pathlib import Path
from typing import Any, NamedTuple, Optional

from .completion import complete_words
from .host import Host
from .manual import explain
from .naming import word_text
from .refusals import asked_by
from .saving import Session, save
from .step_words import Unclear, step_of, words_of
from .timeline import Refused, Step, Timeline, change_text, tree_of
from .viewing import view

_SHORT = {
    "n": "next",
    "p": "back",
    "b": "back",
    "g": "goto",
    "c": "continue",
    "rc": "reverse",
    "s": "state",
    "l": "list",
    "w": "why",
    "q": "quit",
}
_SHOWN = 10  # steps before and after the one at the cursor


class _Branch(NamedTuple):
    """Steps in time. All begin with steps of another branch, but the first, which is the session."""

    steps: list[Mapping[str, Any]]
    of: int
    after: int


class _Model:
    """A host that has made some steps."""

    def __init__(self, setting: Optional[bool]) -> None:
        self._setting = setting
        self._made: list[Mapping[str, Any]] = []
        self._host = self._start()

    def after(self, steps: Sequence[Mapping[str, Any]]) -> Host:
        """The host after these steps: only those that it hasn't made are made."""
        if list(steps[: len(self._made)]) != self._made:
            self.close()
            self._made, self._host = [], self._start()
        for step in steps[len(self._made) :]:
            self._host.line(_line_of(step))
            self._made.append(step)
        return self._host

    def note(self, step: Mapping[str, Any]) -> None:
        """The host has made this step."""
        self._made.append(step)

    def close(self) -> None:
        self._host.close()

    def _start(self) -> Host:
        return Host(kill_on_debugger_exit=self._setting)


class Prompt(cmd.Cmd):
    """A session at a prompt. The cursor is after one of its steps."""

    prompt = "tracehost> "

    def __init__(self, session: Session, at: Optional[int] = None, program: Optional[str] = None, **streams: Any) -> None:
        super().__init__(**streams)
        self._session, self._program = session, program
        self._branches = [_Branch(list(session.steps), 0, 0)]
        self._current = 0
        self._timelines: dict[int, Timeline] = {}
        self._model = _Model(session.kill_on_debugger_exit)
        self._at = len(session.steps) if at is None else at
        self._has_failed = False
        self._uid = session.steps[self._at - 1]["user"] if self._at else 1001
        self.prompt = _prompt_of(self._uid)
        self.intro = "A new session. Type help for help, and Control-D to leave."
        if session.steps:
            self.intro = f"{session.name}: {len(session.steps)} steps. Type help for help, and Control-D to leave.\n{self._shown()}"

    def close(self) -> None:
        self._model.close()

    def be_quiet(self) -> None:
        """Nobody sits before it."""
        self.prompt, self.intro, self.use_rawinput = "", "", False

    def batch(self, commands: str) -> int:
        """Does the commands, and returns 0, or 1 if one failed."""
        for command in filter(None, map(str.strip, commands.split(";"))):
            self._print(f"{_prompt_of(self._uid)}{command}")
            if self.onecmd(command):
                break
        return int(self._has_failed)

    # ---- steps

    def default(self, line: str) -> None:
        """A step, in words or as JSON."""
        if line.startswith("{"):
            self._make(line)
            return
        try:
            self._make(_line_of(step_of(shlex.split(line), self._uid, self._commands())))
        except (Unclear, ValueError) as error:
            self._complain(f"{error}{'' if str(error).endswith('?') else ';'} `help` lists the steps")

    def onecmd(self, line: str) -> bool:
        if line == "EOF":
            self._print("")
            return True
        word, _, rest = line.strip().partition(" ")
        return bool(super().onecmd(f"{_SHORT.get(word, word)} {rest}"))

    def emptyline(self) -> bool:
        return False

    def do_user(self, words: str) -> None:
        """user UID: the next steps are those of this user."""
        if not words.isdecimal() or not 1001 <= int(words) <= 1064:
            self._complain("user UID, from 1001 to 1064")
            return
        self._uid = int(words)
        self.prompt = self.prompt and _prompt_of(self._uid)

    # ---- time

    def do_next(self, words: str) -> None:
        """next [N]: N steps on, 1 if no number is given. Short: n."""
        self._move(self._at + self._count(words))

    def do_back(self, words: str) -> None:
        """back [N]: N steps back, 1 if no number is given. Short: b, p."""
        self._move(self._at - self._count(words))

    def do_goto(self, words: str) -> None:
        """goto N: to the place after step N; 0 is the beginning. Short: g."""
        if words.isdecimal():
            self._move(int(words))
        else:
            self._complain("goto N, the number of a step")

    def do_continue(self, words: str) -> None:
        """continue [stop|error|held|NUMBER [FIELD]|TEXT]: on to the next stop, step with an errno, held step, change of a
        process or an LWP, or of a field of its row, or step with the text. Short: c."""
        self._find(words, range(self._at + 1, len(self._steps()) + 1))

    def do_reverse(self, words: str) -> None:
        """reverse [stop|error|held|NUMBER [FIELD]|TEXT]: as continue, back in time. Short: rc."""
        self._find(words, range(self._at - 1, 0, -1))

    def do_list(self, words: str) -> None:
        """list: the steps around this one, and their replies. Short: l. (`list 1000` is a step: process 1000 lists the processes.)"""
        if words:
            self.default(f"list {words}")
            return
        first = max(1, self._at - _SHOWN)
        for step in self._timeline().steps[first - 1 : self._at + _SHOWN]:
            self._print(self._line(step))

    def do_state(self, words: str) -> None:
        """state [UID]: the processes and LWPs that a user sees here; without a number the user of the step. Short: s."""
        timeline = self._timeline()
        user = int(words) if words.isdecimal() else timeline.user_at(self._at)
        rows = tree_of(timeline.rows(self._at, user))
        self._print("\n".join([f"user {user}, after step {self._at}:", *(f"  {row}" for row in rows or ["nothing"])]))

    def do_why(self, words: str) -> None:
        """why NUMBER [FIELD]: the step that made the row of a process or an LWP, or its field, as it is here, and below it
        what led to that. `state` shows the fields. Short: w."""
        number, _, field = words.partition(" ")
        if not number.isdecimal():
            self._complain("why NUMBER [FIELD], of a process or an LWP")
            return
        timeline = self._timeline()
        user = next((user for user in timeline.users() if timeline.last_change(self._at, user, int(number))), 0)
        causes = timeline.causes(self._at, user, int(number), field or None)
        if not causes:
            self._complain(f"no step up to {self._at} has changed {words}")
        for cause in causes:
            self._print(f"{'  ' * cause.depth}{self._line(cause.step)}")
            changes = (change_text(change) for change in timeline.changes(cause.step.number))
            self._print("\n".join(f"{'  ' * cause.depth}        {change}" for change in changes))

    # ---- branches

    def do_branches(self, words: str) -> None:
        """branches: the session and what was tried from it. A step in the past begins a branch."""
        for number, branch in enumerate(self._branches):
            what = f"{len(branch.steps)} steps"
            start = f", from step {branch.after} of branch {branch.of}" if number else ", the session"
            self._print(f"{'>' if number == self._current else ' '} {number}: {what}{start}")

    def do_branch(self, words: str) -> None:
        """branch N: goes to the end of another branch; 0 is the session."""
        if not words.isdecimal() or int(words) >= len(self._branches):
            self._complain(f"branch N: N is 0 to {len(self._branches) - 1}")
            return
        self._current = int(words)
        self._move(len(self._steps()))

    def do_compare(self, words: str) -> None:
        """compare [N]: the steps and the rows at the end that differ between a branch, the session if no number is given,
        and this one."""
        if words and (not words.isdecimal() or int(words) >= len(self._branches)):
            self._complain(f"compare [N]: N is 0 to {len(self._branches) - 1}")
            return
        left, right = self._timeline_of(int(words or 0)), self._timeline()
        same = next(
            (at for at, (one, other) in enumerate(zip(left.steps, right.steps)) if one.words() != other.words()),
            min(len(left), len(right)),
        )
        self._print(f"{same} steps are the same")
        for mark, timeline in (("-", left), ("+", right)):
            for step in timeline.steps[same : same + 2 * _SHOWN]:
                self._print(f"{mark} {step.number:5} {words_of(step.asked)} -> {step.answer()}")
        self._print("\n".join(_differences(left, right)))

    def do_undo(self, words: str) -> None:
        """undo [N]: takes back the last step that was made here, or the last N."""
        branch = self._branches[self._current]
        kept = branch.after if self._current else len(self._session.steps)
        made = len(branch.steps) - kept
        count = int(words or 1) if not words or words.isdecimal() else 0
        if not 1 <= count <= made:
            self._complain(f"undo [N]: N is 1 to {made}" if made else "there is no step to undo")
            return
        del branch.steps[-count:]
        self._timelines.pop(self._current, None)
        self._at = len(branch.steps)
        self._print(f"{count} undone, {len(branch.steps)} left")

    # ---- files

    def do_save(self, words: str) -> None:
        """save FILE: writes the steps up to here as a scenario, which `tracehost FILE` runs, or as a test if FILE ends with
        .py, .c or .rs."""
        if not words:
            self._complain("save FILE")
            return
        try:
            save(self._here(), words, self._program)
        except (OSError, Refused) as error:
            self._complain(f"{words}: {getattr(error, 'strerror', None) or error}")

    def do_view(self, words: str) -> None:
        """view [PAGE]: makes a page that shows the session, session.html if no name is given."""
        try:
            with tempfile.TemporaryDirectory() as room:
                scenario = Path(room, "session.json")
                scenario.write_text(self._session._replace(steps=self._steps()).text(), encoding="utf-8")
                page = view(scenario, words or "session.html", title=self._session.name, program=self._program)
        except (OSError, subprocess.CalledProcessError) as error:
            self._complain(f"no page: {error}")
            return
        self._print(page.resolve().as_uri())

    def do_help(self, words: str) -> None:
        """help [NAME]: what a command, an op, a request, an act, a call, a signal or an errno is."""
        command = getattr(self, f"do_{_SHORT.get(words, words)}", None) if words else None
        self._print(" ".join((command.__doc__ or "").split()) if command is not None else explain(words))

    def do_quit(self, _: str) -> bool:
        """quit: leaves, as Control-D does. Short: q."""
        return True

    do_exit = do_quit

    # ---- completion

    def completenames(self, text: str, *_: Any) -> list[str]:
        commands = [name for name in self._commands() if name.startswith(text)]
        return sorted(commands + complete_words([], text, self._numbers()))

    def completedefault(self, *given: Any) -> list[str]:
        text, line, begidx, _ = given
        return complete_words(line[:begidx].split(), text, self._numbers())

    def complete_help(self, *given: Any) -> list[str]:
        return complete_words(["help"], given[0], [])

    def _commands(self) -> list[str]:
        return [name[3:] for name in self.get_names() if name.startswith("do_")]

    def _numbers(self) -> list[int]:
        """The processes and LWPs that the user sees here whose steps are next."""
        return list(self._timeline().rows(self._at, self._uid))

    # ---- the session

    def _steps(self) -> list[Mapping[str, Any]]:
        return self._branches[self._current].steps

    def _here(self) -> Session:
        return self._session._replace(steps=self._steps()[: self._at])

    def _timeline(self) -> Timeline:
        return self._timeline_of(self._current)

    def _timeline_of(self, branch: int) -> Timeline:
        steps = self._branches[branch].steps
        known = self._timelines.get(branch)
        if known is None or len(known) != len(steps):
            known = self._timelines[branch] = Timeline(steps, self._session.kill_on_debugger_exit, self._program)
        return known

    def _move(self, at: int) -> None:
        """Puts the cursor after a step, and shows it."""
        if not 0 <= at <= len(self._steps()):
            self._complain("this is the beginning" if at < 0 else f"the last step is {len(self._steps())}")
            return
        self._at = at
        self._print(self._shown())

    def _count(self, words: str) -> int:
        return int(words) if words.isdecimal() else 1

    def _find(self, words: str, places: range) -> None:
        wanted = self._matcher(words)
        found = next((at for at in places if wanted(at)), None)
        if found is None:
            self._complain(f"no step {'after' if places.step > 0 else 'before'} this one has {words or 'a stop'}")
        else:
            self._move(found)

    def _matcher(self, words: str) -> Callable[[int], bool]:
        """Whether a step is one that `continue` looks for."""
        timeline = self._timeline()
        number, _, field = words.partition(" ")
        if words in ("", "stop"):
            return timeline.is_stop
        if words in ("error", "held"):
            return lambda at: bool(timeline.steps[at - 1].reply["reply"] == words)
        if number.isdecimal():
            users = timeline.users()
            return lambda at: any(timeline.last_change(at, user, int(number), field or None) == at for user in users)
        return lambda at: words in timeline.steps[at - 1].words() or any(words in change_text(it) for it in timeline.changes(at))

    def _shown(self) -> str:
        """The step before the cursor, and what it changed."""
        if not self._at:
            return "at the beginning"
        timeline = self._timeline()
        changes = [f"        {change_text(change)}" for change in timeline.changes(self._at)]
        return "\n".join([self._line(timeline.steps[self._at - 1]) + self._reason(), *changes])

    def _line(self, step: Step) -> str:
        user = f"{step.user}: " if len(self._timeline().users()) > 1 else ""
        return f"{'>' if step.number == self._at else ' '}{step.number:5} {user}{step.words()}"

    def _reason(self) -> str:
        """What the errno of the step before the cursor says, or why it is held."""
        return _reason(self._model, self._steps(), self._timeline().steps[self._at - 1])

    def _make(self, text: str) -> None:
        """Makes a step after the cursor. If that isn't the end, it begins a branch."""
        host = self._model.after(self._steps()[: self._at])
        answer = host._send(text)
        if answer.startswith("refused"):
            self._complain(f"{answer}: {host._reason(text)}")
            return
        step = json.loads(text)
        self._model.note(step)
        if self._at < len(self._steps()):
            self._branches.append(_Branch(self._steps()[: self._at], self._current, self._at))
            self._current = len(self._branches) - 1
            self._print(f"branch {self._current}, after step {self._at}")
        self._steps().append(step)
        self._at = len(self._steps())
        words = answer.split()
        why = _why(host, step, words[3] if words[2] == "error" else "held") if words[2] in ("error", "held") else ""
        self._print(answer + _meaning(words[2:]) + why)

    def _print(self, text: str) -> None:
        print(text, file=self.stdout)

    def _complain(self, text: str) -> None:
        self._has_failed = True
        self._print(text)


def _prompt_of(uid: int) -> str:
    return "tracehost> " if uid == 1001 else f"tracehost {uid}> "


def _line_of(step: Mapping[str, Any]) -> str:
    return json.dumps(step, separators=(",", ":"))


def _meaning(words: Sequence[str]) -> str:
    """A status by name, after its number."""
    if words[0] in ("status", "handled"):
        return f"   ({word_text(int(words[2]))})"
    return f"   ({word_text(int(words[1]))})" if words[0] == "ended" else ""


def _why(host: Host, step: Mapping[str, Any], answer: str) -> str:
    """Why a step was answered by this errno, or held. It has changed nothing."""
    return f"   ({host._words(answer, asked_by(step)).split(f'{answer}, ', 1)[-1]})"


def _reason(model: _Model, steps: Sequence[Mapping[str, Any]], step: Step) -> str:
    """What the errno of one of the steps says, or why it is held; "" if it is neither."""
    if step.reply["reply"] not in ("error", "held"):
        return ""
    host = model.after(steps[: step.number - 1])
    return _why(host, steps[step.number - 1], step.reply.get("errno", "held"))


def reason_of(session: Session, step: Step) -> str:
    """The same of a step of the session."""
    model = _Model(session.kill_on_debugger_exit)
    try:
        return _reason(model, session.steps, step)
    finally:
        model.close()


def _differences(left: Timeline, right: Timeline) -> list[str]:
    """The rows at the ends that differ."""
    texts = []
    for user in sorted({*left.users(), *right.users()}):
        one, other = left.rows(len(left), user), right.rows(len(right), user)
        lines = [set(tree_of(rows)) for rows in (one, other)]
        texts += [f"- {line.strip()}" for line in tree_of(one) if line not in lines[1]]
        texts += [f"+ {line.strip()}" for line in tree_of(other) if line not in lines[0]]
    return ["at the end:", *texts] if texts else ["at the end all rows are the same"]
