"""Reading of what tracehost prints with --json and --json=trace, and of scenarios, by the rules of src/read.mjs."""

from __future__ import annotations

import json
import re
from collections.abc import Callable, Iterable, Mapping
from typing import Any, NamedTuple, Optional

Object = dict[str, Any]
Check = Callable[[Any], bool]
_ABSENT = object()
NO_JSON = object()
_MOST_SHOWN = 160

# tools/format names
SIGNALS = [
    "SIGHUP", "SIGINT", "SIGQUIT", "SIGILL", "SIGTRAP", "SIGABRT", "SIGEMT", "SIGFPE", "SIGKILL", "SIGBUS",
    "SIGSEGV", "SIGSYS", "SIGPIPE", "SIGALRM", "SIGTERM", "SIGURG", "SIGSTOP", "SIGTSTP", "SIGCONT", "SIGCHLD",
    "SIGTTIN", "SIGTTOU", "SIGIO", "SIGXCPU", "SIGXFSZ", "SIGVTALRM", "SIGPROF", "SIGWINCH", "SIGINFO", "SIGUSR1",
    "SIGUSR2",
]  # fmt: skip
FIRST_USER, LAST_USER, LAST_PROCESS = 1001, 1064, 99999
# the requests that let their target go on
RESUMES = ("PT_CONTINUE", "PT_STEP", "PT_DETACH", "PT_TO_SCE", "PT_TO_SCX", "PT_SYSCALL")
# end


def is_whole(value: Any) -> bool:
    return type(value) is int


def is_word(value: Any) -> bool:
    return is_whole(value) and 0 <= value < 1 << 32


def is_user(value: Any) -> bool:
    return is_whole(value) and FIRST_USER <= value <= LAST_USER


def is_signal(value: Any) -> bool:
    return type(value) is str and value in SIGNALS


def is_name(value: Any) -> bool:
    return type(value) is str and re.fullmatch(r"[A-Za-z0-9_]{1,32}", value) is not None


def is_object(value: Any) -> bool:
    return type(value) is dict


def list_of(check: Check) -> Check:
    return lambda value: type(value) is list and all(map(check, value))


def one_of(*values: object) -> Check:
    return lambda value: any(type(value) is type(one) and value == one for one in values)


def wrong_member(value: Object, members: Mapping[str, Check]) -> Optional[str]:
    """The first member of the object that isn't of its form."""
    return next((name for name, check in members.items() if not check(value.get(name, _ABSENT))), None)


def _maybe(check: Check) -> Check:
    return lambda value: value is _ABSENT or check(value)


def _rows_of(members: Mapping[str, Check]) -> Check:
    return _maybe(list_of(lambda row: is_object(row) and wrong_member(row, members) is None))


_STATUS: dict[str, Check] = {"word": is_word}
_SIGNAL: dict[str, Check] = {"signal": is_signal, "number": is_word}
_ERROR: dict[str, Check] = {"errno": is_name, "number": is_word}


def _object_of(members: Mapping[str, Check]) -> Check:
    return lambda value: is_object(value) and wrong_member(value, members) is None


def _or_null(check: Check) -> Check:
    return lambda value: value is None or check(value)


_is_passed = _maybe(_or_null(_object_of(_SIGNAL)))
# tools/format replies
_DECISION: dict[str, Check] = {"decision": one_of("decline", "leave", "continue", "detach", "kill"), "pass": _is_passed}
# the members of each reply
REPLIES: dict[str, dict[str, Check]] = {
    "ok": {},
    "new": {"pid": is_word, "lwp": is_word},
    "number": {"number": is_word},
    "status": {"pid": is_word, **_STATUS},
    "nothing": {},
    "info": {"lwp": is_word, "event": one_of("SIGNAL", "NONE"), "flags": list_of(is_name), "mask": list_of(is_signal),
        "pending": list_of(is_signal), "child": is_word, "code": is_word},
    "lwps": {"lwps": list_of(is_word)},
    "pids": {"pids": list_of(is_word)},
    "mask": {"events": list_of(is_name)},
    "handled": {"pid": is_word, **_STATUS, "at": _object_of({"lwp": is_word, **_SIGNAL, "flags": list_of(is_name),
        "child": is_word, "code": is_word}), "by": _or_null(is_word), **_DECISION},
    "stopped": {"lwp": is_word, **_SIGNAL, "flags": list_of(is_name)},
    "caught": {**_SIGNAL},
    "ended": {**_STATUS},
    "held": {},
    "error": {**_ERROR},
}  # fmt: skip
# end
# tools/format rows
_PROCESS: dict[str, Check] = {
    "pid": is_word,
    "parent": is_word,
    "tracer": _maybe(is_word),
    "state": one_of("runs", "trace_stop", "job_stop", "zombie"),
    "stop_lwp": _maybe(is_word),
    "stop_signal": _maybe(is_signal),
    "reported": _maybe(one_of(True)),
    "status": _maybe(is_word),
    "continued": _maybe(one_of(True)),
    "events": _maybe(list_of(is_name)),
    "pending": _maybe(list_of(is_signal)),
    "ignore": _maybe(list_of(is_signal)),
    "catch": _maybe(list_of(is_signal)),
}
_LWP: dict[str, Check] = {
    "lwp": is_word,
    "pid": is_word,
    "mode": one_of("runs", "in_call", "waits_for_vfork"),
    "call": _maybe(is_name),
    "argument": _maybe(is_word),
    "vfork_child": _maybe(is_word),
    "suspended": _maybe(one_of(True)),
    "stepping": _maybe(one_of(True)),
    "blocked": _maybe(list_of(is_signal)),
    "pending": _maybe(list_of(is_signal)),
    "due": _maybe(one_of("born", "begun", "vfork_done")),
    "flags": _maybe(list_of(is_name)),
    "child": _maybe(is_word),
    "code": _maybe(is_word),
}
# end
# the members of what a step changed
ROWS: dict[str, Check] = {
    "processes": _rows_of(_PROCESS), "lwps": _rows_of(_LWP), "removed_processes": _maybe(list_of(is_word)),
    "removed_lwps": _maybe(list_of(is_word)),
}  # fmt: skip
# the members of a status; one of them says what its word means
_MEANINGS: dict[str, Check] = {"exited": is_word, "signaled": is_signal, "stopped": is_signal, "continued": one_of(True)}
# tools/format ops
# the replies of each op, beside error and held
ANSWERS: dict[str, tuple[str, ...]] = {
    "spawn": ("new",), "ptrace": ("ok", "number", "info", "lwps", "mask",), "wait4": ("status", "nothing",),
    "kill": ("ok",), "sigaction": ("ok",), "list": ("pids",), "install": ("ok",),
    "handle": ("handled", "status", "nothing",), "turn": ("ok", "new", "stopped", "caught", "ended",),
}  # fmt: skip
# the keys that a step of each op has, beside user and op
NEEDED: dict[str, tuple[str, ...]] = {
    "spawn": (), "ptrace": ("caller", "request",), "wait4": ("caller", "which",),
    "kill": ("caller", "which", "signal",), "sigaction": ("caller", "signal", "action",), "list": ("caller",),
    "install": ("caller", "rules",), "handle": ("caller",), "turn": ("lwp", "act",),
}  # fmt: skip
# the keys that an act has
NEEDED_BY_ACT: dict[str, tuple[str, ...]] = {
    "compute": (), "raise": ("signal",), "block": ("set",), "enter": ("call",), "leave": (),
}  # fmt: skip
# end
_KEYS: dict[str, Check] = {
    "caller": is_word, "lwp": is_word, "which": is_whole, "signal": is_word, "target": is_word, "data": is_word,
    "code": is_word, "request": is_name, "act": is_name, "call": is_name, "action": is_name, "options": list_of(is_name),
    "mask": list_of(is_name), "set": list_of(is_word), "rules": list_of(is_object),
}  # fmt: skip


def fault_of_step(step: Any) -> Optional[str]:
    """What is wrong with a step; None for nothing."""
    if not is_object(step) or not is_user(step.get("user")) or type(step.get("op")) is not str or step["op"] not in ANSWERS:
        return "no step"
    needed = NEEDED[step["op"]]
    if step["op"] == "turn" and type(step.get("act")) is str:
        needed = (*needed, *NEEDED_BY_ACT.get(step["act"], ()))
    for key, check in _KEYS.items():
        if not check(step[key]) if key in step else key in needed:
            return f'"{key}" is missing or of a wrong form'
    return None


_WORDS = {op: ("error", "held", *words) for op, words in ANSWERS.items()}


def can_answer(step: Object, user: int, word: str) -> bool:
    """Whether a reply to the user with this word can answer the step."""
    return bool(step["user"] == user and word in _WORDS[step["op"]])


def fault_of_reply(reply: Any) -> Optional[str]:
    """What is wrong with a line of --json, with the step that a trace has in it; None for nothing."""
    if not is_object(reply):
        return "no JSON" if reply is NO_JSON else "no object"
    if is_name(reply.get("refused")) and "reply" not in reply:
        return None
    if not is_user(reply.get("user")):
        return f"no user from {FIRST_USER} to {LAST_USER}"
    if not is_whole(reply.get("step")) or reply["step"] < 1:
        return "no number of a step"
    if type(reply.get("reply")) is not str or reply["reply"] not in REPLIES:
        return "no reply that is known"
    members = REPLIES[reply["reply"]]
    wrong = wrong_member(reply, members)
    if wrong is not None:
        return f'"{wrong}" is missing or of a wrong form'
    meanings = [name for name in _MEANINGS if name in reply]
    if "word" in members and (len(meanings) != 1 or not _MEANINGS[meanings[0]](reply[meanings[0]])):
        return "it has no status"
    return _fault_in_trace(reply)


def _fault_in_trace(reply: Object) -> Optional[str]:
    if not {"asked", "index", "rows"} & set(reply):
        return None
    if not is_whole(reply.get("index")) or reply["index"] < 1:
        return "no index of a step"
    if not is_object(reply.get("asked")):
        return "no step"
    step = step_in(reply)
    fault = fault_of_step(step)
    if fault is not None:
        return f"in its step: {fault}"
    if not can_answer(step, reply["user"], reply["reply"]):
        return f'its step can\'t be answered by "{reply["reply"]}"'
    if "rows" not in reply:
        return None
    wrong = wrong_member(reply["rows"], ROWS) if is_object(reply["rows"]) else "rows"
    return f'in its rows: "{wrong}" is of a wrong form' if wrong else None


def step_in(reply: Object) -> Object:
    """The step in a line of a trace, as a scenario has it."""
    return {"user": reply["user"], **reply["asked"]}


def _refuse(word: str) -> None:
    raise ValueError(f"{word} is no JSON")


_decoded = json.JSONDecoder(parse_constant=_refuse).decode


def parsed(text: str) -> Any:
    """The value of a JSON text; NO_JSON if it is none."""
    try:
        return _decoded(text)
    except (ValueError, RecursionError):
        return NO_JSON


class Part(NamedTuple):
    """An object of a line, and its JSON text."""

    value: Object
    text: str


class Reply(NamedTuple):
    """A line of --json: of which step it is, what that asked and changed if the line is one of a trace, and what it says else.

    A refused line is of no user.
    """

    user: int
    step: int
    place: int  # of the step in the scenario, from 1
    asked: Optional[Part]
    said: Part
    rows: Optional[Part]


# how tracehost begins the line of a step
_FRONT = re.compile(r'\{"user":([0-9]{4}),"step":([1-9][0-9]{0,15}),"index":([1-9][0-9]{0,15}),"asked":')
_APART = ("user", "step", "index", "asked", "rows")


class _Replies:
    """Lines that are read. Most of their parts come often: one is read and checked once, and is the same object then."""

    def __init__(self) -> None:
        self._asked: dict[str, Optional[Part]] = {}  # by their texts; None is of a wrong form
        self._said: dict[str, Optional[Part]] = {}
        self._rows: dict[str, Optional[Part]] = {}

    def printed(self, text: str) -> Optional[Reply]:
        """The reply in a line that is as tracehost prints it; None of another line, and of one with a fault."""
        front = _FRONT.match(text)
        if front is None or not FIRST_USER <= int(front[1]) <= LAST_USER or text[-1] != "}":
            return None
        end = text.find(',"reply":', front.end())
        changes = text.find(',"rows":{', end)
        asked = self._known(self._asked, text[front.end() : end], _is_asked)
        said = self._known(self._said, "{" + text[end + 1 : changes if changes >= 0 else -1] + "}", _is_said)
        rows = self._known(self._rows, text[changes + len(',"rows":') : -1], _is_rows) if changes >= 0 else None
        if asked is None or said is None or (rows is None and changes >= 0):
            return None
        if said.value["reply"] not in _WORDS[asked.value["op"]]:
            return None
        return Reply(int(front[1]), int(front[2]), int(front[3]), asked, said, rows)

    @staticmethod
    def _known(parts: dict[str, Optional[Part]], text: str, check: Check) -> Optional[Part]:
        if text not in parts:
            value = parsed(text)
            parts[text] = Part(value, text) if check(value) else None
        return parts[text]


def _is_asked(value: Any) -> bool:
    return is_object(value) and "user" not in value and fault_of_step({"user": FIRST_USER, **value}) is None


def _is_said(value: Any) -> bool:
    is_apart = is_object(value) and not any(name in value for name in _APART)
    return is_apart and fault_of_reply({"user": FIRST_USER, "step": 1, **value}) is None


def _is_rows(value: Any) -> bool:
    return is_object(value) and wrong_member(value, ROWS) is None


def _reply_in(value: Object) -> Reply:
    """The reply in a line that has no fault."""
    asked, rows = (_part(value[name]) if name in value else None for name in ("asked", "rows"))
    said = _part({name: one for name, one in value.items() if name not in _APART})
    return Reply(value.get("user", 0), value.get("step", 0), value.get("index", 0), asked, said, rows)


def _part(value: Object) -> Part:
    return Part(value, json.dumps(value, separators=(",", ":")))


class Read:
    """What a file holds, by its form: the replies of a run, or a scenario (also as a line for each step)."""

    def __init__(self, name: str, text: str) -> None:
        self.name = name
        self.faults: list[str] = []
        self.replies: list[Reply] = []
        self.steps: Optional[list[Optional[Object]]] = None
        self.is_blank = not text.strip()
        whole = parsed(text)
        lines = [(number, line) for number, line in enumerate(text.split("\n"), 1) if line.strip()]
        first = next((value for value in (parsed(line) for _, line in lines) if is_object(value)), None)
        if is_object(whole) and "steps" in whole:
            self._read_steps(whole["steps"])
        elif first is not None and "op" in first:
            self._read_steps([parsed(line) for _, line in lines])
        elif first is not None:
            self._read_replies(lines)
        else:
            self.faults.append(f"{name}: {_strange(text)}")

    @property
    def is_trace(self) -> bool:
        """Whether each line has its step."""
        return bool(self.replies) and all(reply.asked is not None for reply in self.replies)

    def is_empty(self) -> bool:
        """Whether nothing in it can be drawn."""
        return not self.replies and not any(self.steps or ()) and bool(self.faults)

    def _read_replies(self, lines: Iterable[tuple[int, str]]) -> None:
        known = _Replies()
        for number, text in lines:
            reply = known.printed(text)
            if reply is None:
                value = parsed(text)
                fault = fault_of_reply(value)
                if fault is not None:
                    self.faults.append(f"{self.name}, line {number}: {fault}: {excerpt(text)}")
                    continue
                reply = _reply_in(value)
            self.replies.append(reply)

    def _read_steps(self, steps: Any) -> None:
        if type(steps) is not list:
            self.faults.append(f'{self.name}: "steps" is no array')
            return
        self.steps = []
        for number, step in enumerate(steps, 1):
            fault = fault_of_step(step)
            self.steps.append(step if fault is None else None)
            if fault is not None:
                shown = "no JSON" if step is NO_JSON else json.dumps(step)
                self.faults.append(f"{self.name}, step {number}: {fault}: {excerpt(shown)}")


def fault_of_pair(lines: Read, scenario: Read) -> Optional[str]:
    """Why this isn't the scenario of these lines; None if it may be. Refused lines are answered one by one."""
    steps = scenario.steps or []
    answered: dict[tuple[int, ...], Optional[Object]]
    keys: list[tuple[int, ...]]
    if any("refused" in reply.said.value for reply in lines.replies):
        answered = {(index,): step for index, step in enumerate(steps)}
        keys = [(index,) for index in range(len(lines.replies))]
    else:
        answered, counts = {}, dict.fromkeys(range(FIRST_USER, LAST_USER + 1), 0)
        for step in filter(is_object, steps):
            assert step is not None
            counts[step["user"]] += 1
            answered[step["user"], counts[step["user"]]] = step
        keys = [(reply.user, reply.step) for reply in lines.replies]
    for key, reply in zip(keys, lines.replies):
        answers = answered.get(key)
        said = reply.said.value
        if "refused" not in said and not (answers and can_answer(answers, reply.user, said["reply"])):
            of = f'its step {reply.step} of user {reply.user} can\'t be answered by "{said["reply"]}"'
            return f"{scenario.name} isn't the scenario of these lines: {of}"
    return None


def excerpt(text: str) -> str:
    """The text in one line of ASCII, cut."""
    shown = text if len(text) <= _MOST_SHOWN else text[:_MOST_SHOWN] + " .."
    return "".join(one if " " <= one <= "~" else one.encode("unicode_escape").decode() for one in shown)


def _strange(text: str) -> str:
    if not text.strip():
        return "there is nothing in it"
    if re.match(r'\s*\{\s*"(steps|kill_on_debugger_exit)"', text):
        return "this scenario is cut short, or no JSON"
    if re.match(r"\d{4} \d+ [a-z]+", text):
        return "these are lines of the plain text; run tracehost with --json"
    return f"neither lines of --json nor a scenario: {excerpt(text)}"
