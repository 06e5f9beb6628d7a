"""Plain lines as lines of JSON, by the tables of docs/FORMAT.md."""

import json
from collections.abc import Callable, Sequence

Members = dict[str, object]

SIGNALS = (
    "SIGHUP SIGINT SIGQUIT SIGILL SIGTRAP SIGABRT SIGEMT SIGFPE SIGKILL SIGBUS SIGSEGV SIGSYS SIGPIPE SIGALRM SIGTERM SIGURG "
    "SIGSTOP SIGTSTP SIGCONT SIGCHLD SIGTTIN SIGTTOU SIGIO SIGXCPU SIGXFSZ SIGVTALRM SIGPROF SIGWINCH SIGINFO SIGUSR1 SIGUSR2"
).split()


def signal_name(number: int | str) -> str:
    return SIGNALS[int(number) - 1]


def signal(number: int | str, name: str = "signal") -> Members:
    return {name: signal_name(number), "number": int(number)}


def status(text: str) -> Members:
    """The members of a wait status, by the text of its word, as section 7 of docs/FORMAT.md has it."""
    word = int(text)
    if word == 19:
        said: Members = {"continued": True}
    elif word % 256 == 127:
        said = signal(word // 256, "stopped")
    elif word % 256 == 0:
        said = {"exited": word // 256}
    else:
        said = signal(word, "signaled")
    return {"word": word} | said


def listed(text: str, byte: str) -> list[str]:
    return [] if text == "none" else text.split(byte)


def named(words: Sequence[str]) -> Members:
    """The values after `flags=`, `mask=` and the like, each as its member."""
    members: Members = {}
    for name, text in (word.split("=") for word in words):
        if name == "flags":
            members[name] = listed(text, "+")
        elif name in ("mask", "pending"):
            members[name] = [signal_name(number) for number in listed(text, ",")]
        elif name == "signal":
            members |= signal(text)
        else:
            members[name] = int(text)
    return members


def numbers(words: Sequence[str]) -> list[int]:
    return [int(word) for word in words]


def handled(words: Sequence[str]) -> Members:
    by = words.index("by")
    pid, word, _, tid, *view = words[:by]
    index, decision, *passed = words[by + 1 :]
    members: Members = {"pid": int(pid)} | status(word) | {"at": {"lwp": int(tid)} | named(view)}
    members |= {"by": None if index == "none" else int(index), "decision": decision}
    if passed:
        members["pass"] = signal(passed[0]) if passed[0] != "0" else None
    return members


MEMBERS: dict[str, Callable[[Sequence[str]], Members]] = {
    "ok": lambda words: {},
    "nothing": lambda words: {},
    "held": lambda words: {},
    "new": lambda words: {"pid": int(words[0]), "lwp": int(words[1])},
    "number": lambda words: {"number": int(words[0])},
    "status": lambda words: {"pid": int(words[0])} | status(words[1]),
    "info": lambda words: {"lwp": int(words[0]), "event": words[1]} | named(words[2:]),
    "lwps": lambda words: {"lwps": numbers(words)},
    "pids": lambda words: {"pids": numbers(words)},
    "mask": lambda words: {"events": listed(words[0], "+")},
    "handled": handled,
    "stopped": lambda words: {"lwp": int(words[0])} | signal(words[1]) | named(words[2:]),
    "caught": lambda words: signal(words[0]),
    "ended": lambda words: status(words[0]),
    "error": lambda words: {"errno": words[0], "number": int(words[1])},
}


def members_of(line: str) -> Members:
    words = line.split(" ")
    if words[0] == "refused":
        return {"refused": words[1]}
    user, number, reply, *rest = words
    return {"user": int(user), "step": int(number), "reply": reply} | MEMBERS[reply](rest)


def as_json(text: str) -> str:
    """Plain lines as lines of JSON."""
    return "".join(json.dumps(members_of(line), separators=(",", ":")) + "\n" for line in text.splitlines())
