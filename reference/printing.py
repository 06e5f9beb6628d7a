"""The line of a reply, in words or as JSON."""

import json
from collections.abc import Iterable

from . import names
from .steps import (
    Caught,
    Ended,
    Error,
    Handled,
    Held,
    Info,
    Lwps,
    Mask,
    New,
    Nothing,
    Number,
    Ok,
    Pids,
    Reply,
    Status,
    Stopped,
)


# tools/format words
def in_words(reply: Reply) -> str:
    match reply:
        case Ok():
            return "ok"
        case New():
            return f"new {reply.pid} {reply.lwp}"
        case Number():
            return f"number {reply.number}"
        case Status():
            return f"status {reply.pid} {reply.status}"
        case Nothing():
            return "nothing"
        case Info():
            return (
                f"info {reply.lwp} {event_in_words(reply.event)} flags={flags_in_words(reply.flags)} "
                f"mask={signals_in_words(reply.mask)} pending={signals_in_words(reply.pending)} child={reply.child} "
                f"code={reply.code}"
            )
        case Lwps():
            return " ".join(["lwps", *map(str, reply.lwps)])
        case Pids():
            return " ".join(["pids", *map(str, reply.pids)])
        case Mask():
            return f"mask {events_in_words(reply.events)}"
        case Handled():
            return (
                f"handled {reply.pid} {reply.status} at {reply.lwp} signal={reply.signal} "
                f"flags={flags_in_words(reply.flags)} child={reply.child} code={reply.code} by "
                f"{handler_in_words(reply.handler)} {decision_in_words(reply)}"
            )
        case Stopped():
            return f"stopped {reply.lwp} {reply.signal} flags={flags_in_words(reply.flags)}"
        case Caught():
            return f"caught {reply.signal}"
        case Ended():
            return f"ended {reply.status}"
        case Held():
            return "held"
        case Error():
            return f"error {error_in_words(reply.error)}"


# end


def event_in_words(reports: bool) -> str:
    return "SIGNAL" if reports else "NONE"


def signals_in_words(signals: Iterable[int]) -> str:
    return joined(sorted(signals), ",")


def handler_in_words(handler: int | None) -> str:
    return "none" if handler is None else str(handler)


def decision_in_words(reply: Handled) -> str:
    return f"{reply.decision} {reply.passed}" if reply.decision in ("continue", "detach") else reply.decision


def error_in_words(name: str) -> str:
    return f"{name} {names.ERRORS[name]}"


def ordered(chosen: Iterable[str], order: tuple[str, ...]) -> list[str]:
    return sorted(chosen, key=order.index)


def joined(items: Iterable[object], between: str) -> str:
    return between.join(map(str, items)) or "none"


def flags_in_words(flags: Iterable[str]) -> str:
    return joined(ordered(flags, names.FLAGS), "+")


def events_in_words(events: Iterable[str]) -> str:
    return joined(ordered(events, names.EVENTS), "+")


def as_json(user: int, number: int, reply: Reply) -> str:
    members = {"user": user, "step": number, "reply": in_words(reply).split(" ", 1)[0], **members_of(reply)}
    return json.dumps(members, separators=(",", ":"))


# tools/format members
def members_of(reply: Reply) -> dict[str, object]:
    match reply:
        case Ok():
            return {}
        case New():
            return {"pid": reply.pid, "lwp": reply.lwp}
        case Number():
            return {"number": reply.number}
        case Status():
            return {"pid": reply.pid, **status(reply.status)}
        case Nothing():
            return {}
        case Info():
            return {
                "lwp": reply.lwp,
                "event": event_in_words(reply.event),
                "flags": ordered(reply.flags, names.FLAGS),
                "mask": signal_names(reply.mask),
                "pending": signal_names(reply.pending),
                "child": reply.child,
                "code": reply.code,
            }
        case Lwps():
            return {"lwps": reply.lwps}
        case Pids():
            return {"pids": reply.pids}
        case Mask():
            return {"events": ordered(reply.events, names.EVENTS)}
        case Handled():
            at = {
                "lwp": reply.lwp,
                **signal(reply.signal),
                "flags": ordered(reply.flags, names.FLAGS),
                "child": reply.child,
                "code": reply.code,
            }
            return {"pid": reply.pid, **status(reply.status), "at": at, "by": reply.handler, **decided(reply)}
        case Stopped():
            return {"lwp": reply.lwp, **signal(reply.signal), "flags": ordered(reply.flags, names.FLAGS)}
        case Caught():
            return {**signal(reply.signal)}
        case Ended():
            return {**status(reply.status)}
        case Held():
            return {}
        case Error():
            return {**error(reply.error)}


# end


def signal(number: int) -> dict[str, object]:
    return {"signal": signal_name(number), "number": number}


def signal_name(number: int) -> str:
    return "SIG" + names.SIGNAL_NAMES[number]


def status(word: int) -> dict[str, object]:
    meaning: dict[str, object]
    if word == names.CONT:
        meaning = {"continued": True}
    elif word % 256 == 127:
        meaning = {"stopped": signal_name(word // 256), "number": word // 256}
    elif word % 256 == 0:
        meaning = {"exited": word // 256}
    else:
        meaning = {"signaled": signal_name(word), "number": word}
    return {"word": word, **meaning}


def signal_names(signals: Iterable[int]) -> list[str]:
    return [signal_name(number) for number in sorted(signals)]


def decided(reply: Handled) -> dict[str, object]:
    members: dict[str, object] = {"decision": reply.decision}
    if reply.decision in ("continue", "detach"):
        members["pass"] = signal(reply.passed) if reply.passed else None
    return members


def error(name: str) -> dict[str, object]:
    return {"errno": name, "number": names.ERRORS[name]}
