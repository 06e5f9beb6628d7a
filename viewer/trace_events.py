"""The steps and stops of a trace as events of Chrome's trace event format."""

from __future__ import annotations

import dataclasses
from collections.abc import Iterable
from typing import Any, Optional

from reading import LAST_PROCESS, RESUMES

Object = dict[str, Any]

# a user's own row has a number that no process and no LWP has
USER_ROW = 1000000
# the requests that end a stop
ENDS_STOP = (*RESUMES, "PT_KILL")
# Perfetto binds the end of an arrow to what the row has begun last: of one time, in this order
ORDER = {"X stop": 0, "s": 1, "X": 2, "f": 3}


@dataclasses.dataclass
class Stop:
    """A stop that lasts."""

    since: int
    lwp: int
    name: str
    kind: object = None
    # the first step that reports it, and where that is drawn
    report: Optional[tuple[int, tuple[int, int]]] = None


class Events:
    """The events of a trace. Subclasses say when stops begin and end."""

    def __init__(self, lines: list[Object]) -> None:
        self.events: list[Object] = []
        self.owners: dict[int, int] = {}
        self.stops: dict[int, Stop] = {}
        self.users: dict[int, int] = {}
        self.rows: set[tuple[int, int]] = set()
        self.flows = 0
        self.look_at(lines)
        for line in lines:
            self.read(line, line["index"])
        for pid in list(self.stops):
            self.runs(pid, lines[-1]["index"] + 1)

    def look_at(self, lines: list[Object]) -> None:
        """Looks at all lines first."""

    def before(self, line: Object, at: int) -> None:
        """Ends the stops that a line ends."""

    def after(self, line: Object, at: int) -> None:
        """Begins the stops that a line begins."""

    def owner(self, lwp: int, user: int) -> int:
        """The process of an LWP; the user's row if it isn't known."""
        return self.owners.get(lwp, USER_ROW + user)

    def first_lwp(self, pid: int) -> int:
        """The first LWP of a process; its calls if none is known."""
        return min((lwp for lwp, owner in self.owners.items() if owner == pid), default=pid)

    def read(self, line: Object, at: int) -> None:
        """Adds the events of a line."""
        if "rows" not in line:  # else its rows have told
            self.name_new(line)
        place = self.place(line)
        self.users.setdefault(place[0], line["user"])
        self.rows.add(place)
        is_report = line["reply"] == "handled" or (line["reply"] == "status" and "stopped" in line)
        if is_report:
            self.report(line["pid"], at, place)
        self.before(line, at)
        self.add_step(line, at, place)
        self.after(line, at)
        if is_report:  # the stop may be known only by its report
            self.report(line["pid"], at, place)

    def name_new(self, line: Object) -> None:
        if line["reply"] == "new":
            self.owners[line["lwp"]] = line["pid"]

    def place(self, line: Object) -> tuple[int, int]:
        """The process and the row in it where a step is drawn."""
        asked, user = line["asked"], line["user"]
        if asked["op"] == "turn":
            return self.owner(asked["lwp"], user), asked["lwp"]
        if "caller" in asked:
            return asked["caller"], asked["caller"]
        if line["reply"] == "new":
            return line["pid"], line["pid"]
        return USER_ROW + user, USER_ROW + user

    def add(self, phase: str, at: int, place: tuple[int, int], **more: Any) -> None:
        pid, tid = place
        self.events.append({"ph": phase, "ts": at, "pid": pid, "tid": tid, **more})

    def add_step(self, line: Object, at: int, place: tuple[int, int]) -> None:
        asked = line["asked"]
        reply = {key: value for key, value in line.items() if key not in ("user", "step", "index", "asked", "rows")}
        args = {"user": line["user"], "step": line["step"], "index": at, "asked": asked, "reply": reply}
        self.add("X", at, place, dur=1, name=f"{title(asked)}: {line['reply']}", cat=asked["op"], args=args)

    def stop(self, pid: int, stop: Stop, user: int) -> None:
        """A process stops."""
        self.runs(pid, stop.since)
        self.users.setdefault(pid, user)
        self.rows.add((pid, stop.lwp))
        self.stops[pid] = stop

    def report(self, pid: int, at: int, place: tuple[int, int]) -> None:
        """A step reports the stop of a process."""
        stop = self.stops.get(pid)
        if stop and stop.report is None:
            stop.report = at, place

    def runs(self, pid: int, at: int) -> None:
        """Ends the stop of a process, if it is in one."""
        stop = self.stops.pop(pid, None)
        if stop is None or at <= stop.since:
            return
        row = (pid, stop.lwp)
        self.add("X", stop.since, row, dur=at - stop.since, name=stop.name, cat="stop", args={})
        if stop.report is not None:
            self.flows += 1
            flow: Object = {"id": self.flows, "name": "report", "cat": "report"}
            self.add("s", stop.since, row, **flow)
            self.add("f", *stop.report, bp="e", **flow)

    def sorted(self) -> list[Object]:
        """The events: names first, then by time."""

        def order(event: Object) -> tuple[int, int]:
            is_stop = event["ph"] == "X" and event["cat"] == "stop"
            return event["ts"], ORDER["X stop" if is_stop else event["ph"]]

        return self.names() + sorted(self.events, key=order)

    def names(self) -> list[Object]:
        """The events that name processes and LWPs."""
        named = []
        for pid, user in sorted(self.users.items()):
            name = f"user {user}" if pid > USER_ROW else f"process of user {user}"
            named.append(named_event("process_name", pid, pid, name=name))
            named.append(named_event("process_sort_index", pid, pid, sort_index=pid))
        for pid, tid in sorted(self.rows):
            named.append(named_event("thread_name", pid, tid, name="calls" if pid == tid else "LWP"))
        return named


class EventsByRows(Events):
    """The rows of a trace (--json=trace+rows) say when each stop begins and ends."""

    def look_at(self, lines: list[Object]) -> None:
        self.lwps: dict[int, Object] = {}

    def read(self, line: Object, at: int) -> None:
        for lwp in line["rows"].get("removed_lwps", ()):
            self.lwps.pop(lwp, None)
        for row in line["rows"].get("lwps", ()):
            self.lwps[row["lwp"]] = row
            self.owners[row["lwp"]] = row["pid"]
        super().read(line, at)

    def first_lwp(self, pid: int) -> int:
        return min((lwp for lwp, row in self.lwps.items() if row["pid"] == pid), default=pid)

    def before(self, line: Object, at: int) -> None:
        rows = line["rows"]
        for pid in rows.get("removed_processes", ()):
            self.runs(pid, at)
        for row in rows.get("processes", ()):
            stop = self.stops.get(row["pid"])
            if stop and stop.kind != kind_of(row):
                self.runs(row["pid"], at)

    def after(self, line: Object, at: int) -> None:
        for row in line["rows"].get("processes", ()):
            kind = kind_of(row)
            if kind and row["pid"] not in self.stops:
                lwp = row.get("stop_lwp") or self.first_lwp(row["pid"])
                flags = self.lwps.get(lwp, {}).get("flags", ()) if row["state"] == "trace_stop" else ()
                self.stop(row["pid"], Stop(at, lwp, stop_text(row["stop_signal"], flags), kind), line["user"])


class EventsByReplies(Events):
    """The replies of a trace show most stops: a stop is taken to last until one shows that the process runs."""

    def look_at(self, lines: list[Object]) -> None:
        """The process of each LWP that a reply shows, beside those of `new`: it may be a followed child."""
        for line in lines:
            asked, reply = line["asked"], line["reply"]
            target = asked.get("target", LAST_PROCESS + 1)
            if reply == "handled":
                self.owners.setdefault(line["at"]["lwp"], line["pid"])
            elif target <= LAST_PROCESS:
                for lwp in [line["lwp"]] if reply == "info" else line["lwps"] if reply == "lwps" else []:
                    self.owners.setdefault(lwp, target)

    def process(self, target: int, user: int) -> int:
        """The process that a target means."""
        return target if target <= LAST_PROCESS else self.owner(target, user)

    def before(self, line: Object, at: int) -> None:
        asked, reply = line["asked"], line["reply"]
        if reply in ("error", "held"):
            return
        if asked.get("request") in ENDS_STOP:
            self.runs(self.process(asked["target"], line["user"]), at)
        elif reply == "handled" and line["decision"] in ("continue", "detach", "kill"):
            self.runs(line["pid"], at)
        elif reply == "status" and "stopped" not in line:
            self.runs(line["pid"], at)
        if asked["op"] == "turn":
            self.runs(self.owner(asked["lwp"], line["user"]), at)
        elif "caller" in asked:
            self.runs(asked["caller"], at)

    def after(self, line: Object, at: int) -> None:
        asked, reply, user = line["asked"], line["reply"], line["user"]
        if reply == "stopped":
            self.stop(self.owner(line["lwp"], user), Stop(at, line["lwp"], stop_text(line["signal"], line["flags"])), user)
        elif reply == "ok" and asked.get("request") == "PT_ATTACH":
            pid = self.process(asked["target"], user)
            self.stop(pid, Stop(at, self.first_lwp(pid), "SIGSTOP"), user)
        elif reply == "handled" and line["decision"] in ("leave", "decline") and line["pid"] not in self.stops:
            shown = line["at"]
            self.stop(line["pid"], Stop(at, shown["lwp"], stop_text(shown["signal"], shown["flags"])), user)
        elif reply == "status" and "stopped" in line and line["pid"] not in self.stops:
            # such as the first stop of a followed child
            self.stop(line["pid"], Stop(at, self.first_lwp(line["pid"]), line["stopped"]), user)


def kind_of(row: Object) -> Optional[tuple[object, ...]]:
    """What tells one stop of a process from another; None if it isn't stopped."""
    return (row["state"], row["stop_signal"], row.get("stop_lwp")) if "stop_signal" in row else None


def stop_text(signal: str, flags: Iterable[str]) -> str:
    """A stop in short: its signal and flags."""
    return " ".join([signal, *(flag.removeprefix("PL_FLAG_") for flag in flags)])


def title(asked: Object) -> str:
    """A step in short."""
    if asked["op"] == "turn":
        return " ".join(str(asked[key]) for key in ("act", "call", "signal") if key in asked)
    words = [asked.get("request", asked["op"]), *(asked[key] for key in ("target", "which", "signal") if key in asked)]
    return " ".join(str(word) for word in words)


def named_event(kind: str, pid: int, tid: int, **args: object) -> Object:
    return {"name": kind, "ph": "M", "pid": pid, "tid": tid, "args": args}
