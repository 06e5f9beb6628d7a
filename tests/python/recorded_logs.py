"""Logs, as libtracehost-log.so writes them, of recorded runs of the model: what each LWP asked and was told, without the turns.

The record knows these turns, so such a log has an explanation.
"""

from __future__ import annotations

import json
from collections.abc import Sequence
from pathlib import Path
from typing import Any, NamedTuple, Optional

from tracehost import Signal

_CODES = {26: "ptrace", 7: "wait4", 37: "kill", 416: "sigaction", 340: "sigprocmask", 433: "raise"}
_CALLS = {
    "fork": "fork",
    "vfork": "vfork",
    "exec": "execve",
    "thr_new": "pthread_create",
    "thr_exit": "pthread_exit",
    "exit": "exit",
}
_UNTOLD = ("vfork", "execve", "exit", "pthread_exit")
_TOLD, _BEGINS, _ASKS = range(3)


class Step(NamedTuple):
    """A step of a record, and the words of its reply."""

    asked: dict[str, Any]
    reply: list[str]


def read_record(path: Path) -> list[Step]:
    """The steps of the only user of a record of tracehost-run."""
    steps = json.loads(path.read_text())["steps"]
    lines = Path(f"{path}.lines").read_text().splitlines()
    assert len(steps) == len(lines)
    return [Step(step, line.split()[2:]) for step, line in zip(steps, lines)]


class _Episode:
    """A call of an LWP."""

    def __init__(self, lwp: int, call: str, began: int) -> None:
        self.lwp, self.call, self.began = lwp, call, began
        self.effect: Optional[Step] = None
        self.left = False
        self.told: Optional[int] = None
        self.code = 0
        self.made = 0


class _Lwp:
    def __init__(self, pid: int, origin: Optional[_Episode]) -> None:
        self.pid, self.origin = pid, origin
        self.has_begun = False
        self.open: Optional[_Episode] = None
        self.is_image = False
        self.has_caught = False
        self.blocked: list[int] = []
        self.masked: list[tuple[list[int], Optional[_Episode]]] = []
        """What was blocked before each handler and each sigsuspend that goes on, which are blocks without a call."""


class Converter:
    """Takes the steps of a record in turn."""

    def __init__(self, steps: Sequence[Step], seed: int) -> None:
        self._steps = steps
        self._lwps: dict[int, _Lwp] = {}
        self._found: list[tuple[int, int, int, str, Any]] = []
        self._last = {"pid": 999, "lwp": 99_999}
        self._seed = seed

    def host(self, number: int) -> int:
        """The host's number of a process or an LWP: any other one."""
        if not 1000 <= number < 2000 and not 100_000 <= number < 104_000:
            return number
        first = 1000 if number < 100_000 else 100_000
        return first + 3000 + (number - first) * 7 % 997 + self._seed % 13

    def take(self, at: int, step: Step) -> None:
        asked, reply = step
        if asked["op"] == "spawn":
            assert reply[0] == "new"
            self._new(int(reply[1]), int(reply[2]), None)
            self._begin(at, int(reply[2]))
        elif asked["op"] == "turn":
            self._turn(at, asked["lwp"], step)
        elif asked["op"] != "list":
            self._effect(at, step)

    def _new(self, pid: int, lwp: int, origin: Optional[_Episode]) -> None:
        self._lwps[lwp] = _Lwp(pid, origin)
        self._last = {"pid": max(pid, self._last["pid"]), "lwp": lwp}

    def _begin(self, at: int, number: int) -> None:
        lwp = self._lwps[number]
        if not lwp.has_begun or lwp.is_image:
            self._found.append((at, _BEGINS, number, "begins", lwp.origin if not lwp.has_begun else None))
            lwp.has_begun, lwp.is_image = True, False

    def _effect(self, at: int, step: Step) -> None:
        """A step of a process is that of its LWP that is in such a call, and leaves it next."""
        if step.reply[0] == "held" or (step.reply == ["nothing"] and "WNOHANG" not in step.asked["options"]):
            return
        pid, call = step.asked["caller"], step.asked["op"]
        able = self._in_call(pid, call)
        if not able or (call == "wait4" and self._is_of_broker(at, step)):
            return
        turns = (later.asked for later in self._steps[at + 1 :] if later.asked.get("lwp") in able)
        turn = next(turns, None)
        if turn is not None and turn["act"] == "leave":
            able[turn["lwp"]].effect = step

    def _in_call(self, pid: int, call: str) -> dict[int, _Episode]:
        """The LWPs of a process that are in such a call, and have no answer."""
        return {
            number: lwp.open
            for number, lwp in self._lwps.items()
            if lwp.pid == pid and lwp.open and not lwp.open.left and not lwp.open.effect and lwp.open.call == call
        }

    def _is_of_broker(self, at: int, step: Step) -> bool:
        """The broker passes over a stop by a wait and a request to go on."""
        after = self._steps[at + 1].asked if at + 1 < len(self._steps) else {}
        is_resuming = after.get("request") in ("PT_CONTINUE", "PT_STEP") and after.get("target") == step.asked["which"]
        return is_resuming and after["caller"] == step.asked["caller"] and not self._in_call(after["caller"], "ptrace")

    def _turn(self, at: int, number: int, step: Step) -> None:
        lwp, act, reply = self._lwps[number], step.asked["act"], step.reply[0]
        if reply in ("held", "error"):
            return
        lwp.has_caught = lwp.has_caught or reply == "caught"
        is_stop = reply == "stopped"
        if act == "leave" and (not is_stop or "SCX" in step.reply[-1]):
            self._leave(at, number, step)
        elif is_stop and not (act == "enter" and "SCE" in step.reply[-1]):
            return
        elif reply == "caught" or act == "compute":
            if reply in ("ok", "caught"):
                self._runs(at, number)
        elif reply == "ended":
            return
        else:
            self._runs(at, number)
            self._act(at, number, step, lwp)

    def _runs(self, at: int, number: int) -> None:
        """The LWP runs in user mode."""
        lwp = self._lwps[number]
        self._begin(at, number)
        open = lwp.open
        if open is not None and open.left and (open.effect is not None or open.call in _CALLS.values()):
            self._close(at, lwp, open)

    def _close(self, at: int, lwp: _Lwp, open: _Episode) -> None:
        if open.call not in _UNTOLD:
            self._found.append((at, _TOLD, open.lwp, "told", open))
        lwp.open = None

    def _act(self, at: int, number: int, step: Step, lwp: _Lwp) -> None:
        act, open = step.asked["act"], lwp.open
        if act == "enter":
            call = _CODES.get(step.asked.get("code", 0), "") if step.asked["call"] == "other" else _CALLS[step.asked["call"]]
            if call and not (open is not None and open.call == call and open.effect is None):
                lwp.open = _Episode(number, call, at)
                lwp.open.code = step.asked.get("code", 0)
                self._found.append((at, _ASKS, number, "asks", lwp.open))
            elif open is not None:
                open.left = False
        elif open is not None and open.left and open.effect is None and open.call in ("raise", "sigprocmask"):
            open.effect = step
            lwp.blocked = sorted(step.asked.get("set", lwp.blocked))
        elif act == "block":
            self._block(at, number, step, lwp)

    def _block(self, at: int, number: int, step: Step, lwp: _Lwp) -> None:
        mask = sorted(step.asked["set"])
        turns = (other.asked for other in self._steps[at + 1 :] if other.asked.get("lwp") == number)
        ends_handler = bool(lwp.masked) and lwp.masked[-1] == (mask, None)
        later = next(turns, None)
        if lwp.has_caught:
            lwp.has_caught = False
            lwp.masked.append((lwp.blocked, None))
        elif later is not None and later.get("code") == 341 and not ends_handler:
            suspend = _Episode(number, "sigsuspend", at)
            suspend.effect = step
            self._found.append((at, _ASKS, number, "asks", suspend))
            lwp.masked.append((lwp.blocked, suspend))
        elif lwp.masked and lwp.masked[-1][0] == mask:
            _, ended = lwp.masked.pop()
            if ended is not None:
                self._found.append((at, _ASKS + 1, number, "told", ended))
        else:
            lwp.masked.append((lwp.blocked, None))
        lwp.blocked = mask

    def _leave(self, at: int, number: int, step: Step) -> None:
        lwp = self._lwps[number]
        open = lwp.open
        if open is None:
            return
        open.left = True
        if open.call in ("fork", "vfork"):
            open.made = self._last["pid"] + 1
            self._new(open.made, self._last["lwp"] + 1, open)
            self._lwps[self._last["lwp"]].blocked = lwp.blocked
        elif open.call == "pthread_create":
            self._new(lwp.pid, self._last["lwp"] + 1, None)
            self._lwps[self._last["lwp"]].blocked = lwp.blocked
            self._last["pid"] = max(other.pid for other in self._lwps.values())
        elif open.call == "execve":
            lwp.is_image = True

    # ---- lines

    def lines(self, kill_on_debugger_exit: bool) -> list[str]:
        """The lines of the log, without line feeds."""
        numbers: dict[int, int] = {}
        stacks: dict[int, list[tuple[int, _Episode]]] = {}
        calls: dict[int, tuple[int, int]] = {}
        made = []
        for _, _, number, kind, what in sorted(self._found, key=lambda item: item[:2]):
            who = f"{self.host(self._lwps[number].pid)}/{self.host(number)}"
            if kind == "begins":
                numbers[number], stacks[number] = 0, []
                made.append(f"{who} 0 begins{self._origin(number, what, calls, kill_on_debugger_exit)}")
            elif kind == "asks":
                numbers[number] += 1
                stack = stacks[number]
                within = f" within={stack[-1][0]}" if stack else ""
                calls[id(what)] = (number, numbers[number])
                made.append(f"{who} {numbers[number]} asks {what.call}{within}{self._asked(what)}")
                if what.call != "vfork":
                    stack.append((numbers[number], what))
            elif stacks[number] and stacks[number][-1][1] is what:
                made.append(f"{who} {stacks[number].pop()[0]} told {self._told(what)}")
        return made

    def _origin(self, number: int, origin: Any, calls: dict[int, tuple[int, int]], kills: bool) -> str:
        if origin is not None:
            lwp, call = calls[id(origin)]
            return f" {origin.call}={self.host(self._lwps[lwp].pid)}/{self.host(lwp)}.{call}"
        if any(lwp.pid == self._lwps[number].pid for other, lwp in self._lwps.items() if other < number):
            return " thread"
        return f" log=1 system=tracehost-run parent=1 blocked=- ignored=- kill_on_debugger_exit={int(kills)} program=model"

    def _asked(self, open: _Episode) -> str:
        if open.call in _CALLS.values():
            return f" code={open.code}" if open.call == "exit" else ""
        if open.effect is None:
            return " pid=-1 options=-" if open.call == "wait4" else " signal=0 pid=1 how=- action=- request=PT_READ_D"
        asked = open.effect.asked
        if open.call == "wait4":
            return f" pid={self.host(asked['which'])} options={','.join(asked.get('options', ())) or '-'}"
        if open.call == "kill":
            return f" pid={self.host(asked['which'])} signal={signal_name(asked['signal'])}"
        if open.call == "sigaction":
            return f" signal={signal_name(asked['signal'])} action={asked['action']}"
        if open.call == "sigprocmask":
            return f" how=set signals={','.join(map(signal_name, asked['set'])) or '-'}"
        if open.call == "sigsuspend":
            return f" signals={','.join(map(signal_name, asked['set'])) or '-'}"
        if open.call == "raise":
            return f" signal={signal_name(asked['signal'])}"
        return self._request(asked)

    def _request(self, asked: dict[str, Any]) -> str:
        text = f" request={asked['request']} pid={self.host(asked.get('target', 0))}"
        if "mask" in asked:
            return f"{text} events={','.join(asked['mask']) or '-'}"
        if asked["request"] in ("PT_GETLWPLIST", "PT_FOLLOW_FORK", "PT_LWP_EVENTS"):
            return f"{text} data={asked.get('data', 0)}"
        if asked["request"] in ("PT_TRACE_ME", "PT_ATTACH", "PT_KILL", "PT_LWPINFO", "PT_GETNUMLWPS", "PT_SUSPEND", "PT_RESUME"):
            return text
        return f"{text} data={signal_name(asked.get('data', 0))}"

    def _told(self, open: _Episode) -> str:
        if open.call == "fork":
            return str(self.host(open.made))
        if open.call == "sigsuspend":
            return "-1 errno=EINTR"
        if open.effect is None:
            return "0"
        reply = open.effect.reply
        if reply[0] == "error":
            return f"-1 errno={reply[1]}"
        if reply[0] == "status":
            return f"{self.host(int(reply[1]))} status={status_text(int(reply[2]))}"
        if reply[0] == "number":
            return reply[1]
        if reply[0] == "lwps":
            return f"{len(reply) - 1} lwps={','.join(str(self.host(int(lwp))) for lwp in reply[1:])}"
        if reply[0] == "mask":
            return f"0 events={reply[1].replace('+', ',') if reply[1] != 'none' else '-'}"
        return self._info(reply) if reply[0] == "info" else "0"

    def _info(self, reply: Sequence[str]) -> str:
        words = dict(word.split("=") for word in reply[3:])
        sets = [words[name].split(",") if words[name] != "none" else [] for name in ("mask", "pending")]
        mask, pending = (",".join(signal_name(int(item)) for item in items) or "-" for items in sets)
        flags = words["flags"].replace("+", ",") if words["flags"] != "none" else "-"
        text = f"0 lwp={self.host(int(reply[1]))} event={reply[2].lower()} flags={flags} mask={mask} pending={pending}"
        return f"{text} child={self.host(int(words['child']))} code={words['code']}"


def signal_name(number: int) -> str:
    return Signal(number).name if number in [signal.value for signal in Signal] else str(number)


def status_text(word: int) -> str:
    if word == 19:
        return "continued"
    if word & 0x7F == 0x7F:
        return f"stopped:{signal_name(word >> 8)}"
    return f"signaled:{signal_name(word)}" if word & 0x7F else f"exited:{word >> 8}"


def log_of(steps: Sequence[Step], seed: int = 0, kill_on_debugger_exit: bool = True) -> list[str]:
    """The lines of a log of these steps."""
    converter = Converter(steps, seed)
    for at, step in enumerate(steps):
        converter.take(at, step)
    return converter.lines(kill_on_debugger_exit)
