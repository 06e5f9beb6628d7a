"""Which step comes next: by chance, mostly of processes and LWPs for which it does something."""

from __future__ import annotations

import random
from collections import Counter
from collections.abc import Callable, Iterator, Sequence
from functools import partial

from tracehost.names import EVENTS, OPTIONS, Signal

from .kinds import Kind
from .model import Lwp, Process, Rows

_CALLS = ("fork", "vfork", "exec", "thr_new", "thr_exit")
# how often a number is one that the user hasn't, or a value one that is refused
_STRANGE = 0.06
# how often a step is of processes that have to do with each other, and how often one that goes on with what they began
_AIMED, _GOES_ON = 0.75, 0.6
# how much more often a tracee that runs gets something to stop for
_EXCITES = 3
# calls of a process that runs, which their arguments refuse
_REFUSED_CALLS = {
    "kill no_signal_to_post": "kill {caller} {caller} 32",
    "kill no_groups": "kill {caller} -3 15",
    "kill process_gone": "kill {caller} {gone} 15",
    "wait4 no_groups": "wait4 {caller} 0",
    "wait4 no_child_of_number": "wait4 {caller} {caller}",
    "sigaction no_signal": "sigaction {caller} 32 ignore",
    "sigaction fixed_signal": "sigaction {caller} 9 ignore",
}
_PASSES = ("PT_CONTINUE", "PT_STEP", "PT_TO_SCE", "PT_TO_SCX", "PT_SYSCALL", "PT_DETACH")
# signals that stop, continue, end, or come by themselves are met more often than the rest
_OFTEN = tuple(Signal[name] for name in "SIGSTOP SIGCONT SIGTSTP SIGKILL SIGTERM SIGCHLD SIGUSR1 SIGTRAP".split())


class Numbers:
    """The numbers of a user that are no more, and those that others have."""

    def __init__(self) -> None:
        self.gone_processes: list[int] = []
        self.gone_lwps: list[int] = []
        self.others: list[int] = []


class Chooser:
    def __init__(self, chance: random.Random, kind: Kind, counts: Counter[str]) -> None:
        """`counts` are the goals that were reached so far."""
        self._chance, self._kind, self._counts = chance, kind, counts
        self._names, self._weights = list(kind.weights), list(kind.weights.values())
        self._makers: dict[str, Callable[[], str]] = {
            "spawn": lambda: "spawn",
            "list": lambda: f"list {self._caller()}",
            "kill": self._kill,
            "wait4": self._wait4,
            "sigaction": self._sigaction,
            "block": self._block,
            "raise": lambda: f"turn {self._lwp()} raise {self._signal()}",
            "exit": lambda: f"turn {self._lwp()} enter exit {self._chance.choice((0, 1, 7, 255))}",
            "other": lambda: f"turn {self._lwp()} enter other 20",
            "PT_TRACE_ME": lambda: f"ptrace {self._child()} PT_TRACE_ME",
            "PT_ATTACH": self._attach,
            **{call: self._entering(call) for call in _CALLS},
        }
        self._rows, self._seen = Rows({}, {}), Numbers()

    def step(self, rows: Rows, seen: Numbers) -> str:
        """The words of a step of the user with these rows, without the user."""
        self._rows, self._seen = rows, seen
        next_steps = self._next_steps() if self._is(_GOES_ON) else []
        if next_steps:
            return self._chance.choice(next_steps)()
        return self._named("spawn" if self._lacks_life() else self._chance.choices(self._names, self._weights)[0])

    def _named(self, name: str) -> str:
        maker = self._makers.get(name)
        return maker() if maker is not None else self._request(name)

    def _lacks_life(self) -> bool:
        """Whether it is time for a new process: with none that runs little can happen."""
        running = len(self._where(lambda row: row["state"] == "runs"))
        return running < 3 and self._is((0.6, 0.3, 0.1)[running])

    # ---- going on

    def _next_steps(self) -> list[Callable[[], str]]:
        """A wait for news, a request to a stopped process, and what makes a traced or stopped one go on."""
        steps: list[Callable[[], str]] = []
        for row in self._rows.processes.values():
            asker = self._rows.processes.get(row.get("tracer", row["parent"]))
            if asker is not None and asker["state"] == "runs":
                if _has_news(row):
                    steps.append(partial(self._collect, asker, row))
                elif row["state"] == "trace_stop":
                    steps.append(partial(self._command, asker, row))
            if row["state"] == "runs" and row.get("tracer"):
                steps += [partial(self._excite, row)] * _EXCITES
            if row["state"] == "job_stop":
                steps.append(partial(self._release, row))
        waiting = [lwp["vfork_child"] for lwp in self._rows.lwps.values() if lwp["mode"] == "waits_for_vfork"]
        steps += [partial(self._end_of_vfork, child) for child in waiting if self._rows.processes[child]["state"] == "runs"]
        return steps

    def _collect(self, asker: Process, row: Process) -> str:
        """A wait that gets the news of a process."""
        option = "WUNTRACED" if row["state"] == "job_stop" else "WCONTINUED" if row.get("continued") else ""
        return f"wait4 {asker['pid']} {self._chance.choice((-1, row['pid']))} {option}".rstrip()

    def _command(self, asker: Process, row: Process) -> str:
        """A request of the tracer."""
        requests = [name for name in self._names if name.startswith("PT_") and name not in ("PT_TRACE_ME", "PT_ATTACH")]
        name = self._chance.choices(requests, [self._kind.weights[name] for name in requests])[0]
        return self._request_to(name, asker["pid"], row["pid"])

    def _excite(self, row: Process) -> str:
        """What a traced process stops for: a signal, or a call of one of its LWPs."""
        if self._is(0.5):
            signals = [signal for signal in self._kind.signals if signal is not Signal.SIGKILL]
            self._chance.shuffle(signals)
            signal = min(signals, key=lambda signal: self._counts[f"stop {signal.name}"])
            return f"kill {self._caller()} {row['pid']} {int(signal)}"
        lwp = self._chance.choice(self._rows.of(row["pid"]))["lwp"]
        calls = [call for call in (*_CALLS, "other") if call in self._names]
        call = self._chance.choice(calls)
        return f"turn {lwp} enter {call} 20" if call == "other" else f"turn {lwp} enter {call}"

    def _end_of_vfork(self, child: int) -> str:
        return f"turn {self._rows.of(child)[0]['lwp']} enter {self._chance.choice(('exec', 'exit 3'))}"

    def _release(self, row: Process) -> str:
        """What ends a job stop."""
        caller = self._caller()
        if "PT_ATTACH" in self._names and self._is(0.4):
            return f"ptrace {caller} PT_ATTACH {row['pid']}"
        return f"kill {caller} {row['pid']} {int(self._chance.choice((Signal.SIGCONT, Signal.SIGKILL)))}"

    # ---- numbers

    def _is(self, often: float) -> bool:
        return self._chance.random() < often

    def _no_process(self) -> int:
        """A number that isn't a process of the user."""
        return self._chance.choice(
            [*self._seen.gone_processes, *self._seen.others, 999, 1 + max(self._rows.processes, default=1000)]
        )

    def _no_lwp(self) -> int:
        """A number that isn't an LWP of the user."""
        return self._chance.choice([*self._seen.gone_lwps, 1 + max(self._rows.lwps, default=100_000)])

    def _pid(self, processes: Sequence[Process] = ()) -> int:
        """A process, one of these if there are any."""
        if not self._rows.processes or self._is(_STRANGE):
            return self._no_process()
        if processes and self._is(_AIMED):
            return self._chance.choice(processes)["pid"]
        return self._chance.choice(list(self._rows.processes))

    def _where(self, holds: Callable[[Process], object]) -> list[Process]:
        return [row for row in self._rows.processes.values() if holds(row)]

    def _caller(self) -> int:
        if self._is(_STRANGE) and (stopped := self._where(lambda row: "stop" in row["state"])):
            return self._chance.choice(stopped)["pid"]
        return self._pid(self._where(lambda row: row["state"] == "runs"))

    def _child(self) -> int:
        return self._pid(self._where(lambda row: row["state"] == "runs" and row["parent"] != 1 and not row.get("tracer")))

    def _lwp(self, likely: Callable[[Process, Lwp], object] = lambda row, lwp: row["state"] == "runs") -> int:
        if not self._rows.lwps or self._is(_STRANGE):
            return 99_999 if self._is(0.3) else self._no_lwp()
        aimed = [number for number, lwp in self._rows.lwps.items() if likely(self._rows.processes[lwp["pid"]], lwp)]
        return self._chance.choice(aimed if aimed and self._is(_AIMED) else list(self._rows.lwps))

    def _signal(self, refused: Sequence[int] = (0, 32, 77)) -> int:
        if self._is(_STRANGE / 2):
            return self._chance.choice(refused)
        return int(self._chance.choice(_OFTEN if self._is(0.6) else self._kind.signals))

    # ---- steps

    def _kill(self) -> str:
        caller = self._caller()
        which = -1 if self._is(0.08) else self._chance.choice((0, -3)) if self._is(0.03) else self._pid()
        return f"kill {caller} {which} {self._signal((0, 0, 32, 77))}"

    def _sigaction(self) -> str:
        return f"sigaction {self._caller()} {self._signal()} {self._chance.choice(('default', 'ignore', 'catch', 'catch'))}"

    def _block(self) -> str:
        signals: list[int] = []
        if self._is(0.7):
            signals = sorted({int(self._chance.choice(self._kind.signals)) for _ in range(self._chance.choice((1, 3, 8)))})
        return " ".join(map(str, (f"turn {self._lwp()} block", *signals)))

    def _entering(self, call: str) -> Callable[[], str]:
        def may(row: Process, lwp: Lwp) -> bool:
            return row["state"] == "runs" and (call != "thr_exit" or len(self._rows.of(row["pid"])) > 1)

        return lambda: f"turn {self._lwp(may)} enter {call}"

    def _wait4(self) -> str:
        news = self._where(_has_news)
        parents = {row["parent"] for row in news} | {row["tracer"] for row in news if "tracer" in row}
        caller = self._pid(self._where(lambda row: row["pid"] in parents and row["state"] == "runs"))
        mine = self._where(lambda row: caller in (row["parent"], row.get("tracer")))
        which = -1 if self._is(0.6) else self._chance.choice((0, -3)) if self._is(0.03) else self._pid(mine)
        options = [name for name in OPTIONS if self._is(0.1 if name == "WNOHANG" else 0.4)]
        return " ".join((f"wait4 {caller} {which}", *options))

    def _attach(self) -> str:
        caller = self._caller()
        target = self._pid(self._where(lambda row: not row.get("tracer") and row["state"] != "zombie" and row["pid"] != caller))
        return f"ptrace {caller} PT_ATTACH {self._target(target)}"

    def _target(self, pid: int) -> int:
        """The process, or one of its LWPs."""
        lwps = self._rows.of(pid)
        often = 0.6 if len(lwps) > 1 else 0.1
        return self._chance.choice(lwps)["lwp"] if lwps and self._is(often) else pid

    # ---- refusals

    def refused_steps(self, rows: Rows, seen: Numbers) -> list[tuple[str, str]]:
        """Refusals, and words of steps that they answer: first those that were reached least often."""
        self._rows, self._seen = rows, seen
        refusals = [*self._refused_requests(), *self._refused_calls(), *self._refused_turns()]
        self._chance.shuffle(refusals)
        return sorted(refusals, key=lambda refusal: self._counts[refusal[0]])

    def _refused_requests(self) -> Iterator[tuple[str, str]]:
        requests = [name for name in self._names if name.startswith("PT_") and name != "PT_TRACE_ME"]
        for relation, (caller, target) in self._pairs().items():
            for name in requests:
                words = f"ptrace {caller} {name} {target}"
                if relation.startswith(("caller", "target")) or (relation and name != "PT_ATTACH"):
                    yield f"refusal {name} {relation}", words
                elif name in _PASSES:
                    yield f"refusal {name} no_signal_to_pass", f"{words} 32"
                elif name == "PT_GETLWPLIST":
                    yield f"refusal {name} no_count", words
                elif name == "PT_ATTACH" and relation != "not_traced" and caller != target:
                    yield f"refusal {name} traced_already", words

    def _refused_calls(self) -> Iterator[tuple[str, str]]:
        for relation, (caller, target) in self._pairs().items():
            if relation.startswith("caller"):
                for words in (f"list {caller}", f"kill {caller} {target} 0", f"wait4 {caller} -1", f"sigaction {caller} 15 ignore"):
                    yield f"refusal {words.split()[0]} {relation}", words
                if "PT_TRACE_ME" in self._names:
                    yield f"refusal PT_TRACE_ME {relation}", f"ptrace {caller} PT_TRACE_ME"
        running = self._where(lambda row: row["state"] == "runs")
        if not running:
            return
        row = self._chance.choice(running)
        for refusal, words in _REFUSED_CALLS.items():
            yield f"refusal {refusal}", words.format(caller=row["pid"], gone=self._no_process())
        if len(self._rows.processes) == 1:
            yield "refusal kill no_other_process", f"kill {row['pid']} -1 15"
        if "PT_TRACE_ME" in self._names and row["parent"] == 1 and not row.get("tracer"):
            yield "refusal PT_TRACE_ME parent_is_1", f"ptrace {row['pid']} PT_TRACE_ME"

    def _refused_turns(self) -> Iterator[tuple[str, str]]:
        for reason, idle in self._idle():
            for act in ("raise 30", "block 30", "enter fork"):
                yield f"refusal {act.split()[0]} {reason}", f"turn {idle} {act}"
        for number, lwp in self._rows.lwps.items():
            if self._rows.processes[lwp["pid"]]["state"] == "runs" and lwp["mode"] == "runs" and not lwp.get("suspended"):
                yield "refusal raise no_signal_to_raise", f"turn {number} raise {self._chance.choice((0, 32))}"

    def _idle(self) -> Iterator[tuple[str, int]]:
        """LWPs that get no turn, and why."""
        yield from (("lwp_gone", self._no_lwp()), ("no_number_of_lwp", self._pid()))
        for number, lwp in self._rows.lwps.items():
            state = self._rows.processes[lwp["pid"]]["state"]
            if state != "runs":
                yield f"lwp_in_{state}", number
            elif lwp.get("suspended"):
                yield "lwp_suspended", number
            elif lwp["mode"] == "waits_for_vfork":
                yield "lwp_waits", number

    # ---- requests

    def _request(self, name: str) -> str:
        """A request, of each relation between its caller and its target as often as of any other."""
        pairs = self._pairs()
        return self._with_data(f"ptrace {{}} {name} {{}}".format(*self._chance.choice(list(pairs.values()))), name)

    def _pairs(self) -> dict[str, tuple[int, int]]:
        """Of each relation a caller and a target; by the condition that refuses requests, if there is one."""
        pairs: dict[str, list[tuple[int, int]]] = {
            "target_process_gone": [(self._caller(), self._no_process())],
            "target_lwp_gone": [(self._caller(), self._no_lwp())],
            "target_is_0": [(self._caller(), 0)],
            "caller_gone": [(self._no_process(), self._pid())],
        }
        for caller in self._rows.processes.values():
            for target in self._rows.processes.values():
                pairs.setdefault(_relation(caller, target), []).append((caller["pid"], target["pid"]))
        return {relation: self._chance.choice(found) for relation, found in pairs.items()}

    def _request_to(self, name: str, caller: int, target: int) -> str:
        return self._with_data(f"ptrace {caller} {name} {self._target(target)}", name)

    def _with_data(self, words: str, name: str) -> str:
        if name == "PT_SET_EVENT_MASK":
            return " ".join((words, *(event for event in EVENTS if self._is(0.5))))
        if name == "PT_GETLWPLIST":
            return f"{words} {self._chance.choice((0, 1, 2, 8))}"
        if name in ("PT_FOLLOW_FORK", "PT_LWP_EVENTS"):
            return f"{words} {self._chance.choice((0, 1, 1))}"
        if name not in _PASSES or self._is(0.75):
            return words
        return f"{words} {self._chance.choice((32, 77)) if self._is(0.2) else self._signal()}"


def _relation(caller: Process, target: Process) -> str:
    """What a process is to one that asks for it: the condition that refuses most requests, or "" if none does."""
    if caller["state"] != "runs":
        return "caller_gone" if caller["state"] == "zombie" else f"caller_in_{caller['state']}"
    if target["state"] == "zombie":
        return "target_ended"
    if "tracer" not in target:
        return "not_traced"
    if target["tracer"] != caller["pid"]:
        return "traced_by_another"
    if target["state"] != "trace_stop":
        return "in_no_stop"
    return "" if target.get("reported") else "stop_not_told"


def _has_news(row: Process) -> bool:
    return row["state"] == "zombie" or (row["state"] != "runs" and not row.get("reported")) or bool(row.get("continued"))
