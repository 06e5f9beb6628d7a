"""The broker (broker/): a process that runs the schedules it is told, in lines over a pair of pipes.

Many schedules may be on their way to it; each has an answer as soon as it was run.
"""

from __future__ import annotations

import fcntl
import os
import signal
import time
from collections import deque
from collections.abc import Callable, Iterable, Iterator, Sequence

from . import record
from .outcome import Answer, Outcome, Result, fault
from .program import REFUSED, NotRunnable
from .report import say_once
from .setting import Broken, Died, Setting, Task, text_of

AHEAD, ROOM = 64, 32768
"""The most schedules, and bytes of them, that are on their way: a pipe has room for twice as many bytes."""
NAP = 0.02
"""While half of these or more are on their way, answers are read when a quarter may be there, or after so many seconds: to be
woken up for each costs time."""
_LAST = ("passed ", "failed ", "repeats ", "broken ")


def find() -> str | None:
    """The broker of this runtime, if it is built: beside it, or where tracehost-cc builds for a clone that can't be written."""
    here = os.path.dirname(os.path.dirname(os.path.realpath(__file__)))
    own = os.path.join(here, "build", "tracehost-broker")
    if os.access(own, os.X_OK):
        return own
    import glob

    cache = os.environ.get("XDG_CACHE_HOME") or os.path.expanduser("~/.cache")
    clones = glob.glob(os.path.join(glob.escape(cache), "tracehost", "*", "source"))
    found = (
        os.path.join(os.path.dirname(clone), "build", "tracehost-broker") for clone in clones if os.path.realpath(clone) == here
    )
    return next((broker for broker in found if os.access(broker, os.X_OK)), None)


class Broker:
    """A broker, and the program that it runs."""

    def __init__(
        self, setting: Setting, quiet: bool = True, tells: bool = True, on: Iterable[int] | None = None, stays: bool = False
    ) -> None:
        """`on`: the processors on which it runs, and all that it starts; it `stays` on the one that the host gives it."""
        self.setting = setting
        self._output = -1
        self._status: int | None = None
        if quiet:
            self._output = os.memfd_create("tracehost-output", os.MFD_CLOEXEC)
            fcntl.fcntl(self._output, fcntl.F_SETFL, os.O_APPEND)
        requests, self._to = os.pipe()
        self._from, answers = os.pipe()
        try:
            self._pid = self._start(setting.broker, [requests, answers], on, stays)
        finally:
            os.close(requests)
            os.close(answers)
        self._asked: deque[tuple[Task, int]] = deque()
        """The schedules that aren't answered yet, and how long their lines are."""
        self._dropped: list[Task] = []
        """Those that it has passed over after a failure."""
        self._on_their_way = 0
        self._text = b""
        self._lines: deque[str] = deque()
        self._answer = Answer()
        self._on_failure: Callable[[int], None] | None = None
        try:
            self._server = self._begin(tells)
        except BaseException:
            self.close()
            raise

    def _start(self, broker: str, pipes: list[int], on: Iterable[int] | None, stays: bool) -> int:
        options, kill = self.setting.options, self.setting.kill_on_debugger_exit
        words = [
            *pipes,
            self._output,
            int(options.calls),
            int(options.strict),
            options.limit,
            options.patience,
            options.output_limit,
        ]
        words += [1 if kill is None else int(kill), int(stays)]
        inherited = [fd for fd in (*pipes, self._output) if fd >= 0]
        others = [(os.POSIX_SPAWN_CLOSE, fd) for fd in map(int, os.listdir("/proc/self/fd")) if fd > 2 and fd not in inherited]
        defaults = [signal.SIGPIPE, signal.SIGXFSZ]  # which Python ignores
        for fd in inherited:
            os.set_inheritable(fd, True)
        allowed = os.sched_getaffinity(0)
        if on is not None:
            os.sched_setaffinity(0, on)
        try:  # the module subprocess takes a while to load
            command = [broker, *map(str, words), *self.setting.command]
            return os.posix_spawn(broker, command, os.environ, file_actions=others, setsigdef=defaults)
        finally:
            for fd in inherited:
                os.set_inheritable(fd, False)
            if on is not None:
                os.sched_setaffinity(0, allowed)

    def _wait(self) -> int:
        """Its status, once it has ended."""
        if self._status is None:
            self._status = os.waitstatus_to_exitcode(os.waitpid(self._pid, 0)[1])
        return self._status

    def _begin(self, tells: bool) -> int:
        """The number of the program's server."""
        while True:
            name, _, rest = self._line().partition(" ")
            if name == "ready":
                return int(rest)
            if name == "note" and tells:
                say_once(rest)
            elif name == "unstarted":
                raise NotRunnable(f"{self.setting.command[0]}: {os.strerror(int(rest))}")
            elif name == "refused" and int(rest) == REFUSED:
                raise NotRunnable(self._printed().decode("utf-8", "replace").strip().removeprefix("tracehost: "))
            elif name == "refused":
                raise NotRunnable(f"{self.setting.command[0]}: it has ended before main(), with status {rest}")
            elif name == "broken":
                raise Broken(fault(rest))

    # ---- lines

    def _line(self) -> str:
        while not self._lines:
            self._read()
        return self._lines.popleft()

    def _read(self) -> None:
        got = os.read(self._from, 65536)
        if not got:
            name = f"{self._asked[0][0].name()}: " if self._asked else ""
            status = self._wait()
            raise Died(f"{name}the broker has ended with status {status}")
        *lines, self._text = (self._text + got).split(b"\n")
        self._lines.extend(line.decode("utf-8", "replace") for line in lines)

    def _line_of(self, task: Task, wants: str) -> bytes:
        """What asks for it."""
        if task.switches is not None:
            schedule = f"switches {text_of(task.switches, task.asleep)}"
        elif task.seed is None:
            schedule = "plain"
        elif task.depth is not None:
            schedule = f"pct {task.seed} {task.depth} {task.length}"
        else:
            schedule = f"seed {task.seed} {int(self.setting.early)}"
        wants += "c" * self.setting.options.coverage + (f"p{task.points}" if task.points else "")
        line = f"{wants or '-'} {schedule}\n".encode()
        self._asked.append((task, len(line)))
        self._on_their_way += len(line)
        return line

    def _write(self, line: bytes) -> None:
        try:
            while line:
                line = line[os.write(self._to, line) :]
        except BrokenPipeError:  # it has ended: the read of its answer finds that
            pass

    def _answered(self) -> Result:
        """The answer to the schedule that was asked first."""
        line = ""
        self._answer = Answer()
        try:
            line = self._heard()
            return self._answer.result(line, self.setting.options)
        except (IndexError, KeyError, ValueError) as why:
            raise Broken(f"the broker's answer makes no sense: {line!r}") from why

    def _heard(self) -> str:
        """The last line of it."""
        task, length = self._asked[0]
        while True:
            line = self._line()
            name, _, rest = line.partition(" ")
            if name == "halt":
                if self._on_failure is not None:
                    self._on_failure(int(rest))
                self._write(b"go\n")
            elif not line.startswith(_LAST):
                self._answer.take(line)
            elif name == "broken":
                raise Broken(f"{task.name()}: {fault(rest)}")
            else:
                self._asked.popleft()
                self._on_their_way -= length
                if name == "failed":
                    self._pass_over()
                return line

    def _pass_over(self) -> None:
        """After a failure the broker passes over what it was told before it is told to go on: a search has ended."""
        self._dropped = [task for task, _ in self._asked]
        self._asked.clear()
        self._on_their_way = 0
        self._write(b"on\n")

    def ask_again(self) -> None:
        """Asks for what it has passed over."""
        dropped, self._dropped = self._dropped, []
        self.ask(dropped)

    def _printed(self) -> bytes:
        if self._output < 0:
            return b""
        return os.pread(self._output, os.fstat(self._output).st_size, 0)

    # ---- runs

    def _judged(self, outcome: Outcome, digest: bool) -> Result:
        """The result with its digest, and after `tracehost --expect` was asked."""
        result = outcome.result
        if self.setting.verify and result.why is None:
            result = result._replace(why=record.verify(outcome.kept, self.setting))
        return result._replace(digest=record.digest(outcome.kept, outcome.output)) if digest else result

    def run(self, task: Task, on_failure: Callable[[int], None] | None = None, places: bool = False) -> Outcome:
        """One run, with all that a record has of it."""
        self._dropped, self._on_failure = [], on_failure
        self._write(self._line_of(task, "t" + "l" * places + "h" * (on_failure is not None)))
        result = self._answered()
        return Outcome(result, self._answer.kept, self._printed(), self._answer.places, self._answer.blamed)

    def result(self, task: Task, digest: bool = False) -> Result:
        """One run, as what a search needs of it. A seed that makes the plain schedule's choices has its result."""
        if digest or self.setting.verify:
            return self._judged(self.run(task), digest)
        self._dropped = []
        self.ask([task])
        return self._answered()

    def results(self, tasks: Iterator[Task], digest: bool) -> Iterator[tuple[Task, Result]]:
        """The same of many, in their order."""
        if digest or self.setting.verify:
            yield from ((task, self.result(task, digest)) for task in tasks)
            return
        more, began, answered = True, time.monotonic(), 0
        while more or self._asked or self._dropped:
            self.ask_again()
            asked: list[Task] = []
            while more and len(self._asked) + len(asked) < AHEAD and self._on_their_way < ROOM:
                task = next(tasks, None)
                more = task is not None
                if task is not None:
                    asked.append(task)
            self.ask(asked)
            if len(self._asked) >= AHEAD // 2 and answered > 0:
                time.sleep(min(NAP, AHEAD / 4 * (time.monotonic() - began) / answered))
            for pair in self._pairs():
                answered += 1
                yield pair

    def ask(self, tasks: Sequence[Task]) -> None:
        """More may be asked before the first is answered, as long as their lines fit the pipe."""
        self._write(b"".join(self._line_of(task, "") for task in tasks))

    def answers(self) -> Iterator[Result]:
        """The next answer, and those that are there already."""
        return (result for _, result in self._pairs())

    def _pairs(self) -> Iterator[tuple[Task, Result]]:
        """The same, with what was asked."""
        self.ask_again()
        yield self._asked[0][0], self._answered()
        while self._asked and any(line.startswith(_LAST) for line in self._lines):
            yield self._asked[0][0], self._answered()

    def fileno(self) -> int:
        """This can be read when there is an answer."""
        return self._from

    def unanswered(self) -> list[Task]:
        """What it was asked and hasn't answered."""
        return [*self._dropped, *(task for task, _ in self._asked)]

    def pids(self) -> list[int]:
        """The processes that live longer than a run."""
        return [self._pid, self._server]

    def close(self) -> None:
        """Ends it, and the program."""
        os.close(self._to)
        os.close(self._from)
        self._wait()
        if self._output >= 0:
            os.close(self._output)
