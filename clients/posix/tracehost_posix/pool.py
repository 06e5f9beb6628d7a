"""Runs on several processors: workers, each with a program and a model of its own."""

from __future__ import annotations

import os
import select
import signal
import time
from abc import ABC, abstractmethod
from collections import Counter, deque
from collections.abc import Iterable, Iterator
from itertools import chain
from typing import TYPE_CHECKING, Union

from .broker import Broker
from .outcome import Result
from .program import NotRunnable
from .setting import Died, Setting, Task

if TYPE_CHECKING:
    from multiprocessing.connection import Connection

_PR_SET_PDEATHSIG = 1
DEATHS = 3
"""How often a task whose worker died is tried."""
WINDOW = 1 << 16
"""So many tasks are given out beyond one that isn't answered yet: the others go on beside a run that is slow."""
_SAMPLE = 0.05
"""The seconds of a look at which processors have nothing to do."""


class WorkerEnded(Exception):
    """Workers end before they have answered."""


class Processors:
    """Those that this process may use, looked at from now on: proc_stat(5)."""

    def __init__(self) -> None:
        self._began, self._before = time.monotonic(), _idle_ticks()

    def are_known(self) -> bool:
        """Whether they were looked at for long enough."""
        return time.monotonic() - self._began >= _SAMPLE

    def found(self) -> list[int]:
        """The idlest first."""
        time.sleep(max(0.0, self._began + _SAMPLE - time.monotonic()))
        after = _idle_ticks()
        idle = {cpu: after.get(cpu, 0) - self._before.get(cpu, 0) for cpu in os.sched_getaffinity(0)}
        return sorted(idle, key=lambda cpu: (-idle[cpu], cpu))


def _idle_ticks() -> dict[int, int]:
    try:
        with open("/proc/stat") as file:
            lines = [line.split() for line in file if line.startswith("cpu") and line[3] != " "]
    except OSError:
        return {}
    return {int(words[0][3:]): int(words[4]) for words in lines}


def _stay(pids: Iterable[int], processors: Iterable[int]) -> None:
    for pid in pids:
        try:
            os.sched_setaffinity(pid, processors)
        except OSError:  # it is gone, or not ours
            pass


class Seat:
    """The processor on which a process and those that it starts run: of a run one thread goes on at a time, and another
    processor would have to wake up for each. It is left if the process has to wait there for most of a second."""

    def __init__(self, processor: int, pid: int = 0, pids: Iterable[int] = ()) -> None:
        self._pid = pid
        self._allowed = os.sched_getaffinity(0)
        self._left = False
        self._since, self._delay = time.monotonic(), _delay(pid)
        _stay([pid, *pids], {processor})

    def look(self, pids: Iterable[int]) -> None:
        """Leaves it, together with these processes, if others have it."""
        now = time.monotonic()
        if self._left or now - self._since < 1:
            return
        delay = _delay(self._pid)
        self._left = delay - self._delay > 0.5 * (now - self._since)
        self._since, self._delay = now, delay
        if self._left:
            _stay([self._pid, *pids], self._allowed)


def _delay(pid: int) -> float:
    """For how many seconds the process could have run, and didn't."""
    try:
        with open(f"/proc/{pid or 'self'}/schedstat") as file:
            return int(file.read().split()[1]) / 1e9
    except (OSError, ValueError, IndexError):
        return 0.0


def seated(setting: Setting, processor: int, tells: bool = True) -> tuple[Broker, Seat]:
    """A broker on this processor."""
    broker = Broker(setting, tells=tells, on={processor})
    return broker, Seat(processor, broker.pids()[0])


class Worker(ABC):
    """Runs tasks in the order in which it is given them."""

    ahead: int
    """So many tasks it is given before it answers."""

    def __init__(self) -> None:
        self.given: deque[int] = deque()
        """The numbers of its tasks, in order."""

    @abstractmethod
    def fileno(self) -> int:
        """This can be read when there is an answer."""

    @abstractmethod
    def send(self, task: Task) -> None:
        """Gives it a task."""

    @abstractmethod
    def receive(self) -> list[Union[Result, Exception]]:
        """Its next answers; EOFError, ConnectionError or Died if it has died."""

    @abstractmethod
    def close(self) -> None:
        """Ends it."""


class Forked(Worker):
    """A process that runs tasks; it ends with its pipe, or with the process that has started it."""

    ahead = 4

    def __init__(self, setting: Setting, digest: bool, others: Iterable[Worker], processor: int, tells: bool) -> None:
        import ctypes
        from multiprocessing.connection import Pipe

        super().__init__()
        self._pipe, given = Pipe()
        self.pid = os.fork()
        if self.pid == 0:
            ctypes.CDLL(None).prctl(_PR_SET_PDEATHSIG, signal.SIGKILL)
            self._pipe.close()
            for other in others:
                os.close(other.fileno())
            status = 1
            try:
                _serve(given, setting, digest, tells, processor)
                status = 0
            except (EOFError, OSError, KeyboardInterrupt):
                pass
            finally:
                os._exit(status)
        given.close()

    def fileno(self) -> int:
        return self._pipe.fileno()

    def send(self, task: Task) -> None:
        self._pipe.send(task)

    def receive(self) -> list[Union[Result, Exception]]:
        return [self._pipe.recv()]

    def close(self) -> None:
        self._pipe.close()
        if self.given:  # it may be in a run that hangs, and doesn't look at its pipe
            os.kill(self.pid, signal.SIGINT)
        os.waitpid(self.pid, 0)


class Direct(Worker):
    """A broker."""

    ahead = 16

    def __init__(self, setting: Setting, processor: int, tells: bool, keeps_going: bool) -> None:
        super().__init__()
        self._broker, self._seat = seated(setting, processor, tells)
        self._keeps_going = keeps_going

    def fileno(self) -> int:
        return self._broker.fileno()

    def send(self, task: Task) -> None:
        self._broker.ask([task])

    def receive(self) -> list[Union[Result, Exception]]:
        self._seat.look(self._broker.pids())
        answers: list[Union[Result, Exception]] = list(self._broker.answers())
        if self._keeps_going:
            self._broker.ask_again()
        return answers

    def close(self) -> None:
        self._broker.close()


def _serve(pipe: Connection, setting: Setting, digest: bool, tells: bool, processor: int) -> None:
    try:
        broker, seat = seated(setting, processor, tells)
    except NotRunnable as why:
        pipe.send(why)
        while True:  # tasks may be on their way: the pipe stays open until the pool closes it
            pipe.recv()
    try:
        while True:
            task = pipe.recv()
            seat.look(broker.pids())
            try:
                pipe.send(broker.result(task, digest))
            except Died:  # this worker ends with its broker
                raise
            except Exception as why:  # the one who waits has to hear of it
                pipe.send(why)
    finally:
        broker.close()


class Pool:
    """Runs tasks: with one job by one broker. Workers are started when there are tasks for them, and again if they die."""

    def __init__(self, setting: Setting, jobs: int, digest: bool = False, keeps_going: bool = False) -> None:
        """It `keeps_going` after a failure: else no more tasks are given out then."""
        self._setting, self._digest, self._jobs, self._keeps_going = setting, digest, jobs, keeps_going
        self._looks = Processors()
        self._processors: list[int] = []
        self._broker = Broker(setting, stays=True) if jobs == 1 else None
        self._seat: Seat | None = None
        self._workers: list[Worker] = []
        self._tasks: dict[int, Task] = {}
        self._deaths: Counter[str] = Counter()
        self._failed = False

    def results(self, tasks: Iterator[Task]) -> Iterator[tuple[Task, Result]]:
        """The results, in the order of the tasks. A task may be made from results that were given out before."""
        if self._broker is not None:
            yield from self._results_of_one(tasks)
            return
        done: dict[int, Result] = {}
        due = number = max(self._tasks, default=-1) + 1
        while True:
            number = self._give_out(tasks, number, due + WINDOW)
            if due == number:
                return
            if due not in done:
                self._receive(done)
                continue
            yield self._tasks.pop(due), done.pop(due)
            due += 1

    def _results_of_one(self, tasks: Iterator[Task]) -> Iterator[tuple[Task, Result]]:
        assert self._broker is not None
        while True:
            try:
                for answered in self._broker.results(tasks, self._digest):
                    self._sit(self._broker)
                    yield answered
                return
            except Died as why:
                left = self._broker.unanswered()
                self._count_death(left[0], why)
                self._broker.close()
                self._broker, self._seat = Broker(self._setting, tells=False, stays=True), None
                tasks = chain(left, tasks)

    def _count_death(self, first: Task, why: object) -> None:
        """Another worker does what one was given that has died at this task."""
        name = repr(first)
        self._deaths[name] += 1
        if self._deaths[name] == DEATHS:
            raise WorkerEnded(f"{DEATHS} workers have died: {why or first.name()}")

    def _sit(self, broker: Broker) -> None:
        """A single broker begins on the processor that the host chose, and moves to the idlest one once that is known."""
        if self._seat is not None:
            self._seat.look(broker.pids())
        elif self._looks.are_known():
            self._seat = Seat(self._looks.found()[0], broker.pids()[0], broker.pids())

    def _give_out(self, tasks: Iterator[Task], number: int, end: int) -> int:
        """Gives tasks to workers, until there are no more tasks or all have enough: the next task's number."""
        while number < end and self._has_room():
            task = next(tasks, None)
            if task is None:
                break
            self._tasks[number] = task
            self._send(self._least_busy(), number)
            number += 1
        return number

    def _has_room(self) -> bool:
        if self._failed and not self._keeps_going:
            return False
        return len(self._workers) < self._jobs or any(len(worker.given) < worker.ahead for worker in self._workers)

    def _least_busy(self) -> Worker:
        least = min(self._workers, key=lambda worker: len(worker.given), default=None)
        if (least is None or least.given) and len(self._workers) < self._jobs:
            least = self._start(len(self._workers))
        assert least is not None
        return least

    def _start(self, place: int) -> Worker:
        self._processors = self._processors or self._looks.found()
        processor, tells = self._processors[place % len(self._processors)], place == 0
        worker: Worker
        if not (self._digest or self._setting.verify):
            worker = Direct(self._setting, processor, tells, self._keeps_going)
        else:
            worker = Forked(self._setting, self._digest, self._workers, processor, tells)
        self._workers.insert(place, worker)
        return worker

    def _send(self, worker: Worker, number: int) -> None:
        worker.given.append(number)
        try:
            worker.send(self._tasks[number])
        except OSError:  # it has died: the read of its answer finds that
            pass

    def _receive(self, done: dict[int, Result]) -> None:
        busy = {worker.fileno(): worker for worker in self._workers if worker.given}
        for ready in select.select(list(busy), [], [])[0]:
            worker = busy[ready]
            try:
                answers = worker.receive()
            except (EOFError, ConnectionError, Died) as why:
                self._replace(worker, why)
                continue
            for answer in answers:
                if isinstance(answer, Exception):
                    raise answer
                done[worker.given.popleft()] = answer
                self._failed = self._failed or answer.why is not None

    def _replace(self, dead: Worker, why: Exception) -> None:
        self._count_death(self._tasks[dead.given[0]], why)
        dead.close()
        place = self._workers.index(dead)
        self._workers.remove(dead)
        worker = self._start(place)
        for number in dead.given:
            self._send(worker, number)

    def broker(self) -> Broker:
        """A broker for what comes after a search, which has ended."""
        self._end_workers()
        if self._broker is None:
            self._broker, self._seat = seated(self._setting, self._looks.found()[0], tells=False)
        return self._broker

    def _end_workers(self) -> None:
        for worker in self._workers:
            worker.close()
        self._workers = []

    def close(self) -> None:
        if self._broker is not None:
            self._broker.close()
        self._broker = None
        self._end_workers()
