"""The command line of tracehost-run."""

from __future__ import annotations

import os
import resource
import sys
import time
from collections.abc import Callable, Iterator, Sequence
from typing import TYPE_CHECKING, Any

from . import record, report, rooms
from .broker import Broker, find
from .describe import Met
from .kept import Kept
from .many import Search
from .options import USAGE, model_of, one_of, parser, recordable, replayed
from .outcome import Outcome, Result
from .pool import WorkerEnded
from .program import NotRunnable, check
from .report import print_lines, say, writing, written
from .setting import Broken, Options, Refused, Setting, Switch, Task, text_of
from .tally import Sums, sums_of

FAILED, BROKEN, ANOTHER_WAY = 1, 3, 4
DESCRIPTORS = 1024
"""The runtime's begin at 1000."""

if TYPE_CHECKING:
    import argparse


def _reason(failed: OSError) -> str:
    return f"{failed.filename}: {failed.strerror}" if failed.filename else str(failed.strerror)


class Command:
    """What was asked for."""

    def __init__(self, given: argparse.Namespace, setting: Setting, kept: Kept) -> None:
        self.given, self.setting = given, setting
        self._kept = kept
        self._began = time.monotonic()
        self._sums = Sums()
        """Of all runs of this process."""
        self.sums_of_last = Sums()
        self._covered: dict[Met, bool] = {}
        self._left: str | None = None
        """The record of a failure."""

    def heard(self, seed: int | None, result: Result) -> None:
        """A run of a search has ended."""
        self._sums.add_run(seed, result)
        if result.covered:
            self._cover(dict(result.covered))
        if self.given.digest and not result.repeats:
            with writing():
                print(f"{seed or 'plain'} {result.digest}")

    def _cover(self, met: dict[Met, bool]) -> None:
        for call, preempted in met.items():
            self._covered[call] = self._covered.get(call, False) or preempted

    # ---- one run

    def one(self, task: Task, quiet: bool) -> Outcome:
        """A run with its report."""
        broker = Broker(self.setting, quiet)
        try:
            return self.run_by(broker, task, quiet)
        finally:
            broker.close()

    def run_by(self, broker: Broker, task: Task, quiet: bool, prints: bool = True) -> Outcome:
        """A run, and what it prints, if it is `quiet` meanwhile."""
        outcome = broker.run(task, self._tool(), places=True)
        if quiet and prints:
            with writing():
                sys.stdout.buffer.write(outcome.output)
                sys.stdout.buffer.flush()
        result = outcome.result
        if self.setting.verify and result.why is None:
            result = result._replace(why=record.verify(outcome.kept, self.setting))
            outcome = outcome._replace(result=result)
        self.sums_of_last = sums_of(None, result)
        self._sums.add(self.sums_of_last)
        self._cover(dict(result.covered))
        if self.given.digest and self.given.schedules is None and self.given.seeds is None:
            with writing():
                print(record.digest(outcome.kept, outcome.output))
        return outcome

    def _tool(self) -> Callable[[int], None] | None:
        if not (self.given.gdb or self.given.tool):
            return None
        import shlex
        import subprocess

        words = ["gdb", "-q", "-p"] if self.given.gdb else shlex.split(self.given.tool)

        def start(real: int) -> None:
            try:
                subprocess.run([*words, str(real)])
            except OSError as why:
                say(f"{words[0]}: {why.strerror}")

        return start

    def plain(self, task: Task) -> int:
        """The plain schedule, that of a seed, or one with switches."""
        outcome = self.one(task, quiet=self.given.digest)
        result = outcome.result
        self.record(outcome)
        switches, blamed = self.lines(outcome)
        if result.why is not None and result.switches:
            print_lines(switches)
        if result.questions <= 1 and result.why is None:
            say("the program has made no call but its end")
        status = self.end(result.why, self.sums_of_last)
        print_lines(blamed)
        return status or self._unmet(task, result)

    def _unmet(self, task: Task, result: Result) -> int:
        """Switches that were asked for have to be met."""
        unmet = [switch for switch in task.switches or () if switch not in result.switches]
        if not unmet:
            return 0
        say(f"not met: {text_of(unmet)}: the program isn't the one that these switches are of")
        return ANOTHER_WAY

    def replay(self) -> int:
        """A recorded schedule."""
        path = self.given.replay
        switches = record.switches_of(self.given.switches)
        task = Task(switches=tuple(Switch(tid, point, to) for (tid, point), to in switches.items()))
        outcome = self.one(task, quiet=False)
        why = outcome.result.why
        differs = record.difference(path, outcome.kept)
        if why is not None:
            say(why)
        if differs is not None:
            say(f"goes another way than {path}: {differs}")
            return ANOTHER_WAY
        say(f"goes as recorded: {len(outcome.kept)} steps")
        return FAILED if why is not None else 0

    # ---- seeds

    def task(self) -> Task:
        """What the schedules of all seeds have in common."""
        if self.given.strategy != "pct":
            return Task()
        length = self.given.length
        if length is None:
            broker = Broker(self.setting)
            length = broker.result(Task()).choices
            broker.close()
        return Task(depth=self.given.depth, length=length)

    def seeded(self) -> int:
        """One schedule by its seed."""
        return self.plain(self.task()._replace(seed=self.given.seed))

    # ---- what is printed at the end

    @staticmethod
    def lines(outcome: Outcome) -> tuple[list[str], list[str]]:
        """The lines for its switches, and for the LWPs that are to blame."""
        lines = [f"  {line}" for line in report.places([*outcome.places, *outcome.blamed])]
        return lines[: len(outcome.places)], lines[len(outcome.places) :]

    def _compare(self, path: str, outcome: Outcome) -> None:
        """--compare: the plain schedule beside this run, and its switches. A page of an older run doesn't stay."""
        if os.path.exists(path):
            os.unlink(path)
        if not outcome.result.switches:
            say(f"--compare: {path} isn't written: this run is the plain schedule")
            return
        broker = Broker(self.setting)
        try:
            plain = broker.run(Task())
        finally:
            broker.close()
        lines, blamed = self.lines(outcome)
        why, switches = outcome.result.why, f"--switches {outcome.result.schedule}"
        name = os.path.basename(self.setting.command[0])
        words = [f"--title={name}: the plain schedule and {switches}"]
        words += [f"--note={place.step}:switch: {line.strip()}" for place, line in zip(outcome.places, lines)]
        if why is not None:
            words += [f"--failed={name} {switches}", "--message=" + "\n".join([why, *blamed])]
        runs = {f"the plain schedule ({'passed' if plain.result.why is None else 'failed'})": plain, switches[:200]: outcome}
        scenarios = {name: record.scenario(run.kept, self.setting.kill_on_debugger_exit) for name, run in runs.items()}
        try:
            trouble = report.page_of_two(self.setting.model, path, scenarios, words)
        except OSError as failed:
            raise OSError(f"--compare: {path}: {failed.strerror}") from failed
        _tell("--compare", path, trouble)

    def record(self, outcome: Outcome) -> None:
        """--record and --compare. A run that fails is recorded without being asked."""
        path, why = self.given.record, outcome.result.why
        if self.given.compare is not None:
            self._compare(self.given.compare, outcome)
        if path is not None:
            try:
                trouble = self._write(path, outcome)
            except OSError as failed:
                raise OSError(f"--record: {path}: {failed.strerror}") from failed
            _tell("--record", f"{path}.html", trouble)
            self._left = None if why is None else path
        elif why is not None and not self.given.no_record:
            try:
                self._left = self._kept.keep(lambda path: self._write_quietly(path, outcome))
            except OSError as failed:
                say(f"no record is left: {_reason(failed)}")

    def _write_quietly(self, path: str, outcome: Outcome) -> None:
        """The files of a record. Without the viewer it has no page, and nobody has asked for one."""
        trouble = self._write(path, outcome)
        if trouble not in (None, report.NO_VIEWER):
            say(f"there is no page of the record: {trouble}")

    def _write(self, path: str, outcome: Outcome) -> str | None:
        """The files of a record; a text if there is no page of it."""
        setting, why = self.setting, outcome.result.why
        settings: dict[str, Any] = {
            "calls": setting.options.calls, "strict": setting.options.strict, "limit": setting.options.limit, "failed": why,
            "kill_on_debugger_exit": setting.kill_on_debugger_exit,
        }  # fmt: skip
        steps = ", ".join(str(place.step) for place in outcome.places)
        words = " ".join([os.path.basename(setting.command[0]), *setting.command[1:]])
        title = f"{words}: {why or 'passed'}" + (f" (switches before step {steps})" if steps else "")
        record.write(path, outcome, setting.command, setting.kill_on_debugger_exit, settings)
        return report.page(setting.model, path, title, self._failure(outcome, words))

    def passed(self) -> None:
        """What this command left when it failed goes."""
        try:
            self._kept.drop()
        except OSError as failed:
            say(f"an earlier record stays: {_reason(failed)}")

    def tell_story(self) -> None:
        """What the record of a failure comes to."""
        if self._left is not None:
            print_lines(report.story(self.setting.model, self._left))

    def _failure(self, outcome: Outcome, name: str) -> list[str]:
        """The viewer's options for a run that failed: what it says, who is to blame, and the switches."""
        why = outcome.result.why
        if why is None:
            return []
        switches, blamed = self.lines(outcome)
        heads = [f"--switches {outcome.result.schedule}:"] if switches else []
        return [f"--failed={name}", "--message=" + "\n".join([why, *blamed, *heads, *switches])]

    def end(self, why: str | None, sums: Sums) -> int:
        """What is said of these runs at the end, and the status."""
        for text in _added(sums):
            say(text)
        if self.given.coverage:
            calls, count = report.unpreempted(self._covered)
            say(f"of {count} calls at which another could go on {len(calls)} were never preempted")
            print_lines(f"  {call}" for call in calls)
        if self.given.figures:
            say(self._figures())
        if why is not None:
            say(why)
            return FAILED
        return 0

    def _figures(self) -> str:
        took, times, sums = time.monotonic() - self._began, os.times(), self._sums
        used = times.user + times.system + times.children_user + times.children_system
        runs = f"{sums.runs} runs, {sums.questions} questions, {sums.steps} steps in {took:.2f} s"
        return f"{runs}: {used / max(1, sums.runs) * 1e3:.2f} ms of processor time a run, {sums.runs / took:.0f} runs a second"


def _tell(option: str, page: str, trouble: str | None) -> None:
    """What kept a page from being made: a line without the viewer, and otherwise OSError."""
    if trouble == report.NO_VIEWER:
        say(f"{page} isn't written: {trouble}")
    elif trouble is not None:
        raise OSError(f"{option}: {page}: {trouble}")


def _added(sums: Sums) -> Iterator[str]:
    """What took place that the model doesn't have."""
    yield from sums.remarks
    if sums.passed:
        yield f"handlers ran {sums.passed} times for signals that a debugger passed on, which the model doesn't have (--strict: none)"
    if sums.skipped:
        yield f"{sums.skipped} stops of traced processes were passed over, for signals that FreeBSD discards (--strict: none)"
    if sums.examined:
        used = f"registers and instructions were used {sums.examined} times"
        yield f"{used}, which the model doesn't have: not proved (--strict: none)"


def main(words: Sequence[str] | None = None) -> int:
    """The command: its status, which isn't 0 if its output can't be written."""
    return written(lambda: _command(words), BROKEN)


def _command(words: Sequence[str] | None) -> int:
    made = parser()
    given = made.parse_args(words)
    one_of(given, made)
    if given.replay is not None:
        replayed(given, made)
    if given.program is None:
        made.error("no PROGRAM is given; --help lists the options")
    for name in ("record", "compare"):
        if getattr(given, name) is not None:
            recordable(getattr(given, name), made, name)
    model = model_of(given, made)
    soft, hard = resource.getrlimit(resource.RLIMIT_NOFILE)
    try:
        if hard < DESCRIPTORS:
            raise Broken(f"only {hard} open files are allowed (ulimit -n), and {DESCRIPTORS} are needed")
        resource.setrlimit(resource.RLIMIT_NOFILE, (max(soft, min(hard, 4096)), hard))  # a socket for each thread
        rooms.sweep()
        command = Command(given, _setting(given, model), Kept(given.program, _words(given, words)))
        status = _run(command)
        if status == 0:
            command.passed()
        command.tell_story()
        return status
    except NotRunnable as why:
        if str(why):  # else the program has said it
            say(str(why))
        return USAGE
    except Broken as why:
        say(f"the fault is not the program's, which isn't judged: {why}")
        return BROKEN
    except Refused as why:
        say(str(why))
        return USAGE
    except (WorkerEnded, OSError) as why:
        say(f"{why}")
        return BROKEN
    except KeyboardInterrupt:
        return 130


def _words(given: argparse.Namespace, words: Sequence[str] | None) -> list[str]:
    """The command's words without the program."""
    known = [*(sys.argv[1:] if words is None else words)]
    if given.program in known:
        known.remove(given.program)
    return known


def _setting(given: argparse.Namespace, model: str) -> Setting:
    command = [check(given.program), *given.arguments]
    broker = find()
    if broker is None:
        raise Broken("its broker isn't there; make in the folder of tracehost-run builds it")
    options = Options(given.calls, given.strict, given.limit, given.patience, given.output_limit, given.coverage)
    kill = None if given.kill_on_debugger_exit is None else given.kill_on_debugger_exit == "1"
    return Setting(command, broker, model, options, kill, given.sleeps == "any", given.verify)


def _run(command: Command) -> int:
    given = command.given
    if given.replay is not None:
        return command.replay()
    if given.schedules is not None or given.seeds is not None or given.preemptions is not None:
        return Search(command).run()
    if given.switches is not None:
        switches = record.switches_of(given.switches)
        return command.plain(Task(switches=tuple(Switch(tid, point, to) for (tid, point), to in switches.items())))
    return command.seeded() if given.seed is not None else command.plain(Task())
