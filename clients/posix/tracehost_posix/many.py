"""Many schedules: until one fails, or all of them. What they come to, and what is said of those that fail."""

from __future__ import annotations

import sys
from collections.abc import Callable
from typing import TYPE_CHECKING, Any

from . import search
from .broker import Broker
from .outcome import Outcome, Result
from .pool import Pool
from .report import print_lines, say, writing
from .setting import Task
from .tally import Failures, Tally

if TYPE_CHECKING:
    from .command import Command
    from .ledger import Ledger

FAILED, ANOTHER_WAY = 1, 4
_UNRECORDED = "the record is"
"""So a failure of --verify begins: it isn't the schedule's."""


class Search:
    """The search that a command asks for."""

    def __init__(self, command: Command) -> None:
        self._command, self._given = command, command.given
        self._tally = Tally()
        self._found: dict[str, Result] = {}
        """The first failing runs, but not those that a ledger has."""
        self._task = Task()
        self._ended = ""
        """How a search under --preemptions has ended."""

    def run(self) -> int:
        """The status of the command."""
        given = self._given
        self._task = self._command.task() if given.preemptions is None else Task()
        pool = Pool(self._command.setting, given.jobs, given.digest, given.keep_going)
        try:
            if given.preemptions is None:
                self._run_seeds(pool)
            else:
                self._run_preemptions(pool)
            failures = self._tally.sums.failures
            if not failures:
                pool.close()
                return self._passed()
            return self._failed(pool, failures)
        finally:
            pool.close()

    # ---- runs

    def _heard(self, seed: int | None, result: Result) -> bool:
        new = self._tally.add(seed, result)
        if result.why is not None and self._tally.sums.failures[result.why].first == seed:
            self._found.setdefault(result.why, result)
        self._command.heard(seed, result)
        return new

    def _stops(self) -> bool:
        return bool(self._tally.sums.failures) and not self._given.keep_going

    def _run_seeds(self, pool: Pool) -> None:
        """--schedules and --seeds."""
        seeds = self._given.seeds or range(self._given.schedules + 1)
        ledger = None if self._given.ledger is None else self._ledger(self._given.ledger, seeds)
        first = seeds.start
        for block in ledger.blocks if ledger is not None else ():
            self._tally.take(block)
            first = block.last + 1
        if self._stops() or first == seeds.stop:
            return
        if self._given.workers is not None:
            self._run_on_workers(range(first, seeds.stop), ledger)
            return
        for seed, result in search.seeds(pool, range(first, seeds.stop), self._task):
            new = self._heard(seed, result)
            if ledger is not None:
                ledger.add(seed, result, new, self._stops())
            if self._stops():
                return

    def _run_on_workers(self, seeds: range, ledger: Ledger | None) -> None:
        from .farm import Farm, Order, blocks

        setting, given = self._command.setting, self._given
        program, *arguments = setting.command
        order = Order(program, arguments, self._options(), self._identity(seeds), given.keep_going)
        farm = Farm(given.workers)
        try:
            for block in blocks(farm, order, seeds):
                self._tally.recount(block)
                self._tally.take(block)
                if ledger is not None:
                    ledger.keep(block)
                if self._stops():
                    return
        finally:
            farm.close()

    def _options(self) -> list[str]:
        """Those that the workers have to know."""
        given, task = self._given, self._task
        words = [
            "--sleeps",
            given.sleeps,
            "--limit",
            given.limit,
            "--patience",
            given.patience,
            "--output-limit",
            given.output_limit,
        ]
        if task.depth is not None:
            words += ["--strategy", "pct", "--depth", task.depth, "--length", task.length]
        if given.kill_on_debugger_exit is not None:
            words += ["--kill-on-debugger-exit", given.kill_on_debugger_exit]
        flags = {"calls": given.calls, "strict": given.strict, "keep-going": given.keep_going, "verify": given.verify}
        return [*map(str, words), *(f"--{name}" for name, is_given in flags.items() if is_given)]

    def _ledger(self, path: str, seeds: range) -> Ledger:
        from .ledger import Ledger

        return Ledger(path, self._identity(seeds), seeds)

    def _identity(self, seeds: range) -> dict[str, object]:
        """What a search is, for ledgers and workers."""
        from .ledger import digest_of

        setting, given = self._command.setting, self._given
        program, *arguments = setting.command
        files = {"program": program, "model": setting.model, "broker": setting.broker}
        options = setting.options._asdict()
        del options["coverage"]
        return {
            **{name: digest_of(path) for name, path in files.items()},
            "arguments": arguments,
            "seeds": [seeds.start, seeds.stop - 1],
            "strategy": given.strategy,
            "depth": self._task.depth,
            "length": self._task.length,
            "sleeps": given.sleeps,
            "keep_going": given.keep_going,
            "verify": setting.verify,
            "kill_on_debugger_exit": setting.kill_on_debugger_exit,
            **options,
        }

    def _run_preemptions(self, pool: Pool) -> None:
        given = self._given
        try:
            search.preemptions(pool, given.preemptions, given.schedules or 100000, lambda task, result: self._heard(None, result))
        except search.Exhausted as end:
            every, more = ("all ", "") if end.complete else ("", ", and there are more")
            tally = self._tally
            self._ended = (
                f"{every}{tally.sums.runs - tally.repeated} schedules with at most {given.preemptions} preemptions passed, "
                f"{self._different()}{more}; {tally.repeated} were left, as they only repeated others"
            )

    # ---- what is said

    def _different(self) -> str:
        return f"{len(self._tally.schedules)} of them different"

    def _share(self) -> str:
        return f"{self._different()}; of the last {len(self._tally.news)} {self._tally.share_of_new()}% were new"

    def _passed(self) -> int:
        sums = self._tally.sums
        say(self._ended or f"{sums.runs} schedules passed, {self._share()}")
        status = self._command.end(None, sums)
        if sums.most <= 1:  # a program that makes no call but its end
            say("nothing was tried: the program makes no call but its end. Is it compiled by tracehost-cc, all of it?")
            status = ANOTHER_WAY
        self._print([], status)
        return status

    def _failed(self, pool: Pool, failures: dict[str, Failures]) -> int:
        sums, several = self._tally.sums, self._given.keep_going
        if several:
            passed = sums.runs - sum(failure.times for failure in failures.values())
            say(f"{sums.runs} schedules ran, and {passed} passed, {self._share()}")
        broker: Callable[[], Broker] = pool.broker
        objects = [self._one_failure(broker, why, failures[why], number == 0) for number, why in enumerate(failures)]
        if several:
            self._command.end(None, sums)
        self._print(objects, FAILED)
        return FAILED

    def _under(self, failure: Failures, result: Result | None) -> str:
        if failure.first is None:
            return f"a schedule with {len(result.switches) if result is not None else 0} switches"
        return self._of_seed(failure.first).name()

    def _of_seed(self, seed: int) -> Task:
        return self._task._replace(seed=seed) if seed else Task()

    def _one_failure(self, broker: Callable[[], Broker], why: str, failure: Failures, is_first: bool) -> dict[str, Any]:
        """Says what fails, and cuts its schedule down."""
        result, several, tally = self._found.get(why), self._given.keep_going, self._tally
        after = f"after {tally.sums.runs - tally.repeated - 1} schedules that passed"
        if several:
            after = f"and {failure.times - 1} others" if failure.times > 1 else "and no other"
        say(f"fails under {self._under(failure, result)}, {after}: {why}")
        said: dict[str, Any] = {"why": why, "count": failure.times, "seed": failure.first}
        if why.startswith(_UNRECORDED):
            return said
        if result is None:
            assert failure.first is not None
            result = broker().result(self._of_seed(failure.first))
        outcome = self._cut_down(broker(), result)
        lines, blamed = self._command.lines(outcome)
        print_lines(lines)
        if is_first:
            self._command.record(outcome)
        if not several:
            self._command.end(outcome.result.why or why, self._command.sums_of_last)
        print_lines(blamed)
        said.update(
            switches=outcome.result.schedule, places=[line.strip() for line in lines], blamed=[line.strip() for line in blamed]
        )
        said["output"] = outcome.output.decode("utf-8", "replace")
        return said

    def _cut_down(self, broker: Broker, result: Result) -> Outcome:
        """The shortest schedule that is found to fail so, run once more."""
        switches = result.switches
        if switches and self._given.seeds is not None:  # the plain one wasn't among them
            plain = broker.result(Task())
            if plain.why is not None and result.why is not None and search.kind(plain.why) == search.kind(result.why):
                switches = ()
        if switches:
            same = search.words if self._given.keep_going else search.kind
            switches = search.shrink(broker, result, self._tally.sums.questions, same)
        outcome = self._command.run_by(broker, Task(switches=switches), quiet=True, prints=not self._given.json)
        if result.switches:
            left = len(outcome.result.switches)
            enough = "1 is" if left == 1 else f"{left} are"
            say(f"of its {len(result.switches)} switches {enough} enough: --switches {outcome.result.schedule}")
        return outcome

    def _print(self, failures: list[dict[str, Any]], status: int) -> None:
        """--json: what the search comes to."""
        if not self._given.json:
            return
        import json

        sums, tally = self._tally.sums, self._tally
        fields = {
            "schedules": sums.runs - tally.repeated,
            "left": tally.repeated,
            "different": len(tally.schedules),
            "new": tally.share_of_new(),
            "questions": sums.questions,
            "steps": sums.steps,
            "failures": failures,
            "remarks": list(sums.remarks),
            "status": status,
        }
        with writing():
            print(json.dumps(fields), file=sys.stdout)
