"""Each allocation, read, write and start of a thread fails in turn, by shim.c, which is loaded before the program.

Each run has to end in one of a few ways, which are known beforehand: with the whole text, or with one line on standard
error, its status, and a part of the text only if a write failed or if lines are answered one by one. So docs/FORMAT.md,
sections 8 and 11, has it. The program test_no_memory does so inside the library.
"""

from __future__ import annotations

import collections
import dataclasses
import errno
import itertools
import json
import os
import signal
import subprocess
import time
from collections.abc import Iterator
from pathlib import Path

import pytest

from checking import TOP, Checks, needs
from json_of_lines import as_json
from shim import MEMORY, SECONDS, Command, End, Ends, Run, Shim, check_all, fault, whole

REFUSALS = TOP / "crates/test_no_memory/out/test_no_memory"
pytestmark = needs("cc")


@dataclasses.dataclass(frozen=True)
class GivesUp:
    """The ends of refusals if a call was refused again and again: a front of its text, and the word."""

    text: bytes

    def __eq__(self, end: object) -> bool:
        if not isinstance(end, End):
            return NotImplemented
        said = (end.status, end.err) == (3, b"refusals: out of memory\n")
        return said and end.out != self.text and self.text.startswith(end.out)


START = fault("tracehost: cannot start a worker")
CANNOT_READ = fault("tracehost: cannot read")


def cannot_write(front: bytes) -> End:
    return fault("tracehost: cannot write", front)


# ---- the runs


def row(name: str) -> tuple[str, bytes]:
    """The file of a scenario in tests/rows/sessions, and its text."""
    path = TOP / "tests/rows/sessions" / name
    return f"{path}.json", path.with_suffix(".out").read_bytes()


def lines_of(text: bytes, user: int) -> bytes:
    return b"".join(line for line in text.splitlines(keepends=True) if line.startswith(b"%d " % user))


def texts_by_users(text: bytes) -> list[bytes]:
    """The lines of each user with lines, by rising user."""
    texts: dict[int, bytes] = {}
    for line in text.splitlines(keepends=True):
        user = int(line.split(b" ", 1)[0])
        texts[user] = texts.get(user, b"") + line
    return [texts[user] for user in sorted(texts)]


def by_users(text: bytes) -> bytes:
    """The lines user by user, each user's in their order."""
    return b"".join(texts_by_users(text))


WAYS = ("plain", "--user", "--threads", "--json", "--expect")


def way_of(name: str, program: str, file: str, text: bytes) -> tuple[Command, bytes, Ends]:
    """The program with an option on the file, its text, and the faults that want of memory may have."""
    ways: dict[str, tuple[Command, bytes, Ends]] = {
        "plain": ((program, file), text, (MEMORY,)),
        "--user": ((program, "--user", "1001", file), lines_of(text, 1001), (MEMORY,)),
        "--threads": ((program, "--threads", file), by_users(text), (MEMORY, START)),
        "--json": ((program, "--json", file), as_json(text.decode()).encode(), (MEMORY,)),
        "--expect": ((program, "--expect", file.replace(".json", ".out"), file), b"", (MEMORY,)),
    }
    return ways[name]


def refused_allocations(
    shim: Shim, command: Command, given: bytes, ends: Ends, chances: tuple[int, ...], seeds: int
) -> Iterator[Run]:
    """Each allocation refused, then each and all after it, then some by chance. No worker can be blamed before the
    first one is to start."""
    counts = shim.counts_of(Run(command, given, {}, ends))
    for n in range(1, counts.allocations + 1):
        possible = tuple(end for end in ends if end != START) if n < counts.before_threads else ends
        yield Run(command, given, {"ALLOCATION": n}, possible)
        yield Run(command, given, {"ALLOCATION": f"{n}-"}, possible)
    for chance in chances:
        for seed in range(seeds):
            yield Run(command, given, {"CHANCE": chance, "SEED": seed}, ends)


class FrontOf:
    """The ends of a run that prints this text and has this status; if memory ran out, it printed a front of the text."""

    def __init__(self, text: bytes, status: int, err: bytes) -> None:
        self.text = text
        self.end = End(status, text, err)

    def __eq__(self, end: object) -> bool:
        if not isinstance(end, End):
            return NotImplemented
        return end == self.end or ((end.status, end.err) == (3, MEMORY.err) and self.text.startswith(end.out))


def refused_diffs(shim: Shim, program: str, wanted: Path) -> Iterator[Run]:
    """Each allocation refused while lines are compared with others: want of memory is told as that."""
    file, text = row("every_kind_of_step")
    wanted.write_bytes(text.replace(b"new", b"old"))
    command = (program, "--expect", str(wanted), file)
    ran = subprocess.run(command, capture_output=True, timeout=SECONDS)
    assert ran.returncode == 4 and ran.stdout.count(b"\n+") > 3
    return refused_allocations(shim, command, b"", (FrontOf(ran.stdout, 4, ran.stderr),), CHANCES, 5)


def refused_explanations(shim: Shim, program: str) -> Iterator[Run]:
    """Each allocation refused while a fault is explained: the fault is printed, with or without its place."""
    row = TOP / "tests/rows/explain/request_in_small_letters"
    with open(f"{row}.err", "rb") as lines:
        fault, told = lines.read().splitlines(keepends=True)
    ends = (End(1, b"", fault + told), End(1, b"", fault), MEMORY)
    command = (program, "--explain", f"{row}.json")
    return refused_allocations(shim, command, b"", ends, (), 0)


READ_ERRORS = (errno.EIO, errno.EAGAIN)
WRITE_ERRORS = (errno.EIO, errno.ENOSPC, errno.EPIPE, errno.EAGAIN)


def failing_reads(shim: Shim, program: str, file: str, text: bytes) -> Iterator[Run]:
    """Each read of a file, of a pipe, and with threads, fails, is interrupted, or moves one byte."""
    with open(file, "rb") as scenario:
        given = scenario.read()
    done = whole(text)
    for command, data, end in (
        ((program, file), b"", done),
        ((program,), given, done),
        ((program, "--threads", file), b"", whole(by_users(text))),
    ):
        most = {"MOST": 256}
        counts = shim.counts_of(Run(command, data, most, (end,)))
        for n in range(1, counts.reads + 1):
            for error in READ_ERRORS:
                yield Run(command, data, {**most, "READ": n, "ERROR": error}, (CANNOT_READ,))
            yield Run(command, data, {**most, "READ": n, "ERROR": errno.EINTR}, (end,))
            yield Run(command, data, {**most, "READ": n}, (end,))
        yield Run(command, data, {"READ": "1-1000", "ERROR": errno.EINTR}, (end,))
        yield Run(command, data, {"READ": "1-"}, (end,))


def fronts(texts: list[bytes], most: int) -> Iterator[bytes]:
    """What is written before each write of texts, one after another, if a write takes at most so many bytes."""
    front = b""
    for text in texts:
        for at in range(0, len(text), most):
            yield front
            front += text[at : at + most]


def failing_writes(program: str, file: str, text: bytes) -> Iterator[Run]:
    """Each write fails, is interrupted, or moves one byte: a front of the text is left if one failed. With threads,
    each user's text is written by itself."""
    for command, texts in (((program, file), [text]), ((program, "--threads", file), texts_by_users(text))):
        most, text = 16, b"".join(texts)
        for n, front in enumerate(fronts(texts, most), 1):
            few = {"MOST": most, "WRITE": n}
            for error in WRITE_ERRORS:
                yield Run(command, b"", {**few, "ERROR": error}, (cannot_write(front),))
            yield Run(command, b"", {**few, "ERROR": errno.EINTR}, (whole(text),))
            yield Run(command, b"", few, (whole(text),))
        yield Run(command, b"", {"WRITE": "1-1000", "ERROR": errno.EINTR}, (whole(text),))
        yield Run(command, b"", {"WRITE": "1-"}, (whole(text),))
        # neither the text nor the fault can be written
        yield Run(command, b"", {"WRITE": "1-", "ERROR": errno.EIO}, (End(3, b"", b""),))


def faults_told_in_pieces(program: str) -> Iterator[Run]:
    """The line of a fault is whole if its writes are interrupted or move one byte; its status stays if no write
    succeeds."""
    for options, given, line in (
        ((), b"", b"tracehost: refused: BadJson\n"),
        ((), b'{"steps":[{"user":1001,"op":"fly"}]}', b"tracehost: refused: BadName at step 1\n"),
    ):
        for shim in ({"WRITE": 1, "ERROR": errno.EINTR}, {"WRITE": 1}, {"MOST": 1}):
            yield Run((program, *options), given, shim, (End(1, b"", line),))
        yield Run((program, *options), given, {"WRITE": "1-", "ERROR": errno.EIO}, (End(1, b"", b""),))


def refused_threads(program: str, file: str) -> Iterator[Run]:
    """Of 63 workers, all but the first user's, each can't be started, by itself and with all after it."""
    users = range(1001, 1065)
    steps = [{"user": user, "op": "spawn"} for user in users for _ in range(2)]
    with open(file, "w") as scenario:
        json.dump({"steps": steps}, scenario)
    text = "".join(
        f"{user} {n + 1} new {1000 * (user - 1000) + n} {100000 + 4000 * (user - 1001) + n}\n" for user in users for n in range(2)
    ).encode()
    command = (program, "--threads", file)
    for n in range(1, 64):
        yield Run(command, b"", {"THREAD": n}, (START,))
        yield Run(command, b"", {"THREAD": f"{n}-"}, (START,))
    yield Run(command, b"", {"THREAD": "64-"}, (whole(text),))


# ---- lines, answered one by one


@dataclasses.dataclass(frozen=True)
class Session:
    """A session by --lines: its command, its lines, a blank one behind each tenth step, and the answer to each line."""

    command: Command
    lines: tuple[bytes, ...]
    answers: tuple[bytes, ...]

    @property
    def given(self) -> bytes:
        return b"".join(self.lines)

    @property
    def text(self) -> bytes:
        return b"".join(self.answers)

    def answers_to(self, taken: int) -> bytes:
        """The answers to those lines that are whole if so many bytes were taken."""
        ends = itertools.accumulate(map(len, self.lines))
        return b"".join(answer for end, answer in zip(ends, self.answers) if end <= taken)

    def answers_by_reads(self, size: int) -> list[bytes]:
        """The answers to the lines that end in each read, if a read takes so many bytes."""
        ends = itertools.accumulate(map(len, self.lines))
        by_read = itertools.groupby(zip(ends, self.answers), lambda pair: (pair[0] - 1) // size)
        return [b"".join(answer for _, answer in pairs) for _, pairs in by_read]


def session_of(program: str, file: str, text: bytes) -> Session:
    with open(file, "rb") as data:
        scenario = json.load(data)
    pairs = []
    for place, (step, answer) in enumerate(zip(scenario["steps"], text.splitlines(keepends=True))):
        pairs.append((json.dumps(step).encode() + b"\n", answer))
        if place % 10 == 9:
            pairs.append((b"\n", b"refused BadJson\n"))
    setting = str(scenario.get("kill_on_debugger_exit", 1))
    lines, answers = zip(*pairs)
    return Session((program, "--lines", "--kill-on-debugger-exit", setting), lines, answers)


def failing_reads_of_lines(shim: Shim, session: Session) -> Iterator[Run]:
    """Each read fails, is interrupted, or moves one byte: the lines that were taken before a failure are answered."""
    size = 256
    most = {"MOST": size}
    done = whole(session.text)
    counts = shim.counts_of(Run(session.command, session.given, most, (done,)))
    for n in range(1, counts.reads + 1):
        answered = session.answers_to(size * (n - 1))
        for error in READ_ERRORS:
            end = fault("tracehost: cannot read", answered)
            yield Run(session.command, session.given, {**most, "READ": n, "ERROR": error}, (end,))
        yield Run(session.command, session.given, {**most, "READ": n, "ERROR": errno.EINTR}, (done,))
        yield Run(session.command, session.given, {**most, "READ": n}, (done,))
    yield Run(session.command, session.given, {"READ": "1-1000", "ERROR": errno.EINTR}, (done,))
    yield Run(session.command, session.given, {"READ": "1-"}, (done,))


def failing_writes_of_lines(session: Session) -> Iterator[Run]:
    """Each write fails, is interrupted, or moves one byte: what was written before one failed stays."""
    most = 16
    done = whole(session.text)
    for n, front in enumerate(fronts(session.answers_by_reads(most), most), 1):
        few = {"MOST": most, "WRITE": n}
        for error in WRITE_ERRORS:
            yield Run(session.command, session.given, {**few, "ERROR": error}, (cannot_write(front),))
        yield Run(session.command, session.given, {**few, "ERROR": errno.EINTR}, (done,))
        yield Run(session.command, session.given, few, (done,))
    yield Run(session.command, session.given, {"WRITE": "1-1000", "ERROR": errno.EINTR}, (done,))
    yield Run(session.command, session.given, {"WRITE": "1-"}, (done,))
    yield Run(session.command, session.given, {"WRITE": "1-", "ERROR": errno.EIO}, (End(3, b"", b""),))


class Answered:
    """The ends of a session in which memory was refused: each line has its answer, or ENOMEM if it is a step that
    takes memory, and the other answers are those of a session without the steps that were refused; or the word, and the
    answers before."""

    def __init__(self, session: Session) -> None:
        self.session = session
        self.known: dict[frozenset[int], list[bytes]] = {frozenset(): [reply_of(answer) for answer in session.answers]}

    def answers_without(self, refused: frozenset[int]) -> list[bytes]:
        """The replies of a session without these lines."""
        if refused not in self.known:
            left = [line for place, line in enumerate(self.session.lines) if place not in refused]
            ran = subprocess.run(self.session.command, input=b"".join(left), capture_output=True, timeout=SECONDS)
            self.known[refused] = [reply_of(answer) for answer in ran.stdout.splitlines(keepends=True)]
        return self.known[refused]

    def __eq__(self, end: object) -> bool:
        if not isinstance(end, End):
            return NotImplemented
        answers = end.out.splitlines(keepends=True)
        is_whole = (end.status, end.err, len(answers)) == (0, b"", len(self.session.lines))
        if not is_whole and (end.status, end.err) != (3, MEMORY.err):
            return False
        refused = frozenset(place for place, answer in enumerate(answers) if reply_of(answer) == b"error ENOMEM 12\n")
        replies = [reply_of(answer) for place, answer in enumerate(answers) if place not in refused]
        return (
            all(takes_memory(self.session.lines[place]) for place in refused)
            and numbers_rise(answers)
            and replies == self.answers_without(refused)[: len(replies)]
        )


class Explained:
    """The ends of a session in which memory was refused and each line is explained: nothing is said of a step, the
    right reason of another line, or that there is no memory for it."""

    def __init__(self, session: Session, reasons: list[bytes]) -> None:
        self.answered = Answered(session)
        self.reasons = reasons

    def __eq__(self, end: object) -> bool:
        if not isinstance(end, End):
            return NotImplemented
        is_cut = end.err.endswith(MEMORY.err)
        told = end.err.removesuffix(MEMORY.err).splitlines(keepends=True)
        places = range(1, len(self.reasons) + 1)
        possible = [(reason, b"  line %d: no memory to explain it\n" % n) for n, reason in zip(places, self.reasons)]
        # each is said at most once, in the order of the lines
        left = iter(possible)
        is_told = all(any(line in pair for pair in left) for line in told)
        said = [n for n, pair in enumerate(possible) if set(pair) & {*told}]
        all_said = is_cut or all(n in said or not reason for n, reason in enumerate(self.reasons))
        return is_told and all_said and self.answered == End(end.status, end.out, MEMORY.err if is_cut else b"")


def reply_of(answer: bytes) -> bytes:
    """An answer without the user and the number."""
    return answer if answer.startswith(b"refused") else answer.split(b" ", 2)[2]


def takes_memory(line: bytes) -> bool:
    """Whether a line is a step that may take memory."""
    step = json.loads(line) if line.strip() else {}
    kind = step.get("request") or step.get("act") or step.get("op")
    return kind in ("spawn", "list", "install", "PT_GETLWPLIST", "leave")


def numbers_rise(answers: list[bytes]) -> bool:
    """Whether each user's answers are numbered from 1 on."""
    counts: collections.Counter[bytes] = collections.Counter()
    for answer in answers:
        if not answer.startswith(b"refused"):
            user, number, _ = answer.split(b" ", 2)
            counts[user] += 1
            if int(number) != counts[user]:
                return False
    return True


# ---- the same without the shim


def slow_pipe(program: str, file: str, text: bytes) -> bool:
    """A pipe that gives a byte at a time to a program that is stopped and continued in between."""
    with open(file, "rb") as data:
        given = data.read()
    pipe = subprocess.PIPE
    with subprocess.Popen([program], stdin=pipe, stdout=pipe, stderr=pipe, bufsize=0) as ran:
        assert ran.stdin
        for place in range(len(given)):
            ran.stdin.write(given[place : place + 1])
            if place % 100 == 50:
                ran.send_signal(signal.SIGSTOP)
                time.sleep(0.001)
                ran.send_signal(signal.SIGCONT)
        out, err = ran.communicate(timeout=SECONDS)
    return End(ran.returncode, out, err) == whole(text)


def full_device(program: str, file: str) -> bool:
    """A device with no room."""
    with open("/dev/full", "wb") as full:
        ran = subprocess.run([program, file], stdout=full, stderr=subprocess.PIPE, timeout=SECONDS)
    return End(ran.returncode, b"", ran.stderr) == cannot_write(b"")


def closed_pipe(program: str, file: str) -> bool:
    """A pipe that nobody reads, for a program that ignores SIGPIPE."""
    reader, writer = os.pipe()
    os.close(reader)
    try:
        ran = subprocess.run([program, file], stdout=writer, stderr=subprocess.PIPE, timeout=SECONDS, restore_signals=False)
    finally:
        os.close(writer)
    return End(ran.returncode, b"", ran.stderr) == cannot_write(b"")


# ---- refusals


def retried_refusals(shim: Shim, program: str) -> Iterator[Run]:
    """A call that is refused is made again: the text is whole, unless all from one on are refused, or too many."""
    text = (TOP / "crates/test_no_memory/stdout").read_bytes()
    command, done = (program,), whole(text)
    counts = shim.counts_of(Run(command, b"", {}, (done,)))
    for n in range(1, counts.allocations + 1):
        yield Run(command, b"", {"ALLOCATION": n}, (done,))
        yield Run(command, b"", {"ALLOCATION": f"{n}-"}, (GivesUp(text), done))
    for chance in (1, 2, 3):
        for seed in range(200):
            yield Run(command, b"", {"CHANCE": chance, "SEED": seed}, (done, GivesUp(text)))
    for n in range(1, counts.threads + 1):
        yield Run(command, b"", {"THREAD": n}, (done,))
        yield Run(command, b"", {"THREAD": f"{n}-"}, (GivesUp(text),))


# ---- the tests

# the rows, and how often some allocations of each are refused by chance
SEEDS = {"every_kind_of_step": 60, "a_debugger_ends_without_killing": 20, "a_fork_in_full_tables": 20}
CHANCES = (1, 5, 20)
each_row = pytest.mark.parametrize("name", SEEDS)


@pytest.fixture(scope="module")
def shim(tmp_path_factory: pytest.TempPathFactory) -> Shim:
    return Shim(tmp_path_factory.mktemp("shim"))


@each_row
@pytest.mark.parametrize("way", WAYS)
def test_refused_allocations(shim: Shim, program: Path, checks: Checks, name: str, way: str) -> None:
    command, shown, faults = way_of(way, str(program), *row(name))
    check_all(checks, shim, refused_allocations(shim, command, b"", (whole(shown), *faults), CHANCES, SEEDS[name]))


@each_row
def test_refused_allocations_line_by_line(shim: Shim, program: Path, checks: Checks, name: str) -> None:
    session = session_of(str(program), *row(name))
    ends = (Answered(session),)
    check_all(checks, shim, refused_allocations(shim, session.command, session.given, ends, CHANCES, SEEDS[name]))


@each_row
def test_failing_reads_line_by_line(shim: Shim, program: Path, checks: Checks, name: str) -> None:
    check_all(checks, shim, failing_reads_of_lines(shim, session_of(str(program), *row(name))))


@each_row
def test_failing_writes_line_by_line(shim: Shim, program: Path, checks: Checks, name: str) -> None:
    check_all(checks, shim, failing_writes_of_lines(session_of(str(program), *row(name))))


def test_failing_reads(shim: Shim, program: Path, checks: Checks) -> None:
    check_all(checks, shim, failing_reads(shim, str(program), *row("every_kind_of_step")))


def test_failing_writes(shim: Shim, program: Path, checks: Checks) -> None:
    check_all(checks, shim, failing_writes(str(program), *row("every_kind_of_step")))


def test_refused_allocations_of_an_explanation(shim: Shim, program: Path, checks: Checks) -> None:
    check_all(checks, shim, refused_explanations(shim, str(program)))


def test_refused_allocations_of_explained_lines(shim: Shim, program: Path, checks: Checks) -> None:
    lines = (b'{"user":1001,"op":"spawn"}\n', b'{"user":1001,"op":"span"}\n', b'{"user":1001,"op":"list","caller":1000}\n')
    answers = (b"1001 1 new 1000 100000\n", b"refused BadName\n", b"1001 2 pids 1000\n")
    reasons = [b"", b'  line 2, op: "span" is no op; did you mean "spawn"?\n', b""]
    session = Session((str(program), "--lines", "--explain"), lines, answers)
    ends = (Explained(session, reasons),)
    check_all(checks, shim, refused_allocations(shim, session.command, session.given, ends, CHANCES, 5))


def test_refused_allocations_of_a_diff(shim: Shim, program: Path, checks: Checks, tmp_path: Path) -> None:
    check_all(checks, shim, refused_diffs(shim, str(program), tmp_path / "wanted"))


def test_a_fault_told_in_pieces(shim: Shim, program: Path, checks: Checks) -> None:
    check_all(checks, shim, faults_told_in_pieces(str(program)))


def test_refused_threads(shim: Shim, program: Path, checks: Checks, tmp_path: Path) -> None:
    check_all(checks, shim, refused_threads(str(program), str(tmp_path / "users.json")))


@pytest.mark.skipif(not os.access(REFUSALS, os.X_OK), reason="the program test_no_memory is not built: the gate builds it")
def test_refused_allocations_and_threads_inside_the_library(shim: Shim, checks: Checks) -> None:
    check_all(checks, shim, retried_refusals(shim, str(REFUSALS)))


def test_a_pipe_that_gives_a_byte_at_a_time(program: Path) -> None:
    assert slow_pipe(str(program), *row("every_kind_of_step"))


def test_a_device_with_no_room(program: Path) -> None:
    assert full_device(str(program), row("every_kind_of_step")[0])


def test_a_pipe_that_nobody_reads(program: Path) -> None:
    assert closed_pipe(str(program), row("every_kind_of_step")[0])
