"""Scripts for clients/posix/tests/forged.c, each by its number: what a hostile program may say on the runtime's sockets.

As a command it runs scripts, and prints what comes of each. Run it in a namespace of processes that has nothing else.
"""

from __future__ import annotations

import json
import os
import random
import re
import socket
import subprocess
import sys
import tempfile
import threading
import time
from collections.abc import Callable, Iterator
from contextlib import contextmanager, suppress
from pathlib import Path
from typing import NamedTuple

from forged_numbers import FIELDS, HELLOS, LONG, REFUSED, Edge, Lines, edges, is_last
from forged_numbers import question as question_of

BROKER = Path(__file__).resolve().parents[2] / "clients/posix/broker"
SECONDS = 120
"""A run that takes longer hangs."""
LIMITS = ["--patience", "1", "--limit", "3000", "--output-limit", "100000"]
"""Of the run's own."""
ENDING = 5
"""The seconds in which its last processes may end."""
LONGEST = 4096
"""Bytes that the broker takes as a message."""


class Form(NamedTuple):
    """A question of the runtime's, and how many numbers it has."""

    name: str
    least: int
    most: int


def _forms() -> list[Form]:
    table = (BROKER / "questions.c").read_text(encoding="utf-8")
    found = re.findall(r'^\t\{"(\w+)",\s+\w+,\s+\d+,\s+(\d+), (\d+), "', table, re.MULTILINE)
    return [Form(name, int(least), int(most)) for name, least, most in found]


FORMS = _forms()
_ENDING = (
    *("hello", "fork", "vfork", "pdfork", "thr_new", "thr_exit", "exec", "foreign", "exit", "thr_kill", "fault"),
    *("pause", "suspend", "sigwait", "join", "wait", "again", "masked"),
)
ENDS = [form for form in FORMS if form.name in _ENDING]
"""Few messages come after these."""
GOES_ON = [form for form in FORMS if form not in ENDS]
_LAST: list[Edge | str] = [*REFUSED, *HELLOS, *filter(is_last, edges())]
"""The last of a script of ends."""
ENDS_THAT_GO_ON = [edge for edge in edges() if not is_last(edge)]
random.Random(65).shuffle(ENDS_THAT_GO_ON)
OF_A_SCRIPT = 13
"""Ends that go on; some 50 scripts have all."""
TEXTS = ("remark", "refused", "outside", "broken", "ended", "filter")
ANSWERS = ("handled", "at 1", "done", "anew 0", "anew 1", "at 140737488347136")
KINDS = ("read", "write", "poll", "kevent", "semaphore", "mutex", "rwlock", "")
WAYS_TO_DOUBLE = ("fork", "thread", "trace", "exec", "clone")
ODD_NUMBERS = (-1, 2**31 - 1, 2**31, -(2**31), 2**32 - 1, 2**32, 2**63 - 1, -(2**63), 2**64 - 1, 2**64, 10**40)
TO_SERVER = (b"ready", b"swept", b"swept 1:0", b"swept more", b"ready\nx\n\x1b[31m", b"x", b"", b"swept " * 900)
ODD_BYTES = (b"", b"\0", b"\n", b" ", b"%n%s", b"\x1b[2J", b"\xff\xfe", b"\r", b"0 " * 60, b"9" * 700, b"-")


class Hostile:
    """One that draws what it says."""

    def __init__(self, seed: int) -> None:
        self.draw = random.Random(seed)
        self.oddity = self.draw.choice((0.0, 0.01, 0.05, 0.3))
        """How often a message isn't of the runtime's form."""
        self.last = b"0 getppid"

    # ---- messages

    def number(self) -> int:
        draw = self.draw
        pools: list[Callable[[], int]] = [
            lambda: draw.randrange(1000, 1004),
            lambda: draw.randrange(100000, 100004),
            lambda: draw.randrange(0, 34),
            lambda: draw.randrange(-3, 4),
            lambda: draw.randrange(-40, 700),
            lambda: 1 << draw.randrange(0, 40),
            lambda: draw.randrange(-(2**63), 2**64),
            lambda: draw.choice(ODD_NUMBERS),
        ]
        return draw.choices(pools, [6, 6, 6, 6, 2, 2, 1, 1])[0]()

    def numbers(self, count: int) -> str:
        """Some with many zeros in front: they say the same."""
        wide = self.draw.choices((0, 20, 600, 3900), [97, 1, 1, 1])[0]
        return "".join(f" {self.number():0{wide}}" if wide else f" {self.number()}" for _ in range(count))[: LONGEST - 100]

    def where(self) -> str:
        return self.draw.choice(("0", "0", "401136", f"{self.draw.randrange(2**64):x}"))

    def question(self) -> str:
        """In the form of the runtime's."""
        form = self.draw.choice(ENDS if self.draw.random() < 0.05 else GOES_ON)
        if form.name == "hello":
            real = self.draw.choice(("$P $T", "$P $P", "0 0", "1 1", f"{2**32 - 1} {2**32 - 1}", f"$P{self.numbers(1)}"))
            return f"hello {real} {self.draw.randrange(2**48):x} {self.draw.randrange(2)}"
        if self.draw.random() < 0.5:
            numbers = [str(self.draw.choice((kind.usual, kind.usual, *kind.ends()))) for kind in FIELDS[form.name]]
            return question_of(form.name, numbers, self.draw.choice(KINDS[:5]) if form.name in ("enter", "again") else "")
        if form.name == "enter":
            return f"enter {abs(self.number())} {self.draw.choice(KINDS[:4])} {self.number()}"
        if form.name == "again":
            return f"again {self.draw.choice(KINDS[:7])}{self.numbers(self.draw.randrange(1, 3))}"
        return form.name + self.numbers(self.draw.randint(form.least, form.most))

    def text(self) -> str:
        """What is no question, and an answer that nobody waits for."""
        if self.draw.random() < 0.3:
            return self.draw.choice(ANSWERS)
        words = self.draw.choice((self.numbers(2).strip(), "a text", "held by a \x1b[31mname", "x" * self.draw.randrange(1, 4000)))
        return f"{self.draw.choice(TEXTS)} {words}"

    def formed(self) -> bytes:
        said = self.text() if self.draw.random() < 0.04 else self.question()
        return f"{self.where()} {said}".encode()

    def torn(self, message: bytes) -> bytes:
        """The same with something wrong."""
        draw = self.draw
        at, to = sorted((draw.randrange(len(message) + 1), draw.randrange(len(message) + 1)))
        ways: list[Callable[[], bytes]] = [
            lambda: message[:at],
            lambda: message[:at] + message[to:],
            lambda: message[:at] + draw.choice(ODD_BYTES) + message[at:],
            lambda: message + draw.choice((b" ", b" 1", b"\n", b"\0")),
            lambda: message + self.last,
            lambda: bytes(byte ^ (1 << draw.randrange(8)) if draw.random() < 0.05 else byte for byte in message),
            lambda: (message + b" ") * (draw.choice((LONGEST, 3 * LONGEST)) // (len(message) + 1)),
            lambda: message.ljust(draw.choice((LONGEST - 1, LONGEST, LONGEST + 1, 65000)), b"0"),
            lambda: draw.randbytes(draw.randrange(0, 200)),
        ]
        return draw.choice(ways)()

    def message(self) -> str:
        message = self.formed()
        if self.draw.random() < self.oddity:
            message = self.torn(message)
        if self.draw.random() < 0.05:
            message = self.last
        self.last = message
        return message.hex()

    # ---- the script

    def line(self) -> str:
        draw = self.draw
        ways: list[tuple[float, Callable[[], str]]] = [
            (60, lambda: f"ask {self.message()}"),
            (4, lambda: f"send {self.message()}"),
            (1, lambda: f"flood {draw.choice((3, 30, 1000))} {self.message()}"),
            (2, lambda: f"pass {self.message()}"),
            (3, lambda: "hear"),
            (3, lambda: f"use {draw.randrange(-1, 3)}"),
            (8, lambda: f"call {draw.randrange(9)}"),
            (0.3, lambda: "call 9"),
            (0.3, lambda: draw.choice(("shut", "close", "cover"))),
            (0.05, lambda: "deaf"),
            (0.5, lambda: f"rest {draw.choice((1, 100, 1500))}"),
            (0.5, lambda: f"exit {draw.randrange(3)}"),
        ]
        return draw.choices([way for _, way in ways], [weight for weight, _ in ways])[0]()

    def script(self) -> str:
        draw = self.draw
        lines = [self.line() for _ in range(draw.randrange(3, 60))]
        for _ in range(draw.choice((0, 1, 1, 2, 3))):  # the rest is said by another one too
            lines.insert(draw.randrange(len(lines)), draw.choices(WAYS_TO_DOUBLE, [6, 6, 4, 3, 1])[0])
        if draw.random() < 0.05:  # and something to the server
            message = draw.choice(TO_SERVER)
            lines.append(draw.choice(("control", "control_later 3", "control_later 3000")) + f" {message.hex()}")
        return "\n".join(lines) + "\n"


def at_ends(number: int) -> str:
    """A script of numbers at their ends, in questions that are otherwise as the runtime's."""
    lines, last = Lines(), _LAST[number % len(_LAST)]
    for place in range(number * OF_A_SCRIPT, (number + 1) * OF_A_SCRIPT):
        lines.ask(ENDS_THAT_GO_ON[place % len(ENDS_THAT_GO_ON)])
    lines.say_all(f"ask {LONG}")
    if isinstance(last, Edge):
        lines.ask(last)
    elif last in HELLOS:
        lines.hello(last)
    else:
        lines.say_all(f"ask {last}")
    return lines.text()


def script(seed: int) -> str:
    """The script of this number."""
    return Hostile(seed).script()


# ---- runs, in a namespace of processes


class Ended(NamedTuple):
    """What came of a script."""

    number: int
    status: int | None
    """None if it hung."""
    said: str
    """On standard error."""
    left: list[str]
    """Processes and files."""
    seconds: float


def _others() -> list[str]:
    """All other processes of the namespace; those that have ended are collected."""
    with suppress(ChildProcessError):
        while os.waitpid(-1, os.WNOHANG)[0]:
            pass
    found = []
    for path in Path("/proc").iterdir():
        with suppress(OSError):
            if path.name.isdigit() and int(path.name) != os.getpid():
                words = (path / "cmdline").read_bytes().replace(b"\0", b" ").decode(errors="replace")
                found.append(words or f"process {path.name}")
    return found


def _left(folder: Path) -> list[str]:
    end = time.monotonic() + ENDING
    while (left := _others()) and time.monotonic() < end:
        time.sleep(0.02)
    return [*left, *map(str, folder.iterdir())]


def _end_all() -> None:
    """This is the first process of its namespace: the next script is alone again."""
    while _others():
        with suppress(ProcessLookupError):
            os.kill(-1, 9)
        time.sleep(0.02)


class Outside:
    """Says messages on the sockets that it is given with them, by a process that the run's namespace doesn't have."""

    within = ["unshare", "--pid", "--fork", "--kill-child", "--mount-proc"]
    """The words before the run's command."""

    def __init__(self, path: Path) -> None:
        self._listener = socket.socket(socket.AF_UNIX, socket.SOCK_SEQPACKET)
        self._listener.bind(str(path))
        self._listener.listen()
        threading.Thread(target=self._say_all, daemon=True).start()

    def _say_all(self) -> None:
        with suppress(OSError):  # it is closed
            while True:
                peer, _ = self._listener.accept()
                with peer:
                    text, given, _, _ = socket.recv_fds(peer, LONGEST, 1)
                    with socket.socket(fileno=given[0]) as own:
                        own.send(text)
                    peer.send(b"x")

    def close(self) -> None:
        self._listener.shutdown(socket.SHUT_RDWR)
        self._listener.close()


@contextmanager
def outside(text: str, path: Path) -> Iterator[list[str]]:
    """The words before the command that runs this script."""
    if "outside " not in text:
        yield []
        return
    path.unlink(missing_ok=True)
    listener = Outside(path)
    try:
        yield listener.within
    finally:
        listener.close()


def ended(command: list[str], number: int, text: str, room: Path) -> Ended:
    """Runs a script."""
    folder, script = room / "tmp", room / "script"
    folder.mkdir(exist_ok=True)
    script.write_text(text)
    began, status = time.monotonic(), None
    with open(room / "said", "wb+") as said, outside(text, room / "script.outside") as within:
        words = [*within, *command, str(script)]
        environment = {**os.environ, "TMPDIR": str(folder)}
        process = subprocess.Popen(words, stdin=subprocess.DEVNULL, stdout=subprocess.DEVNULL, stderr=said, env=environment)
        with suppress(subprocess.TimeoutExpired):
            status = process.wait(SECONDS)
        seconds = time.monotonic() - began
        left = _left(folder) if status is not None else []
        _end_all()
        process.wait()
        said.seek(0)
        printed = said.read().decode(errors="replace")
    return Ended(number, status, printed, left, seconds)


def options(seed: int) -> list[str]:
    """Of tracehost-run, for the script of this number."""
    ways: list[list[str]] = [[], [], [], ["--seed", str(seed + 1)], ["--strict"], ["--calls"], ["--schedules", "4"], ["--digest"]]
    return ways[seed % len(ways)]


def main() -> None:
    """RUN PROGRAM: reads options and scripts from standard input, in JSON, and prints what has come of each."""
    run, program = sys.argv[1:]
    if os.getpid() != 1:
        sys.exit("it isn't alone in a namespace of processes")
    with tempfile.TemporaryDirectory() as room:
        for number, (words, text) in enumerate(json.load(sys.stdin)):
            command = [sys.executable, run, "--no-record", *LIMITS, *words, program]
            print(json.dumps(ended(command, number, text, Path(room))), flush=True)


if __name__ == "__main__":
    main()
