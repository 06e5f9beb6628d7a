"""Sessions by --lines: a peer waits for each answer before it sends the next line.

Every wait has an end: a session that hangs is killed, and fails its test.
"""

from __future__ import annotations

import itertools
import json
import signal
import subprocess
import threading
import time
from pathlib import Path
from typing import IO, Any

import pytest

from checking import TOP, Word, needs
from row_files import accepted_files, for_each_scenario

SPAWN = b'{"user":1001,"op":"spawn"}'
MOST_BYTES = 65536


class Session:
    """A running program with pipes to it. It is killed after `seconds`."""

    def __init__(self, *words: Word, seconds: int = 30, **how: Any) -> None:
        how = {"stdin": subprocess.PIPE, "stdout": subprocess.PIPE, "stderr": subprocess.PIPE} | how
        self.process = subprocess.Popen(words, **how)
        self.timer = threading.Timer(seconds, self.process.kill)
        self.timer.start()

    def __enter__(self) -> Session:
        return self

    def __exit__(self, *error: object) -> None:
        self.timer.cancel()
        self.process.kill()
        self.process.wait()
        for stream in (self.process.stdin, self.process.stdout, self.process.stderr):
            if stream:
                try:
                    stream.close()
                except BrokenPipeError:
                    pass

    @property
    def input(self) -> IO[bytes]:
        assert self.process.stdin
        return self.process.stdin

    @property
    def output(self) -> IO[bytes]:
        assert self.process.stdout
        return self.process.stdout

    @property
    def error(self) -> IO[bytes]:
        assert self.process.stderr
        return self.process.stderr

    def send(self, data: bytes) -> None:
        self.input.write(data)
        self.input.flush()

    def answer(self) -> str:
        return self.output.readline().decode().rstrip("\n")

    def ask(self, line: bytes) -> str:
        """Sends a line, and waits for its answer."""
        self.send(line + b"\n")
        return self.answer()

    def end(self) -> tuple[str, str, int]:
        """Ends the input: what was still written, on standard error too, and the status."""
        out, err = self.process.communicate()
        return out.decode(), err.decode(), self.process.returncode

    def resident(self) -> int:
        """Resident memory in KiB."""
        with open(f"/proc/{self.process.pid}/status") as status:
            return next(int(line.split()[1]) for line in status if line.startswith("VmRSS:"))


def session_of(program: Path, *options: str, seconds: int = 30, **how: Any) -> Session:
    return Session(program, "--lines", *options, seconds=seconds, **how)


def answers(program: Path, data: bytes, *options: Word) -> tuple[list[str], str, int]:
    """The lines out, standard error and the status of a session with this input."""
    done = subprocess.run([program, "--lines", *options], input=data, capture_output=True, timeout=30, check=False)
    return done.stdout.decode().splitlines(), done.stderr.decode(), done.returncode


def step(op: str, user: int = 1001, **keys: object) -> bytes:
    return json.dumps({"user": user, "op": op, **keys}).encode()


def rule(**keys: object) -> bytes:
    return step("install", caller=1000, rules=[keys])


REFUSED = [
    (
        "BadJson",
        [
            b"",
            b" ",
            b"\r",
            b"\0",
            SPAWN + b"\0",
            b"\0" + SPAWN,
            b"\xff",
            b'{"user":1001,"op":"sp\xffawn"}',
            SPAWN[:-1],
            SPAWN + SPAWN,
            SPAWN + b",",
            b"spawn",
            b'{"user":1001,"op":"list","caller":1e400}',
            b"\xef\xbb\xbf" + SPAWN,
            b"[" * 128 + b"]" * 128,
            b'{"user":01001,"op":"spawn"}',
        ],
    ),
    (
        "BadShape",
        [
            b"[]",
            b"{}",
            b"null",
            b"1001",
            b'"spawn"',
            b"[" + SPAWN + b"]",
            b'{"steps":[' + SPAWN + b"]}",
            b'{"user":1001}',
            b'{"op":"spawn"}',
            b'{"user":"1001","op":"spawn"}',
            b'{"user":1001.0,"op":"spawn"}',
            b'{"user":1001,"op":1}',
            step("spawn", caller=1000),
            step("list"),
            step("list", caller=-0.5),
            step("list", caller=2**63),
            step("wait4", caller=1000, which=-1, options="WNOHANG"),
            step("kill", caller=1000, which=1, signal="9"),
            step("turn", lwp=100000, act="enter"),
            step("turn", lwp=100000, act="compute", call="fork"),
            rule(signal=5),
            rule(decision="kill", **{"pass": 0}),
            step("install", caller=1000, rules={}),
            b"[" * 127 + b"]" * 127,
        ],
    ),
    ("BadUser", [step("spawn", user=1000), step("spawn", user=1065), step("fly", user=0), step("spawn", user=-1)]),
    (
        "BadName",
        [
            step("fly"),
            step("ptrace", caller=1000, request="PT_FOO", target=1001),
            step("turn", lwp=100000, act="sleep"),
            step("turn", lwp=100000, act="enter", call="open"),
            step("wait4", caller=1000, which=-1, options=["WALL"]),
            step("ptrace", caller=1000, request="PT_SET_EVENT_MASK", target=1001, mask=["PTRACE_ALL"]),
            step("sigaction", caller=1000, signal=2, action="block"),
            rule(decision="stop"),
            rule(flags=["PL_FLAG_SI"], decision="kill"),
        ],
    ),
    (
        "BadNumber",
        [
            step("list", caller=-1),
            step("list", caller=2**32),
            step("turn", lwp=-1, act="compute"),
            step("ptrace", caller=1000, request="PT_CONTINUE", target=1001, data=2**32),
            step("turn", lwp=100000, act="block", set=[0]),
            step("turn", lwp=100000, act="block", set=[32]),
            step("turn", lwp=100000, act="enter", call="exit", code=256),
            rule(signal=0, decision="kill"),
            rule(decision="continue", **{"pass": 32}),
        ],
    ),
    (
        "TooManyRules",
        [
            step("install", caller=1000, rules=[{"decision": "kill"}] * 17),
            step("install", caller=1000, rules=[0] * 17),
        ],
    ),
    (
        "TooLong",
        [
            b" " * (MOST_BYTES + 1),
            SPAWN + b" " * MOST_BYTES,
            b"\0" * (MOST_BYTES + 1),
            b"\xff" * 3 * MOST_BYTES,
        ],
    ),
]


@for_each_scenario(accepted_files())
def test_a_scenario_line_by_line(program: Path, file: Path) -> None:
    """It has the same lines in a session, each before the next step is sent."""
    batch = subprocess.run([program, file], cwd=TOP, capture_output=True, timeout=30, check=True)
    scenario = json.loads((TOP / file).read_bytes())
    setting = scenario.get("kill_on_debugger_exit")
    options = [] if setting is None else ["--kill-on-debugger-exit", str(setting)]
    with session_of(program, *options) as session:
        lines = [session.ask(json.dumps(step).encode()) for step in scenario["steps"]]
        assert lines == batch.stdout.decode().splitlines()
        assert session.end() == ("", "", 0)


def test_both_settings(program: Path) -> None:
    for setting, name in (("1", "kills"), ("0", "leaves")):
        file = TOP / "examples" / f"death_of_a_debugger_{name}.json"
        steps = b"".join(json.dumps(step).encode() + b"\n" for step in json.loads(file.read_bytes())["steps"])
        want = file.with_suffix(".out").read_text().splitlines()
        assert answers(program, steps, "--kill-on-debugger-exit", setting) == (want, "", 0)
    assert answers(program, steps)[0] == (TOP / "examples/death_of_a_debugger_kills.out").read_text().splitlines()


def test_numbers_count_each_users_steps(program: Path) -> None:
    lines = [SPAWN, step("spawn", user=1064), b"", step("list", caller=7), step("list", user=1064, caller=7), SPAWN]
    want = [
        "1001 1 new 1000 100000",
        "1064 1 new 64000 352000",
        "refused BadJson",
        "1001 2 error ESRCH 3",
        "1064 2 error ESRCH 3",
        "1001 3 new 1001 100001",
    ]
    assert answers(program, b"\n".join(lines))[0][:1] == want[:1]
    out = answers(program, b"\n".join(lines) + b"\n")[0]
    assert [line.split()[:2] for line in out] == [line.split()[:2] for line in want]
    assert out[-1] == want[-1]


def test_each_fault(program: Path) -> None:
    """A refused line has its fault, changes nothing and counts no number."""
    with session_of(program) as session:
        count = 0
        for fault, lines in REFUSED:
            for line in lines:
                assert session.ask(line) == f"refused {fault}", line[:80]
            count += 1
            assert session.ask(step("list", caller=1000)) == f"1001 {count} error ESRCH 3"
        assert session.ask(SPAWN) == f"1001 {count + 1} new 1000 100000"
        assert session.end() == ("", "", 0)


def test_the_longest_line(program: Path) -> None:
    whole = SPAWN + b" " * (MOST_BYTES - len(SPAWN))
    out, err, status = answers(program, whole + b"\n" + whole + b" \n" + whole[:-1] + b"\r\n" + whole)
    want = ["1001 1 new 1000 100000", "refused TooLong", "1001 2 new 1001 100001", "1001 3 new 1002 100002"]
    assert out == want
    assert (err, status) == ("", 0)


def test_a_line_without_an_end(program: Path) -> None:
    """Ten megabytes without a line feed are skipped, and take no memory."""
    with session_of(program) as session:
        session.ask(b" " * MOST_BYTES * 2)
        before = session.resident()
        for _ in range(10):
            session.send(b"\xff" * 2**20)
        assert session.resident() - before < 512
        assert session.ask(b"") == "refused TooLong"
        assert session.ask(SPAWN) == "1001 1 new 1000 100000"
        session.send(b" " * 2**20)
        assert session.end() == ("refused TooLong\n", "", 0)


def test_ends_of_the_input(program: Path) -> None:
    want = "1001 1 new 1000 100000"
    assert answers(program, b"") == ([], "", 0)
    assert answers(program, SPAWN) == ([want], "", 0)
    assert answers(program, SPAWN + b"\n") == ([want], "", 0)
    assert answers(program, SPAWN + b"\n\n") == ([want, "refused BadJson"], "", 0)
    assert answers(program, SPAWN + b"\r\n\r\n") == ([want, "refused BadJson"], "", 0)
    assert answers(program, b"\n") == (["refused BadJson"], "", 0)


def test_a_file(program: Path, tmp_path: Path) -> None:
    file = tmp_path / "steps"
    file.write_bytes(SPAWN + b"\n" + SPAWN)
    assert answers(program, b"not read\n", file)[0] == ["1001 1 new 1000 100000", "1001 2 new 1001 100001"]
    for path in (tmp_path, tmp_path / "missing"):
        assert answers(program, b"", path) == ([], "tracehost: cannot read\n", 3)


def test_a_client_that_dies(program: Path) -> None:
    """Half a line is the last line of its input; if nobody reads any more the session ends."""
    with session_of(program) as session:
        session.ask(SPAWN)
        session.send(SPAWN[:-5])
        assert session.end() == ("refused BadJson\n", "", 0)
    with session_of(program) as session:
        session.ask(SPAWN)
        session.send(SPAWN[:-5])
        session.output.close()
        session.input.close()
        assert session.process.wait() == 3
        assert session.error.read() == b"tracehost: cannot write\n"


def test_output_that_cannot_be_written(program: Path) -> None:
    with session_of(program) as session:
        session.output.close()
        session.send(SPAWN + b"\n")
        assert session.process.wait() == 3
        assert session.error.read() == b"tracehost: cannot write\n"
    for count in (2, 10_000):
        with open("/dev/full", "wb") as full, session_of(program, stdout=full) as session:
            _, err = session.process.communicate((SPAWN + b"\n") * count)
            assert (err, session.process.returncode) == (b"tracehost: cannot write\n", 3)


@pytest.mark.parametrize(
    "words",
    ["--lines --user 1001", "--lines --threads", "--kill-on-debugger-exit 1", "--lines --kill-on-debugger-exit 2",
     "--lines --kill-on-debugger-exit", "--lines a b"],
)  # fmt: skip
def test_the_command_line(program: Path, words: str) -> None:
    done = subprocess.run([program, *words.split()], input=b"", capture_output=True, timeout=30, check=False)
    assert (done.stdout, done.returncode) == (b"", 2)
    assert done.stderr != b""


def test_bytes_in_any_pieces(program: Path) -> None:
    """A line may come byte by byte, and several lines at once."""
    with session_of(program) as session:
        for byte in SPAWN + b"\n":
            session.send(bytes([byte]))
        assert session.answer() == "1001 1 new 1000 100000"
        session.send((SPAWN + b"\n\n") * 100)
        for number in range(100):
            assert session.answer() == f"1001 {number + 2} new {number + 1001} {number + 100001}"
            assert session.answer() == "refused BadJson"


def mixed_lines(count: int) -> list[bytes]:
    """Steps that are answered by a reply, by an errno or by a list, and lines that are refused."""
    kinds = [SPAWN, step("list", caller=7), b"", step("list", caller=1000), step("spawn", user=1064), b"[]"]
    return [kinds[place % 6] if place < 300 else kinds[place % 3] for place in range(count)]


@needs("strace")
@pytest.mark.parametrize("last", [b"\n", b""])
def test_lines_that_wait_are_answered_together(program: Path, tmp_path: Path, last: bytes) -> None:
    """The answers are those of line by line, by at most two calls for 64 KiB that are read or written."""
    lines = mixed_lines(6001)
    with session_of(program) as session:
        wanted = "".join(session.ask(line) + "\n" for line in lines)
        assert session.end() == ("", "", 0)
    steps, log = tmp_path / "steps", tmp_path / "calls"
    steps.write_bytes(b"\n".join(lines) + last)
    words: list[Word] = ["strace", "-f", "-e", "trace=write", "-o", log, program, "--lines", steps]
    done = subprocess.run(words, capture_output=True, timeout=60, check=False)
    assert (done.stdout.decode(), done.stderr, done.returncode) == (wanted, b"", 0)
    calls = log.read_text().count(" write(1, ")
    assert 0 < calls <= 2 * (steps.stat().st_size + len(wanted)) // MOST_BYTES + 2


def test_a_part_of_a_line_waits(program: Path) -> None:
    """The lines before it are answered at once, even if all came together."""
    with session_of(program) as session:
        session.send((SPAWN + b"\n") * 100 + SPAWN[:9])
        for number in range(100):
            assert session.answer() == f"1001 {number + 1} new {number + 1000} {number + 100000}"
        session.send(SPAWN[9:] + b"\n" + SPAWN)
        assert session.answer() == "1001 101 new 1100 100100"
        assert session.end() == ("1001 102 new 1101 100101\n", "", 0)


def test_stopped_and_continued(program: Path) -> None:
    with session_of(program) as session:
        stop = threading.Event()

        def interrupt() -> None:
            while not stop.wait(0.001):
                session.process.send_signal(signal.SIGSTOP)
                time.sleep(0.001)
                session.process.send_signal(signal.SIGCONT)

        thread = threading.Thread(target=interrupt)
        thread.start()
        try:
            for number in range(1, 1001):
                assert session.ask(step("list", caller=1)) == f"1001 {number} error ESRCH 3"
            block = b"".join(step("list", user=1002, caller=k) + b"\n" for k in range(200))
            for turn in range(5):
                session.send(block)
                for number in range(200):
                    assert session.answer() == f"1002 {turn * 200 + number + 1} error ESRCH 3"
        finally:
            stop.set()
            thread.join()
        assert session.end() == ("", "", 0)


def test_memory_is_flat(program: Path) -> None:
    """A million steps of bounded state: processes come and go, are attached to, stop and are waited for."""
    users = range(1001, 1065)
    with session_of(program, seconds=120) as session:
        made = 0
        resident = {}
        numbers = {}
        for user in users:
            numbers[user] = [int(session.ask(step("spawn", user=user)).split()[3]) for _ in range(2)]
            made += 2
        blocks = {
            user: b"".join(
                line + b"\n"
                for line in (
                    step("ptrace", user, caller=debugger, request="PT_ATTACH", target=target),
                    step("wait4", user, caller=debugger, which=target),
                    step("ptrace", user, caller=debugger, request="PT_LWPINFO", target=target),
                    step("install", user, caller=debugger, rules=[{"signal": 5, "decision": "continue"}]),
                    step("ptrace", user, caller=debugger, request="PT_DETACH", target=target),
                    step("list", user, caller=debugger),
                    step("turn", user, lwp=99, act="compute"),
                    b"no step",
                )
            )
            * 4
            for user, (debugger, target) in numbers.items()
        }
        for user in itertools.cycle(users):
            session.send(blocks[user])
            for _ in range(32):
                last = session.output.readline()
            made += 28
            # each user has installed as many handlers as a user may have by then
            if made >= 200_000 and "first" not in resident:
                resident["first"] = session.resident()
            if made >= 1_000_000:
                break
        assert last == b"refused BadJson\n"
        assert session.resident() - resident["first"] < 256
        print(f"resident memory: {resident['first']} KiB at 200000 steps, {session.resident()} KiB at {made}")


def test_a_round_trip(program: Path) -> None:
    """A step is answered in less than four times the time in which `cat` sends a line back."""
    line = step("list", caller=1)

    def trip(session: Session, count: int = 4000) -> float:
        began = time.perf_counter()
        for _ in range(count):
            session.send(line + b"\n")
            session.output.readline()
        return (time.perf_counter() - began) / count * 1e6

    with session_of(program) as session, Session("cat") as cat:
        ratios = []
        for _ in range(7):
            bare, own = trip(cat), trip(session)
            ratios.append((own / bare, own, bare))
        ratio, own, bare = sorted(ratios)[len(ratios) // 2]
        print(f"a round trip from Python: {own:.1f} microseconds, by cat {bare:.1f}, {ratio:.2f} times")
        assert sorted(ratios)[0][0] < 4
