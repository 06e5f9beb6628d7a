"""The player on the model itself, compiled by tracehost-cc: it plays requests of FreeBSD's that no other kernel here has, and finds
each change; and FreeBSD's part of it is compiled."""

from __future__ import annotations

import subprocess
from collections.abc import Iterable, Iterator
from pathlib import Path

import pytest
from kernel_player import EXAMPLE, KERNEL, counts_of, results_of, sessions_in, steps_in, text_of
from posix_kit import CC, Posix, once, shared_folder

REQUESTS = KERNEL / "requests.txt"
KNOWN = KERNEL / "differences" / "model.tsv"
SOURCES = [path for path in sorted(KERNEL.glob("*.c")) if path.name not in ("linux.c", "freebsd.c", "requests.c")]
STRICT = ["-std=gnu11", "-g", "-Wall", "-Wextra", "-Werror"]
STAND_IN = Path(__file__).with_name("freebsd_stand_in.h")

Done = subprocess.CompletedProcess[str]


@pytest.fixture(scope="module")
def player(posix: Posix, tmp_path_factory: pytest.TempPathFactory) -> Path:
    made = shared_folder(tmp_path_factory) / "tracehost-play"

    def make() -> None:
        done = posix.execute(CC, *STRICT, "-O1", "-o", made, *SOURCES)
        assert done.returncode == 0, done.stderr

    return once(made, make)


def play(posix: Posix, player: Path, *words: object) -> Done:
    return posix.run("--limit", 10**9, player, *words)


@pytest.mark.parametrize("path", [EXAMPLE, REQUESTS], ids=lambda path: str(path.stem))
def test_the_model_is_as_its_sessions_have_it(path: Path, posix: Posix, player: Path) -> None:
    text = path.read_text()
    done = play(posix, player, path)
    assert done.returncode == 0, done.stdout + done.stderr
    said = f"the model: {len(sessions_in(text))} sessions, {steps_in(text)} steps, {steps_in(text)} of them compared; "
    assert done.stdout.startswith(said) and done.stdout.endswith("unlisted: 0\n")


def test_a_changed_reply_is_found(posix: Posix, player: Path, tmp_path: Path) -> None:
    """Each reply of a step of FreeBSD's own, a session each."""
    sessions: list[list[str]] = []
    for session in sessions_in(REQUESTS.read_text()):
        for place, line in enumerate(session):
            step, arrow, reply = line.partition(" -> ")
            if not arrow or step.startswith("spawn") or " enter " in step:  # what is entered is looked at as it is left
                continue
            other = "held" if reply.split()[0] in ("error", "ok", "new") else "ok"
            other = reply.replace("PL_FLAG_SC", "PL_FLAG_S") if reply.startswith("info") and "PL_FLAG_SC" in reply else other
            sessions.append([f"# {len(sessions)} {step}", *session[1:place], f"{step} -> {other}"])
    text, results = tmp_path / "changed.txt", tmp_path / "results.tsv"
    text.write_text(text_of(sessions))
    done = play(posix, player, "--results", results, text)
    assert done.returncode == 1 and len(sessions) > 80
    assert [row.session for row in results_of(results) if row.verdict != "differs"] == []


PASSED_OVER = (16, 20, 23, 28, 29)
IGNORED = 27


def stopped_tracee(
    signal: int, request: str, row: str, rest: str = "", before: str = "", pending: str = "", turns: str = ""
) -> str:
    """A session whose tracee is let go on, and stops for this signal: lines before it is traced, and while it is stopped, turns of
    others, and lines behind them."""
    return f"""spawn -> new 1000 100000
spawn -> new 1001 100001
= process 1000 state=runs
= process 1001 state=runs
= lwp 100000 process=1000
= lwp 100001 process=1001
{before}ptrace 1000 PT_ATTACH 1001 -> ok
= process 1001 state=trace_stop stop=17
wait4 1000 1001 -> status 1001 4479
{pending}kill 1000 1001 {signal} -> ok
ptrace 1000 {request} 1001 -> ok
turn 100001 compute -> stopped 100001 {signal} flags=none
{turns}= process 1001 state=trace_stop tracer=1000 stop={signal} {row}
{rest}"""


def stepping(row: str, rest: str) -> str:
    """SIGUSR1 is met before the step."""
    return stopped_tracee(30, "PT_STEP", row, f"wait4 1000 1001 -> status 1001 7807\n{rest}")


CATCHES, CAUGHT = "sigaction 1000 20 catch -> ok\n", "turn 100000 compute -> caught 20\n"
GOES_ON = "ptrace 1000 PT_CONTINUE 1001 -> ok\n= process 1001 state=runs\n"


def known_sessions() -> Iterator[tuple[str, str]]:
    """The verdict on each, and its lines."""
    yield "listed raise_0", "spawn -> new 1000 100000\nturn 100000 raise 0 -> error EINVAL 22\n"
    passed = stopped_tracee(
        15, "PT_CONTINUE", "caught=15", "wait4 1000 1001 -> status 1001 3967\n", "sigaction 1001 15 catch -> ok\n"
    )
    yield "listed passes_signal", f"{passed}ptrace 1000 PT_CONTINUE 1001 15 -> ok\n= process 1001 state=runs\n"
    yield "listed step_mark", stepping("marked=yes", GOES_ON)
    yield "same", stopped_tracee(30, "PT_CONTINUE", "", f"wait4 1000 1001 -> status 1001 7807\n{GOES_ON}")
    for number in PASSED_OVER:
        yield from passed_over(number, "caught=-", "")
        wait, catch = f"wait4 1000 1001 -> status 1001 {number * 256 + 127}\n", f"sigaction 1001 {number} catch -> ok\n"
        yield "same", stopped_tracee(number, "PT_CONTINUE", f"caught={number}", wait, catch, CATCHES, CAUGHT)
    yield from passed_over(IGNORED, f"ignored={IGNORED} stop_ignored=yes", f"sigaction 1001 {IGNORED} ignore -> ok\n")


def passed_over(number: int, row: str, before: str) -> Iterator[tuple[str, str]]:
    wait = f"wait4 1000 1001 -> status 1001 {number * 256 + 127}\n"
    pending = "kill 1000 1001 30 -> ok\n"
    yield "listed passed_over", stopped_tracee(number, "PT_CONTINUE", row, wait, before)
    yield "listed passed_over", stopped_tracee(number, "PT_CONTINUE", f"pending=30 {row}", wait, before, pending)
    yield "listed passed_over", stopped_tracee(number, "PT_STEP", f"marked=yes {row}", wait.replace("1001 ->", "-1 ->"), before)
    yield "listed passed_over", stopped_tracee(number, "PT_CONTINUE", row, "", before, CATCHES, CAUGHT)


def numbered(sessions: Iterable[str]) -> str:
    return "\n".join(f"# {number}\n{session}" for number, session in enumerate(sessions))


def test_the_runtime_s_additions_are_listed(posix: Posix, player: Path, tmp_path: Path) -> None:
    text, results = tmp_path / "known.txt", tmp_path / "results.tsv"
    verdicts, sessions = zip(*known_sessions())
    text.write_text(numbered(sessions))
    done = play(posix, player, "--differences", KNOWN, "--results", results, text)
    assert done.returncode == 0, done.stdout
    assert [row.verdict for row in results_of(results)] == list(verdicts)
    assert counts_of(results)["passed_over"][0] == 4 * (len(PASSED_OVER) + 1)
    assert play(posix, player, "--results", results, text).returncode == 1
    unlisted = ["same" if verdict == "same" else "differs" for verdict in verdicts]
    assert [row.verdict for row in results_of(results)] == unlisted


def test_no_other_difference_is_listed(posix: Posix, player: Path, tmp_path: Path) -> None:
    """As the listed ones, with another mark, status or signal."""
    text, results = tmp_path / "others.txt", tmp_path / "results.tsv"
    sessions = [stepping("", GOES_ON)]
    for number in PASSED_OVER:
        for wrong in (7807, 127):
            sessions.append(stopped_tracee(number, "PT_STEP", "marked=yes", f"wait4 1000 1001 -> status 1001 {wrong}\n"))
    for number in (30, IGNORED):
        sessions.append(stopped_tracee(number, "PT_CONTINUE", "", turns=CAUGHT))
    sessions.append(stopped_tracee(19, "PT_CONTINUE", "caught=-", "= process 1001 state=runs\n"))
    text.write_text(numbered(sessions))
    assert play(posix, player, "--differences", KNOWN, "--results", results, text).returncode == 1
    assert [row.verdict for row in results_of(results)] == ["differs"] * len(sessions)


def test_what_the_model_has_not_is_no_pass(posix: Posix, player: Path, tmp_path: Path) -> None:
    text = tmp_path / "odd.txt"
    text.write_text("# s\nspawn -> new 1000 100000\nspawn -> new 1001 100001\nkill 1000 -1 0 -> ok\n")
    done = play(posix, player, text)
    assert "not tried, a signal to all may reach others' processes: 1" in done.stdout and done.returncode != 0
    text.write_text("# s\n1002: spawn -> new 2000 104000\n")
    assert "not tried, several users" in play(posix, player, text).stdout


@pytest.mark.parametrize("setting", ["0", "1"])
def test_the_end_of_a_debugger(setting: str, posix: Posix, player: Path, tmp_path: Path) -> None:
    """A session of the other setting isn't played if the player is told which one it is."""
    text = tmp_path / "session.txt"
    rest = "wait4 1001 -1 -> error ECHILD 10\n" if setting == "0" else "list 1001 -> error ESRCH 3\n"
    text.write_text(
        f"# s\nkill_on_debugger_exit: {setting}\nspawn -> new 1000 100000\nspawn -> new 1001 100001\n"
        f"ptrace 1000 PT_ATTACH 1001 -> ok\nkill 1000 1000 9 -> ok\n{rest}"
    )
    words = ["--limit", 10**9, "--kill-on-debugger-exit", setting, player]
    assert posix.run(*words, "--kill-on-debugger-exit", setting, text).returncode == 0
    other = posix.run(*words, "--kill-on-debugger-exit", str(1 - int(setting)), text)
    assert "not tried, kern.kill_on_debugger_exit has another value: 1" in other.stdout and other.returncode != 0


def test_the_end_of_a_debugger_lifts_suspensions(posix: Posix, player: Path, tmp_path: Path) -> None:
    """A further debugger's tracee isn't suspended either."""
    text = tmp_path / "session.txt"
    text.write_text(
        """# s
kill_on_debugger_exit: 0
spawn -> new 1000 100000
spawn -> new 1001 100001
spawn -> new 1002 100002
ptrace 1000 PT_ATTACH 1001 -> ok
wait4 1000 1001 -> status 1001 4479
ptrace 1000 PT_SUSPEND 100001 -> ok
ptrace 1000 PT_CONTINUE 1001 -> ok
turn 100001 block SIGHUP -> held
kill 1002 1000 SIGKILL -> ok
turn 100001 block SIGHUP -> ok
sigaction 1001 SIGUSR1 ignore -> ok
ptrace 1002 PT_ATTACH 1001 -> ok
wait4 1002 1001 -> status 1001 4479
ptrace 1002 PT_CONTINUE 1001 -> ok
turn 100001 block SIGINT -> ok
"""
    )
    done = posix.run("--limit", 10**9, "--kill-on-debugger-exit", 0, player, text)
    assert done.returncode == 0, done.stdout + done.stderr


def test_a_puppet_that_hangs_ends_the_run(posix: Posix, player: Path, tmp_path: Path) -> None:
    """No row says which thread the process's number means, so that the player waits for the suspended one."""
    text = tmp_path / "session.txt"
    attached = "ptrace 1000 PT_ATTACH 1001 -> ok\nwait4 1000 1001 -> status 1001 4479\n"
    text.write_text(
        f"# s\nspawn -> new 1000 100000\nspawn -> new 1001 100001\n{attached}"
        "ptrace 1000 PT_SUSPEND 1001 -> ok\nptrace 1000 PT_CONTINUE 1001 -> ok\n"
    )
    done = posix.run("--limit", 10**9, player, text, seconds=120)
    assert done.returncode != 0 and "LWP 100001 hangs" in done.stderr


@pytest.mark.parametrize("compiler", ["cc", "clang"])
def test_freebsd_s_part_is_compiled(compiler: str, posix: Posix) -> None:
    """By declarations of the manual pages, in place of its headers; it isn't run."""
    words = ["--freebsd", *STRICT, "-include", STAND_IN, "-c", "-fsyntax-only"]
    for source in SOURCES:
        done = posix.execute("env", f"CC={compiler}", CC, *words, source)
        assert (done.returncode, done.stderr) == (0, ""), source
