"""The player of sessions on the kernel of this machine: what agrees, each kind of change that it finds, what it can't do, and what
it inherits."""

from __future__ import annotations

import os
import re
import resource
import shutil
import signal
import subprocess
from collections.abc import Callable
from pathlib import Path

import pytest
from checking import TOP, needs
from kernel_player import (
    EXAMPLE,
    HEADING,
    KERNEL,
    STRICT,
    Done,
    as_stranger,
    built,
    counts_of,
    opened,
    results_of,
    sessions_in,
    shared_player,
    shared_refusals,
    steps_in,
    text_of,
)
from sessions import sessions_of

SESSIONS = sessions_in(EXAMPLE.read_text())


@pytest.fixture
def player(tmp_path_factory: pytest.TempPathFactory) -> Path:
    return shared_player(tmp_path_factory)


@pytest.fixture
def refusals(tmp_path_factory: pytest.TempPathFactory) -> Path:
    return shared_refusals(tmp_path_factory)


def run(*words: object, text: str | None = None, before: Callable[[], None] | None = None) -> Done:
    """A command; the text is its standard input."""
    return subprocess.run(
        [str(word) for word in words],
        input="" if text is None else text,
        capture_output=True,
        text=True,
        timeout=300,
        check=False,
        preexec_fn=before,
    )


def agrees(done: Done) -> bool:
    """Whether all of the example was played, and the kernel is as the model has it."""
    text = EXAMPLE.read_text()
    said = f"{len(SESSIONS)} sessions, {steps_in(text)} steps, {steps_in(text)} of them compared; "
    return done.returncode == 0 and said in done.stdout and done.stdout.endswith("unlisted: 0\n")


def listed(folder: Path, *rows: str) -> Path:
    """A list of differences."""
    path = folder / "differences.tsv"
    path.write_text(HEADING + "".join(f"{row}\twhy\twhere\n" for row in rows))
    return path


# ---- what agrees


def test_the_kernel_is_as_the_example_has_it(player: Path, tmp_path: Path) -> None:
    results = tmp_path / "results.tsv"
    done = run(player, "--results", results, EXAMPLE)
    assert agrees(done), done.stdout + done.stderr
    assert done.stdout.startswith("Linux: ") and done.stderr == ""
    rows = results_of(results)
    assert [row.session for row in rows] == [session[0][2:] for session in SESSIONS]
    for row, session in zip(rows, SESSIONS, strict=True):
        assert (row.verdict, row.compared, row.line) == ("same", row.steps, 0)
        assert row.steps == steps_in("\n".join(session))


def test_sessions_are_read_from_standard_input_and_from_several_files(player: Path) -> None:
    assert agrees(run(player, text=EXAMPLE.read_text()))
    done = run(player, EXAMPLE, EXAMPLE)
    assert done.returncode == 0 and f"{2 * len(SESSIONS)} sessions" in done.stdout


def test_the_model_answers_the_example_so() -> None:
    program = os.environ.get("TRACEHOST") or str(TOP / "tracehost")
    text = text_of([[line for line in session if not line.startswith("=")] for session in SESSIONS])
    for session in sessions_of(text, {}).values():
        done = run(program, text=session.scenario())
        assert done.stdout.splitlines() == session.printed(), session.name


@pytest.mark.parametrize("compiler", ["cc", "clang"])
def test_it_is_built_in_an_empty_folder(compiler: str, tmp_path: Path) -> None:
    if shutil.which(compiler) is None:
        pytest.skip(f"{compiler} isn't there")
    folder = tmp_path / "a folder"
    assert agrees(run(built(folder, "make", f"CC={compiler}", f"CFLAGS={STRICT}"), folder / "example.txt"))
    checked = run("make", "-C", folder, "check")
    assert checked.returncode == 0 and "unlisted: 0" in checked.stdout
    assert run("make", "-C", folder, "clean").returncode == 0
    assert not list(folder.glob("*.o")) and not (folder / "tracehost-play").exists()


@needs("bmake")
def test_the_makefile_is_bsd_make_s_too(tmp_path: Path) -> None:
    assert agrees(run(built(tmp_path, "bmake"), EXAMPLE))


def test_tracing_by_several_users(player: Path) -> None:
    """A user of the kernel is told EPERM of another one's process; the model says ESRCH."""
    text = """# Two users
spawn -> new 1000 100000
1002: spawn -> new 2000 104000
= process 1000 user=1001 state=runs parent=1 tracer=0 lwps=1 pending=- ignored=- caught=-
= process 2000 user=1002 state=runs parent=1 tracer=0 lwps=1 pending=- ignored=- caught=-
1002: list 2000 -> pids 2000
list 1000 -> pids 1000
kill 1000 2000 0 -> error ESRCH 3
"""
    done = run(player, text=text)
    if os.geteuid() == 0:
        assert done.returncode == 1
        assert "standard input:8: Two users: kill 1000 2000 0: kernel error EPERM 1, model error ESRCH 3" in done.stdout
    else:
        assert done.returncode == 3 and "not tried, several users" in done.stdout


def test_a_signal_to_all_reaches_the_user_s_processes_only(player: Path) -> None:
    text = """# All others
spawn -> new 1000 100000
spawn -> new 1001 100001
kill 1000 -1 SIGKILL -> ok
list 1000 -> pids 1000
kill 1000 -1 0 -> error ESRCH 3
"""
    assert run(player, text=text).returncode == 0


def test_a_handler_that_runs_as_vfork_returns_is_its_maker_s(player: Path) -> None:
    caught = "caught=20"
    row = f"user=1001 state=runs tracer=0 lwps=1 pending=- ignored=- {caught}"
    session = f"""spawn -> new 1000 100000
sigaction 1000 20 catch -> ok
= process 1000 parent=1 {row}
= lwp 100000 process=1000 blocked=- pending=-
turn 100000 enter vfork -> ok
turn 100000 leave -> new 1001 100001
= process 1001 parent=1000 {row}
= lwp 100001 process=1001 blocked=- pending=-
turn 100001 enter exit 3 -> ok
turn 100001 leave -> ended 768
turn 100000 compute -> caught 20
= process 1001 user=1001 state=zombie parent=1000 tracer=0 lwps=0
= gone lwp 100001
"""
    done = run(player, text="\n".join(f"# {number}\n{session}" for number in range(50)))
    assert (done.returncode, done.stdout[-12:]) == (0, "unlisted: 0\n"), done.stdout


# ---- what is found


def changed_replies() -> list[list[str]]:
    """Each reply of the example exchanged, a session each."""
    other = {"ok": "error EINVAL 22", "held": "ok", "nothing": "error ECHILD 10"}
    made: list[list[str]] = []
    for session in SESSIONS:
        for place, line in enumerate(session):
            step, arrow, reply = line.partition(" -> ")
            kind = reply.split()[0] if arrow else ""
            exchanged = other.get(kind, "held" if kind in ("status", "error", "pids") else "ok")
            if kind == "new":
                exchanged = f"new {reply.split()[1]} {int(reply.split()[2]) + 1}"
            if arrow:
                made.append([f"# {len(made)} {step}", *session[1:place], f"{step} -> {exchanged}", *session[place + 1 :]])
    return made


def changed_fields() -> list[list[str]]:
    """Each field of each row of the example changed, a session each."""
    others = {"state": "job_stop", "process": "1999", "user": "1003", "parent": "1777", "tracer": "1777", "lwps": "9"}
    made: list[list[str]] = []
    for session in SESSIONS:
        for place, line in enumerate(session):
            for word in re.findall(r"\S+=\S+", line) if line.startswith("= ") else []:
                field, _, value = word.partition("=")
                if field in ("told", "stop", "lwp") or ("state=zombie" in line and field in ("pending", "ignored", "caught")):
                    continue  # a kernel doesn't show these
                other = "trace_stop" if value == "job_stop" else others.get(field, "2" if value != "2" else "-")
                row = line.replace(word, f"{field}={other}")
                made.append([f"# {len(made)} {word}", *session[1:place], row, *session[place + 1 :]])
    return made


def dropped() -> list[list[str]]:
    """Each stop and each end dropped, with the row that has it: the process runs on."""
    made: list[list[str]] = []
    for session in SESSIONS:
        for place, line in enumerate(session):
            if re.search(r"state=(job_stop|trace_stop|zombie)|^= gone", line):
                kept = (
                    re.sub(r"state=\w+", "state=runs", line)
                    if "state=" in line
                    else "= lwp 100099 process=1000 blocked=- pending=-"
                )
                made.append([f"# {len(made)}", *session[1:place], kept, *session[place + 1 :]])
    return made


@pytest.mark.parametrize("change", [changed_replies, changed_fields, dropped])
def test_a_changed_model_is_found(change: Callable[[], list[list[str]]], player: Path, tmp_path: Path) -> None:
    sessions = change()
    assert len(sessions) > 10
    results = tmp_path / "results.tsv"
    done = run(player, "--results", results, text=text_of(sessions))
    assert done.returncode == 1
    assert [row.session for row in results_of(results) if row.verdict != "differs"] == []
    assert done.stdout.endswith(f"unlisted: {len(sessions)}\n")


def test_a_handler_that_the_model_has_not_is_found(player: Path) -> None:
    lines = [line for line in SESSIONS[0] if "caught 20" not in line]
    done = run(player, text=text_of([lines]))
    assert done.returncode == 1
    assert "turn 100000 compute: kernel caught 20, model ok" in done.stdout


def test_a_handler_is_listed_by_the_step_that_let_it_run(player: Path, tmp_path: Path) -> None:
    text = """# A signal that a debugger passes on
spawn -> new 1000 100000
spawn -> new 1001 100001
sigaction 1001 15 catch -> ok
ptrace 1000 PT_ATTACH 1001 -> ok
wait4 1000 1001 -> status 1001 4479
kill 1000 1001 15 -> ok
ptrace 1000 PT_CONTINUE 1001 -> ok
turn 100001 compute -> stopped 100001 15 flags=none
wait4 1000 1001 -> status 1001 3967
ptrace 1000 PT_CONTINUE 1001 15 -> ok
"""
    found = "turn 100001 compute: kernel caught 15, model ok"
    for step, status in (("ptrace * PT_CONTINUE * 15", 0), ("ptrace * PT_CONTINUE 1001", 1)):
        known = listed(tmp_path, f"passed\t{step}\t\tok\tcaught 15\tend")
        done = run(player, "--differences", known, text=text)
        assert (done.returncode, found in done.stdout) == (status, status == 1), done.stdout


def test_a_number_that_doesn_t_rise_by_one_is_found(player: Path) -> None:
    done = run(player, text="# s\nspawn -> new 1000 100000\nspawn -> new 1002 100001\n")
    assert "kernel new 1001 100001, model new 1002 100001" in done.stdout and done.returncode == 1


# ---- known differences

KILL = "# Default of KILL\nspawn -> new 1000 100000\nsigaction 1000 9 default -> ok\nwait4 1000 -1 -> error ECHILD 10\n"


def test_a_known_difference_is_followed_or_ends_the_session(player: Path, tmp_path: Path) -> None:
    results = tmp_path / "results.tsv"
    assert run(player, text=KILL).returncode == 1
    for then, compared in (("follow", 3), ("end", 2)):
        known = listed(
            tmp_path, f"kill_default\tsigaction * [91]* default\t\tok\terror EINVAL 22\t{then}", "other\t*\t\tok\theld\tend"
        )
        done = run(player, "--differences", known, "--results", results, text=KILL)
        assert done.returncode == 0 and "listed kill_default: 1 of 1\n" in done.stdout
        (row,) = results_of(results)
        assert row[1:5] == ("listed kill_default", compared, 3, 3)
        assert row[5:] == ("sigaction 1000 9 default", "ok", "error EINVAL 22")
        assert counts_of(results) == {"kill_default": (1, 1), "other": (0, 1)}


@pytest.mark.parametrize(
    "condition, holds",
    [
        ("", True),
        ("caller.state=runs", True),
        ("caller.state=run* caller.lwps!=2", True),
        ("caller.state!=runs", False),
        ("caller.tracer=0 caller.parent=2", False),
        ("target.state=none caller!=target", True),
        ("target=1999 data=0", True),
        ("caller=target", False),
        ("users=1 tracer.state=none", True),
        ("users!=1", False),
        ("kill_on_debugger_exit=1", True),
        ("nonsense", False),
    ],
)
def test_a_condition_is_of_the_rows_before(condition: str, holds: bool, player: Path, tmp_path: Path) -> None:
    text = """# s
spawn -> new 1000 100000
= process 1000 user=1001 state=runs parent=1 tracer=0 lwps=1 pending=- ignored=- caught=-
kill 1000 1999 0 -> ok
"""
    known = listed(tmp_path, f"name\tkill * * 0\t{condition}\tok\terror ESRCH 3\tend")
    assert run(player, "--differences", known, text=text).returncode == (0 if holds else 1)


def test_a_row_that_differs_is_ignored_while_it_does(player: Path, tmp_path: Path) -> None:
    """SIGCHLD that is blocked stays pending in Linux; the model discards it."""
    row = "= process 1000 user=1001 state=runs parent=1 tracer=0 lwps=1 pending=- ignored=- caught="
    text = f"""# s
spawn -> new 1000 100000
{row}-
= lwp 100000 process=1000 blocked=- pending=-
turn 100000 block 20 -> ok
= lwp 100000 process=1000 blocked=20 pending=-
kill 1000 1000 20 -> ok
list 1000 -> pids 1000
turn 100000 block -> ok
= lwp 100000 process=1000 blocked=- pending=-
kill 1000 1000 0 -> ok
"""
    results = tmp_path / "results.tsv"
    assert run(player, text=text).returncode == 1
    for known, status in (("row=1000 was.pending=-", 0), ("row=1001", 1)):
        path = listed(tmp_path, f"kept\tkill * * 20\t{known}\tpending=-\tpending=20\tfollow")
        done = run(player, "--differences", path, "--results", results, text=text)
        assert done.returncode == status, done.stdout
    done = run(player, "--differences", listed(tmp_path, "kept\t*\t\tpending=-\tpending=20\tfollow"), text=text)
    assert done.returncode == 0 and "listed kept: 1 of " in done.stdout


# ---- what is no session, and what can't be done


@pytest.mark.parametrize(
    "text, said",
    [
        ("spawn -> new 1000 100000\n", "standard input:1: no heading of a session"),
        ("# s\nspawn\n", "standard input:2: no step, row or setting"),
        ("# s\nspawn -> \n", "standard input:2: no step, row or setting"),
        ("# s\n\nspawn 1 -> ok\n", "standard input:3: no step, row or setting"),
        ("# s\nspwan -> new 1000 100000\n", "standard input:2: no step, row or setting"),
        ("# s\nkill 1000 -> ok\n", "standard input:2: no step, row or setting"),
        ("# s\n9: spawn -> new 1000 100000\n", "standard input:2: no step, row or setting"),
        ("# s\nkill x 1 1 -> ok\n", "standard input:2: no step, row or setting"),
        ("# s\nafter: a tracee\nspawn -> ok\n", "standard input:2: no step, row or setting"),
        ("# s\n= thread 5 a=b\n", "standard input:2: no step, row or setting"),
        ("# s\nspawn -> new 1000 100000\nkill_on_debugger_exit: 0\n", "standard input:3: no step, row or setting"),
        ("# s\n", "standard input:1: a session without steps"),
    ],
)
def test_what_is_no_session_is_told_with_its_line(text: str, said: str, player: Path) -> None:
    done = run(player, text=text)
    assert (done.returncode, done.stderr.startswith(f"tracehost-play: {said}")) == (2, True), done.stderr


@pytest.mark.parametrize(
    "words", [["--nonsense"], ["--time", "x"], ["--time", "0"], ["--kill-on-debugger-exit", "2"], ["--results"]]
)
def test_a_wrong_command_line(words: list[str], player: Path) -> None:
    done = run(player, *words)
    assert done.returncode == 2 and "usage: tracehost-play" in done.stderr


@pytest.mark.parametrize("text", ["", "name\tstep\n", HEADING + "a\tb\n", HEADING + "a\tb\tc\td\te\tperhaps\tg\th\n"])
def test_a_wrong_list_of_differences(text: str, player: Path, tmp_path: Path) -> None:
    path = tmp_path / "odd name.tsv"
    path.write_text(text)
    done = run(player, "--differences", path, EXAMPLE)
    assert done.returncode == 2 and "odd name.tsv:" in done.stderr


def test_nothing_played_is_no_pass(player: Path, tmp_path: Path) -> None:
    assert "nothing was played" in run(player, "/dev/null").stderr
    refused: list[list[object]] = [
        ["/dev/null"],
        [tmp_path / "absent"],
        [tmp_path],
        ["--differences", tmp_path / "absent", EXAMPLE],
    ]
    for words in refused:
        done = run(player, *words)
        assert done.returncode == 3 and done.stderr.startswith("tracehost-play: ")
    assert run("sh", "-c", f'"{player}" <&-').returncode == 3


@pytest.mark.parametrize(
    "steps, why",
    [
        (["install 1000 kill -> ok"], "stop handlers aren't the kernel's"),
        (["ptrace 1000 PT_SYSCALL 1000 -> error EPERM 1"], "the kernel has no such request"),
        (["kill 1000 1000 SIGEMT -> ok"], "the kernel has no such signal"),
        (
            ["turn 100000 enter vfork -> ok", "turn 100000 leave -> new 1001 100001", "kill 1000 1001 0 -> ok"],
            "no LWP of the process",
        ),
    ],
)
def test_a_step_that_can_t_be_made_is_no_pass(steps: list[str], why: str, player: Path, tmp_path: Path) -> None:
    results = tmp_path / "results.tsv"
    session = ["# s", "spawn -> new 1000 100000", *steps, "spawn -> new 1000 100000"]
    done = run(player, "--results", results, text=text_of([session]))
    assert done.returncode == 3 and f"not tried, {why}" in done.stdout
    (row,) = results_of(results)
    assert row.verdict == "not tried" and row.compared < row.steps and row.kernel.startswith(why)


@pytest.mark.parametrize("kind, why", [("no_trace", "error EPERM 1"), ("kills_trace", "the caller's end")])
def test_a_kernel_that_refuses_ptrace_is_told(kind: str, why: str, refusals: Path, player: Path) -> None:
    done = run(refusals, kind, player, EXAMPLE)
    assert done.returncode == 3
    assert f"the kernel refuses ptrace(2): PT_ATTACH is answered by {why}" in done.stderr and "seccomp(2) filters" in done.stderr


def test_a_puppet_that_hangs_is_told(refusals: Path, player: Path) -> None:
    text = "# s\nspawn -> new 1000 100000\nturn 100000 enter other 20 -> ok\nturn 100000 leave -> ok\n"
    assert run(player, text=text).returncode == 0
    done = run(refusals, "silent", player, "--time", "0.3", text=text)
    assert done.returncode == 3 and "LWP 100000 hangs" in done.stderr


def test_without_private_numbers(refusals: Path, player: Path) -> None:
    done = run(refusals, "no_numbers", player, EXAMPLE)
    assert agrees(done) and "no private numbers of processes here" in done.stderr
    done = run(refusals, "no_numbers", player, text="# s\nspawn -> new 1000 100000\nkill 1000 -1 0 -> error ESRCH 3\n")
    assert done.returncode == 3 and "not tried, a signal to all may reach others' processes: 1" in done.stdout


# ---- another user, and what is inherited


@pytest.fixture
def open_player(player: Path) -> Path:
    return opened(player)


@pytest.mark.skipif(os.geteuid() != 0, reason="only the super-user can become another user")
def test_another_user_plays_one_user(open_player: Path, refusals: Path) -> None:
    text = EXAMPLE.read_text()
    assert agrees(run(open_player, text=text, before=as_stranger))
    assert agrees(run(refusals, "no_numbers", open_player, text=text, before=as_stranger))
    done = run(open_player, text="# s\nspawn -> new 1000 100000\nkill 1000 1 0 -> error ESRCH 3\n", before=as_stranger)
    assert done.returncode == 3 and "not tried, process 1 is the player, of the same user: 1" in done.stdout


def ignore_all() -> None:
    for number in set(signal.Signals) - {signal.SIGKILL, signal.SIGSTOP}:
        signal.signal(number, signal.SIG_IGN)


def block_all() -> None:
    signal.pthread_sigmask(signal.SIG_BLOCK, set(signal.Signals))


def narrow() -> None:
    os.umask(0o777)
    os.nice(5)
    resource.setrlimit(resource.RLIMIT_NOFILE, (24, 24))
    resource.setrlimit(resource.RLIMIT_CORE, (resource.RLIM_INFINITY, resource.RLIM_INFINITY))
    signal.alarm(100)


@pytest.mark.parametrize("before", [ignore_all, block_all, narrow])
def test_what_is_inherited_is_not_the_sessions(before: Callable[[], None], player: Path, tmp_path: Path) -> None:
    text = EXAMPLE.read_text() + "\n# An end\nspawn -> new 1000 100000\nturn 100000 enter fork -> ok\n"
    text += "turn 100000 leave -> new 1001 100001\nkill 1000 1001 3 -> ok\nwait4 1000 -1 -> status 1001 3\n"
    done = run("nohup", player, text=text, before=before)
    assert (done.returncode, done.stdout[-12:]) == (0, "unlisted: 0\n"), done.stdout + done.stderr
    assert list(tmp_path.iterdir()) == []


def test_the_environment_is_not_the_puppets(player: Path) -> None:
    done = run("env", "-i", player, EXAMPLE)
    assert agrees(done)
    many = [f"A{number}={'x' * 1000}" for number in range(200)]
    assert agrees(run("env", *many, player, EXAMPLE))


def test_the_sources_have_no_other_names_of_files() -> None:
    """What the player needs is in its folder: sources, a Makefile, and an example."""
    included = {name for path in KERNEL.glob("*.[ch]") for name in re.findall(r'#include "(.*)"', path.read_text())}
    assert included and all((KERNEL / name).is_file() for name in included)
