"""Calls that aren't the model's: of a library of another compiler, by an instruction, or of a program without the runtime.

They never reach the host: they end the run, or are the model's, or are answered by an errno and told. All that could signal by
a number runs as an unprivileged user, in a namespace of processes of its own. A victim is a sleep(1) there.
"""

from __future__ import annotations

import json
import os
import re
import shutil
import subprocess
import sys
import tempfile
from collections.abc import Iterator
from pathlib import Path
from typing import NamedTuple

import pytest
from checking import needs
from posix_kit import CC, POSIX, RUN, Done, Posix

pytestmark = needs("unshare", "setpriv")

SOURCES = POSIX / "tests" / "outside_calls"
NOBODY = ["setpriv", "--reuid=65534", "--regid=65534", "--clear-groups"]
ALONE = ["unshare", "--pid", "--fork", "--kill-child", "--mount-proc"]
VICTIM = 'sleep 100 & victim=$!; "$@" "$victim"; status=$?; kill -0 $victim && echo lives; exit $status'
"""Runs the words, and a victim's number behind them."""
WAITER = r"""
#include <sys/wait.h>
#include <unistd.h>
int main(int argc, char **argv)
{ /* waits for ever; `waits sh COMMAND..` runs each of them by a shell */
	if (argc < 3)
		pause();
	for (int i = 2; i < argc; i++) {
		if (fork() == 0) {
			execl("/bin/sh", "sh", "-c", argv[i], (char *)0);
			_exit(9);
		}
		wait(NULL);
	}
	return 0;
}
"""
WITHOUT_NOTIFICATIONS = r"""
#include <fcntl.h>
#include <linux/filter.h>
#include <linux/seccomp.h>
#include <sys/prctl.h>
#include <sys/syscall.h>
#include <unistd.h>
int main(int argc, char **argv)
{ /* a listener of its own: the host gives no other one below it */
	struct sock_filter all[] = {BPF_STMT(BPF_RET | BPF_K, SECCOMP_RET_ALLOW)};
	struct sock_fprog program = {1, all};
	prctl(PR_SET_NO_NEW_PRIVS, 1, 0, 0, 0);
	int listener = syscall(SYS_seccomp, SECCOMP_SET_MODE_FILTER, SECCOMP_FILTER_FLAG_NEW_LISTENER, &program);
	if (listener < 0 || fcntl(listener, F_SETFD, 0) != 0)
		return 99;
	execvp(argv[1], argv + 1);
	return 98;
}
"""


class Room(NamedTuple):
    """A folder with the programs, which an unprivileged user can read."""

    folder: Path

    def run(self, *words: object, before: str = "", cwd: Path | None = None) -> Done:
        """tracehost-run with these words, as nobody, alone in a namespace. `before`: a command of root's in there."""
        return self.alone([sys.executable, RUN, "--no-record", "--patience", 10, *words], before, cwd)

    def with_victim(self, *words: object) -> tuple[Done, bool]:
        """The same with a victim's number behind the words, and whether that lives."""
        done = self.alone(["sh", "-c", VICTIM, "sh", sys.executable, RUN, "--no-record", "--patience", 10, *words])
        return done, "lives" in done.stdout.splitlines()

    def alone(self, words: list[object], before: str = "", cwd: Path | None = None) -> Done:
        """A command, as nobody, alone in a namespace."""
        command = ["sh", "-c", f'{before or ":"}; exec "$@"', "sh", *NOBODY, *words]
        return subprocess.run(
            [*ALONE, *map(str, command)],
            cwd=cwd or self.folder,
            env={**os.environ, "HOME": str(self.folder), "TMPDIR": "/tmp"},
            stdin=subprocess.DEVNULL,
            capture_output=True,
            text=True,
            errors="replace",
            timeout=300,
            check=False,
        )


def build(*words: object, cwd: Path) -> Done:
    done = subprocess.run([str(word) for word in words], cwd=cwd, capture_output=True, text=True, timeout=300, check=False)
    assert done.returncode == 0, done.stderr
    return done


@pytest.fixture(scope="module")
def room(posix: Posix) -> Iterator[Room]:
    if os.geteuid() != 0:
        pytest.skip("only root can run these alone, as nobody")
    folder = Path(tempfile.mkdtemp(prefix="tracehost-outside-", dir="/tmp"))
    try:
        folder.chmod(0o755)
        if subprocess.run([*NOBODY, "test", "-r", RUN], check=False).returncode != 0:
            pytest.skip("this folder can't be read by an unprivileged user")
        build("cc", "-g", "-shared", "-fPIC", "-o", "liboutside.so", SOURCES / "library.c", cwd=folder)
        build("cc", "-o", "foreign", SOURCES / "foreign.c", cwd=folder)
        (folder / "without_notifications.c").write_text(WITHOUT_NOTIFICATIONS)
        build("cc", "-w", "-D_GNU_SOURCE", "-o", "without_notifications", "without_notifications.c", cwd=folder)
        (folder / "waits.c").write_text(WAITER)
        build(CC, "-g", "-w", "-o", "waits", "waits.c", cwd=folder)
        build(CC, "-g", "-w", "-o", "calls", SOURCES / "calls.c", "-ldl", cwd=folder)
        build(CC, "-g", "-w", "-no-pie", "-o", "calls_fixed", SOURCES / "calls.c", cwd=folder)
        for name, path in (("linked", "."), ("linked_by_path", str(folder))):
            words = [SOURCES / "calls.c", "-DLINKED", "-L.", "-loutside", f"-Wl,-rpath,{path}"]
            build(CC, "-g", "-w", "-o", name, *words, cwd=folder)
        yield Room(folder)
    finally:
        shutil.rmtree(folder, ignore_errors=True)


def is_held(done: Done, call: str, file: str) -> None:
    """The run has ended at this call, which is told with the file that made it."""
    assert done.returncode == 1, (done.returncode, done.stdout, done.stderr)
    assert re.search(rf"calls {call} past the runtime, in (\S*/)?{re.escape(file)},", done.stderr), done.stderr


# ---- by an instruction, or by the name of a function

NUMBERS = {61: "wait4", 247: "waitid", 13: "sigaction", 14: "sigprocmask"}


@pytest.mark.parametrize("binary", ["calls", "calls_fixed"])
@pytest.mark.parametrize("number", NUMBERS)
def test_an_instruction_of_the_program_is_held(room: Room, binary: str, number: int) -> None:
    is_held(room.run(f"./{binary}", "instruction", number), NUMBERS[number], binary)


@pytest.mark.parametrize("where", ["default", "next", "libc"])
@pytest.mark.parametrize(
    "name", ["wait", "waitpid", "wait3", "wait4", "waitid", "sigaction", "signal", "sigprocmask", "pthread_sigmask"]
)
def test_what_the_program_looks_up_is_held(room: Room, name: str, where: str) -> None:
    is_held(room.run("./calls", "looks_up", name, where), name, "calls")


def test_a_descriptor_signals_no_process_of_the_host(room: Room) -> None:
    """A number of the model's, as getpid(2) gives it, is another process there."""
    (room.folder / "owner.c").write_text(
        "#include <fcntl.h>\n#include <unistd.h>\nint main(void) { fcntl(0, F_SETOWN, getpid()); return 0; }\n"
    )
    build(CC, "-w", "-o", "owner", "owner.c", cwd=room.folder)
    is_held(room.run("./owner"), "F_SETOWN", "owner")


# ---- a library of another compiler

CALLS = {  # of the library, and the name under which they are told
    **{name: name for name in ("waitpid", "wait4", "waitid", "sigaction", "signal", "sigprocmask", "pthread_sigmask")},
    **{f"{name} by instruction": name for name in ("wait4", "waitid", "sigaction", "sigprocmask", "kill", "fork")},
    "wait4 by syscall": "wait4",
    "kill": "kill",
    "tgkill of another": "tgkill",
}


@pytest.mark.parametrize("how, binary", [("loaded", "calls"), ("linked", "linked"), ("linked", "linked_by_path")])
@pytest.mark.parametrize("call", CALLS)
def test_a_library_is_held(room: Room, call: str, how: str, binary: str) -> None:
    done, lives = room.with_victim(f"./{binary}", how, call)
    is_held(done, CALLS[call], "liboutside.so")
    assert lives


@pytest.mark.parametrize("how, binary", [("loaded", "calls"), ("linked", "linked")])
def test_what_it_does_to_itself_is_not_held(room: Room, how: str, binary: str) -> None:
    done = room.run(f"./{binary}", how, "reads itself")
    assert done.returncode == 0, done.stderr
    done = room.run(f"./{binary}", how, "aborts")
    assert done.returncode == 1 and "was ended by SIGABRT" in done.stderr, done.stderr


def calls_of(text: str, said_by: str) -> set[str]:
    """The library's calls of the host, of the one line that says them."""
    lines = re.findall(rf"^{said_by}: \S*liboutside.so calls (.*) of the host: compile it by tracehost-cc$", text, re.MULTILINE)
    assert len(lines) == 1, text
    return set(lines[0].split(", "))


def test_the_linker_says_what_a_library_calls(room: Room) -> None:
    for words in (["-L.", "-loutside"], ["-L", ".", "-loutside"], ["./liboutside.so"]):
        done = build(CC, "-w", "-DLINKED", "-o", "again", SOURCES / "calls.c", *words, cwd=room.folder)
        assert {"waitpid", "sigaction", "sigprocmask", "kill"} <= calls_of(done.stderr, "tracehost-cc")
    done = build(CC, "-w", "-o", "again", SOURCES / "calls.c", "-L.", "-lm", cwd=room.folder)
    assert done.stderr == ""


@pytest.mark.parametrize("how, binary", [("loaded", "calls"), ("linked", "linked"), ("linked", "linked_by_path")])
@pytest.mark.parametrize("options", ["", "--schedules 20", "--schedules 20 --jobs 2", "--seeds 1..20 --digest --jobs 2"])
def test_a_run_that_passes_says_once_what_a_library_calls(room: Room, options: str, how: str, binary: str) -> None:
    done = room.run(*options.split(), f"./{binary}", how, "nothing")
    assert done.returncode == 0, done.stderr
    assert {"waitpid", "sigaction", "sigprocmask", "kill"} <= calls_of(done.stderr, "tracehost-run")


def test_an_image_of_an_exec_says_what_its_library_calls(room: Room) -> None:
    done = room.run("./calls", "executes", "./linked", "linked", "nothing")
    assert done.returncode == 0 and calls_of(done.stderr, "tracehost-run"), done.stderr


def test_an_exec_may_give_the_name_of_the_runtimes_own_variable(room: Room) -> None:
    (room.folder / "again.c").write_text(
        '#include <unistd.h>\nint main(int c, char **v) { char *e[] = {"TRACEHOST_LWP=7 7 7 7", "TRACEHOST_CONTROL=7", 0};\n'
        'return c > 1 ? getpid() != 1000 : execve(v[0], (char *[]){v[0], "x", 0}, e); }\n'
    )
    build(CC, "-w", "-o", "again", "again.c", cwd=room.folder)
    done = room.run("./again")
    assert (done.returncode, done.stderr) == (0, "")


def test_a_ledger_keeps_what_was_said(room: Room) -> None:
    ledger = room.folder / "ledgers"
    ledger.mkdir()
    ledger.chmod(0o777)
    words = ["--seeds", "1..300", "--ledger", ledger / "ledger", "--json", "./calls", "loaded", "nothing"]
    for _ in range(2):
        done = room.run(*words)
        assert done.returncode == 0 and calls_of(done.stderr, "tracehost-run"), done.stderr
        assert any("liboutside.so calls" in said for said in json.loads(done.stdout)["remarks"])


def test_a_library_of_the_system_is_told(room: Room) -> None:
    """It has the host's function, and the run says so."""
    (room.folder / "lines.c").write_text(
        "#include <dlfcn.h>\n#include <unistd.h>\n"
        'int main(void) { void *lines = dlopen("libreadline.so.8", RTLD_NOW); if (lines == 0) return 77;\n'
        '*(int *)dlsym(lines, "rl_catch_signals") = 1; getpid(); ((int (*)(void))dlsym(lines, "rl_set_signals"))(); return 0; }\n'
    )
    build(CC, "-w", "-o", "lines", "lines.c", cwd=room.folder)
    done = room.run("./lines")
    if done.returncode == 1 and "status 77" in done.stderr:
        pytest.skip("libreadline isn't here")
    assert done.returncode == 0, done.stderr
    assert re.search(r"/libreadline\S* has called sigaction of the host, which isn't the model's$", done.stderr, re.MULTILINE)


# ---- a program without the runtime

TOLD = r"/\w+ has sent a signal to \d+, but the model has no such process: ESRCH"


@pytest.mark.parametrize("command", ["kill -9", "/bin/kill -9", "env kill -s KILL", "sleep 100 & kill -KILL", "kill -0"])
def test_a_shell_signals_no_process_of_the_host(room: Room, command: str) -> None:
    done, lives = room.with_victim("./calls", "executes", "/bin/sh", "-c", f'{command} "$1"', "sh")
    assert lives and "the first process exited with status 1" in done.stderr, done.stderr
    assert re.search(f"{TOLD}$", done.stderr, re.MULTILINE)


def test_a_shell_whose_child_ends_signals_no_process_of_the_host(room: Room) -> None:
    """The child's end may interrupt the call before the broker hears of it."""
    done, lives = room.with_victim("./calls", "executes", "/bin/sh", "-c", 'true & kill -KILL "$1"', "sh")
    assert lives and "the first process exited with status 1" in done.stderr, done.stderr
    assert re.search(f"({TOLD}|kill: Interrupted system call)$", done.stderr, re.MULTILINE)


ANSWERS = {  # of calls on a process of the host: the errno, and what is told
    "kill": (3, "has sent a signal to"),
    "kill_of_32_bits": (3, "has sent a signal to"),
    "kill_of_x32": (38, ""),
    "tkill": (38, "has called tkill, which isn't the model's: ENOSYS"),
    "tgkill": (38, "has called tgkill, which isn't the model's: ENOSYS"),
    "sigqueue": (38, "has called sigqueue, which isn't the model's: ENOSYS"),
    "pidfd_open": (38, "has called pidfd_open, which isn't the model's: ENOSYS"),
    "setpriority": (1, "which isn't its own: EPERM"),
    "sched_setaffinity": (1, "which isn't its own: EPERM"),
}


@pytest.mark.parametrize("call", ANSWERS)
def test_another_call_on_a_process_of_the_host_is_answered(room: Room, call: str) -> None:
    done, lives = room.with_victim("./calls", "executes", "./foreign", call)
    error, said = ANSWERS[call]
    assert lives and done.stdout.splitlines() == [str(error), "lives"], (done.stdout, done.stderr)
    assert done.returncode == 0 and said in done.stderr, done.stderr


def test_a_call_is_answered_while_a_signal_is_pending(room: Room) -> None:
    """The host's kernel says then that the caller waits for a disk, and goes on by itself."""
    done, lives = room.with_victim("./calls", "executes", "./foreign", "kill_with_pending")
    if done.stdout.splitlines()[:1] == ["4"]:
        pytest.skip("the host ends a call at a signal")
    assert lives and done.stdout.splitlines() == ["3", "lives"], (done.stdout, done.stderr)
    assert done.returncode == 0 and "has sent a signal to" in done.stderr, done.stderr


@pytest.mark.parametrize("call", ["ptrace", "process_vm_readv", "F_SETOWN", "FIOSETOWN", "clock_settime", "reboot", "sethostname"])
def test_what_is_neither_the_models_nor_its_own_ends_the_run(room: Room, call: str) -> None:
    done, lives = room.with_victim("./calls", "executes", "./foreign", call)
    is_held(done, call, "foreign")
    assert lives


def test_what_it_has_made_itself_is_its_own(room: Room) -> None:
    done = room.run("--schedules", 10, "./calls", "executes", "./foreign", "own")
    assert done.returncode == 0 and "11 schedules passed" in done.stderr, done.stderr
    assert room.run("./calls", "executes", "./foreign", "own").stdout == "0\n"


def test_what_it_leaves_signals_nobody(room: Room) -> None:
    """Its background process goes on after its end in the model, while another program runs."""
    text = "(sleep 0.5; kill -9 $1) & exit 0"
    (room.folder / "two.c").write_text(
        "#include <sys/wait.h>\n#include <unistd.h>\nint main(int c, char **v) { int s; for (int i = 1; i <= 2; i++) { pid_t p = fork();\n"
        'if (p == 0) { execl("/bin/sh", "sh", "-c", v[i], "sh", v[3], (char *)0); _exit(9); } waitpid(p, &s, 0); } return 0; }\n'
    )
    build(CC, "-w", "-o", "two", "two.c", cwd=room.folder)
    done, lives = room.with_victim("./two", text, "sleep 2")
    assert lives and done.returncode == 0, done.stderr
    assert "has called kill after its end in the model: EPERM" in done.stderr


def test_a_number_that_two_processes_have_is_no_verdict(room: Room) -> None:
    """The shell's own child may have, in the host, the number of a process of the model."""
    met = 0
    for last in range(975, 998):
        before = f"echo {last} >/proc/sys/kernel/ns_last_pid"
        done = room.run("./calls", "executes", "/bin/sh", "-c", "sleep 100 & kill $!; wait", before=before)
        assert done.returncode in (0, 3), (done.returncode, done.stderr)
        met += done.returncode == 3
        if done.returncode == 3:
            assert re.search(r"1000 is a number of the model's, and of a process that \S+ has started$", done.stderr, re.MULTILINE)
    assert met > 0


def test_a_program_itself_has_no_number_of_the_models(room: Room) -> None:
    for last in (990, 995, 1000, 1005):
        command = ["./calls", "executes", "/bin/sh", "-c", "kill -0 $$ && test $$ -ge 2000 || test $$ -lt 1000"]
        done = room.run(*command, before=f"echo {last} >/proc/sys/kernel/ns_last_pid")
        assert done.returncode == 0, (last, done.stderr)


WAITS = r"1001/100001 is a program without the runtime, and waits for those that it has started; 1002/100002 waits in pause"


def test_a_shells_child_that_waits_for_ever_is_a_deadlock(room: Room) -> None:
    done = room.run("./waits", "sh", "./waits; true")
    assert done.returncode == 1 and re.search(WAITS, done.stderr), done.stderr


def test_a_shells_child_whose_number_is_one_of_the_models_is_no_verdict(room: Room) -> None:
    """The shell's kill names it by its number of the host's."""
    met = 0
    for last in range(985, 1000):
        done = room.run("./waits", "sh", "./waits & kill $!; wait", before=f"echo {last} >/proc/sys/kernel/ns_last_pid")
        assert done.returncode in (0, 3), (done.returncode, done.stderr)
        met += done.returncode == 3
        if done.returncode == 3:
            assert re.search(r"100\d is a number of the model's, and of a process that \S+ has started$", done.stderr, re.MULTILINE)
    assert met > 0


@pytest.mark.parametrize("command", ["(sleep 0.3; ./waits) & exit 0", "(sleep 0.3; ./waits) & exec ./waits sh 'sleep 2'"])
def test_a_program_that_is_started_too_late_ends_the_run(room: Room, command: str) -> None:
    """Its shell has no process in the model any more."""
    done = room.run("./waits", "sh", command, "sleep 2")
    assert done.returncode == 1, done.stderr
    assert re.search(r"has left a process that has started \S+/waits, but its own process in the model has ended, or", done.stderr)


# ---- a host without notifications


def test_without_notifications_a_shell_ends_at_its_kill(room: Room) -> None:
    words = [
        "./without_notifications",
        sys.executable,
        RUN,
        "--no-record",
        "./calls",
        "executes",
        "/bin/sh",
        "-c",
        'kill -9 "$1"',
        "sh",
    ]
    done = room.alone(["sh", "-c", VICTIM, "sh", *words])
    assert done.returncode == 1 and "lives" in done.stdout.splitlines(), done.stderr
    assert "the host gives no notifications of seccomp(2)" in done.stderr
    assert "/bin/sh, which has no runtime, was ended by the host's SIGSYS: it calls kill, or its kin" in done.stderr


@pytest.mark.parametrize("call", ["kill by instruction", "waitpid", "sigaction by instruction"])
def test_without_notifications_a_library_is_held(room: Room, call: str) -> None:
    words = ["./without_notifications", sys.executable, RUN, "--no-record", "./calls", "loaded", call]
    done = room.alone(["sh", "-c", VICTIM, "sh", *words])
    is_held(done, CALLS[call], "liboutside.so")
    assert "lives" in done.stdout.splitlines()


# ---- a sanitizer's own calls


@pytest.mark.parametrize("compiler", ["gcc", "clang"])
def test_an_image_that_looks_for_leaks(room: Room, compiler: str) -> None:
    """It stops its own threads by ptrace(2): as the first image, and as one of an exec."""
    source = room.folder / "leaks.c"
    source.write_text("#include <unistd.h>\nint main(void) { return getpid() == 0; }\n")
    if shutil.which(compiler) is None:
        pytest.skip(f"{compiler} isn't here")
    words = ["-w", "-fsanitize=address", "-o", f"leaks_{compiler}", source]
    if subprocess.run([compiler, *map(str, words)], cwd=room.folder, capture_output=True, check=False).returncode != 0:
        pytest.skip(f"{compiler} has no sanitizers here")
    build("env", f"CC={compiler}", CC, *words, cwd=room.folder)
    ways: list[list[str]] = [[], ["./calls", "executes"]]
    for before in ways:
        done = room.run(*before, f"./leaks_{compiler}")
        assert (done.returncode, done.stderr) == (0, ""), done.stderr
