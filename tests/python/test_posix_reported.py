"""What a run says at its end of calls under PT_SYSCALL: those that aren't reported, and registers that take no effect."""

from __future__ import annotations

import pathlib
import subprocess
import sys

import pytest
from posix_kit import CC, RUN, Posix

pytestmark = pytest.mark.usefixtures("posix")

PROGRAM = """
#include <sys/types.h>
#include <sys/ptrace.h>
#include <sys/syscall.h>
#include <sys/wait.h>
#include <linux/filter.h>
#include <linux/seccomp.h>
#include <machine/reg.h>
#include <signal.h>
#include <stddef.h>
#include <stdio.h>
#include <sys/prctl.h>
#include <sys/sendfile.h>
#include <time.h>
#include <unistd.h>

/* From now on the host is one without syscall user dispatch. */
static void dispatch_none(void)
{{
	struct sock_filter statements[] = {{
		BPF_STMT(BPF_LD | BPF_W | BPF_ABS, offsetof(struct seccomp_data, nr)), BPF_JUMP(BPF_JMP | BPF_JEQ, 157, 0, 3),
		BPF_STMT(BPF_LD | BPF_W | BPF_ABS, offsetof(struct seccomp_data, args)), BPF_JUMP(BPF_JMP | BPF_JEQ, 59, 0, 1),
		BPF_STMT(BPF_RET, SECCOMP_RET_ERRNO | 22), BPF_STMT(BPF_RET, SECCOMP_RET_ALLOW),
	}};
	struct sock_fprog filter = {{sizeof statements / sizeof statements[0], statements}};
	prctl(PR_SET_SECCOMP, SECCOMP_MODE_FILTER, &filter);
}}

static void set_register(pid_t pid)
{{
	struct ptrace_lwpinfo info;
	struct reg registers;
	ptrace(PT_LWPINFO, pid, (caddr_t)&info, sizeof info);
	if (!(info.pl_flags & PL_FLAG_SCE) || info.pl_syscall_code == SYS_exit)
		return;
	ptrace(PT_GETREGS, pid, (caddr_t)&registers, 0);
	registers.{register} = 0;
	ptrace(PT_SETREGS, pid, (caddr_t)&registers, 0);
}}

int main(void)
{{
	int status;
	pid_t pid = fork();
	if (pid == 0) {{
		struct timespec now = {{0, 0}};
		sigset_t set;
		sigemptyset(&set);
		(void)now;
		{before};
		ptrace(PT_TRACE_ME, 0, NULL, 0);
		raise(SIGSTOP);
		{call};
		_exit(0);
	}}
	while (waitpid(pid, &status, 0) == pid && WIFSTOPPED(status)) {{
		set_register(pid);
		ptrace({request}, pid, (caddr_t)1, 0);
	}}
	return 0;
}}
"""
NOT_REPORTED = "calls that PT_SYSCALL doesn't report: "
NO_EFFECT = "calls that don't take the registers that a debugger sets at their entry: "


def run(folder: pathlib.Path, call: str, request: str = "PT_SYSCALL", register: str = "r_rbx", status: int = 0) -> str:
    """What a run of the program says."""
    before, _, call = call.rpartition("(), ")
    before = f"{before}()" if before else ""
    (folder / "program.c").write_text(PROGRAM.format(before=before, call=call, request=request, register=register))
    subprocess.run([CC, "-g", "-o", folder / "program", folder / "program.c"], check=True)
    done = subprocess.run([sys.executable, RUN, "--no-record", folder / "program"], capture_output=True, text=True, timeout=60)
    assert done.returncode == status, done.stderr
    return done.stderr


@pytest.mark.parametrize(
    "call, name",
    [
        ("sigtimedwait(&set, NULL, &now)", "sigwait, sigwaitinfo, sigtimedwait"),
        ("sigpending(&set)", "sigpending"),
        ("clock_gettime(CLOCK_REALTIME, &now)", "clock_gettime, gettimeofday"),
        ("sendfile(-1, -1, NULL, 0)", "the host's number 40"),
        ('execl("/bin/true", "true", NULL)', "those of a program without the runtime"),
        ("dispatch_none(), getppid()", "the C library's own, since the host dispatches none"),
    ],
)
def test_calls_that_are_not_reported_are_told(call: str, name: str, tmp_path: pathlib.Path) -> None:
    assert NOT_REPORTED + name in run(tmp_path, call)


@pytest.mark.parametrize("call", ["getppid()", 'access("/", 0)', "nanosleep(&now, NULL)", 'fopen("/", "r")'])
def test_nothing_is_told_of_calls_that_are_reported(call: str, tmp_path: pathlib.Path) -> None:
    told = run(tmp_path, call, register="r_rsi")
    assert NOT_REPORTED not in told and NO_EFFECT not in told


def test_nothing_is_told_without_pt_syscall(tmp_path: pathlib.Path) -> None:
    assert NOT_REPORTED not in run(tmp_path, "sigtimedwait(&set, NULL, &now)", request="PT_CONTINUE")


def test_registers_that_take_no_effect_are_told(tmp_path: pathlib.Path) -> None:
    told = run(tmp_path, "sleep(0), usleep(1)", register="r_rdi")
    assert NO_EFFECT + "sleep, usleep, nanosleep, clock_nanosleep" in told


@pytest.mark.parametrize(
    "call, name", [('execl("/bin/true", "true", NULL)', "execve's family"), ("fork()", "fork"), ("usleep(1)", "sleep, usleep")]
)
def test_a_call_that_would_be_made_all_the_same_ends_the_run(call: str, name: str, tmp_path: pathlib.Path) -> None:
    told = run(tmp_path, call, register="r_rax", status=1)
    assert f"is made to make another call, or none, by its debugger, which only a kernel can: {name}" in told


def test_registers_of_no_call_are_not_told(tmp_path: pathlib.Path) -> None:
    assert NO_EFFECT not in run(tmp_path, "usleep(1)", register="r_rbx")


@pytest.mark.parametrize("case", ["by_open", "by_creat", "by_fopen", "by_mkstemp"])
def test_large_files_are_reported(posix: Posix, case: str) -> None:
    done = posix.run("--schedules", 5, posix.compiled("tests/sandbox_test.c", "-D_FILE_OFFSET_BITS=64"), case)
    assert done.returncode == 0 and "6 schedules passed" in done.stderr, done.stderr


IN_CPP = """
#include <fstream>
#include <sys/types.h>
#include <sys/ptrace.h>
#include <sys/syscall.h>
#include <sys/wait.h>
#include <signal.h>
#include <unistd.h>

int main()
{
	int status, opened = 0;
	const pid_t pid = fork();
	if (pid == 0) {
		ptrace(PT_TRACE_ME, 0, nullptr, 0);
		raise(SIGSTOP);
		std::ifstream file("/etc/passwd");
		_exit(file.good() ? 0 : 1);
	}
	while (waitpid(pid, &status, 0) == pid && WIFSTOPPED(status)) {
		struct ptrace_lwpinfo info;
		ptrace(PT_LWPINFO, pid, reinterpret_cast<caddr_t>(&info), sizeof info);
		opened += info.pl_flags & PL_FLAG_SCE && info.pl_syscall_code == SYS_openat;
		ptrace(PT_SYSCALL, pid, reinterpret_cast<caddr_t>(1), 0);
	}
	return status == 0 && opened == 1 ? 0 : 1;
}
"""


def test_streams_of_cpp_are_reported(tmp_path: pathlib.Path) -> None:
    (tmp_path / "program.cpp").write_text(IN_CPP)
    subprocess.run(["env", "CC=g++", CC, "-g", "-o", tmp_path / "program", tmp_path / "program.cpp"], check=True)
    done = subprocess.run([sys.executable, RUN, "--no-record", tmp_path / "program"], capture_output=True, text=True, timeout=60)
    assert done.returncode == 0, done.stderr
