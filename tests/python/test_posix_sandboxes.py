"""Programs that limit themselves, and what they start: they are limited as they are natively, and the runtime isn't."""

from __future__ import annotations

import resource
import subprocess
from pathlib import Path

import pytest
from posix_kit import CC, Done, OtherUser, Posix

HEAD = """\
#define _GNU_SOURCE
#include <sys/types.h>
#include <sys/prctl.h>
#include <sys/ptrace.h>
#include <sys/resource.h>
#include <sys/wait.h>
#include <errno.h>
#include <fcntl.h>
#include <linux/filter.h>
#include <linux/seccomp.h>
#include <pthread.h>
#include <signal.h>
#include <stddef.h>
#include <stdio.h>
#include <stdlib.h>
#include <string.h>
#include <unistd.h>
#define CHECK(holds) ((holds) ? (void)0 : (printf("line %d: %s, errno %d\\n", __LINE__, #holds, errno), exit(1)))
#define FAILS(call, number) CHECK((errno = 0, (call) < 0 && errno == (number)))
static void limit(int resource, rlim_t most)
{
	struct rlimit wanted = {most, most}, got, higher = {most, most + 1};
	CHECK(setrlimit(resource, &wanted) == 0);
	CHECK(getrlimit(resource, &got) == 0 && got.rlim_cur == most && got.rlim_max == most);
	FAILS(setrlimit(resource, &higher), EPERM);
	higher.rlim_cur = most + 2;
	FAILS(setrlimit(resource, &higher), EINVAL);
}
static void *end(void *given) { getppid(); return given; }
static void one_thread(void)
{
	pthread_t thread;
	CHECK(pthread_create(&thread, NULL, end, NULL) == 0 && pthread_join(thread, NULL) == 0);
}
static void one_child(void)
{
	int status, made = fork();
	if (made == 0)
		_exit(3);
	CHECK(made > 0 && waitpid(made, &status, 0) == made && WEXITSTATUS(status) == 3);
}
"""

FILES = """
int main(int argc, char **argv)
{
	char byte;
	int ends[2], program = open(argv[0], O_RDONLY);
	struct rlimit got;
	if (argc > 1) { /* the image of the exec */
		CHECK(getrlimit(RLIMIT_NOFILE, &got) == 0 && got.rlim_cur == 0 && got.rlim_max == 0);
		FAILS(open(argv[0], O_RDONLY), EMFILE);
		one_child();
		return 0;
	}
	CHECK(pipe(ends) == 0);
	limit(RLIMIT_NOFILE, 0);
	FAILS(open(argv[0], O_RDONLY), EMFILE);
	FAILS(dup(0), EMFILE);
	FAILS(pipe(ends + 0), EMFILE);
	CHECK(read(program, &byte, 1) == 1 && byte == 0x7f);
	one_child();
	one_thread();
	one_child();
	FAILS(open(argv[0], O_RDONLY), EMFILE);
	pid_t target = fork();
	if (target == 0) {
		ptrace(PT_TRACE_ME, 0, NULL, 0);
		raise(SIGSTOP);
		_exit(4);
	}
	int status, word = 77;
	CHECK(waitpid(target, &status, 0) == target && WIFSTOPPED(status));
	CHECK(ptrace(PT_READ_D, target, (caddr_t)&status, 0) != -1 || errno == 0);
	CHECK(ptrace(PT_WRITE_D, target, (caddr_t)&word, 78) == 0);
	CHECK(ptrace(PT_CONTINUE, target, (caddr_t)1, 0) == 0 && waitpid(target, &status, 0) == target);
	if (fork() == 0) {
		execl(argv[0], argv[0], "again", (char *)NULL);
		_exit(5);
	}
	CHECK(wait(&status) > 0 && status == 0);
	return 0;
}
"""

PROCESSES = """
int main(void)
{
	int status, made[2];
	limit(RLIMIT_NPROC, 3);
	for (int i = 0; i < 2; i++)
		if ((made[i] = fork()) == 0)
			for (;;)
				pause();
	FAILS(fork(), EAGAIN);
	FAILS(vfork(), EAGAIN);
	CHECK(kill(made[0], SIGKILL) == 0 && wait(&status) == made[0]);
	one_child();
	struct rlimit none = {0, 0};
	CHECK(setrlimit(RLIMIT_NPROC, &none) == 0);
	FAILS(fork(), EAGAIN);
	CHECK(kill(made[1], SIGKILL) == 0 && wait(&status) == made[1]);
	FAILS(fork(), EAGAIN);
	return 0;
}
"""

MEMORY = """
int main(void)
{
	one_thread();
	limit(RESOURCE, 256 << 20);
	CHECK(malloc(1UL << 30) == NULL && errno == ENOMEM);
	one_child();
	one_thread();
	CHECK(malloc(1UL << 30) == NULL && errno == ENOMEM);
	struct rlimit less = {1 << 20, 1 << 20};
	CHECK(setrlimit(RESOURCE, &less) == 0 && malloc(100 << 20) == NULL);
	one_child();
	return 0;
}
"""

LENGTH = """
static int number;
static void note(int given) { number = given; }
int main(int argc, char **argv)
{
	char path[] = "/tmp/tracehost_length.XXXXXX";
	int file = mkstemp(path), same = open(path, O_WRONLY | O_APPEND);
	unlink(path);
	signal(SIGXFSZ, note);
	limit(RLIMIT_FSIZE, 10);
	CHECK(write(file, "123456", 6) == 6 && write(file, "789012", 6) == 4 && number == 0);
	FAILS(write(file, "x", 1), EFBIG);
	CHECK(number == SIGXFSZ);
	number = 0;
	FAILS(write(same, "x", 1), EFBIG);
	CHECK(number == SIGXFSZ && lseek(file, 8, SEEK_SET) == 8 && write(file, "901", 3) == 2);
	one_child();
	CHECK(printf("a line of more than ten bytes\\n") > 10 && fflush(stdout) == 0);
	return 0;
}
"""

OF_SHELL = """
int main(void)
{
	int status;
	limit(RLIMIT_NOFILE, 30);
	if (fork() == 0) {
		execl("/bin/sh", "sh", "-c", "ulimit -Sn; ulimit -Hn", (char *)NULL);
		_exit(5);
	}
	CHECK(wait(&status) > 0 && status == 0);
	return 0;
}
"""

ENVIRONMENT = """
int main(int argc, char **argv)
{
	char *words[] = {argv[0], "again", NULL};
	char *variables[] = {"TRACEHOST_CONTROL=0", "TRACEHOST_LWP=0 0 0 0", "OTHER=1", "TRACEHOST_LWP=1 2 3 4", NULL};
	if (argc == 1)
		execve(argv[0], words, variables);
	CHECK(getenv("TRACEHOST_LWP") == NULL && strcmp(getenv("OTHER"), "1") == 0);
	one_child();
	return 0;
}
"""

FILTER = """
static void forbid(unsigned answer, unsigned number)
{
	struct sock_filter statements[] = {BPF_STMT(BPF_LD | BPF_W | BPF_ABS, offsetof(struct seccomp_data, nr)),
		BPF_JUMP(BPF_JMP | BPF_JEQ | BPF_K, number, 0, 1), BPF_STMT(BPF_RET | BPF_K, answer),
		BPF_STMT(BPF_RET | BPF_K, SECCOMP_RET_ALLOW)};
	struct sock_fprog filter = {4, statements};
	CHECK(prctl(PR_SET_NO_NEW_PRIVS, 1, 0, 0, 0) == 0 && prctl(PR_SET_SECCOMP, SECCOMP_MODE_FILTER, &filter) == 0);
}
int main(int argc, char **argv)
{
	unsigned answers[] = {SECCOMP_RET_KILL_PROCESS, SECCOMP_RET_TRAP, SECCOMP_RET_ERRNO | EPERM};
	if (argc < 3)
		return 1;
	forbid(answers[atoi(argv[1])], atoi(argv[2]));
	one_child();
	return 0;
}
"""

CLOSES = """
int main(int argc, char **argv)
{
	long result;
	if (argc > 1)
		execv(argv[1], argv + 1);
	__asm__ volatile("syscall" : "=a"(result) : "a"(436), "D"(3), "S"(~0U), "d"(0) : "rcx", "r11", "memory");
	getpid();
	return 0;
}
"""

SENDTO, SEMTIMEDOP = 44, 220
MEMORIES = ("RLIMIT_AS", "RLIMIT_DATA")


@pytest.fixture
def room(tmp_path: Path) -> Path:
    return tmp_path


def built(posix: Posix, room: Path, text: str, *flags: str, name: str = "program") -> Path:
    source = room / f"{name}.c"
    source.write_text(HEAD + text)
    done = posix.execute(CC, "-g", "-w", "-pthread", *flags, "-o", room / name, source)
    assert done.returncode == 0, done.stderr
    return room / name


def passes(done: Done, output: str = "") -> None:
    assert (done.stdout, done.stderr, done.returncode) == (output, "", 0)


@pytest.mark.parametrize(
    ("text", "flags"),
    [
        (FILES, []),
        (PROCESSES, []),
        *((MEMORY, [f"-DRESOURCE={name}"]) for name in MEMORIES),
        (ENVIRONMENT, []),
    ],
    ids=["files", "processes", "memory", "data", "environment"],
)
def test_what_limits_itself_is_limited_and_the_runtime_is_not(posix: Posix, room: Path, text: str, flags: list[str]) -> None:
    program = built(posix, room, text, *flags)
    passes(posix.run(program))
    done = posix.run("--verify", "--schedules", 10, program)
    assert done.returncode == 0 and "11 schedules passed" in done.stderr, done.stderr


def test_the_length_of_files(posix: Posix, room: Path) -> None:
    """What the run prints has no limit, be it kept or not."""
    program, line = built(posix, room, LENGTH), "a line of more than ten bytes\n"
    passes(posix.run(program), line)
    done = posix.run("--digest", program)
    assert done.stdout.startswith(line) and done.returncode == 0, done.stderr
    assert posix.run("--schedules", 5, program).returncode == 0


def test_a_program_without_the_runtime_has_the_limits_in_the_host(posix: Posix, room: Path) -> None:
    passes(posix.run(built(posix, room, OF_SHELL)), "30\n30\n")


def test_limits_that_tracehost_run_was_started_with(posix: Posix, room: Path) -> None:
    """They are the program's, beside what the runtime needs."""
    text = 'int main(void) { struct rlimit got; getrlimit(RLIMIT_STACK, &got); printf("%d\\n", (int)got.rlim_cur); return 0; }'
    program = built(posix, room, text)
    soft, hard = resource.getrlimit(resource.RLIMIT_STACK)
    try:
        resource.setrlimit(resource.RLIMIT_STACK, (4 << 20, hard))
        passes(posix.run(program), f"{4 << 20}\n")
    finally:
        resource.setrlimit(resource.RLIMIT_STACK, (soft, hard))


def counts_filters() -> bool:
    return "Seccomp_filters:" in Path("/proc/self/status").read_text()


@pytest.mark.skipif(not counts_filters(), reason="the host doesn't count filters")
@pytest.mark.parametrize("answer", [0, 1, 2], ids=["kills", "traps", "refuses"])
def test_a_filter_of_its_own_is_named(posix: Posix, room: Path, answer: int) -> None:
    program = built(posix, room, FILTER)
    done = posix.run(program, answer, SENDTO)
    assert "process 1000 has set a filter of seccomp(2) itself" in done.stderr and done.returncode == 3
    passes(posix.run(program, answer, SEMTIMEDOP))


def test_a_later_image_has_no_filter_of_its_own(posix: Posix, room: Path) -> None:
    """The runtime's are counted apart: this one has closed the runtime's socket."""
    first = built(posix, room, CLOSES)
    other = built(
        posix, room, "static char large[] = {[200000] = 1};\n" + CLOSES.replace("getpid()", "getpid(), large[5]++"), name="other"
    )
    done = posix.run(first, other)
    assert "outside of the model" in done.stderr and "seccomp" not in done.stderr and done.returncode == 1


def test_the_programs_are_right_natively(other_user: OtherUser) -> None:
    """By a user, since root may do more."""
    texts = [
        PROCESSES,
        LENGTH,
        ENVIRONMENT.replace("TRACEHOST_LWP=", "A_WORD="),
        *(f"#define RESOURCE {name}\n{MEMORY}" for name in MEMORIES),
    ]
    for text in texts:
        (other_user.room / "native.c").write_text(HEAD + text)
        program = other_user.room / "native"
        subprocess.run(["cc", "-w", "-pthread", "-o", program, program.with_suffix(".c")], check=True)
        done = other_user.run(program)
        assert (done.stderr, done.returncode) == ("", 0), done.stdout
