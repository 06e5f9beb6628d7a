"""What `tracehost-run` and `tracehost-cc` say of a run: whose fault it is, where it is, and what wasn't tried."""

from __future__ import annotations

import itertools
import json
import os
import pathlib
import re
import shutil
import signal
import subprocess
import time
from typing import Any

import pytest
from posix_kit import CC, POSIX, RUN, Posix

pytestmark = pytest.mark.usefixtures("posix")

PAST_THE_RUNTIME = r"""
#include <dlfcn.h>
#include <stdio.h>
#include <string.h>
#include <unistd.h>
static long host(long number, long first, long second)
{
	long result;
	__asm__ volatile("syscall" : "=a"(result) : "a"(number), "D"(first), "S"(second) : "rcx", "r11", "memory");
	return result;
}
int main(int argc, char **argv)
{
	const char *how = argv[1], *name = argv[2];
	long none[2] = {0, -1};
	if (strcmp(how, "instruction") != 0) {
		long (*call)(long, long) = (long (*)(long, long))dlsym(RTLD_DEFAULT, name);
		call(strcmp(name, "system") == 0 ? (long)"true" : getppid(), 0);
	} else if (strcmp(name, "int80") == 0)
		__asm__ volatile("int $0x80" : : "a"(20) : "memory"); /* getpid, of 32 bits */
	else if (strcmp(name, "kill") == 0)
		host(62, getppid(), 0);
	else if (strcmp(name, "fork") == 0)
		host(57, 0, 0);
	else if (strcmp(name, "setpgid") == 0)
		host(109, 0, 0);
	else if (strcmp(name, "clock_settime") == 0)
		host(227, 99, (long)none); /* no clock, and no time, should it get through */
	else if (strcmp(name, "reboot") == 0)
		host(169, 0, 0); /* without the numbers that it asks for */
	else if (strcmp(name, "sethostname") == 0)
		host(170, 0, -1);
	else if (strcmp(name, "pidfd_send_signal") == 0)
		host(424, -1, 0);
	return 0;
}
"""

CLONES = r"""
#define _GNU_SOURCE
#include <dlfcn.h>
#include <string.h>
static long by_instruction(long number, long flags, ...)
{
	long result;
	register long r10 __asm__("r10") = 0, r8 __asm__("r8") = 0;
	__asm__ volatile("syscall" : "=a"(result) : "a"(number), "D"(flags), "S"(0), "d"(0), "r"(r10), "r"(r8) : "rcx", "r11", "memory");
	return result;
}
static int nothing(void *given) { return 0; }
void make(const char *how, const char *what)
{
	/* with the flags that the C library has for a thread and for a fork */
	long flags = strcmp(what, "thread") == 0 ? 0x3d0f00 : 0x1200011, number = strcmp(what, "clone3") == 0 ? 435 : 56;
	if (strcmp(how, "clone") == 0) {
		int (*clone)(int (*)(void *), void *, int, void *) = dlsym(RTLD_DEFAULT, how);
		clone(nothing, &flags, flags, 0);
		return;
	}
	long (*call)(long, long, ...) = strcmp(how, "syscall") == 0 ? dlsym(RTLD_DEFAULT, how) : by_instruction;
	if (call(number, number == 435 ? 0 : flags, 0, 0, 0, 0) == 0)
		by_instruction(60, 0); /* a child that got through exits */
}
"""
CALLS_MAKE = "void make(const char *, const char *); int main(int argc, char **argv) { make(argv[1], argv[2]); return 0; }\n"
MAKES_ALL = r"""
#include <pthread.h>
#include <spawn.h>
#include <sys/wait.h>
#include <unistd.h>
static void *body(void *given) { return given; }
int main(int argc, char **argv)
{
	pthread_t thread;
	char *words[] = {argv[0], "again", NULL};
	pid_t made;
	int status = 1;
	if (pthread_create(&thread, NULL, body, NULL) != 0 || pthread_join(thread, NULL) != 0)
		return 2;
	if (fork() == 0)
		_exit(0);
	wait(&status);
	if (argc == 1 && (posix_spawn(&made, argv[0], NULL, NULL, words, NULL) != 0 || wait(&status) != made))
		return 3;
	return status;
}
"""

ODD = r"""
#include <signal.h>
#include <stdio.h>
#include <stdlib.h>
#include <string.h>
#include <sys/wait.h>
#include <unistd.h>
static void stop_server(void)
{
	long result;
	if (fork() == 0)
		execl("/bin/sh", "sh", "-c", "read -r _ _ _ parent _ </proc/$PPID/stat; read -r _ _ _ server _ </proc/$parent/stat; kill -STOP $server", NULL);
	wait(NULL);
	(void)result;
}
int main(int argc, char **argv)
{
	const char *what = argc > 1 ? argv[1] : "";
	if (strcmp(what, "prints") == 0)
		for (;;)
			write(1, what, 6);
	else if (strcmp(what, "talks") == 0) {
		long result;
		__asm__ volatile("syscall" : "=a"(result) : "a"(1), "D"(1000), "S"(argv[2]), "d"(strlen(argv[2])) : "rcx", "r11", "memory");
		getpid();
	} else if (strcmp(what, "stops") == 0)
		stop_server();
	else if (strcmp(what, "loops") == 0)
		for (;;)
			getppid();
	else if (strcmp(what, "faults") == 0)
		*(volatile int *)8 = 1;
	else if (strcmp(what, "fills") == 0) {
		while (dup(1) >= 0)
			;
		if (fork() == 0)
			_exit(0);
		return wait(NULL) < 0;
	}
	return 0;
}
"""


REFUSED = r"""
#define _GNU_SOURCE
#include <sched.h>
#include <signal.h>
#include <stdio.h>
#include <stdlib.h>
#include <string.h>
#include <sys/epoll.h>
#include <sys/time.h>
#include <sys/timerfd.h>
#include <sys/timex.h>
#include <time.h>
#include <unistd.h>
static int nothing(void *given) { return 0; }
int main(int argc, char **argv)
{
	struct timespec never = {0, -1};
	struct epoll_event event;
#define TRY(name, ...) if (strcmp(argv[1], #name) == 0) name(__VA_ARGS__)
	TRY(system, "true");
	TRY(popen, "true", "r");
	TRY(daemon, 0, 0);
	TRY(clone, nothing, argv + 1000, 0, NULL);
	TRY(sigqueue, 0, 0, (union sigval){0});
	TRY(clock_settime, 99, &never);
	TRY(settimeofday, NULL, NULL);
	TRY(adjtime, NULL, NULL);
	TRY(epoll_wait, -1, &event, 1, 0);
	TRY(timerfd_create, 0, 0);
	TRY(_Fork);
	return 0;
}
"""


def run(*words: object, **environment: str) -> subprocess.CompletedProcess[str]:
    """A command. A run leaves no record unless it is asked for one."""
    command, *rest = words
    return subprocess.run(
        [str(word) for word in (command, *(["--no-record"] if command == RUN else []), *rest)],
        capture_output=True,
        text=True,
        timeout=120,
        env=dict(os.environ, **environment),
    )


def compiled(folder: pathlib.Path, name: str, text: str, *options: str, compiler: str = "cc") -> pathlib.Path:
    source = folder / f"{name}.{'cpp' if '++' in compiler else 'c'}"
    source.write_text(text)
    done = run(CC, "-g", "-w", *options, "-o", folder / name, source, CC=compiler)
    assert done.returncode == 0, done.stderr
    return folder / name


@pytest.fixture(scope="module")
def folder(posix: Posix, tmp_path_factory: pytest.TempPathFactory) -> pathlib.Path:
    made = tmp_path_factory.mktemp("programs")
    compiled(made, "past", PAST_THE_RUNTIME)
    compiled(made, "odd", ODD)
    compiled(made, "refused", REFUSED)
    return made


# ---- what ran, ran on the model


@pytest.mark.parametrize("how", ["instruction", "library"])
@pytest.mark.parametrize("call", ["kill", "fork", "setpgid"])
def test_a_call_past_the_runtime_ends_the_run(folder: pathlib.Path, how: str, call: str) -> None:
    done = run(RUN, folder / "past", how, call)
    assert done.returncode == 1
    assert re.search(rf"calls {call} past the runtime, in .*/past", done.stderr), done.stderr


@pytest.mark.parametrize("place", ["-pie", "-no-pie", "library"])
def test_a_clone_as_the_c_library_makes_it_is_held_elsewhere(place: str, tmp_path: pathlib.Path) -> None:
    if place == "library":
        (tmp_path / "clones.c").write_text(CLONES)
        assert run("cc", "-w", "-shared", "-fPIC", "-o", tmp_path / "libclones.so", tmp_path / "clones.c").returncode == 0
        (tmp_path / "main.c").write_text(CALLS_MAKE)
        words = [CC, "-o", tmp_path / "main", tmp_path / "main.c", f"-L{tmp_path}", "-lclones", f"-Wl,-rpath,{tmp_path}"]
        assert run(*words).returncode == 0
        file = "libclones.so"
    else:
        compiled(tmp_path, "main", CLONES + CALLS_MAKE, place)
        file = "main"
    for how, what in itertools.product(["instruction", "syscall", "clone"], ["thread", "fork", "clone3"]):
        done = run(RUN, tmp_path / "main", how, what)
        call = "clone3" if what == "clone3" and how != "clone" else "clone"
        assert done.returncode == 1, (how, what)
        assert re.search(rf"calls {call} past the runtime, in \S*/{file},", done.stderr), (how, what, done.stderr)


@pytest.mark.parametrize("place", ["-pie", "-no-pie", "-static"])
def test_the_runtimes_own_threads_and_forks_are_not_held(place: str, tmp_path: pathlib.Path) -> None:
    done = run(RUN, "--schedules", 20, compiled(tmp_path, "main", MAKES_ALL, place))
    assert done.returncode == 0 and "21 schedules passed" in done.stderr, done.stderr


@pytest.mark.parametrize("call", re.findall(r"TRY\((\w+)[,)](?! \.)", REFUSED))
def test_a_call_that_is_not_there_ends_the_run(folder: pathlib.Path, call: str) -> None:
    done = run(RUN, folder / "refused", call)
    assert done.returncode == 1
    assert f"calls {call}, which isn't among the calls of this runtime" in done.stderr
    assert f"in {call} at {folder}/refused.c:" in done.stderr


def test_a_call_of_32_bits_is_held(folder: pathlib.Path) -> None:
    done = run(RUN, folder / "past", "instruction", "int80")
    assert done.returncode == 1 and "calls int80 past the runtime" in done.stderr


@pytest.mark.parametrize("call", ["clock_settime", "reboot", "sethostname", "pidfd_send_signal"])
def test_the_host_itself_is_held(folder: pathlib.Path, call: str) -> None:
    done = run(RUN, folder / "past", "instruction", call)
    assert done.returncode == 1 and f"calls {call} past the runtime" in done.stderr


def test_a_shell_of_the_c_library_is_held(folder: pathlib.Path) -> None:
    done = run(RUN, folder / "past", "library", "system")
    assert done.returncode == 1
    assert re.search(r"calls posix_spawn, as system, popen and wordexp do, past the runtime, in .*/libc", done.stderr), done.stderr


def test_an_object_and_a_library_of_another_compiler_are_told(tmp_path: pathlib.Path) -> None:
    source = tmp_path / "own.c"
    source.write_text("#include <unistd.h>\nint own(void) { return fork(); }\n")
    assert run("cc", "-c", "-o", tmp_path / "own.o", source).returncode == 0
    assert run("cc", "-shared", "-fPIC", "-o", tmp_path / "libown.so", source).returncode == 0
    main = tmp_path / "main.c"
    main.write_text("int own(void); int main(int argc, char **argv) { return argc > 1 ? own() : 0; }\n")
    done = run(CC, "-o", tmp_path / "with_object", main, tmp_path / "own.o")
    assert done.returncode == 0 and "own.o calls fork of the host" in done.stderr
    done = run(CC, "-o", tmp_path / "with_library", main, f"-L{tmp_path}", "-lown", f"-Wl,-rpath,{tmp_path}")
    assert done.returncode == 0 and "libown.so calls fork of the host" in done.stderr
    done = run(RUN, tmp_path / "with_library")
    assert done.returncode == 0 and "libown.so calls fork of the host" in done.stderr
    done = run(RUN, tmp_path / "with_library", "x")
    assert done.returncode == 1 and "past the runtime, in " in done.stderr and "libown.so" in done.stderr


def test_make_may_name_the_compiler(tmp_path: pathlib.Path) -> None:
    """`make CC=tracehost-cc` and `configure CC=tracehost-cc` leave that name in the environment."""
    (tmp_path / "main.c").write_text("#include <unistd.h>\nint main(void) { return getpid() != 1000; }\n")
    done = run("make", "-C", tmp_path, f"CC={CC} --freebsd", "main")
    assert done.returncode == 0, done.stderr
    assert run(RUN, tmp_path / "main").returncode == 0


def test_assembly_is_compiled(tmp_path: pathlib.Path) -> None:
    (tmp_path / "seven.S").write_text(
        "#ifndef __linux__\n.section .note.GNU-stack\n.text\n.globl seven\nseven: mov $7, %eax\nret\n#endif\n"
    )
    (tmp_path / "main.c").write_text("int seven(void); int main(void) { return seven() != 7 || getpid() != 1000; }\n")
    words = [CC, "--freebsd", "-o", tmp_path / "main", tmp_path / "main.c", tmp_path / "seven.S"]
    done = run(*words)
    assert (done.returncode, done.stderr) == (0, "")
    assert run(RUN, tmp_path / "main").returncode == 0


def test_a_search_that_tries_nothing_fails(tmp_path: pathlib.Path) -> None:
    program = compiled(tmp_path, "empty", "int main(void) { return 0; }\n")
    done = run(RUN, "--schedules", 3, program)
    assert done.returncode == 4 and "nothing was tried" in done.stderr
    done = run(RUN, program)
    assert done.returncode == 0 and "no call but its end" in done.stderr


def test_switches_that_are_not_met(folder: pathlib.Path) -> None:
    done = run(RUN, "--switches", "100000.9999:100001", folder / "odd", "fills")
    assert done.returncode == 4 and "not met: 100000.9999:100001" in done.stderr


@pytest.mark.parametrize("call", ["waitpid(-1, bad, 0)", "execve(words[0], bad, words)", "execve(words[0], words, bad)"])
def test_an_address_that_is_not_there_ends_the_program_at_its_own_line(tmp_path: pathlib.Path, call: str) -> None:
    head = "#include <sys/wait.h>\n#include <unistd.h>\nint main(int argc, char **words)\n{\n\tvoid *bad = (void *)8;\n"
    text = f"{head}\tif (fork() == 0)\n\t\t_exit(0);\n\t{call};\n\treturn 0;\n}}\n"
    done = run(RUN, compiled(tmp_path, "main", text))
    assert done.returncode == 1 and "was ended by SIGSEGV" in done.stderr, done.stderr
    assert f"in a trap at {tmp_path}/main.c:8" in done.stderr


@pytest.mark.parametrize("compiler", ["cc", "clang"])
@pytest.mark.parametrize(
    ("sanitizer", "text"),
    [
        ("address", "#include <stdlib.h>\nchar *kept; int main(void) { kept = malloc(100); kept = 0; return 0; }\n"),
        (
            "thread",
            "#include <pthread.h>\nstatic int x; static void *add(void *a) { for (int i = 0; i < 1000; i++) x++; return a; }\n"
            "int main(void) { pthread_t a, b; pthread_create(&a, 0, add, 0); pthread_create(&b, 0, add, 0);"
            " pthread_join(a, 0); pthread_join(b, 0); return 0; }\n",
        ),
    ],
)
def test_what_a_sanitizer_finds_fails_the_run(tmp_path: pathlib.Path, compiler: str, sanitizer: str, text: str) -> None:
    source = tmp_path / "found.c"
    source.write_text(text)
    flags = ["-g", "-w", f"-fsanitize={sanitizer}", "-pthread"]
    if shutil.which(compiler) is None or run(compiler, *flags, "-o", tmp_path / "native", source).returncode != 0:
        pytest.skip(f"{compiler} has no sanitizers here")
    if run(tmp_path / "native").returncode == 0:
        pytest.skip("the sanitizer finds nothing natively here")
    done = run(RUN, compiled(tmp_path, "found", text, *flags, compiler=compiler))
    assert done.returncode == 1 and "Sanitizer" in done.stdout + done.stderr


def test_coverage_is_written(tmp_path: pathlib.Path) -> None:
    program = compiled(tmp_path, "covered", "#include <unistd.h>\nint main(void) { return getpid() == 0; }\n", "--coverage")
    assert run(RUN, "--schedules", 3, program).returncode == 0
    assert list(tmp_path.glob("*.gcda"))


# ---- where it is


def line_of(text: str, source: str) -> int:
    return source[: source.index(text)].count("\n") + 1


def test_a_signal_has_its_name_and_place(folder: pathlib.Path) -> None:
    done = run(RUN, folder / "odd", "faults")
    assert done.returncode == 1 and "was ended by SIGSEGV" in done.stderr
    assert f"in a trap at {folder}/odd.c:{line_of('*(volatile int *)8', ODD)}" in done.stderr


def test_a_loop_has_its_place(folder: pathlib.Path) -> None:
    done = run(RUN, "--limit", 2000, folder / "odd", "loops")
    assert done.returncode == 1 and "no end after 2000 questions (--limit)" in done.stderr
    assert re.search(rf"1000/100000 in getppid at .*:{line_of('getppid();', ODD)}; 200 of the last 200", done.stderr), done.stderr


def test_a_deadlock_and_a_switch_have_places(posix: Posix, tmp_path: pathlib.Path) -> None:
    race = POSIX / "races" / "lost_wakeup.c"
    done = run(RUN, "--schedules", 300, "--record", tmp_path / "run.json", posix.race("lost_wakeup"), "its", "words")
    assert done.returncode == 1 and "1 is enough: --switches" in done.stderr
    place = f"in pause at .*lost_wakeup.c:{line_of('pause();', race.read_text())}"
    assert re.search(rf"1000/100000 {place}; 1001/100001 goes on", done.stderr), done.stderr
    assert re.search(rf"1000/100000 {place}$", done.stderr, re.MULTILINE), done.stderr
    title = re.search(r'"title": *"([^"]*)"', (tmp_path / "run.json.html").read_text())
    assert title is not None and re.fullmatch(r"lost_wakeup its words: deadlock: .* \(switches before step \d+\)", title[1]), title


def embedded(page: pathlib.Path) -> dict[str, Any]:
    """The data of a page."""
    found = re.search(r'<script type="application/json" id="embedded">(.*?)</script>', page.read_text(), re.DOTALL)
    assert found is not None
    data: dict[str, Any] = json.loads(found[1])
    return data


def test_a_record_s_page_shows_the_failure(posix: Posix, tmp_path: pathlib.Path) -> None:
    """At its last step: what is said, file and line of who is to blame, the switches, and the rows. A run that passes has none."""
    race = POSIX / "races" / "lost_wakeup.c"
    at_pause = f"lost_wakeup.c:{line_of('pause();', race.read_text())}"
    done = run(RUN, "--schedules", 300, "--record", tmp_path / "run.json", posix.race("lost_wakeup"))
    assert done.returncode == 1
    data, (file,) = embedded(tmp_path / "run.json.html"), embedded(tmp_path / "run.json.html")["files"]
    told = data["failure"]["message"].splitlines()
    assert (data["failure"]["test"], data["failure"]["step"]) == ("lost_wakeup", len(file["rows"]))
    assert told[0].startswith("deadlock: 1000/100000 waits in pause") and told[1].endswith(at_pause)
    assert any(line.startswith("--switches ") for line in told)
    assert all(changes >= 0 for *_, changes in file["rows"])
    assert any(file["values"][asked].get("call") == "pause" for _, _, asked, _, _ in file["rows"])
    done = run(RUN, "--record", tmp_path / "right.json", posix.remedy("lost_wakeup"))
    assert done.returncode == 0 and "failure" not in embedded(tmp_path / "right.json.html")


def test_what_was_never_preempted_is_listed(posix: Posix) -> None:
    race, right = POSIX / "races" / "lost_wakeup.c", posix.remedy("lost_wakeup")
    at_suspend = f"  sigsuspend at {race}:{line_of('sigsuspend(&', race.read_text())}"
    done = subprocess.run([RUN, "--coverage", "--preemptions", "0", right.name], capture_output=True, text=True, cwd=right.parent)
    assert re.search(r"of (\d+) calls at which another could go on \1 were never preempted", done.stderr), done.stderr
    assert at_suspend in done.stderr.splitlines()
    done = subprocess.run([RUN, "--coverage", "--preemptions", "1", right.name], capture_output=True, text=True, cwd=right.parent)
    assert "were never preempted" in done.stderr and at_suspend not in done.stderr.splitlines(), done.stderr
    assert "preempted" not in run(RUN, right).stderr


# ---- whose fault it is


@pytest.mark.parametrize("text", ["x", "0 nothing", "\x01", "zz getpid", "0 again", "0 enter x y z", "0 call"])
def test_bytes_on_the_socket_of_the_runtime_are_no_verdict(folder: pathlib.Path, text: str) -> None:
    done = run(RUN, folder / "odd", "talks", text)
    assert done.returncode == 3 and done.stderr.count("\n") == 1
    assert "the fault is not the program's" in done.stderr and "Traceback" not in done.stderr


def test_output_has_a_bound(folder: pathlib.Path) -> None:
    done = run(RUN, "--digest", "--output-limit", 5000, folder / "odd", "prints")
    assert done.returncode == 1 and "more than 5000 bytes" in done.stderr


def test_a_stopped_server_goes_on(folder: pathlib.Path) -> None:
    done = run(RUN, "--patience", 5, "--schedules", 3, folder / "odd", "stops")
    assert done.returncode == 0, done.stderr


def test_descriptors_that_are_used_up(folder: pathlib.Path) -> None:
    done = run(RUN, folder / "odd", "fills")
    assert done.returncode == 0, done.stderr


def test_no_more_workers_than_tasks(folder: pathlib.Path) -> None:
    done = run(RUN, "--jobs", 500, "--schedules", 2, "--figures", folder / "odd", "fills")
    assert done.returncode == 0, done.stderr


@pytest.mark.parametrize("number", [signal.SIGKILL, signal.SIGTERM])
def test_no_file_is_left_of_verified_runs(tmp_path: pathlib.Path, number: signal.Signals) -> None:
    program = compiled(
        tmp_path, "calls", "#include <unistd.h>\nint main(void) { for (int i = 0; i < 20; i++) getppid(); return 0; }\n"
    )
    files = tmp_path / "files"
    files.mkdir()
    words = [str(word) for word in (RUN, "--verify", "--digest", "--schedules", 100000, program)]
    for _ in range(3):
        broker = subprocess.Popen(
            words, stdout=subprocess.PIPE, text=True, env=dict(os.environ, TMPDIR=str(files), PYTHONUNBUFFERED="1")
        )
        assert broker.stdout is not None and broker.stdout.readline()
        broker.send_signal(number)
        broker.stdout.close()
        broker.wait()
        assert not list(files.iterdir())


def test_a_worker_that_dies_is_replaced(folder: pathlib.Path) -> None:
    words = [RUN, "--jobs", "3", "--schedules", "1500", "--digest", folder / "odd", "loops", "x"]
    source = "#include <unistd.h>\nint main(void) { for (int i = 0; i < 20; i++) getppid(); return 0; }\n"
    words[-3:] = [compiled(folder, "calls", source)]
    broker = subprocess.Popen([str(word) for word in words], stdout=subprocess.PIPE, stderr=subprocess.PIPE, text=True)
    for _ in range(3000):
        workers = _children(broker.pid)
        if len(workers) == 3:
            break
        time.sleep(0.01)
    os.kill(workers[1], signal.SIGKILL)
    out, errors = broker.communicate(timeout=300)
    assert broker.returncode == 0, errors
    assert len(out.splitlines()) == 1501


def _children(pid: int) -> list[int]:
    return [int(word) for word in pathlib.Path(f"/proc/{pid}/task/{pid}/children").read_text().split()]
