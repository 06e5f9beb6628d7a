/* Debug registers: writes, accesses, an instruction, of one thread each.
 * prints: written at 8 then 9|accessed|at the instruction|the other thread and the child go by|done
 * schedules: 50
 * natively: no */
#include <sys/types.h>
#include <sys/ptrace.h>
#include <sys/wait.h>
#include <machine/reg.h>
#include <errno.h>
#include <pthread.h>
#include <signal.h>
#include <stdint.h>
#include <stdio.h>
#include <stdlib.h>
#include <string.h>
#include <unistd.h>
#define CHECK(e) do { if (!(e)) { printf("%d: %s not met (errno %d)\n", __LINE__, #e, errno); exit(1); } } while (0)
static volatile long watched = 7, sink;
static pid_t pid;
static __attribute__((noinline)) void work(void) { sink++; }
static void *write_it(void *a) { watched = 20; return a; }
static void target(void)
{
	pthread_t thread;
	ptrace(PT_TRACE_ME, 0, 0, 0);
	raise(SIGSTOP);
	watched = 8;
	getppid();
	watched = 9;
	raise(SIGSTOP);
	sink = watched;
	raise(SIGSTOP);
	work();
	raise(SIGSTOP);
	pthread_create(&thread, 0, write_it, 0);
	pthread_join(thread, 0);
	if (fork() == 0) {
		watched = 30;
		_exit(0);
	}
	wait(0);
	int ends[2];
	pipe(ends);
	write(ends[1], "12345678", 8);
	read(ends[0], (void *)(uintptr_t)&watched, 8); /* the kernel's write */
	_exit(watched == 0x3837363534333231);
}
static void stops(int sig)
{
	int status;
	CHECK(waitpid(pid, &status, 0) == pid);
	CHECK(WIFSTOPPED(status) && WSTOPSIG(status) == sig);
}
static void go_on(void) { CHECK(ptrace(PT_CONTINUE, pid, (caddr_t)1, 0) == 0); }
static void set(int number, const volatile void *at, int length, int access)
{
	struct dbreg d;
	memset(&d, 0, sizeof d);
	d.dr[number] = (uintptr_t)at;
	d.dr[7] = at == 0 ? 0 : DBREG_DR7_SET(number, length, access, DBREG_DR7_LOCAL_ENABLE);
	CHECK(ptrace(PT_SETDBREGS, pid, (caddr_t)&d, 0) == 0);
}
static void is_hit(int number, long value)
{
	struct dbreg d;
	struct ptrace_lwpinfo pl;
	stops(SIGTRAP);
	CHECK(ptrace(PT_GETDBREGS, pid, (caddr_t)&d, 0) == 0 && (d.dr[6] & 15) == 1u << number);
	CHECK(ptrace(PT_LWPINFO, pid, (caddr_t)&pl, sizeof pl) == 0 && pl.pl_siginfo.si_code == TRAP_TRACE);
	errno = 0;
	CHECK(ptrace(PT_READ_D, pid, (caddr_t)(uintptr_t)&watched, 0) == value);
}
int main(void)
{
	struct reg r;
	int status;
	if ((pid = fork()) == 0)
		target();
	stops(SIGSTOP);
	struct dbreg wrong = {.dr = {[7] = DBREG_DR7_SET(0, DBREG_DR7_LEN_4, 2, 1)}};
	CHECK(ptrace(PT_SETDBREGS, pid, (caddr_t)&wrong, 0) == -1 && errno == EINVAL);
	set(1, &watched, DBREG_DR7_LEN_8, DBREG_DR7_WRONLY);
	go_on();
	is_hit(1, 8);
	go_on();
	is_hit(1, 9);
	puts("written at 8 then 9");
	go_on();
	stops(SIGSTOP);
	set(3, &watched, DBREG_DR7_LEN_4, DBREG_DR7_RDWR);
	go_on();
	is_hit(3, 9);
	puts("accessed");
	go_on();
	stops(SIGSTOP);
	set(0, (void *)(uintptr_t)work, DBREG_DR7_LEN_1, DBREG_DR7_EXEC);
	go_on();
	is_hit(0, 9);
	CHECK(ptrace(PT_GETREGS, pid, (caddr_t)&r, 0) == 0 && r.r_rip == (int64_t)(uintptr_t)work);
	puts("at the instruction");
	set(0, 0, 0, 0);
	go_on();
	stops(SIGSTOP);
	set(0, &watched, DBREG_DR7_LEN_8, DBREG_DR7_WRONLY);
	go_on();
	CHECK(waitpid(pid, &status, 0) == pid && WIFEXITED(status) && WEXITSTATUS(status) == 1);
	puts("the other thread and the child go by");
	puts("done");
	return 0;
}
