/* Debuggers at work with registers: threads at a breakpoint, functions that they call, births, followed forks, an exec, the
 * arguments of calls, and what else is known of a stopped process. FreeBSD on amd64. */
#include "debugger.h"
#include "registers.h"
#include <sys/procctl.h>
#include <sys/syscall.h>
#include <sys/sysctl.h>
#include <sys/user.h>
#include <libutil.h>
#include <pthread.h>
#include <pthread_np.h>
#include <ucontext.h>

enum { THREADS = 2, VISITS = 8 };

static volatile int visits[THREADS];

__attribute__((noinline)) static void visited(int who) { visits[who]++; }

static void *
visit(void *who)
{
	for (int i = 0; i < VISITS; i++) {
		visited((int)(intptr_t)who);
		sched_yield();
	}
	return (NULL);
}

static void
two_visitors(void)
{
	pthread_t thread;

	CHILD_REQUIRE(pthread_create(&thread, NULL, visit, (void *)1) == 0);
	visit(NULL);
	CHILD_REQUIRE(pthread_join(thread, NULL) == 0);
	_exit(visits[0] + visits[1]);
}

static void
others(pid_t pid, lwpid_t lwp, int number)
{
	lwpid_t all[8];
	int count = ptrace(PT_GETLWPLIST, pid, (caddr_t)all, 8);

	for (int i = 0; i < count; i++)
		if (all[i] != lwp)
			ATF_REQUIRE(ptrace(number, all[i], NULL, 0) == 0);
}

/* Two threads come to one breakpoint; the other one is suspended while one is stepped over it. */
ATF_TC_WITHOUT_HEAD(threads_at_a_breakpoint);
ATF_TC_BODY(threads_at_a_breakpoint, tc)
{
	const void *at = (const void *)(uintptr_t)visited;
	int hits[THREADS] = {0, 0}, status;
	pid_t pid = start_traced(two_visitors);
	unsigned char byte = set_byte(pid, at, BREAKPOINT);

	for (;;) {
		ATF_REQUIRE(go_on(pid) && waitpid(pid, &status, 0) == pid);
		if (!WIFSTOPPED(status))
			break;
		ATF_REQUIRE(status == STOPPED_BY(SIGTRAP));
		lwpid_t lwp = info(pid).pl_lwpid;
		struct reg r = registers(lwp);
		ATF_REQUIRE(r.r_rip == address(at) + 1 && r.r_rdi >= 0 && r.r_rdi < THREADS);
		hits[r.r_rdi]++;
		r.r_rip--;
		set_registers(lwp, &r);
		set_byte(pid, at, byte);
		others(pid, lwp, PT_SUSPEND);
		ATF_REQUIRE(steps(lwp, pid) && info(pid).pl_lwpid == lwp);
		ATF_REQUIRE((uint64_t)(registers(lwp).r_rip - address(at)) < 16);
		others(pid, lwp, PT_RESUME);
		set_byte(pid, at, BREAKPOINT);
	}
	ATF_REQUIRE_MSG(status == EXITED_WITH(THREADS * VISITS), "status %#x", status);
	ATF_REQUIRE_MSG(hits[0] == VISITS && hits[1] == VISITS, "%d and %d", hits[0], hits[1]);
}

static volatile int stop_now;
static void spins(void) { while (!stop_now) continue; _exit(31); }

/* A loop without calls is attached to, and stepped. */
ATF_TC_WITHOUT_HEAD(steps_in_a_loop);
ATF_TC_BODY(steps_in_a_loop, tc)
{
	const int64_t from = address((const void *)(uintptr_t)spins);
	pid_t pid = start(spins);
	int inside = 0;

	ATF_REQUIRE(attach(pid));
	for (int i = 0; i < 30; i++) {
		inside += (uint64_t)(registers(pid).r_rip - from) < 64;
		ATF_REQUIRE(steps(pid, pid));
	}
	ATF_REQUIRE_MSG(inside >= 10, "%d times in the loop", inside);
	ATF_REQUIRE(ptrace(PT_WRITE_D, pid, (caddr_t)(uintptr_t)&stop_now, 1) == 0);
	ATF_REQUIRE(request(PT_DETACH, pid, 0) && wait_exit(pid, 31));
}

static volatile int handled;
static void count(int sig) { handled += sig == SIGUSR1; }

static void
computes_under_a_handler(void)
{
	signal(SIGUSR1, count);
	for (volatile int i = 0; i < 10; i++)
		continue;
	_exit(handled + 40);
}

/* A signal between two steps is reported with its sender, and its handler runs once. */
ATF_TC_WITHOUT_HEAD(signal_between_steps);
ATF_TC_BODY(signal_between_steps, tc)
{
	int status, sig = 0, seen = 0;
	pid_t pid = start_traced(computes_under_a_handler);

	for (int i = 0;; i++) {
		(void)registers(pid);
		ATF_REQUIRE(request(PT_STEP, pid, sig));
		if (i == 30)
			ATF_REQUIRE(kill(pid, SIGUSR1) == 0);
		ATF_REQUIRE(waitpid(pid, &status, 0) == pid);
		if (!WIFSTOPPED(status))
			break;
		sig = WSTOPSIG(status) == SIGTRAP ? 0 : WSTOPSIG(status);
		if (sig != 0) {
			seen++;
			ATF_REQUIRE(info(pid).pl_siginfo.si_pid == getpid() && info(pid).pl_siginfo.si_code == SI_USER);
		}
	}
	ATF_REQUIRE_MSG(status == EXITED_WITH(41) && seen == 1, "status %#x, %d signals", status, seen);
}

/* ---- a function that the debugger calls, with a large argument on the stack; it returns to a breakpoint */

enum { ROOM = 8192, RED_ZONE = 128 };

static volatile long called_with;

__attribute__((noinline)) static long
times(long a, long b)
{
	char text[4096];

	memset(text, (int)a, sizeof(text));
	called_with += a;
	getppid();
	return (a * b + text[4095] - a);
}

static void never(void) { _exit(CHILD_FAILED); }

static void
call_times(pid_t pid)
{
	static char room[ROOM];
	const void *back = (const void *)(uintptr_t)never;
	const struct reg before = registers(pid);
	struct reg r = before;
	int64_t top = before.r_rsp - RED_ZONE - ROOM;
	struct ptrace_io_desc desc = { .piod_op = PIOD_WRITE_D, .piod_offs = (void *)top, .piod_addr = room, .piod_len = sizeof(room) };
	unsigned char byte = set_byte(pid, back, BREAKPOINT);

	ATF_REQUIRE(ptrace(PT_IO, pid, (caddr_t)&desc, 0) == 0);
	r.r_rsp = (top & ~15) - 8, r.r_rip = address((const void *)(uintptr_t)times), r.r_rdi = 6, r.r_rsi = 7;
	desc = (struct ptrace_io_desc){ .piod_op = PIOD_WRITE_D, .piod_offs = (void *)r.r_rsp, .piod_addr = &back, .piod_len = sizeof(back) };
	ATF_REQUIRE(ptrace(PT_IO, pid, (caddr_t)&desc, 0) == 0);
	set_registers(pid, &r);
	ATF_REQUIRE(go_on(pid) && wait_stop(pid, SIGTRAP));
	r = registers(pid);
	ATF_REQUIRE(r.r_rip == address(back) + 1 && r.r_rax == 42);
	set_byte(pid, back, byte);
	set_registers(pid, &before);
}

static void
kills_itself(void)
{
	CHILD_REQUIRE(kill(getpid(), SIGUSR1) == 0);
	_exit(called_with == 6 ? 13 : 14);
}

static void
function_called_at(void (*child)(void), int sig)
{
	pid_t pid = start_traced(child);

	ATF_REQUIRE(go_on(pid) && wait_stop(pid, sig));
	call_times(pid);
	ATF_REQUIRE(go_on(pid) && wait_exit(pid, 13));
}

/* From a stop behind a call. */
ATF_TC_WITHOUT_HEAD(function_called_behind_a_call);
ATF_TC_BODY(function_called_behind_a_call, tc)
{
	function_called_at(kills_itself, SIGUSR1);
}

static void
traps(void)
{
	__asm__ volatile("int3");
	_exit(called_with == 6 ? 13 : 14);
}

/* From a breakpoint. */
ATF_TC_WITHOUT_HEAD(function_called_at_a_breakpoint);
ATF_TC_BODY(function_called_at_a_breakpoint, tc)
{
	function_called_at(traps, SIGTRAP);
}

/* ---- threads, children and images at their beginning */

static void *
add(void *number)
{
	visits[0] += (int)(intptr_t)number;
	return (NULL);
}

static void
one_thread(void)
{
	pthread_t thread;

	CHILD_REQUIRE(pthread_create(&thread, NULL, add, (void *)3) == 0 && pthread_join(thread, NULL) == 0);
	_exit(visits[0]);
}

/* A new thread is at its routine's first instruction. */
ATF_TC_WITHOUT_HEAD(birth_of_a_thread);
ATF_TC_BODY(birth_of_a_thread, tc)
{
	const int64_t from = address((const void *)(uintptr_t)add);
	int status, seen = 0;
	pid_t pid = start_traced(one_thread);

	set_events(pid, PTRACE_LWP);
	for (;;) {
		ATF_REQUIRE(go_on(pid) && waitpid(pid, &status, 0) == pid);
		if (!WIFSTOPPED(status))
			break;
		lwpid_t lwp = info(pid).pl_lwpid;
		if (!(flags(pid) & PL_FLAG_BORN))
			continue;
		struct reg r = registers(lwp);
		ATF_REQUIRE(r.r_rdi == 3);
		r.r_rdi = 15;
		set_registers(lwp, &r);
		ATF_REQUIRE(r.r_rip == from && steps(lwp, pid));
		r = registers(lwp);
		ATF_REQUIRE(r.r_rip > from && r.r_rip < from + 8 && r.r_rdi == 15);
		seen++;
	}
	ATF_REQUIRE(status == EXITED_WITH(15) && seen == 1);
}

static int ends[2];

static void
reads(void)
{
	char text[4];

	_exit(read(ends[0], text, sizeof(text)) == 2 ? 17 : 18);
}

/* A thread that sleeps in a call has its caller's registers; a step from there is made behind the call. */
ATF_TC_WITHOUT_HEAD(thread_in_a_call);
ATF_TC_BODY(thread_in_a_call, tc)
{
	struct reg r;
	pid_t pid;

	ATF_REQUIRE(pipe(ends) == 0);
	pid = start(reads);
	for (int i = 0; i < 4; i++)
		getppid();
	ATF_REQUIRE(attach(pid));
	r = registers(pid);
	set_registers(pid, &r);
	ATF_REQUIRE(go_on(pid));
	ATF_REQUIRE(kill(pid, SIGSTOP) == 0 && wait_stop(pid, SIGSTOP));
	ATF_REQUIRE(request(PT_STEP, pid, 0));
	ATF_REQUIRE(write(ends[1], "ab", 2) == 2);
	ATF_REQUIRE(wait_stop(pid, SIGTRAP));
	ATF_REQUIRE(registers(pid).r_rip != r.r_rip);
	ATF_REQUIRE(request(PT_DETACH, pid, 0) && wait_exit(pid, 17));
}

static void
forks(void)
{
	int status;
	pid_t pid = fork();

	if (pid == 0)
		_exit(5);
	CHILD_REQUIRE(waitpid(pid, &status, 0) == pid && status == EXITED_WITH(5));
	_exit(6);
}

/* A child that is followed is behind its parent's fork, with 0. */
ATF_TC_WITHOUT_HEAD(child_of_a_fork);
ATF_TC_BODY(child_of_a_fork, tc)
{
	struct reg r, s;
	pid_t pid = start_traced(forks), child;

	set_events(pid, PTRACE_FORK);
	ATF_REQUIRE(go_on(pid) && wait_stop(pid, SIGTRAP));
	ATF_REQUIRE(flags(pid) & PL_FLAG_FORKED);
	child = info(pid).pl_child_pid;
	ATF_REQUIRE(waitpid(child, &(int){0}, 0) == child);
	r = registers(pid), s = registers(child);
	ATF_REQUIRE(r.r_rip == s.r_rip && r.r_rsp == s.r_rsp && r.r_rbp == s.r_rbp && s.r_rax == 0);
	ATF_REQUIRE(steps(child, child));
	s = registers(child);
	ATF_REQUIRE(s.r_rip > r.r_rip && s.r_rip < r.r_rip + 16);
	ATF_REQUIRE(request(PT_DETACH, child, 0) && go_on(pid));
	ATF_REQUIRE(wait_exit_past_sigchld(pid, 6));
}

static char *program;

static __attribute__((constructor)) void
look_at_arguments(int argc, char **argv)
{
	program = argv[0];
	if (argc == 3)
		_exit(42);
}

static void
executes(void)
{
	execl(program, program, "second", "image", (char *)NULL);
	_exit(CHILD_FAILED);
}

/* Steps up to an exec, and on in the new image. */
ATF_TC_WITHOUT_HEAD(steps_across_an_exec);
ATF_TC_BODY(steps_across_an_exec, tc)
{
	pid_t pid = start_traced(executes);
	int moved = 0;

	do {
		(void)registers(pid);
		ATF_REQUIRE(steps(pid, pid));
	} while (!(flags(pid) & PL_FLAG_EXEC));
	for (int i = 0; i < 50; i++) {
		int64_t before = registers(pid).r_rip;
		ATF_REQUIRE(steps(pid, pid));
		moved += registers(pid).r_rip != before; /* a repeated string instruction stays */
	}
	ATF_REQUIRE_MSG(moved >= 25, "%d of 50 steps", moved);
	ATF_REQUIRE(go_on(pid) && wait_exit(pid, 42));
}

/* ---- what is known of a call, a thread, a process */

static void
calls(void)
{
	CHILD_REQUIRE(kill(getppid(), 0) == 0);
	CHILD_REQUIRE(kill(999999, SIGUSR2) == -1 && errno == ESRCH);
	_exit(1);
}

/* The arguments at a call's entry, and the result or the error at its exit. */
ATF_TC_WITHOUT_HEAD(arguments_of_calls);
ATF_TC_BODY(arguments_of_calls, tc)
{
	syscallarg_t given[8];
	struct ptrace_sc_ret result;
	int failed = 0, done = 0, status;
	pid_t pid = start_traced(calls);

	ATF_REQUIRE_ERRNO(EINVAL, ptrace(PT_GET_SC_ARGS, pid, (caddr_t)given, sizeof(given)) == -1);
	for (;;) {
		ATF_REQUIRE(request(PT_SYSCALL, pid, 0) && waitpid(pid, &status, 0) == pid);
		if (!WIFSTOPPED(status))
			break;
		struct ptrace_lwpinfo pl = info(pid);
		if (pl.pl_syscall_code != SYS_kill)
			continue;
		ATF_REQUIRE(pl.pl_syscall_narg == 2);
		ATF_REQUIRE(ptrace(PT_GET_SC_ARGS, pid, (caddr_t)given, sizeof(given)) == 0);
		ATF_REQUIRE((given[0] == getpid() && given[1] == 0) || (given[0] == 999999 && given[1] == SIGUSR2));
		if (pl.pl_flags & PL_FLAG_SCE) {
			struct reg r = registers(pid);
			ATF_REQUIRE(r.r_rax == SYS_kill && r.r_rdi == given[0] && r.r_rsi == given[1]);
			ATF_REQUIRE_ERRNO(EINVAL, ptrace(PT_GET_SC_RET, pid, (caddr_t)&result, sizeof(result)) == -1);
			continue;
		}
		ATF_REQUIRE(ptrace(PT_GET_SC_RET, pid, (caddr_t)&result, sizeof(result)) == 0);
		failed += result.sr_error == ESRCH && given[0] == 999999;
		done += result.sr_error == 0 && result.sr_retval[0] == 0 && given[0] == getpid();
	}
	ATF_REQUIRE_MSG(failed == 1 && done == 1, "%d failed, %d done", failed, done);
	ATF_REQUIRE(status == EXITED_WITH(1));
}

static void
has_a_name(void)
{
	pthread_set_name_np(pthread_self(), "worker");
	CHILD_REQUIRE(raise(SIGUSR1) == 0);
	_exit(0);
}

/* A thread's name, a map with its own program in it, and kern.proc. */
ATF_TC_WITHOUT_HEAD(names_and_maps);
ATF_TC_BODY(names_and_maps, tc)
{
	char path[1024], own[1024];
	struct ptrace_vm_entry entry = { .pve_entry = 0 };
	int name[4] = { CTL_KERN, KERN_PROC, KERN_PROC_PATHNAME, -1 }, found = 0, count;
	size_t size = sizeof(own);
	pid_t pid = start_traced(has_a_name);

	ATF_REQUIRE(go_on(pid) && wait_stop(pid, SIGUSR1));
	ATF_REQUIRE_MSG(strcmp(info(pid).pl_tdname, "worker") == 0, "%s", info(pid).pl_tdname);
	ATF_REQUIRE(info(pid).pl_siginfo.si_code == SI_LWP);
	ATF_REQUIRE(sysctl(name, 4, own, &size, NULL, 0) == 0);
	for (;;) {
		entry.pve_path = path, entry.pve_pathlen = sizeof(path);
		if (ptrace(PT_VM_ENTRY, pid, (caddr_t)&entry, 0) != 0)
			break;
		uintptr_t at = (uintptr_t)has_a_name;
		if (entry.pve_start <= at && at <= entry.pve_end)
			found += strcmp(path, own) == 0 && entry.pve_prot == 5;
	}
	ATF_REQUIRE(errno == ENOENT && found == 1);
	struct kinfo_proc *process = kinfo_getproc(pid);
	ATF_REQUIRE(process != NULL && process->ki_tracer == getpid() && process->ki_ppid == getpid() && process->ki_flag & P_TRACED);
	ATF_REQUIRE(process->ki_numthreads == 1 && process->ki_stat != SZOMB);
	free(process);
	struct kinfo_vmentry *map = kinfo_getvmmap(pid, &count);
	ATF_REQUIRE(map != NULL && count > 3);
	free(map);
	ATF_REQUIRE(go_on(pid) && wait_exit(pid, 0));
}

static volatile uintptr_t faulted_at;

static void
skip(int sig, siginfo_t *si, void *context)
{
	ucontext_t *uc = context;

	faulted_at = sig == SIGSEGV && si->si_code == SEGV_MAPERR ? (uintptr_t)si->si_addr : 0;
	uc->uc_mcontext.mc_rip += 2;
	uc->uc_mcontext.mc_rax = 77;
}

/* A handler changes the registers of what it has interrupted: here a load of two bytes is passed over. */
ATF_TC_WITHOUT_HEAD(context_of_a_handler);
ATF_TC_BODY(context_of_a_handler, tc)
{
	struct sigaction sa = { .sa_flags = SA_SIGINFO };
	int aslr = 0;
	long value = 24;

	sa.sa_sigaction = skip;
	ATF_REQUIRE(sigaction(SIGSEGV, &sa, NULL) == 0);
	__asm__ volatile("movl (%%rax), %%eax" : "+a"(value) : : "memory");
	ATF_REQUIRE(value == 77 && faulted_at == 24);
	ATF_REQUIRE(procctl(P_PID, getpid(), PROC_ASLR_STATUS, &aslr) == 0 && (aslr & ~(int)PROC_ASLR_ACTIVE) != 0);
}

ATF_TP_ADD_TCS(tp)
{
	ATF_TP_ADD_TC(tp, threads_at_a_breakpoint);
	ATF_TP_ADD_TC(tp, steps_in_a_loop);
	ATF_TP_ADD_TC(tp, signal_between_steps);
	ATF_TP_ADD_TC(tp, function_called_behind_a_call);
	ATF_TP_ADD_TC(tp, function_called_at_a_breakpoint);
	ATF_TP_ADD_TC(tp, birth_of_a_thread);
	ATF_TP_ADD_TC(tp, thread_in_a_call);
	ATF_TP_ADD_TC(tp, child_of_a_fork);
	ATF_TP_ADD_TC(tp, steps_across_an_exec);
	ATF_TP_ADD_TC(tp, arguments_of_calls);
	ATF_TP_ADD_TC(tp, names_and_maps);
	ATF_TP_ADD_TC(tp, context_of_a_handler);
	return (atf_no_error());
}
