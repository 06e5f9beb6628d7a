/* What the runtime asks: the address of the program's call, a name, and numbers. */
#include <stdlib.h>
#include <string.h>
#include "calls.h"
#include "run.h"

#define N_CALLS (sizeof calls / sizeof calls[0])

/* clang-format off */
static const struct call calls[] = {
	/* name      body              code least most steps               waits, wakes, at once, of */
	{"hello",     hello,           0,  4, 4, "compute",                      0, 0, false,
		"a new thread or image"},
	{"fork",      fork_call,       2,  0, 1, "enter leave",                  0, NEWS, false, "fork"},
	{"vfork",     vfork_call,      66, 0, 1, "enter leave",                  RUNS, NEWS, false, "vfork, posix_spawn"},
	{"pdfork",    pdfork_call,     2,  1, 2, "enter leave",                  0, NEWS, false, "pdfork"},
	{"thr_new",   thr_new,         455, 0, 0, "enter leave",                  0, 0, false, "pthread_create"},
	{"thr_exit",  thr_exit,        0,  0, 0, "enter leave",                  RUNS, ENDS, false, "pthread_exit"},
	{"exec",      exec_image,      0,  0, 0, "enter leave",                  0, NEWS | RUNS | ENDS, false,
		"execve's family, fexecve"},
	{"foreign",   foreign,         0,  2, 2, "compute",                      0, 0, false, "a program without the runtime"},
	{"exit",      exit_process,    0,  1, 1, "enter leave",                  0, NEWS | RUNS | ENDS | FILES, false,
		"exit, _exit, quick_exit"},
	{"user",      user_call,       0,  0, 0, "compute",                      0, 0, false,
		"a call's return"},
	{"poke",      poke,            0,  1, 1, "compute",                      FILES | LOCKS, 0, false,
		"a thread that computes, or sleeps in the host"},
	{"compute",   compute,         0,  0, 0, "compute",                      0, 0, false, "tracehost_compute"},
	{"point",     point,           0,  0, 0, "",                             0, LOCKS, false,
		"locks, semaphores, barriers, pthread_testcancel"},
	{"cancel",    cancel,          0,  1, 1, "",                             0, NEWS | LOCKS, false, "pthread_cancel"},
	{"call",      simple,          0,  1, 1, "enter leave compute",          0, 0, false,
		"getpid, thr_self, dup, pipe, socketpair, sigaltstack, timer_create, kqueue, procctl, pdgetpid, getrlimit, setrlimit"},
	{"yield",     sched_yield_call, 331, 0, 0, "enter leave compute",          0, 0, false, "sched_yield, pthread_yield_np"},
	{"getppid",   getppid_call,    39, 0, 0, "enter leave compute",          0, 0, false, "getppid"},
	{"join",      join,            454, 2, 2, "enter leave compute",          ENDS | TIME, 0, false,
		"pthread_join, pthread_timedjoin_np"},
	{"stat",      stat_call,       202, 1, 2, "enter leave compute",          0, 0, false,
		"sysctl kern.proc, kinfo_getproc, kinfo_getvmmap"},
	{"kill",      kill_call,       37, 2, 2, "enter kill leave compute",     0, NEWS | RUNS, false, "kill, killpg, pdkill"},
	{"thr_kill",  thr_kill,        433, 2, 2, "enter leave raise compute",    0, NEWS, false,
		"raise, pthread_kill, thr_kill, abort, SIGPIPE"},
	{"fault",     fault_call,      0,  3, 3, "raise compute",                0, 0, true, "a trap"},
	{"trace",     trace_call,      0,  1, 1, "compute compute",              0, 0, true, "an instruction under PT_STEP"},
	{"action",    action,          416, 5, 5, "enter sigaction leave compute", 0, 0, false,
		"sigaction, signal, sigignore, siginterrupt, sigset"},
	{"mask",      mask_call,       340, 2, 2, "enter leave block compute",    0, 0, false,
		"sigprocmask, pthread_sigmask, sighold, sigrelse, sigblock, sigsetmask, setjmp, longjmp"},
	{"suspend",   suspend,         341, 1, 1, "block enter leave compute block compute", NEWS, 0, false, "sigsuspend, sigpause"},
	{"pause",     pause_call,      29, 0, 0, "enter leave compute",          NEWS, 0, false, "pause"},
	{"masked",    masked,          0,  2, 2, "block enter",                  0, 0, false, "ppoll, pselect: begin"},
	{"restore",   restore,         0,  0, 0, "leave block compute",          0, 0, false, "ppoll, pselect: end"},
	{"sigwait",   sigwait_call,    345, 2, 2, "sigaction block compute block sigaction compute", NEWS | TIME, 0, false,
		"sigwait, sigwaitinfo, sigtimedwait"},
	{"pending",   pending,         343, 0, 0, "sigaction block compute block kill sigaction", 0, NEWS, false, "sigpending"},
	{"sleep",     sleep_call,      240, 1, 1, "enter leave compute",          NEWS | TIME, 0, false,
		"sleep, usleep, nanosleep, clock_nanosleep"},
	{"clock",     clock_call,      0,  0, 0, "",                             0, 0, false, "clock_gettime, gettimeofday, time"},
	{"timer",     timer_call,      0,  4, 4, "enter leave compute",          0, NEWS, false,
		"alarm, ualarm, setitimer, timer_settime, timer_delete"},
	{"timer_left", timer_left,      0,  1, 1, "enter leave compute",          0, 0, false, "getitimer, timer_gettime"},
	{"overrun",   overrun,         239, 1, 1, "enter leave compute",          0, 0, false, "timer_getoverrun"},
	{"setpgid",   setpgid_call,    82, 2, 2, "enter leave compute",          0, NEWS, false, "setpgid"},
	{"setsid",    setsid_call,     147, 0, 0, "enter leave compute",         0, NEWS, false, "setsid"},
	{"group",     group_call,      0,  2, 2, "enter leave compute",          0, 0, false, "getpgrp, getpgid, getsid"},
	{"ptrace",    ptrace_call,     26, 3, 4, "enter ptrace leave compute",   0, NEWS | RUNS, false, "ptrace"},
	{"memory",    memory,          26, 1, 2, "",                             0, 0, false,
		"PT_READ_D, PT_WRITE_D, PT_IO, PT_VM_ENTRY and their kin"},
	{"registers", registers_call,  26, 1, 1, "",                             0, 0, false,
		"PT_GETREGS and its kin, PT_GET_SC_ARGS, PT_GET_SC_RET"},
	{"apply",     apply,           26, 4, 4, "",                             0, 0, false, "PT_SETREGS and its kin"},
	{"setstep",   setstep,         26, 2, 2, "",                             0, 0, false, "PT_SETSTEP, PT_CLEARSTEP"},
	{"thread",    thread,          26, 1, 1, "",                             0, 0, false, "PT_LWPINFO's pl_tdname"},
	{"wait",      wait_call,       7,  2, 2, "enter wait4 leave compute",    NEWS, NEWS, false,
		"wait, waitpid, wait3, wait4, wait6, waitid"},
	{"begin",     begin_call,      0,  1, 1, "enter",                        0, 0, false,
		"a call under PT_SYSCALL, before its function"},
	{"replace",   replace_call,    0,  2, 2, "",                             0, 0, true, "another call, by a debugger"},
	{"end",       end_call,        0,  1, 1, "leave compute",                0, FILES, true, "a call of the host's under PT_SYSCALL: end"},
	{"enter",     enter_only,      0,  1, 1, "enter",                        0, 0, false,
		"read, readv, write, writev, poll, select, kevent: begin"},
	{"leave",     leave_only,      0,  0, 0, "leave compute",                0, FILES, false, "these: end"},
	{"io",        simple,          0,  1, 1, "enter leave compute",          0, FILES, false,
		"close, closefrom, close_range, dup2, dup3"},
	{"again",     again,           0,  3, 3, "",                             FILES | LOCKS | TIME, 0, true,
		"these, and locks: wait"},
	{"watch",     watch_call,      560, 2, 2, "",                             0, 0, false,
		"EVFILT_PROC, EVFILT_PROCDESC, pdfork"},
	{"unwatch",   unwatch,         560, 1, 1, "",                             0, 0, false, "these, deleted"},
	{"count",     count_call,      560, 2, 2, "",                             0, 0, false, "EVFILT_SIGNAL"},
	{"news",      news_call,       560, 0, 0, "",                             0, 0, false, "kevent: looks"},
	{"undescribed", undescribed,     6,  1, 1, "",                             0, NEWS, false, "close of a process descriptor"},
};
/* clang-format on */

static void print_topics(int topics)
{
	static const char *const names[] = {"news", "runs", "ends", "files", "locks", "time"};
	for (int i = 0; topics >> i != 0; i++)
		if (topics >> i & 1)
			printf("%s%s", topics & ((1 << i) - 1) ? " " : "", names[i]);
}

/* The table: of each call its name, its code, its steps, for what it waits, what it changes, and what asks it. */
void print_calls(void)
{
	for (size_t i = 0; i < N_CALLS; i++) {
		printf("%s\t%d\t%s\t", calls[i].name, calls[i].code, calls[i].steps);
		print_topics(calls[i].waits);
		printf("\t");
		print_topics(calls[i].wakes);
		printf("\t%s\n", calls[i].of);
	}
}

/* ---- words */

static bool is_digit(char c) { return c >= '0' && c <= '9'; }
static bool is_letter(char c) { return c >= 'a' && c <= 'z'; }

static const char *after_letters(const char *at)
{
	while (is_letter(*at) || *at == '_')
		at++;
	return at;
}

/* A space and a number in front of `at`, which it moves behind them; false if they aren't there. */
static bool take_number(const char **at, int64_t *number)
{
	const char *first = *at + 1, *end = first + (**at == ' ' && first[0] == '-');
	if (**at != ' ' || !is_digit(*end))
		return false;
	while (is_digit(*end))
		end++;
	*number = *first == '-' ? strtoll(first, NULL, 10) : (int64_t)strtoull(first, NULL, 10);
	*at = end;
	return true;
}

static bool take_hex(const char **at, uint64_t *number)
{
	const char *first = *at, *end = first;
	while (is_digit(*end) || (*end >= 'a' && *end <= 'f'))
		end++;
	*number = strtoull(first, NULL, 16);
	*at = end;
	return end != first;
}

static bool is_word(const char *from, const char *to, const char *word)
{
	return strlen(word) == (size_t)(to - from) && memcmp(from, word, to - from) == 0;
}

/* ---- forms */

static enum kind kind_of(const char *from, const char *to)
{
	static const char *const kinds[] = {
		[READ] = "read", [WRITE] = "write", [POLL] = "poll", [KEVENT] = "kevent", [SEMAPHORE] = "semaphore"};
	for (size_t i = 0; i < sizeof kinds / sizeof kinds[0]; i++)
		if (is_word(from, to, kinds[i]))
			return i;
	return OTHER;
}

/* `again KIND NUMBER [UNTIL]` */
static bool read_again(const char *at, struct question *q)
{
	const char *word = at + 1, *end = after_letters(word);
	if (*at != ' ' || end == word || memchr(word, '_', end - word) != NULL)
		return false;
	q->arguments[0] = kind_of(word, end);
	q->arguments[2] = -1;
	return take_number(&end, &q->arguments[1]) && (*end == 0 || take_number(&end, &q->arguments[2])) && *end == 0;
}

/* `enter CODE NAME NUMBER` */
static bool read_enter(const char *at, struct question *q)
{
	int64_t number;
	if (!take_number(&at, &q->arguments[0]) || *at != ' ')
		return false;
	const char *end = after_letters(at + 1);
	return end != at + 1 && memchr(at, '_', end - at) == NULL && take_number(&end, &number) && *end == 0;
}

/* `hello PROCESS THREAD BASE LANDS` */
static bool read_hello(const char *at, struct question *q)
{
	int64_t *a = q->arguments;
	uint64_t base;
	if (!take_number(&at, &a[0]) || a[0] < 0 || !take_number(&at, &a[1]) || a[1] < 0 || *at++ != ' ' || !take_hex(&at, &base))
		return false;
	a[2] = (int64_t)base;
	return take_number(&at, &a[3]) && a[3] >= 0 && a[3] <= 1 && *at == 0;
}

static enum reading read_call(const char *at, struct question *q)
{
	int count = 0;
	while (*at != 0 && count < ARGUMENTS && take_number(&at, &q->arguments[count]))
		count++;
	if (*at != 0)
		return FOREIGN_TEXT;
	if (q->call == NULL)
		return UNKNOWN;
	return count < q->call->least || count > q->call->most ? FOREIGN_TEXT : ASKS;
}

static enum reading read_text(struct question *q, const char *name_end)
{
	static const struct {
		const char *name;
		enum reading reading;
	} names[] = {{"broken", BROKEN}, {"refused", REFUSED}, {"outside", OUTSIDE}, {"remark", REMARKS}, {"ended", ENDS_CHILD},
		{"filter", HAS_FILTER}};
	for (size_t i = 0; i < sizeof names / sizeof names[0]; i++)
		if (is_word(q->text, name_end, names[i].name))
			return *name_end == ' ' && name_end[1] != 0 && strchr(name_end, '\n') == NULL ? names[i].reading : FOREIGN_TEXT;
	return UNKNOWN;
}

/* The question that a thread has sent; FOREIGN_TEXT for what the runtime doesn't say. */
enum reading read_question(char *line, struct question *q)
{
	const char *at = line;
	memset(q, 0, sizeof *q);
	if (!take_hex(&at, &q->where) || *at != ' ')
		return FOREIGN_TEXT;
	q->text = line + (at + 1 - line);
	const char *end = after_letters(q->text);
	q->words = line + (end - line) + (*end == ' ');
	enum reading reading = read_text(q, end);
	if (reading != UNKNOWN)
		return reading;
	if (is_word(q->text, end, "handled"))
		return read_call(end, q) == FOREIGN_TEXT ? FOREIGN_TEXT : HANDLED;
	for (size_t i = 0; i < N_CALLS && q->call == NULL; i++)
		if (is_word(q->text, end, calls[i].name))
			q->call = &calls[i];
	if (q->call == NULL)
		return read_call(end, q);
	if (q->call->body == again)
		return read_again(end, q) ? ASKS : FOREIGN_TEXT;
	if (q->call->body == enter_only)
		return read_enter(end, q) ? ASKS : FOREIGN_TEXT;
	if (q->call->body == hello)
		return read_hello(end, q) ? ASKS : FOREIGN_TEXT;
	if (q->call->body == poke)
		return read_call(end, q) == ASKS && q->arguments[0] >= COMPUTES && q->arguments[0] <= SPINS ? ASKS : FOREIGN_TEXT;
	return read_call(end, q);
}
