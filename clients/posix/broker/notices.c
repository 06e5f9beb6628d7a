/* Calls that come from elsewhere than a program of tracehost-cc and its libraries: the host's kernel keeps them waiting, and
 * tells of them by notifications of seccomp(2). One of a process of the model's is a call past the runtime, and ends the run.
 *
 * A program without the runtime, which an exec has made, is one computation of an LWP's, with all its own processes. Its
 * kill(2) is the model's: the LWP's process makes it, at its turn, and the program gets the answer. Only what it has made
 * itself may it signal in the host: its own processes have no numbers in the model. */
#include <errno.h>
#include <fcntl.h>
#include <linux/audit.h>
#include <poll.h>
#include <signal.h>
#include <stdlib.h>
#include <string.h>
#include <sys/ioctl.h>
#include <sys/socket.h>
#include <sys/syscall.h>
#include <unistd.h>
#include "../runtime/held.h"
#include "calls.h"
#include "notices.h"

enum held_kind { KILLS, SIGNALS_THREAD, QUEUES, PIDFD, FORKS, GROUPS, TRACES, READS, PRIORITY, OTHERS_PRIORITY, OWNER, HOST };
static const struct held {
	const char *name;
	int number, number_of_32;
	enum held_kind kind;
} table_of_held[] = {
#define HELD(name, number, number_of_32, kind) {#name, number, number_of_32, kind},
#include "../runtime/held.h"
	{"clone", SYS_clone, -1, FORKS},
	{"F_SETOWN", SYS_fcntl, -1, OWNER},
	{"FIOSETOWN", SYS_ioctl, -1, HOST},
};

/* By its flags a clone(2) of another kind than a fork is one that the C library makes in posix_spawn(3). */
static const char *name_of(const struct held *call, const struct seccomp_data *data)
{
	enum { VFORK = 0x4000 };
	return data->arch == AUDIT_ARCH_X86_64 && data->nr == SYS_clone && data->args[0] & VFORK ? "posix_spawn" : call->name;
}

static const struct held *held_of(const struct seccomp_data *data)
{
	for (size_t i = 0; i < sizeof table_of_held / sizeof table_of_held[0]; i++)
		if ((data->arch == AUDIT_ARCH_X86_64 ? table_of_held[i].number : table_of_held[i].number_of_32) == data->nr)
			return &table_of_held[i];
	broken("notice %d", data->nr);
}

static int listener = -1;
static LIST(struct notice) waiting; /* for their LWPs' turns, and answers */
static struct notice last; /* whose answer nobody has taken */
static int64_t last_answer;

void notices_of(int fd) { listener = fd; }

void notices_begin(void) { waiting.count = 0, last.id = 0; }

static struct lwp *foreign_of(const struct process *p)
{
	for (size_t i = 0; i < p->lists.lwps.count; i++)
		if (p->lists.lwps.at[i]->foreign)
			return p->lists.lwps.at[i];
	return NULL;
}

/* ---- answers */

enum { GOES_ON = 1 }; /* the host makes the call; else 0, or an errno by its negative */

static void answer_notice(const struct notice *n, int64_t said)
{
	struct seccomp_notif_resp response = {.id = n->id};
	if (said == GOES_ON)
		response.flags = SECCOMP_USER_NOTIF_FLAG_CONTINUE;
	else
		response.error = (int)said;
	last.id = 0;
	if (ioctl(listener, SECCOMP_IOCTL_NOTIF_SEND, &response) != 0 && errno == ENOENT)
		last = *n, last_answer = said; /* a signal has interrupted the call: it may come again */
}

/* The same call of the same thread, whose answer a signal has kept back. */
static bool is_again(const struct notice *n)
{
	return last.id != 0 && last.tid == n->tid && last.data.nr == n->data.nr &&
		   memcmp(last.data.args, n->data.args, sizeof n->data.args) == 0;
}

static _Noreturn void outside(const struct process *p, int tid, const char *call, const char *file, uint64_t where)
{
	struct lwp *l = p->lists.lwps.at[0];
	for (size_t i = 0; i < p->lists.lwps.count; i++)
		if (p->lists.lwps.at[i]->real == tid)
			l = p->lists.lwps.at[i];
	l->where = where;
	snprintf(l->asked, sizeof l->asked, "outside %s", call);
	blame(l, "");
	failed("outside %d %d %s %s", p->pid, l->tid, call, file);
}

/* What isn't an errno: a number that the call returns. */
void answer_with(const struct notice *n, int64_t value)
{
	struct seccomp_notif_resp response = {.id = n->id, .val = value};
	ioctl(listener, SECCOMP_IOCTL_NOTIF_SEND, &response);
}

int give_descriptor(const struct notice *n, int fd)
{
	struct seccomp_notif_addfd added = {.id = n->id, .srcfd = (unsigned)fd};
	const int number = ioctl(listener, SECCOMP_IOCTL_NOTIF_ADDFD, &added);
	close(fd);
	return number;
}

/* FreeBSD's number of a signal of the host's; -1 if there is none. */
static int signal_of(int64_t host)
{
	/* tools/format signals */
	/* clang-format off */
	static const int signals[] = {[0] = 0,
		[SIGHUP] = 1, [SIGINT] = 2, [SIGQUIT] = 3, [SIGILL] = 4, [SIGTRAP] = 5, [SIGABRT] = 6, [SIGFPE] = 8,
		[SIGKILL] = 9, [SIGBUS] = 10, [SIGSEGV] = 11, [SIGSYS] = 12, [SIGPIPE] = 13, [SIGALRM] = 14, [SIGTERM] = 15,
		[SIGURG] = 16, [SIGSTOP] = 17, [SIGTSTP] = 18, [SIGCONT] = 19, [SIGCHLD] = 20, [SIGTTIN] = 21, [SIGTTOU] = 22,
		[SIGIO] = 23, [SIGXCPU] = 24, [SIGXFSZ] = 25, [SIGVTALRM] = 26, [SIGPROF] = 27, [SIGWINCH] = 28, [SIGUSR1] = 30,
		[SIGUSR2] = 31};
	/* clang-format on */
	/* end */
	const int count = sizeof signals / sizeof signals[0];
	return host >= 0 && host < count && (host == 0 || signals[host] != 0) ? signals[host] : -1;
}

int host_signal_of(int number)
{
	for (int host = 1; host < SIGRTMIN; host++)
		if (signal_of(host) == number)
			return host;
	return SIGKILL;
}

/* ---- what a program without the runtime calls */

/* It signals a process that it has made. That is still the same one if its descriptor can be had before it is looked up. */
static int64_t signal_own(const struct process *p, int pid, int64_t number)
{
	int fd = (int)syscall(SYS_pidfd_open, pid, 0);
	if (fd < 0)
		return -errno;
	int64_t result = !descends_from(pid, p) ? -ESRCH : syscall(SYS_pidfd_send_signal, fd, number, NULL, 0) != 0 ? -errno : 0;
	close(fd);
	return result;
}

/* The number is, or was, a process's of this run. */
static bool is_of_model(int64_t pid)
{
	for (size_t i = 0; i < table.n_processes; i++)
		if (table.all_processes.at[i]->pid == pid)
			return true;
	return false;
}

/* The model's kill(2), by the LWP's process. */
static int64_t kill_by_model(struct lwp *l, const struct notice *n, int64_t which, int64_t host_signal)
{
	int number = signal_of(host_signal);
	if (number < 0) {
		remark("%s has sent signal %lld of the host's, which FreeBSD hasn't: EINVAL", file_of(n->pid), (long long)host_signal);
		return -EINVAL;
	}
	int64_t error = ask_for(l, "0 kill %lld %d", (long long)which, number);
	if (error == ESRCH && !is_of_model(which))
		remark("%s has sent a signal to %lld, but the model has no such process: ESRCH", file_of(n->pid), (long long)which);
	return -error;
}

static int64_t kills(struct lwp *l, const struct notice *n)
{
	const struct process *p = l->process;
	int64_t which = (int32_t)n->data.args[0], number = (int32_t)n->data.args[1];
	const struct process *started = which > 1 ? started_as((int)which) : NULL;
	if (started != NULL && is_of_model(which))
		broken("both %d %s", (int)which, file_of(n->pid));
	if (started != NULL)
		return kill_by_model(l, n, started->pid, number);
	bool is_own = which > 1 && descends_from((int)which, p);
	if (is_own && is_of_model(which))
		broken("both %d %s", (int)which, file_of(n->pid));
	if (which == p->real) /* the program's parent in the host is its own process of the model */
		which = p->parent;
	int group = which < -1 ? (int)-which : 0;
	if (group != 0 && descends_from(group, p) && getpgid(group) == group)
		return GOES_ON;
	if (is_own)
		return which == n->pid ? GOES_ON : signal_own(p, (int)which, number);
	return kill_by_model(l, n, which, number);
}

static bool has_thread(const struct notice *n, int64_t tid) { return status_of((int)tid, "Tgid:") == n->pid; }

static int64_t not_there(const struct notice *n, const struct held *call)
{
	remark("%s has called %s, which isn't the model's: ENOSYS", file_of(n->pid), call->name);
	return -ENOSYS;
}

static int64_t not_own(const struct notice *n, const struct held *call, int64_t pid)
{
	remark("%s has called %s on %lld, which isn't its own: EPERM", file_of(n->pid), call->name, (long long)pid);
	return -EPERM;
}

static int64_t answer_of(struct lwp *l, const struct notice *n)
{
	const struct held *call = held_of(&n->data);
	const int64_t first = (int32_t)n->data.args[0], second = (int32_t)n->data.args[1];
	const int third = (int32_t)n->data.args[2];
	switch (call->kind) {
	case KILLS: return kills(l, n);
	case FORKS: return GOES_ON;
	case SIGNALS_THREAD:
		if (strcmp(call->name, "tgkill") == 0 ? first == n->pid : has_thread(n, first))
			return GOES_ON;
		return not_there(n, call);
	case QUEUES: return first == n->pid ? GOES_ON : not_there(n, call);
	case PIDFD: return not_there(n, call);
	case OWNER:
		if (second == F_SETOWN && (third == 0 || descends_from(abs(third), l->process)))
			return GOES_ON;
		break;
	case READS:
		if (first == n->pid)
			return GOES_ON;
		break;
	case PRIORITY:
		return first == 0 || has_thread(n, first) || descends_from((int)first, l->process) ? GOES_ON : not_own(n, call, first);
	case OTHERS_PRIORITY:
		return first <= 1 && (second == 0 || has_thread(n, second) || descends_from((int)second, l->process))
				   ? GOES_ON
				   : not_own(n, call, second);
	default: break;
	}
	outside(l->process, 0, call->name, file_of(n->pid), 0);
}

/* What a process of the model's may call from elsewhere: in a later image, whose libraries have other addresses. */
static bool is_allowed(const struct notice *n, const struct held *call, const struct process *p, const char *file)
{
	if (call->kind == PRIORITY || call->kind == OTHERS_PRIORITY) {
		int64_t whose = (int32_t)n->data.args[call->kind == OTHERS_PRIORITY];
		return n->pid == p->real && (whose == 0 || has_thread(n, whose));
	}
	if (call->kind == QUEUES) /* aio_read(3) sends signal 0, which is none */
		return n->pid == p->real && (int32_t)n->data.args[0] == p->real && (int32_t)n->data.args[1] == 0;
	return (call->kind == FORKS || call->kind == TRACES || call->kind == SIGNALS_THREAD) && is_sanitizer(file);
}

/* ---- notices */

/* The next call that waits for its answer, if there is one; false also if it has gone. */
static bool receive_notice(struct notice *n)
{
	union {
		struct seccomp_notif notif;
		char room[256]; /* later kernels have a larger one */
	} u;
	struct pollfd ready = {.fd = listener, .events = POLLIN};
	memset(&u, 0, sizeof u);
	if (poll(&ready, 1, 0) <= 0 || !(ready.revents & POLLIN) || ioctl(listener, SECCOMP_IOCTL_NOTIF_RECV, &u.notif) != 0)
		return false;
	*n = (struct notice){
		.id = u.notif.id, .tid = (int)u.notif.pid, .pid = status_of((int)u.notif.pid, "Tgid:"), .data = u.notif.data};
	return n->pid > 0 && ioctl(listener, SECCOMP_IOCTL_NOTIF_ID_VALID, &n->id) == 0;
}

/* Its maker has ended. */
static void answer_orphan(const struct notice *n, const struct held *call)
{
	if (is_proxy(n))
		end_proxy(NULL, n);
	else if (is_behind(n))
		failed("behind %s", file_of(n->pid));
	else if (call->kind == FORKS)
		answer_notice(n, GOES_ON);
	else {
		remark("%s has called %s after its end in the model: EPERM", file_of(n->pid), call->name);
		answer_notice(n, -EPERM);
	}
}

static unsigned long taken; /* notices, in all */

static void take_notice(struct notice *n)
{
	const struct held *call = held_of(&n->data);
	struct process *p = maker_of(n->pid);
	if (is_again(n)) {
		answer_notice(n, last_answer);
		return;
	}
	if (p == NULL) {
		answer_orphan(n, call);
		return;
	}
	n->lwp = foreign_of(p);
	if (n->lwp != NULL && call->kind == FORKS)
		answer_notice(n, GOES_ON);
	else if (n->lwp != NULL)
		APPEND(&waiting, *n);
	else if (is_proxy(n))
		end_proxy(NULL, n);
	else if (is_behind(n))
		failed("behind %s", file_of(n->pid));
	else {
		uint64_t loaded, where = n->data.instruction_pointer;
		const char *found = file_at(n->pid, where, &loaded), *file = found != NULL ? found : "an unknown place";
		if (!is_allowed(n, call, p, file))
			outside(p, n->tid, name_of(call, &n->data), file, where);
		p->looks_for_leaks |= call->kind == FORKS;
		answer_notice(n, GOES_ON);
	}
}

/* Those that have come. */
void take_notices(void)
{
	struct notice n;
	for (; listener >= 0 && receive_notice(&n); taken++)
		take_notice(&n);
}

/* ---- a program without the runtime computes */

/* Whether its processes wait, at two looks: one may be about to be woken. */
enum rest rest_now(const struct lwp *l)
{
	enum { BETWEEN_US = 500 };
	const unsigned long before = taken;
	enum rest first = rest_of(l->process);
	if (first == RUNS_ON)
		return RUNS_ON;
	usleep(BETWEEN_US);
	enum rest second = rest_of(l->process);
	take_notices();
	return taken != before ? RUNS_ON : second < first ? second : first;
}

/* It has ended, and its process says so. */
bool is_over(const struct lwp *l)
{
	static const char exit[] = "0 exit ";
	char text[sizeof exit] = "";
	return recv(l->fd, text, sizeof text - 1, MSG_PEEK | MSG_DONTWAIT) > 0 && strcmp(text, exit) == 0;
}

/* In which order its processes' calls are answered that are the model's, so that this doesn't depend on the host: new
 * processes first, and an image that takes the LWP up last. Before them comes what isn't the model's. */
enum rank { AT_ONCE, STARTS, SIGNALS, ENDS_ONE, REPLACES, NOT_YET };

static enum rank rank_of(const struct notice *n)
{
	if (is_behind(n))
		return replaces(n) ? REPLACES : STARTS;
	if (is_proxy(n))
		return may_end(n) ? ENDS_ONE : NOT_YET;
	return held_of(&n->data)->kind == KILLS ? SIGNALS : AT_ONCE;
}

/* The place of the next one for this LWP, whose computation goes on; -1 for none now. */
static long next_notice(const struct lwp *l)
{
	long best = -1;
	enum rank least = NOT_YET;
	for (size_t i = 0; i < waiting.count; i++) {
		const struct notice *n = &waiting.at[i];
		enum rank rank = n->lwp == l && !n->answered ? rank_of(n) : NOT_YET;
		if (rank < least ||
			(rank == least && rank != NOT_YET && rank != AT_ONCE && compare_by_age(n->pid, waiting.at[best].pid, l->process) < 0))
			best = (long)i, least = rank;
	}
	if (best < 0 || least == AT_ONCE)
		return best;
	return rest_now(l) != RUNS_ON && (least != REPLACES || !is_over(l)) ? best : -1;
}

/* The host's kernel says of such a thread that it waits for a disk, if a signal has come meanwhile. */
bool awaits_answer(int tid)
{
	for (size_t i = 0; i < waiting.count; i++)
		if (waiting.at[i].tid == tid)
			return true;
	return false;
}

static void forget_notice(uint64_t id)
{
	for (size_t i = waiting.count; i-- > 0;)
		if (waiting.at[i].id == id)
			TAKE_OUT(&waiting, i);
}

/* Those of the LWP's computation, as they come. */
void answer_notices(struct lwp *l)
{
	take_notices();
	for (long next; l->foreign && (next = next_notice(l)) >= 0; take_notices()) {
		const struct notice n = waiting.at[next];
		waiting.at[next].answered = true;
		if (is_behind(&n))
			take_up(l, &n);
		else if (is_proxy(&n))
			end_proxy(l, &n);
		else
			answer_notice(&n, answer_of(l, &n));
		forget_notice(n.id);
	}
}

bool has_due(const struct lwp *l)
{
	for (size_t i = 0; i < waiting.count; i++)
		if (waiting.at[i].lwp == l && !waiting.at[i].answered && rank_of(&waiting.at[i]) != NOT_YET)
			return true;
	return false;
}

bool wait_for_notice(const struct lwp *l, int milliseconds)
{
	struct pollfd ready[] = {{.fd = listener, .events = POLLIN}, {.fd = l != NULL ? l->fd : -1, .events = POLLIN}};
	return poll(ready, 2, milliseconds) > 0;
}
