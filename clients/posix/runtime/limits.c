/* getrlimit(2) and setrlimit(2). Limits that the runtime would come up against too are kept here, as what the program has
 * set: descriptors and memory are limited in the host as well, except while the runtime needs some; how many processes there
 * may be the broker is told at each fork; and how long a file may be write(2) looks at. */
#define _GNU_SOURCE
#include <fcntl.h>
#include <poll.h>
#include <stdio.h>
#include <sys/resource.h>
#include <sys/stat.h>
#include <unistd.h>
#include "freebsd.h"
#include "runtime.h"

enum place { FILES, MEMORY, DATA, PROCESSES, LENGTH, KEPT };
static const int resources[KEPT] = {
	[FILES] = RLIMIT_NOFILE, [MEMORY] = RLIMIT_AS, [DATA] = RLIMIT_DATA, [PROCESSES] = RLIMIT_NPROC, [LENGTH] = RLIMIT_FSIZE};

static struct kept {
	int is_set;
	struct rlimit limit;
} kept[KEPT];
static int lifted; /* how many calls of the runtime need more */
static char changing; /* a thread that begins needs memory while the one that has made it goes on */

/* The host's number of a limit; -1 if it has none. */
static int host_limit(int number)
{
	static const struct {
		int number, host;
	} limits[] = {{BSD_RLIMIT_CPU, RLIMIT_CPU}, {BSD_RLIMIT_FSIZE, RLIMIT_FSIZE}, {BSD_RLIMIT_DATA, RLIMIT_DATA},
		{BSD_RLIMIT_STACK, RLIMIT_STACK}, {BSD_RLIMIT_CORE, RLIMIT_CORE}, {BSD_RLIMIT_RSS, RLIMIT_RSS},
		{BSD_RLIMIT_MEMLOCK, RLIMIT_MEMLOCK}, {BSD_RLIMIT_NPROC, RLIMIT_NPROC}, {BSD_RLIMIT_NOFILE, RLIMIT_NOFILE},
		{BSD_RLIMIT_AS, RLIMIT_AS}};
	for (size_t i = 0; i < sizeof limits / sizeof limits[0]; i++)
		if (limits[i].number == number)
			return limits[i].host;
	if (number >= 0 && number < BSD_RLIMITS)
		tracehost_say("getrlimit, setrlimit: the host hasn't FreeBSD's limit %d (EINVAL)", number);
	return -1;
}

static rlim_t to_host(rlim_t limit) { return limit >= BSD_RLIM_INFINITY ? RLIM_INFINITY : limit; }
static rlim_t to_program(rlim_t limit) { return limit >= BSD_RLIM_INFINITY ? BSD_RLIM_INFINITY : limit; }

static struct kept *kept_of(int resource)
{
	for (int i = 0; i < KEPT; i++)
		if (resources[i] == resource)
			return &kept[i];
	return NULL;
}

static rlim_t least(rlim_t a, rlim_t b) { return a < b ? a : b; }

/* In the host: what the program has asked for, or as much as there is. What the runtime has of the memory is beside it. */
static void set_in_host(enum place place, int as_asked)
{
	struct rlimit limit;
	rlim_t asked = kept[place].limit.rlim_cur, own_part = place == FILES ? 0 : tracehost_memory_of_stacks();
	if (!kept[place].is_set || getrlimit(resources[place], &limit) != 0)
		return;
	if (place == FILES)
		asked = least(asked, DESCRIPTORS);
	else if (asked != RLIM_INFINITY)
		asked += own_part;
	limit.rlim_cur = as_asked ? least(asked, limit.rlim_max) : place == FILES ? least(DESCRIPTORS, limit.rlim_max) : limit.rlim_max;
	setrlimit(resources[place], &limit);
}

static void set_all_in_host(int as_asked)
{
	int saved = errno;
	set_in_host(FILES, as_asked);
	set_in_host(MEMORY, as_asked);
	set_in_host(DATA, as_asked);
	errno = saved;
}

/* No poke comes meanwhile: another thread that goes on would wait for this one. */
static void lift(int by)
{
	const int busy = own.busy;
	own.busy = 1;
	while (__atomic_test_and_set(&changing, __ATOMIC_ACQUIRE))
		;
	lifted += by;
	if (lifted == (by > 0))
		set_all_in_host(lifted == 0);
	__atomic_clear(&changing, __ATOMIC_RELEASE);
	own.busy = busy;
}

void tracehost_lift_limits(void) { lift(1); }
void tracehost_lower_limits(void) { lift(-1); }

void tracehost_limits_of_child(void)
{
	lifted = 0, changing = 0;
	set_all_in_host(1);
}

/* ---- the program's calls */

int tracehost_getrlimit(__rlimit_resource_t number, struct rlimit *to)
{
	const int resource = host_limit((int)number);
	const struct kept *own_limit = kept_of(resource);
	struct rlimit limit;
	ask("call %d", SYSCALL_GETRLIMIT);
	if (own_limit != NULL && own_limit->is_set)
		limit = own_limit->limit;
	else if (getrlimit(resource, &limit) != 0)
		return -1;
	*to = (struct rlimit){to_program(limit.rlim_cur), to_program(limit.rlim_max)};
	return 0;
}

int tracehost_setrlimit(__rlimit_resource_t number, const struct rlimit *to)
{
	const int resource = host_limit((int)number);
	struct kept *own_limit = kept_of(resource);
	struct rlimit before;
	const struct rlimit wanted = {to_host(to->rlim_cur), to_host(to->rlim_max)};
	ask("call %d", SYSCALL_SETRLIMIT);
	if (own_limit == NULL)
		return setrlimit(resource, &wanted);
	if (own_limit->is_set)
		before = own_limit->limit;
	else if (getrlimit(resource, &before) != 0)
		return -1;
	if (wanted.rlim_cur > wanted.rlim_max || wanted.rlim_max > before.rlim_max) {
		errno = wanted.rlim_cur > wanted.rlim_max ? EINVAL : EPERM;
		return -1;
	}
	*own_limit = (struct kept){1, wanted};
	lift(0);
	return 0;
}

int tracehost_prlimit(pid_t pid, __rlimit_resource_t resource, const struct rlimit *to, struct rlimit *before)
{
	if (pid != 0 && pid != own_pid) {
		tracehost_say("the limits of process %d aren't in the model (ESRCH)", pid);
		errno = ESRCH;
		return -1;
	}
	if (before != NULL && tracehost_getrlimit(resource, before) != 0)
		return -1;
	return to != NULL ? tracehost_setrlimit(resource, to) : 0;
}

/* ---- what they mean for the runtime */

/* How many processes of the user there may be, for a fork: 0 for any number. The caller is one. */
unsigned long tracehost_most_processes(void)
{
	const struct kept *most = &kept[PROCESSES];
	if (!most->is_set || most->limit.rlim_cur == RLIM_INFINITY)
		return 0;
	return most->limit.rlim_cur > 0 ? most->limit.rlim_cur : 1;
}

/* So many of these bytes the file may have; what the program prints is the run's. */
size_t tracehost_room_in(int fd, size_t count)
{
	struct stat of;
	const rlim_t most = kept[LENGTH].limit.rlim_cur;
	if (!kept[LENGTH].is_set || most == RLIM_INFINITY || fstat(fd, &of) != 0 || !S_ISREG(of.st_mode) || tracehost_is_standard(&of))
		return count;
	off_t at = fcntl(fd, F_GETFL) & O_APPEND ? of.st_size : lseek(fd, 0, SEEK_CUR);
	if (at < 0)
		return count;
	return (rlim_t)at >= most ? 0 : (size_t)least(count, most - (rlim_t)at);
}

int tracehost_open(const char *path, int flags)
{
	tracehost_lift_limits();
	int fd = open(path, flags);
	tracehost_lower_limits();
	return fd;
}

/* poll(2) takes no more descriptors than a process may open. */
int tracehost_look(struct pollfd *ready)
{
	tracehost_lift_limits();
	int got = poll(ready, 1, 0);
	tracehost_lower_limits();
	return got;
}

/* ---- an exec: PLACE:SOFT:HARD of each that is set, for the next image; a program without the runtime has the host's */

void tracehost_write_limits(char *text, size_t room)
{
	size_t length = 0;
	text[0] = 0;
	for (int i = 0; i < KEPT; i++)
		if (kept[i].is_set)
			length += (size_t)snprintf(text + length, room - length, " %d:%llx:%llx", i, (unsigned long long)kept[i].limit.rlim_cur,
				(unsigned long long)kept[i].limit.rlim_max);
}

void tracehost_read_limits(const char *text)
{
	unsigned long long soft, hard;
	int place, length;
	while (sscanf(text, " %d:%llx:%llx%n", &place, &soft, &hard, &length) == 3 && place >= 0 && place < KEPT) {
		kept[place] = (struct kept){1, {(rlim_t)soft, (rlim_t)hard}};
		text += length;
	}
}

void tracehost_give_limits(void)
{
	for (int i = 0; i < KEPT; i++)
		if (kept[i].is_set)
			setrlimit(resources[i], &kept[i].limit);
}
