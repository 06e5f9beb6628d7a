/* A thread that has been asked to run, and hasn't asked anything yet: it is looked at each LOOK_MS.
 *
 * Patience is what the thread has had of a processor, or slept, whatever else the host does meanwhile. A look at one that can
 * go on, but has had no processor since the last look, or waits for a disk, counts a tenth. If it sleeps while another thread of
 * the run goes on, that one's time counts: of what a sanitizer starts to look for leaks, of a program without the runtime, or
 * of a thread that is about to end, and has a lock of the C library's. A host that is suspended takes none, since it makes no
 * looks. */
#include <dirent.h>
#include <fcntl.h>
#include <signal.h>
#include <stdlib.h>
#include <string.h>
#include <sys/syscall.h>
#include <unistd.h>
#include "run.h"

enum { LONGEST = 10 }; /* one without a processor, or that may have none, is waited for so many times longer */
enum { OTHERS = 256 }; /* of so many threads the host is asked */

static const double of_a_look = LOOK_MS / 1e3;
static const double until_poked = 2.5 * LOOK_MS / 1e3; /* three looks, while every thread of the run sleeps */

void watch_begin(struct watch *w, double patience) { *w = (struct watch){.left = patience, .own = -1, .others = -1}; }

/* What the host's kernel says of threads: a letter of proc(5), and their processor time in the kernel's ticks. */
struct seen {
	char letter; /* Z: there is none; Q: it is told as asleep, and may wait for a processor */
	long used;
};

static ssize_t read_of(int pid, int tid, const char *name, char *text, size_t room)
{
	char path[64];
	snprintf(path, sizeof path, "/proc/%d/task/%d/%s", pid, tid, name);
	int fd = open(path, O_RDONLY | O_CLOEXEC);
	ssize_t got = fd < 0 ? -1 : read(fd, text, room - 1);
	if (fd >= 0)
		close(fd);
	text[got > 0 ? got : 0] = 0;
	return got;
}

/* A thread that loses its processor in wait4(2), or as it is about to sleep, is told as asleep, but has no place where it does;
 * nor has one that the broker may not look into. */
static bool sleeps_somewhere(int pid, int tid)
{
	char text[128];
	return read_of(pid, tid, "wchan", text, sizeof text) < 0 || strcmp(text, "0") != 0;
}

static struct seen look_at(int pid, int tid)
{
	char text[1024], letter = 'Z';
	long user = 0, system = 0;
	read_of(pid, tid, "stat", text, sizeof text);
	const char *name_end = strrchr(text, ')');
	if (name_end != NULL)
		sscanf(name_end + 1, " %c %*d %*d %*d %*d %*d %*u %*u %*u %*u %*u %ld %ld", &letter, &user, &system);
	if (letter == 'D' && awaits_answer(tid))
		letter = 'S';
	else if (letter == 'S' && !sleeps_somewhere(pid, tid))
		letter = 'Q';
	return (struct seen){letter, user + system};
}

static bool goes_on(char letter) { return letter == 'R' || letter == 'D'; }

static void add_process(struct seen *all, int pid, int but, int *left);

static void add_children(struct seen *all, int pid, int tid, int but, int *left)
{
	char path[64];
	int child;
	snprintf(path, sizeof path, "/proc/%d/task/%d/children", pid, tid);
	FILE *list = fopen(path, "re");
	while (list != NULL && *left > 0 && fscanf(list, "%d", &child) == 1)
		add_process(all, child, but, left);
	if (list != NULL)
		fclose(list);
}

/* A process of the host's and all below it, `but` for a thread. */
static void add_process(struct seen *all, int pid, int but, int *left)
{
	char path[64];
	snprintf(path, sizeof path, "/proc/%d/task", pid);
	DIR *threads = opendir(path);
	for (struct dirent *entry; threads != NULL && *left > 0 && (entry = readdir(threads)) != NULL;) {
		const int tid = atoi(entry->d_name);
		if (tid == 0)
			continue;
		--*left;
		struct seen seen = tid == but ? (struct seen){'S', 0} : look_at(pid, tid);
		all->used += seen.used;
		if (goes_on(seen.letter) || (seen.letter == 'Q' && !goes_on(all->letter)))
			all->letter = seen.letter;
		add_children(all, pid, tid, but, left);
	}
	if (threads != NULL)
		closedir(threads);
}

/* Seconds of a processor since the last look, at most a look's own. */
static double had_since(long before, long now)
{
	double had = before < 0 || now < before ? 0 : (double)(now - before) / sysconf(_SC_CLK_TCK);
	return had < of_a_look ? had : of_a_look;
}

/* Whether the thread hangs. */
bool watch_look(struct watch *w, int real, int thread)
{
	const struct seen self = look_at(real, thread);
	struct seen others = {'S', 0};
	int left = OTHERS;
	double had = had_since(w->own, self.used);
	if (goes_on(self.letter))
		others.used = -1;
	else {
		add_process(&others, program_server(), thread, &left);
		had = goes_on(others.letter) ? had_since(w->others, others.used) : of_a_look;
		if (self.letter == 'Q' || others.letter == 'Q')
			had /= LONGEST;
	}
	w->asleep = self.letter == 'S' || self.letter == 'Q' ? w->asleep + had : 0;
	w->left -= had > of_a_look / LONGEST ? had : of_a_look / LONGEST;
	w->own = self.used, w->others = others.used;
	return w->left < 0;
}

/* The same; it pokes the thread if it sleeps. */
bool watch_poke(struct watch *w, const struct lwp *l)
{
	bool hangs = watch_look(w, l->process->real, l->real);
	if (!l->foreign && w->asleep > until_poked) {
		w->asleep = 0;
		syscall(SYS_tgkill, l->process->real, l->real, SIGRTMIN + 3);
	}
	return hangs;
}
