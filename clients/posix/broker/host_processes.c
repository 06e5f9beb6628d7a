/* What proc(5) tells of the host's processes: whose they are, and whether a program without the runtime waits. */
#include <dirent.h>
#include <fcntl.h>
#include <signal.h>
#include <stdlib.h>
#include <string.h>
#include <sys/mman.h>
#include <sys/stat.h>
#include <sys/syscall.h>
#include <unistd.h>
#include "notices.h"

enum { TEXT = 4096 };

/* The file `name` of /proc/PID; its length, -1 if it can't be read. */
static ssize_t read_of(int pid, const char *name, char text[TEXT])
{
	char path[96];
	snprintf(path, sizeof path, "/proc/%d/%s", pid, name);
	int fd = open(path, O_RDONLY | O_CLOEXEC);
	ssize_t got = fd < 0 ? -1 : read(fd, text, TEXT - 1);
	if (fd >= 0)
		close(fd);
	text[got > 0 ? got : 0] = 0;
	return got;
}

/* A number of proc(5)'s `status`; -1 if there is no such process. */
int status_of(int pid, const char *name)
{
	char path[64], line[256];
	int number = -1;
	snprintf(path, sizeof path, "/proc/%d/status", pid);
	FILE *file = fopen(path, "re");
	while (file != NULL && fgets(line, sizeof line, file) != NULL)
		if (strncmp(line, name, strlen(name)) == 0) {
			number = atoi(line + strlen(name));
			break;
		}
	if (file != NULL)
		fclose(file);
	return number;
}

struct process *process_with(int real)
{
	for (EACH_PROCESS(p))
		if (table.processes.at[p_at]->real == real && !table.processes.at[p_at]->collected)
			return table.processes.at[p_at];
	return NULL;
}

/* The process of the model's that this one descends from, or is; NULL for none. */
struct process *maker_of(int pid)
{
	for (; pid > 1; pid = status_of(pid, "PPid:")) {
		struct process *p = process_with(pid);
		if (p != NULL)
			return p;
	}
	return NULL;
}

bool descends_from(int pid, const struct process *p) { return pid > 1 && pid != p->real && maker_of(pid) == p; }

const char *file_of(int pid)
{
	static char file[2048];
	char path[64];
	snprintf(path, sizeof path, "/proc/%d/exe", pid);
	ssize_t length = readlink(path, file, sizeof file - 1);
	file[length > 0 ? length : 0] = 0;
	return length > 0 ? file : "a program";
}

/* The file with this instruction, and where it is loaded; NULL for none. */
const char *file_at(int pid, uint64_t address, uint64_t *loaded)
{
	static char file[2048], last[2048];
	char path[64], *line = NULL;
	unsigned long from, to;
	int at = 0;
	size_t room = 0;
	bool found = false;
	snprintf(path, sizeof path, "/proc/%d/maps", pid);
	FILE *maps = fopen(path, "re");
	for (last[0] = 0; maps != NULL && !found && getline(&line, &room, maps) > 0;) {
		if (sscanf(line, "%lx-%lx %*s %*s %*s %*s %n", &from, &to, &at) != 2)
			continue;
		snprintf(file, sizeof file, "%.*s", (int)strcspn(line + at, "\n"), line + at);
		if (strcmp(file, last) != 0)
			*loaded = from;
		strcpy(last, file);
		found = address >= from && address < to && file[0] == '/';
	}
	free(line);
	if (maps != NULL)
		fclose(maps);
	return found ? file : NULL;
}

/* With clang a sanitizer is a part of the program. */
bool is_sanitizer(const char *file)
{
	static const char name[] = "__sanitizer_set_death_callback";
	struct stat of;
	int fd = open(file, O_RDONLY | O_CLOEXEC);
	bool is = strstr(file, "san.so") != NULL;
	if (fd >= 0 && !is && fstat(fd, &of) == 0) {
		void *text = mmap(NULL, of.st_size, PROT_READ, MAP_PRIVATE, fd, 0);
		is = text != MAP_FAILED && memmem(text, of.st_size, name, strlen(name)) != NULL;
		if (text != MAP_FAILED)
			munmap(text, of.st_size);
	}
	if (fd >= 0)
		close(fd);
	return is;
}

/* ---- the processes of a program without the runtime */

/* A process of the model's, one that has ended and isn't collected too. */
static bool is_of_run(int real)
{
	for (size_t i = 0; i < table.n_processes; i++)
		if (table.all_processes.at[i]->real == real && !table.all_processes.at[i]->collected)
			return true;
	return false;
}

/* Whether the process of the host is the one that the LWP's exec has become: later ones are orphans that came to its process. */
bool is_first_child(int pid, const struct process *p)
{
	char name[64], text[TEXT];
	snprintf(name, sizeof name, "task/%d/children", p->real);
	read_of(p->real, name, text);
	for (char *at = text, *next; *at != 0; at = next) {
		int child = (int)strtol(at, &next, 10);
		if (next == at)
			break;
		if (!is_of_run(child))
			return child == pid;
	}
	return false;
}

static unsigned long long began(int pid)
{
	char text[TEXT];
	unsigned long long at = 0;
	read_of(pid, "stat", text);
	const char *name_end = strrchr(text, ')');
	if (name_end != NULL)
		sscanf(name_end + 1, " %*c %*d %*d %*d %*d %*d %*u %*u %*u %*u %*u %*d %*d %*d %*d %*d %*d %*d %*d %llu", &at);
	return at;
}

enum { DEPTH = 64 };

/* From the process's child on down to this one: how many. */
static int line_of(int pid, const struct process *p, int line[DEPTH])
{
	int count = 0;
	for (; pid > 1 && pid != p->real && count < DEPTH; pid = status_of(pid, "PPid:"))
		line[count++] = pid;
	for (int i = 0; i < count / 2; i++) {
		int other = line[i];
		line[i] = line[count - 1 - i], line[count - 1 - i] = other;
	}
	return count;
}

/* Which of two was made first, as their makers are ordered: it doesn't depend on how fast the host has run them. */
int compare_by_age(int a, int b, const struct process *p)
{
	int first[DEPTH], second[DEPTH], i = 0;
	int count = line_of(a, p, first), others = line_of(b, p, second);
	while (i < count && i < others && first[i] == second[i])
		i++;
	if (i == count || i == others)
		return count - others;
	unsigned long long then = began(first[i]), later = began(second[i]);
	return then != later ? (then < later ? -1 : 1) : first[i] - second[i];
}

/* ---- whether they wait */

/* In the host's numbers; of rt_sigsuspend one that catches SIGALRM may end by itself. */
static bool awaits_child(int pid, int tid)
{
	char name[64], text[TEXT];
	unsigned long long catches = 0;
	snprintf(name, sizeof name, "task/%d/syscall", tid);
	if (read_of(pid, name, text) <= 0)
		return false;
	const int number = (int)strtol(text, NULL, 10);
	if (number == SYS_rt_sigsuspend && read_of(pid, "status", text) > 0) {
		const char *caught = strstr(text, "\nSigCgt:");
		return caught != NULL && sscanf(caught + 8, "%llx", &catches) == 1 && !(catches >> (SIGALRM - 1) & 1);
	}
	return number == SYS_wait4 || number == SYS_waitid || number == SYS_pidfd_send_signal; /* the last one is a proxy's */
}

static enum rest rest_of_thread(int pid, int tid)
{
	char name[64], text[TEXT], letter = 'Z';
	snprintf(name, sizeof name, "task/%d/stat", tid);
	read_of(pid, name, text);
	const char *name_end = strrchr(text, ')');
	if (name_end != NULL)
		sscanf(name_end + 1, " %c", &letter);
	if (strchr("ZXx", letter) != NULL)
		return AWAITS_CHILDREN;
	if (letter == 'D' && awaits_answer(tid))
		letter = 'S';
	if (strchr("STtI", letter) == NULL)
		return RUNS_ON;
	return letter == 'S' && awaits_child(pid, tid) ? AWAITS_CHILDREN : RESTS;
}

static enum rest least(enum rest a, enum rest b) { return a < b ? a : b; }
static enum rest rest_of_tree(int pid);

static enum rest rest_of_children(int pid, int tid)
{
	char name[64], text[TEXT], *next;
	enum rest all = AWAITS_CHILDREN;
	snprintf(name, sizeof name, "task/%d/children", tid);
	read_of(pid, name, text);
	for (long child; all != RUNS_ON && (child = strtol(text, &next, 10)) > 0; memmove(text, next, strlen(next) + 1))
		if (!is_of_run((int)child))
			all = least(all, rest_of_tree((int)child));
	return all;
}

/* Without what has become a process of the model. */
static enum rest rest_of_tree(int pid)
{
	char path[64];
	enum rest all = AWAITS_CHILDREN;
	snprintf(path, sizeof path, "/proc/%d/task", pid);
	DIR *threads = opendir(path);
	for (struct dirent *entry; threads != NULL && all != RUNS_ON && (entry = readdir(threads)) != NULL;) {
		const int tid = atoi(entry->d_name);
		if (tid > 0)
			all = least(least(all, rest_of_thread(pid, tid)), rest_of_children(pid, tid));
	}
	if (threads != NULL)
		closedir(threads);
	return all;
}

/* Of all processes of the program that is the computation of one of this process's LWPs. */
enum rest rest_of(const struct process *p) { return rest_of_tree(p->real); }
