/* A program as a server of processes: it is started once, and forks a process for each run. */
#include <errno.h>
#include <fcntl.h>
#include <signal.h>
#include <spawn.h>
#include <stdlib.h>
#include <string.h>
#include <sys/personality.h>
#include <sys/socket.h>
#include <sys/stat.h>
#include <sys/time.h>
#include <sys/wait.h>
#include <unistd.h>
#include "run.h"

extern char **environ;
static int control = -1;
static pid_t server;
static int filters; /* -1: the host doesn't count them */
static bool has_printed;

int socket_pair(int *given)
{
	int ends[2];
	struct timeval look = {0, LOOK_MS * 1000};
	const int yes = 1;
	if (socketpair(AF_UNIX, SOCK_SEQPACKET | SOCK_CLOEXEC, 0, ends) != 0)
		broken("host socketpair: %s", strerror(errno));
	setsockopt(ends[0], SOL_SOCKET, SO_RCVTIMEO, &look, sizeof look);
	setsockopt(ends[0], SOL_SOCKET, SO_PASSCRED, &yes, sizeof yes);
	*given = ends[1];
	return ends[0];
}

/* Sends a message with a descriptor, which is closed here. */
bool send_with(int to, const char *text, int fd)
{
	union {
		char space[CMSG_SPACE(sizeof(int))];
		struct cmsghdr align;
	} u = {{0}};
	struct iovec part = {(void *)text, strlen(text)};
	struct msghdr message = {.msg_iov = &part, .msg_iovlen = 1, .msg_control = u.space, .msg_controllen = sizeof u.space};
	struct cmsghdr *header = CMSG_FIRSTHDR(&message);
	ssize_t sent;
	header->cmsg_level = SOL_SOCKET, header->cmsg_type = SCM_RIGHTS, header->cmsg_len = CMSG_LEN(sizeof fd);
	memcpy(CMSG_DATA(header), &fd, sizeof fd);
	do
		sent = sendmsg(to, &message, MSG_NOSIGNAL | MSG_DONTWAIT);
	while (sent < 0 && errno == EINTR);
	const int error = errno;
	close(fd);
	errno = error;
	return sent >= 0;
}

/* A descriptor that nobody awaits is closed. */
static void take_given(const struct cmsghdr *header, int *given)
{
	int fd;
	memcpy(&fd, CMSG_DATA(header), sizeof fd);
	if (given != NULL && *given < 0)
		*given = fd;
	else
		close(fd);
}

/* The server's message: its length. A descriptor may be `given` with it. A server that the program has stopped goes on. */
static ssize_t hear_server(char *line, size_t room, int *given)
{
	union {
		char space[CMSG_SPACE(sizeof(struct ucred)) + CMSG_SPACE(sizeof *given)];
		struct cmsghdr align;
	} u;
	struct iovec part = {line, room};
	double patience = options.patience > ENDING_S ? options.patience : ENDING_S;
	struct watch watch;
	watch_begin(&watch, patience);
	do {
		struct msghdr message = {.msg_iov = &part, .msg_iovlen = 1, .msg_control = u.space, .msg_controllen = sizeof u.space};
		struct ucred from = {0};
		bool is_said = false; /* an end of the socket is said by nobody; who is outside of this namespace has the number 0 */
		ssize_t got = recvmsg(control, &message, MSG_CMSG_CLOEXEC);
		for (struct cmsghdr *header = got >= 0 ? CMSG_FIRSTHDR(&message) : NULL; header != NULL;
			 header = CMSG_NXTHDR(&message, header)) {
			if (header->cmsg_type == SCM_CREDENTIALS) {
				memcpy(&from, CMSG_DATA(header), sizeof from);
				is_said = true;
			} else
				take_given(header, given);
		}
		if (is_said && (from.pid != server || got == 0 || message.msg_flags & MSG_TRUNC))
			broken("control");
		if (got >= 0 || (errno != EAGAIN && errno != EINTR))
			return got;
		end_if_python_is_gone();
		kill(server, SIGCONT);
	} while (!watch_look(&watch, server, server));
	kill(server, SIGKILL);
	broken("server %g", patience);
}

/* ---- its start */

static posix_spawn_file_actions_t files_of_server(int given)
{
	posix_spawn_file_actions_t files;
	posix_spawn_file_actions_init(&files);
	posix_spawn_file_actions_adddup2(&files, given, given); /* it stays open */
	if (options.output >= 0) {
		posix_spawn_file_actions_addopen(&files, STDIN_FILENO, "/dev/null", O_RDONLY, 0);
		posix_spawn_file_actions_adddup2(&files, options.output, STDOUT_FILENO);
		posix_spawn_file_actions_adddup2(&files, options.output, STDERR_FILENO);
	}
	return files;
}

/* Signals that this process ignores have their default action there. */
static posix_spawnattr_t signals_of_server(void)
{
	posix_spawnattr_t attributes;
	sigset_t set;
	sigemptyset(&set);
	sigaddset(&set, SIGINT);
	sigaddset(&set, SIGPIPE);
	posix_spawnattr_init(&attributes);
	posix_spawnattr_setsigdefault(&attributes, &set);
	posix_spawnattr_setflags(&attributes, POSIX_SPAWN_SETSIGDEF);
	return attributes;
}

static int spawn(char **argv, int given)
{
	char numbers[32];
	posix_spawn_file_actions_t files = files_of_server(given);
	posix_spawnattr_t attributes = signals_of_server();
	snprintf(numbers, sizeof numbers, "%d %d", given, getppid());
	setenv("TRACEHOST_CONTROL", numbers, 1);
	unsetenv("TRACEHOST_LWP");
	int error = posix_spawn(&server, argv[0], &files, &attributes, argv, environ);
	posix_spawn_file_actions_destroy(&files);
	posix_spawnattr_destroy(&attributes);
	close(given);
	return error;
}

/* It ends at the end of its socket: its status. */
static int end_server(void)
{
	int status = 0;
	close(control);
	control = -1;
	for (int looks = 0; looks < ENDING_S * 1000; looks++) {
		if (waitpid(server, &status, WNOHANG) != 0)
			return status;
		usleep(looks < 20 ? 100 : 1000);
	}
	kill(server, SIGKILL);
	waitpid(server, &status, 0);
	return status;
}

static _Noreturn void refused(void)
{
	int status = end_server();
	note("refused %d\n", WIFEXITED(status) ? WEXITSTATUS(status) : -WTERMSIG(status));
	flush_notes();
	exit(0);
}

void program_start(char **argv)
{
	char line[4097];
	int given, listener = -1;
	control = socket_pair(&given);
	personality(ADDR_NO_RANDOMIZE); /* addresses are the same in each run */
	int error = spawn(argv, given);
	if (error != 0) {
		note("unstarted %d\n", error);
		flush_notes();
		exit(0);
	}
	ssize_t got = hear_server(line, sizeof line - 1, &listener);
	if (got <= 0)
		refused();
	line[got] = 0;
	if (strncmp(line, "ready", 5) != 0)
		broken("control");
	notices_of(listener);
	filters = status_of(server, "Seccomp_filters:");
	for (char *at = strchr(line, '\n'); at != NULL;) {
		char *next = strchr(at + 1, '\n');
		if (next != NULL)
			*next = 0;
		note("note ");
		note_text(at + 1);
		note("\n");
		at = next;
	}
	note("ready %d\n", server);
	flush_notes();
}

/* ---- a run */

int program_server(void) { return server; }
int program_filters(void) { return filters; }

int program_run(void)
{
	int given, own = socket_pair(&given);
	if (!send_with(control, "run", given))
		broken("server");
	return own;
}

/* Whether there is more. */
static bool hear_ends(const char *order)
{
	char line[4097];
	int real, status, length;
	if (send(control, order, strlen(order), MSG_NOSIGNAL | MSG_DONTWAIT) < 0)
		broken(errno == EAGAIN ? "control" : "server"); /* the runtime reads an order before it answers */
	ssize_t got = hear_server(line, sizeof line - 1, NULL);
	if (got <= 0)
		broken("server");
	line[got] = 0;
	const char *at = line + strlen("swept");
	if (strncmp(line, "swept", strlen("swept")) != 0)
		broken("control");
	for (; sscanf(at, " %d:%d%n", &real, &status, &length) == 2; at += length)
		ended_in_host(real, status);
	if (*at != 0 && strcmp(at, " more") != 0)
		broken("control");
	return *at != 0;
}

/* A host has no more processes than so many answers tell of. */
static void hear_all(const char *order)
{
	enum { MOST = 50000 };
	for (int answers = 0; hear_ends(order); answers++)
		if (answers == MOST)
			broken("control");
}

/* DEVICE:INODE of its standard input, output and error. */
void program_files(char *text, size_t room)
{
	char path[64];
	size_t length = 0;
	for (int fd = 0; fd < 3; fd++) {
		struct stat file = {0};
		snprintf(path, sizeof path, "/proc/%d/fd/%d", server, fd);
		stat(path, &file);
		length +=
			(size_t)snprintf(text + length, room - length, " %lx:%lx", (unsigned long)file.st_dev, (unsigned long)file.st_ino);
	}
}

void program_collect(void) { hear_all("collect"); }

/* Ends all processes that are left. */
void program_sweep(void) { hear_all("sweep"); }

/* How many bytes the run has printed, if they are kept. */
long long program_printed(void)
{
	struct stat file;
	if (options.output < 0 || fstat(options.output, &file) != 0)
		return 0;
	has_printed |= file.st_size > 0;
	return file.st_size;
}

void program_forget_output(void)
{
	if (options.output >= 0 && (program_printed() > 0 || has_printed) && ftruncate(options.output, 0) != 0)
		broken("host ftruncate: %s", strerror(errno));
	has_printed = false;
}

/* What a server that was killed has left. */
static void end_orphans(void)
{
	char path[64];
	int pid;
	snprintf(path, sizeof path, "/proc/self/task/%d/children", getpid());
	for (;;) {
		bool found = false;
		while (waitpid(-1, NULL, WNOHANG) > 0) /* each look at the list takes the longer the more there are */
			;
		FILE *list = fopen(path, "r");
		while (list != NULL && fscanf(list, "%d", &pid) == 1)
			found |= kill(pid, SIGKILL) == 0;
		if (list != NULL)
			fclose(list);
		if (!found)
			return;
		waitpid(-1, NULL, 0); /* one: the children of those that end come here meanwhile */
	}
}

/* Ends the server, which ends all that it has. */
void program_end(void)
{
	if (control >= 0)
		end_server();
	end_orphans();
}
