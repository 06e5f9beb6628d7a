/* A program of tracehost-cc that a program without the runtime, such as a shell, has started. Its start makes a call that does
 * nothing, and that the broker answers.
 *
 * If the shell has exec'd it, it is the image of the LWP whose computation the shell was. If the shell has forked it, the
 * LWP makes a fork, and the child an exec of it. The shell knows another process of the host's, the proxy: it waits until
 * the child has ended, in the host and in the model, and ends as the child has. */
#include <inttypes.h>
#include <poll.h>
#include <signal.h>
#include <stdlib.h>
#include <string.h>
#include <sys/socket.h>
#include <sys/syscall.h>
#include <sys/wait.h>
#include <unistd.h>
#include "../runtime/held.h"
#include "notices.h"

static bool is_call(const struct notice *n, uint64_t flags)
{
	return n->data.nr == SYS_pidfd_send_signal && (int)n->data.args[0] == -1 && n->data.args[3] == flags;
}

bool is_behind(const struct notice *n) { return is_call(n, BEHIND_ANOTHER); }
bool is_proxy(const struct notice *n) { return is_call(n, BEHIND_ENDS); }

/* What the exec of the LWP has become, itself or by further execs. */
bool replaces(const struct notice *n) { return is_behind(n) && !is_over(n->lwp) && is_first_child(n->pid, n->lwp->process); }

/* ---- processes that a proxy waits for */

/* Also one that has ended, if a debugger has still to hear of it. */
bool has_started(const struct process *p)
{
	for (size_t i = 0; i < table.n_processes; i++)
		if (table.all_processes.at[i]->parent == p->pid && table.all_processes.at[i]->proxy != 0)
			return true;
	return false;
}

/* The one that this process of the host is a proxy of; NULL for none. */
struct process *started_as(int real)
{
	for (size_t i = 0; real != 0 && i < table.n_processes; i++)
		if (table.all_processes.at[i]->proxy == real)
			return table.all_processes.at[i];
	return NULL;
}

/* Whether it has ended in the model, and no debugger has still to hear of it. */
bool may_end(const struct notice *n)
{
	const struct process *child = started_as(n->pid);
	if (child == NULL)
		return true;
	for (size_t i = 0; i < table.news.count; i++)
		if (table.news.at[i].pid == child->pid && table.news.at[i].to != child->parent)
			return false;
	return !child->live;
}

/* The shell's process has waited for its child; nobody has if an image of the runtime is there by now. */
void end_proxy(struct lwp *l, const struct notice *n)
{
	struct process *child = started_as(n->pid);
	int status = 0;
	if (child != NULL) {
		child->proxy = 0;
		status = table.statuses[child->pid - FIRST_PROCESS];
		if (child->real == (int)n->data.args[1])
			ended_in_host(child->real, (int)n->data.args[2]);
		if (l != NULL)
			ask_for(l, "0 wait %d %d", child->pid, TRACEHOST_WNOHANG);
	}
	if (WIFSIGNALED(status))
		kill(n->pid, host_signal_of(WTERMSIG(status)));
	else
		answer_with(n, status);
}

/* ---- images */

/* It makes its exec by this socket, and says hello; or only says hello, if the fork was made for it. False if it has gone. */
static bool give_socket(const struct notice *n, const struct lwp *from, const struct lwp *l, int given)
{
	char line[256], files[128];
	const int number = give_descriptor(n, given);
	if (number < 0)
		return false;
	program_files(files, sizeof files);
	snprintf(line, sizeof line, "%d %d %" PRId64 " %" PRId64 " %d%s", l->process->pid, l->tid, from->held, from->reader, from != l,
		files);
	send(l->fd, line, strlen(line), MSG_NOSIGNAL);
	answer_with(n, number);
	return true;
}

/* What has waited for it in the host ends. */
static void take_up_image(struct lwp *l, const struct notice *n)
{
	struct process *p = l->process;
	const int before = p->real;
	int given;
	close_socket(l);
	l->fd = socket_pair(&given);
	if (!give_socket(n, l, l, given))
		gone(p);
	l->foreign = false, p->real = n->pid;
	if (p != run.first) { /* which the server waits for */
		kill(before, SIGKILL);
		wait_for_end_in_host(before);
	}
}

/* Until it speaks, or its socket ends. Its libraries begin before it: they may wait for ever. */
static void await_first_word(const struct lwp *l, const struct lwp *born, const struct notice *n)
{
	struct watch watch;
	watch_begin(&watch, options.patience);
	for (int looks = 1; poll(&(struct pollfd){.fd = born->fd, .events = POLLIN}, 1, 1) == 0; looks++) {
		take_notices();
		if (looks % LOOK_MS != 0)
			continue;
		end_if_python_is_gone();
		if (watch_look(&watch, n->pid, n->pid))
			broken("unborn %d %g %s", l->process->pid, options.patience, file_of(n->pid));
	}
}

static void take_up_child(struct lwp *l, const struct notice *n)
{
	int given;
	ask_for(l, "0 fork");
	struct lwp *born = l->bears;
	l->bears = NULL;
	if (born == NULL)
		broken("room %d %s", l->process->pid, file_of(n->pid));
	born->process->proxy = n->pid;
	born->fd = socket_pair(&given);
	if (!give_socket(n, l, born, given))
		gone(born->process);
	await_first_word(l, born, n);
	meet(born);
	ask_for(l, "0 user");
}

void take_up(struct lwp *l, const struct notice *n)
{
	if (replaces(n))
		take_up_image(l, n);
	else
		take_up_child(l, n);
}
