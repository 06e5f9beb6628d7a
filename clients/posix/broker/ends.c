/* Ends of LWPs and processes. */
#include <errno.h>
#include <poll.h>
#include <signal.h>
#include <stdlib.h>
#include <sys/socket.h>
#include <sys/syscall.h>
#include <unistd.h>
#include "calls.h"
#include "run.h"

static void remove_lwp(struct lwp *l)
{
	struct lists *lists = &l->process->lists;
	out_of_table(l);
	for (size_t i = lists->lwps.count; i-- > 0;)
		if (lists->lwps.at[i] == l)
			TAKE_OUT(&lists->lwps, i);
	l->alive = false;
	change(l->tid);
	retire(l);
}

/* Its socket reads the end once the thread, or the process, has let go all else. One that hangs there isn't waited for. */
void forget_lwp(struct lwp *l)
{
	enum { MOST = 20000 }; /* messages that nobody awaits */
	char line[MESSAGE];
	struct watch watch;
	watch_begin(&watch, ENDING_S);
	touch_host();
	for (int heard = 0; l->fd >= 0 && heard < MOST; heard++) {
		int flags = !l->foreign && stays_silent(l) ? MSG_DONTWAIT : 0; /* what one without the runtime has left is nobody's */
		ssize_t got = recv(l->fd, line, sizeof line, flags);
		if (got > 0 || (got < 0 && errno == EINTR))
			continue;
		if (got == 0 || errno != EAGAIN || watch_look(&watch, l->process->real, l->real))
			break;
		take_notices();
		end_if_python_is_gone();
	}
	close_socket(l);
	remove_lwp(l);
}

/* An exec has taken the LWP away. */
void replace_lwp(struct lwp *l)
{
	remove_lwp(l);
	APPEND(&l->process->lists.replaced, l);
}

/* Its maker may have waited for this exec, or end. */
void release_parent(struct process *p)
{
	if (!p->vforked)
		return;
	p->vforked = false;
	change(-p->parent);
}

/* A process was collected: the host may give its number to another one. */
void ended_in_host(int real, int status)
{
	for (size_t i = table.n_processes; i-- > 0;) {
		struct process *p = table.all_processes.at[i];
		if (p->real == real && !p->collected) {
			p->collected = true, p->how = status;
			return;
		}
	}
}

/* In the host they are children of the server's, who collects them now and then. */
static void count_orphan(const struct process *p)
{
	enum { COLLECT_EACH = 16 };
	if (p->parent == 1 && p != run.first && ++run.orphans % COLLECT_EACH == 0)
		program_collect();
}

/* One that waits for a program without the runtime hears nothing. */
static void tell_end(struct process *p, struct lwp *exits)
{
	struct lwp *told = exits;
	for (size_t i = 0; i < p->lists.lwps.count; i++)
		if (p->lists.lwps.at[i]->foreign && !p->collected)
			kill(p->real, SIGKILL);
	for (size_t i = p->lists.lwps.count; exits == NULL && i-- > 0;)
		if (p->lists.lwps.at[i]->fd >= 0)
			told = p->lists.lwps.at[i];
	if (told != NULL && told->fd >= 0)
		send(told->fd, exits != NULL ? "end" : "die", 3, MSG_NOSIGNAL | MSG_DONTWAIT);
}

/* The host's kernel may let go a process's last descriptor, its socket, before a pipe that another one reads to its end. */
void wait_for_end_in_host(int real)
{
	const int fd = (int)syscall(SYS_pidfd_open, real, 0);
	struct watch watch;
	if (fd < 0) /* gone */
		return;
	watch_begin(&watch, ENDING_S);
	while (poll(&(struct pollfd){.fd = fd, .events = POLLIN}, 1, LOOK_MS) <= 0 && !watch_look(&watch, real, real))
		end_if_python_is_gone();
	close(fd);
}

/* Ended in the model: now in the host. An LWP that `exits` runs its last handlers there. Its tracees end, or are let go. */
static void end_process(struct process *p, int status, struct lwp *exits)
{
	LIST(struct process *) tracees = {0};
	touch_all();
	for (EACH_PROCESS(other))
		if (table.processes.at[other_at]->tracer == p->pid)
			APPEND(&tracees, table.processes.at[other_at]);
	tell_end(p, exits);
	while (p->lists.lwps.count > 0)
		forget_lwp(p->lists.lwps.at[0]);
	for (size_t i = 0; i < p->lists.replaced.count; i++)
		forget_lwp(p->lists.replaced.at[i]);
	if (!p->collected)
		wait_for_end_in_host(p->real);
	release_parent(p);
	table_end(p, status);
	if (p != run.first)
		tell_orphans();
	happen(ENDED, p->pid, status);
	end_news(p, status);
	for (size_t i = 0; i < tracees.count; i++) {
		tracees.at[i]->tracer = 0;
		change(-tracees.at[i]->pid);
	}
	reap(tracees.at, tracees.count, KILL);
	free(tracees.at);
	close_all_described(p);
	count_orphan(p);
}

/* Processes that another's step may have ended: they are no callers any more. */
void reap(struct process *const *suspects, size_t count, int status)
{
	for (size_t i = 0; i < count; i++)
		if (suspects[i]->live && look((struct step){.op = LIST_PROCESSES, .actor = suspects[i]->pid}).kind == TRACEHOST_ERROR)
			end_process(suspects[i], status, NULL);
}

/* The process of the LWP at its turn has ended, with this status. */
_Noreturn void ended(struct lwp *l, int status)
{
	struct process *p = l->process;
	if (p == run.first) {
		run.status = status, run.has_status = true;
		if (status != 0) {
			halt(p);
			blame(l, "");
		}
	}
	if (p->told >= 0 && status != p->told << 8)
		p->told = -1; /* a signal has come before */
	end_process(p, status, p->told >= 0 ? l : NULL);
	vanish(l);
}
