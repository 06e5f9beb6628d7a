/* What a thread says, and what it is answered. */
#include <errno.h>
#include <string.h>
#include <sys/socket.h>
#include <unistd.h>
#include "calls.h"
#include "run.h"

enum { LAST = 200 }; /* of a run without an end, so many last questions are told */
enum { MOST_REMARKS = 400 }; /* before an answer */
const double until_poke[] = {[COMPUTES] = 0.1, [ASLEEP_IN_HOST] = 0.1, [SPINS] = 0.005};

/* ---- messages */

/* It wasn't sent. The runtime reads each answer before it asks again, so that there is always room. */
static _Noreturn void unsent(const struct process *p)
{
	if (errno == EAGAIN)
		broken("unread %d", p->pid);
	gone(p);
}

static void send_line(struct lwp *l, const char *line)
{
	ssize_t sent;
	touch_host();
	do
		sent = send(l->fd, line, strlen(line), MSG_NOSIGNAL | MSG_DONTWAIT);
	while (sent < 0 && errno == EINTR);
	if (sent < 0)
		unsent(l->process);
}

static void send_socket(struct lwp *l, const char *line, struct lwp *born)
{
	int given;
	touch_host();
	born->fd = socket_pair(&given);
	if (!send_with(l->fd, line, given))
		unsent(l->process);
}

void close_socket(struct lwp *l)
{
	if (l->fd >= 0)
		close(l->fd);
	l->fd = -1;
}

static void limits(const struct lwp *l)
{
	if (run.questions > options.limit) {
		halt(l->process);
		failed("endless");
	}
	if (program_printed() > options.output_limit) {
		halt(l->process);
		failed("printed");
	}
}

/* A program that never pauses lets the broker see all the same that Python is gone. */
static void look_at_python(long count)
{
	enum { LOOK_EACH = 64 };
	if (count % LOOK_EACH == 0)
		end_if_python_is_gone();
}

/* A timer may ring while nobody asks anything. */
void count_ring(const struct lwp *timer)
{
	look_at_python(++run.rings);
	if (run.rings > options.limit) {
		halt(timer->process);
		failed("rings %d", timer->process->pid);
	}
}

static void count_question(const struct lwp *l)
{
	look_at_python(++run.questions);
	limits(l);
}

static _Noreturn void hangs(const struct lwp *l)
{
	halt(l->process);
	blame(l, "that was its last call");
	failed("hang %d %d", l->process->pid, l->tid);
}

static _Noreturn void foreign_text(const struct process *p, const char *line, size_t length)
{
	enum { SHOWN = 160 };
	char text[2 * SHOWN + 1] = "";
	for (size_t i = 0; i < length && i < SHOWN; i++)
		sprintf(text + 2 * i, "%02x", (unsigned char)line[i]);
	broken("wrote %d %s", p->pid, text);
}

/* The runtime never asks this. */
void foreign_question(const struct lwp *l) { foreign_text(l->process, l->asked, strlen(l->asked)); }

int int_of(const struct lwp *l, int64_t number)
{
	if (number < INT32_MIN || number > INT32_MAX)
		foreign_question(l);
	return (int)number;
}

int code_of(const struct lwp *l, int64_t number)
{
	if (number < 0)
		foreign_question(l);
	return int_of(l, number);
}

/* What isn't asked, and has no answer: a remark, another filter of the runtime's, or PID STATUS of a process of the host's. */
static void take_aside(struct process *p, enum reading reading, const char *words)
{
	int real, status, length = 0;
	look_at_python(++run.asides);
	if (run.asides > options.limit)
		broken("tells %d", p->pid);
	if (reading == REMARKS)
		remark("%s", words);
	else if (reading == HAS_FILTER)
		p->filters++;
	else if (sscanf(words, "%d %d%n", &real, &status, &length) == 2 && words[length] == 0)
		ended_in_host(real, status);
	else
		foreign_text(p, words, strlen(words));
}

/* A message: its length, or as recv(2). The host's kernel says whose it is: an empty one is no end of the socket. */
static ssize_t take_message(const struct lwp *l, char line[MESSAGE], int flags, int *sender)
{
	union {
		char space[CMSG_SPACE(sizeof(struct ucred))];
		struct cmsghdr align;
	} u;
	struct ucred from = {0};
	struct iovec part = {line, MESSAGE - 1};
	struct msghdr message = {.msg_iov = &part, .msg_iovlen = 1, .msg_control = u.space, .msg_controllen = sizeof u.space};
	ssize_t got = recvmsg(l->fd, &message, flags);
	const struct cmsghdr *header = got >= 0 ? CMSG_FIRSTHDR(&message) : NULL;
	if (header != NULL && header->cmsg_type == SCM_CREDENTIALS)
		memcpy(&from, CMSG_DATA(header), sizeof from);
	*sender = from.pid;
	if (got >= 0)
		line[got] = 0;
	if (got >= 0 && (message.msg_flags & MSG_TRUNC || (got == 0 && header != NULL)))
		foreign_text(l->process, line, got);
	return got;
}

/* Its next message. One that sleeps in the host's kernel is poked: it asks `poke` then. `amid` a call that is answered at
 * once: the thread isn't in user mode, and the call has an end of its own. */
static enum reading receive(struct lwp *l, bool amid, struct question *q)
{
	static char line[MESSAGE], copy[MESSAGE];
	struct watch watch;
	watch_begin(&watch, options.patience);
	for (;;) {
		int sender;
		const bool silent = stays_silent(l);
		ssize_t got = silent ? -1 : take_message(l, line, 0, &sender);
		if (silent)
			errno = EAGAIN;
		if (got < 0 && errno == EINTR)
			continue;
		if (got < 0 && errno == EAGAIN) {
			take_notices();
			end_if_python_is_gone();
			limits(l);
			if (watch_poke(&watch, l))
				hangs(l);
			continue;
		}
		if (got <= 0)
			gone(l->process);
		memcpy(copy, line, got + 1);
		enum reading reading = strlen(line) == (size_t)got ? read_question(line, q) : FOREIGN_TEXT;
		q->sender = sender;
		if (reading == FOREIGN_TEXT || reading == UNKNOWN)
			foreign_text(l->process, copy, got);
		if (reading == BROKEN)
			broken("told %d %s", l->process->pid, q->words);
		if (reading == REMARKS || reading == ENDS_CHILD || reading == HAS_FILTER) {
			take_aside(l->process, reading, q->words);
			continue;
		}
		if (!amid || reading != ASKS || q->call->body != poke)
			return reading;
		send_line(l, "ok");
	}
}

/* ---- a question */

static _Noreturn void refuse(struct lwp *l, enum reading reading, const struct question *q)
{
	blame(l, "");
	failed("%s %d %d %s", reading == REFUSED ? "refused" : "outside", l->process->pid, l->tid, q->words);
}

/* Others have to go on now and then, and sleeps to end. */
static void count_busy(struct lwp *l)
{
	if (++run.busy <= options.limit / 2)
		return;
	run.busy = 0;
	touch_all();
	l->yields = true;
	end_first_sleep();
}

static void note_question(struct lwp *l, const struct question *q, bool is_user)
{
	l->cancelled = false;
	l->where = q->where;
	if (!is_user) /* it comes back from its question of before */
		snprintf(l->asked, sizeof l->asked, "%s", q->text);
	if (run.questions > options.limit - LAST && run.wants.places)
		note_place("last", l, "", 0);
	leg_asks(q, q->text);
}

/* The thread runs until it asks again; false if its handler is over. */
static bool hear(struct lwp *l, bool amid)
{
	struct question q;
	enum reading reading = receive(l, amid, &q);
	count_question(l);
	if (reading == HANDLED)
		return false;
	bool is_poke = reading == ASKS && q.call->body == poke;
	l->computed = is_poke ? l->computed + until_poke[q.arguments[0]] : 0;
	if (is_poke) { /* a thread that computes leaves no time without a message */
		end_if_python_is_gone();
		take_notices();
	}
	if (l->computed > options.patience)
		hangs(l);
	count_busy(l);
	note_question(l, &q, reading == ASKS && q.call->body == user_call);
	if (reading != ASKS)
		refuse(l, reading, &q);
	if (q.call->body != again && q.call->body != news_call) /* which are looks */
		change(SYNC);
	l->call = q.call;
	memcpy(l->arguments, q.arguments, sizeof l->arguments);
	l->level++;
	return true;
}

/* The host's number of a thread that says hello; 0 if the program counts in a namespace of processes of its own. */
static int real_of(const struct question *hello)
{
	int64_t process = hello->arguments[0], thread = hello->arguments[1];
	if (thread == process)
		return hello->sender;
	return process == hello->sender && thread <= INT32_MAX ? (int)thread : 0;
}

/* A new thread, or image, says hello. */
void meet(struct lwp *l)
{
	struct question q;
	struct lists *lists = &l->process->lists;
	enum reading reading = receive(l, true, &q);
	bool is_foreign = l->born && reading == ASKS && q.call->body == foreign;
	if (l->born)
		l->process->looks_for_leaks = false;
	if (!is_foreign && (reading != ASKS || q.call->body != hello || q.sender <= 0))
		broken("begins %d %s", l->process->pid, q.text);
	snprintf(l->asked, sizeof l->asked, "%s", q.text);
	l->where = 0;
	l->call = q.call;
	memcpy(l->arguments, q.arguments, sizeof l->arguments);
	l->level++;
	if (is_foreign)
		return;
	l->born = false;
	l->level = 1;
	l->process->real = q.sender, l->real = real_of(&q), l->process->base = q.arguments[2];
	l->waits = false, l->until = NEVER;
	for (size_t i = 0; i < lists->replaced.count; i++)
		close_socket(lists->replaced.at[i]);
	lists->replaced.count = 0;
	into_table(l);
}

/* ---- an answer */

static void act(struct lwp *l)
{
	int64_t arguments[ARGUMENTS];
	jmp_buf *outer = l->act, here;
	memcpy(arguments, l->arguments, sizeof arguments); /* a handler's questions have their own */
	l->act = &here;
	if (setjmp(here) == 0)
		l->call->body(l, l->call, arguments);
	l->act = outer;
	l->level--;
	l->waits = false, l->until = NEVER;
	if (!l->in_table)
		vanish(l);
}

/* The LWP's question is answered, and it asks the next one: false if its handler is over. */
static bool reply_to(struct lwp *l)
{
	static char line[ANSWER + 16];
	if (l->anew) {
		l->anew = false;
		return hear(l, false);
	}
	struct lwp *born = l->bears;
	bool lands = l->lands, steps = l->traps && l->level < l->depth; /* not in a handler that runs meanwhile */
	l->lands = false, l->bears = NULL;
	bool reports = l->process->reports && l->process->tracer != 0;
	const char *under = l->begun ? "begun " : reports ? "calls " : "", *then = lands ? "land " : steps ? "step " : "";
	snprintf(line, sizeof line, "%s%s%s", under, then, answer);
	if (born != NULL)
		send_socket(l, line, born);
	else
		send_line(l, line);
	if (l->leaves) {
		forget_lwp(l);
		vanish(l);
	}
	if (l->born) { /* its exec: the image that comes says hello */
		meet(l);
		begin_anew(l);
	}
	bool asks = hear(l, born != NULL || (l->entered >= 0 && !l->begun) || lands);
	if (born != NULL)
		meet(born);
	return asks;
}

static void wait_for_turn(struct lwp *l)
{
	if (l->call->at_once || l->begun)
		l->before = run.kept.count;
	else
		give_way(l);
}

void run_handler(struct lwp *l, struct info info)
{
	char line[160];
	if (ran_on_another_stack(l, info))
		return;
	l->waits = false, l->until = NEVER;
	end_leg(l);
	snprintf(line, sizeof line, "handler %lld %lld %lld %lld %lld", (long long)info.signal, (long long)info.code,
		(long long)info.sender, (long long)info.status, (long long)info.address);
	send_line(l, line);
	for (bool asks = hear(l, false); asks; asks = reply_to(l)) {
		wait_for_turn(l);
		act(l);
	}
	give_way(l);
}

/* The LWP asks this in the midst of its computation, which isn't in the runtime: an errno of the host's, or 0. */
int64_t ask_for(struct lwp *l, const char *format, ...)
{
	char line[ASKED], asked[ASKED];
	struct question q;
	int error = 0;
	va_list arguments;
	va_start(arguments, format);
	vsnprintf(line, sizeof line, format, arguments);
	va_end(arguments);
	memcpy(asked, l->asked, sizeof asked);
	if (read_question(line, &q) != ASKS)
		broken("ask_for %s", line);
	count_question(l);
	count_busy(l);
	note_question(l, &q, false);
	change(SYNC);
	l->call = q.call;
	memcpy(l->arguments, q.arguments, sizeof l->arguments);
	l->level++;
	wait_for_turn(l);
	act(l);
	if (l->lands)
		user(l);
	l->lands = false;
	touch_host();
	memcpy(l->asked, asked, sizeof asked);
	sscanf(answer, "error %d", &error);
	return error;
}

/* An LWP's life, in its coroutine. */
void live(struct lwp *l)
{
	l->before = run.kept.count;
	if (l->is_timer) {
		ring(l);
		out_of_table(l);
		vanish(l);
	}
	if (l->fd < 0) { /* the first one */
		l->fd = program_run();
		meet(l);
		give_way(l);
	}
	if (l->renewed)
		give_way(l);
	for (;;) {
		act(l);
		if (!reply_to(l))
			broken("begins %d handled", l->process->pid);
		wait_for_turn(l);
	}
}

/* What the thread answers to this, while it waits for the answer to its question: its last word. */
const char *aside(struct lwp *l, const char *line)
{
	static char text[MESSAGE];
	static const char remarks[] = "0 remark ";
	struct watch watch;
	watch_begin(&watch, ENDING_S);
	send_line(l, line);
	for (int told = 0, sender; told < MOST_REMARKS;) {
		ssize_t got = take_message(l, text, 0, &sender);
		if (got < 0 && errno == EINTR)
			continue;
		if (got < 0 && errno == EAGAIN) {
			if (watch_look(&watch, l->process->real, l->real))
				break;
			take_notices();
			end_if_python_is_gone();
			continue;
		}
		if (got <= 0)
			gone(l->process);
		if (strncmp(text, remarks, strlen(remarks)) == 0) {
			remark("%s", text + strlen(remarks));
			told++;
			continue;
		}
		const char *last = strrchr(text, ' ');
		if (last == NULL || strlen(text) != (size_t)got ||
			(strcmp(last, " done") != 0 && last[1 + strspn(last + 1, "0123456789")] != 0))
			foreign_text(l->process, text, got);
		return last + 1;
	}
	broken("silent %d %d %s", l->process->pid, l->tid, line);
}
