/* The model in the process: a session for each run, and its steps as docs/FORMAT.md has them. */
#include <stdio.h>
#include <string.h>
#include "run.h"
#include "turns.h"

static tracehost model = TRACEHOST_CLOSED;

void model_begin(bool kill_on_debugger_exit)
{
	uint32_t code = tracehost_open(kill_on_debugger_exit, &model);
	if (code != TRACEHOST_ANSWERED)
		broken("the model can't be opened: %s", tracehost_strerror(code));
}

void model_end(void) { tracehost_close(&model); }

/* A step that has no effect, and isn't kept; it may be made at any time. */
reply look(struct step s)
{
	reply r;
	uint32_t code;
	switch (s.op) {
	case SPAWN: code = tracehost_spawn(&model, USER, &r); break;
	case TURN: code = tracehost_turn(&model, USER, s.actor, s.act, s.call, s.a, &r); break;
	case PTRACE: code = tracehost_ptrace(&model, USER, s.actor, s.a, s.which, s.b, &r); break;
	case WAIT4: code = tracehost_wait4(&model, USER, s.actor, s.which, s.a, &r); break;
	case SEND: code = tracehost_kill(&model, USER, s.actor, s.which, s.a, &r); break;
	case SIGACTION: code = tracehost_sigaction(&model, USER, s.actor, s.a, s.b, &r); break;
	default: code = tracehost_list(&model, USER, s.actor, &r);
	}
	if (code != TRACEHOST_ANSWERED)
		broken("the model doesn't answer: %s", tracehost_strerror(code));
	touch_step(&s, &r);
	return r;
}

/* The row of a process, and of an LWP if there is one of that number; false without the process. */
bool rows_of(int pid, int tid, tracehost_process *process, tracehost_lwp *lwp)
{
	static tracehost_process processes[PROCESSES];
	static tracehost_lwp lwps[LWPS];
	size_t n_processes = 0, n_lwps = 0, at = 0;
	uint32_t code = tracehost_view(&model, USER, processes, PROCESSES, lwps, LWPS, &n_processes, &n_lwps);
	if (code != TRACEHOST_ANSWERED)
		broken("the model doesn't show its rows: %s", tracehost_strerror(code));
	*lwp = (tracehost_lwp){0};
	for (size_t i = 0; i < n_lwps; i++)
		if (lwps[i].lwp == (uint32_t)tid)
			*lwp = lwps[i];
	while (at < n_processes && processes[at].pid != (uint32_t)pid)
		at++;
	if (at < n_processes)
		*process = processes[at];
	return at < n_processes;
}

void numbers_of_last(struct numbers *numbers)
{
	size_t room = sizeof numbers->at / sizeof numbers->at[0];
	numbers->count = 0;
	tracehost_numbers(&model, numbers->at, room, &numbers->count);
	if (numbers->count > room)
		numbers->count = room;
}

/* The words of the last answer, behind the user and its number. */
void write_last_reply(char *text, size_t room)
{
	static char line[65536];
	size_t length = 0;
	tracehost_last_line(&model, false, (uint8_t *)line, sizeof line - 1, &length);
	line[length < sizeof line ? length : sizeof line - 1] = 0;
	line[strcspn(line, "\n")] = 0;
	const char *words = strchr(line, ' ');
	words = words != NULL ? strchr(words + 1, ' ') : NULL;
	snprintf(text, room, "%s", words != NULL ? words + 1 : "");
}

/* ---- a step as text */

/* tools/format requests */
static const char *const requests[] = {
	[TRACEHOST_PT_TRACE_ME] = "PT_TRACE_ME",
	[TRACEHOST_PT_CONTINUE] = "PT_CONTINUE",
	[TRACEHOST_PT_KILL] = "PT_KILL",
	[TRACEHOST_PT_STEP] = "PT_STEP",
	[TRACEHOST_PT_ATTACH] = "PT_ATTACH",
	[TRACEHOST_PT_DETACH] = "PT_DETACH",
	[TRACEHOST_PT_LWPINFO] = "PT_LWPINFO",
	[TRACEHOST_PT_GETNUMLWPS] = "PT_GETNUMLWPS",
	[TRACEHOST_PT_GETLWPLIST] = "PT_GETLWPLIST",
	[TRACEHOST_PT_SUSPEND] = "PT_SUSPEND",
	[TRACEHOST_PT_RESUME] = "PT_RESUME",
	[TRACEHOST_PT_TO_SCE] = "PT_TO_SCE",
	[TRACEHOST_PT_TO_SCX] = "PT_TO_SCX",
	[TRACEHOST_PT_SYSCALL] = "PT_SYSCALL",
	[TRACEHOST_PT_FOLLOW_FORK] = "PT_FOLLOW_FORK",
	[TRACEHOST_PT_LWP_EVENTS] = "PT_LWP_EVENTS",
	[TRACEHOST_PT_GET_EVENT_MASK] = "PT_GET_EVENT_MASK",
	[TRACEHOST_PT_SET_EVENT_MASK] = "PT_SET_EVENT_MASK",
};
/* end */
/* tools/format names */
/* clang-format off */
static const char *const call_names[] = {"fork", "vfork", "exec", "thr_new", "thr_exit", "exit", "other"};
static const char *const actions[] = {"default", "ignore", "catch"};
static const char *const option_names[] = {"WNOHANG", "WUNTRACED", "WCONTINUED"};
static const char *const events[] = {"PTRACE_EXEC", "PTRACE_SCE", "PTRACE_SCX", "PTRACE_FORK", "PTRACE_LWP", "PTRACE_VFORK"};
/* clang-format on */
/* end */

/* Whether the model has this request. */
bool is_request(int64_t number)
{
	return number >= 0 && (size_t)number < sizeof requests / sizeof requests[0] && requests[number] != NULL;
}

struct text {
	char *at;
	size_t room;
};

static void put(struct text *t, const char *format, ...)
{
	va_list arguments;
	va_start(arguments, format);
	int length = vsnprintf(t->at, t->room, format, arguments);
	va_end(arguments);
	size_t written = length < 0 ? 0 : (size_t)length < t->room ? (size_t)length : t->room - 1;
	t->at += written, t->room -= written;
}

static void put_names(struct text *t, const char *const *names, int count, uint32_t bits)
{
	const char *comma = "";
	for (int i = 0; i < count; i++)
		if (bits >> i & 1) {
			put(t, "%s\"%s\"", comma, names[i]);
			comma = ",";
		}
}

static void put_turn(struct text *t, const struct step *s)
{
	const char *comma = "";
	put(t, "{\"user\":1001,\"op\":\"turn\",\"lwp\":%u,\"act\":", s->actor);
	switch (s->act) {
	case TRACEHOST_COMPUTE: put(t, "\"compute\"}"); return;
	case TRACEHOST_LEAVE_CALL: put(t, "\"leave\"}"); return;
	case TRACEHOST_RAISE: put(t, "\"raise\",\"signal\":%u}", s->a); return;
	case TRACEHOST_BLOCK:
		put(t, "\"block\",\"set\":[");
		for (EACH_SIGNAL(number))
			if (s->a >> (number - 1) & 1) {
				put(t, "%s%d", comma, number);
				comma = ",";
			}
		put(t, "]}");
		return;
	}
	put(t, "\"enter\",\"call\":\"%s\"", call_names[s->call]);
	put(t, s->call == TRACEHOST_EXIT || s->call == TRACEHOST_OTHER ? ",\"code\":%u}" : "}", s->a);
}

static void put_ptrace(struct text *t, const struct step *s)
{
	put(t, "{\"user\":1001,\"op\":\"ptrace\",\"caller\":%u,\"request\":\"%s\"", s->actor, requests[s->a]);
	if (s->a == TRACEHOST_PT_SET_EVENT_MASK) {
		put(t, ",\"mask\":[");
		put_names(t, events, sizeof events / sizeof events[0], s->b);
		put(t, "]");
	} else if (s->a != TRACEHOST_PT_TRACE_ME && !s->bare)
		put(t, ",\"data\":%u", s->b);
	if (s->a != TRACEHOST_PT_TRACE_ME)
		put(t, ",\"target\":%lld", (long long)s->which);
	put(t, "}");
}

void write_step(char *text, size_t room, const struct step *s)
{
	static const char *const names[] = {[WAIT4] = "wait4", [SEND] = "kill", [SIGACTION] = "sigaction", [LIST_PROCESSES] = "list"};
	struct text t = {text, room};
	if (s->op == SPAWN) {
		put(&t, "{\"user\":1001,\"op\":\"spawn\"}");
		return;
	}
	if (s->op == TURN || s->op == PTRACE) {
		(s->op == TURN ? put_turn : put_ptrace)(&t, s);
		return;
	}
	put(&t, "{\"user\":1001,\"op\":\"%s\",\"caller\":%u", names[s->op], s->actor);
	if (s->op == WAIT4 || s->op == SEND)
		put(&t, ",\"which\":%lld", (long long)s->which);
	if (s->op == SEND)
		put(&t, ",\"signal\":%u", s->a);
	if (s->op == SIGACTION)
		put(&t, ",\"signal\":%u,\"action\":\"%s\"", s->a, actions[s->b]);
	if (s->op == WAIT4 && s->a != 0) {
		put(&t, ",\"options\":[");
		put_names(&t, option_names, sizeof option_names / sizeof option_names[0], s->a);
		put(&t, "]");
	}
	put(&t, "}");
}
