/* What comes of a run, in lines for Python: outcome.py reads them. */
#include <signal.h>
#include <stdlib.h>
#include <string.h>
#include <unistd.h>
#include "run.h"

static LIST(char) notes, remarks, plain; /* plain: what the plain schedule has come to */
static char failure[MESSAGE + 64]; /* its kind, and what Python makes a sentence of; empty if there is none */
static bool is_failure;
static const struct process *gone_one; /* it has ended outside of the model */

/* ---- lines */

static void put(const char *text, size_t length)
{
	notes.at = with_room(notes.at, notes.count + length, &notes.room, 1);
	memcpy(notes.at + notes.count, text, length);
	notes.count += length;
}

void note(const char *format, ...)
{
	char text[512];
	va_list arguments;
	va_start(arguments, format);
	int length = vsnprintf(text, sizeof text, format, arguments);
	va_end(arguments);
	put(text, (size_t)length < sizeof text ? (size_t)length : sizeof text - 1);
}

void note_text(const char *text)
{
	for (; *text != 0; text++)
		if ((unsigned char)*text < ' ' || *text == '%' || *text == 127)
			note("%%%02X", (unsigned char)*text);
		else
			put(text, 1);
}

void flush_notes(void)
{
	for (size_t at = 0; at < notes.count;) {
		ssize_t written = write(options.answers, notes.at + at, notes.count - at);
		if (written <= 0)
			leave_python();
		at += written;
	}
	notes.count = 0;
}

/* ---- places */

/* KIND, who, what it has asked, the address in the program, the program, what is said of it, the number of the next step. */
void note_place(const char *kind, const struct lwp *l, const char *then, size_t step)
{
	char path[64], program[4096] = "";
	uint64_t loaded = l != NULL ? l->process->base : 0, of_library;
	if (l == NULL) {
		note("%s\t\t\t0\t\ta process has ended; %s\t%zu\n", kind, then, step);
		return;
	}
	snprintf(path, sizeof path, "/proc/%d/exe", l->process->real);
	ssize_t length = readlink(path, program, sizeof program - 1);
	program[length > 0 ? length : 0] = 0;
	const char *file = l->where != 0 ? file_at(l->process->real, l->where, &of_library) : NULL;
	if (file != NULL && strcmp(file, program) != 0) {
		snprintf(program, sizeof program, "%s", file);
		loaded = of_library;
	}
	note(l->is_timer ? "%s\tthe timer of %d\t" : "%s\t%d/%d\t", kind, l->process->pid, l->tid);
	note_text(l->asked);
	note("\t%llu\t", l->where != 0 ? (unsigned long long)(l->where - loaded) : 0ull);
	note_text(program);
	note("\t%s\t%zu\n", then, step);
}

/* The run fails where this LWP is. */
void blame(const struct lwp *l, const char *then)
{
	if (run.wants.places && !l->is_timer)
		note_place("blame", l, then, 0);
}

/* The process fails: a debugger may look at it now. */
void halt(const struct process *p)
{
	if (!run.wants.halts || p->real == 0)
		return;
	run.wants.halts = false;
	note("halt %d\n", p->real);
	flush_notes();
	wait_for_python();
}

/* ---- ends of a run */

void outcome_begin(void)
{
	failure[0] = 0;
	is_failure = false;
	gone_one = NULL;
	remarks.count = 0;
}

bool has_failed(void) { return is_failure; }

static void describe(const char *format, va_list arguments) { vsnprintf(failure, sizeof failure, format, arguments); }

#define DESCRIBE(format)             \
	do {                             \
		va_list arguments;           \
		va_start(arguments, format); \
		describe(format, arguments); \
		va_end(arguments);           \
	} while (0)

void set_failure(const char *format, ...)
{
	DESCRIBE(format);
	is_failure = true;
}

void failed(const char *format, ...)
{
	DESCRIBE(format);
	is_failure = true;
	leave_run();
}

/* A filter of seccomp(2) that the program has set itself ends it, or takes the runtime's calls away, unseen by the model. */
static bool has_own_filter(const struct process *p)
{
	return p->filters >= 0 && !p->collected && status_of(p->real, "Seccomp_filters:") > p->filters;
}

void gone(const struct process *p)
{
	if (has_own_filter(p))
		broken("filter %d", p->pid);
	set_failure("gone %d", p->pid);
	gone_one = p;
	leave_run();
}

/* The run goes on as another one does. At most legs that commute come in another order. */
void repeats(void)
{
	run.repeats = true;
	leave_run();
}

/* Nothing goes on after this: what the program has left is ended. */
void broken(const char *format, ...)
{
	DESCRIBE(format);
	note("broken ");
	note_text(failure);
	note("\n");
	flush_notes();
	program_end();
	exit(0);
}

/* Who waits, and for whom. */
static void note_waiting(const struct lwp *l)
{
	const struct process *p = l->process;
	bool stopped = l->waits && l->n_topics == 1 && l->topics[0] == -p->pid;
	long long owner = -1;
	const struct lwp *holder = NULL;
	sscanf(l->asked, "again mutex %lld", &owner);
	for (size_t i = p->lists.lwps.count; i-- > 0;)
		if (p->lists.lwps.at[i]->real == owner)
			holder = p->lists.lwps.at[i];
	note("waits\t%d\t%d\t%d\t%d\t%d\t%d\t", p->pid, l->tid, stopped, p->tracer, p->reporting != NULL,
		holder != NULL ? holder->tid : 0);
	note_text(l->asked);
	note("\n");
}

void verdict(void)
{
	if (run.first->live) {
		halt(run.first);
		for (size_t i = 0; i < table.lwps.count; i++)
			blame(table.lwps.at[i], "");
		for (size_t i = 0; i < table.lwps.count; i++)
			if (!table.lwps.at[i]->is_timer)
				note_waiting(table.lwps.at[i]);
		set_failure("deadlock");
	} else if (!run.has_status)
		set_failure("killed");
	else if (run.status != 0)
		set_failure("status %d", run.status);
}

/* The runtime has ended it otherwise than with status 0, or SIGKILL. */
static bool ended_oddly(const struct process *p) { return p->collected && p->how != 0 && p->how != SIGKILL; }

/* One that hasn't ended as it has told the model: its last handlers, a sanitizer's say, have failed. */
static void look_at_ends(void)
{
	for (size_t i = 0; i < table.n_processes; i++) {
		const struct process *p = table.all_processes.at[i];
		if (ended_oddly(p) && !p->live && p->told >= 0 && p->how != p->told << 8) {
			set_failure("late %d %d %d", p->pid, p->told, p->how);
			return;
		}
	}
}

void outcome_end(void)
{
	size_t length = strlen(failure);
	if (gone_one != NULL && ended_oddly(gone_one))
		snprintf(failure + length, sizeof failure - length, " %d", gone_one->how);
	if (!is_failure && !run.repeats)
		look_at_ends();
}

static void note_steps(void)
{
	for (size_t i = 0; i < run.kept.count; i++)
		if (run.kept.at[i].text != NULL) {
			put("step\t", 5);
			put(run.kept.at[i].text, strlen(run.kept.at[i].text));
			put("\n", 1);
		}
}

/* Each one once. */
void remark(const char *format, ...)
{
	enum { ROOM = 64 << 10 };
	char text[2048];
	va_list arguments;
	va_start(arguments, format);
	vsnprintf(text, sizeof text, format, arguments);
	va_end(arguments);
	if (remarks.count > ROOM)
		snprintf(text, sizeof text, "further remarks are left out");
	for (size_t at = 0; at < remarks.count; at += strlen(remarks.at + at) + 1)
		if (strcmp(remarks.at + at, text) == 0)
			return;
	for (size_t i = 0; i <= strlen(text); i++)
		APPEND(&remarks, text[i]);
}

static void note_remarks(void)
{
	for (size_t at = 0; at < remarks.count; at += strlen(remarks.at + at) + 1) {
		note("remark\t");
		note_text(remarks.at + at);
		note("\n");
	}
}

/* The run's last line: how it has ended, figures, its switches, what has failed. */
void note_outcome(void)
{
	note_steps();
	size_t first = notes.count;
	note_remarks();
	note("%s %ld %ld %ld %ld %ld %ld %llu ",
		is_failure    ? "failed"
		: run.repeats ? "repeats"
					  : "passed",
		run.questions, run.steps, run.choices, run.passed, run.skipped, run.examined, (unsigned long long)legs_sum());
	for (size_t i = 0; i < run.switches.count; i++) {
		const struct switch_to *to = &run.switches.at[i];
		note("%s%d.%ld:%d", i > 0 ? "," : "", to->tid, to->point, to->to);
	}
	note("%s", run.switches.count == 0 ? "- " : " ");
	note_text(failure);
	note("\n");
	if (!run.wants.made)
		return;
	plain.count = 0;
	for (size_t i = first; i < notes.count; i++)
		APPEND(&plain, notes.at[i]);
}

/* The same lines as of the last plain schedule. */
void note_plain_outcome(void) { put(plain.at, plain.count); }

void forget_notes(void) { notes.count = 0; }
