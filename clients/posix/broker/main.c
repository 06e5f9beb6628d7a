/* tracehost-broker: runs schedules of a program that tracehost-cc made, for tracehost-run, with the model in the process.
 *
 *   tracehost-broker REQUESTS ANSWERS OUTPUT CALLS STRICT LIMIT PATIENCE OUTPUT_LIMIT KILL_ON_DEBUGGER_EXIT
 *     STAYS PROGRAM [ARGUMENT..]
 *
 * REQUESTS and ANSWERS are descriptors of pipes. OUTPUT is that of a file for what a run prints, or -1. If STAYS is 1 it
 * stays on the processor on which it begins. A request is a line of two parts. The first asks for more than the last line of
 * the answer, or is `-`: t asks for the steps, l for places, c for the calls at which another could go on, and with h the run
 * halts if it fails. p and a number ask for so many points of choice, behind which the run is left. The second part is a
 * schedule: `plain`, `seed N EARLY`, `pct N DEPTH LENGTH` or `switches LIST`. The broker answers a request as soon as it has
 * run it. After a failure it ignores all requests up to the line `on`. The answers are in outcome.c. `--calls` prints the
 * table of calls. */
#include <errno.h>
#include <fcntl.h>
#include <poll.h>
#include <sched.h>
#include <signal.h>
#include <stdlib.h>
#include <string.h>
#include <sys/prctl.h>
#include <unistd.h>
#include "run.h"

enum { USAGE = 2, NUMBERS = 10 };
static LIST(char) unread;
static bool plain_is_known, plain_passes;
static choices plain_choices;

/* ---- requests */

_Noreturn void leave_python(void)
{
	program_end();
	exit(0);
}

/* Nobody asks any more if the other end of the pipe is closed. */
void end_if_python_is_gone(void)
{
	struct pollfd end = {.fd = options.requests, .events = POLLIN};
	if (poll(&end, 1, 0) > 0 && end.revents & (POLLHUP | POLLERR))
		leave_python();
}

/* The next line, without its end; it is good until the next one is read. */
static char *read_line(void)
{
	static LIST(char) line;
	for (;;) {
		char *end = unread.count > 0 ? memchr(unread.at, '\n', unread.count) : NULL;
		if (end != NULL) {
			size_t length = end - unread.at;
			line.count = 0;
			for (size_t i = 0; i < length; i++)
				APPEND(&line, unread.at[i]);
			APPEND(&line, 0);
			unread.count -= length + 1;
			memmove(unread.at, end + 1, unread.count);
			return line.at;
		}
		char text[65536];
		ssize_t got = read(options.requests, text, sizeof text);
		if (got < 0 && errno == EINTR)
			continue;
		if (got <= 0)
			leave_python();
		for (ssize_t i = 0; i < got; i++)
			APPEND(&unread, text[i]);
	}
}

/* The run waits until Python says that it may go on. */
void wait_for_python(void)
{
	char *line = read_line();
	if (strcmp(line, "go") != 0)
		broken("request %s", line);
}

/* `=N.N..`, if it is there: its length. */
static int read_touches(const char *text, struct touches *touches)
{
	const char *at = text;
	int length, number;
	touches->count = 0;
	while (*at == (at == text ? '=' : '.') && touches->count < TOUCHED && sscanf(at + 1, "%d%n", &number, &length) == 1) {
		touches->at[touches->count++] = number;
		at += 1 + length;
	}
	return at - text;
}

static void read_switches(const char *text)
{
	struct switch_to to = {0};
	int length;
	schedule.given.count = 0;
	while (sscanf(text, "%d.%ld:%d%n", &to.tid, &to.point, &to.to, &length) == 3) {
		text += length;
		text += read_touches(text, &to.asleep);
		APPEND(&schedule.given, to);
		text += *text == ',';
	}
	if (*text != 0)
		broken("request switches %s", text);
}

/* Sets the schedule, and what is wanted. */
static void read_request(char *line)
{
	char *wants = strsep(&line, " "), *name = strsep(&line, " "), *points = strchr(wants, 'p');
	int early = 1;
	run.wants = (struct wants){.trace = strchr(wants, 't') != NULL,
		.points = points != NULL ? atol(points + 1) : 0,
		.places = strchr(wants, 'l') != NULL,
		.covers = strchr(wants, 'c') != NULL,
		.halts = strchr(wants, 'h') != NULL};
	schedule.strategy = PLAIN;
	if (name == NULL)
		broken("request %s", wants);
	if (strcmp(name, "plain") == 0 && line == NULL)
		return;
	if (strcmp(name, "switches") == 0 && line != NULL) {
		schedule.strategy = SWITCHED;
		read_switches(line);
	} else if (strcmp(name, "seed") == 0 && line != NULL && sscanf(line, "%lu %d", &schedule.seed, &early) == 2) {
		schedule.strategy = SEEDED;
		schedule.early = early;
	} else if (strcmp(name, "pct") == 0 && line != NULL &&
			   sscanf(line, "%lu %ld %ld", &schedule.seed, &schedule.depth, &schedule.length) == 3)
		schedule.strategy = PRIORITIES;
	else
		broken("request %s", name);
}

/* ---- runs */

/* The plain schedule's choices, for seeds that draw no switch: these aren't run. */
static void keep_plain(void)
{
	plain_is_known = true;
	plain_passes = !has_failed();
	plain_choices.count = 0;
	for (size_t i = 0; i < run.made.count; i++)
		APPEND(&plain_choices, run.made.at[i]);
}

static void run_plain(void)
{
	struct wants wants = run.wants;
	enum strategy strategy = schedule.strategy;
	run.wants = (struct wants){.made = true};
	schedule.strategy = PLAIN;
	run_once();
	keep_plain();
	note_outcome();
	forget_notes();
	schedule.strategy = strategy;
	run.wants = wants;
}

/* Whether the schedule is the plain one: its outcome is that of the run before then. */
static bool goes_plain(void)
{
	const struct wants *w = &run.wants;
	if (schedule.strategy != SEEDED || w->trace || w->points || w->places || w->covers || w->halts)
		return false;
	if (!plain_is_known)
		run_plain();
	outcome_begin();
	schedule_begin();
	return plain_passes && schedule_is_plain(&plain_choices);
}

static void serve(void)
{
	for (;;) {
		read_request(read_line());
		end_if_python_is_gone();
		run.wants.made = schedule.strategy == PLAIN;
		if (goes_plain())
			note_plain_outcome();
		else {
			run_once();
			if (run.wants.made)
				keep_plain();
			note_outcome();
		}
		flush_notes();
		while (has_failed() && strcmp(read_line(), "on") != 0)
			;
	}
}

static bool read_options(char **words)
{
	char *end;
	double numbers[NUMBERS];
	for (int i = 0; i < NUMBERS; i++) {
		numbers[i] = strtod(words[i], &end);
		if (end == words[i] || *end != 0)
			return false;
	}
	options = (struct options){.requests = numbers[0],
		.answers = numbers[1],
		.output = numbers[2],
		.calls = numbers[3],
		.strict = numbers[4],
		.limit = numbers[5],
		.patience = numbers[6],
		.output_limit = numbers[7],
		.kill_on_debugger_exit = numbers[8],
		.stays = numbers[9]};
	return true;
}

/* Of a run one thread goes on at a time: another processor would have to wake up for each. */
static void stay_on_processor(void)
{
	cpu_set_t here;
	int number = sched_getcpu();
	CPU_ZERO(&here);
	if (number >= 0 && number < CPU_SETSIZE)
		CPU_SET(number, &here);
	sched_setaffinity(0, sizeof here, &here); /* if it can't it goes where the host puts it */
}

int main(int count, char **words)
{
	if (count == 2 && strcmp(words[1], "--version") == 0) {
		printf("tracehost-broker %s\n", TRACEHOST_VERSION);
		return 0;
	}
	if (count == 2 && strcmp(words[1], "--calls") == 0) {
		print_calls();
		return 0;
	}
	if (strcmp(tracehost_version(), TRACEHOST_VERSION) != 0) {
		fprintf(stderr, "tracehost-broker: it has the library of another version: %s\n", tracehost_version());
		return USAGE;
	}
	if (count < NUMBERS + 2 || !read_options(words + 1)) {
		fprintf(stderr, "tracehost-broker: it is started by tracehost-run\n");
		return USAGE;
	}
	prctl(PR_SET_CHILD_SUBREAPER, 1); /* if the program's server is killed, what it had comes here */
	fcntl(options.requests, F_SETFD, FD_CLOEXEC); /* none of these is the program's */
	fcntl(options.answers, F_SETFD, FD_CLOEXEC);
	if (options.output >= 0)
		fcntl(options.output, F_SETFD, FD_CLOEXEC);
	signal(SIGINT, SIG_IGN); /* of the terminal: tracehost-run ends */
	signal(SIGPIPE, SIG_IGN);
	if (options.stays)
		stay_on_processor();
	program_start(words + 1 + NUMBERS);
	serve();
}
