/* What a reply of the model is for the runtime. */
#include <errno.h>
#include <stdarg.h>
#include <stdio.h>
#include <string.h>
#include "turns.h"

char answer[ANSWER];

void say(const char *format, ...)
{
	va_list arguments;
	va_start(arguments, format);
	vsnprintf(answer, sizeof answer, format, arguments);
	va_end(arguments);
}

void say_error(int number) { say("error %d", number); }

/* FreeBSD's number of an error by the host's, which has the same name. */
static int host_errno(uint32_t freebsd)
{
	switch (freebsd) {
	case 11: return EDEADLK;
	case 35: return EAGAIN;
	case 45: return EOPNOTSUPP;
	case 78: return ENOSYS;
	default: return freebsd; /* the first 34 are the same, except these */
	}
}

void say_reply(const reply *r)
{
	if (r->kind == TRACEHOST_ERROR)
		say_error(host_errno(r->error));
	else
		say("ok");
}

/* struct ptrace_lwpinfo, in numbers; what is known of the signal comes last. */
static void say_information(const reply *r, const struct info *info)
{
	/* tools/format stop flags */
	static const uint16_t flags[] = {4, 8, 16, 64, 128, 256, 512, 1024, 2048}; /* FreeBSD's, by the model's bits */
	/* end */
	uint32_t bits = 0;
	for (size_t i = 0; i < sizeof flags / sizeof flags[0]; i++)
		bits |= r->flags >> i & 1 ? flags[i] : 0;
	say("ok %u %u %u %llu %llu %u %u %lld %lld %lld %lld %lld", r->lwp, r->event, bits, (unsigned long long)r->mask << 1,
		(unsigned long long)r->pending << 1, r->child, r->code, (long long)info->signal, (long long)info->code,
		(long long)info->sender, (long long)info->status, (long long)info->address);
}

static void say_lwps(const struct numbers *numbers)
{
	say("ok %zu", numbers->count);
	size_t length = strlen(answer);
	for (size_t i = 0; i < numbers->count && length < sizeof answer - 16; i++)
		length += sprintf(answer + length, " %u", numbers->at[i]);
}

/* The answer of a request of ptrace(2). */
void say_requested(const reply *r, const struct info *info, const struct numbers *numbers)
{
	switch (r->kind) {
	case TRACEHOST_INFO: say_information(r, info); return;
	case TRACEHOST_LWPS: say_lwps(numbers); return;
	case TRACEHOST_NUMBER: say("ok %u", r->number); return;
	case TRACEHOST_MASK: say("ok %u", r->mask); return;
	default: say_reply(r);
	}
}
