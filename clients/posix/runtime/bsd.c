/* Functions of FreeBSD's C library that the host's may lack. A program's own ones come before these. */
#define _GNU_SOURCE
#include <limits.h>
#include <stdarg.h>
#include <stdio.h>
#include <string.h>
#include <sys/prctl.h>
#include "runtime.h"

#define WEAK __attribute__((weak))

size_t strlcpy(char *to, const char *from, size_t room);
size_t strlcat(char *to, const char *from, size_t room);
const char *getprogname(void);
void setprogname(const char *name);
void setproctitle(const char *format, ...) __attribute__((format(printf, 1, 2)));
long long strtonum(const char *text, long long least, long long most, const char **error);

WEAK size_t strlcpy(char *to, const char *from, size_t room)
{
	size_t length = strlen(from);
	if (room > 0) {
		size_t count = length < room ? length : room - 1;
		memcpy(to, from, count);
		to[count] = 0;
	}
	return length;
}

WEAK size_t strlcat(char *to, const char *from, size_t room)
{
	size_t length = strnlen(to, room);
	return length + (length == room ? strlen(from) : strlcpy(to + length, from, room - length));
}

WEAK const char *getprogname(void) { return program_invocation_short_name; }

WEAK void setprogname(const char *name)
{
	const char *slash = strrchr(name, '/');
	program_invocation_short_name = (char *)(slash != NULL ? slash + 1 : name);
}

/* The thread's name has as much of it as there is room for. */
WEAK void setproctitle(const char *format, ...)
{
	char title[16];
	va_list arguments;
	if (format == NULL)
		return;
	va_start(arguments, format);
	vsnprintf(title, sizeof title, format[0] == '-' ? format + 1 : format, arguments);
	va_end(arguments);
	prctl(PR_SET_NAME, title);
}

WEAK long long strtonum(const char *text, long long least, long long most, const char **error)
{
	const char *why = NULL;
	char *end;
	int saved = errno;
	errno = 0;
	long long number = strtoll(text, &end, 10);
	if (least > most || end == text || *end != 0)
		why = "invalid", errno = EINVAL;
	else if (number < least || (errno == ERANGE && number == LLONG_MIN))
		why = "too small", errno = ERANGE;
	else if (number > most || errno == ERANGE)
		why = "too large", errno = ERANGE;
	else
		errno = saved;
	if (error != NULL)
		*error = why;
	return why == NULL ? number : 0;
}
