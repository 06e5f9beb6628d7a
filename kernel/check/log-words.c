/* A line of the log, and its words. */
#include "log-words.h"
#include <errno.h>
#include <string.h>

static void put_bytes(struct line *line, const char *bytes, size_t length)
{
    if (length >= sizeof(line->text) - line->length) /* room for the line feed is left */
        length = sizeof(line->text) - 1 - line->length;
    memcpy(line->text + line->length, bytes, length);
    line->length += length;
}

void put(struct line *line, const char *text) { put_bytes(line, text, strlen(text)); }

static void put_in_base(struct line *line, unsigned long number, unsigned base)
{
    char digits[24];
    size_t left = sizeof(digits);

    do
        digits[--left] = "0123456789abcdef"[number % base];
    while ((number /= base) != 0);
    put_bytes(line, digits + left, sizeof(digits) - left);
}

void put_number(struct line *line, long number)
{
    if (number < 0)
        put(line, "-");
    put_in_base(line, number < 0 ? 0ul - (unsigned long)number : (unsigned long)number, 10);
}

void put_hex(struct line *line, unsigned long number)
{
    put(line, "0x");
    put_in_base(line, number, 16);
}

void word(struct line *line, const char *name)
{
    put(line, " ");
    put(line, name);
    put(line, "=");
}

void number_word(struct line *line, const char *name, long number)
{
    word(line, name);
    put_number(line, number);
}

/* The first bytes of a file's name. */
void text_word(struct line *line, const char *name, const char *text)
{
    int count;

    word(line, name);
    for (count = 0; count < 200 && *text != '\0'; count++, text++) {
        unsigned char byte = (unsigned char)*text;
        char escaped[] = {'\\', 'x', "0123456789abcdef"[byte / 16], "0123456789abcdef"[byte % 16]};

        if (byte > ' ' && byte < 0x7f && byte != '\\')
            put_bytes(line, text, 1);
        else
            put_bytes(line, escaped, sizeof(escaped));
    }
    put(line, *text == '\0' ? "" : "..");
}

static const char *name_of(const struct name *names, long number)
{
    for (; names->text != NULL; names++)
        if (names->number == number)
            return (names->text);
    return (NULL);
}

void bits_word(struct line *line, const char *name, const struct name *names, unsigned long bits)
{
    const char *between = "";

    word(line, name);
    for (; names->text != NULL; names++)
        if ((bits & (unsigned long)names->number) != 0) {
            put(line, between);
            put(line, names->text);
            bits &= ~(unsigned long)names->number;
            between = ",";
        }
    if (bits != 0) {
        put(line, between);
        put_hex(line, bits);
    } else if (*between == '\0')
        put(line, "-");
}

/* ---- signals and errnos */

#define NAME(name)  \
    {               \
        name, #name \
    }

const struct name signal_names[] = {NAME(SIGHUP), NAME(SIGINT), NAME(SIGQUIT), NAME(SIGILL), NAME(SIGTRAP), NAME(SIGABRT),
    NAME(SIGFPE), NAME(SIGKILL), NAME(SIGBUS), NAME(SIGSEGV), NAME(SIGSYS), NAME(SIGPIPE), NAME(SIGALRM), NAME(SIGTERM),
    NAME(SIGURG), NAME(SIGSTOP), NAME(SIGTSTP), NAME(SIGCONT), NAME(SIGCHLD), NAME(SIGTTIN), NAME(SIGTTOU), NAME(SIGIO),
    NAME(SIGXCPU), NAME(SIGXFSZ), NAME(SIGVTALRM), NAME(SIGPROF), NAME(SIGWINCH), NAME(SIGUSR1), NAME(SIGUSR2),
#ifdef SIGEMT
    NAME(SIGEMT),
#endif
#ifdef SIGINFO
    NAME(SIGINFO),
#endif
#ifdef SIGPWR
    NAME(SIGPWR),
#endif
#ifdef SIGSTKFLT
    NAME(SIGSTKFLT),
#endif
    {0, NULL}};

const struct name errno_names[] = {NAME(E2BIG), NAME(EACCES), NAME(EAGAIN), NAME(EBADF), NAME(EBUSY), NAME(ECHILD), NAME(EFAULT),
    NAME(EINTR), NAME(EINVAL), NAME(EIO), NAME(EISDIR), NAME(ELOOP), NAME(EMFILE), NAME(ENAMETOOLONG), NAME(ENFILE), NAME(ENOENT),
    NAME(ENOEXEC), NAME(ENOMEM), NAME(ENOSYS), NAME(ENOTDIR), NAME(EPERM), NAME(ESRCH), NAME(ETXTBSY),
#ifdef EPROCLIM
    NAME(EPROCLIM),
#endif
    {0, NULL}};

void put_named(struct line *line, const struct name *names, long number)
{
    const char *text = name_of(names, number);

    if (text != NULL)
        put(line, text);
    else
        put_number(line, number);
}

void signal_word(struct line *line, const char *name, long number)
{
    word(line, name);
    put_named(line, signal_names, number);
}

void signals_word(struct line *line, const char *name, const sigset_t *set)
{
    const struct name *signals;
    const char *between = "";

    word(line, name);
    for (signals = signal_names; signals->text != NULL; signals++)
        if (sigismember(set, (int)signals->number) == 1) {
            put(line, between);
            put(line, signals->text);
            between = ",";
        }
    if (*between == '\0')
        put(line, "-");
}
