/* A line of the log, and its words. */
#ifndef LOG_WORDS_H
#define LOG_WORDS_H

#include <signal.h>
#include <stddef.h>

#pragma GCC visibility push(hidden)

struct name {
    long number;
    const char *text;
};

struct line {
    char text[1024];
    size_t length;
};

#define NAME(name)  \
    {               \
        name, #name \
    }

extern const struct name signal_names[], errno_names[];

void put(struct line *line, const char *text);
void put_number(struct line *line, long number);
void put_hex(struct line *line, unsigned long number);
void put_named(struct line *line, const struct name *names, long number);
void word(struct line *line, const char *name);
void number_word(struct line *line, const char *name, long number);
void text_word(struct line *line, const char *name, const char *text);
void signal_word(struct line *line, const char *name, long number);

/* The signals of a set that have names. */
void signals_word(struct line *line, const char *name, const sigset_t *set);

/* The names of these bits, and what has none. */
void bits_word(struct line *line, const char *name, const struct name *names, unsigned long bits);

#pragma GCC visibility pop

#endif
