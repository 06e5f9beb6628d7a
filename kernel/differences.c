/* The list of known differences: a table, from which each difference that is found gets its name or none. */
#include <errno.h>
#include <fnmatch.h>
#include <stdlib.h>
#include <string.h>
#include "play.h"

enum { COLUMNS = 8 };
static const char *const columns[COLUMNS] = {"name", "step", "condition", "model", "kernel", "then", "why", "where"};

static struct known *known;
static int known_count;

static void wrong(const char *name, int line, const char *what)
{
    fprintf(stderr, "tracehost-play: %s:%d: %s\n", name, line, what);
    finish(STATUS_WRONG);
}

/* Cuts a line at its tabs; false if it hasn't the columns. */
static bool cut_columns(char *text, char **cells)
{
    text[strcspn(text, "\r\n")] = 0;
    int count = 0;
    for (char *at = text; at != NULL && count < COLUMNS; count++) {
        cells[count] = at;
        at = strchr(at, '\t');
        if (at != NULL)
            *at++ = 0;
        else if (count != COLUMNS - 1)
            return false;
        else
            return true;
    }
    return false;
}

static void add(const char *name, int line, char **cells)
{
    struct known *more = realloc(known, (size_t)(known_count + 1) * sizeof *known);
    if (more == NULL)
        fault("no memory");
    known = more;
    known[known_count++] = (struct known){.name = cells[0],
        .step = cells[1],
        .condition = cells[2],
        .model = cells[3],
        .kernel = cells[4],
        .follows = strcmp(cells[5], "follow") == 0};
    if (strcmp(cells[5], "follow") != 0 && strcmp(cells[5], "end") != 0)
        wrong(name, line, "`then` is neither `follow` nor `end`");
}

void differences_read(const char *name)
{
    char *text = NULL, *cells[COLUMNS];
    size_t room = 0;
    FILE *file = fopen(name, "r");
    if (file == NULL)
        fault("cannot read %s: %s", name, strerror(errno));
    int line = 1;
    for (; getline(&text, &room, file) >= 0; line++) {
        if (!cut_columns(text, cells))
            wrong(name, line, "not the eight columns of a difference, with tabs between them");
        for (int i = 0; line == 1 && i < COLUMNS; i++)
            if (strcmp(cells[i], columns[i]) != 0)
                wrong(name, line, "not the heading of a list of differences");
        if (line > 1)
            add(name, line, cells);
        text = line > 1 ? NULL : text; /* the cells stay */
    }
    if (ferror(file))
        fault("cannot read %s: %s", name, strerror(errno));
    if (line == 1)
        wrong(name, line, "not even the heading of a list of differences");
    fclose(file);
}

int differences_count(void) { return known_count; }
struct known *differences_at(int place) { return &known[place]; }

/* ---- conditions */

/* Whom a request or a signal is for, or whom the model's wait reports; 0: nobody. */
static long target_of(const struct line *line)
{
    int place = line->op == OP_PTRACE ? 1 : 0;
    long reported = 0;
    if (line->op == OP_WAIT4)
        return sscanf(line->reply, "status %ld", &reported) == 1 ? reported : 0;
    return (line->op == OP_PTRACE || line->op == OP_KILL) && line->count > place ? atol(line->words[place]) : 0;
}

/* Whom a name of a condition means; 0: nobody. */
static long who(const char *name, size_t length, const struct found *found, bool *is_lwp)
{
    const struct line *line = found->line;
    *is_lwp = false;
    if (strncmp(name, "row", length) == 0 || strncmp(name, "was", length) == 0) {
        *is_lwp = found->row_is_lwp;
        return found->row;
    }
    if (strncmp(name, "tracer", length) == 0) {
        char tracer[32];
        rows_field(false, false, found->row_is_lwp ? 0 : found->row, "tracer", tracer, sizeof tracer);
        return atol(tracer);
    }
    if (strncmp(name, "lwp", length) == 0) {
        *is_lwp = true;
        return line->op == OP_TURN ? line->actor : 0;
    }
    long number = line->actor;
    if (strncmp(name, "target", length) == 0)
        number = target_of(line);
    if (number >= FIRST_LWP) { /* also one that has ended */
        int lwp = cast_lwp(number);
        number = lwp < 0 ? 0 : cast.process[cast.lwp[lwp].process].number;
    }
    if (strncmp(name, "tracee", length) == 0)
        number = rows_stopped_tracee(number);
    return number;
}

/* The value of a side of a condition: WHO.FIELD, WHO, `data`, how many users have processes, a setting, or the words themselves. */
static void value_of(const char *side, const struct found *found, char *text, size_t size)
{
    static const char *const names[] = {"caller", "target", "row", "was", "tracer", "lwp", "tracee"};
    size_t length = strcspn(side, ".");
    bool is_lwp;
    snprintf(text, size, "%s", side);
    if (strcmp(side, "data") == 0)
        snprintf(text, size, "%s", found->line->op == OP_PTRACE && found->line->count > 2 ? found->line->words[2] : "0");
    if (strcmp(side, "users") == 0)
        snprintf(text, size, "%d", rows_users());
    if (strcmp(side, "kill_on_debugger_exit") == 0)
        snprintf(text, size, "%d", found->kills);
    for (size_t i = 0; i < sizeof names / sizeof *names; i++) {
        if (strlen(names[i]) != length || strncmp(side, names[i], length) != 0)
            continue;
        long number = who(side, length, found, &is_lwp);
        bool after = strcmp(names[i], "row") == 0 || strcmp(names[i], "tracee") == 0;
        if (side[length] == 0)
            snprintf(text, size, "%ld", number);
        else
            rows_field(after, is_lwp, number, side + length + 1, text, size);
    }
}

static bool holds(const char *word, const struct found *found)
{
    char left[256], right[256], name[256];
    const char *equals = strchr(word, '=');
    if (equals == NULL)
        return false;
    bool differs = equals > word && equals[-1] == '!';
    snprintf(name, sizeof name, "%.*s", (int)(equals - word) - differs, word);
    value_of(name, found, left, sizeof left);
    value_of(equals + 1, found, right, sizeof right);
    return (fnmatch(right, left, 0) == 0) != differs;
}

static bool all_hold(const char *condition, const struct found *found)
{
    char words[512];
    char *rest = NULL;
    snprintf(words, sizeof words, "%s", condition);
    for (char *word = strtok_r(words, " ", &rest); word != NULL; word = strtok_r(NULL, " ", &rest))
        if (!holds(word, found))
            return false;
    return true;
}

/* The words of the step without its user. */
static const char *step_words(const struct line *line)
{
    const char *colon = strchr(line->text, ':');
    return colon == NULL ? line->text : colon + 1 + strspn(colon + 1, " ");
}

/* Marks the lines whose step it is; most of what is compared belongs to the same step as before. */
static void mark_candidates(const char *step)
{
    static char last[LONG_TEXT];
    if (strcmp(last, step) == 0)
        return;
    snprintf(last, sizeof last, "%s", step);
    for (int i = 0; i < known_count; i++)
        known[i].candidate = fnmatch(known[i].step, step, 0) == 0;
}

struct known *differences_find(const struct found *found)
{
    struct known *first = NULL;
    bool same = strcmp(found->model, found->kernel) == 0;
    mark_candidates(step_words(found->line));
    for (int i = 0; i < known_count; i++) {
        if (!known[i].candidate || fnmatch(known[i].model, found->model, 0) != 0 || !all_hold(known[i].condition, found))
            continue;
        known[i].met++;
        if (first == NULL && !same && fnmatch(known[i].kernel, found->kernel, 0) == 0)
            first = &known[i];
    }
    return first;
}

/* Lines of one name count together. */
bool differences_sum(int place, long *times, long *met)
{
    *times = *met = 0;
    for (int i = 0; i < known_count; i++) {
        if (strcmp(known[i].name, known[place].name) != 0)
            continue;
        if (i < place)
            return false;
        *times += known[i].times;
        *met += known[i].met;
    }
    return true;
}
