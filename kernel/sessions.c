/* Reads sessions: a heading, a setting, steps with replies, rows of the model behind them, an empty line. */
#include <errno.h>
#include <stdlib.h>
#include <string.h>
#include "play.h"

struct reader {
    const char *name;
    int line;
    char *text, *rest; /* rest: NULL at the end */
};

static const struct {
    const char *name;
    int fewest, most; /* words behind the actor */
} ops[] = {[OP_SPAWN] = {"spawn", 0, 0},
    [OP_PTRACE] = {"ptrace", 1, MOST_WORDS},
    [OP_WAIT4] = {"wait4", 0, 4},
    [OP_KILL] = {"kill", 2, 2},
    [OP_SIGACTION] = {"sigaction", 2, 2},
    [OP_LIST] = {"list", 0, 0},
    [OP_INSTALL] = {"install", 0, MOST_WORDS},
    [OP_HANDLE] = {"handle", 0, 0},
    [OP_TURN] = {"turn", 1, MOST_WORDS}};
enum { OPS = sizeof ops / sizeof *ops };

/* The whole text at once: puppets inherit what is open, so the place in a file is theirs too. */
static char *text_of(FILE *file, const char *name)
{
    enum { ROOM = 1 << 20 };
    size_t size = 0, room = 0, got;
    char *text = NULL;
    do {
        if (room - size < ROOM && (text = realloc(text, room += room + 2 * ROOM)) == NULL)
            fault("no memory");
        got = fread(text + size, 1, room - size - 1, file);
        size += got;
    } while (got > 0);
    if (ferror(file))
        fault("cannot read %s: %s", name, strerror(errno));
    text[size] = 0;
    if (strlen(text) != size)
        fault("%s isn't a text: it has a NUL", name);
    return text;
}

struct reader *reader_open(FILE *file, const char *name)
{
    struct reader *reader = calloc(1, sizeof *reader);
    if (reader == NULL)
        fault("no memory");
    *reader = (struct reader){.name = name, .text = text_of(file, name)};
    reader->rest = reader->text;
    return reader;
}

void reader_close(struct reader *reader)
{
    free(reader->text);
    free(reader);
}

void session_free(struct session *session)
{
    for (size_t i = 0; i < session->count; i++) {
        free(session->lines[i].text);
        free(session->lines[i].reply);
        free(session->lines[i].words[MOST_WORDS - 1]);
    }
    free(session->lines);
    free(session->name);
    *session = (struct session){0};
}

static char *copy_of(const char *text)
{
    char *copy = strdup(text);
    if (copy == NULL)
        fault("no memory");
    return copy;
}

static bool is_number(const char *word, long *number)
{
    char *end;
    errno = 0;
    *number = strtol(word, &end, 10);
    return end != word && *end == 0 && errno == 0;
}

/* Cuts the text, which lives as long as the words, into words. */
static int cut(char *text, char **words)
{
    int count = 0;
    char *rest = NULL;
    for (char *word = strtok_r(text, " ", &rest); word != NULL; word = strtok_r(NULL, " ", &rest)) {
        if (count == MOST_WORDS - 1)
            return -1;
        words[count++] = word;
    }
    words[MOST_WORDS - 1] = text;
    return count;
}

/* The words of a step: [USER:] OP [ACTOR] [WORD ..]. */
static bool read_step(struct line *line)
{
    char **words = line->words;
    char *kept = copy_of(line->text);
    int count = cut(kept, words), first = 0;
    words[MOST_WORDS - 1] = kept;
    line->user = FIRST_USER;
    if (count > 0 && words[0][strlen(words[0]) - 1] == ':') {
        words[0][strlen(words[0]) - 1] = 0;
        if (!is_number(words[0], &line->user) || line->user < FIRST_USER || line->user >= FIRST_USER + USERS)
            return false;
        first = 1;
    }
    size_t op = 0;
    while (first < count && op < OPS && strcmp(words[first], ops[op].name) != 0)
        op++;
    if (first >= count || op == OPS)
        return false;
    line->op = (enum op)op;
    int actor = op == OP_SPAWN ? 0 : 1;
    line->count = count - first - 1 - actor;
    if (actor == 1 && (first + 1 >= count || !is_number(words[first + 1], &line->actor)))
        return false;
    for (int i = 0; i < line->count; i++)
        words[i] = words[first + 1 + actor + i];
    return line->count >= ops[op].fewest && line->count <= ops[op].most;
}

/* `= process N ..`, `= lwp N ..` or `= gone KIND N`. */
static bool read_row(struct line *line)
{
    char *kept = copy_of(line->text + 1);
    line->count = cut(kept, line->words);
    line->words[MOST_WORDS - 1] = kept;
    int kind = line->count > 0 && strcmp(line->words[0], "gone") == 0;
    return line->count > kind + 1 && (strcmp(line->words[kind], "process") == 0 || strcmp(line->words[kind], "lwp") == 0) &&
           is_number(line->words[kind + 1], &line->actor);
}

static bool read_line(struct line *line)
{
    if (line->text[0] == '=')
        return read_row(line);
    char *arrow = strstr(line->text, " -> ");
    if (arrow == NULL || arrow[4] == 0)
        return false;
    line->reply = copy_of(arrow + 4);
    *arrow = 0;
    return read_step(line);
}

static bool read_setting(const char *text, struct session *session)
{
    if (strcmp(text, "kill_on_debugger_exit: 0") != 0 && strcmp(text, "kill_on_debugger_exit: 1") != 0)
        return false;
    session->kills = text[strlen(text) - 1] == '1';
    return true;
}

static void add_line(struct session *session, int number, const char *text)
{
    enum { STEP = 64 };
    if (session->count % STEP == 0) {
        void *more = realloc(session->lines, (session->count + STEP) * sizeof *session->lines);
        if (more == NULL)
            fault("no memory");
        session->lines = more;
    }
    session->lines[session->count++] = (struct line){.number = number, .text = copy_of(text)};
}

/* The next line without its end; NULL behind the last one. */
static char *next_line(struct reader *reader)
{
    char *line = reader->rest;
    if (line == NULL || *line == 0)
        return NULL;
    reader->line++;
    size_t length = strcspn(line, "\n");
    reader->rest = line[length] == 0 ? NULL : line + length + 1;
    line[length] = 0;
    while (length > 0 && strchr("\r ", line[length - 1]) != NULL)
        line[--length] = 0;
    return line;
}

enum reading reader_next(struct reader *reader, struct session *session, char *why, size_t size)
{
    *session = (struct session){.kills = true};
    for (const char *text; (text = next_line(reader)) != NULL;) {
        if (*text == 0 && session->name != NULL && session->count > 0)
            return READ_SESSION;
        if (*text == 0 || (*text == '#' && session->name != NULL))
            continue;
        if (session->name == NULL && strncmp(text, "# ", 2) == 0) {
            session->name = copy_of(text + 2);
            continue;
        }
        if (session->name != NULL && session->count == 0 && read_setting(text, session))
            continue;
        snprintf(why, size, "%s:%d: %s: %.200s", reader->name, reader->line,
            session->name == NULL ? "no heading of a session" : "no step, row or setting", text);
        add_line(session, reader->line, text);
        if (session->name == NULL || !read_line(&session->lines[session->count - 1])) {
            session_free(session);
            return READ_WRONG;
        }
    }
    if (session->count > 0)
        return READ_SESSION;
    bool empty = session->name != NULL;
    snprintf(why, size, "%s:%d: a session without steps", reader->name, reader->line);
    session_free(session);
    return empty ? READ_WRONG : READ_END;
}
