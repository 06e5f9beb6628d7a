/* Plays sessions: group by group, a step and the turns that settle it, compared reply by reply and row by row. */
#include <stdlib.h>
#include <string.h>
#include "play.h"

enum verdict { VERDICT_SAME, VERDICT_LISTED, VERDICT_DIFFERS, VERDICT_NOT_TRIED };
enum { MOST_IGNORED = 64, MOST_REASONS = 32, NAME_TEXT = 128 };

int kills_on_debugger_exit = -1;

static struct {
    long sessions, steps, compared, rows, unlisted, not_tried;
    int reasons;
    struct {
        char why[NAME_TEXT];
        long times;
    } reason[MOST_REASONS];
} total;

/* A field of a row that is known to differ, for as long as it does. */
struct ignored {
    bool is_lwp;
    long number;
    char field[16];
};

static struct playing {
    const char *file;
    const struct session *session;
    long compared;
    enum verdict verdict;
    bool over;
    const struct line *where; /* the first difference, or why it is over */
    char step[LONG_TEXT], model[LONG_TEXT], kernel[LONG_TEXT];
    unsigned caught[MOST_LWPS][MODEL_SIGNALS];
    int ignored_count;
    struct ignored ignored[MOST_IGNORED];
} playing;

/* ---- differences */

static void note(const struct line *line, const char *step, const char *model, const char *kernel)
{
    playing.where = line;
    snprintf(playing.step, sizeof playing.step, "%s", step);
    snprintf(playing.model, sizeof playing.model, "%s", model);
    snprintf(playing.kernel, sizeof playing.kernel, "%s", kernel);
}

/* Whether the session goes on. */
static bool listed(struct known *known, const struct line *line, const char *step, const char *model, const char *kernel)
{
    known->times++;
    known->here = true;
    if (playing.verdict == VERDICT_SAME) {
        playing.verdict = VERDICT_LISTED;
        note(line, step, model, kernel);
    }
    playing.over = playing.over || !known->follows;
    return known->follows;
}

static void unlisted(const struct line *line, const char *step, const char *model, const char *kernel)
{
    total.unlisted++;
    playing.verdict = VERDICT_DIFFERS;
    playing.over = true;
    note(line, step, model, kernel);
    printf("%s:%d: %s: %s: kernel %s, model %s\n", playing.file, line->number, playing.session->name, step, kernel, model);
    fflush(stdout);
}

static void compare_reply(const struct line *line, const char *step, const char *model, const char *kernel)
{
    struct found found = {.line = line, .kills = playing.session->kills, .model = model, .kernel = kernel};
    if (playing.over)
        return;
    struct known *known = differences_find(&found);
    if (strcmp(model, kernel) == 0)
        return;
    if (known != NULL)
        listed(known, line, step, model, kernel);
    else
        unlisted(line, step, model, kernel);
}

/* The place of a row's field among the ignored ones, or behind them. */
static int place_of(const struct row_difference *row)
{
    int place = 0;
    while (place < playing.ignored_count &&
           (playing.ignored[place].number != row->number || playing.ignored[place].is_lwp != row->is_lwp ||
               strcmp(playing.ignored[place].field, row->field) != 0))
        place++;
    return place;
}

static void ignore(const struct row_difference *row, int place)
{
    if (place == MOST_IGNORED)
        fault("more differences of rows than there is room for");
    struct ignored *ignored = &playing.ignored[place];
    *ignored = (struct ignored){.is_lwp = row->is_lwp, .number = row->number};
    snprintf(ignored->field, sizeof ignored->field, "%s", row->field);
    playing.ignored_count++;
}

static void compare_row(const struct row_difference *row, void *with)
{
    char model[NAME_TEXT + 32], kernel[NAME_TEXT + 32], step[LONG_TEXT];
    const struct line *line = with;
    int place = place_of(row);
    if (row->same && place < playing.ignored_count)
        playing.ignored[place] = playing.ignored[--playing.ignored_count];
    if ((!row->same && place < playing.ignored_count) || playing.over)
        return;
    snprintf(model, sizeof model, "%s=%s", row->field, row->model);
    snprintf(kernel, sizeof kernel, "%s=%s", row->field, row->kernel);
    struct found found = {.line = line,
        .kills = playing.session->kills,
        .row_is_lwp = row->is_lwp,
        .row = row->number,
        .model = model,
        .kernel = kernel};
    snprintf(step, sizeof step, "%s: %s %ld", line->text, row->is_lwp ? "lwp" : "process", row->number);
    struct known *known = differences_find(&found);
    if (row->same)
        return;
    if (known == NULL)
        unlisted(line, step, model, kernel);
    else if (listed(known, line, step, model, kernel))
        ignore(row, place);
}

/* ---- handlers that have run */

static unsigned caught(int lwp, int number) { return atomic_load(&stage->slots[lwp].caught[number]); }

static void keep_caught(void)
{
    for (int lwp = 0; lwp < cast.lwps; lwp++)
        for (int number = 1; number < MODEL_SIGNALS; number++)
            playing.caught[lwp][number] = caught(lwp, number);
}

/* The model's turns that catch a signal are no acts of the player: they are compared with what handlers have counted. One that
 * differs is known by its own words, or by the step that began the group. */
static void expect_caught(const struct line *line, const struct line *began)
{
    int lwp = cast_lwp(line->actor), number = atoi(line->reply + strlen("caught "));
    if (lwp >= 0 && number >= 1 && number < MODEL_SIGNALS && playing.caught[lwp][number] < caught(lwp, number)) {
        playing.caught[lwp][number]++;
        return;
    }
    struct found found = {.line = line, .kills = playing.session->kills, .model = line->reply, .kernel = "ok"};
    struct known *known = differences_find(&found);
    found.line = began;
    known = known == NULL ? differences_find(&found) : known;
    if (known != NULL)
        listed(known, line, line->text, line->reply, "ok");
    else
        unlisted(line, line->text, line->reply, "ok");
}

static void compare_caught(const struct line *line)
{
    char step[64], kernel[32];
    for (int lwp = 0; lwp < cast.lwps; lwp++)
        for (int number = 1; number < MODEL_SIGNALS; number++) {
            if (playing.caught[lwp][number] == caught(lwp, number))
                continue;
            snprintf(step, sizeof step, "turn %ld compute", cast.lwp[lwp].number);
            snprintf(kernel, sizeof kernel, "caught %d", number);
            compare_reply(line, step, "ok", kernel);
        }
}

/* ---- a session */

static bool is_turn(const struct line *line, const char *act)
{
    return line->reply != NULL && line->op == OP_TURN && strcmp(line->words[0], act) == 0;
}

static void not_tried(const struct line *line, const char *why)
{
    int place = 0;
    total.not_tried++;
    playing.verdict = VERDICT_NOT_TRIED;
    playing.over = true;
    note(line, line->text, line->reply, why);
    while (place < total.reasons && strcmp(total.reason[place].why, why) != 0)
        place++;
    if (place == MOST_REASONS)
        return;
    if (place == total.reasons)
        snprintf(total.reason[total.reasons++].why, NAME_TEXT, "%.*s", NAME_TEXT - 1, why);
    total.reason[place].times++;
}

/* Behind the step: the turns that settle it, then rows. */
static size_t end_of_group(size_t at)
{
    const struct session *session = playing.session;
    size_t end = at + 1;
    while (end < session->count && (is_turn(&session->lines[end], "compute") || is_turn(&session->lines[end], "leave")))
        end++;
    while (end < session->count && session->lines[end].reply == NULL)
        end++;
    return end;
}

/* Whether one of the turns up to `end` stops the LWP of this one. */
static bool stops_again(const struct line *line, const struct line *end)
{
    for (const struct line *turn = line + 1; turn < end; turn++)
        if (is_turn(turn, "compute") && turn->actor == line->actor && strncmp(turn->reply, "stopped ", strlen("stopped ")) == 0)
            return true;
    return false;
}

static void make_and_compare(const struct line *line, const struct course *course)
{
    char got[LONG_TEXT];
    if (step_make(line, course, got, sizeof got) == NOT_TRIED) {
        not_tried(line, got);
        return;
    }
    playing.compared++;
    compare_reply(line, line->text, line->reply, got);
}

/* What the last turn of the group says of its process: behind it nothing has happened. */
static void compare_last(size_t at, size_t end)
{
    const struct line *line = NULL;
    for (size_t i = at; i < end; i++)
        if (is_turn(&playing.session->lines[i], "compute"))
            line = &playing.session->lines[i];
    int lwp = line == NULL ? -1 : cast_lwp(line->actor);
    if (lwp < 0)
        return;
    struct row_difference row = {.number = cast.process[cast.lwp[lwp].process].number, .field = "state"};
    if (place_of(&row) < playing.ignored_count) /* its row is known to differ */
        return;
    enum state state = cast_state(cast.lwp[lwp].process);
    bool ended = state == STATE_GONE || state == STATE_ZOMBIE;
    const char *kernel = is_stopped(state) ? "stopped" : ended ? "ended" : "ok";
    const char *model = strncmp(line->reply, "caught ", strlen("caught ")) == 0 ? "ok" : line->reply;
    bool told = strncmp(model, "held", strlen("held")) != 0 && strncmp(model, "error ", strlen("error ")) != 0;
    if (told && strncmp(model, kernel, strlen(kernel)) != 0)
        compare_reply(line, line->text, line->reply, kernel);
}

static void play_group(size_t at, size_t end)
{
    const struct line *lines = playing.session->lines;
    struct course course = {0};
    make_and_compare(&lines[at], &course);
    for (size_t i = at + 1; i < end && !playing.over; i++) {
        course = (struct course){.settles = lines[at].op != OP_TURN, .stops_again = stops_again(&lines[i], &lines[end])};
        if (is_turn(&lines[i], "leave"))
            make_and_compare(&lines[i], &course);
    }
    if (playing.over) /* an LWP may be in the midst of a call that nobody looks at */
        return;
    cast_settle();
    for (size_t i = at; i < end; i++)
        if (lines[i].reply == NULL)
            rows_state(&lines[i]);
    total.rows += rows_compare(compare_row, (void *)&lines[at]);
    for (size_t i = at; i < end && !playing.over; i++) {
        if (is_turn(&lines[i], "compute") && strncmp(lines[i].reply, "caught ", strlen("caught ")) == 0)
            expect_caught(&lines[i], &lines[at]);
        playing.compared += is_turn(&lines[i], "compute") && i > at;
    }
    compare_caught(&lines[at]);
    compare_last(at, end);
    keep_caught();
    rows_keep();
}

static bool setting_differs(const struct session *session)
{
    int kills = kills_on_debugger_exit >= 0 ? kills_on_debugger_exit : system_kills_on_debugger_exit();
    return kills >= 0 && kills != session->kills;
}

static void play_steps(void)
{
    const struct session *session = playing.session;
    if (setting_differs(session)) {
        not_tried(&session->lines[0], "kern.kill_on_debugger_exit has another value");
        return;
    }
    size_t at = 0, end;
    while (at < session->count && session->lines[at].reply == NULL) /* rows before any step */
        at++;
    for (; at < session->count && !playing.over; at = end) {
        end = end_of_group(at);
        play_group(at, end);
    }
}

static long count_steps(const struct session *session)
{
    long steps = 0;
    for (size_t i = 0; i < session->count; i++)
        steps += session->lines[i].reply != NULL;
    return steps;
}

/* Lines may have one name, which is told once. */
static bool is_first_here(int place)
{
    for (int i = 0; i < place; i++)
        if (differences_at(i)->here && strcmp(differences_at(i)->name, differences_at(place)->name) == 0)
            return false;
    return differences_at(place)->here;
}

static void write_result(FILE *results)
{
    static const char *const names[] = {"same", "listed", "differs", "not tried"};
    bool same = playing.verdict == VERDICT_SAME;
    fprintf(results, "%s\t%s", playing.session->name, names[playing.verdict]);
    for (int i = 0; i < differences_count(); i++)
        if (playing.verdict == VERDICT_LISTED && is_first_here(i))
            fprintf(results, " %s", differences_at(i)->name);
    fprintf(results, "\t%ld\t%ld\t%d\t%s\t%s\t%s\n", playing.compared, count_steps(playing.session),
        same ? 0 : playing.where->number, same ? "" : playing.step, same ? "" : playing.model, same ? "" : playing.kernel);
}

/* Whether somebody asks for stops at calls: then the LWPs make none of their own. */
static bool reports_calls(const struct session *session)
{
    static const char *const words[] = {"PT_TO_SCE", "PT_TO_SCX", "PT_SYSCALL", "PTRACE_SCE", "PTRACE_SCX", "PTRACE_SYSCALL"};
    for (size_t i = 0; i < session->count; i++)
        for (size_t word = 0; word < sizeof words / sizeof *words; word++)
            if (strstr(session->lines[i].text, words[word]) != NULL)
                return true;
    return false;
}

static bool traces(const struct session *session)
{
    for (size_t i = 0; i < session->count; i++)
        if (session->lines[i].reply != NULL && session->lines[i].op == OP_PTRACE)
            return true;
    return false;
}

/* A kernel that lets nobody trace answers no session. */
static void try_tracing(void)
{
    static bool tried;
    char why[128], error[64];
    struct command attach = {.act = ACT_PTRACE};
    if (tried)
        return;
    tried = true;
    int debugger = cast_add_lwp(1, cast_add_process(1, FIRST_USER)), target = cast_add_lwp(2, cast_add_process(2, FIRST_USER));
    cast_spawn(debugger, FIRST_USER);
    cast_spawn(target, FIRST_USER);
    attach.number = atomic_load(&stage->slots[target].process);
    if (!system_has_request("PT_ATTACH", &attach.option))
        return;
    enum outcome outcome = cast_ask(debugger, &attach);
    int number = stage->slots[debugger].answer.error;
    error_reply(number, error, sizeof error);
    system_why_untraced(why, sizeof why);
    if (outcome != OUT_DONE || number != 0)
        fault(
            "the kernel refuses ptrace(2): PT_ATTACH is answered by %s; %s", outcome == OUT_DONE ? error : "the caller's end", why);
    cast_clear();
}

static void play_session(const struct session *session, const char *file, FILE *results)
{
    playing.file = file, playing.session = session;
    playing.compared = 0, playing.verdict = VERDICT_SAME, playing.over = false;
    playing.where = NULL, playing.ignored_count = 0;
    for (int i = 0; i < differences_count(); i++)
        differences_at(i)->here = false;
    memset(playing.caught, 0, sizeof playing.caught);
    if (traces(session))
        try_tracing();
    atomic_store(&stage->silent, reports_calls(session));
    steps_begin();
    rows_begin();
    play_steps();
    cast_clear();
    total.sessions++;
    total.steps += count_steps(session);
    total.compared += playing.compared;
    if (results != NULL) {
        write_result(results);
        fflush(results);
    }
}

void play_file(FILE *file, const char *name, FILE *results)
{
    char why[LONG_TEXT];
    struct session session;
    struct reader *reader = reader_open(file, name);
    enum reading reading;
    while ((reading = reader_next(reader, &session, why, sizeof why)) == READ_SESSION) {
        play_session(&session, name, results);
        session_free(&session);
    }
    reader_close(reader);
    if (reading == READ_WRONG) {
        fprintf(stderr, "tracehost-play: %s\n", why);
        finish(STATUS_WRONG);
    }
}

int play_summary(FILE *results)
{
    long times, met;
    printf("%s: %ld sessions, %ld steps, %ld of them compared; %ld rows compared\n", system_name, total.sessions, total.steps,
        total.compared, total.rows);
    for (int i = 0; i < differences_count(); i++)
        if (differences_sum(i, &times, &met)) {
            printf("listed %s: %ld of %ld\n", differences_at(i)->name, times, met);
            if (results != NULL)
                fprintf(results, "difference\t%s\t%ld\t%ld\n", differences_at(i)->name, times, met);
        }
    for (int i = 0; i < total.reasons; i++)
        printf("not tried, %s: %ld\n", total.reason[i].why, total.reason[i].times);
    printf("unlisted: %ld\n", total.unlisted);
    if (total.unlisted > 0)
        return STATUS_DIFFERS;
    if (total.not_tried > 0 || total.compared == 0) {
        fprintf(
            stderr, "tracehost-play: %s\n", total.compared == 0 ? "nothing was played" : "not all of the sessions could be played");
        return STATUS_FAULT;
    }
    return STATUS_SAME;
}
