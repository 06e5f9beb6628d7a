/* A session: tracehost_client.h describes each call. */
#define _POSIX_C_SOURCE 200809L

#include "internal.h"

#include <stdlib.h>
#include <string.h>
#include <unistd.h>

/* why the calling thread's last step was refused, in the session of this number; as errno, it is the thread's own */
#if __STDC_VERSION__ >= 201112L
static _Thread_local
#else
static __thread
#endif
    struct {
    unsigned long session;
    char fault[32], reason[1024];
    struct thp_step step; /* what was answered by an errno, or held */
    int error; /* which; 0 for none */
    unsigned long changes; /* of the session, when it was refused */
    char words[512];
} refusal;

const char *th_fault(const th_host *h) { return refusal.session == h->session ? refusal.fault : ""; }

const char *th_reason(const th_host *h) { return refusal.session == h->session ? refusal.reason : ""; }

/* ---------------------------------------------------------------- bytes that grow */

int thp_room_for(struct thp_text *text, size_t more)
{
    if (text->size - text->length >= more)
        return 0;
    size_t size = text->size < 256 ? 256 : text->size;
    while (size - text->length < more)
        size *= 2;
    char *bytes = realloc(text->bytes, size);
    if (bytes == NULL) {
        text->failed = 1;
        return -1;
    }
    text->bytes = bytes;
    text->size = size;
    return 0;
}

void thp_add_bytes(struct thp_text *text, const char *bytes, size_t length)
{
    if (length > 0 && thp_room_for(text, length) == 0) {
        memcpy(text->bytes + text->length, bytes, length);
        text->length += length;
    }
}

/* ---------------------------------------------------------------- start and end */

static unsigned long next_session(void)
{
    static pthread_mutex_t lock = PTHREAD_MUTEX_INITIALIZER;
    static unsigned long sessions;
    pthread_mutex_lock(&lock);
    unsigned long session = ++sessions;
    pthread_mutex_unlock(&lock);
    return session;
}

th_host *th_open(const struct th_settings *settings)
{
    static const tracehost closed = TRACEHOST_CLOSED;
    th_host *h = calloc(1, sizeof *h);
    if (h == NULL)
        return NULL;
    h->library = closed;
    h->kills = settings == NULL || settings->kill_on_debugger_exit != 0;
    h->scenario.number = h->lines.number = -1;
    h->session = next_session();
    h->owner = getpid();
    int error = thp_init_threads(h);
    if (error == 0 && tracehost_open(h->kills, &h->library) != TRACEHOST_ANSWERED) {
        thp_end_threads(h);
        error = ENOMEM;
    }
    if (error == 0)
        return h;
    free(h);
    errno = error;
    return NULL;
}

int thp_is_inherited(const th_host *h) { return getpid() != h->owner; }

void thp_break_off(th_host *h)
{
    h->broken = 1;
    thp_wake(h);
}

int th_close(th_host *h)
{
    if (h == NULL)
        return 0;
    thp_end_test(h);
    tracehost_close(&h->library);
    thp_close_record(h);
    if (!thp_is_inherited(h)) /* else it would wait for threads that sleep in the parent */
        thp_end_threads(h);
    free(h->step.bytes);
    free(h->answer.bytes);
    free(h->entry.bytes);
    free(h);
    return 0;
}

/* ---------------------------------------------------------------- a step and its answer */

/* The reason is kept without its indentation and its line feed, and cut. */
static void note_reason(th_host *h)
{
    char bytes[sizeof refusal.reason];
    thp_read_reason(h, bytes, sizeof bytes);
    size_t length = strlen(bytes);
    while (length > 0 && bytes[length - 1] == '\n')
        length--;
    bytes[length] = '\0';
    strcpy(refusal.reason, bytes + strspn(bytes, " "));
}

static void note_fault(const th_host *h)
{
    const char *fault = h->answer.bytes + strlen("refused ");
    size_t length = strcspn(fault, " ");
    if (length >= sizeof refusal.fault)
        length = sizeof refusal.fault - 1;
    memcpy(refusal.fault, fault, length);
    refusal.fault[length] = '\0';
}

/* what is refused, an errno, `held` and `nothing` leave all processes as they were, so that no wait can end by it */
static int changes_nothing(enum thp_kind kind)
{
    return kind == THP_REFUSED || kind == THP_ERROR || kind == THP_HELD || kind == THP_NOTHING;
}

void thp_note_refusal(const th_host *h, const struct thp_step *step, int error)
{
    refusal.session = h->session;
    refusal.fault[0] = refusal.reason[0] = '\0';
    refusal.error = error;
    refusal.changes = h->changes;
    if (error != 0)
        refusal.step = *step;
}

const char *th_explain(th_host *h)
{
    int error = errno;
    if (refusal.session != h->session)
        return "";
    if (refusal.error == 0)
        return refusal.reason[0] != '\0' ? refusal.reason : refusal.fault;
    thp_enter(h);
    thp_explain(h, &refusal.step, refusal.error, refusal.changes == h->changes, refusal.words, sizeof refusal.words);
    thp_leave(h);
    errno = error;
    return refusal.words;
}

/* the errno that a reply of the model is; 0 for none */
static int error_of(const struct thp_reply *reply)
{
    return reply->kind == THP_HELD ? TH_EHELD : reply->kind == THP_ERROR ? reply->error : 0;
}

/* What an answer does beside its reply. */
static int note_answer(th_host *h, const struct thp_step *step, const struct thp_reply *reply)
{
    h->answered = 1;
    thp_note_refusal(h, step, error_of(reply));
    if (reply->kind == THP_REFUSED) {
        note_fault(h);
        note_reason(h);
    }
    if (!changes_nothing(reply->kind)) {
        h->changes++;
        thp_wake(h);
    }
    return thp_record(h, reply);
}

int thp_ask(th_host *h, const struct thp_step *step, struct thp_reply *reply)
{
    if (h->broken) {
        errno = EPIPE;
        return -1;
    }
    h->asked++;
    if (thp_make(h, step, reply) != 0 || note_answer(h, step, reply) != 0)
        return -1;
    if (step->op == THP_LINE)
        return 0;
    int error = reply->kind == THP_REFUSED ? TH_EREFUSED : error_of(reply);
    if (error == 0)
        return 0;
    errno = error;
    return -1;
}

/* ---------------------------------------------------------------- a line of the caller's */

/* the answer's first size - 1 bytes; its whole length */
static ssize_t copy_answer(const th_host *h, char *answer, size_t size)
{
    size_t length = h->answer.length - 1;
    if (size > 0) {
        size_t kept = length < size ? length : size - 1;
        memcpy(answer, h->answer.bytes, kept);
        answer[kept] = '\0';
    }
    return (ssize_t)length;
}

ssize_t th_step_text(th_host *h, const char *line, char *answer, size_t size)
{
    if (strchr(line, '\n') != NULL) {
        errno = EINVAL;
        return -1;
    }
    struct thp_step step = {.op = THP_LINE, .line = line};
    struct thp_reply reply;
    thp_enter(h);
    ssize_t length = thp_ask(h, &step, &reply) == 0 ? copy_answer(h, answer, size) : -1;
    thp_leave(h);
    return length;
}
