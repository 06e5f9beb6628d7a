/*
 * Calls with odd numbers among them. What a call returns and stores is the same whether the session is recorded or not.
 *
 *     random_calls FOLDER FROM TO       a session for each seed; with PRINT in the environment, prints what calls return
 *
 * The record of a seed is in FOLDER, as SEED.json and SEED.out. Printed is how many calls were answered by a reply.
 */
#define _POSIX_C_SOURCE 200809L

#include "../tracehost_client.h"

#include <stdio.h>
#include <stdlib.h>
#include <string.h>

enum { CALLS = 150, NUMBERS = 1000, WAYS = 2 }; /* a user has at most so many LWPs */

static uint64_t state;

static unsigned below(unsigned limit)
{
    state = state * 6364136223846793005u + 1442695040888963407u;
    return (unsigned)(state >> 33) % limit;
}

/* one of `count` values; seldom an odd one */
static int pick(const int *values, unsigned count)
{
    static const int odd[] = {0, 1, -1, -2, 31, 32, 64, 128, 255, 256, 65536, 99999, 2147483647, -2147483647 - 1};
    return below(20) == 0 ? odd[below(sizeof odd / sizeof *odd)] : values[below(count)];
}

#define PICK(...) pick((const int[]){__VA_ARGS__}, sizeof((const int[]){__VA_ARGS__}) / sizeof(int))

static int a_user(void)
{
    return below(40) == 0 ? PICK(0, 1000, 1064, 1065, -1) : PICK(1001, 1001, 1001, 1001, 1001, 1001, 1001, 1002);
}
static int a_caller(void) { return PICK(1000, 1000, 1000, 1000, 1000, 1001, 2000); }
static int a_process(void) { return PICK(1001, 1001, 1001, 1002, 1002, 1003, 2000, 100001); }
static int an_lwp(void) { return PICK(100000, 100001, 100001, 100002, 100002, 100003, 104000); }
static int a_signal(void)
{
    return below(30) == 0 ? PICK(TH_SIGKILL, TH_SIGTERM, TH_SIGUSR1, TH_SIGTRAP)
                          : PICK(0, 0, TH_SIGSTOP, TH_SIGCONT, TH_SIGURG, TH_SIGCHLD);
}

/* what a call is made with */
struct drawn {
    unsigned call;
    int user, process, target, lwp, signal, request, data, which, options, action, act, set, outputs;
    unsigned count;
    struct th_rule rules[18];
};

static struct drawn draw(void)
{
    static const int requests[] = {TH_PT_TRACE_ME, TH_PT_CONTINUE, TH_PT_CONTINUE, TH_PT_KILL, TH_PT_STEP, TH_PT_ATTACH,
        TH_PT_ATTACH, TH_PT_DETACH, TH_PT_LWPINFO, TH_PT_LWPINFO, TH_PT_GETNUMLWPS, TH_PT_GETLWPLIST, TH_PT_SUSPEND, TH_PT_RESUME,
        TH_PT_TO_SCE, TH_PT_TO_SCX, TH_PT_SYSCALL, TH_PT_FOLLOW_FORK, TH_PT_LWP_EVENTS, TH_PT_GET_EVENT_MASK, TH_PT_SET_EVENT_MASK};
    struct drawn drawn = {.call = below(21), .user = a_user(), .process = a_caller(), .target = a_process(), .lwp = an_lwp()};
    drawn.request = pick(requests, sizeof requests / sizeof *requests);
    drawn.signal = a_signal();
    drawn.data = PICK(0, 0, 4, 28, TH_SIGUSR1, 63);
    drawn.which = below(3) ? -1 : a_process();
    drawn.options = PICK(0, TH_WNOHANG, TH_WUNTRACED, TH_WUNTRACED | TH_WCONTINUED, 7);
    drawn.action = PICK(TH_SIG_DFL, TH_SIG_IGN, TH_SIG_CATCH);
    drawn.act = PICK(TH_CALL_FORK, TH_CALL_FORK, TH_CALL_VFORK, TH_CALL_EXEC, TH_CALL_THR_NEW, TH_CALL_THR_NEW, TH_CALL_OTHER);
    if (below(20) == 0)
        drawn.act = PICK(TH_CALL_EXIT, TH_CALL_THR_EXIT);
    drawn.set = PICK(0, 1 << 4, 0x7fffffff, 0x1234);
    drawn.outputs = (int)below(4);
    drawn.count = below(30) == 0 ? 16 + below(3) : below(4);
    for (unsigned i = 0; i < drawn.count; i++) {
        struct th_rule *rule = &drawn.rules[i];
        rule->signal = a_signal();
        rule->flags = PICK(0, 0, TH_PL_FLAG_SCE, TH_PL_FLAG_CHILD | TH_PL_FLAG_FORKED, TH_PL_FLAG_VFORK_DONE);
        rule->decision = (enum th_decision)PICK(TH_DECLINE, TH_LEAVE, TH_CONTINUE, TH_CONTINUE, TH_DETACH, TH_KILL);
        rule->pass = below(2) ? 0 : a_signal();
    }
    return drawn;
}

/* room for what a call stores */
struct stored {
    union {
        struct th_lwpinfo info;
        struct th_handled handled;
        struct th_turned turned;
        int32_t numbers[NUMBERS];
    } room;
    int status;
    char text[200];
};

static long ask(th_host *h, const struct drawn *d, struct stored *stored)
{
    static const int sizes[] = {sizeof(int), 0, sizeof(struct th_lwpinfo), 3};
    th_caller self = {(unsigned)d->user, d->process};
    int32_t *numbers = stored->room.numbers;
    struct th_turned *turned = d->outputs ? &stored->room.turned : NULL;
    int size = d->request == TH_PT_LWPINFO ? (int)sizeof(struct th_lwpinfo) : (int)sizeof(int);
    char line[200];
    if (d->request == TH_PT_SET_EVENT_MASK)
        numbers[0] = d->data;
    switch (d->call) {
    case 0: return th_spawn(h, self.user, d->outputs & 1 ? &numbers[0] : NULL, d->outputs & 2 ? &numbers[1] : NULL);
    case 1: return th_list(h, self, d->outputs ? numbers : NULL, d->outputs ? (size_t)d->outputs : 0);
    case 2: return th_ptrace(h, self, d->request, d->target, &stored->room, sizes[d->outputs]);
    case 3: return th_kill(h, self, d->target, d->signal);
    case 4: return th_sigaction(h, self, d->signal, (enum th_action)d->action);
    case 5: return th_install(h, self, d->rules, d->count);
    case 6: return th_handle(h, self, d->outputs ? &stored->room.handled : NULL);
    case 7: return th_wait4(h, self, d->which, d->outputs ? &stored->status : NULL, d->options);
    case 8: return th_wait4_block(h, self, d->which, &stored->status, d->options, 0);
    case 9: return th_handle_block(h, self, &stored->room.handled, 0);
    case 10: return th_turn_raise(h, self.user, d->lwp, d->signal, turned);
    case 11: return th_turn_block(h, self.user, d->lwp, (th_sigset)d->set, turned);
    case 12:
    case 13: return th_turn_enter(h, self.user, d->lwp, (enum th_call)d->act, (unsigned)d->data, turned);
    case 14:
    case 15: return th_turn_leave(h, self.user, d->lwp, turned);
    case 16: return th_turn_compute(h, self.user, d->lwp, turned);
    case 17:
        snprintf(line, sizeof line, "{\"user\":%d,\"op\":\"wait4\",\"caller\":%d,\"which\":%d}", d->user, d->process, d->which);
        return th_step_text(h, line, stored->text, sizeof stored->text);
    default: return th_ptrace(h, self, d->request, d->target, &stored->room, d->call == 20 ? d->data : size);
    }
}

/* Makes a call in both sessions; whether it was answered by a reply. */
static int make_call(th_host *hosts[WAYS], const struct drawn *drawn, unsigned long seed)
{
    static struct stored stored[WAYS];
    char told[WAYS][128];
    memset(stored, 0x55, sizeof stored);
    for (int way = 0; way < WAYS; way++) {
        long result = ask(hosts[way], drawn, &stored[way]);
        int error = result < 0 ? errno : 0;
        snprintf(told[way], sizeof told[way], "%ld %d %s", result, error, error == TH_EREFUSED ? th_fault(hosts[way]) : "");
    }
    if (getenv("PRINT") != NULL)
        printf("%lu %u: %s; %d %d %d\n", seed, drawn->call, told[1], stored[1].status, stored[1].room.numbers[1],
            stored[1].room.numbers[4]);
    if (strcmp(told[0], told[1]) != 0 || memcmp(&stored[0], &stored[1], sizeof stored[0]) != 0) {
        printf("seed %lu, call %u: '%s' recorded, '%s' not\n", seed, drawn->call, told[0], told[1]);
        exit(1);
    }
    return told[0][0] != '-';
}

/* two sessions, and a record of the first one; returns how many calls a reply answered */
static int session(const char *folder, unsigned long seed)
{
    struct th_settings settings = {seed % 3 != 0};
    th_host *hosts[WAYS] = {th_open(&settings), th_open(&settings)};
    char scenario[4096], lines[4096];
    int answered = 0;
    state = seed;
    snprintf(scenario, sizeof scenario, "%s/%lu.json", folder, seed);
    snprintf(lines, sizeof lines, "%s/%lu.out", folder, seed);
    if (hosts[0] == NULL || hosts[1] == NULL || th_record(hosts[0], scenario, lines) != 0) {
        perror("random_calls: a session");
        exit(1);
    }
    for (int count = 0; count < CALLS; count++) {
        struct drawn spawn = {.user = 1001}, drawn = count < 3 ? spawn : draw();
        answered += make_call(hosts, &drawn, seed);
    }
    for (int way = 0; way < WAYS; way++)
        if (th_close(hosts[way]) != 0)
            exit(1);
    return answered;
}

int main(int argc, char **argv)
{
    unsigned long answered = 0;
    if (argc != 4)
        return 2;
    for (unsigned long seed = strtoul(argv[2], NULL, 10); seed < strtoul(argv[3], NULL, 10); seed++)
        answered += (unsigned long)session(argv[1], seed);
    printf("%lu\n", answered);
    return 0;
}
