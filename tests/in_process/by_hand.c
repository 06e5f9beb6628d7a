/* The calls of the library, with the values that docs/FORMAT.md and <sys/ptrace.h> give. */
#include "tracehost.h"
#undef NDEBUG
#include <assert.h>
#include <string.h>

static void same(const uint8_t *out, size_t length, const char *want) {
    assert(length == strlen(want) && memcmp(out, want, length) == 0);
}

enum { SIGINT_BIT = 1 << 1, SIGKILL_BIT = 1 << 8, SIGSTOP_BIT = 1 << 16 };

static void blocks_and_views(void) {
    tracehost h = TRACEHOST_CLOSED;
    tracehost_reply reply;
    tracehost_process processes[3];
    tracehost_lwp lwps[3];
    size_t process_count = 99, lwp_count = 99;
    assert(tracehost_view(&h, 1001, processes, 3, lwps, 3, &process_count, &lwp_count) == TRACEHOST_NOT_OPEN);
    assert(tracehost_open(true, &h) == 0);
    assert(tracehost_view(&h, 1065, processes, 3, lwps, 3, &process_count, &lwp_count) == TRACEHOST_INVALID);
    assert(process_count == 99 && lwp_count == 99);
    assert(tracehost_spawn(&h, 1002, &reply) == 0);
    assert(tracehost_view(&h, 1001, processes, 3, lwps, 3, &process_count, &lwp_count) == 0);
    assert(process_count == 0 && lwp_count == 0);
    for (int i = 0; i < 3; i++) assert(tracehost_spawn(&h, 1001, &reply) == 0);
    assert(tracehost_ptrace(&h, 1001, 1000, TRACEHOST_PT_ATTACH, 1001, 0, &reply) == 0 && reply.kind == TRACEHOST_OK);
    assert(tracehost_turn(&h, 1001, 100000, TRACEHOST_BLOCK, 0, UINT32_C(1) << 31, &reply) == TRACEHOST_INVALID);
    assert(tracehost_turn(&h, 1001, 100000, TRACEHOST_BLOCK, 0, SIGINT_BIT | SIGKILL_BIT | SIGSTOP_BIT, &reply) == 0);
    assert(reply.kind == TRACEHOST_OK);
    memset(processes, 0xff, sizeof processes);
    assert(tracehost_view(&h, 1001, processes, 2, lwps, 3, &process_count, &lwp_count) == 0);
    assert(process_count == 3 && lwp_count == 3 && processes[2].pid == UINT32_MAX);
    assert(processes[0].pid == 1000 && processes[0].state == 0 && processes[0].tracer == 0);
    assert(processes[1].pid == 1001 && processes[1].tracer == 1000 && processes[1].state == 1);
    assert(processes[1].lwp == 100001 && processes[1].signal == 17 && processes[1].told == 0);
    assert(lwps[0].lwp == 100000 && lwps[0].pid == 1000 && lwps[0].blocked == SIGINT_BIT && lwps[1].blocked == 0);
    assert(lwps[2].lwp == 100002 && lwps[2].pid == 1002 && lwps[2].mode == 0);
    assert(tracehost_view(&h, 1001, processes, 0, lwps, 0, &process_count, &lwp_count) == 0);
    assert(process_count == 3 && lwp_count == 3 && processes[0].pid == 1000);
    assert(tracehost_close(&h) == 0);
}

static void rules(void) {
    tracehost h = TRACEHOST_CLOSED;
    tracehost_reply reply;
    tracehost_rule rules[17] = {{0, 5, TRACEHOST_KILL, 0}, {0, 17, TRACEHOST_CONTINUE, 0}};
    assert(tracehost_open(true, &h) == 0);
    assert(tracehost_spawn(&h, 1001, &reply) == 0 && tracehost_spawn(&h, 1001, &reply) == 0);
    assert(tracehost_install(&h, 1001, 1000, rules, 17, &reply) == TRACEHOST_INVALID);
    rules[2].flags = 512;
    assert(tracehost_install(&h, 1001, 1000, rules, 3, &reply) == TRACEHOST_INVALID);
    rules[2] = (tracehost_rule){0, 32, TRACEHOST_KILL, 0};
    assert(tracehost_install(&h, 1001, 1000, rules, 3, &reply) == TRACEHOST_INVALID);
    rules[2] = (tracehost_rule){0, 0, 5, 0};
    assert(tracehost_install(&h, 1001, 1000, rules, 3, &reply) == TRACEHOST_INVALID);
    rules[2] = (tracehost_rule){0, 0, TRACEHOST_DETACH, 32};
    assert(tracehost_install(&h, 1001, 1000, rules, 3, &reply) == TRACEHOST_INVALID);
    assert(tracehost_install(&h, 1001, 1000, rules, 2, &reply) == 0);
    assert(tracehost_ptrace(&h, 1001, 1000, TRACEHOST_PT_ATTACH, 1001, 0, &reply) == 0);
    assert(tracehost_handle(&h, 1001, 1000, &reply) == 0 && reply.kind == TRACEHOST_HANDLED);
    assert(reply.pid == 1001 && reply.stop_pid == 1001 && reply.lwp == 100001 && reply.signal == 17);
    assert(reply.has_handler == 1 && reply.handler == 0);
    assert(reply.decision == TRACEHOST_CONTINUE && reply.pass == 0);
    assert(tracehost_close(&h) == 0);
}

static void copies(void) {
    tracehost h = TRACEHOST_CLOSED, copy = TRACEHOST_CLOSED, other = TRACEHOST_CLOSED;
    tracehost_reply reply;
    uint8_t out[64];
    size_t length;
    assert(tracehost_copy(&h, &copy) == TRACEHOST_NOT_OPEN);
    assert(tracehost_open(true, &h) == 0 && tracehost_open(true, &other) == 0);
    assert(tracehost_spawn(&h, 1001, &reply) == 0 && reply.pid == 1000);
    assert(tracehost_copy(&h, &other) == TRACEHOST_NOT_OPEN);
    assert(tracehost_list(&other, 1001, 1000, &reply) == 0 && reply.kind == TRACEHOST_ERROR && reply.error == 3);
    assert(tracehost_copy(&h, &copy) == 0);
    assert(tracehost_last_line(&copy, false, out, sizeof out, &length) == 0);
    same(out, length, "1001 1 new 1000 100000\n");
    assert(tracehost_spawn(&copy, 1001, &reply) == 0 && reply.pid == 1001 && reply.lwp == 100001);
    assert(tracehost_list(&h, 1001, 1000, &reply) == 0 && reply.kind == TRACEHOST_PIDS && reply.count == 1);
    assert(tracehost_spawn(&h, 1001, &reply) == 0 && reply.pid == 1001 && reply.lwp == 100001);
    assert(tracehost_close(&h) == 0);
    assert(tracehost_list(&copy, 1001, 1000, &reply) == 0 && reply.count == 2);
    assert(tracehost_close(&copy) == 0 && tracehost_close(&other) == 0);
}

int main(void) {
    blocks_and_views();
    copies();
    rules();
    tracehost h = TRACEHOST_CLOSED, other = TRACEHOST_CLOSED;
    tracehost_reply debugger, target, reply;
    uint8_t out[64];
    uint32_t numbers[8];
    size_t length = 99;
    assert(tracehost_spawn(&h, 1001, &debugger) == TRACEHOST_NOT_OPEN);
    assert(tracehost_close(&h) == TRACEHOST_NOT_OPEN);
    assert(tracehost_open(true, &h) == 0 && tracehost_open(true, &h) == TRACEHOST_NOT_OPEN);
    assert(tracehost_open(false, &other) == 0);
    assert(tracehost_last_line(&h, false, out, sizeof out, &length) == 0 && length == 0);
    assert(tracehost_spawn(&h, 1000, &debugger) == TRACEHOST_INVALID);
    assert(tracehost_spawn(&h, 1001, &debugger) == 0 && debugger.kind == TRACEHOST_NEW
           && debugger.pid == 1000 && debugger.lwp == 100000);
    assert(tracehost_spawn(&h, 1001, &target) == 0 && target.pid == 1001);
    assert(tracehost_ptrace(&h, 1001, 1000, 12, 1001, 0, &reply) == TRACEHOST_INVALID);
    assert(tracehost_ptrace(&h, 1001, 1000, TRACEHOST_PT_ATTACH, 1001, 0, &reply) == 0 && reply.kind == TRACEHOST_OK);
    assert(tracehost_wait4(&h, 1001, 1000, -1, 8, &reply) == TRACEHOST_INVALID);
    assert(tracehost_wait4(&h, 1001, 1000, -1, 0, &reply) == 0 && reply.kind == TRACEHOST_STATUS
           && reply.pid == 1001 && reply.status == 17 * 256 + 127 && reply.stop_pid == 0);
    assert(tracehost_last_line(&h, false, out, sizeof out, &length) == 0);
    same(out, length, "1001 4 status 1001 4479\n");
    const char *line = "{\"user\":1001,\"op\":\"list\",\"caller\":1000}";
    for (size_t room = 0; room < 24; room++) {
        memset(out, 'x', sizeof out);
        assert(tracehost_line(&h, false, (const uint8_t *)line, strlen(line), out, room, &length) == 0);
        assert(out[room < length ? room : length] == 'x');
    }
    assert(tracehost_last_line(&h, false, out, sizeof out, &length) == 0);
    same(out, length, "1001 28 pids 1000 1001\n");
    assert(tracehost_numbers(&h, numbers, 8, &length) == 0 && length == 2 && numbers[0] == 1000
           && numbers[1] == 1001);
    assert(tracehost_line(&h, true, (const uint8_t *)"fly", 3, out, sizeof out, &length) == 0);
    same(out, length, "{\"refused\":\"BadJson\"}\n");
    assert(tracehost_list(&other, 1001, 1000, &reply) == 0 && reply.kind == TRACEHOST_ERROR && reply.error == 3);
    assert(tracehost_turn(&h, 1001, 100000, TRACEHOST_ENTER, TRACEHOST_EXIT, 256, &reply) == TRACEHOST_INVALID);
    assert(tracehost_turn(&h, 1001, 100000, TRACEHOST_COMPUTE, 0, 0, &reply) == 0);
    assert(reply.kind == TRACEHOST_OK);
    assert(tracehost_kill(&h, 1001, 1000, 1001, 9, &reply) == 0);
    assert(tracehost_sigaction(&h, 1001, 1000, 5, 3, &reply) == TRACEHOST_INVALID);
    assert(tracehost_sigaction(&h, 1001, 1000, 5, TRACEHOST_IGNORE, &reply) == 0 && reply.kind == TRACEHOST_OK);
    assert(tracehost_handle(&h, 1001, 1000, &reply) == 0);
    assert(tracehost_close(&h) == 0 && tracehost_close(&h) == TRACEHOST_NOT_OPEN && tracehost_close(&other) == 0);
    return 0;
}
