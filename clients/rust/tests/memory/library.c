/* A library for tests/memory.rs: the user of a typed call, and the first byte of a line, are the code that is returned. */
#include <stdlib.h>
#include <string.h>
#include <tracehost.h>

enum { LONG = 1000 };

static const char last[] = "1001 1 ok\n";

static void wanted(bool truth)
{
    if (!truth)
        abort();
}

const char *tracehost_version(void) { return TRACEHOST_VERSION; }

uint32_t tracehost_open(bool kill_on_debugger_exit, tracehost *out)
{
    wanted(out->tag == 0);
    out->tag = kill_on_debugger_exit;
    return kill_on_debugger_exit ? TRACEHOST_ANSWERED : TRACEHOST_NO_MEMORY;
}

uint32_t tracehost_close(tracehost *h)
{
    wanted(h->tag != 0);
    h->tag = 0;
    return TRACEHOST_ANSWERED;
}

uint32_t tracehost_copy(tracehost *from, tracehost *to)
{
    wanted(from->tag != 0 && to->tag == 0);
    return TRACEHOST_NO_MEMORY;
}

uint32_t tracehost_line(tracehost *h, bool json, const uint8_t *line, size_t line_length, uint8_t *out, size_t out_size,
                        size_t *length)
{
    wanted(h->tag != 0 && line_length > 0);
    if (line[0] == '0') {
        memset(out, 'x', out_size);
        *length = LONG;
    }
    return line[0] - (uint32_t)'0';
}

uint32_t tracehost_last_line(tracehost *h, bool json, uint8_t *out, size_t out_size, size_t *length)
{
    wanted(h->tag != 0);
    *length = json ? LONG : strlen(last);
    if (json)
        memset(out, 'y', out_size);
    else
        memcpy(out, last, out_size < *length ? out_size : *length);
    return TRACEHOST_ANSWERED;
}

/* as an answer in JSON; the first time memory runs out */
uint32_t tracehost_last_step(tracehost *h, uint8_t *out, size_t out_size, size_t *length)
{
    static bool asked;
    wanted(h->tag != 0);
    if (!asked) {
        asked = true;
        return TRACEHOST_NO_MEMORY;
    }
    *length = LONG;
    memset(out, 'z', out_size);
    return TRACEHOST_ANSWERED;
}

uint32_t tracehost_view(tracehost *h, uint32_t user, tracehost_process *processes, size_t processes_size,
                        tracehost_lwp *lwps, size_t lwps_size, size_t *processes_length, size_t *lwps_length)
{
    wanted(h->tag != 0 && processes != NULL && lwps != NULL);
    *processes_length = processes_size < 4 ? processes_size + 1 : processes_size;
    *lwps_length = lwps_size;
    return user;
}

/* a typed call: the user is the code, and the reply is ENOMEM */
static uint32_t call(tracehost *h, uint32_t user, tracehost_reply *reply)
{
    wanted(h->tag != 0);
    if (user == TRACEHOST_ANSWERED) {
        reply->kind = TRACEHOST_ERROR;
        reply->error = 12;
    }
    return user;
}

uint32_t tracehost_spawn(tracehost *h, uint32_t user, tracehost_reply *reply) { return call(h, user, reply); }

uint32_t tracehost_list(tracehost *h, uint32_t user, uint32_t caller, tracehost_reply *reply)
{
    return call(h, user, reply);
}

uint32_t tracehost_sigaction(tracehost *h, uint32_t user, uint32_t caller, uint32_t signal, uint32_t disposition,
                             tracehost_reply *reply)
{
    return call(h, user, reply);
}

uint32_t tracehost_kill(tracehost *h, uint32_t user, uint32_t caller, int64_t which, uint32_t signal,
                        tracehost_reply *reply)
{
    return call(h, user, reply);
}

uint32_t tracehost_wait4(tracehost *h, uint32_t user, uint32_t caller, int64_t which, uint32_t options,
                         tracehost_reply *reply)
{
    return call(h, user, reply);
}

uint32_t tracehost_install(tracehost *h, uint32_t user, uint32_t caller, const tracehost_rule *rules, size_t count,
                           tracehost_reply *reply)
{
    wanted(rules != NULL);
    return call(h, user, reply);
}

uint32_t tracehost_handle(tracehost *h, uint32_t user, uint32_t caller, tracehost_reply *reply)
{
    return call(h, user, reply);
}

uint32_t tracehost_ptrace(tracehost *h, uint32_t user, uint32_t caller, uint32_t request, uint32_t target, uint32_t data,
                          tracehost_reply *reply)
{
    return call(h, user, reply);
}

uint32_t tracehost_turn(tracehost *h, uint32_t user, uint32_t lwp, uint32_t act, uint32_t call_number,
                        uint32_t argument, tracehost_reply *reply)
{
    return call(h, user, reply);
}

uint32_t tracehost_numbers(tracehost *h, uint32_t *out, size_t size, size_t *length)
{
    wanted(h->tag != 0 && out != NULL);
    *length = 0;
    return TRACEHOST_ANSWERED;
}
