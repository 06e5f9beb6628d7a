/*
 * Random calls of the library, on four handles, with rooms that end at a page which can't be touched, and a word before them
 * that has to stay. A call that is refused doesn't write its reply; a closed handle refuses each call.
 *
 *     guarded FROM TO        a run of up to 400 calls for each seed
 */
#define _GNU_SOURCE

#include <stdio.h>
#include <stdlib.h>
#include <string.h>
#include <sys/mman.h>
#include <tracehost.h>

enum { HANDLES = 4, ROOM = 1 << 17, PAGE = 4096, WORD = 0x5a5a5a5a, UNTOUCHED = 7 };

static uint64_t state;
static uint8_t *ends[2]; /* the ends of two rooms */

#define CHECK(truth) \
    do { \
        if (!(truth)) { \
            fprintf(stderr, "FAILED: line %d: %s\n", __LINE__, #truth); \
            exit(1); \
        } \
    } while (0)

static uint32_t below(uint32_t limit)
{
    state = state * 6364136223846793005u + 1442695040888963407u;
    return (uint32_t)(state >> 33) % limit;
}

static uint8_t *new_room(void)
{
    uint8_t *pages = mmap(NULL, ROOM + PAGE, PROT_READ | PROT_WRITE, MAP_PRIVATE | MAP_ANONYMOUS, -1, 0);
    CHECK(pages != MAP_FAILED && mprotect(pages + ROOM, PAGE, PROT_NONE) == 0);
    return pages + ROOM;
}

/* the last `size` bytes of a room, with a word before them; `size` is a multiple of 4 if words are stored */
static void *guarded(int which, size_t size)
{
    uint32_t word = WORD;
    memcpy(ends[which] - size - 4, &word, 4);
    return ends[which] - size;
}

static int is_guarded(int which, size_t size)
{
    uint32_t word;
    memcpy(&word, ends[which] - size - 4, 4);
    return word == WORD;
}

/* mostly a number that names something, of one of two users */
static uint32_t number(void)
{
    switch (below(8)) {
    case 0: return 1000 + below(6);
    case 1: return 100000 + below(6);
    case 2: return below(40);
    case 3: return 2000 + below(3);
    case 4: return 104000 + below(3);
    case 5: return 1001 + below(2);
    case 6: return UINT32_MAX - below(3);
    default: return below(UINT32_MAX);
    }
}

static uint32_t user(void)
{
    return below(9) != 0 ? 1001 + below(2) : number();
}

static int64_t signed_number(void)
{
    return below(3) == 0 ? -1 - (int64_t)below(2) : (int64_t)number();
}

/* ---------------------------------------------------------------- calls with rooms */

static void make_line(tracehost *h)
{
    static const char *const lines[] = {
        "{\"user\":1001,\"op\":\"spawn\"}", "{\"user\":1001,\"op\":\"list\",\"caller\":1000}", "{", "",
        "{\"user\":1002,\"op\":\"turn\",\"lwp\":104000,\"act\":\"compute\"}", "{\"user\":1001,\"op\":\"fly\"}",
    };
    const char *line = lines[below(sizeof lines / sizeof *lines)];
    size_t size = below(2) ? below(60) : below(70000), length = UNTOUCHED, given = below(10) ? strlen(line) : 65500 + below(80);
    uint8_t *text = guarded(1, given), *out = guarded(0, size);
    memset(text, ' ', given);
    memcpy(text, line, given < strlen(line) ? given : strlen(line));
    uint32_t code = tracehost_line(h, below(2), text, given, out, size, &length);
    CHECK(is_guarded(0, size) && is_guarded(1, given));
    CHECK(code == (h->tag != 0 ? TRACEHOST_ANSWERED : TRACEHOST_NOT_OPEN));
    if (code != TRACEHOST_ANSWERED)
        CHECK(length == UNTOUCHED);
    else if (length <= size)
        CHECK(length > 0 && out[length - 1] == '\n' && memchr(out, '\n', length - 1) == NULL);
}

static void read_back(tracehost *h)
{
    size_t size = below(100), count = below(8), length = UNTOUCHED, numbers = UNTOUCHED;
    uint8_t *out = guarded(0, size);
    uint32_t code = tracehost_last_line(h, below(2), out, size, &length);
    CHECK(is_guarded(0, size) && code == (h->tag != 0 ? TRACEHOST_ANSWERED : TRACEHOST_NOT_OPEN));
    code = tracehost_numbers(h, guarded(1, count * 4), count, &numbers);
    CHECK(is_guarded(1, count * 4) && code == (h->tag != 0 ? TRACEHOST_ANSWERED : TRACEHOST_NOT_OPEN));
    CHECK(h->tag != 0 || (length == UNTOUCHED && numbers == UNTOUCHED));
}

static void look(tracehost *h)
{
    size_t processes = below(5), lwps = below(5), count[2] = {UNTOUCHED, UNTOUCHED};
    uint32_t uid = user(), is_user = uid >= 1001 && uid <= 1064;
    uint32_t code = tracehost_view(h, uid, guarded(0, processes * sizeof(tracehost_process)), processes,
                                   guarded(1, lwps * sizeof(tracehost_lwp)), lwps, &count[0], &count[1]);
    CHECK(is_guarded(0, processes * sizeof(tracehost_process)) && is_guarded(1, lwps * sizeof(tracehost_lwp)));
    CHECK(code == (h->tag == 0 ? TRACEHOST_NOT_OPEN : is_user ? TRACEHOST_ANSWERED : TRACEHOST_INVALID));
}

static uint32_t install(tracehost *h, tracehost_reply *reply)
{
    size_t count = below(19);
    tracehost_rule *rules = guarded(0, count * sizeof *rules);
    for (size_t i = 0; i < count; i++)
        rules[i] = (tracehost_rule){below(20) ? below(512) : number(), below(34), below(6), below(34)};
    return tracehost_install(h, user(), number(), rules, count, reply);
}

/* ---------------------------------------------------------------- sessions */

static void open_close_or_copy(tracehost *h, tracehost *other)
{
    bool was_open = h->tag != 0;
    if (below(2)) {
        CHECK(tracehost_open(below(2), h) == (was_open ? TRACEHOST_NOT_OPEN : TRACEHOST_ANSWERED));
    } else if (below(6) == 0) {
        CHECK(tracehost_close(h) == (was_open ? TRACEHOST_ANSWERED : TRACEHOST_NOT_OPEN) && h->tag == 0);
    } else if (h != other) {
        bool is_copied = was_open && other->tag == 0;
        CHECK(tracehost_copy(h, other) == (is_copied ? TRACEHOST_ANSWERED : TRACEHOST_NOT_OPEN));
    }
}

static uint32_t make_step(tracehost *h, tracehost_reply *reply)
{
    switch (below(9)) {
    case 0: return tracehost_spawn(h, user(), reply);
    case 1: return tracehost_list(h, user(), number(), reply);
    case 2: return tracehost_sigaction(h, user(), number(), number(), below(4), reply);
    case 3: return tracehost_kill(h, user(), number(), signed_number(), number(), reply);
    case 4: return tracehost_wait4(h, user(), number(), signed_number(), below(9), reply);
    case 5: return install(h, reply);
    case 6: return tracehost_handle(h, user(), number(), reply);
    case 7: return tracehost_ptrace(h, user(), number(), below(32), number(), below(6) ? below(64) : number(), reply);
    default: return tracehost_turn(h, user(), number(), below(7), below(9), below(6) ? below(256) : number(), reply);
    }
}

static void step(tracehost *h)
{
    tracehost_reply *reply = guarded(1, sizeof *reply), untouched;
    memset(reply, 0xaa, sizeof *reply);
    memset(&untouched, 0xaa, sizeof untouched);
    bool was_open = h->tag != 0;
    uint32_t code = make_step(h, reply);
    CHECK(is_guarded(1, sizeof *reply));
    CHECK(was_open ? code == TRACEHOST_ANSWERED || code == TRACEHOST_INVALID : code == TRACEHOST_NOT_OPEN);
    CHECK(code == TRACEHOST_ANSWERED ? reply->kind <= TRACEHOST_ERROR : memcmp(reply, &untouched, sizeof untouched) == 0);
}

int main(int argc, char **argv)
{
    if (argc != 3)
        return 2;
    ends[0] = new_room();
    ends[1] = new_room();
    for (unsigned long seed = strtoul(argv[1], NULL, 10); seed < strtoul(argv[2], NULL, 10); seed++) {
        tracehost handles[HANDLES] = {TRACEHOST_CLOSED, TRACEHOST_CLOSED, TRACEHOST_CLOSED, TRACEHOST_CLOSED};
        state = seed * 2654435761u + 1;
        for (uint32_t calls = below(400); calls > 0; calls--) {
            tracehost *h = &handles[below(HANDLES)];
            switch (below(12)) {
            case 0: open_close_or_copy(h, &handles[below(HANDLES)]); break;
            case 1: make_line(h); break;
            case 2: read_back(h); break;
            case 3: look(h); break;
            default: step(h);
            }
        }
        for (int i = 0; i < HANDLES; i++)
            tracehost_close(&handles[i]);
    }
    return 0;
}
