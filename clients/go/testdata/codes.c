/* A library for codes_test.go: that of the crate's tests, and the calls that the crate doesn't link. */
#include "../../rust/tests/memory/library.c"

const char *tracehost_strerror(uint32_t code) { return code == TRACEHOST_NO_MEMORY ? "no memory" : "another code"; }

uint32_t tracehost_copy_over(tracehost *from, tracehost *to) { return TRACEHOST_NO_MEMORY; }

uint32_t tracehost_copy_user(tracehost *from, tracehost *to, uint32_t user) { return user; }

uint32_t tracehost_rows(tracehost *h, uint32_t user, uint8_t *out, size_t out_size, size_t *length)
{
    wanted(h->tag != 0 && out != NULL && out_size > 0);
    *length = 0;
    return user;
}

uint32_t tracehost_state(tracehost *h, uint32_t user, uint32_t *out, size_t size, size_t *length)
{
    wanted(h->tag != 0 && out != NULL && size > 0);
    *length = 0;
    return user;
}

uint32_t tracehost_explain(const uint8_t *line, size_t line_length, size_t number, uint8_t *out, size_t out_size,
                           size_t *length)
{
    wanted(line != NULL && out != NULL && out_size > 0);
    return TRACEHOST_NO_MEMORY;
}
