/* The checks of the tests: one that doesn't hold is printed, and the test goes on. `failed` is then the exit status. */
#include <errno.h>
#include <stdio.h>

static int failed;

#define CHECK(truth) \
    do { \
        if (!(truth)) { \
            printf("FAILED: line %d: %s\n", __LINE__, #truth); \
            failed = 1; \
        } \
    } while (0)

/* the call is refused with this errno */
#define REFUSED(error, call) \
    do { \
        errno = 0; \
        CHECK((call) == -1 && errno == (error)); \
    } while (0)
