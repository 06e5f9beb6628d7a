/* FreeBSD has its mcontext_t here. */
#include <ucontext.h>
