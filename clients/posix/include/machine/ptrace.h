/* FreeBSD has the requests of its machine here. */
#include <sys/ptrace.h>
