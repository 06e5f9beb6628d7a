/* Of FreeBSD's <sys/exec.h> debuggers need only that it is there. */
