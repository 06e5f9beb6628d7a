// What configure finds on FreeBSD, as far as the files that are compiled here ask.
#define HAVE_ALLOCA_H 1
#define HAVE_DECL_ASPRINTF 1
#define HAVE_DECL_BASENAME 1
#define HAVE_DECL_FFS 1
#define HAVE_DECL_SNPRINTF 1
#define HAVE_DECL_STRNLEN 1
#define HAVE_DECL_STRTOL 1
#define HAVE_DECL_STRTOLL 1
#define HAVE_DECL_STRTOUL 1
#define HAVE_DECL_STRTOULL 1
#define HAVE_DECL_STRVERSCMP 1
#define HAVE_DECL_VASPRINTF 1
#define HAVE_FCNTL_H 1
#define HAVE_SIGACTION 1
#define HAVE_SIGPROCMASK 1
#define HAVE_STRINGS_H 1
#define HAVE_STRUCT_PTRACE_LWPINFO_PL_SYSCALL_CODE 1
#define HAVE_STRUCT_PTRACE_LWPINFO_PL_TDNAME 1
#define HAVE_SYS_PROCCTL_H 1
#define HAVE_SYS_PTRACE_H 1
#define HAVE_SYS_WAIT_H 1
#define HAVE_UNISTD_H 1
#define PTRACE_TYPE_ARG1 int
#define PTRACE_TYPE_ARG3 caddr_t
#define PTRACE_TYPE_ARG4 int
#define PTRACE_TYPE_RET int
#define _GL_ATTRIBUTE_FORMAT_PRINTF(format, first) __attribute__((__format__(__printf__, format, first)))
#define _GL_ATTRIBUTE_FORMAT_PRINTF_STANDARD(format, first) _GL_ATTRIBUTE_FORMAT_PRINTF(format, first)
