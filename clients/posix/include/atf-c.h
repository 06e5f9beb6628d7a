/* As much of libatf-c as FreeBSD's kernel tests use: a program with cases, `PROGRAM -l` and `PROGRAM CASE`. */
#ifndef ATF_C_H
#define ATF_C_H

#include <errno.h>
#include <stdbool.h>
#include <stdio.h>
#include <stdlib.h>
#include <string.h>

typedef struct atf_tc { const char *name; void (*body)(const struct atf_tc *); } atf_tc_t;
typedef struct { const atf_tc_t *cases[256]; int count; } atf_tp_t;
typedef int atf_error_t;

static const atf_tc_t *atf_now;

static inline void __attribute__((__unused__)) atf_end(int status, const char *file, int line, const char *what)
{
	printf("%s: %s%s:%d: %s\n", atf_now->name, status == 0 ? "" : "failed: ", file, line, what);
	exit(status);
}

#define ATF_TC(n) static void n##_head(void); static void n##_body(const atf_tc_t *); static const atf_tc_t n##_tc = {#n, n##_body}
#define ATF_TC_WITHOUT_HEAD(n) static void n##_body(const atf_tc_t *); static const atf_tc_t n##_tc = {#n, n##_body}
#define ATF_TC_HEAD(n, tc) static void __attribute__((__unused__)) n##_head(void)
#define ATF_TC_BODY(n, tc) static void n##_body(const atf_tc_t *tc __attribute__((__unused__)))
#define ATF_TP_ADD_TC(tp, n) ((tp)->cases[(tp)->count++] = &n##_tc)
#define ATF_TP_ADD_TCS(tp) static atf_error_t atf_add(atf_tp_t *tp); \
	int main(int argc, char **argv) { atf_tp_t t = {.count = 0}; (void)atf_add(&t); return atf_run(&t, argc, argv); } \
	static atf_error_t atf_add(atf_tp_t *tp)
#define atf_no_error() 0
#define atf_tc_skip(...) (printf("skipped: " __VA_ARGS__), printf("\n"), exit(0))
#define atf_tc_fail(...) (printf("failed: " __VA_ARGS__), printf("\n"), exit(1))

#define ATF_REQUIRE(e) do { if (!(e)) atf_end(1, __FILE__, __LINE__, #e " not met"); } while (0)
#define ATF_REQUIRE_MSG(e, ...) do { if (!(e)) { printf(__VA_ARGS__); printf("\n"); \
	atf_end(1, __FILE__, __LINE__, #e " not met"); } } while (0)
#define ATF_REQUIRE_EQ(a, b) ATF_REQUIRE((a) == (b))
#define ATF_REQUIRE_EQ_MSG(a, b, ...) ATF_REQUIRE_MSG((a) == (b), __VA_ARGS__)
#define ATF_REQUIRE_ERRNO(n, e) do { errno = 0; ATF_REQUIRE(e); ATF_REQUIRE(errno == (n)); } while (0)
#define ATF_CHECK ATF_REQUIRE
#define ATF_CHECK_EQ ATF_REQUIRE_EQ

static inline int __attribute__((__unused__)) atf_run(atf_tp_t *tp, int argc, char **argv)
{
	int listing = argc == 2 && strcmp(argv[1], "-l") == 0;
	for (int i = 0; i < tp->count; i++) {
		if (listing)
			printf("%s\n", tp->cases[i]->name);
		else if (argc == 2 && strcmp(argv[1], tp->cases[i]->name) == 0) {
			atf_now = tp->cases[i];
			atf_now->body(atf_now);
			printf("%s: passed\n", atf_now->name);
			return 0;
		}
	}
	return listing ? 0 : 2;
}

#endif
