/* Libraries that were compiled without <tracehost/posix.h>: which of the runtime's calls they make of the host. They are
 * looked at as the program begins, and when it has loaded one. */
#define _GNU_SOURCE
#include <dlfcn.h>
#include <link.h>
#include <stdio.h>
#include <string.h>
#include "runtime.h"

enum { LOOKED_AT = 256 };
int tracehost_has_loaded; /* since the last look */
extern const struct {
	const char *name;
	void *function;
} tracehost_held_names[]; /* by_name.S */
static unsigned long looked_at[LOOKED_AT]; /* where these begin */
static int n_looked_at;

static const char *const names[] = {
#include "names.inc"
};

static int is_name(const char *symbol)
{
	for (size_t i = 0; i < sizeof names / sizeof names[0]; i++)
		if (strcmp(names[i], symbol) == 0)
			return 1;
	return 0;
}

void *tracehost_found(const char *name)
{
	if (tracehost_has_loaded && own.fd >= 0)
		tracehost_look_at_loaded();
	for (int i = 0; tracehost_held_names[i].name != NULL; i++)
		if (strcmp(tracehost_held_names[i].name, name) == 0)
			return tracehost_held_names[i].function;
	return NULL;
}

/* Of the symbols of a library those that it doesn't define come first. */
static void add_names(const struct dl_phdr_info *info, char *report, size_t room)
{
	const ElfW(Dyn) *dynamic = NULL;
	const ElfW(Sym) *symbols = NULL;
	const char *strings = NULL;
	const unsigned *hash = NULL;
	int found = 0;
	for (int i = 0; i < info->dlpi_phnum; i++)
		if (info->dlpi_phdr[i].p_type == PT_DYNAMIC)
			dynamic = (const ElfW(Dyn) *)(info->dlpi_addr + info->dlpi_phdr[i].p_vaddr);
	for (; dynamic != NULL && dynamic->d_tag != DT_NULL; dynamic++)
		if (dynamic->d_tag == DT_SYMTAB)
			symbols = (const ElfW(Sym) *)dynamic->d_un.d_ptr;
		else if (dynamic->d_tag == DT_STRTAB)
			strings = (const char *)dynamic->d_un.d_ptr;
		else if (dynamic->d_tag == DT_GNU_HASH)
			hash = (const unsigned *)dynamic->d_un.d_ptr;
	if (symbols == NULL || strings == NULL || hash == NULL)
		return;
	for (unsigned i = 1; i < hash[1]; i++) {
		const char *symbol = strings + symbols[i].st_name;
		if (symbols[i].st_shndx != SHN_UNDEF || !is_name(symbol))
			continue;
		size_t length = strlen(report);
		if (found++ == 0)
			snprintf(report + length, room - length, "\n%s calls %s", info->dlpi_name, symbol);
		else
			snprintf(report + length, room - length, ", %s", symbol);
	}
	size_t length = strlen(report);
	if (found)
		snprintf(report + length, room - length, " of the host: compile it by tracehost-cc");
}

/* Not the program, and not what the kernel gives. */
static int is_looked_at(const struct dl_phdr_info *info)
{
	if (strchr(info->dlpi_name, '/') == NULL || tracehost_is_of_the_system(info->dlpi_name))
		return 0;
	for (int i = 0; i < n_looked_at; i++)
		if (looked_at[i] == info->dlpi_addr)
			return 0;
	if (n_looked_at < LOOKED_AT)
		looked_at[n_looked_at++] = info->dlpi_addr;
	return 1;
}

struct report {
	char *text;
	size_t room;
};

static int report_library(struct dl_phdr_info *info, size_t size, void *given)
{
	struct report *report = given;
	(void)size;
	if (is_looked_at(info))
		add_names(info, report->text, report->room);
	return 0;
}

static char early[1024]; /* what libraries of the system's have called before the program's first process */

void tracehost_report_libraries(char *text, size_t room)
{
	dl_iterate_phdr(report_library, &(struct report){text, room});
	size_t length = strlen(text);
	snprintf(text + length, room - length, "%s", early);
}

void tracehost_report(char *text, size_t room)
{
	tracehost_report_libraries(text, room);
	size_t length = strlen(text);
	if (!tracehost_held)
		snprintf(text + length, room - length, "\ncalls past the runtime aren't held on this host");
	else if (tracehost_listener < 0)
		snprintf(text + length, room - length,
			"\nthe host gives no notifications of seccomp(2): a program without the runtime that calls kill ends by SIGSYS");
}

static int look_at_loaded(struct dl_phdr_info *info, size_t size, void *unused)
{
	char text[2048] = "";
	(void)size, (void)unused;
	if (!is_looked_at(info))
		return 0;
	add_names(info, text, sizeof text);
	if (text[0] != 0)
		tracehost_remark("%s", text + 1);
	tracehost_hold_library(info);
	return 0;
}

static void *no_dlopen(const char *file, int mode)
{
	(void)file, (void)mode;
	tracehost_say("dlopen: a program that is linked statically has none here");
	return NULL;
}

/* By its name, since the linker would warn of it in each program that is linked statically. */
void *tracehost_host_dlopen(void)
{
	void *found = dlsym(RTLD_NEXT, "dlopen");
	tracehost_has_loaded = 1;
	return found != NULL ? found : (void *)(size_t)no_dlopen;
}

void tracehost_look_at_loaded(void)
{
	tracehost_has_loaded = 0;
	dl_iterate_phdr(look_at_loaded, NULL);
}

/* Each call of each library once. Both texts stay where they are. */
void tracehost_remark_library(const char *file, const char *call)
{
	static struct {
		const char *file, *call;
	} said[LOOKED_AT];
	static int n_said;
	size_t length = strlen(early);
	for (int i = 0; i < n_said; i++)
		if (said[i].file == file && said[i].call == call)
			return;
	if (n_said < LOOKED_AT)
		said[n_said].file = file, said[n_said++].call = call;
	if (own_pid != 0)
		tracehost_remark("%s has called %s of the host, which isn't the model's", file, call);
	else
		snprintf(early + length, sizeof early - length, "\n%s has called %s of the host, which isn't the model's", file, call);
}
