/* Of FreeBSD's <machine/elf.h> for amd64: an entry of the auxiliary vector. */
#ifndef TRACEHOST_MACHINE_ELF_H
#define TRACEHOST_MACHINE_ELF_H

#include <elf.h>

typedef struct {
	long a_type;
	union {
		long a_val;
		void *a_ptr;
		void (*a_fcn)(void);
	} a_un;
} Elf64_Auxinfo;
typedef Elf64_Auxinfo Elf_Auxinfo;

#define AT_COUNT 36

#endif
