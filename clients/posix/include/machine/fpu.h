/* As FreeBSD has it. */
#include <x86/fpu.h>
