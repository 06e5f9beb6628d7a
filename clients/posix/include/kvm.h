/* FreeBSD's <kvm.h>, as far as debuggers include it: kernel memory can't be read here. */
#ifndef TRACEHOST_KVM_H
#define TRACEHOST_KVM_H

#include <sys/types.h>

typedef struct __kvm kvm_t;

#endif
