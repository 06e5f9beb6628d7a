/* Of FreeBSD's <vm/vm.h>: what pve_prot has. */
#ifndef TRACEHOST_VM_VM_H
#define TRACEHOST_VM_VM_H

#define VM_PROT_NONE 0x00
#define VM_PROT_READ 0x01
#define VM_PROT_WRITE 0x02
#define VM_PROT_EXECUTE 0x04

#endif
