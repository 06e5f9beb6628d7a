/* FreeBSD's <machine/reg.h> for amd64. */
#ifndef TRACEHOST_MACHINE_REG_H
#define TRACEHOST_MACHINE_REG_H

#include <stdint.h>

struct reg {
	int64_t r_r15, r_r14, r_r13, r_r12, r_r11, r_r10, r_r9, r_r8;
	int64_t r_rdi, r_rsi, r_rbp, r_rbx, r_rdx, r_rcx, r_rax;
	uint32_t r_trapno;
	uint16_t r_fs, r_gs;
	uint32_t r_err;
	uint16_t r_es, r_ds;
	int64_t r_rip, r_cs, r_rflags, r_rsp, r_ss;
};

/* As fxsave has them: the first is the environment. */
struct fpreg {
	uint64_t fpr_env[4];
	uint8_t fpr_acc[8][16];
	uint8_t fpr_xacc[16][16];
	uint64_t fpr_spare[12];
};

struct dbreg {
	uint64_t dr[16];
};
#define DBREG_DR7_LOCAL_ENABLE 0x01
#define DBREG_DR7_GLOBAL_ENABLE 0x02
#define DBREG_DR7_LEN_1 0x00
#define DBREG_DR7_LEN_2 0x01
#define DBREG_DR7_LEN_8 0x02
#define DBREG_DR7_LEN_4 0x03
#define DBREG_DR7_EXEC 0x00
#define DBREG_DR7_WRONLY 0x01
#define DBREG_DR7_RDWR 0x03
#define DBREG_DR7_MASK(i) (0xful << ((i) * 4 + 16) | 0x3ul << (i) * 2)
#define DBREG_DR7_SET(i, len, access, enable) ((uint64_t)((len) << 2 | (access)) << ((i) * 4 + 16) | (uint64_t)(enable) << (i) * 2)
#define DBREG_DR7_ENABLED(d, i) (((d) & 0x3ul << (i) * 2) != 0)
#define DBREG_DR7_ACCESS(d, i) ((d) >> ((i) * 4 + 16) & 0x3)
#define DBREG_DR7_LEN(d, i) ((d) >> ((i) * 4 + 18) & 0x3)
#define DBREG_DRX(d, x) ((d)->dr[(x)])

#endif
