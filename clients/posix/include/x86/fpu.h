/* FreeBSD's <x86/fpu.h> for amd64: images of the vector registers. */
#ifndef TRACEHOST_X86_FPU_H
#define TRACEHOST_X86_FPU_H

#include <stdint.h>

struct fpacc87 {
	uint8_t fp_bytes[10];
};
struct xmmacc {
	uint8_t xmm_bytes[16];
};
struct ymmacc {
	uint8_t ymm_bytes[16];
};

struct envxmm {
	uint16_t en_cw, en_sw;
	uint8_t en_tw, en_zero;
	uint16_t en_opcode;
	uint64_t en_rip, en_rdp;
	uint32_t en_mxcsr, en_mxcsr_mask;
};
#define envxmm64 envxmm

struct xstate_hdr {
	uint64_t xstate_bv, xstate_xcomp_bv;
	uint8_t xstate_rsrv0[8], xstate_rsrv[40];
};
struct savefpu_xstate {
	struct xstate_hdr sx_hd;
	struct ymmacc sx_ymm[16];
};
#define savexmm_xstate savefpu_xstate

struct savefpu {
	struct envxmm sv_env;
	struct {
		struct fpacc87 fp_acc;
		uint8_t fp_pad[6];
	} sv_fp[8];
	struct xmmacc sv_xmm[16];
	uint8_t sv_pad[96];
} __attribute__((aligned(16)));

struct savefpu_ymm {
	struct envxmm sv_env;
	struct {
		struct fpacc87 fp_acc;
		int8_t fp_pad[6];
	} sv_fp[8];
	struct xmmacc sv_xmm[16];
	uint8_t sv_pad[96];
	struct savefpu_xstate sv_xstate;
} __attribute__((aligned(64)));

/* As a program of 32 bits has it. */
struct savexmm_ymm {
	struct envxmm sv_env;
	struct {
		struct fpacc87 fp_acc;
		int8_t fp_pad[6];
	} sv_fp[8];
	struct xmmacc sv_xmm[8];
	uint8_t sv_pad[224];
	struct savefpu_xstate sv_xstate;
} __attribute__((aligned(64)));

#endif
