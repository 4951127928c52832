//go:build linux && gc && !purego

#include "go_asm.h"
#include "textflag.h"
#include "library_arm64.h"

// Calls of the library on the stack of the handle: see calls_amd64.s, which says why that may be. C code leaves R19 as it was, and uses
// neither R28, where Go has the goroutine, nor R18. The assembler itself keeps the link register and the frame pointer.

#define CALLC(fn) \
	MOVD RSP, R19; \
	MOVD handle_stack(R0), R20; \
	ADD  $const_stackSize, R20; \
	MOVD R20, RSP; \
	CALL fn; \
	MOVD R19, RSP

// func cOpen(h *handle, cells, seed0, seed1 uint64) uint32
TEXT ·cOpen(SB), NOSPLIT, $0-36
	MOVD h+0(FP), R0
	MOVD cells+8(FP), R1
	MOVD seed0+16(FP), R2
	MOVD seed1+24(FP), R3
	CALLC(sfgo_open)
	MOVW R0, ret+32(FP)
	RET

// func cSplit(h, other *handle) uint32
TEXT ·cSplit(SB), NOSPLIT, $0-20
	MOVD h+0(FP), R0
	MOVD other+8(FP), R1
	CALLC(sfgo_split)
	MOVW R0, ret+16(FP)
	RET

// func cClose(h *handle)
TEXT ·cClose(SB), NOSPLIT, $0-8
	MOVD h+0(FP), R0
	CALLC(sfgo_close)
	RET

// func cMake(h *handle, c *cCall) uint32
TEXT ·cMake(SB), NOSPLIT, $0-20
	MOVD h+0(FP), R0
	MOVD c+8(FP), R1
	CALLC(sfgo_make)
	MOVW R0, ret+16(FP)
	RET

// func cFree(h *handle, c *cCall) uint32
TEXT ·cFree(SB), NOSPLIT, $0-20
	MOVD h+0(FP), R0
	MOVD c+8(FP), R1
	CALLC(sfgo_free)
	MOVW R0, ret+16(FP)
	RET

// func cAsk(h *handle, a *asking) uint32
TEXT ·cAsk(SB), NOSPLIT, $0-20
	MOVD h+0(FP), R0
	MOVD a+8(FP), R5
	ADD  $asking_own, R5, R1
	MOVD asking_key(R5), R2
	MOVD (asking_key+8)(R5), R3
	MOVD $const_tries, R4
	ADD  $asking_asked, R5
	CALLC(sfgo_ask)
	MOVW R0, ret+16(FP)
	RET

// func cSettle(h *handle, a *asking) uint32
TEXT ·cSettle(SB), NOSPLIT, $0-20
	MOVD h+0(FP), R0
	MOVD a+8(FP), R1
	ADD  $asking_own, R1
	MOVD ZR, R2
	ADD  $handle_told, R0, R3
	CALLC(sfgo_settle)
	MOVW R0, ret+16(FP)
	RET

// func cLeave(h *handle, c *cCall) uint32
TEXT ·cLeave(SB), NOSPLIT, $0-20
	MOVD h+0(FP), R0
	MOVD c+8(FP), R1
	ADD  $handle_value, R0, R2
	CALLC(sfgo_leave)
	MOVW R0, ret+16(FP)
	RET

// func cForget(h *handle, key string) uint32
TEXT ·cForget(SB), NOSPLIT, $0-28
	MOVD h+0(FP), R0
	MOVD key_base+8(FP), R1
	MOVD key_len+16(FP), R2
	MOVD $const_tries, R3
	ADD  $handle_id, R0, R4
	CALLC(sfgo_forget)
	MOVW R0, ret+24(FP)
	RET

// func cForgetCall(h *handle, key string, id *callID, stamp *words) uint32
TEXT ·cForgetCall(SB), NOSPLIT, $0-44
	MOVD h+0(FP), R0
	MOVD key_base+8(FP), R1
	MOVD key_len+16(FP), R2
	MOVD id+24(FP), R3
	MOVD stamp+32(FP), R4
	MOVD $const_tries, R5
	CALLC(sfgo_forget_call)
	MOVW R0, ret+40(FP)
	RET

// func cIsStill(h *handle, stamp *words) bool
TEXT ·cIsStill(SB), NOSPLIT, $0-17
	MOVD h+0(FP), R0
	MOVD stamp+8(FP), R1
	CALLC(sfgo_is_still)
	MOVB R0, ret+16(FP)
	RET

// func cGrow(h *handle) uint32
TEXT ·cGrow(SB), NOSPLIT, $0-12
	MOVD h+0(FP), R0
	CALLC(sfgo_grow)
	MOVW R0, ret+8(FP)
	RET

// func cMeasure(h *handle, size *cSize) uint32
TEXT ·cMeasure(SB), NOSPLIT, $0-20
	MOVD h+0(FP), R0
	MOVD size+8(FP), R1
	CALLC(sfgo_measure)
	MOVW R0, ret+16(FP)
	RET
