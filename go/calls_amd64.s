//go:build linux && gc && !purego

#include "go_asm.h"
#include "textflag.h"
#include "library_amd64.h"

// Calls of the library on the stack of the handle. So they take nothing of the goroutine's stack, and nothing is told to the scheduler: a call
// is no more than a call. While it runs, the goroutine is not stopped, since the program counter is not in Go code; the collector and
// a goroutine that wants the processor wait for it. A traceback by a signal ends here, since SP is written, or in the library. Signals
// have a stack of their own. C code leaves BX as it was.

#define CALLC(fn) \
	MOVQ SP, BX; \
	MOVQ handle_stack(DI), SP; \
	ADDQ $const_stackSize, SP; \
	CALL fn; \
	MOVQ BX, SP

// func cOpen(h *handle, cells, seed0, seed1 uint64) uint32
TEXT ·cOpen(SB), NOSPLIT, $0-36
	MOVQ h+0(FP), DI
	MOVQ cells+8(FP), SI
	MOVQ seed0+16(FP), DX
	MOVQ seed1+24(FP), CX
	CALLC(sfgo_open)
	MOVL AX, ret+32(FP)
	RET

// func cSplit(h, other *handle) uint32
TEXT ·cSplit(SB), NOSPLIT, $0-20
	MOVQ h+0(FP), DI
	MOVQ other+8(FP), SI
	CALLC(sfgo_split)
	MOVL AX, ret+16(FP)
	RET

// func cClose(h *handle)
TEXT ·cClose(SB), NOSPLIT, $0-8
	MOVQ h+0(FP), DI
	CALLC(sfgo_close)
	RET

// func cMake(h *handle, c *cCall) uint32
TEXT ·cMake(SB), NOSPLIT, $0-20
	MOVQ h+0(FP), DI
	MOVQ c+8(FP), SI
	CALLC(sfgo_make)
	MOVL AX, ret+16(FP)
	RET

// func cFree(h *handle, c *cCall) uint32
TEXT ·cFree(SB), NOSPLIT, $0-20
	MOVQ h+0(FP), DI
	MOVQ c+8(FP), SI
	CALLC(sfgo_free)
	MOVL AX, ret+16(FP)
	RET

// func cAsk(h *handle, a *asking) uint32
TEXT ·cAsk(SB), NOSPLIT, $0-20
	MOVQ h+0(FP), DI
	MOVQ a+8(FP), R9
	LEAQ asking_own(R9), SI
	MOVQ asking_key(R9), DX
	MOVQ (asking_key+8)(R9), CX
	MOVL $const_tries, R8
	ADDQ $asking_asked, R9
	CALLC(sfgo_ask)
	MOVL AX, ret+16(FP)
	RET

// func cSettle(h *handle, a *asking) uint32
TEXT ·cSettle(SB), NOSPLIT, $0-20
	MOVQ h+0(FP), DI
	MOVQ a+8(FP), SI
	ADDQ $asking_own, SI
	XORL DX, DX
	LEAQ handle_told(DI), CX
	CALLC(sfgo_settle)
	MOVL AX, ret+16(FP)
	RET

// func cLeave(h *handle, c *cCall) uint32
TEXT ·cLeave(SB), NOSPLIT, $0-20
	MOVQ h+0(FP), DI
	MOVQ c+8(FP), SI
	LEAQ handle_value(DI), DX
	CALLC(sfgo_leave)
	MOVL AX, ret+16(FP)
	RET

// func cForget(h *handle, key string) uint32
TEXT ·cForget(SB), NOSPLIT, $0-28
	MOVQ h+0(FP), DI
	MOVQ key_base+8(FP), SI
	MOVQ key_len+16(FP), DX
	MOVL $const_tries, CX
	LEAQ handle_id(DI), R8
	CALLC(sfgo_forget)
	MOVL AX, ret+24(FP)
	RET

// func cForgetCall(h *handle, key string, id *callID, stamp *words) uint32
TEXT ·cForgetCall(SB), NOSPLIT, $0-44
	MOVQ h+0(FP), DI
	MOVQ key_base+8(FP), SI
	MOVQ key_len+16(FP), DX
	MOVQ id+24(FP), CX
	MOVQ stamp+32(FP), R8
	MOVL $const_tries, R9
	CALLC(sfgo_forget_call)
	MOVL AX, ret+40(FP)
	RET

// func cIsStill(h *handle, stamp *words) bool
TEXT ·cIsStill(SB), NOSPLIT, $0-17
	MOVQ h+0(FP), DI
	MOVQ stamp+8(FP), SI
	CALLC(sfgo_is_still)
	MOVB AX, ret+16(FP)
	RET

// func cGrow(h *handle) uint32
TEXT ·cGrow(SB), NOSPLIT, $0-12
	MOVQ h+0(FP), DI
	CALLC(sfgo_grow)
	MOVL AX, ret+8(FP)
	RET

// func cMeasure(h *handle, size *cSize) uint32
TEXT ·cMeasure(SB), NOSPLIT, $0-20
	MOVQ h+0(FP), DI
	MOVQ size+8(FP), SI
	CALLC(sfgo_measure)
	MOVL AX, ret+16(FP)
	RET

// func isRecent() bool
// Whether the processor has what the library's code may use (x86-64-v2): leaf 1 tells by these bits of CX SSE3, SSSE3, CMPXCHG16B, SSE4.1,
// SSE4.2 and POPCNT, and leaf 0x80000001 by bit 0 LAHF. tools/platforms/open_x86_64.s asks the same for C and Rust.
TEXT ·isRecent(SB), NOSPLIT, $0-1
	MOVB  $0, ret+0(FP)
	MOVL  $0x80000000, AX
	CPUID
	CMPL  AX, $0x80000001
	JCS   old
	MOVL  $0x80000001, AX
	CPUID
	TESTL $1, CX
	JEQ   old
	MOVL  $1, AX
	CPUID
	ANDL  $0x982201, CX
	CMPL  CX, $0x982201
	JNE   old
	MOVB  $1, ret+0(FP)

old:
	RET
