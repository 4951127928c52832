# sflight_open on x86-64: it looks at the processor before the library's own code runs, which is made for x86-64-v2. An older processor
# would end the program by a signal at the first instruction that it lacks.
.set OLD_PROCESSOR, 16
# Leaf 1 tells by these bits of ecx: SSE3, SSSE3, CMPXCHG16B, SSE4.1, SSE4.2, POPCNT. Leaf 0x80000001 tells by bit 0 of ecx: LAHF.
.set WANTED, 1 << 0 | 1 << 9 | 1 << 13 | 1 << 19 | 1 << 20 | 1 << 23

.text
.globl sflight_open
.type sflight_open, @function
sflight_open:
	.cfi_startproc
	endbr64
	push %rbx
	.cfi_adjust_cfa_offset 8
	.cfi_rel_offset %rbx, 0
	# cpuid writes eax to edx. r8 has an argument too.
	mov %rdx, %r9
	mov %rcx, %r10
	mov $0x80000000, %eax
	cpuid
	cmp $0x80000001, %eax
	jb .Lold
	mov $0x80000001, %eax
	cpuid
	test $1, %ecx
	jz .Lold
	mov $1, %eax
	cpuid
	and $WANTED, %ecx
	cmp $WANTED, %ecx
	jne .Lold
	mov %r9, %rdx
	mov %r10, %rcx
	pop %rbx
	.cfi_adjust_cfa_offset -8
	.cfi_restore %rbx
	jmp sflight_open_unchecked
	.cfi_adjust_cfa_offset 8
	.cfi_rel_offset %rbx, 0
.Lold:
	mov $OLD_PROCESSOR, %eax
	pop %rbx
	.cfi_adjust_cfa_offset -8
	.cfi_restore %rbx
	ret
	.cfi_endproc
.size sflight_open, . - sflight_open
.section .note.GNU-stack, "", @progbits
