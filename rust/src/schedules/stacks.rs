//! How one coroutine's stack is left, and another's is gone on with, by processor.

use std::arch::global_asm;

// Each keeps the registers that a call has to keep on the old stack, and takes those of the new
// one.
#[cfg(target_arch = "x86_64")]
global_asm!(
    ".globl sflight_rust_switch",
    "sflight_rust_switch:",
    "push rbp",
    "push rbx",
    "push r12",
    "push r13",
    "push r14",
    "push r15",
    "mov [rdi], rsp",
    "mov rsp, rsi",
    "pop r15",
    "pop r14",
    "pop r13",
    "pop r12",
    "pop rbx",
    "pop rbp",
    "ret",
);
/// So far below the end of a new stack its registers begin: six, and where it goes on. It goes on
/// as behind a call, which has taken 8 bytes.
#[cfg(target_arch = "x86_64")]
const REGISTERS: usize = 64;
/// Where among them stands where it goes on.
#[cfg(target_arch = "x86_64")]
const GOES_ON: usize = 48;

#[cfg(target_arch = "aarch64")]
global_asm!(
    ".globl sflight_rust_switch",
    "sflight_rust_switch:",
    "sub sp, sp, #160",
    "stp x19, x20, [sp]",
    "stp x21, x22, [sp, #16]",
    "stp x23, x24, [sp, #32]",
    "stp x25, x26, [sp, #48]",
    "stp x27, x28, [sp, #64]",
    "stp x29, x30, [sp, #80]",
    "stp d8, d9, [sp, #96]",
    "stp d10, d11, [sp, #112]",
    "stp d12, d13, [sp, #128]",
    "stp d14, d15, [sp, #144]",
    "mov x9, sp",
    "str x9, [x0]",
    "mov sp, x1",
    "ldp x19, x20, [sp]",
    "ldp x21, x22, [sp, #16]",
    "ldp x23, x24, [sp, #32]",
    "ldp x25, x26, [sp, #48]",
    "ldp x27, x28, [sp, #64]",
    "ldp x29, x30, [sp, #80]",
    "ldp d8, d9, [sp, #96]",
    "ldp d10, d11, [sp, #112]",
    "ldp d12, d13, [sp, #128]",
    "ldp d14, d15, [sp, #144]",
    "add sp, sp, #160",
    "ret",
);
#[cfg(target_arch = "aarch64")]
const REGISTERS: usize = 160;
#[cfg(target_arch = "aarch64")]
const GOES_ON: usize = 88;

// SAFETY: it is the code above.
unsafe extern "C" {
    #[link_name = "sflight_rust_switch"]
    /// Goes on where `to` was left, and leaves the caller's stack pointer at `from`, to be gone on
    /// with later.
    ///
    /// # Safety
    /// `to` was left so, or is of `begin`, and nobody has gone on there since. The stack of each is
    /// there.
    pub(super) unsafe fn switch(from: *mut usize, to: usize);
}

/// Where a new stack is gone on with: in `enter`, which does not return.
pub(super) fn begin(stack: &mut [u128], enter: extern "C" fn()) -> usize {
    let at = stack.as_mut_ptr_range().end as usize - REGISTERS;
    // SAFETY: the stack has more room than the registers take.
    unsafe { ((at + GOES_ON) as *mut usize).write(enter as usize) };
    at
}
