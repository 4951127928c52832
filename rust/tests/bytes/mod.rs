//! The memory that a program has allocated, by the GNU C library, whichever language allocated it.
//! The system's numbers would have what the allocator keeps, and which of that it gives back
//! depends on the order of frees in all threads.

/// `struct mallinfo2` of `malloc.h`.
#[repr(C)]
struct Info {
    before: [usize; 4],
    of_mapped_blocks: usize,
    between: [usize; 2],
    of_other_blocks: usize,
    after: [usize; 2],
}

// SAFETY: the signature is that of `malloc.h`.
unsafe extern "C" {
    safe fn mallinfo2() -> Info;
}

/// Kilobytes of all blocks that are allocated.
pub fn allocated() -> u64 {
    let info = mallinfo2();
    (info.of_mapped_blocks + info.of_other_blocks) as u64 / 1024
}
