//! The functions of memory that the archive calls, over the program's global allocator.

use alloc::alloc::{alloc, dealloc, realloc, Layout};
use core::ptr;

/// What precedes each block: its whole size, in as many bytes as the greatest alignment has.
const HEAD: usize = 16;

/// A block, or `ok` 0 and some address that is not null.
#[repr(C)]
pub struct Block {
    ok: u64,
    at: *mut u8,
}

/// The block after the head that starts at `base`, whose size is noted there; none if `base` is null.
///
/// # Safety
/// `base` is null, or the start of `layout.size()` bytes that may be written.
unsafe fn noted(base: *mut u8, layout: Layout) -> Block {
    if base.is_null() {
        return NONE;
    }
    // SAFETY: the first bytes of the block are the head's, and aligned to 16.
    unsafe {
        ptr::write(base.cast::<usize>(), layout.size());
        Block {
            ok: 1,
            at: base.add(HEAD),
        }
    }
}

const NONE: Block = Block {
    ok: 0,
    at: HEAD as *mut u8,
};

/// The layout of a block of so many bytes and its head.
fn layout(size: usize) -> Option<Layout> {
    Layout::from_size_align(size.checked_add(HEAD)?, HEAD).ok()
}

/// Gives a block of so many bytes, aligned to 16, which is the most that the archive asks for.
#[no_mangle]
extern "C" fn rattle_alloc(size: usize, _align: usize) -> Block {
    match layout(size) {
        // SAFETY: the layout has the head's bytes at the least.
        Some(layout) => unsafe { noted(alloc(layout), layout) },
        None => NONE,
    }
}

/// Gives a block of another size that begins as the old one did, and takes the old one back if that succeeds.
///
/// # Safety
/// `at` is a block that is not given back yet.
#[no_mangle]
unsafe extern "C" fn rattle_realloc(at: *mut u8, _old: usize, size: usize, _align: usize) -> Block {
    let new = match layout(size) {
        Some(new) => new,
        None => return NONE,
    };
    // SAFETY: the head before the block has the size of the layout that it was allocated with.
    unsafe {
        let base = at.sub(HEAD);
        let old = Layout::from_size_align_unchecked(ptr::read(base.cast::<usize>()), HEAD);
        noted(realloc(base, old, new.size()), new)
    }
}

/// Takes a block back.
///
/// # Safety
/// `at` is a block that is not given back yet.
#[no_mangle]
unsafe extern "C" fn rattle_dealloc(at: *mut u8) {
    // SAFETY: as above.
    unsafe {
        let base = at.sub(HEAD);
        let size = ptr::read(base.cast::<usize>());
        dealloc(base, Layout::from_size_align_unchecked(size, HEAD));
    }
}
