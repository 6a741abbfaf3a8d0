//! Memory for the library from Rust's global allocator.
//!
//! The allocator wants to know the layout of a block that it gets back, and the library doesn't tell it. So each block has
//! its layout in the 16 bytes in front of it.
use alloc::alloc::{alloc, dealloc, Layout};
use core::ptr;

/// A block, or none: then `at` points to a byte that stays.
#[repr(C)]
pub struct Tried {
    ok: u8,
    at: *mut u8,
}

static NONE: u8 = 0;

fn none() -> Tried {
    Tried { ok: 0, at: ptr::addr_of!(NONE).cast_mut() }
}

/// The layout of a block with its front, and the length of the front.
fn layout_of(n: usize, align: usize) -> Option<(Layout, usize)> {
    let front = align.max(16);
    let layout = Layout::from_size_align(n.checked_add(front)?, front).ok()?;
    Some((layout, front))
}

/// # Safety
/// `align` is a power of two.
#[no_mangle]
pub unsafe extern "C" fn rattle_alloc(n: usize, align: usize) -> Tried {
    let Some((layout, front)) = layout_of(n, align) else { return none() };
    // SAFETY: the layout isn't empty, as the front isn't. The front is a multiple of 16 and in the block, so that its last
    // 16 bytes hold two words.
    unsafe {
        let block = alloc(layout);
        if block.is_null() {
            return none();
        }
        let at = block.add(front);
        at.sub(16).cast::<[usize; 2]>().write([layout.size(), front]);
        Tried { ok: 1, at }
    }
}

/// # Safety
/// `at` is of `rattle_alloc` or of this, and wasn't given back; it has `kept` bytes, and `align` is its alignment.
#[no_mangle]
pub unsafe extern "C" fn rattle_realloc(at: *mut u8, kept: usize, n: usize, align: usize) -> Tried {
    // SAFETY: both blocks have as many bytes as are copied, and lie apart; `at` is given back once.
    unsafe {
        let new = rattle_alloc(n, align);
        if new.ok == 1 {
            ptr::copy_nonoverlapping(at, new.at, kept.min(n));
            rattle_dealloc(at);
        }
        new
    }
}

/// # Safety
/// `at` is of `rattle_alloc` or of `rattle_realloc`, and wasn't given back.
#[no_mangle]
pub unsafe extern "C" fn rattle_dealloc(at: *mut u8) {
    // SAFETY: the 16 bytes in front of a block hold its layout, which `rattle_alloc` wrote there.
    unsafe {
        let [size, front] = at.sub(16).cast::<[usize; 2]>().read();
        dealloc(at.sub(front), Layout::from_size_align_unchecked(size, front));
    }
}
