//! Without the feature `malloc` the library's memory is of Rust's global allocator, and all of it is given back.
#![cfg(not(feature = "malloc"))]
use pciplan::{check, text, Slot};
use std::{
    alloc::{GlobalAlloc, Layout, System},
    cell::Cell,
};

thread_local! {
    static TAKEN: Cell<usize> = const { Cell::new(0) };
    static HELD: Cell<isize> = const { Cell::new(0) };
}

/// The system's allocator, which counts the blocks and the bytes of this thread.
struct Counting;

// SAFETY: all is handed on to the system's allocator.
unsafe impl GlobalAlloc for Counting {
    unsafe fn alloc(&self, layout: Layout) -> *mut u8 {
        TAKEN.with(|taken| taken.set(taken.get() + 1));
        HELD.with(|held| held.set(held.get() + layout.size() as isize));
        // SAFETY: as of the caller.
        unsafe { System.alloc(layout) }
    }

    unsafe fn dealloc(&self, block: *mut u8, layout: Layout) {
        HELD.with(|held| held.set(held.get() - layout.size() as isize));
        // SAFETY: as of the caller.
        unsafe { System.dealloc(block, layout) }
    }
}

#[global_allocator]
static ALLOCATOR: Counting = Counting;

#[test]
fn memory_is_given_back() {
    let mut image = [0; 256];
    image[..4].fill(1);
    let of = |space: [u8; 256]| text(&(0..32).map(|device| (Slot { bus: 0, device, function: 0 }, space)).collect());
    let (dump, probe) = (of(image), of([0; 256]));
    let (taken, held) = (TAKEN.with(Cell::get), HELD.with(Cell::get));
    assert_eq!(check(&dump, &probe, &[0]), Ok(()));
    assert!(TAKEN.with(Cell::get) > taken, "no block was asked for");
    assert_eq!(HELD.with(Cell::get), held);
}
