//! The allocator of both sides: the system's, call for call. Where asked it counts what is held, and it leaves memory that is
//! only lent where it is.

use std::alloc::{GlobalAlloc, Layout, System};
use std::sync::atomic::{AtomicBool, AtomicUsize, Ordering::Relaxed};

pub struct Heap;

static COUNTS: AtomicBool = AtomicBool::new(false);
static HELD: AtomicUsize = AtomicUsize::new(0);
static MOST: AtomicUsize = AtomicUsize::new(0);
static LENT_AT: AtomicUsize = AtomicUsize::new(0);
static LENT_BYTES: AtomicUsize = AtomicUsize::new(0);

/// Nothing but a load and a branch while something is timed.
fn count(more: usize, less: usize) {
    if COUNTS.load(Relaxed) {
        HELD.fetch_sub(less, Relaxed);
        MOST.fetch_max(HELD.fetch_add(more, Relaxed) + more, Relaxed);
    }
}

fn is_lent(at: *mut u8) -> bool {
    (at as usize).wrapping_sub(LENT_AT.load(Relaxed)) < LENT_BYTES.load(Relaxed)
}

unsafe impl GlobalAlloc for Heap {
    unsafe fn alloc(&self, layout: Layout) -> *mut u8 {
        count(layout.size(), 0);
        unsafe { System.alloc(layout) }
    }

    unsafe fn alloc_zeroed(&self, layout: Layout) -> *mut u8 {
        count(layout.size(), 0);
        unsafe { System.alloc_zeroed(layout) }
    }

    unsafe fn realloc(&self, at: *mut u8, layout: Layout, size: usize) -> *mut u8 {
        count(size, layout.size());
        unsafe { System.realloc(at, layout, size) }
    }

    unsafe fn dealloc(&self, at: *mut u8, layout: Layout) {
        if is_lent(at) {
            return;
        }
        count(0, layout.size());
        unsafe { System.dealloc(at, layout) }
    }
}

/// The most bytes that a run holds at once. A block that grows counts once, though it may lie in two places for a moment.
pub fn most_held(run: impl FnOnce()) -> usize {
    HELD.store(0, Relaxed);
    MOST.store(0, Relaxed);
    COUNTS.store(true, Relaxed);
    run();
    COUNTS.store(false, Relaxed);
    MOST.load(Relaxed)
}

/// Runs with memory from which vectors can be lent.
pub fn with_lent<T>(memory: &mut [u8], run: impl FnOnce(Lender) -> T) -> T {
    let lender = Lender { at: memory.as_mut_ptr() };
    LENT_BYTES.store(memory.len(), Relaxed);
    LENT_AT.store(memory.as_ptr() as usize, Relaxed);
    let result = run(lender);
    LENT_BYTES.store(0, Relaxed);
    result
}

#[derive(Clone, Copy)]
pub struct Lender {
    at: *mut u8,
}

impl Lender {
    /// A vector over the lent bytes at a place, for one user at a time, who must not let it grow; dropping it frees nothing.
    pub fn vector(self, bytes: &std::ops::Range<usize>) -> Vec<u8> {
        unsafe { Vec::from_raw_parts(self.at.add(bytes.start), bytes.len(), bytes.len()) }
    }

    pub fn bytes(&self, bytes: &std::ops::Range<usize>) -> &[u8] {
        unsafe { std::slice::from_raw_parts(self.at.add(bytes.start), bytes.len()) }
    }
}
