//! The system's allocator, which notes the sizes of the first two allocations after it was told to.

use std::{
    alloc::{GlobalAlloc, Layout, System},
    hint::black_box,
    sync::atomic::{AtomicUsize, Ordering::Relaxed},
};

struct Noting;

#[global_allocator]
static NOTING: Noting = Noting;

/// The number of allocations since `two_allocations` began; past 2 nothing is noted.
static SEEN: AtomicUsize = AtomicUsize::new(2);
static SIZES: [AtomicUsize; 2] = [AtomicUsize::new(0), AtomicUsize::new(0)];

// SAFETY: the system's allocator does all the work.
unsafe impl GlobalAlloc for Noting {
    #[inline]
    unsafe fn alloc(&self, layout: Layout) -> *mut u8 {
        let seen = SEEN.load(Relaxed);
        if seen < 2 {
            SIZES[seen].store(layout.size(), Relaxed);
            SEEN.store(seen + 1, Relaxed);
        }
        unsafe { System.alloc(layout) }
    }

    #[inline]
    unsafe fn dealloc(&self, at: *mut u8, layout: Layout) {
        unsafe { System.dealloc(at, layout) }
    }

    #[inline]
    unsafe fn realloc(&self, at: *mut u8, layout: Layout, size: usize) -> *mut u8 {
        unsafe { System.realloc(at, layout, size) }
    }
}

/// The bytes of the first and of the second allocation that making a value makes; 0 where there is none.
pub fn two_allocations<T>(make: impl FnOnce() -> T) -> (usize, usize) {
    SIZES[0].store(0, Relaxed);
    SIZES[1].store(0, Relaxed);
    SEEN.store(0, Relaxed);
    let value = black_box(make());
    SEEN.store(2, Relaxed);
    drop(value);
    (SIZES[0].load(Relaxed), SIZES[1].load(Relaxed))
}
