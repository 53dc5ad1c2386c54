//! The memory of the library: that of the system, but while a search is to stop, which is refused each request.
//!
//! A search that is refused memory ends, and changes nothing: that is proved. So it is ended by one that is to stop, too.
use std::alloc::{GlobalAlloc, Layout, System};
use std::cell::Cell;
use std::ptr;
use std::sync::atomic::{AtomicBool, Ordering};

thread_local! {
    /// What tells whether the search of this thread is to stop, if there is one.
    static STOPS: Cell<*const AtomicBool> = const { Cell::new(ptr::null()) };
}

struct Memory;

#[global_allocator]
static MEMORY: Memory = Memory;

/// Whether this thread is in a search that is to stop.
fn is_refused() -> bool {
    // Safety: the flag is there until the search ends, which then puts back what was told before
    STOPS
        .try_with(|stops| unsafe { stops.get().as_ref() }.is_some_and(|flag| flag.load(Ordering::Relaxed)))
        .unwrap_or(false)
}

unsafe impl GlobalAlloc for Memory {
    unsafe fn alloc(&self, layout: Layout) -> *mut u8 {
        if is_refused() { ptr::null_mut() } else { unsafe { System.alloc(layout) } }
    }

    unsafe fn alloc_zeroed(&self, layout: Layout) -> *mut u8 {
        if is_refused() { ptr::null_mut() } else { unsafe { System.alloc_zeroed(layout) } }
    }

    unsafe fn realloc(&self, block: *mut u8, layout: Layout, size: usize) -> *mut u8 {
        if is_refused() { ptr::null_mut() } else { unsafe { System.realloc(block, layout, size) } }
    }

    unsafe fn dealloc(&self, block: *mut u8, layout: Layout) {
        unsafe { System.dealloc(block, layout) }
    }
}

/// Puts back, as it ends, what was told before.
struct Until(*const AtomicBool);

impl Drop for Until {
    fn drop(&mut self) {
        STOPS.set(self.0);
    }
}

/// Does something that is refused memory once the flag is set.
pub fn unless<R>(stops: &AtomicBool, search: impl FnOnce() -> R) -> R {
    let _until = Until(STOPS.replace(stops));
    search()
}
