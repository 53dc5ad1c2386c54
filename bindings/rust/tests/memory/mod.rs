//! The allocator of tests: it counts what a call does with memory, and refuses one request of it.
#![allow(dead_code)]
use std::alloc::{GlobalAlloc, Layout, System};
use std::cell::Cell;

pub struct Watched;

// One of each for every thread: the harness allocates on its own thread while a test runs.
thread_local! {
    static COUNT: Cell<usize> = const { Cell::new(0) };
    static LIVE: Cell<isize> = const { Cell::new(0) };
    static MOST: Cell<isize> = const { Cell::new(0) };
    static LARGEST: Cell<usize> = const { Cell::new(0) };
    static LEFT: Cell<isize> = const { Cell::new(-1) };
    static REFUSED: Cell<bool> = const { Cell::new(false) };
}

fn refuses() -> bool {
    let left = LEFT.get();
    if left < 0 {
        return false;
    }
    LEFT.set(left - 1);
    REFUSED.set(left == 0);
    left == 0
}

fn count(old: usize, new: usize) {
    if new > 0 {
        COUNT.set(COUNT.get() + 1);
        LARGEST.set(LARGEST.get().max(new));
    }
    LIVE.set(LIVE.get() + new as isize - old as isize);
    MOST.set(MOST.get().max(LIVE.get()));
}

unsafe impl GlobalAlloc for Watched {
    unsafe fn alloc(&self, layout: Layout) -> *mut u8 {
        if refuses() {
            return std::ptr::null_mut();
        }
        count(0, layout.size());
        unsafe { System.alloc(layout) }
    }

    unsafe fn dealloc(&self, at: *mut u8, layout: Layout) {
        count(layout.size(), 0);
        unsafe { System.dealloc(at, layout) }
    }

    unsafe fn realloc(&self, at: *mut u8, layout: Layout, size: usize) -> *mut u8 {
        if refuses() {
            return std::ptr::null_mut();
        }
        count(layout.size(), size);
        unsafe { System.realloc(at, layout, size) }
    }
}

/// What a call did with memory.
#[derive(Debug)]
pub struct Cost {
    pub allocations: usize,
    /// The most bytes that it held at once, beyond those of before.
    pub most: isize,
    /// The bytes that are still held after it.
    pub held: isize,
    /// The largest allocation.
    pub largest: usize,
}

pub fn cost<T>(call: impl FnOnce() -> T) -> (T, Cost) {
    let (allocations, before) = (COUNT.get(), LIVE.get());
    MOST.set(before);
    LARGEST.set(0);
    let made = call();
    let told = Cost {
        allocations: COUNT.get() - allocations,
        most: MOST.get() - before,
        held: LIVE.get() - before,
        largest: LARGEST.get(),
    };
    (made, told)
}

/// What a call returns where its request of this number, counted from 0, is refused, and whether it made so many.
pub fn refusing<T>(number: isize, call: impl FnOnce() -> T) -> (T, bool) {
    REFUSED.set(false);
    LEFT.set(number);
    let made = call();
    LEFT.set(-1);
    (made, REFUSED.get())
}
