//! At the root a failed allocation aborts, as in std. The call is made in a process of its own.
use intervallum::IntervalSet;
use std::alloc::{GlobalAlloc, Layout, System};
use std::cell::Cell;
use std::process::Command;

struct Failing;

// One for every thread: the harness allocates on its own thread while the test runs, and must not be refused.
thread_local! {
    static FAILS: Cell<bool> = const { Cell::new(false) };
}

unsafe impl GlobalAlloc for Failing {
    unsafe fn alloc(&self, layout: Layout) -> *mut u8 {
        if FAILS.get() { std::ptr::null_mut() } else { unsafe { System.alloc(layout) } }
    }

    unsafe fn dealloc(&self, at: *mut u8, layout: Layout) {
        unsafe { System.dealloc(at, layout) }
    }
}

#[global_allocator]
static ALLOCATOR: Failing = Failing;

#[test]
fn the_root_aborts() {
    if std::env::var_os("FAIL_AT_THE_ROOT").is_some() {
        FAILS.set(true);
        let set = IntervalSet::new(1, 2);
        FAILS.set(false);
        panic!("made {set}");
    }
    let mut child = Command::new(std::env::current_exe().unwrap());
    let out = child.args(["the_root_aborts", "--exact", "--nocapture"]).env("FAIL_AT_THE_ROOT", "1").output().unwrap();
    let said = String::from_utf8_lossy(&out.stderr);
    assert!(!out.status.success() && said.contains("memory allocation of 16 bytes failed"), "{out:?}");
}
