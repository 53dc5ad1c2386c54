//! The calls of `bindings/c/intervallum.h` over the proved source as plain Rust, for machines that have Cargo and not the
//! library that the proved source itself gives.
//!
//! A null pointer with count 0 is an empty list.
#![deny(unsafe_op_in_unsafe_fn)]

// as a script writes them
#[rustfmt::skip]
mod calls;
#[rustfmt::skip]
mod handle_calls;
mod handles;
mod memory;
mod solver;

use std::slice;

/// The version of the package as one number: 20000 is 2.0.0.
#[unsafe(no_mangle)]
extern "C" fn ivl_version() -> i64 {
    const VERSION: [&str; 3] =
        [env!("CARGO_PKG_VERSION_MAJOR"), env!("CARGO_PKG_VERSION_MINOR"), env!("CARGO_PKG_VERSION_PATCH")];
    VERSION.iter().fold(0, |number, part| 100 * number + part.parse().unwrap_or(0))
}

/// The caller's list.
///
/// # Safety
///
/// Unless `n` is 0, `a` points to `n` pairs, which do not change while the list is used.
unsafe fn list<'a, R>(a: *const R, n: usize) -> &'a [R] {
    if n == 0 { &[] } else { unsafe { slice::from_raw_parts(a, n) } }
}

/// The caller's buffer.
///
/// # Safety
///
/// Unless `room` is 0, `out` points to `room` pairs, which nothing else reads or writes while the buffer is used.
unsafe fn buffer<'a, R>(out: *mut R, room: usize) -> &'a mut [R] {
    if room == 0 { &mut [] } else { unsafe { slice::from_raw_parts_mut(out, room) } }
}
