// Written by bindings/rust/extract from crates/ivl_buffers/src/writing.rt.
//! The error codes, and how an answer is written to the caller's buffer.

#[allow(unused_imports)]
use crate::rattle::prelude::*;
use crate::proved::ivl_buffers::pair::Pair;
use crate::proved::intervallum::interval_set::IntervalSet;
use crate::proved::intervallum::ops::{Bounded, IsEmpty};
use crate::rattle::std::alloc::AllocError;

/// Some member of a list is outside the range.
pub const OUT_OF_RANGE: i64 = -1;

/// An allocation failed.
pub const OUT_OF_MEMORY: i64 = -2;

/// Some product is outside the range.
pub const PRODUCT_OUT_OF_RANGE: i64 = -3;

/// Writes the runs of a set if there is room for all, and returns their number. Returns a code if
/// making the set failed, or if the number does not fit `i64`. `O(n)` for `n` runs.
///
/// # Proved
///
/// Either the result is `out_of_memory`, and nothing is written; or there is a set, whose runs are written if there is room, and their number is returned.
///
/// ```text
/// ensures { Refuses out_of_memory (map R.pair out.old) (map R.pair out.new) result
///     ⊎ IsOkAnd made (λ L. (result ≡ pos (length L)) × (map R.pair out.new ≡ written L (map R.pair out.old))) }
/// ```
///
/// Words: [`Refuses`](crate::definitions#Refuses), [`out_of_memory`](crate::definitions#out_of_memory), [`written`](crate::definitions#written).
pub fn tell<R: Pair>(made: Result<IntervalSet<R::Bound>, AllocError>, out: &mut [R]) -> i64 {
    let Ok(set) = made else {
        return OUT_OF_MEMORY;
    };
    let Ok(count) = i64::try_from(set.interval_count()) else {
        return OUT_OF_MEMORY;
    };
    if set.interval_count() <= out.len() {
        write(&set, out);
    }
    count
}

/// Writes the runs of a set to the first places of the buffer.
fn write<R: Pair>(set: &IntervalSet<R::Bound>, out: &mut [R]) {
    let runs = set.runs();
    for i in 0..runs.len() {
        let run = runs[i];
        // for the prover: its bounds are in the range
        run.in_whole();
        out[i] = R::of(Bounded::lower(&run), Bounded::upper(&run));
    }
}
