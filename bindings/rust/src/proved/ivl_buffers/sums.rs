// Written by bindings/rust/extract from crates/ivl_buffers/src/sums.rt.
//! Sums and differences of the members of two lists, cut to the range.

#[allow(unused_imports)]
use crate::rattle::prelude::*;
use crate::proved::ivl_buffers::pair::Pair;
use crate::proved::ivl_buffers::reading::{are_inside, set_of};
use crate::proved::ivl_buffers::writing::{OUT_OF_RANGE, tell};
use crate::proved::intervallum::interval_set::IntervalSet;
use crate::proved::intervallum::width::Width;
use crate::proved::ivl_within::within::{add_within, sub_within};
use crate::rattle::std::alloc::{AllocError, Global};

/// What is made of a member of each of two lists.
#[derive(Clone, Copy)]
pub enum Adding {
    /// The first and the second added.
    Sum,
    /// The first less the second.
    Difference,
}

/// Makes the set of the sums or differences that are in the range, and writes its runs.
/// `O(n m log (n m))` for `n` and `m` pairs.
///
/// # Proved
///
/// The result is `out_of_range` exactly when a member of either list is outside the range; else the runs of the sums, or by `adding` the differences, that are in the range are written if there is room, and their number is returned, or it is `out_of_memory`. With a code nothing is written.
///
/// ```text
/// ensures { AnswersSet R.Bound.whole (Union (Covers (map R.pair a.now)) (Covers (map R.pair b.now)))
///     (AddedBy R.Bound.whole adding (Covers (map R.pair a.now)) (Covers (map R.pair b.now))) (map R.pair out.old) (map R.pair out.new) result }
/// ```
///
/// Words: [`AnswersSet`](crate::definitions#AnswersSet), [`Union`](crate::definitions#Union), [`Covers`](crate::definitions#Covers), [`AddedBy`](crate::definitions#AddedBy).
pub fn of_members<R: Pair>(alloc: Global, adding: Adding, a: &[R], b: &[R], out: &mut [R]) -> i64 {
    if !are_inside(a) || !are_inside(b) {
        return OUT_OF_RANGE;
    }
    tell(added(alloc, adding, a, b), out)
}

fn added<R: Pair>(
    alloc: Global,
    adding: Adding,
    a: &[R],
    b: &[R],
) -> Result<IntervalSet<R::Bound>, AllocError> {
    let left = set_of(alloc, a)?;
    let right = set_of(alloc, b)?;
    combined(adding, &left, &right)
}

fn combined<B: Width>(
    adding: Adding,
    left: &IntervalSet<B>,
    right: &IntervalSet<B>,
) -> Result<IntervalSet<B>, AllocError> {
    match adding {
        Adding::Sum => Ok(add_within(left, right)?.0),
        Adding::Difference => Ok(sub_within(left, right)?.0),
    }
}
