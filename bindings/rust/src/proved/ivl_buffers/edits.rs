// Written by bindings/rust/extract from crates/ivl_buffers/src/edits.rt.
//! A run added to a list in its own buffer, or removed from it.

#[allow(unused_imports)]
use crate::rattle::prelude::*;
use crate::proved::ivl_buffers::pair::Pair;
use crate::proved::ivl_buffers::reading::{are_inside, interval_of, is_inside, set_of};
use crate::proved::ivl_buffers::writing::{OUT_OF_RANGE, tell};
use crate::proved::intervallum::interval_set::IntervalSet;
use crate::rattle::std::alloc::{AllocError, Global};

/// What is done with a run.
#[derive(Clone, Copy)]
pub enum Editing {
    /// Its numbers are added.
    Insert,
    /// Its numbers are removed.
    Remove,
}

/// Adds or removes a run. The list is the first `n` pairs of the buffer, and what is made of it is
/// written to the same buffer. Returns the number of runs or an error code. `O(n log n)`, or `O(n)` if
/// the pairs ascend.
///
/// # Proved
///
/// The result is `out_of_range` exactly when a number of the first `n` pairs or of the run is outside the range; else the runs of the members of these pairs with the numbers of the run, or without them, are written if there is room, and their number is returned, or it is `out_of_memory`. With a code nothing is written.
///
/// ```text
/// ensures { AnswersSet R.Bound.whole (Union (Covers (take n (map R.pair buffer.old))) (IsBetween (R.pair run)))
///     (EditedBy editing (R.pair run) (Covers (take n (map R.pair buffer.old))))
///     (map R.pair buffer.old) (map R.pair buffer.new) result }
/// ```
///
/// Words: [`AnswersSet`](crate::definitions#AnswersSet), [`Union`](crate::definitions#Union), [`Covers`](crate::definitions#Covers), [`IsBetween`](crate::definitions#IsBetween), [`EditedBy`](crate::definitions#EditedBy).
pub fn edit<R: Pair>(alloc: Global, editing: Editing, buffer: &mut [R], n: usize, run: R) -> i64 {
    let list = first_of(buffer, n);
    if !are_inside(list) || !is_inside(run) {
        return OUT_OF_RANGE;
    }
    let made = edited(alloc, editing, list, run);
    tell(made, buffer)
}

/// The first `n` pairs, or all if there are no more.
fn first_of<R: Pair>(buffer: &[R], n: usize) -> &[R] {
    if n < buffer.len() {
        &buffer[..n]
    } else {
        buffer
    }
}

/// The set of the list with the numbers of the run, or without them.
fn edited<R: Pair>(
    alloc: Global,
    editing: Editing,
    list: &[R],
    run: R,
) -> Result<IntervalSet<R::Bound>, AllocError> {
    let set = set_of(alloc, list)?;
    match editing {
        Editing::Insert => inserted(set, run),
        Editing::Remove => removed(set, run),
    }
}

fn inserted<R: Pair>(
    set: IntervalSet<R::Bound>,
    run: R,
) -> Result<IntervalSet<R::Bound>, AllocError> {
    let mut set = set;
    set.insert_interval(interval_of(run))?;
    Ok(set)
}

fn removed<R: Pair>(set: IntervalSet<R::Bound>, run: R) -> Result<IntervalSet<R::Bound>, AllocError> {
    let mut set = set;
    set.remove_interval(interval_of(run))?;
    Ok(set)
}
