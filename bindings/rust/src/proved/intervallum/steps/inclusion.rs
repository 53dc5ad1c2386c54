// Written by bindings/rust/extract from crates/intervallum/src/steps/inclusion.rt.
//! Whether what one walk has left lies within what another has.

#[allow(unused_imports)]
use crate::rattle::prelude::*;
use super::walk::Walk;
use crate::proved::intervallum::interval::Interval;
use crate::proved::intervallum::ops::Bounded;
use crate::proved::intervallum::width::Width;

/// Whether each member of the runs left in one walk is a member of those left in another. Advances
/// at most once for each of these runs: `O(n + m)`. Stops at the first run that is not held. Does
/// not allocate.
pub(crate) fn is_within<B: Width>(mut first: Walk<'_, B>, mut second: Walk<'_, B>) -> bool {
    'walk: while let Some(run) = first.peek() {
        if !is_held(run, &mut second) {
            return false;
        }
        first.advance();
    }
    true
}

/// Whether the runs left in a walk hold each number of a run. Takes those that end below its end.
fn is_held<B: Width>(run: Interval<B>, walk: &mut Walk<'_, B>) -> bool {
    match skip_below(walk, run.upper()) {
        Some(other) => other.lower() <= run.lower(),
        None => false,
    }
}

/// Takes the runs that end below a value. Returns the first that is left, which it does not take.
fn skip_below<B: Width>(walk: &mut Walk<'_, B>, value: B) -> Option<Interval<B>> {
    walk.in_whole();
    'skip: while let Some(run) = walk.peek() {
        if value <= run.upper() {
            return Some(run);
        }
        walk.advance();
    }
    None
}
