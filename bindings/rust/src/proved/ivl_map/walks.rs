// Written by bindings/rust/extract from crates/ivl_map/src/walks.rt.
//! The parts of entries that lie in runs, and lists of entries that grow at their end.

#[allow(unused_imports)]
use crate::rattle::prelude::*;
use crate::proved::ivl_map::value::MapValue;
use crate::proved::ivl_map::writes::put;
use crate::proved::intervallum::interval::Interval;
use crate::proved::intervallum::ops::{Bounded, Intersection, IsEmpty};
use crate::proved::intervallum::width::Width;
use crate::rattle::std::alloc::{AllocError, Global};

/// Adds an entry at the end. It is joined with the last one if the two touch and have equal values.
pub(crate) fn push_entry<B: Width, V: MapValue>(
    entries: &mut Vec<(Interval<B>, V)>,
    run: Interval<B>,
    value: V,
) -> Result<(), AllocError> {
    let at = entries.len();
    put(entries, at, run, value)
}

/// Adds an entry with a copy of a value at the end, unless its interval is empty.
pub(crate) fn push_part<B: Width, V: MapValue>(
    entries: &mut Vec<(Interval<B>, V)>,
    part: Interval<B>,
    value: &V,
) -> Result<(), AllocError> {
    if part.is_empty() {
        return Ok(());
    }
    let copy = value.try_copy()?;
    push_entry(entries, part, copy)
}

/// The interval of the entry at a place, and the run at a place, if there are both.
fn heads<B: Width, V: MapValue>(
    entries: &[(Interval<B>, V)],
    i: usize,
    runs: &[Interval<B>],
    j: usize,
) -> Option<(Interval<B>, Interval<B>)> {
    if i >= entries.len() {
        return None;
    }
    if j >= runs.len() {
        return None;
    }
    Some((entries[i].0, runs[j]))
}

/// What entries have at the numbers of runs. Both are walked once.
pub(crate) fn parts_of<B: Width, V: MapValue>(
    alloc: Global,
    entries: &[(Interval<B>, V)],
    runs: &[Interval<B>],
) -> Result<Vec<(Interval<B>, V)>, AllocError> {
    let mut made = Vec::new(alloc);
    let mut i = 0;
    let mut j = 0;
    'walk: while let Some(both) = heads(entries, i, runs, j) {
        let value = &entries[i].1;
        let part = both.0.intersection(&both.1);
        push_part(&mut made, part, value)?;
        let end = both.0.upper();
        let other_end = both.1.upper();
        if end <= other_end {
            i += 1;
        } else {
            j += 1;
        }
    }
    Ok(made)
}
