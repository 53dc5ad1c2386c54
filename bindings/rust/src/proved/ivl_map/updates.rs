// Written by bindings/rust/extract from crates/ivl_map/src/updates.rt.
//! Entries whose values a function changes within an interval.

#[allow(unused_imports)]
use crate::rattle::prelude::*;
use crate::proved::ivl_map::edits::{put_list, span};
use crate::proved::ivl_map::value::MapValue;
use crate::proved::ivl_map::walks::{push_entry, push_part};
use crate::proved::intervallum::interval::Interval;
use crate::proved::intervallum::ops::{Bounded, Intersection, IsEmpty, StrictShrinkLeft, StrictShrinkRight};
use crate::proved::intervallum::width::Width;
use crate::rattle::std::alloc::{AllocError, Global};

/// Adds an entry with a changed value at the end, unless its interval is empty.
fn push_changed<B: Width, V: MapValue, F: Fn(&V) -> Result<V, AllocError>>(
    entries: &mut Vec<(Interval<B>, V)>,
    part: Interval<B>,
    value: &V,
    change: &F,
) -> Result<(), AllocError> {
    if part.is_empty() {
        return Ok(());
    }
    let changed = change(value)?;
    push_entry(entries, part, changed)
}

/// Adds an entry at the end, with a changed value at the numbers of an interval.
fn push_updated<B: Width, V: MapValue, F: Fn(&V) -> Result<V, AllocError>>(
    entries: &mut Vec<(Interval<B>, V)>,
    run: Interval<B>,
    value: &V,
    interval: Interval<B>,
    change: &F,
) -> Result<(), AllocError> {
    push_part(entries, run.strict_shrink_right(interval.lower()), value)?;
    push_changed(entries, run.intersection(&interval), value, change)?;
    push_part(entries, run.strict_shrink_left(interval.upper()), value)
}

/// The place behind a place, unless it is the end of a list.
fn place_after(place: usize, count: usize) -> usize {
    if place < count { place + 1 } else { count }
}

/// Changes the values of the numbers of an interval. If `change`, the copy of a value or an allocation fails, the
/// entries stay as they are. Those that lie next to the interval are made anew too, so that they join what is equal.
pub(crate) fn update_in<B: Width, V: MapValue, F: Fn(&V) -> Result<V, AllocError>>(
    entries: &mut Vec<(Interval<B>, V)>,
    interval: Interval<B>,
    change: F,
) -> Result<(), AllocError> {
    let (start, end) = span(entries, interval);
    if end <= start {
        return Ok(());
    }
    let first = start.saturating_sub(1);
    let last = place_after(end, entries.len());
    let alloc = *entries.allocator();
    let made = updated(alloc, &entries[first..last], interval, change)?;
    put_list(entries, first, last, made)
}

/// The entries with a changed value at the numbers of an interval.
fn updated<B: Width, V: MapValue, F: Fn(&V) -> Result<V, AllocError>>(
    alloc: Global,
    entries: &[(Interval<B>, V)],
    interval: Interval<B>,
    change: F,
) -> Result<Vec<(Interval<B>, V)>, AllocError> {
    let mut made = Vec::with_capacity(alloc, entries.len())?;
    for entry in entries {
        push_updated(&mut made, entry.0, &entry.1, interval, &change)?;
    }
    Ok(made)
}
