// Written by bindings/rust/extract from crates/ivl_map/src/merge.rt.
//! The entries of two lists as one, with values made of two where both have one.

#[allow(unused_imports)]
use crate::rattle::prelude::*;
use crate::proved::ivl_map::value::MapValue;
use crate::proved::ivl_map::walks::{push_entry, push_part};
use crate::proved::intervallum::interval::Interval;
use crate::proved::intervallum::ops::{
    Bounded, Intersection, IsEmpty, StrictShrinkLeft, StrictShrinkRight, Whole,
};
use crate::proved::intervallum::width::Width;
use crate::rattle::std::alloc::{AllocError, Global};

/// Adds an entry with a value made of two at the end, unless its interval is empty.
fn push_common<B: Width, V: MapValue, F: Fn(&V, &V) -> Result<V, AllocError>>(
    entries: &mut Vec<(Interval<B>, V)>,
    part: Interval<B>,
    value: &V,
    other_value: &V,
    both: &F,
) -> Result<(), AllocError> {
    if part.is_empty() {
        return Ok(());
    }
    let made = both(value, other_value)?;
    push_entry(entries, part, made)
}

/// Adds what two entries make at the end, up to the lower of the two numbers where they end.
fn push_pair<B: Width, V: MapValue, F: Fn(&V, &V) -> Result<V, AllocError>>(
    entries: &mut Vec<(Interval<B>, V)>,
    run: Interval<B>,
    value: &V,
    other: Interval<B>,
    other_value: &V,
    both: &F,
) -> Result<(), AllocError> {
    push_part(entries, run.strict_shrink_right(other.lower()), value)?;
    push_part(entries, other.strict_shrink_right(run.lower()), other_value)?;
    push_common(entries, run.intersection(&other), value, other_value, both)
}

/// Adds copies of entries at the end, as far as they lie in an interval.
fn push_rest<B: Width, V: MapValue>(
    made: &mut Vec<(Interval<B>, V)>,
    entries: &[(Interval<B>, V)],
    rest: Interval<B>,
) -> Result<(), AllocError> {
    for entry in entries {
        push_part(made, entry.0.intersection(&rest), &entry.1)?;
    }
    Ok(())
}

/// What lies in an interval of the entries at two places, if there are both.
fn heads_in<B: Width, V: MapValue>(
    entries: &[(Interval<B>, V)],
    i: usize,
    others: &[(Interval<B>, V)],
    j: usize,
    rest: Interval<B>,
) -> Option<(Interval<B>, Interval<B>)> {
    if i >= entries.len() {
        return None;
    }
    if j >= others.len() {
        return None;
    }
    let run = entries[i].0.intersection(&rest);
    let other = others[j].0.intersection(&rest);
    Some((run, other))
}

/// What either of two lists of entries has, and a value made of two at the numbers of both. Both are
/// walked once, and `rest` has the numbers that are still to come.
pub(crate) fn merged<B: Width, V: MapValue, F: Fn(&V, &V) -> Result<V, AllocError>>(
    alloc: Global,
    entries: &[(Interval<B>, V)],
    others: &[(Interval<B>, V)],
    both: F,
) -> Result<Vec<(Interval<B>, V)>, AllocError> {
    let mut made = Vec::with_capacity(alloc, entries.len().saturating_add(others.len()))?;
    let mut rest = Interval::whole();
    let mut i = 0;
    let mut j = 0;
    'walk: while let Some(pair) = heads_in(entries, i, others, j, rest) {
        push_pair(
            &mut made,
            pair.0,
            &entries[i].1,
            pair.1,
            &others[j].1,
            &both,
        )?;
        let end = pair.0.upper();
        let other_end = pair.1.upper();
        if end < other_end {
            i += 1;
            rest = rest.strict_shrink_left(end);
        } else if other_end < end {
            j += 1;
            rest = rest.strict_shrink_left(other_end);
        } else {
            i += 1;
            j += 1;
            rest = rest.strict_shrink_left(end);
        }
    }
    if i < entries.len() {
        push_rest(&mut made, &entries[i..], rest)?;
    } else {
        push_rest(&mut made, &others[j..], rest)?;
    }
    Ok(made)
}
