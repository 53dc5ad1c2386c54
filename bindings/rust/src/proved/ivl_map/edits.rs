// Written by bindings/rust/extract from crates/ivl_map/src/edits.rt.
//! Edits of a list of entries.

#[allow(unused_imports)]
use crate::rattle::prelude::*;
use crate::proved::ivl_map::search::{ends_below_from_end, starts_from};
use crate::proved::ivl_map::value::MapValue;
use crate::proved::intervallum::interval::Interval;
use crate::proved::intervallum::ops::{Bounded, StrictShrinkLeft, StrictShrinkRight};
use crate::proved::intervallum::width::Width;
use crate::rattle::std::alloc::AllocError;

/// Takes out the entries from `start` to before `end`.
pub(crate) fn take_out<B: Width, V: MapValue>(
    entries: &mut Vec<(Interval<B>, V)>,
    start: usize,
    end: usize,
) {
    let count = end - start;
    if count == 1 {
        entries.remove(start);
    } else if count > 1 {
        drop(entries.drain(start..end));
    }
}

/// Keeps the value of the first of the entries from `start` to before `end`, at an interval.
pub(crate) fn keep_first<B: Width, V: MapValue>(
    entries: &mut Vec<(Interval<B>, V)>,
    start: usize,
    end: usize,
    run: Interval<B>,
) {
    entries[start].0 = run;
    take_out(entries, start + 1, end);
}

/// Keeps the value of the last of the entries from `start` to before `end`, at an interval.
fn keep_last<B: Width, V: MapValue>(
    entries: &mut Vec<(Interval<B>, V)>,
    start: usize,
    end: usize,
    run: Interval<B>,
) {
    let last = end - 1;
    entries[last].0 = run;
    take_out(entries, start, last);
}

/// Puts an entry at a place. Fails only if there is no room, and allocation fails.
pub(crate) fn put_in<B: Width, V: MapValue>(
    entries: &mut Vec<(Interval<B>, V)>,
    at: usize,
    run: Interval<B>,
    value: V,
) -> Result<(), AllocError> {
    entries.insert(at, (run, value))?;
    Ok(())
}

/// Moves the entries from place `tail` on to place `at`, in front of those that were there.
pub(crate) fn move_tail_to<B: Width, V: MapValue>(
    entries: &mut [(Interval<B>, V)],
    tail: usize,
    at: usize,
) {
    entries[at..].rotate_left(tail - at);
}

/// Puts as many entries in the place of those from `start` to before `end`, and takes these out.
fn exchange<B: Width, V: MapValue>(
    entries: &mut [(Interval<B>, V)],
    start: usize,
    end: usize,
    list: &mut [(Interval<B>, V)],
) {
    entries[start..end].swap_with_slice(list);
}

/// Puts a list of entries at a place. Fails only if there is no room, and allocation fails. Moves the entries above them once.
fn put_all<B: Width, V: MapValue>(
    entries: &mut Vec<(Interval<B>, V)>,
    at: usize,
    mut list: Vec<(Interval<B>, V)>,
) -> Result<(), AllocError> {
    let count = entries.len();
    entries.append(&mut list)?;
    move_tail_to(entries.as_mut_slice(), count, at);
    Ok(())
}

/// Puts entries in the place of those from `start` to before `end`. Fails only if there is no room, and allocation fails.
/// What goes is dropped last.
pub(crate) fn put_list<B: Width, V: MapValue>(
    entries: &mut Vec<(Interval<B>, V)>,
    start: usize,
    end: usize,
    mut list: Vec<(Interval<B>, V)>,
) -> Result<(), AllocError> {
    let added = list.len();
    if added == end - start {
        // as many come as go, so no other entry moves
        exchange(entries.as_mut_slice(), start, end, list.as_mut_slice());
        return Ok(());
    }
    put_all(entries, start, list)?;
    take_out(entries, start + added, end + added);
    Ok(())
}

/// Keeps at most two parts of the entries from `start` to before `end`: one with the value of the
/// first, and one with the value of the last. Of two parts of one entry the second has a copy of
/// the value. If the copy or an allocation fails, the entries stay as they are.
fn leave_parts<B: Width, V: MapValue>(
    entries: &mut Vec<(Interval<B>, V)>,
    start: usize,
    end: usize,
    below: Option<Interval<B>>,
    above: Option<Interval<B>>,
) -> Result<(), AllocError> {
    match (below, above) {
        (None, None) => take_out(entries, start, end),
        (Some(low), None) => keep_first(entries, start, end, low),
        (None, Some(high)) => keep_last(entries, start, end, high),
        (Some(low), Some(high)) => return leave_both(entries, start, end, low, high),
    }
    Ok(())
}

/// Keeps two parts of the entries from `start` to before `end`.
fn leave_both<B: Width, V: MapValue>(
    entries: &mut Vec<(Interval<B>, V)>,
    start: usize,
    end: usize,
    low: Interval<B>,
    high: Interval<B>,
) -> Result<(), AllocError> {
    if end - start == 1 {
        let value = entries[start].1.try_copy()?;
        put_in(entries, end, high, value)?;
        keep_first(entries, start, end, low);
        return Ok(());
    }
    keep_last(entries, start + 1, end, high);
    keep_first(entries, start, start + 1, low);
    Ok(())
}

/// The places of the entries that have a number of an interval: the first, and the one after the
/// last, which is no higher where there are none.
pub(crate) fn span<B: Width, V: MapValue>(
    entries: &[(Interval<B>, V)],
    interval: Interval<B>,
) -> (usize, usize) {
    let start = ends_below_from_end(entries, interval.lower());
    let end = starts_from(entries, interval.upper(), start);
    (start, end)
}

/// Removes the numbers of an interval. If the copy of a value or an allocation fails, the entries
/// stay as they are.
pub(crate) fn cut<B: Width, V: MapValue>(
    entries: &mut Vec<(Interval<B>, V)>,
    interval: Interval<B>,
) -> Result<(), AllocError> {
    let (start, end) = span(entries, interval);
    if end <= start {
        return Ok(());
    }
    let below = part_below(entries[start].0, interval.lower());
    let above = part_above(entries[end - 1].0, interval.upper());
    leave_parts(entries, start, end, below, above)
}

/// The part of an interval below a number of it or just above it, if there is one.
pub(crate) fn part_below<B: Width>(run: Interval<B>, value: B) -> Option<Interval<B>> {
    if run.lower() < value {
        Some(run.strict_shrink_right(value))
    } else {
        None
    }
}

/// The part of an interval above a number of it or just below it, if there is one.
pub(crate) fn part_above<B: Width>(run: Interval<B>, value: B) -> Option<Interval<B>> {
    if value < run.upper() {
        Some(run.strict_shrink_left(value))
    } else {
        None
    }
}
