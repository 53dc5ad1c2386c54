// Written by bindings/rust/extract from crates/ivl_map/src/writes.rt.
//! A value written to the numbers of an interval, in a list of entries.

#[allow(unused_imports)]
use crate::rattle::prelude::*;
use crate::proved::ivl_map::edits::{keep_first, move_tail_to, part_above, part_below, put_in, span, take_out};
use crate::proved::ivl_map::search::ends_below;
use crate::proved::ivl_map::value::MapValue;
use crate::proved::intervallum::interval::Interval;
use crate::proved::intervallum::ops::{Bounded, Range};
use crate::proved::intervallum::width::Width;
use crate::rattle::std::alloc::AllocError;

/// Whether a number is the next one after a lower one.
fn are_next<B: Width>(low: B, high: B) -> bool {
    low.add_in_range(B::one()) == high
}

/// What a value makes, written from a number on, with an entry that ends right below: how many
/// entries stay, and where the new one starts.
fn touch_below<B: Width, V: MapValue>(
    entries: &[(Interval<B>, V)],
    at: usize,
    lower: B,
    value: &V,
) -> (usize, B) {
    if at == 0 {
        return (at, lower);
    }
    let last = at - 1;
    let run = entries[last].0;
    if are_next(run.upper(), lower) {
        if entries[last].1 == *value {
            (last, run.lower())
        } else {
            (at, lower)
        }
    } else {
        (at, lower)
    }
}

/// What a value makes, written up to a number, with an entry that starts right above: the place
/// after the last entry that goes, and where the new one ends.
fn touch_above<B: Width, V: MapValue>(
    entries: &[(Interval<B>, V)],
    at: usize,
    upper: B,
    value: &V,
) -> (usize, B) {
    if at == entries.len() {
        return (at, upper);
    }
    let run = entries[at].0;
    if are_next(upper, run.lower()) {
        if entries[at].1 == *value {
            (at + 1, run.upper())
        } else {
            (at, upper)
        }
    } else {
        (at, upper)
    }
}

/// The part below an interval of the entry that has numbers of it and lower ones, or `None` if none
/// has.
fn over_lower<B: Width, V: MapValue>(
    entries: &[(Interval<B>, V)],
    interval: Interval<B>,
    start: usize,
    end: usize,
) -> Option<Interval<B>> {
    if end <= start {
        return None;
    }
    part_below(entries[start].0, interval.lower())
}

/// The part above an interval of the entry that has numbers of it and higher ones, or `None` if none
/// has.
fn over_upper<B: Width, V: MapValue>(
    entries: &[(Interval<B>, V)],
    interval: Interval<B>,
    start: usize,
    end: usize,
) -> Option<Interval<B>> {
    if end <= start {
        return None;
    }
    let last = end - 1;
    part_above(entries[last].0, interval.upper())
}

/// What a value makes, written to an interval, with the entry below: how many entries stay whole,
/// the part that stays of the next one, and where the new entry starts.
fn join_below<B: Width, V: MapValue>(
    entries: &[(Interval<B>, V)],
    interval: Interval<B>,
    start: usize,
    end: usize,
    value: &V,
) -> (usize, Option<Interval<B>>, B) {
    match over_lower(entries, interval, start, end) {
        Some(part) => {
            if entries[start].1 == *value {
                (start, None, part.lower())
            } else {
                (start, Some(part), interval.lower())
            }
        }
        None => {
            let (first, lower) = touch_below(entries, start, interval.lower(), value);
            (first, None, lower)
        }
    }
}

/// What a value makes, written to an interval, with the entry above: the place of the first entry
/// that stays whole, the part that stays of the one before it, and where the new entry ends.
fn join_above<B: Width, V: MapValue>(
    entries: &[(Interval<B>, V)],
    interval: Interval<B>,
    start: usize,
    end: usize,
    value: &V,
) -> (usize, Option<Interval<B>>, B) {
    match over_upper(entries, interval, start, end) {
        Some(part) => {
            if entries[end - 1].1 == *value {
                (end, None, part.upper())
            } else {
                (end, Some(part), interval.upper())
            }
        }
        None => {
            let (last, upper) = touch_above(entries, end, interval.upper(), value);
            (last, None, upper)
        }
    }
}

/// Puts an entry in the place of those from `start` to before `end`. Fails only if there are none
/// of these and no room, and allocation fails.
fn replace<B: Width, V: MapValue>(
    entries: &mut Vec<(Interval<B>, V)>,
    start: usize,
    end: usize,
    run: Interval<B>,
    value: V,
) -> Result<(), AllocError> {
    if start == end {
        return put_in(entries, start, run, value);
    }
    take_out(entries, start + 1, end);
    entries[start] = (run, value);
    Ok(())
}

/// Makes room for an entry that is to be put in the place of those from `start` to before `end`. Fails only if
/// there are none of these and no room, and allocation fails.
fn make_room<B: Width, V: MapValue>(
    entries: &mut Vec<(Interval<B>, V)>,
    start: usize,
    end: usize,
) -> Result<(), AllocError> {
    if start == end {
        entries.reserve(1)?;
    }
    Ok(())
}

/// Puts an entry in the place of those from `start` to before `end`, and leaves a part of the first
/// of these below it, and one of the last above it, if there are such parts. Fails only if it needs
/// room, or splits an entry. Values are dropped last, so that the entries lie apart if one panics.
fn lay<B: Width, V: MapValue>(
    entries: &mut Vec<(Interval<B>, V)>,
    start: usize,
    below: Option<Interval<B>>,
    run: Interval<B>,
    value: V,
    end: usize,
    above: Option<Interval<B>>,
) -> Result<(), AllocError> {
    match (below, above) {
        (None, None) => replace(entries, start, end, run, value),
        (Some(low), None) => {
            make_room(entries, start + 1, end)?;
            keep_first(entries, start, start + 1, low);
            replace(entries, start + 1, end, run, value).unwrap();
            Ok(())
        }
        (None, Some(high)) => {
            make_room(entries, start, end - 1)?;
            keep_first(entries, end - 1, end, high);
            replace(entries, start, end - 1, run, value).unwrap();
            Ok(())
        }
        (Some(low), Some(high)) => lay_between(entries, start, low, run, value, end, high),
    }
}

/// Puts an entry between two parts of the entries from `start` to before `end`. The second part of
/// one entry has a copy of its value.
fn lay_between<B: Width, V: MapValue>(
    entries: &mut Vec<(Interval<B>, V)>,
    start: usize,
    low: Interval<B>,
    run: Interval<B>,
    value: V,
    end: usize,
    high: Interval<B>,
) -> Result<(), AllocError> {
    if end - start == 1 {
        let copy = entries[start].1.try_copy()?;
        put_two(entries, end, (run, value), (high, copy))?;
        keep_first(entries, start, end, low);
        return Ok(());
    }
    make_room(entries, start + 1, end - 1)?;
    keep_first(entries, end - 1, end, high);
    keep_first(entries, start, start + 1, low);
    replace(entries, start + 1, end - 1, run, value).unwrap();
    Ok(())
}

/// Puts two entries at a place. Fails only if there is no room, and allocation fails. Moves the entries above them once.
fn put_two<B: Width, V: MapValue>(
    entries: &mut Vec<(Interval<B>, V)>,
    at: usize,
    first: (Interval<B>, V),
    second: (Interval<B>, V),
) -> Result<(), AllocError> {
    entries.reserve(2)?;
    let count = entries.len();
    entries.push_reserved(first);
    entries.push_reserved(second);
    move_tail_to(entries.as_mut_slice(), count, at);
    Ok(())
}

/// Gives the numbers of an interval, of which no entry has one, a value. Fails only if there is no
/// room for an entry, and allocation fails.
pub(crate) fn put<B: Width, V: MapValue>(
    entries: &mut Vec<(Interval<B>, V)>,
    at: usize,
    interval: Interval<B>,
    value: V,
) -> Result<(), AllocError> {
    let (start, lower) = touch_below(entries, at, interval.lower(), &value);
    let (end, upper) = touch_above(entries, at, interval.upper(), &value);
    replace(entries, start, end, Interval::new(lower, upper), value)
}

/// Gives the numbers of an interval a value. If the copy of a value or an allocation fails, the
/// entries stay as they are.
pub(crate) fn write<B: Width, V: MapValue>(
    entries: &mut Vec<(Interval<B>, V)>,
    interval: Interval<B>,
    value: V,
) -> Result<(), AllocError> {
    let (start, end) = span(entries, interval);
    let (first, below, lower) = join_below(entries, interval, start, end, &value);
    let (last, above, upper) = join_above(entries, interval, start, end, &value);
    lay(
        entries,
        first,
        below,
        Interval::new(lower, upper),
        value,
        last,
        above,
    )
}

/// The run of the first entry that has a number of an interval, or `None` if none has. `at` entries
/// end below the interval.
fn in_the_way<B: Width, V: MapValue>(
    entries: &[(Interval<B>, V)],
    at: usize,
    interval: Interval<B>,
) -> Option<Interval<B>> {
    if at == entries.len() {
        return None;
    }
    let run = entries[at].0;
    if run.lower() <= interval.upper() {
        Some(run)
    } else {
        None
    }
}

/// Gives the numbers of an interval a value, unless an entry is in the way, whose run it returns. Fails only if
/// there is no room for an entry, and allocation fails.
pub(crate) fn put_if_free<B: Width, V: MapValue>(
    entries: &mut Vec<(Interval<B>, V)>,
    interval: Interval<B>,
    value: V,
) -> Result<Option<Interval<B>>, AllocError> {
    let at = ends_below(entries, interval.lower());
    match in_the_way(entries, at, interval) {
        Some(run) => Ok(Some(run)),
        None => {
            put(entries, at, interval, value)?;
            Ok(None)
        }
    }
}
