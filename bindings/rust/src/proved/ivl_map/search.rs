// Written by bindings/rust/extract from crates/ivl_map/src/search.rt.
//! Binary searches among entries.

#[allow(unused_imports)]
use crate::rattle::prelude::*;
use crate::proved::ivl_map::value::MapValue;
use crate::proved::intervallum::interval::Interval;
use crate::proved::intervallum::width::Width;
use crate::rattle::std::hint::select_unpredictable;

/// How many entries end below a value.
pub(crate) fn ends_below<B: Width, V: MapValue>(entries: &[(Interval<B>, V)], value: B) -> usize {
    let mut low = 0;
    // how many are left does not depend on what is seen, so the next look need not wait for it
    let mut left = entries.len();
    'search: while 0 < left {
        let half = left - left / 2;
        left -= half;
        let last = low + half - 1;
        let is_below = entries[last].0.upper_bound() < value;
        low = select_unpredictable(is_below, low + half, low);
    }
    low
}

/// How many entries end below a value: one look if all do, and a search if not.
pub(crate) fn ends_below_from_end<B: Width, V: MapValue>(
    entries: &[(Interval<B>, V)],
    value: B,
) -> usize {
    let count = entries.len();
    if 0 < count && entries[count - 1].0.upper_bound() < value {
        return count;
    }
    ends_below(entries, value)
}

/// How many entries start at a value or below.
pub(crate) fn starts_up_to<B: Width, V: MapValue>(entries: &[(Interval<B>, V)], value: B) -> usize {
    starts_between(entries, value, 0, entries.len())
}

/// How many entries start at a value or below, if those before place `from` do. Doubles its steps
/// until it is past the value: few looks where few of the others do.
pub(crate) fn starts_from<B: Width, V: MapValue>(
    entries: &[(Interval<B>, V)],
    value: B,
    from: usize,
) -> usize {
    let count = entries.len();
    let mut low = from;
    'search: while low - from < count - low {
        let next = low + (low - from);
        if value < entries[next].0.lower_bound() {
            return starts_between(entries, value, low, next);
        }
        low = next + 1;
    }
    starts_between(entries, value, low, count)
}

/// How many entries start at a value or below, if those before place `low` do, and none from place
/// `high` on.
fn starts_between<B: Width, V: MapValue>(
    entries: &[(Interval<B>, V)],
    value: B,
    mut low: usize,
    high: usize,
) -> usize {
    // how many are left does not depend on what is seen, so the next look need not wait for it
    let mut left = high - low;
    'search: while 0 < left {
        let half = left - left / 2;
        left -= half;
        let last = low + half - 1;
        let is_up_to = entries[last].0.lower_bound() <= value;
        low = select_unpredictable(is_up_to, low + half, low);
    }
    low
}

/// The place of the entry that has a value's number, or `None`.
pub(crate) fn find<B: Width, V: MapValue>(entries: &[(Interval<B>, V)], value: B) -> Option<usize> {
    let place = ends_below(entries, value);
    if place == entries.len() {
        return None;
    }
    if entries[place].0.lower_bound() <= value {
        Some(place)
    } else {
        None
    }
}
