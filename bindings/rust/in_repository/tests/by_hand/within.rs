//! Sums and differences by example, with values that were worked out by hand.

mod windows;

use crate::compare::made;
use intervallum::proved::interval::Interval;
use intervallum::proved::interval_set::IntervalSet;
use intervallum::proved::ivl_within::within::{Combined, differences_in_window, sums_in_window};
use intervallum::proved::ops::Range;
use intervallum::proved::width::Width;

/// The interval between two bounds, which are in the range.
fn interval_of<B: Width>((lower, upper): (B, B)) -> Interval<B> {
    assert!(Interval::in_range(lower, upper), "a bound is outside the range");
    Interval::new(lower, upper)
}

/// The sums, or the differences, that are in a window.
fn in_window<B: Width>(op: Combined, a: &IntervalSet<B>, b: &IntervalSet<B>, window: Interval<B>) -> IntervalSet<B> {
    let found = match op {
        Combined::Sum => sums_in_window(a, b, &window),
        Combined::Difference => differences_in_window(a, b, &window),
    };
    made(found)
}
