//! Sets that the examples start from, and comparisons that are asserted.

use intervallum::proved::interval::Interval;
use intervallum::proved::interval_set::{IntervalSet, ToIntervalSet};
use intervallum::proved::width::Width;
use intervallum::proved::{AllocError, Global};
use intervallum::rattle::vec::Vec;
use std::fmt::{Debug, Display};

/// What memory was left for.
pub fn made<T>(made: Result<T, AllocError>) -> T {
    made.expect("memory is left")
}

/// The set of these pairs, each of which is in the range.
pub fn set_of<B: Width>(pairs: &[(B, B)]) -> IntervalSet<B> {
    let are_in_range = pairs.iter().all(|&(lower, upper)| Interval::in_range(lower, upper));
    assert!(are_in_range, "a pair is outside the range");
    made(pairs.to_interval_set(Global))
}

/// The sets of these pairs, each of which is in the range.
pub fn sets_of<B: Width>(runs: &[&[(B, B)]]) -> Vec<IntervalSet<B>> {
    let mut sets = made(Vec::with_capacity(Global, runs.len()));
    for pairs in runs {
        let is_pushed = sets.push(set_of(pairs)).is_ok();
        assert!(is_pushed, "memory is left");
    }
    sets
}

/// A value is the one that is wanted.
pub fn check<T: PartialEq + Debug>(got: T, wanted: T) {
    assert_eq!(got, wanted);
}

/// Several values are those that are wanted.
pub fn check_all<T: PartialEq + Debug>(got: &[T], wanted: &[T]) {
    assert_eq!(got, wanted);
}

/// Two sets are equal.
pub fn check_same<B: Width>(got: &IntervalSet<B>, wanted: &IntervalSet<B>) {
    assert!(got == wanted);
}

/// A value is printed as this text.
pub fn check_printed(value: &impl Display, text: &str) {
    assert_eq!(value.to_string(), text);
}
