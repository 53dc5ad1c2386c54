// Written by bindings/rust/extract from crates/ivl_linear/src/linear/windows.rt.
//! The interval of the numbers whose product with a coefficient is at most a number.

#[allow(unused_imports)]
use crate::rattle::prelude::*;
use crate::proved::intervallum::interval::Interval;
use crate::proved::intervallum::ops::{Empty, Intersection, Range};
use crate::proved::intervallum::width::Width;

/// The number of the range that lies nearest to a number.
fn nearest<B: Width>(number: i128) -> B {
    match B::from_number(number) {
        Some(value) => value,
        None => {
            if number < B::min_value().number() {
                B::min_value()
            } else {
                B::max_value()
            }
        }
    }
}

/// The interval of the numbers of the range that are at least a number.
fn from_least<B: Width>(low: i128) -> Interval<B> {
    let greatest = B::max_value();
    if greatest.number() < low {
        return Interval::empty();
    }
    Interval::new(nearest(low), greatest)
}

/// The interval of the numbers of the range that are at most a number.
fn to_greatest<B: Width>(high: i128) -> Interval<B> {
    let least = B::min_value();
    if high < least.number() {
        return Interval::empty();
    }
    Interval::new(least, nearest(high))
}

/// The greatest number whose product with a positive divisor is at most a value.
fn quotient(value: i128, divisor: i128) -> i128 {
    value.div_euclid(divisor)
}

/// The interval of the numbers of the range whose product with a coefficient is at most a value.
pub(super) fn window<B: Width>(coefficient: i64, value: i128) -> Interval<B> {
    if coefficient > 0 {
        return to_greatest(quotient(value, coefficient as i128));
    }
    if coefficient < 0 {
        return from_least(-quotient(value, -(coefficient as i128)));
    }
    if value < 0 {
        return Interval::empty();
    }
    Interval::new(B::min_value(), B::max_value())
}

/// The interval of the numbers of the range whose product with a coefficient is at least a value.
pub(super) fn window_above<B: Width>(coefficient: i64, value: i128) -> Interval<B> {
    window(-coefficient, -value)
}

/// The interval of the numbers of the range whose product with a coefficient is a value.
pub(super) fn window_at<B: Width>(coefficient: i64, value: i128) -> Interval<B> {
    let at_most: Interval<B> = window(coefficient, value);
    at_most.intersection(&window_above(coefficient, value))
}
