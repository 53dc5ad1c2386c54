// Written by bindings/rust/extract from crates/ivl_linear/src/linear/differs.rt.
//! What a sum that is not a number takes from a term's variable.

#[allow(unused_imports)]
use crate::rattle::prelude::*;
use super::Term;
use super::sums::{SumEnds, difference, greatest_of, least_of};
use super::windows::window_at;
use crate::proved::intervallum::interval::Interval;
use crate::proved::intervallum::interval_set::IntervalSet;
use crate::proved::intervallum::ops::Empty;
use crate::proved::intervallum::width::Width;

/// What a term may not be where the sum of the terms is not a number, if the other terms have just one sum over points of the
/// domains. If they have more, no member of its variable is lost, and this is `None`.
pub(super) fn forbidden<B: Width>(
    terms: &[Term],
    number: i64,
    ends: &SumEnds,
    domains: &[IntervalSet<B>],
    k: usize,
) -> Option<i128> {
    let term = terms[k];
    let rest = difference(ends.least, least_of(&term, &domains[term.variable]));
    let most = difference(ends.greatest, greatest_of(&term, &domains[term.variable]));
    if rest != most {
        return None;
    }
    Some(left_to(number, rest))
}

/// The interval in which a term's variable loses its members, and keeps the others, where the sum of the terms is not a number: those
/// that are in no point of the domains. It has one number at most, unless the coefficient is 0.
pub(super) fn lost_of<B: Width>(
    terms: &[Term],
    number: i64,
    ends: &SumEnds,
    domains: &[IntervalSet<B>],
    k: usize,
) -> Interval<B> {
    let term = terms[k];
    domains[term.variable].in_whole();
    match forbidden(terms, number, ends, domains, k) {
        Some(value) => window_at(term.coefficient, value),
        None => Interval::empty(),
    }
}

/// A number less the sum of the other terms.
fn left_to(number: i64, rest: i128) -> i128 {
    number as i128 - rest
}
