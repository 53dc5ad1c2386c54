// Written by bindings/rust/extract from crates/ivl_linear/src/linear/at_most.rt.
//! What a sum that is at most a number leaves of a term's variable.

#[allow(unused_imports)]
use crate::rattle::prelude::*;
use super::Term;
use super::sums::{SumEnds, least_of};
use super::windows::window;
use crate::proved::intervallum::interval::Interval;
use crate::proved::intervallum::interval_set::IntervalSet;
use crate::proved::intervallum::width::Width;

/// The interval of which a term's variable keeps its members, and loses the others: those that are in no point of the domains where
/// the sum of the terms is at most the bound.
pub(super) fn allowed<B: Width>(
    terms: &[Term],
    bound: i64,
    ends: &SumEnds,
    domains: &[IntervalSet<B>],
    k: usize,
) -> Interval<B> {
    let spare = spare_of(bound, ends.least);
    let term = terms[k];
    left_of(&term, spare, &domains[term.variable])
}

/// The bound less the least sum.
pub(super) fn spare_of(bound: i64, least: i128) -> i128 {
    bound as i128 - least
}

/// The interval of the numbers at which a term is above its least value by no more than what is to spare.
fn left_of<B: Width>(term: &Term, spare: i128, domain: &IntervalSet<B>) -> Interval<B> {
    domain.in_whole();
    let least = least_of(term, domain);
    window(term.coefficient, spare + least)
}
