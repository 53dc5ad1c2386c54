// Written by bindings/rust/extract from crates/ivl_linear/src/linear/at_least.rt.
//! What a sum that is at least a number leaves of a term's variable.

#[allow(unused_imports)]
use crate::rattle::prelude::*;
use super::Term;
use super::sums::{SumEnds, greatest_of};
use super::windows::window_above;
use crate::proved::intervallum::interval::Interval;
use crate::proved::intervallum::interval_set::IntervalSet;
use crate::proved::intervallum::width::Width;

/// The interval of which a term's variable keeps its members, and loses the others: those that are in no point of the domains where
/// the sum of the terms is at least the bound.
pub(super) fn required<B: Width>(
    terms: &[Term],
    bound: i128,
    ends: &SumEnds,
    domains: &[IntervalSet<B>],
    k: usize,
) -> Interval<B> {
    let lacking = lacking_of(bound, ends.greatest);
    let term = terms[k];
    left_above(&term, lacking, &domains[term.variable])
}

/// The bound less the greatest sum.
fn lacking_of(bound: i128, greatest: i128) -> i128 {
    bound - greatest
}

/// The interval of the numbers at which a term is below its greatest value by no more than the bound allows.
fn left_above<B: Width>(term: &Term, lacking: i128, domain: &IntervalSet<B>) -> Interval<B> {
    domain.in_whole();
    let greatest = greatest_of(term, domain);
    window_above(term.coefficient, lacking + greatest)
}
