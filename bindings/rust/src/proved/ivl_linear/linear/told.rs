// Written by bindings/rust/extract from crates/ivl_linear/src/linear/told.rt.
//! What a variable that tells whether a sum is within a bound, by 1 if it is and 0 if it is not, keeps and leaves.

#[allow(unused_imports)]
use crate::rattle::prelude::*;
use super::Term;
use super::at_least::required;
use super::at_most::allowed;
use super::sums::SumEnds;
use crate::proved::intervallum::interval::Interval;
use crate::proved::intervallum::interval_set::IntervalSet;
use crate::proved::intervallum::ops::{Contains, Empty, Range};
use crate::proved::intervallum::width::Width;

/// The interval of which the telling variable keeps its members, and loses the others: 1 if some sum is within the bound, and 0 if
/// some is above.
pub(super) fn answers_of<B: Width>(bound: i64, least: i128, greatest: i128) -> Interval<B> {
    answers(least <= bound as i128, (bound as i128) < greatest)
}

/// The interval of 1, if the sum can be within the bound, and 0, if it can be above.
fn answers<B: Width>(can_hold: bool, can_fail: bool) -> Interval<B> {
    if can_hold && can_fail {
        return Interval::new(B::zero(), B::one());
    }
    if can_hold {
        return Interval::new(B::one(), B::one());
    }
    if can_fail {
        return Interval::new(B::zero(), B::zero());
    }
    Interval::empty()
}

/// The interval of which a term's variable keeps its members, and loses the others. As long as the telling variable may be both 0
/// and 1, it keeps all.
pub(super) fn allowed_by_answer<B: Width>(
    terms: &[Term],
    variable: usize,
    bound: i64,
    ends: &SumEnds,
    domains: &[IntervalSet<B>],
    k: usize,
) -> Interval<B> {
    let term = terms[k];
    domains[term.variable].in_whole();
    let holds = may_be_one(domains, variable);
    let fails = may_be_zero(domains, variable);
    if holds && fails {
        return Interval::new(B::min_value(), B::max_value());
    }
    if holds {
        return allowed(terms, bound, ends, domains, k);
    }
    if fails {
        return required(terms, bound as i128 + 1, ends, domains, k);
    }
    Interval::empty()
}

/// Whether the domain of a variable has 1.
pub(super) fn may_be_one<B: Width>(domains: &[IntervalSet<B>], variable: usize) -> bool {
    domains[variable].contains(&B::one())
}

/// Whether the domain of a variable has 0.
pub(super) fn may_be_zero<B: Width>(domains: &[IntervalSet<B>], variable: usize) -> bool {
    domains[variable].contains(&B::zero())
}
