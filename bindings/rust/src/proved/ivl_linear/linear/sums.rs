// Written by bindings/rust/extract from crates/ivl_linear/src/linear/sums.rt.
//! The least and the greatest value of a sum of terms over domains.

#[allow(unused_imports)]
use crate::rattle::prelude::*;
use super::Term;
use crate::proved::intervallum::interval_set::IntervalSet;
use crate::proved::intervallum::ops::{Bounded, IsEmpty};
use crate::proved::intervallum::width::Width;

/// The least and the greatest sum of terms over points of domains.
#[derive(Clone, Copy, Debug, PartialEq, Eq)]
pub struct SumEnds {
    pub least: i128,
    pub greatest: i128,
}

/// Returns the least and the greatest sum of the terms over points of the domains, or `None` if the domain of some term is empty.
///
/// The caller must ensure that the terms are light, that no two are of one variable, and that each variable has a domain. Check with
/// [`is_light`](super::is_light), [`is_over_different`](super::is_over_different) and [`first_unknown`](super::first_unknown).
///
/// `O(n)` in the number of terms: a look at the ends of each domain. Does not allocate.
///
/// ```
/// use intervallum::proved::examples::*;
///
/// fn main() -> Result<(), std::boxed::Box<dyn std::error::Error>> {
///     let alloc = Global;
///     // 3 * x - 2 * y, for x from 0 to 9 and y from 0 to 5
///     let domains = Vec::from_array(alloc, [ IntervalSet::new(alloc, 0, 9)?, IntervalSet::new(alloc, 0, 5)?])?;
///     let terms = [Term { coefficient: 3, variable: 0 }, Term { coefficient: -2, variable: 1 }];
///     assert_eq!(ends_of(&terms, &domains), Some(SumEnds { least: -10, greatest: 27 }));
///     Ok(())
/// }
/// ```
///
/// # Proved
///
/// The result is the least and the greatest sum over points of the domains, or `None`, and the domain of some term is then empty.
///
/// ```text
/// requires light { weight terms.now ≤ 2 ^ 60 }
/// requires different { AreOfDifferent terms.now }
/// requires present { HasTermsBelow (length domains.now) terms.now }
/// ensures { AreEndsOf terms.now (set_at domains.now) result }
/// ```
///
/// Words: [`weight`](crate::definitions#weight), [`AreOfDifferent`](crate::definitions#AreOfDifferent), [`HasTermsBelow`](crate::definitions#HasTermsBelow), [`AreEndsOf`](crate::definitions#AreEndsOf), [`set_at`](crate::definitions#set_at).
#[cfg_attr(debug_assertions, track_caller)]
pub fn ends_of<B: Width>(terms: &[Term], domains: &[IntervalSet<B>]) -> Option<SumEnds> {
    debug_assert!({ #[allow(unused_imports)] use crate::proved::ivl_interval::ops::*; super::is_light(terms) && super::is_over_different(terms, super::Relation::AtMost(0)) && super::first_unknown(terms, super::Relation::AtMost(0), domains.len()).is_none() }, "{}", "the condition of `ends_of` is broken: super::is_light(terms) && super::is_over_different(terms, super::Relation::AtMost(0)) && super::first_unknown(terms, super::Relation::AtMost(0), domains.len()).is_none()");
    if has_empty(terms, domains) {
        return None;
    }
    Some(SumEnds {
        least: least_sum(terms, domains),
        greatest: greatest_sum(terms, domains),
    })
}

/// Whether the domain of some term is empty.
fn has_empty<B: Width>(terms: &[Term], domains: &[IntervalSet<B>]) -> bool {
    for term in terms {
        if domains[term.variable].is_empty() {
            return true;
        }
    }
    false
}
/// The least value of a term over a domain that has a member.
pub(super) fn least_of<B: Width>(term: &Term, domain: &IntervalSet<B>) -> i128 {
    let end = if term.coefficient < 0 {
        domain.upper()
    } else {
        domain.lower()
    };
    product(term.coefficient, end.number())
}

/// The greatest value of a term over a domain that has a member.
pub(super) fn greatest_of<B: Width>(term: &Term, domain: &IntervalSet<B>) -> i128 {
    let end = if term.coefficient < 0 {
        domain.lower()
    } else {
        domain.upper()
    };
    product(term.coefficient, end.number())
}

/// The difference of two sums.
pub(super) fn difference(sum: i128, own: i128) -> i128 {
    sum - own
}

/// The product of a coefficient and a number.
fn product(coefficient: i64, number: i128) -> i128 {
    coefficient as i128 * number
}

/// The least value of the sum over points of the domains.
fn least_sum<B: Width>(terms: &[Term], domains: &[IntervalSet<B>]) -> i128 {
    let mut sum = 0;
    for term in terms {
        sum += least_of(term, &domains[term.variable]);
    }
    sum
}

/// The greatest value of the sum over points of the domains.
fn greatest_sum<B: Width>(terms: &[Term], domains: &[IntervalSet<B>]) -> i128 {
    let mut sum = 0;
    for term in terms {
        sum += greatest_of(term, &domains[term.variable]);
    }
    sum
}
