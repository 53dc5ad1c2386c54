// Written by bindings/rust/extract from crates/ivl_linear/src/linear/losses.rt.
//! What narrowing by a linear rule takes, without making a set.

#[allow(unused_imports)]
use crate::rattle::prelude::*;
use super::at_most::spare_of;
use super::differs::{forbidden, lost_of};
use super::rests::lies_in;
use super::sums::{SumEnds, difference, ends_of, greatest_of, least_of};
use super::told::{answers_of, may_be_one, may_be_zero};
use super::windows::window_at;
use super::{Relation, Term};
use crate::proved::intervallum::interval::Interval;
use crate::proved::intervallum::interval_set::IntervalSet;
use crate::proved::intervallum::ops::{Contains, Disjoint};
use crate::proved::intervallum::width::Width;

/// Returns true only if narrowing by the rule takes no member: by the ends of the domains, without a division, and of a `Differs`
/// also by a look-up of what it forbids where one term has all that is open. Where the domain of a term is empty, it returns false.
///
/// The caller must ensure that the terms are light, that the rule names each of its variables once, and that each has a domain. Check
/// with [`is_light`](super::is_light), [`is_over_different`](super::is_over_different) and [`first_unknown`](super::first_unknown).
///
/// `O(n)` in the number of terms, and a binary search at most. Does not allocate.
///
/// ```
/// use intervallum::proved::ivl_linear::linear::losses::{lone_loss, takes_nothing};
/// use intervallum::proved::examples::*;
///
/// fn main() -> Result<(), std::boxed::Box<dyn std::error::Error>> {
///     let alloc = Global;
///     // 3 * x - 2 * y <= 17, for x and y from 0 to 5: no term is wider than what is to spare
///     let domains = Vec::from_array(alloc, [ IntervalSet::new(alloc, 0, 5)?, IntervalSet::new(alloc, 0, 5)?])?;
///     let terms = [Term { coefficient: 3, variable: 0 }, Term { coefficient: -2, variable: 1 }];
///     assert!(takes_nothing(&domains, &terms, Relation::AtMost(5)));
///     assert!(!takes_nothing(&domains, &terms, Relation::AtMost(4)));
///     Ok(())
/// }
/// ```
///
/// # Proved
///
/// If it is true, each member of a domain that the rule names is in a point of the domains which satisfies the rule.
///
/// ```text
/// requires light { weight terms.now ≤ 2 ^ 60 }
/// requires different { NamesEachOnce terms.now relation }
/// requires present { NamesBelow (length domains.now) terms.now relation }
/// ensures { result ≡ true → LinearSupportsAll terms.now relation (set_at domains.now) }
/// ```
///
/// Words: [`weight`](crate::definitions#weight), [`NamesEachOnce`](crate::definitions#NamesEachOnce), [`NamesBelow`](crate::definitions#NamesBelow), [`LinearSupportsAll`](crate::definitions#LinearSupportsAll), [`set_at`](crate::definitions#set_at).
#[cfg_attr(debug_assertions, track_caller)]
pub fn takes_nothing<B: Width>(
    domains: &[IntervalSet<B>],
    terms: &[Term],
    relation: Relation,
) -> bool {
    debug_assert!({ #[allow(unused_imports)] use crate::proved::ivl_interval::ops::*; super::is_light(terms) && super::is_over_different(terms, relation) && super::first_unknown(terms, relation, domains.len()).is_none() }, "{}", "the condition of `takes_nothing` is broken: super::is_light(terms) && super::is_over_different(terms, relation) && super::first_unknown(terms, relation, domains.len()).is_none()");
    let Some(ends) = ends_of(terms, domains) else {
        return false;
    };
    match relation {
        Relation::AtMost(bound) => are_apart_by(terms, domains, spare_of(bound, ends.least)),
        Relation::AtLeast(bound) => {
            are_apart_by(terms, domains, difference(ends.greatest, bound as i128))
        }
        Relation::Differs(number) => are_differing(domains, terms, number, &ends),
        Relation::Tells { variable, bound } => { are_told(domains, terms, variable, bound, &ends) }
    }
}

/// Whether no two values of a term over its domain are apart by more than a number.
fn are_apart_by<B: Width>(terms: &[Term], domains: &[IntervalSet<B>], spare: i128) -> bool {
    for k in 0..terms.len() {
        let term = terms[k];
        if !is_apart_by(&term, &domains[term.variable], spare) {
            return false;
        }
    }
    true
}

/// Whether no two values of a term are apart by more than a number.
fn is_apart_by<B: Width>(term: &Term, domain: &IntervalSet<B>, spare: i128) -> bool {
    let width = difference(greatest_of(term, domain), least_of(term, domain));
    if spare < width {
        return false;
    }
    true
}

/// Whether a sum that is not a number takes no member of any term.
fn are_differing<B: Width>(
    domains: &[IntervalSet<B>],
    terms: &[Term],
    number: i64,
    ends: &SumEnds,
) -> bool {
    for k in 0..terms.len() {
        let lost = lost_of(terms, number, ends, domains, k);
        if !domains[terms[k].variable].is_disjoint(&lost) {
            return false;
        }
    }
    true
}

/// Whether a variable that tells keeps its members, and so do the terms.
fn are_told<B: Width>(
    domains: &[IntervalSet<B>],
    terms: &[Term],
    variable: usize,
    bound: i64,
    ends: &SumEnds,
) -> bool {
    if !lies_in(
        &domains[variable],
        answers_of(bound, ends.least, ends.greatest),
    ) {
        return false;
    }
    let holds = may_be_one(domains, variable);
    let fails = may_be_zero(domains, variable);
    if holds && fails {
        return true;
    }
    if holds {
        return are_apart_by(terms, domains, spare_of(bound, ends.least));
    }
    if fails {
        return are_apart_by(terms, domains, difference(ends.greatest, bound as i128 + 1));
    }
    false
}

/// Returns the variable and the number that narrowing by the rule takes, where that is found by a look-up: of a `Differs` where one
/// term alone has several values, and its domain has the number that makes the sum what it may not be. Of other rules, and of other
/// domains, it returns `None`, whatever narrowing takes.
///
/// The caller must ensure that the terms are light, that the rule names each of its variables once, and that each has a domain. Check
/// with [`is_light`](super::is_light), [`is_over_different`](super::is_over_different) and [`first_unknown`](super::first_unknown).
///
/// `O(n)` in the number of terms, and a binary search. Does not allocate.
///
/// ```
/// use intervallum::proved::ivl_linear::linear::losses::{lone_loss, takes_nothing};
/// use intervallum::proved::examples::*;
///
/// fn main() -> Result<(), std::boxed::Box<dyn std::error::Error>> {
///     let alloc = Global;
///     // 3 * x - 2 * y != 4, where y is 4
///     let domains = Vec::from_array(alloc, [ IntervalSet::new(alloc, 0, 9)?, IntervalSet::new(alloc, 4, 4)?])?;
///     let terms = [Term { coefficient: 3, variable: 0 }, Term { coefficient: -2, variable: 1 }];
///     assert_eq!(lone_loss(&domains, &terms, Relation::Differs(4)), Some((0, 4)));
///     assert_eq!(lone_loss(&domains, &terms, Relation::Differs(5)), None);
///     Ok(())
/// }
/// ```
///
/// # Proved
///
/// If there is a result, narrowing takes just that one number, a member of that variable, which the rule names.
///
/// ```text
/// requires light { weight terms.now ≤ 2 ^ 60 }
/// requires different { NamesEachOnce terms.now relation }
/// requires present { NamesBelow (length domains.now) terms.now relation }
/// ensures { IfSome result (λ taken. TakesOnlyOne terms.now relation (set_at domains.now) taken.0 (B.value taken.1)) }
/// ```
///
/// Words: [`weight`](crate::definitions#weight), [`NamesEachOnce`](crate::definitions#NamesEachOnce), [`NamesBelow`](crate::definitions#NamesBelow), [`TakesOnlyOne`](crate::definitions#TakesOnlyOne), [`set_at`](crate::definitions#set_at).
#[cfg_attr(debug_assertions, track_caller)]
pub fn lone_loss<B: Width>(
    domains: &[IntervalSet<B>],
    terms: &[Term],
    relation: Relation,
) -> Option<(usize, B)> {
    debug_assert!({ #[allow(unused_imports)] use crate::proved::ivl_interval::ops::*; super::is_light(terms) && super::is_over_different(terms, relation) && super::first_unknown(terms, relation, domains.len()).is_none() }, "{}", "the condition of `lone_loss` is broken: super::is_light(terms) && super::is_over_different(terms, relation) && super::first_unknown(terms, relation, domains.len()).is_none()");
    match relation {
        Relation::AtMost(_) => None,
        Relation::AtLeast(_) => None,
        Relation::Differs(number) => lost_of_differing(domains, terms, number),
        Relation::Tells {
            variable: _,
            bound: _,
        } => None,
    }
}

/// The variable and the number that a sum that is not a number takes, if one term alone has several values.
fn lost_of_differing<B: Width>(
    domains: &[IntervalSet<B>],
    terms: &[Term],
    number: i64,
) -> Option<(usize, B)> {
    let ends = ends_of(terms, domains)?;
    for k in 0..terms.len() {
        if let Some(value) = lost_of_term(domains, terms, number, &ends, k) {
            return Some((terms[k].variable, value));
        }
    }
    None
}

/// The number that a term's variable loses, if that is one of several, and the other terms have one sum.
fn lost_of_term<B: Width>(
    domains: &[IntervalSet<B>],
    terms: &[Term],
    number: i64,
    ends: &SumEnds,
    k: usize,
) -> Option<B> {
    let term = terms[k];
    let domain = &domains[term.variable];
    if !has_two_values(&term, domain) {
        return None;
    }
    let Some(value) = forbidden(terms, number, ends, domains, k) else {
        return None;
    };
    member_at(domain, term.coefficient, value)
}

/// Whether a term has two values over a domain with a member.
fn has_two_values<B: Width>(term: &Term, domain: &IntervalSet<B>) -> bool {
    let least = least_of(term, domain);
    let greatest = greatest_of(term, domain);
    if least < greatest {
        return true;
    }
    false
}

/// A member whose product with a coefficient is a value.
fn member_at<B: Width>(set: &IntervalSet<B>, coefficient: i64, value: i128) -> Option<B> {
    let window: Interval<B> = window_at(coefficient, value);
    let low = window.lower_bound();
    if !window.contains(&low) {
        return None;
    }
    if set.contains(&low) {
        return Some(low);
    }
    None
}
