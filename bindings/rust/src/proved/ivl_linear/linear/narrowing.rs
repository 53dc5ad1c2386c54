// Written by bindings/rust/extract from crates/ivl_linear/src/linear/narrowing.rt.
//! Narrowing by one linear rule.

#[allow(unused_imports)]
use crate::rattle::prelude::*;
use super::at_least::required;
use super::at_most::allowed;
use super::differs::lost_of;
use super::rests::{rest_of_none, rest_outside, rest_within};
use super::sums::{SumEnds, ends_of};
use super::told::{allowed_by_answer, answers_of};
use super::{Relation, Term};
use crate::proved::intervallum::interval_set::IntervalSet;
use crate::proved::intervallum::width::Width;
use crate::rattle::std::alloc::{AllocError, Global};

/// What is left of domains that lose a member, each with its variable.
type Rests<B> = Vec<(usize, IntervalSet<B>)>;

/// Narrows by a rule: a domain that it names keeps its members that are in a point of the domains which satisfies the rule, and the
/// others stay. Returns true exactly when some domain lost a member.
///
/// The caller must ensure that the terms are light, that the rule names each of its variables once, and that each has a domain. Check
/// with [`is_light`](super::is_light), [`is_over_different`](super::is_over_different) and [`first_unknown`](super::first_unknown).
///
/// `O(n)` in the number of terms, and for each domain that loses a member, a binary search and a copy of what is left. Where the
/// domain of a term is empty, each domain that is named becomes empty. Does not allocate where no member is lost.
///
/// # Errors
///
/// Fails only if allocation fails. The domains are then unchanged.
///
/// ```
/// use intervallum::proved::ivl_linear::linear::narrowing::narrow;
/// use intervallum::proved::examples::*;
///
/// fn main() -> Result<(), std::boxed::Box<dyn std::error::Error>> {
///     let alloc = Global;
///     // 3 * x - 2 * y <= 4, for x from 0 to 9 and y from 0 to 5
///     let mut domains = Vec::from_array(alloc, [ IntervalSet::new(alloc, 0, 9)?, IntervalSet::new(alloc, 0, 5)?])?;
///     let terms = [Term { coefficient: 3, variable: 0 }, Term { coefficient: -2, variable: 1 }];
///     assert!(narrow(&mut domains, &terms, Relation::AtMost(4))?);
///     assert!(domains[0] == IntervalSet::new(alloc, 0, 4)?);
///     assert!(!narrow(&mut domains, &terms, Relation::AtMost(4))?);
///     Ok(())
/// }
/// ```
///
/// # Proved
///
/// After an error the domains are as they were. On success each variable that the rule names has exactly those of its members that are in a point of the old domains which satisfies the rule, and every other domain has its members. The answer is false exactly when all members stay.
///
/// ```text
/// requires light { weight terms.now ≤ 2 ^ 60 }
/// requires different { NamesEachOnce terms.now relation }
/// requires present { NamesBelow (length domains.old) terms.now relation }
/// ensures refused { OnErr result (domains.new ≡ domains.old) }
/// ensures kept_count { OnOk result (length domains.new ≡ length domains.old) }
/// ensures narrowed { OnOk result ((i : ℕ) (v : ℤ) → set_at domains.new i v ↔ NarrowedByLinear terms.now relation (set_at domains.old) i v) }
/// ensures exact { OnOk result ((i : ℕ) → LinearNames terms.now relation i → (v : ℤ) → set_at domains.new i v ↔ HasLinearPointAt terms.now relation (set_at domains.old) i v) }
/// ensures kept { IfOk result (λ lost. (lost ≡ false) ↔ ((i : ℕ) (v : ℤ) → set_at domains.old i v → set_at domains.new i v)) }
/// ```
///
/// Words: [`weight`](crate::definitions#weight), [`NamesEachOnce`](crate::definitions#NamesEachOnce), [`NamesBelow`](crate::definitions#NamesBelow), [`set_at`](crate::definitions#set_at), [`NarrowedByLinear`](crate::definitions#NarrowedByLinear), [`LinearNames`](crate::definitions#LinearNames), [`HasLinearPointAt`](crate::definitions#HasLinearPointAt).
#[cfg_attr(debug_assertions, track_caller)]
pub fn narrow<B: Width>(
    domains: &mut [IntervalSet<B>],
    terms: &[Term],
    relation: Relation,
) -> Result<bool, AllocError> {
    debug_assert!({ #[allow(unused_imports)] use crate::proved::ivl_interval::ops::*; super::is_light(terms) && super::is_over_different(terms, relation) && super::first_unknown(terms, relation, domains.len()).is_none() }, "{}", "the condition of `narrow` is broken: super::is_light(terms) && super::is_over_different(terms, relation) && super::first_unknown(terms, relation, domains.len()).is_none()");
    if domains.is_empty() {
        return Ok(false);
    }
    let mut rests = rests_of(domains[0].allocator(), domains, terms, relation)?;
    if rests.is_empty() {
        return Ok(false);
    }
    'rests: while let Some(rest) = rests.pop() {
        put_rest(domains, rest);
    }
    Ok(true)
}

/// Puts what is left in place of the domain of its variable.
fn put_rest<B: Width>(domains: &mut [IntervalSet<B>], rest: (usize, IntervalSet<B>)) {
    let (i, set) = rest;
    domains[i] = set;
}

/// What narrowing by a rule leaves of each domain that loses a member.
fn rests_of<B: Width>(
    alloc: Global,
    domains: &[IntervalSet<B>],
    terms: &[Term],
    relation: Relation,
) -> Result<Rests<B>, AllocError> {
    let ends = ends_of(terms, domains);
    let mut rests = rests_of_terms(alloc, domains, terms, relation, ends)?;
    match relation {
        Relation::AtMost(_) => Ok(rests),
        Relation::AtLeast(_) => Ok(rests),
        Relation::Differs(_) => Ok(rests),
        Relation::Tells { variable, bound } => {
            let rest = rest_of_teller(domains, variable, bound, ends)?;
            push_rest(&mut rests, variable, rest)?;
            Ok(rests)
        }
    }
}

/// What narrowing by a rule leaves of the domain of each term that loses a member.
fn rests_of_terms<B: Width>(
    alloc: Global,
    domains: &[IntervalSet<B>],
    terms: &[Term],
    relation: Relation,
    ends: Option<SumEnds>,
) -> Result<Rests<B>, AllocError> {
    let mut rests = Vec::new(alloc);
    for k in 0..terms.len() {
        let rest = rest_of_term(domains, terms, relation, ends, k)?;
        push_rest(&mut rests, terms[k].variable, rest)?;
    }
    Ok(rests)
}

/// Adds what is left of the domain of a variable, if that loses a member.
fn push_rest<B: Width>(
    rests: &mut Rests<B>,
    variable: usize,
    rest: Option<IntervalSet<B>>,
) -> Result<(), AllocError> {
    match rest {
        Some(set) => {
            rests.push((variable, set))?;
            Ok(())
        }
        None => Ok(()),
    }
}

/// Returns what narrowing by a rule leaves of the domain of one term, or `None` if that loses no member.
///
/// The caller must ensure that the terms are light, that the rule names each of its variables once, that each has a domain, and that
/// `ends` is what [`ends_of`] returns for these domains. Check with [`is_light`](super::is_light),
/// [`is_over_different`](super::is_over_different) and [`first_unknown`](super::first_unknown).
///
/// `O(1)` where no member is lost, `O(log n)` for a `Differs`, and does not allocate then; else a binary search and a copy of what is
/// left: `O(n)`.
///
/// # Errors
///
/// Fails only if allocation fails.
///
/// ```
/// use intervallum::proved::ivl_linear::linear::narrowing::narrow;
/// use intervallum::proved::examples::*;
///
/// fn main() -> Result<(), std::boxed::Box<dyn std::error::Error>> {
///     let alloc = Global;
///     // 3 * x - 2 * y != 4, where y is 4
///     let domains = Vec::from_array(alloc, [ IntervalSet::new(alloc, 0, 4)?, IntervalSet::new(alloc, 4, 4)?])?;
///     let terms = [Term { coefficient: 3, variable: 0 }, Term { coefficient: -2, variable: 1 }];
///     let ends = ends_of(&terms, &domains);
///     let left = rest_of_term(&domains, &terms, Relation::Differs(4), ends, 0)?;
///     assert!(left == Some(IntervalSet::new(alloc, 0, 3)?));
///     assert!(rest_of_term(&domains, &terms, Relation::Differs(4), ends, 1)?.is_none());
///     Ok(())
/// }
/// ```
///
/// # Proved
///
/// On success the result has the members of the term's variable that are in a point of the domains which satisfies the rule, or is `None` if all are.
///
/// ```text
/// requires light { weight terms.now ≤ 2 ^ 60 }
/// requires different { NamesEachOnce terms.now relation }
/// requires present { NamesBelow (length domains.now) terms.now relation }
/// requires ends { AreEndsOf terms.now (set_at domains.now) ends }
/// requires known { k < length terms.now }
/// ensures { IfOk result (IsRestOf (slice_index_or domains.now (term_at terms.now k).variable []) (HasLinearPointAt terms.now relation (set_at domains.now) (term_at terms.now k).variable)) }
/// ```
///
/// Words: [`weight`](crate::definitions#weight), [`NamesEachOnce`](crate::definitions#NamesEachOnce), [`NamesBelow`](crate::definitions#NamesBelow), [`AreEndsOf`](crate::definitions#AreEndsOf), [`set_at`](crate::definitions#set_at), [`IsRestOf`](crate::definitions#IsRestOf), [`term_at`](crate::definitions#term_at), [`HasLinearPointAt`](crate::definitions#HasLinearPointAt).
#[cfg_attr(debug_assertions, track_caller)]
pub fn rest_of_term<B: Width>(
    domains: &[IntervalSet<B>],
    terms: &[Term],
    relation: Relation,
    ends: Option<SumEnds>,
    k: usize,
) -> Result<Option<IntervalSet<B>>, AllocError> {
    debug_assert!({ #[allow(unused_imports)] use crate::proved::ivl_interval::ops::*; k < terms.len() && super::is_light(terms) && super::is_over_different(terms, relation) && super::first_unknown(terms, relation, domains.len()).is_none() }, "{}", "the condition of `rest_of_term` is broken: k < terms.len() && super::is_light(terms) && super::is_over_different(terms, relation) && super::first_unknown(terms, relation, domains.len()).is_none()");
    match ends {
        Some(ends) => rest_of_filled(domains, terms, relation, &ends, k),
        None => {
            let term = terms[k];
            Ok(rest_of_none(&domains[term.variable]))
        }
    }
}

/// What narrowing by a rule leaves of the domain of one term, where no domain of a term is empty.
fn rest_of_filled<B: Width>(
    domains: &[IntervalSet<B>],
    terms: &[Term],
    relation: Relation,
    ends: &SumEnds,
    k: usize,
) -> Result<Option<IntervalSet<B>>, AllocError> {
    let term = terms[k];
    let domain = &domains[term.variable];
    match relation {
        Relation::AtMost(bound) => rest_within(domain, allowed(terms, bound, ends, domains, k)),
        Relation::AtLeast(bound) => {
            rest_within(domain, required(terms, bound as i128, ends, domains, k))
        }
        Relation::Differs(number) => {
            rest_outside(domain, lost_of(terms, number, ends, domains, k))
        }
        Relation::Tells { variable, bound } => {
            rest_within(
                domain,
                allowed_by_answer(terms, variable, bound, ends, domains, k),
            )
        }
    }
}

/// Returns what narrowing leaves of the domain of the variable that tells whether a sum is within a bound, or `None` if that loses no
/// member.
///
/// The caller must ensure that the variable has a domain. The result is right for terms of which none is of the variable, where
/// `ends` is what [`ends_of`] returns for them and these domains. Check with [`first_unknown`](super::first_unknown) and
/// [`is_over_different`](super::is_over_different).
///
/// `O(1)` where no member is lost, and does not allocate then; else a binary search and a copy of what is left: `O(n)`.
///
/// # Errors
///
/// Fails only if allocation fails.
///
/// ```
/// use intervallum::proved::ivl_linear::linear::narrowing::narrow;
/// use intervallum::proved::examples::*;
///
/// fn main() -> Result<(), std::boxed::Box<dyn std::error::Error>> {
///     let alloc = Global;
///     // b tells whether 3 * x - 2 * y is at most 4: for x from 2 to 4, where y is 0, it is not
///     let bit = IntervalSet::new(alloc, 0, 1)?;
///     let domains = Vec::from_array(alloc, [ IntervalSet::new(alloc, 2, 4)?, IntervalSet::new(alloc, 0, 0)?, bit])?;
///     let terms = [Term { coefficient: 3, variable: 0 }, Term { coefficient: -2, variable: 1 }];
///     let left = rest_of_teller(&domains, 2, 4, ends_of(&terms, &domains))?;
///     assert!(left == Some(IntervalSet::new(alloc, 0, 0)?));
///     Ok(())
/// }
/// ```
///
/// # Proved
///
/// On success, if these are the ends of terms of which none is of the variable, the result has the members of the variable that are in a point of the domains which satisfies the rule, or is `None` if all are.
///
/// ```text
/// requires present { variable < length domains.now }
/// ensures { (terms : List Term) → ¬ (HasTermOf terms variable) → AreEndsOf terms (set_at domains.now) ends
///     → IfOk result (IsRestOf (slice_index_or domains.now variable []) (HasLinearPointAt terms (TellsRelation variable bound) (set_at domains.now) variable)) }
/// ```
///
/// Words: [`HasTermOf`](crate::definitions#HasTermOf), [`AreEndsOf`](crate::definitions#AreEndsOf), [`set_at`](crate::definitions#set_at), [`IsRestOf`](crate::definitions#IsRestOf), [`HasLinearPointAt`](crate::definitions#HasLinearPointAt).
#[cfg_attr(debug_assertions, track_caller)]
pub fn rest_of_teller<B: Width>(
    domains: &[IntervalSet<B>],
    variable: usize,
    bound: i64,
    ends: Option<SumEnds>,
) -> Result<Option<IntervalSet<B>>, AllocError> {
    debug_assert!({ #[allow(unused_imports)] use crate::proved::ivl_interval::ops::*; variable < domains.len() }, "{}", "the condition of `rest_of_teller` is broken: variable < domains.len()");
    let domain = &domains[variable];
    match ends {
        Some(ends) => rest_within(domain, answers_of(bound, ends.least, ends.greatest)),
        None => Ok(rest_of_none(domain)),
    }
}
