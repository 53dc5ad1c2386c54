// Written by bindings/rust/extract from crates/ivl_linear/src/linear.rt.
//! Linear rules: what is said of a sum of terms, each a coefficient times the number of a variable.
//!
//! A rule is a list of [`Term`]s and a [`Relation`]. [`narrowing::narrow`] takes from the domains of its variables what is in no
//! point that satisfies it: it leaves a member exactly if some point of the domains has it, also of domains with gaps. The terms must
//! name each variable once ([`is_over_different`]), and be light ([`is_light`]), so that no sum overflows, whatever the domains.
//! An equation is two rules, `AtMost` and `AtLeast`; narrowing by one and the other keeps all points of both, and may keep more.

#[allow(unused_imports)]
use crate::rattle::prelude::*;

mod at_least;
mod at_most;
mod differs;

pub mod losses;
pub mod narrowing;
mod rests;
pub mod sums;
mod told;
mod windows;

/// A coefficient and a variable, which is named by its index. Its value is the product with the variable's number.
#[derive(Clone, Copy, Debug, PartialEq, Eq)]
pub struct Term {
    pub coefficient: i64,
    pub variable: usize,
}

/// What is said of the sum of the terms.
#[derive(Clone, Copy, Debug, PartialEq, Eq)]
pub enum Relation {
    /// The sum is at most a number.
    AtMost(i64),
    /// The sum is at least a number.
    AtLeast(i64),
    /// The sum is not a number.
    Differs(i64),
    /// A variable, which no term is of, is 1 if the sum is at most a bound, and 0 if it is not.
    Tells { variable: usize, bound: i64 },
}

/// Returns true exactly when the rule names each of its variables once: no two terms are of one variable, nor is a term of the
/// variable that tells. `O(n^2)` in the number of terms. Does not allocate.
///
/// ```
/// use intervallum::proved::examples::*;
///
/// fn main() -> Result<(), std::boxed::Box<dyn std::error::Error>> {
///     let alloc = Global;
///     let terms = [Term { coefficient: 3, variable: 0 }, Term { coefficient: -2, variable: 1 }];
///     assert!(is_over_different(&terms, Relation::AtMost(4)));
///     assert!(!is_over_different(&terms, Relation::Tells { variable: 1, bound: 4 }));
///     Ok(())
/// }
/// ```
///
/// # Proved
///
/// True exactly when the rule names each variable once.
///
/// ```text
/// ensures { IsTrue result ↔ NamesEachOnce terms.now relation }
/// ```
///
/// Words: [`NamesEachOnce`](crate::definitions#NamesEachOnce).
pub fn is_over_different(terms: &[Term], relation: Relation) -> bool {
    if !are_of_different(terms) {
        return false;
    }
    match relation {
        Relation::AtMost(_) => true,
        Relation::AtLeast(_) => true,
        Relation::Differs(_) => true,
        Relation::Tells { variable, bound: _ } => !has_term_of(terms, variable),
    }
}

/// Whether no two terms are of one variable.
fn are_of_different(terms: &[Term]) -> bool {
    for (i, term) in terms.iter().enumerate() {
        if has_term_of(&terms[i + 1..], term.variable) {
            return false;
        }
    }
    true
}

/// Whether some term is of a variable.
fn has_term_of(terms: &[Term], variable: usize) -> bool {
    for term in terms {
        if term.variable == variable {
            return true;
        }
    }
    false
}

/// Returns the first variable that the rule names and that is not below `count`, or `None` if all are. The variable that tells comes
/// after those of the terms. `O(n)` in the number of terms. Does not allocate.
///
/// ```
/// use intervallum::proved::examples::*;
///
/// fn main() -> Result<(), std::boxed::Box<dyn std::error::Error>> {
///     let alloc = Global;
///     let terms = [Term { coefficient: 3, variable: 0 }, Term { coefficient: -2, variable: 5 }];
///     assert_eq!(first_unknown(&terms, Relation::AtMost(4), 2), Some(5));
///     assert_eq!(first_unknown(&terms, Relation::Tells { variable: 6, bound: 4 }, 6), Some(6));
///     assert_eq!(first_unknown(&terms, Relation::AtMost(4), 6), None);
///     Ok(())
/// }
/// ```
///
/// # Proved
///
/// The result is the first variable that is named and not below the count. If there is none, each is below it.
///
/// ```text
/// ensures first { result ≡ unknown_named count terms.now relation }
/// ensures present { result ≡ None → NamesBelow count terms.now relation }
/// ```
///
/// Words: [`unknown_named`](crate::definitions#unknown_named), [`NamesBelow`](crate::definitions#NamesBelow).
pub fn first_unknown(terms: &[Term], relation: Relation, count: usize) -> Option<usize> {
    if let Some(i) = first_unknown_term(terms, count) {
        return Some(i);
    }
    match relation {
        Relation::AtMost(_) => None,
        Relation::AtLeast(_) => None,
        Relation::Differs(_) => None,
        Relation::Tells { variable, bound: _ } => unless_below(variable, count),
    }
}

/// The first variable of a term that is not below the count.
fn first_unknown_term(terms: &[Term], count: usize) -> Option<usize> {
    for term in terms {
        if term.variable >= count {
            return Some(term.variable);
        }
    }
    None
}

/// A variable, unless it is below the count.
fn unless_below(variable: usize, count: usize) -> Option<usize> {
    if variable >= count {
        return Some(variable);
    }
    None
}

/// Returns true exactly when the sizes of the coefficients add up to 2^60 at most. No sum of such terms overflows, whatever the
/// numbers of the variables. `O(n)` in the number of terms. Does not allocate.
///
/// ```
/// use intervallum::proved::examples::*;
///
/// fn main() -> Result<(), std::boxed::Box<dyn std::error::Error>> {
///     let alloc = Global;
///     let term = Term { coefficient: -(1 << 60), variable: 0 };
///     assert!(is_light(&[term]));
///     assert!(!is_light(&[term, Term { coefficient: 1, variable: 1 }]));
///     Ok(())
/// }
/// ```
///
/// # Proved
///
/// True exactly when the sizes of the coefficients add up to 2^60 at most.
///
/// ```text
/// ensures { IsTrue result ↔ (weight terms.now ≤ 2 ^ 60) }
/// ```
///
/// Words: [`weight`](crate::definitions#weight).
pub fn is_light(terms: &[Term]) -> bool {
    let mut left: u64 = 1 << 60;
    for term in terms {
        match left.checked_sub(term.coefficient.unsigned_abs()) {
            Some(rest) => left = rest,
            None => return false,
        }
    }
    true
}
