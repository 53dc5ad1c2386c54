// Written by bindings/rust/extract from crates/ivl_search/src/search/sums.rt.
//! Constraints as rules: each is the rule of a sum.

#[allow(unused_imports)]
use crate::rattle::prelude::*;
use crate::proved::ivl_rules::rules::Rule;
use crate::proved::ivl_store::store::Constraint;
use crate::rattle::std::alloc::{AllocError, Global};

/// Returns the first index of the constraints that is not below `count`, or `None` if all are.
pub(super) fn first_unknown(constraints: &[Constraint], count: usize) -> Option<usize> {
    for constraint in constraints {
        if let Some(i) = constraint.first_unknown(count) {
            return Some(i);
        }
    }
    None
}

/// Returns the first such index, or else the variable if it is not below `count`.
pub(super) fn first_unknown_or(
    variable: usize,
    count: usize,
    constraints: &[Constraint],
) -> Option<usize> {
    match first_unknown(constraints, count) {
        None if variable >= count => Some(variable),
        unknown => unknown,
    }
}

/// Returns the rules of the constraints, in their order.
pub(super) fn rules_of(alloc: Global, constraints: &[Constraint]) -> Result<Vec<Rule>, AllocError> {
    let mut rules = Vec::with_capacity(alloc, constraints.len())?;
    for constraint in constraints {
        rules.push(Rule::Sum(*constraint))?;
    }
    Ok(rules)
}
