// Written by bindings/rust/extract from crates/ivl_store_lines/src/different.rt.
//! Names that stand once, and variables of which no two have the same number.

#[allow(unused_imports)]
use crate::rattle::prelude::*;
use crate::proved::ivl_lines::next_word;
use crate::proved::ivl_rules::rules::Rule;
use crate::rattle::std::alloc::{AllocError, Global};

/// Returns the first name that stands again after itself, or `None` if each stands once. Compares
/// each name with the later ones.
pub fn first_repeated(names: &str) -> Option<&str> {
    let mut rest = names;
    while let Some((name, after)) = next_word(rest) {
        if has_name(after, name) {
            return Some(name);
        }
        rest = after;
    }
    None
}

/// Returns true exactly when the name is among these.
fn has_name(names: &str, name: &str) -> bool {
    let mut rest = names;
    while let Some((other, after)) = next_word(rest) {
        if name == other {
            return true;
        }
        rest = after;
    }
    false
}

/// Returns the rules that no two of the variables have the same number: those of each variable with
/// the later ones.
pub fn each_pair(alloc: Global, variables: &[usize]) -> Result<Vec<Rule>, AllocError> {
    let mut rules = Vec::new(alloc);
    let mut rest = variables;
    while let [first, others @ ..] = rest {
        push_pairs(&mut rules, *first, others)?;
        rest = others;
    }
    Ok(rules)
}

/// Adds the rules that the first variable has another number than each of the others.
fn push_pairs(rules: &mut Vec<Rule>, first: usize, others: &[usize]) -> Result<(), AllocError> {
    for other in others {
        rules.push(Rule::Differs {
            x: first,
            y: *other,
            by: 0,
        })?;
    }
    Ok(())
}
