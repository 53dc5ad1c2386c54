// Written by bindings/rust/extract from crates/ivl_network/src/network/index.rt.
//! Which rules name each variable.

#[allow(unused_imports)]
use crate::rattle::prelude::*;
use super::hashes::Hashes;
use super::narrowing::has_two;
use crate::proved::intervallum::width::Width;
use crate::proved::ivl_rules::rules::Rule;
use crate::proved::ivl_store::store::{Constraint, Store};
use crate::rattle::std::alloc::{AllocError, Global};

/// For each variable the rules that name it, as two lists that are linked through the rules, the latest
/// one first: those that need single numbers, and the others. A place tells a rule and which of its
/// variables: rule k has 4 k + 1 for its x, 4 k + 2 for its y and 4 k + 3 for its z, and 0 ends a list.
pub(super) struct Index {
    lasts: Vec<usize>,
    single_lasts: Vec<usize>,
    // The place before each. The number at 4 k is not used.
    links: Vec<usize>,
    // For each rule, how many variables it alone names, of those that had several members, `Differs` aside.
    leaves: Vec<u8>,
    // By which a rule is found.
    hashes: Hashes,
}

impl Index {
    pub(super) fn new(alloc: Global) -> Index {
        Index {
            lasts: Vec::new(alloc),
            single_lasts: Vec::new(alloc),
            links: Vec::new(alloc),
            leaves: Vec::new(alloc),
            hashes: Hashes::new(alloc),
        }
    }

    /// Reserves room for so many more variables and rules.
    pub(super) fn reserve(&mut self, variables: usize, rules: usize) -> Result<(), AllocError> {
        self.lasts.reserve(variables)?;
        self.single_lasts.reserve(variables)?;
        self.links.reserve(rules.saturating_mul(4))?;
        self.leaves.reserve(rules)?;
        self.hashes.reserve(rules)?;
        Ok(())
    }

    /// Reserves room for one more variable.
    pub(super) fn reserve_variable(&mut self) -> Result<(), AllocError> {
        self.lasts.reserve(1)?;
        self.single_lasts.reserve(1)?;
        Ok(())
    }

    /// Adds a variable that no rule names.
    pub(super) fn push_variable(&mut self) {
        self.lasts.push_reserved(0);
        self.single_lasts.push_reserved(0);
    }

    /// Drops the last variable, if there is one, which no rule names.
    pub(super) fn pop_variable(&mut self) {
        let _ = self.lasts.pop();
        let _ = self.single_lasts.pop();
    }

    /// Reserves room for one more rule.
    pub(super) fn reserve_rule(&mut self) -> Result<(), AllocError> {
        self.links.reserve(4)?;
        self.leaves.reserve(1)?;
        self.hashes.reserve(1)?;
        Ok(())
    }

    /// Counts the leaves of the rule that is added next: its variables with several members that no rule names
    /// so far. A rule that alone named one of its variables has one leaf less.
    pub(super) fn push_leaves<B: Width>(&mut self, rule: &Rule, store: &Store<B>) {
        if rule.needs_single_numbers() {
            self.leaves.push_reserved(0);
            return;
        }
        let c = rule.places();
        let count = count_leaves(&self.lasts, &c, store);
        self.leaves.push_reserved(count);
        take_leaf(&mut self.leaves, &self.lasts, &self.links, c.x);
        take_leaf(&mut self.leaves, &self.lasts, &self.links, c.y);
        if c.y != c.z {
            take_leaf(&mut self.leaves, &self.lasts, &self.links, c.z);
        }
    }

    /// Whether a rule alone names a variable with several members, `Differs` aside: where it takes one of these, it
    /// wakes no other. That is a guess where rules were dropped.
    #[inline]
    pub(super) fn has_leaf(&self, k: usize) -> bool {
        k < self.leaves.len() && self.leaves[k] > 0
    }

    /// Adds a rule after the others.
    pub(super) fn push_rule(&mut self, rule: &Rule) {
        self.hashes.push(hash_of(rule));
        let c = rule.places();
        let start = self.links.len();
        if rule.needs_single_numbers() {
            push_places(&mut self.links, &self.single_lasts, &c);
            put_places(&mut self.single_lasts, &c, start + 1, start + 2, start + 3);
        } else {
            push_places(&mut self.links, &self.lasts, &c);
            put_places(&mut self.lasts, &c, start + 1, start + 2, start + 3);
        }
    }

    /// Drops the last rule.
    pub(super) fn pop_rule(&mut self, rule: &Rule) {
        let count = self.links.len();
        if count < 4 {
            return;
        }
        let _ = self.leaves.pop();
        self.hashes.pop();
        let start = count - 4;
        let x = self.links[start + 1];
        let y = self.links[start + 2];
        let z = self.links[start + 3];
        self.links.truncate(start);
        let c = rule.places();
        if rule.needs_single_numbers() {
            put_places(&mut self.single_lasts, &c, x, y, z);
        } else {
            put_places(&mut self.lasts, &c, x, y, z);
        }
    }

    /// The place of the last rule that names the variable, among those that need single numbers or
    /// among the others.
    pub(super) fn last(&self, singles: bool, variable: usize) -> usize {
        if singles {
            place_at(&self.single_lasts, variable)
        } else {
            place_at(&self.lasts, variable)
        }
    }

    /// The place before this one in its list.
    #[inline]
    pub(super) fn before(&self, place: usize) -> usize {
        self.links[place]
    }

    /// Whether a rule is one of the list: a walk over those in the bucket of its hash.
    pub(super) fn has(&self, rules: &[Rule], rule: &Rule) -> bool {
        let mut place = self.hashes.last(hash_of(rule));
        while place > 0 {
            if is_same(&rules[place - 1], rule) {
                return true;
            }
            place = self.hashes.before(place);
        }
        false
    }
}

/// A hash of a rule, from its kind and what it holds.
fn hash_of(rule: &Rule) -> u64 {
    match rule {
        Rule::Sum(c) => mixed(mixed(mixed(1, c.x as u64), c.y as u64), c.z as u64),
        Rule::Shifted { x, y, by } => hash_of_two(2, *x, *y, *by),
        Rule::AtMost { x, y, by } => hash_of_two(3, *x, *y, *by),
        Rule::Differs { x, y, by } => hash_of_two(4, *x, *y, *by),
    }
}

fn hash_of_two(kind: u64, x: usize, y: usize, by: i64) -> u64 {
    mixed(mixed(mixed(kind, x as u64), y as u64), by.unsigned_abs())
}

/// A hash with one more number.
fn mixed(hash: u64, word: u64) -> u64 {
    hash.wrapping_mul(0x9E37_79B9_7F4A_7C15).wrapping_add(word)
}

/// Adds a 0 and the places that stand at three variables.
fn push_places(links: &mut Vec<usize>, lasts: &[usize], c: &Constraint) {
    links.push_reserved(0);
    links.push_reserved(lasts[c.x]);
    links.push_reserved(lasts[c.y]);
    links.push_reserved(lasts[c.z]);
}

/// How many variables at these places have several members, and no rule so far. A rule of two variables has its
/// second twice.
fn count_leaves<B: Width>(lasts: &[usize], c: &Constraint, store: &Store<B>) -> u8 {
    let count = leaf_at(lasts, c.x, store) + leaf_at(lasts, c.y, store);
    if c.y == c.z {
        return count;
    }
    count + leaf_at(lasts, c.z, store)
}

/// One for a variable that has several members and that no rule names so far, and else none.
fn leaf_at<B: Width>(lasts: &[usize], variable: usize, store: &Store<B>) -> u8 {
    if place_at(lasts, variable) > 0 || variable >= store.domains().len() {
        return 0;
    }
    if has_two(store, variable) { 1 } else { 0 }
}

/// Counts a leaf less of the rule that alone names a variable so far, if one does.
fn take_leaf(leaves: &mut [u8], lasts: &[usize], links: &[usize], variable: usize) {
    let last = place_at(lasts, variable);
    let k = last / 4;
    if last > 0 && place_at(links, last) == 0 && k < leaves.len() {
        leaves[k] = leaves[k].saturating_sub(1);
    }
}

/// Puts places at three variables, and the last of them where two are one.
fn put_places(lasts: &mut Vec<usize>, c: &Constraint, x: usize, y: usize, z: usize) {
    lasts[c.x] = x;
    lasts[c.y] = y;
    lasts[c.z] = z;
}

/// The place that stands at a variable, or 0 if that is not there.
fn place_at(lasts: &[usize], variable: usize) -> usize {
    if variable < lasts.len() {
        lasts[variable]
    } else {
        0
    }
}

/// Whether two rules are the same.
fn is_same(first: &Rule, second: &Rule) -> bool {
    *first == *second
}
