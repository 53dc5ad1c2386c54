//! The store by example, with domains that were worked out by hand.

mod narrowing;
mod network;
mod posting;
mod rounds;
mod variables;

use crate::compare::{check_printed, sets_of};
use intervallum::proved::Global;
use intervallum::proved::ivl_store::store::{Constraint, Store};
use intervallum::proved::width::Width;
use std::fmt::Display;

/// A store whose domains have these runs.
fn store_of<B: Width>(domains: &[&[(B, B)]]) -> Store<B> {
    Store::new(Global, sets_of(domains))
}

/// The constraint that the first variable and the second add up to the third.
fn sum([x, y, z]: [usize; 3]) -> Constraint {
    Constraint { x, y, z }
}

/// The domains are printed as these texts.
fn check_domains<B: Width + Display>(store: &Store<B>, texts: &[&str]) {
    assert_eq!(store.domains().len(), texts.len());
    for (domain, text) in store.domains().iter().zip(texts) {
        check_printed(domain, text);
    }
}
