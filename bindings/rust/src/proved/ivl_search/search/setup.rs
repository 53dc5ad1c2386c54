// Written by bindings/rust/extract from crates/ivl_search/src/search/setup.rt.
//! The network of the domains and the rules.

#[allow(unused_imports)]
use crate::rattle::prelude::*;
use crate::proved::intervallum::interval_set::IntervalSet;
use crate::proved::intervallum::width::Width;
use crate::proved::ivl_network::network::Network;
use crate::proved::ivl_rules::rules::Rule;
use crate::rattle::std::alloc::{AllocError, Global};

/// Returns the first index of the rules that is not below `count`, or `None` if all are.
pub(super) fn first_unknown(rules: &[Rule], count: usize) -> Option<usize> {
    for rule in rules {
        if let Some(i) = rule.first_unknown(count) {
            return Some(i);
        }
    }
    None
}

/// Returns the first such index, or else the variable if it is not below `count`.
pub(super) fn first_unknown_or(variable: usize, count: usize, rules: &[Rule]) -> Option<usize> {
    match first_unknown(rules, count) {
        None if variable >= count => Some(variable),
        unknown => unknown,
    }
}

/// Returns a network of copies of the domains, with the rules.
pub(super) fn network_of<B: Width>(
    alloc: Global,
    domains: &[IntervalSet<B>],
    rules: &[Rule],
) -> Result<Network<B>, AllocError> {
    let mut network = Network::new(alloc);
    network.reserve(domains.len(), rules.len())?;
    add_variables(alloc, &mut network, domains)?;
    require_all(&mut network, rules)?;
    // for the prover: the rules name variables of the network
    network.rules();
    Ok(network)
}

/// Returns how many of the rules name each of so many variables.
pub(super) fn degrees_of(
    alloc: Global,
    variables: usize,
    rules: &[Rule],
) -> Result<Vec<usize>, AllocError> {
    let mut degrees = Vec::from_elem(alloc, 0, variables)?;
    for rule in rules {
        let c = rule.places();
        add_one(&mut degrees, c.x);
        add_one(&mut degrees, c.y);
        // a rule of two variables has its second twice
        if c.z != c.y {
            add_one(&mut degrees, c.z);
        }
    }
    Ok(degrees)
}

/// Counts a rule that names a variable.
fn add_one(degrees: &mut [usize], variable: usize) {
    if variable < degrees.len() {
        degrees[variable] = degrees[variable].saturating_add(1);
    }
}

/// Adds a variable for each domain, in this order.
fn add_variables<B: Width>(
    alloc: Global,
    network: &mut Network<B>,
    domains: &[IntervalSet<B>],
) -> Result<(), AllocError> {
    for domain in domains {
        // with room for the runs that cuts leave, which a clone has not
        let mut copy = IntervalSet::empty(alloc);
        copy.try_clone_from(domain)?;
        network.add_variable(copy)?;
    }
    Ok(())
}

/// Requires each of the rules.
fn require_all<B: Width>(network: &mut Network<B>, rules: &[Rule]) -> Result<(), AllocError> {
    for rule in rules {
        match network.require(*rule) {
            Ok(()) => {}
            Err(_) => return Err(AllocError),
        }
    }
    Ok(())
}
