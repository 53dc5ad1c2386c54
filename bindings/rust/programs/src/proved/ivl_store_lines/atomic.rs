// Written by bindings/rust/extract from crates/ivl_store_lines/src/atomic.rt.
//! Lines that change the network, each carried out as a whole or not at all.
//!
//! A network is marked before a line and taken back to the mark if an allocation fails.

#[allow(unused_imports)]
use crate::rattle::prelude::*;
use crate::proved::ivl_store_lines::progress::Progress;
use crate::proved::intervallum::interval_set::IntervalSet;
use crate::proved::ivl_network::network::{Network, Settled};
use crate::proved::ivl_rules::rules::Rule;
use crate::rattle::std::alloc::AllocError;

/// Cuts a domain and narrows all, within the limit.
pub fn restrict_atomically(
    network: &mut Network<i64>,
    variable: usize,
    allowed: &IntervalSet<i64>,
    limit: u64,
) -> Result<Progress, AllocError> {
    let mark = network.mark()?;
    match network.restrict(variable, allowed) {
        Ok(()) => {
            let progress = settle_to(network, mark, limit)?;
            Ok(progress)
        }
        Err(_) => {
            network.drop_marks(mark);
            Err(AllocError)
        }
    }
}

/// Adds the rules and narrows the domains, within the limit.
pub fn require_atomically(
    network: &mut Network<i64>,
    rules: &[Rule],
    limit: u64,
) -> Result<Progress, AllocError> {
    let mark = network.mark()?;
    match require_each(network, rules) {
        Ok(()) => {
            let progress = settle_to(network, mark, limit)?;
            Ok(progress)
        }
        Err(_) => Err(taken_back(network, mark)),
    }
}

/// Adds those of the rules that were not added before, in order.
fn require_each(network: &mut Network<i64>, rules: &[Rule]) -> Result<(), AllocError> {
    for rule in rules {
        match network.require(*rule) {
            Ok(()) => {}
            Err(_) => return Err(AllocError),
        }
    }
    Ok(())
}

/// Narrows the domains by the rules, within the limit.
pub fn settle_atomically(network: &mut Network<i64>, limit: u64) -> Result<Progress, AllocError> {
    let mark = network.mark()?;
    let progress = settle_to(network, mark, limit)?;
    Ok(progress)
}

/// Narrows the domains and drops the mark, or takes the network back to it.
fn settle_to(network: &mut Network<i64>, mark: usize, limit: u64) -> Result<Progress, AllocError> {
    match network.settle_within(limit) {
        Ok(reached) => {
            network.drop_marks(mark);
            // for the prover: each rule is settled or not
            network.rules();
            Ok(progress_of(reached))
        }
        Err(_) => Err(taken_back(network, mark)),
    }
}

/// Takes the network back to the mark, where an allocation failed.
fn taken_back(network: &mut Network<i64>, mark: usize) -> AllocError {
    network.undo_to(mark);
    AllocError
}

/// How far the domains are narrowed, by what a call reached.
fn progress_of(reached: Settled) -> Progress {
    match reached {
        Settled::All => Progress::Complete,
        Settled::Unfinished => Progress::Budget,
    }
}
