// Written by bindings/rust/extract from crates/ivl_search/src/search/descent.rt.
//! The search itself: depth first, by marks of one network.

#[allow(unused_imports)]
use crate::rattle::prelude::*;
use super::choice::{Node, Wanted};
use super::steps::{Cut, advance, enter, leave, point_of};
use super::{End, Limits};
use crate::proved::intervallum::interval_set::IntervalSet;
use crate::proved::intervallum::width::Width;
use crate::proved::ivl_network::network::Network;
use crate::rattle::std::alloc::{AllocError, Global};

/// The points that a search found, if they are kept.
pub(super) struct Kept<B> {
    pub is_kept: bool,
    pub points: Vec<Vec<B>>,
}

/// Adds the solutions over the domains of the network to those found, and takes them and the nodes
/// off what is left. The network keeps its rules and marks; its domains are narrowed.
pub(super) fn search<B: Width>(
    alloc: Global,
    network: &mut Network<B>,
    degrees: &[usize],
    wanted: Wanted,
    left: &mut Limits,
    found: &mut Kept<B>,
) -> Result<End, AllocError> {
    // for the prover: no more rules are unsettled than there are
    network.rules();
    let mut path = Vec::new(alloc);
    while left.nodes > 0 {
        if left.solutions == 0 {
            drop_path(network, &path);
            return Ok(End::Solutions);
        }
        left.nodes -= 1;
        match advance(network, degrees, wanted)? {
            Node::Unsettled => {}
            Node::Open(variable, value) => {
                let cut = enter(network, variable, value, wanted)?;
                path.push(cut)?;
            }
            Node::Dead => if !go_back(network, &mut path, wanted)? {
                return Ok(End::All);
            },
            Node::Leaf => {
                keep(alloc, network.domains(), found)?;
                left.solutions -= 1;
                if !go_back(network, &mut path, wanted)? {
                    return Ok(End::All);
                }
            }
        }
    }
    drop_path(network, &path);
    Ok(End::Nodes)
}

/// Goes back to the last cut, and into its other part. Returns false if there is no cut.
fn go_back<B: Width>(
    network: &mut Network<B>,
    path: &mut Vec<Cut<B>>,
    wanted: Wanted,
) -> Result<bool, AllocError> {
    match path.pop() {
        Some(cut) => {
            leave(network, cut, wanted)?;
            Ok(true)
        }
        None => Ok(false),
    }
}

/// Drops the marks of a path.
fn drop_path<B: Width>(network: &mut Network<B>, path: &[Cut<B>]) {
    if let Some(cut) = path.first() {
        network.drop_marks(cut.mark);
    }
}

/// Adds the point of domains that have one member each, if points are kept.
fn keep<B: Width>(
    alloc: Global,
    domains: &[IntervalSet<B>],
    found: &mut Kept<B>,
) -> Result<(), AllocError> {
    if found.is_kept {
        let point = point_of(alloc, domains)?;
        found.points.push(point)?;
    }
    Ok(())
}
