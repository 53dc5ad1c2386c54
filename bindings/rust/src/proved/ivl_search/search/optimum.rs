// Written by bindings/rust/extract from crates/ivl_search/src/search/optimum.rt.
//! The best solution: a solution is looked for among the better half of a variable's numbers, and the
//! domain is cut to what is better than it, or to the other half if there is none.

#[allow(unused_imports)]
use crate::rattle::prelude::*;
use super::choice::{Node, Part, Wanted, middle};
use super::descent::{Kept, search};
use super::setup::{degrees_of, first_unknown_or, network_of};
use super::steps::{advance, enter, keep_part};
use super::{Best, End, Limits, SearchFault};
use crate::proved::intervallum::interval_set::IntervalSet;
use crate::proved::intervallum::width::Width;
use crate::proved::ivl_network::network::Network;
use crate::proved::ivl_rules::rules::Rule;
use crate::rattle::std::alloc::{AllocError, Global};

/// Returns the best solution over the domains.
pub(super) fn best_at<B: Width>(
    alloc: Global,
    domains: &[IntervalSet<B>],
    rules: &[Rule],
    variable: usize,
    limits: Limits,
    wanted: Wanted,
) -> Result<Best<B>, SearchFault> {
    if let Some(i) = first_unknown_or(variable, domains.len(), rules) {
        return Err(SearchFault::Variable(i));
    }
    let mut network = network_of(alloc, domains, rules)?;
    let degrees = degrees_of(alloc, domains.len(), rules)?;
    let best = best_of(alloc, &mut network, &degrees, variable, limits, wanted)?;
    Ok(best)
}

/// Returns the best solution over the domains of the network, which are cut on the way.
fn best_of<B: Width>(
    alloc: Global,
    network: &mut Network<B>,
    degrees: &[usize],
    variable: usize,
    limits: Limits,
    wanted: Wanted,
) -> Result<Best<B>, AllocError> {
    let mut left = limits;
    let mut best = None;
    while left.nodes > 0 {
        if left.solutions == 0 {
            return Ok(Best {
                point: best,
                end: End::Solutions,
            });
        }
        left.nodes -= 1;
        let Some(half) = narrowed_middle(network, degrees, variable, wanted)? else {
            return Ok(Best {
                point: best,
                end: End::All,
            });
        };
        let nodes = &mut left.nodes;
        let Best { point, end } = one_solution(
            alloc, network, degrees, variable, half, wanted, nodes,
        )?;
        match point {
            Some(point) => {
                let value = point[variable];
                keep_part(network, variable, value, wanted, Part::Better)?;
                left.solutions -= 1;
                best = Some(point);
            }
            None if end == End::All => {
                keep_part(network, variable, half, wanted, Part::Worse)?;
            }
            None => return Ok(Best { point: best, end }),
        }
    }
    Ok(Best {
        point: best,
        end: End::Nodes,
    })
}

/// Narrows the domains, and returns a member in the middle of one of them, or `None` if no point
/// solves.
fn narrowed_middle<B: Width>(
    network: &mut Network<B>,
    degrees: &[usize],
    variable: usize,
    wanted: Wanted,
) -> Result<Option<B>, AllocError> {
    match advance(network, degrees, wanted)? {
        Node::Dead => Ok(None),
        _ => Ok(middle(&network.domains()[variable], wanted)),
    }
}

/// Searches for one solution whose number is as good as a value, and takes the nodes off those that
/// are left. The network is left as it was.
fn one_solution<B: Width>(
    alloc: Global,
    network: &mut Network<B>,
    degrees: &[usize],
    variable: usize,
    value: B,
    wanted: Wanted,
    nodes: &mut u64,
) -> Result<Best<B>, AllocError> {
    let cut = enter(network, variable, value, wanted)?;
    let mut left = Limits {
        solutions: 1,
        nodes: *nodes,
    };
    let mut found = Kept {
        is_kept: true,
        points: Vec::new(alloc),
    };
    let end = search(alloc, network, degrees, wanted, &mut left, &mut found)?;
    network.undo_to(cut.mark);
    *nodes = left.nodes;
    let point = found.points.pop();
    Ok(Best { point, end })
}
