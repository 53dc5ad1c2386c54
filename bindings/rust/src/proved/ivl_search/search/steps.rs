// Written by bindings/rust/extract from crates/ivl_search/src/search/steps.rt.
//! The steps of a search: narrowing, going into a part of a domain and coming out of it, and the
//! point of domains with one member each.

#[allow(unused_imports)]
use crate::rattle::prelude::*;
use super::NARROWINGS_PER_NODE;
use super::choice::{Node, Part, Wanted, node_of, part_of};
use crate::proved::intervallum::interval_set::IntervalSet;
use crate::proved::intervallum::ops::Bounded;
use crate::proved::intervallum::width::Width;
use crate::proved::ivl_network::network::{Network, Settled};
use crate::rattle::std::alloc::{AllocError, Global};

/// Narrows the domains, and says what to do with them.
pub(super) fn advance<B: Width>(
    network: &mut Network<B>,
    degrees: &[usize],
    wanted: Wanted,
) -> Result<Node<B>, AllocError> {
    // for the prover: no more rules are unsettled than there are, before and after
    network.rules();
    let settled = network.settle_unless_empty(NARROWINGS_PER_NODE);
    network.rules();
    let domains = network.domains();
    match settled {
        Ok(Settled::All) => Ok(node_of(domains, degrees, wanted)),
        Ok(Settled::Unfinished) => if network.has_empty() {
            Ok(Node::Dead)
        } else {
            Ok(Node::Unsettled)
        },
        Err(_) => Err(AllocError),
    }
}

/// A place where a search cut a domain, and searched the better part first.
#[derive(Clone, Copy, Debug)]
pub(super) struct Cut<B> {
    /// The mark of the network before the cut.
    pub mark: usize,
    /// The variable of the domain.
    pub variable: usize,
    /// The worst number of the better part.
    pub value: B,
}

/// Marks the network, and cuts a domain to its members that are as good as a value.
pub(super) fn enter<B: Width>(
    network: &mut Network<B>,
    variable: usize,
    value: B,
    wanted: Wanted,
) -> Result<Cut<B>, AllocError> {
    let mark = network.mark()?;
    keep_part(network, variable, value, wanted, Part::AsGood)?;
    Ok(Cut {
        mark,
        variable,
        value,
    })
}

/// Takes back what came after a cut, and cuts the domain to its other part.
pub(super) fn leave<B: Width>(
    network: &mut Network<B>,
    cut: Cut<B>,
    wanted: Wanted,
) -> Result<(), AllocError> {
    network.undo_to(cut.mark);
    keep_part(network, cut.variable, cut.value, wanted, Part::Worse)?;
    Ok(())
}

/// Cuts a domain to its members in a part at a value.
pub(super) fn keep_part<B: Width>(
    network: &mut Network<B>,
    variable: usize,
    value: B,
    wanted: Wanted,
    part: Part,
) -> Result<(), AllocError> {
    let allowed = part_of(value, wanted, part);
    // for the prover: the domains are lists of runs within the range
    network.domains();
    let cut = network.restrict_to_interval(variable, allowed);
    // for the prover: so are they now, and no more rules are unsettled than there are
    network.domains();
    network.rules();
    match cut {
        Ok(()) => Ok(()),
        Err(_) => Err(AllocError),
    }
}

/// The point of domains that have one member each.
pub(super) fn point_of<B: Width>(
    alloc: Global,
    domains: &[IntervalSet<B>],
) -> Result<Vec<B>, AllocError> {
    let mut point = Vec::with_capacity(alloc, domains.len())?;
    for domain in domains {
        point.push(domain.lower())?;
    }
    Ok(point)
}
