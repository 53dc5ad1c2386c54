// Written by bindings/rust/extract from crates/ivl_network/src/network/narrowing.rt.
//! Domains that are narrowed by a rule or cut, and what takes that back.

#[allow(unused_imports)]
use crate::rattle::prelude::*;
use super::allowed::Allowed;
use super::change::Change;
use super::trail::{replace_logged, take_out_logged};
use crate::proved::intervallum::ops::{Bounded, IsEmpty};
use crate::proved::intervallum::width::Width;
use crate::proved::ivl_rules::rules::Rule;
use crate::proved::ivl_rules::rules::narrowing::{lone_loss, narrowed_at_places_in};
use crate::proved::ivl_store::store::{Constraint, Lost, Spares, Store};
use crate::rattle::std::alloc::AllocError;

/// Narrows by a rule at these places, and writes down what takes that back.
pub(super) fn narrow_logged<B: Width>(
    store: &mut Store<B>,
    trail: &mut Vec<Change<B>>,
    places: &mut [usize],
    spares: &mut Spares<B>,
    marks: &[usize],
    rule: &Rule,
    c: &Constraint,
) -> Result<Lost, AllocError> {
    if let Some(taken) = lone_loss(store.domains(), rule) {
        take_out_logged(store, trail, places, spares, marks, taken.0, taken.1)?;
        return Ok(Lost {
            x: taken.0 == c.x,
            y: taken.0 == c.y,
            z: false,
        });
    }
    let (x, y, z) = narrowed_at_places_in(store.domains(), rule, spares)?;
    let lost = Lost {
        x: x.is_some(),
        y: y.is_some(),
        z: z.is_some(),
    };
    replace_logged(store, trail, places, spares, marks, c.x, x);
    replace_logged(store, trail, places, spares, marks, c.y, y);
    replace_logged(store, trail, places, spares, marks, c.z, z);
    Ok(lost)
}

/// Keeps the members of one domain that are allowed, and writes down what takes that back. Returns false if all
/// members stay.
pub(super) fn restrict_logged<B: Width, A: Allowed<B>>(
    store: &mut Store<B>,
    trail: &mut Vec<Change<B>>,
    places: &mut [usize],
    spares: &mut Spares<B>,
    marks: &[usize],
    i: usize,
    allowed: &A,
) -> Result<bool, AllocError> {
    let left = allowed.left_of(&store.domains()[i], spares)?;
    let lost = left.is_some();
    replace_logged(store, trail, places, spares, marks, i, left);
    Ok(lost)
}

/// What narrowing by a rule at these places counts for: a sum one, and one more for each 256 pairs of runs of two of its
/// domains; a rule of two variables one, and one more for each 256 runs of its domains.
#[inline]
fn cost_at<B: Width>(store: &Store<B>, c: &Constraint) -> u64 {
    if c.y == c.z {
        return cost_of_two(store, c.x, c.y);
    }
    store.cost_of(c)
}

/// What narrowing by a rule at these places counts for, if that is counted, and else 0.
#[inline]
pub(super) fn cost_if<B: Width>(is_counted: bool, store: &Store<B>, c: &Constraint) -> u64 {
    if is_counted { cost_at(store, c) } else { 0 }
}

fn cost_of_two<B: Width>(store: &Store<B>, x: usize, y: usize) -> u64 {
    let of_x = store.domains()[x].interval_count();
    let of_y = store.domains()[y].interval_count();
    (of_x.saturating_add(of_y) / 256) as u64 + 1
}

/// Whether the domain of a variable has two members.
pub(super) fn has_two<B: Width>(store: &Store<B>, variable: usize) -> bool {
    let domain = &store.domains()[variable];
    if domain.is_empty() || domain.lower().number() == domain.upper().number() {
        return false;
    }
    true
}
