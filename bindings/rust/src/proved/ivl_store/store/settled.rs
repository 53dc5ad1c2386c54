// Written by bindings/rust/extract from crates/ivl_store/src/store/settled.rt.
//! Which constraints are settled: narrowing by one would change nothing. There is a flag for each.

#[allow(unused_imports)]
use crate::rattle::prelude::*;
use super::Constraint;
use crate::rattle::std::alloc::{AllocError, Global};

/// Whether a member was lost at x, at y and at z; a variable that is named twice has its flag at the
/// last of these.
#[derive(Clone, Copy)]
pub struct Lost {
    pub x: bool,
    pub y: bool,
    pub z: bool,
}

impl Lost {
    /// Returns true exactly when a member was lost at one of the three. `O(1)`.
    ///
    /// ```
    /// use intervallum::proved::examples::*;
    ///
    /// fn main() -> Result<(), std::boxed::Box<dyn std::error::Error>> {
    ///     let alloc = Global;
    ///     assert!(Lost { x: false, y: true, z: false }.any());
    ///     Ok(())
    /// }
    /// ```
    ///
    /// # Proved
    ///
    /// True exactly when a member was lost at one of the three.
    ///
    /// ```text
    /// ensures { result ≡ any_lost self }
    /// ```
    ///
    /// Words: [`any_lost`](crate::definitions#any_lost).
    pub fn any(self) -> bool {
        self.x || self.y || self.z
    }
}

/// Returns so many flags, none of them set.
pub(super) fn none_settled(alloc: Global, count: usize) -> Result<Vec<bool>, AllocError> {
    Vec::from_elem(alloc, false, count)
}

/// Updates the flags after narrowing by constraint `i`. Constraints that name a variable which lost
/// a member are no longer settled; `i` itself is settled unless a member was lost and it has a
/// variable twice.
pub(super) fn settle_after(
    constraints: &[Constraint],
    i: usize,
    lost: Lost,
    settled: &mut Vec<bool>,
) {
    let c = constraints[i];
    unsettle(lost.x, constraints, c.x, settled);
    unsettle(lost.y, constraints, c.y, settled);
    unsettle(lost.z, constraints, c.z, settled);
    settled[i] = is_settled_after(&c, lost);
}

/// Whether a second narrowing by the constraint would change nothing.
fn is_settled_after(c: &Constraint, lost: Lost) -> bool {
    !lost.any() || c.distinct()
}

/// Clears the flags of the constraints that name the variable, if it has changed.
pub(super) fn unsettle(
    changed: bool,
    constraints: &[Constraint],
    variable: usize,
    settled: &mut Vec<bool>,
) {
    if !changed {
        return;
    }
    for k in 0..constraints.len() {
        if constraints[k].names(variable) {
            settled[k] = false;
        }
    }
}
