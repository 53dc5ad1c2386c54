// Written by bindings/rust/extract from crates/ivl_paged/src/paged_set/equality.rt.
//! Equality of sets.

#[allow(unused_imports)]
use crate::rattle::prelude::*;
use super::PagedSet;
use super::iter::Runs;
use crate::proved::intervallum::width::Width;

/// Proved, with these words of the trait:
///
/// ```text
/// eq = { same_runs }
/// ```
///
/// Words: [`same_runs`](crate::definitions#same_runs).
impl<B: Width> PartialEq for PagedSet<B> {
    /// Returns true exactly when both sets have the same members, whatever their pages. `O(n)`.
    /// Does not allocate.
    ///
    /// ```
    /// use intervallum::proved::examples::*;
    ///
    /// fn main() -> Result<(), std::boxed::Box<dyn std::error::Error>> {
    ///     let alloc = Global;
    ///     let (mut a, mut b) = (PagedSet::new(alloc), PagedSet::new(alloc));
    ///     assert!(a.insert(3)? && a.insert(4)?);
    ///     b.insert_interval(Interval::new(3, 4))?;
    ///     assert!(a == b);
    ///     Ok(())
    /// }
    /// ```
    ///
    /// # Proved
    ///
    /// True exactly when both sets have the same members.
    ///
    /// ```text
    /// ensures value { result ≡ same_runs self.now other.now }
    /// ensures members { IsTrue result ↔ SameMembers (Covers self.now) (Covers other.now) }
    /// ```
    ///
    /// Words: [`same_runs`](crate::definitions#same_runs), [`SameMembers`](crate::definitions#SameMembers), [`Covers`](crate::definitions#Covers).
    fn eq(&self, other: &PagedSet<B>) -> bool {
        are_the_same(self.iter(), other.iter())
    }
}

impl<B: Width> Eq for PagedSet<B> {
}

/// Returns true exactly when the same runs are left.
fn are_the_same<B: Width>(mut a: Runs<'_, B>, mut b: Runs<'_, B>) -> bool {
    'runs: while let Some(run) = a.next() {
        let is_same = match b.next() {
            Some(other) => run == other,
            None => false,
        };
        if !is_same {
            return false;
        }
    }
    b.next().is_none()
}
