// Written by bindings/rust/extract from crates/ivl_store/src/store/costs.rt.
//! What narrowings count for.

#[allow(unused_imports)]
use crate::rattle::prelude::*;
use super::{Constraint, Store};
use crate::proved::intervallum::width::Width;

impl<B: Width> Store<B> {
    /// What narrowing by a constraint counts for: one, and one more for each 256 pairs of runs of two
    /// of its domains. `O(1)`, does not allocate.
    ///
    /// The caller must ensure that its variables have a domain. Check with
    /// [`Constraint::first_unknown`].
    ///
    /// ```
    /// use intervallum::proved::examples::*;
    ///
    /// fn main() -> Result<(), std::boxed::Box<dyn std::error::Error>> {
    ///     let alloc = Global;
    ///     let domain = IntervalSet::new(alloc, 0, 9)?;
    ///     let store: Store<i32> = Store::new(alloc, Vec::from_array(alloc, [ domain.try_clone()?, domain.try_clone()?, domain])?);
    ///     assert_eq!(store.cost_of(&Constraint { x: 0, y: 1, z: 2 }), 1);
    ///     Ok(())
    /// }
    /// ```
    ///
    /// # Proved
    ///
    /// The result is one, and one more for each 256 pairs of a run of `x` and one of `y`, of `x` and `z`, and of `y` and `z`, of which `u64::MAX` count at most. It is never 0.
    ///
    /// ```text
    /// requires { AllPresent (length self.now) c.now }
    /// ensures cost { result ≡ cost_of c.now self.now }
    /// ensures positive { 0 < result }
    /// ```
    ///
    /// Words: [`AllPresent`](crate::definitions#AllPresent), [`cost_of`](crate::definitions#cost_of).
    #[cfg_attr(debug_assertions, track_caller)]
    pub fn cost_of(&self, c: &Constraint) -> u64 {
        debug_assert!({ #[allow(unused_imports)] use crate::proved::ivl_interval::ops::*; c.first_unknown(self.domains.len()).is_none() }, "{}", "the condition of `cost_of` is broken: c.first_unknown(self.domains.len()).is_none()");
        let x = self.domains[c.x].interval_count();
        let y = self.domains[c.y].interval_count();
        let z = self.domains[c.z].interval_count();
        let of_x = x.saturating_mul(y).saturating_add(x.saturating_mul(z));
        let pairs = of_x.saturating_add(y.saturating_mul(z));
        (pairs / 256) as u64 + 1
    }
}
