// Written by bindings/rust/extract from crates/ivl_store/src/store/swapping.rt.
//! Domains that are replaced, so that what stood there can be put back.

#[allow(unused_imports)]
use crate::rattle::prelude::*;
use super::{Store, one_if};
use crate::proved::intervallum::interval::Interval;
use crate::proved::intervallum::interval_set::IntervalSet;
use crate::proved::intervallum::ops::IsEmpty;
use crate::proved::intervallum::width::Width;
use crate::rattle::std::alloc::AllocError;
use crate::rattle::std::mem;

impl<B: Width> Store<B> {
    /// Puts what is left in place of a domain. Returns the set that stood there; `None` if the
    /// domain stays. `O(1)`, does not allocate.
    ///
    /// The caller must ensure that there is such a variable.
    ///
    /// ```
    /// use intervallum::proved::examples::*;
    ///
    /// fn main() -> Result<(), std::boxed::Box<dyn std::error::Error>> {
    ///     let alloc = Global;
    ///     let mut store: Store<i32> = Store::new(alloc, Vec::from_array(alloc, [ IntervalSet::new(alloc, 0, 9)?])?);
    ///     let old = store.swap(0, Some(IntervalSet::new(alloc, 5, 6)?));
    ///     assert!(old == Some(IntervalSet::new(alloc, 0, 9)?));
    ///     assert!(store.domains()[0] == IntervalSet::new(alloc, 5, 6)?);
    ///     Ok(())
    /// }
    /// ```
    ///
    /// # Proved
    ///
    /// The set stands in place of the domain, or with `None` the domain stays; the others stay. What is returned, swapped in again, gives back the old domains.
    ///
    /// ```text
    /// requires known { i < length self.old }
    /// requires range { (s : List (ℤ × ℤ)) → left ≡ Some s → IsRunListIn B.whole s }
    /// ensures put { self.new ≡ narrowed_at self.old i left }
    /// ensures back { narrowed_at self.new i result ≡ self.old }
    /// ```
    ///
    /// Words: [`IsRunListIn`](crate::definitions#IsRunListIn), [`narrowed_at`](crate::definitions#narrowed_at).
    #[cfg_attr(debug_assertions, track_caller)]
    pub fn swap(&mut self, i: usize, left: Option<IntervalSet<B>>) -> Option<IntervalSet<B>> {
        debug_assert!({ #[allow(unused_imports)] use crate::proved::ivl_interval::ops::*; i < self.domains.len() }, "{}", "the condition of `swap` is broken: i < self.domains.len()");
        match left {
            Some(set) => Some(self.put(i, set)),
            None => None,
        }
    }

    /// Puts a set in place of a domain. Nothing changes if there is no such variable. `O(1)`, does not
    /// allocate.
    ///
    /// ```
    /// use intervallum::proved::examples::*;
    ///
    /// fn main() -> Result<(), std::boxed::Box<dyn std::error::Error>> {
    ///     let alloc = Global;
    ///     let mut store: Store<i32> = Store::new(alloc, Vec::from_array(alloc, [ IntervalSet::new(alloc, 0, 9)?])?);
    ///     store.replace(0, IntervalSet::new(alloc, 5, 6)?);
    ///     assert!(store.domains()[0] == IntervalSet::new(alloc, 5, 6)?);
    ///     Ok(())
    /// }
    /// ```
    ///
    /// # Proved
    ///
    /// The set stands in place of the domain, if there is such a variable; the others stay.
    ///
    /// ```text
    /// ensures { self.new ≡ slice_set self.old i set }
    /// ```
    pub fn replace(&mut self, i: usize, set: IntervalSet<B>) {
        set.in_whole();
        if i < self.domains.len() {
            self.put(i, set);
        }
    }

    /// Puts a set in place of a domain, and returns that.
    fn put(&mut self, i: usize, set: IntervalSet<B>) -> IntervalSet<B> {
        let was = one_if(self.domains[i].is_empty());
        let is = one_if(set.is_empty());
        self.empties = self.empties - was + is;
        mem::replace(&mut self.domains[i], set)
    }

    /// Takes the members of an interval out of a domain. Nothing changes if there is no such variable. Costs what
    /// [`IntervalSet::remove_interval`] costs, and a look at how many domains are empty.
    ///
    /// # Errors
    ///
    /// Fails only if allocation fails. The store is unchanged after an error.
    ///
    /// ```
    /// use intervallum::proved::examples::*;
    ///
    /// fn main() -> Result<(), std::boxed::Box<dyn std::error::Error>> {
    ///     let alloc = Global;
    ///     let mut store: Store<i32> = Store::new(alloc, Vec::from_array(alloc, [ IntervalSet::new(alloc, 0, 9)?])?);
    ///     store.take_out(0, Interval::new(3, 20))?;
    ///     assert!(store.domains()[0] == IntervalSet::new(alloc, 0, 2)?);
    ///     Ok(())
    /// }
    /// ```
    ///
    /// # Proved
    ///
    /// On success, the domain has its members outside of the interval. The other domains stay, whatever the result, and all stay if there is no such variable. If it fails, the domains are unchanged.
    ///
    /// ```text
    /// ensures taken { OnOk result ((j : ℕ) (v : ℤ) → set_at self.new j v ↔ (set_at self.old j v × (j ≡ i → ¬ (IsBetween interval v)))) }
    /// ensures back { slice_set self.new i (slice_index_or self.old i []) ≡ self.old }
    /// ensures refused { OnErr result (self.new ≡ self.old) }
    /// ```
    ///
    /// Words: [`set_at`](crate::definitions#set_at), [`IsBetween`](crate::definitions#IsBetween).
    pub fn take_out(&mut self, i: usize, interval: Interval<B>) -> Result<(), AllocError> {
        if i >= self.domains.len() {
            return Ok(());
        }
        let was = one_if(self.domains[i].is_empty());
        self.domains[i].remove_interval(interval)?;
        let is = one_if(self.domains[i].is_empty());
        self.empties = self.empties - was + is;
        Ok(())
    }

    /// Drops the last variable, if there is one. `O(1)`, does not allocate.
    ///
    /// ```
    /// use intervallum::proved::examples::*;
    ///
    /// fn main() -> Result<(), std::boxed::Box<dyn std::error::Error>> {
    ///     let alloc = Global;
    ///     let mut store: Store<i32> = Store::new(alloc, Vec::from_array(alloc, [ IntervalSet::new(alloc, 0, 9)?])?);
    ///     store.drop_variable();
    ///     assert!(store.domains().is_empty());
    ///     Ok(())
    /// }
    /// ```
    ///
    /// # Proved
    ///
    /// The last domain is gone, if there is one, and the others stay.
    ///
    /// ```text
    /// ensures { self.new ≡ take (length self.old - 1) self.old }
    /// ```
    pub fn drop_variable(&mut self) {
        if let Some(domain) = self.domains.pop() {
            let was = one_if(domain.is_empty());
            self.empties -= was;
        }
    }
}
