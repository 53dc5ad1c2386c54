// Written by bindings/rust/extract from crates/intervallum/src/interval_set/neighbours.rt.
//! Neighbours of a value: the next and the previous member, and the run that holds it.

#[allow(unused_imports)]
use crate::rattle::prelude::*;
use super::IntervalSet;
use crate::proved::intervallum::interval::Interval;
use crate::proved::intervallum::ops::Bounded;
use crate::proved::intervallum::steps::{Place, Probes, find};
use crate::proved::intervallum::width::Width;

impl<B: Width> IntervalSet<B> {
    /// Returns the least member that is at least `v`, or `None` if there is none. `v` may be any
    /// value of its type. Binary search: `O(log n)`. Does not allocate.
    ///
    /// ```
    /// use intervallum::proved::examples::*;
    ///
    /// fn main() -> Result<(), std::boxed::Box<dyn std::error::Error>> {
    ///     let alloc = Global;
    ///     let a: IntervalSet<i32> = [(1, 2), (5, 6)].to_interval_set(alloc)?;
    ///     assert_eq!(a.next_from(2), Some(2));
    ///     assert_eq!(a.next_from(3), Some(5));
    ///     assert_eq!(a.next_from(7), None);
    ///     Ok(())
    /// }
    /// ```
    ///
    /// # Proved
    ///
    /// The result is the least member that is at least `v`, or `None` if there is none.
    ///
    /// ```text
    /// ensures { MatchOption result
    ///     (HasNone (AtLeast (B.value v) (Covers self.now)))
    ///     (λ x. IsLeast (B.value x) (AtLeast (B.value v) (Covers self.now))) }
    /// ```
    ///
    /// Words: [`HasNone`](crate::definitions#HasNone), [`AtLeast`](crate::definitions#AtLeast), [`Covers`](crate::definitions#Covers), [`IsLeast`](crate::definitions#IsLeast).
    pub fn next_from(&self, v: B) -> Option<B> {
        let mut runs = Probes::new(self);
        match find(&mut runs, v) {
            Place::In(_) => Some(v),
            Place::Gap(i) => {
                if i < runs.len() {
                    Some(runs.look(i).lower())
                } else {
                    None
                }
            }
        }
    }

    /// Returns the greatest member that is at most `v`, or `None` if there is none. `v` may be any
    /// value of its type. Binary search: `O(log n)`. Does not allocate.
    ///
    /// ```
    /// use intervallum::proved::examples::*;
    ///
    /// fn main() -> Result<(), std::boxed::Box<dyn std::error::Error>> {
    ///     let alloc = Global;
    ///     let a: IntervalSet<i32> = [(1, 2), (5, 6)].to_interval_set(alloc)?;
    ///     assert_eq!(a.previous_to(5), Some(5));
    ///     assert_eq!(a.previous_to(4), Some(2));
    ///     assert_eq!(a.previous_to(0), None);
    ///     Ok(())
    /// }
    /// ```
    ///
    /// # Proved
    ///
    /// The result is the greatest member that is at most `v`, or `None` if there is none.
    ///
    /// ```text
    /// ensures { MatchOption result
    ///     (HasNone (AtMost (B.value v) (Covers self.now)))
    ///     (λ x. IsGreatest (B.value x) (AtMost (B.value v) (Covers self.now))) }
    /// ```
    ///
    /// Words: [`HasNone`](crate::definitions#HasNone), [`AtMost`](crate::definitions#AtMost), [`Covers`](crate::definitions#Covers), [`IsGreatest`](crate::definitions#IsGreatest).
    pub fn previous_to(&self, v: B) -> Option<B> {
        let mut runs = Probes::new(self);
        match find(&mut runs, v) {
            Place::In(_) => Some(v),
            Place::Gap(i) => {
                if i > 0 {
                    Some(runs.look(i - 1).upper())
                } else {
                    None
                }
            }
        }
    }

    /// Returns the run that holds `v`, the longest interval of members with `v` in it, or `None` if
    /// `v` is not a member. `v` may be any value of its type. Binary search: `O(log n)`. Does not
    /// allocate.
    ///
    /// ```
    /// use intervallum::proved::examples::*;
    ///
    /// fn main() -> Result<(), std::boxed::Box<dyn std::error::Error>> {
    ///     let alloc = Global;
    ///     let a: IntervalSet<i32> = [(1, 2), (5, 6)].to_interval_set(alloc)?;
    ///     assert!(a.run_at(6) == Some(Interval::new(5, 6)));
    ///     assert!(a.run_at(3).is_none());
    ///     Ok(())
    /// }
    /// ```
    ///
    /// # Proved
    ///
    /// The result is the run that holds `v`, or `None` if `v` is no member.
    ///
    /// ```text
    /// ensures { MatchOption result
    ///     (¬ (Covers self.now (B.value v)))
    ///     (IsRunWith (B.value v) (Covers self.now)) }
    /// ```
    ///
    /// Words: [`Covers`](crate::definitions#Covers), [`IsRunWith`](crate::definitions#IsRunWith).
    pub fn run_at(&self, v: B) -> Option<Interval<B>> {
        let mut runs = Probes::new(self);
        match find(&mut runs, v) {
            Place::In(i) => Some(runs.look(i)),
            Place::Gap(_) => None,
        }
    }
}
