// Written by bindings/rust/extract from crates/intervallum/src/interval_set/members_within.rt.
//! Iteration over the members that lie in a window.

#[allow(unused_imports)]
use crate::rattle::prelude::*;
use super::IntervalSet;
use super::members::Members;
use crate::proved::intervallum::interval::Interval;
use crate::proved::intervallum::ops::{Empty, Intersection};
use crate::proved::intervallum::width::Width;

impl<B: Width> IntervalSet<B> {
    /// Returns a double-ended iterator over the members that lie in the window, each once, in
    /// ascending order. The window may be empty.
    ///
    /// Two binary searches: `O(log n)`, and `O(1)` for each member. Does not allocate.
    ///
    /// ```
    /// use intervallum::proved::examples::*;
    ///
    /// fn main() -> Result<(), std::boxed::Box<dyn std::error::Error>> {
    ///     let alloc = Global;
    ///     let a: IntervalSet<i32> = [(1, 2), (5, 6), (9, 9)].to_interval_set(alloc)?;
    ///     let some: Vec<i32> = a.members_within(&Interval::new(2, 5)).collect();
    ///     assert!(some.as_slice() == [2, 5].as_slice());
    ///     Ok(())
    /// }
    /// ```
    ///
    /// # Proved
    ///
    /// The iterator yields exactly the members that are in the window, each greater than the one before.
    ///
    /// ```text
    /// ensures members { SameMembers (Intersection (Covers self.now) (IsBetween window.now)) (IsIn result) }
    /// ensures ascending { IsAscending result }
    /// ```
    ///
    /// Words: [`SameMembers`](crate::definitions#SameMembers), [`Intersection`](crate::definitions#Intersection), [`Covers`](crate::definitions#Covers), [`IsBetween`](crate::definitions#IsBetween), [`IsIn`](crate::definitions#IsIn), [`IsAscending`](crate::definitions#IsAscending).
    pub fn members_within(&self, window: &Interval<B>) -> Members<'_, B> {
        self.in_whole();
        let runs = self.runs_within(window);
        let none = Interval::empty();
        match runs.split_first() {
            None => Members {
                first: none,
                between: runs,
                last: none,
            },
            Some((run, rest)) => {
                let first = run.intersection(window);
                match rest.split_last() {
                    None => Members {
                        first,
                        between: rest,
                        last: none,
                    },
                    Some((run, between)) => Members {
                        first,
                        between,
                        last: run.intersection(window),
                    },
                }
            }
        }
    }
}
