// Written by bindings/rust/extract from crates/intervallum/src/interval_set/rank.rt.
//! Members by the number of members below them.

#[allow(unused_imports)]
use crate::rattle::prelude::*;
use super::IntervalSet;
use crate::proved::intervallum::interval::Interval;
use crate::proved::intervallum::ops::{Cardinality, StrictShrinkRight};
use crate::proved::intervallum::width::{SizeNumber, Width};

impl<B: Width> IntervalSet<B> {
    /// Returns the number of members below `v`, which may be any value of its type. Scans the runs
    /// that start below `v`: `O(n)`. Does not allocate.
    ///
    /// ```
    /// use intervallum::proved::examples::*;
    ///
    /// fn main() -> Result<(), std::boxed::Box<dyn std::error::Error>> {
    ///     let alloc = Global;
    ///     let a: IntervalSet<i32> = [(1, 2), (5, 6)].to_interval_set(alloc)?;
    ///     assert!(a.rank(1) == 0 && a.rank(4) == 2 && a.rank(6) == 3);
    ///     Ok(())
    /// }
    /// ```
    ///
    /// # Proved
    ///
    /// The result is the number of members below `v`.
    ///
    /// ```text
    /// ensures { IsCountOf (B.Output.size result) (Below (B.value v) (Covers self.now)) }
    /// ```
    ///
    /// Words: [`IsCountOf`](crate::definitions#IsCountOf), [`Below`](crate::definitions#Below), [`Covers`](crate::definitions#Covers).
    pub fn rank(&self, v: B) -> B::Output {
        let runs = self.as_runs();
        let mut count = <B::Output as SizeNumber>::zero();
        for run in runs {
            if v <= run.lower_bound() {
                return count;
            }
            count = count
                .checked_add(run.strict_shrink_right(v).size())
                .unwrap();
        }
        count
    }

    /// Returns the member with exactly `i` members below it, or `None` if the set has no more than
    /// `i` members. Scans the runs up to that member: `O(n)`. Does not allocate.
    ///
    /// ```
    /// use intervallum::proved::examples::*;
    ///
    /// fn main() -> Result<(), std::boxed::Box<dyn std::error::Error>> {
    ///     let alloc = Global;
    ///     let a: IntervalSet<i32> = [(1, 2), (5, 6)].to_interval_set(alloc)?;
    ///     assert!(a.nth(0) == Some(1) && a.nth(3) == Some(6) && a.nth(4).is_none());
    ///     Ok(())
    /// }
    /// ```
    ///
    /// # Proved
    ///
    /// The result is the member with exactly `i` members below it, or `None` if the set has no more than `i` members.
    ///
    /// ```text
    /// ensures { MatchOption result
    ///     ((n : ℕ) → IsCountOf n (Covers self.now) → n ≤ B.Output.size i)
    ///     (λ x. Covers self.now (B.value x) × IsCountOf (B.Output.size i) (Below (B.value x) (Covers self.now))) }
    /// ```
    ///
    /// Words: [`IsCountOf`](crate::definitions#IsCountOf), [`Covers`](crate::definitions#Covers), [`Below`](crate::definitions#Below).
    pub fn nth(&self, i: B::Output) -> Option<B> {
        let runs = self.as_runs();
        let mut left = i;
        for run in runs {
            match left.checked_sub(run.size()) {
                Some(rest) => left = rest,
                None => return Some(member_at(run, left)),
            }
        }
        None
    }
}

/// The number of an interval with `i` others of it below.
fn member_at<B: Width>(run: &Interval<B>, i: B::Output) -> B {
    run.in_whole();
    let number = run.lower_bound().number() + i.number() as i128;
    B::from_number(number).unwrap()
}
