// Written by bindings/rust/extract from crates/intervallum/src/steps/walk.rt.
//! A walk over the runs of a set, from the left.

#[allow(unused_imports)]
use crate::rattle::prelude::*;
use crate::proved::intervallum::interval::Interval;
use crate::proved::intervallum::interval_set::IntervalSet;
use crate::proved::intervallum::width::Width;
use crate::rattle::std::alloc::Global;

/// The runs of a set that are left in a walk. A contract sees these runs, how many were taken, and
/// how many the set has. No call allocates.
///
/// ```
/// use intervallum::proved::examples::*;
///
/// fn main() -> Result<(), std::boxed::Box<dyn std::error::Error>> {
///     let alloc = Global;
///     let a: IntervalSet<i32> = [(1, 2), (5, 6)].to_interval_set(alloc)?;
///     let mut walk = Walk::new(&a);
///     assert!(walk.peek().is_some());
///     walk.advance();
///     assert!(walk.left() == 1 && walk.peek() == Some(Interval::new(5, 6)));
///     Ok(())
/// }
/// ```
pub struct Walk<'a, B: Width> {
    runs: &'a [Interval<B>],
    taken: usize,
    alloc: Global,
}

impl<'a, B: Width> Walk<'a, B> {
    /// Returns a walk over all runs of the set. `O(1)`. Does not allocate.
    ///
    /// ```
    /// use intervallum::proved::examples::*;
    ///
    /// fn main() -> Result<(), std::boxed::Box<dyn std::error::Error>> {
    ///     let alloc = Global;
    ///     let a: IntervalSet<i32> = [(1, 2), (5, 6)].to_interval_set(alloc)?;
    ///     assert_eq!(Walk::new(&a).left(), 2);
    ///     Ok(())
    /// }
    /// ```
    ///
    /// # Proved
    ///
    /// All runs of the set are left and counted, and no advance is.
    ///
    /// ```text
    /// ensures left { result.left ≡ set.now }
    /// ensures advances { result.advances ≡ 0 }
    /// ensures count { result.count ≡ length set.now }
    /// ```
    pub fn new(set: &'a IntervalSet<B>) -> Walk<'a, B> {
        Walk {
            runs: set.as_runs(),
            taken: 0,
            alloc: set.allocator(),
        }
    }

    /// Returns the first run that is left, or `None` if there is none. `O(1)`. Does not allocate.
    ///
    /// ```
    /// use intervallum::proved::examples::*;
    ///
    /// fn main() -> Result<(), std::boxed::Box<dyn std::error::Error>> {
    ///     let alloc = Global;
    ///     let a: IntervalSet<i32> = [(1, 2), (5, 6)].to_interval_set(alloc)?;
    ///     let walk = Walk::new(&a);
    ///     assert!(walk.peek() == Some(Interval::new(1, 2)));
    ///     Ok(())
    /// }
    /// ```
    ///
    /// # Proved
    ///
    /// The result is the first run that is left, which is not empty, or `None` if none is left; those that are left are ascending, lie in the range, and neither overlap nor touch.
    ///
    /// ```text
    /// ensures first { result ≡ slice_get self.now.left 0 }
    /// ensures filled { IfSome result (λ run. HasSome (IsBetween run)) }
    /// ensures runs { IsRunListIn B.whole self.now.left }
    /// ```
    ///
    /// Words: [`HasSome`](crate::definitions#HasSome), [`IsBetween`](crate::definitions#IsBetween), [`IsRunListIn`](crate::definitions#IsRunListIn).
    pub fn peek(&self) -> Option<Interval<B>> {
        self.runs.get(self.taken).copied()
    }

    /// Takes the first run that is left. The caller must ensure that there is one. Check with
    /// `peek`. `O(1)`. Does not allocate.
    ///
    /// ```
    /// use intervallum::proved::examples::*;
    ///
    /// fn main() -> Result<(), std::boxed::Box<dyn std::error::Error>> {
    ///     let alloc = Global;
    ///     let a: IntervalSet<i32> = [(1, 2), (5, 6)].to_interval_set(alloc)?;
    ///     let mut walk = Walk::new(&a);
    ///     assert!(walk.peek().is_some());
    ///     walk.advance();
    ///     assert_eq!(walk.left(), 1);
    ///     Ok(())
    /// }
    /// ```
    ///
    /// # Proved
    ///
    /// Exactly the first run is no longer left, one advance more is counted, and the number of all runs stays.
    ///
    /// ```text
    /// requires { self.old.left ≢ [] }
    /// ensures left { (run : ℤ × ℤ) × (self.old.left ≡ run ∷ self.new.left) }
    /// ensures advances { self.new.advances ≡ self.old.advances + 1 }
    /// ensures count { self.new.count ≡ self.old.count }
    /// ```
    #[cfg_attr(debug_assertions, track_caller)]
    pub fn advance(&mut self) {
        debug_assert!({ #[allow(unused_imports)] use crate::proved::ivl_interval::ops::*; self.peek().is_some() }, "{}", "the condition of `advance` is broken: self.peek().is_some()");
        self.taken += 1;
    }

    /// Takes the first run that is left if a condition holds: the place moves by it, with no branch.
    pub(crate) fn advance_if(&mut self, condition: bool) {
        self.taken += usize::from(condition);
    }

    /// The runs that are left.
    pub(crate) fn rest(&self) -> &'a [Interval<B>] {
        &self.runs[self.taken..]
    }

    /// Returns the number of runs that are left: the runs of the set less the advances made.
    /// `O(1)`. Does not allocate.
    ///
    /// ```
    /// use intervallum::proved::examples::*;
    ///
    /// fn main() -> Result<(), std::boxed::Box<dyn std::error::Error>> {
    ///     let alloc = Global;
    ///     let a: IntervalSet<i32> = [(1, 2), (5, 6)].to_interval_set(alloc)?;
    ///     let walk = Walk::new(&a);
    ///     assert_eq!(walk.left(), 2);
    ///     Ok(())
    /// }
    /// ```
    ///
    /// # Proved
    ///
    /// The result is the number of runs that are left; with the advances so far it makes the number of all. Those that are left are ascending, lie in the range, and neither overlap nor touch.
    ///
    /// ```text
    /// ensures value { result ≡ length self.now.left }
    /// ensures all { self.now.advances + length self.now.left ≡ self.now.count }
    /// ensures runs { IsRunListIn B.whole self.now.left }
    /// ```
    ///
    /// Words: [`IsRunListIn`](crate::definitions#IsRunListIn).
    pub fn left(&self) -> usize {
        self.runs.len() - self.taken
    }

    /// The runs that are left are in the range. This does nothing: its contract is the fact.
    pub(crate) fn in_whole(&self) {
        let _taken = self.taken;
    }

    /// Returns the allocator of the set. `O(1)`. Does not allocate.
    ///
    /// ```
    /// use intervallum::proved::examples::*;
    ///
    /// fn main() -> Result<(), std::boxed::Box<dyn std::error::Error>> {
    ///     let alloc = Global;
    ///     let a: IntervalSet<i32> = [(1, 2), (5, 6)].to_interval_set(alloc)?;
    ///     let walk = Walk::new(&a);
    ///     let none: IntervalSet<i32> = IntervalSet::empty(walk.alloc());
    ///     assert!(none.is_empty());
    ///     Ok(())
    /// }
    /// ```
    pub fn alloc(&self) -> Global {
        self.alloc
    }
}
