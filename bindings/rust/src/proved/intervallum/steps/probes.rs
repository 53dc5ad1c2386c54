// Written by bindings/rust/extract from crates/intervallum/src/steps/probes.rt.
//! The runs of a set, read one at a time by looks that contracts count.

#[allow(unused_imports)]
use crate::rattle::prelude::*;
use crate::proved::intervallum::interval::Interval;
use crate::proved::intervallum::interval_set::IntervalSet;
use crate::proved::intervallum::steps::looks::Looks;
use crate::proved::intervallum::width::Width;

/// The runs of a set. A contract sees the runs and how many looks were taken; nothing is counted at
/// run time. No call allocates.
///
/// ```
/// use intervallum::proved::examples::*;
///
/// fn main() -> Result<(), std::boxed::Box<dyn std::error::Error>> {
///     let alloc = Global;
///     let a: IntervalSet<i32> = [(1, 2), (5, 6)].to_interval_set(alloc)?;
///     let mut probes = Probes::new(&a);
///     assert_eq!(find(&mut probes, 5), Place::In(1));
///     Ok(())
/// }
/// ```
pub struct Probes<'a, B: Width> {
    runs: &'a [Interval<B>],
    looks: Looks,
}

impl<'a, B: Width> Probes<'a, B> {
    /// Returns the runs of the set, with no look taken. `O(1)`. Does not allocate.
    ///
    /// ```
    /// use intervallum::proved::examples::*;
    ///
    /// fn main() -> Result<(), std::boxed::Box<dyn std::error::Error>> {
    ///     let alloc = Global;
    ///     let a: IntervalSet<i32> = [(1, 2), (5, 6)].to_interval_set(alloc)?;
    ///     assert_eq!(Probes::new(&a).len(), 2);
    ///     Ok(())
    /// }
    /// ```
    ///
    /// # Proved
    ///
    /// The runs are those of the set, and no look is counted.
    ///
    /// ```text
    /// ensures runs { result.runs ≡ set.now }
    /// ensures looks { result.looks ≡ 0 }
    /// ```
    pub fn new(set: &'a IntervalSet<B>) -> Probes<'a, B> {
        Probes {
            runs: set.as_runs(),
            looks: Looks::none(),
        }
    }

    /// Returns the number of runs. This is not a look. `O(1)`. Does not allocate.
    ///
    /// ```
    /// use intervallum::proved::examples::*;
    ///
    /// fn main() -> Result<(), std::boxed::Box<dyn std::error::Error>> {
    ///     let alloc = Global;
    ///     let a: IntervalSet<i32> = [(1, 2), (5, 6)].to_interval_set(alloc)?;
    ///     let probes = Probes::new(&a);
    ///     assert_eq!(probes.len(), 2);
    ///     Ok(())
    /// }
    /// ```
    ///
    /// # Proved
    ///
    /// The result is the number of runs, which are ascending, lie in the range, and neither overlap nor touch.
    ///
    /// ```text
    /// ensures value { result ≡ length self.now.runs }
    /// ensures runs { IsRunListIn B.whole self.now.runs }
    /// ```
    ///
    /// Words: [`IsRunListIn`](crate::definitions#IsRunListIn).
    pub fn len(&self) -> usize {
        self.runs.len()
    }

    /// Returns run number `i`, counted from 0. This is one look. The caller must ensure that `i` is
    /// less than `len()`. `O(1)`. Does not allocate.
    ///
    /// ```
    /// use intervallum::proved::examples::*;
    ///
    /// fn main() -> Result<(), std::boxed::Box<dyn std::error::Error>> {
    ///     let alloc = Global;
    ///     let a: IntervalSet<i32> = [(1, 2), (5, 6)].to_interval_set(alloc)?;
    ///     let mut probes = Probes::new(&a);
    ///     assert!(probes.len() > 1 && probes.look(1) == Interval::new(5, 6));
    ///     Ok(())
    /// }
    /// ```
    ///
    /// # Proved
    ///
    /// The result is run `i`, which is not empty, and the runs are ascending, lie in the range, and neither overlap nor touch. The runs stay, and one look more is counted.
    ///
    /// ```text
    /// requires { i < length self.old.runs }
    /// ensures run { slice_get self.old.runs i ≡ Some result }
    /// ensures has_member { result.0 ≤ℤ result.1 }
    /// ensures runs { IsRunListIn B.whole self.old.runs }
    /// ensures same { self.new.runs ≡ self.old.runs }
    /// ensures looks { self.new.looks ≡ self.old.looks + 1 }
    /// ```
    ///
    /// Words: [`IsRunListIn`](crate::definitions#IsRunListIn).
    #[cfg_attr(debug_assertions, track_caller)]
    pub fn look(&mut self, i: usize) -> Interval<B> {
        debug_assert!({ #[allow(unused_imports)] use crate::proved::ivl_interval::ops::*; i < self.len() }, "{}", "the condition of `look` is broken: i < self.len()");
        let runs = self.runs;
        let run = runs[i];
        self.looks = self.looks.one_more();
        run
    }

    /// The runs are those of a set, and their number fits a `usize`. This does nothing: its
    /// contract is the fact.
    pub(crate) fn in_whole(&self) {
        self.len();
    }
}
