// Written by bindings/rust/extract from crates/ivl_map/src/interval_map/numbers.rt.
//! The numbers that have values, as sets.

#[allow(unused_imports)]
use crate::rattle::prelude::*;
use super::IntervalMap;
use crate::proved::ivl_map::value::MapValue;
use crate::proved::intervallum::interval::Interval;
use crate::proved::intervallum::interval_set::IntervalSet;
use crate::proved::intervallum::ops::Cardinality;
use crate::proved::intervallum::width::{SizeNumber, Width};
use crate::rattle::std::alloc::{AllocError, Global};

impl<B: Width, V: MapValue> IntervalMap<B, V> {
    /// Returns the set of the numbers that have a value. `O(n)`: adds each entry at the end of the
    /// set, which grows as it is filled. Fails only if allocation fails, and not for an empty map.
    ///
    /// ```
    /// use intervallum::proved::examples::*;
    ///
    /// fn main() -> Result<(), std::boxed::Box<dyn std::error::Error>> {
    ///     let alloc = Global;
    ///     let mut a = IntervalMap::of(alloc, Interval::new(1i32, 5), 'a')?;
    ///     a.insert(Interval::new(6, 9), 'b')?;
    ///     assert!(a.keys()? == IntervalSet::new(alloc, 1, 9)?);
    ///     Ok(())
    /// }
    /// ```
    ///
    /// # Proved
    ///
    /// The members are the numbers that have a value. It cannot fail where there is no entry.
    ///
    /// ```text
    /// ensures members { IfOk result (λ L. IsRunsOf L (HasValue (HasAt V.eq self.now))) }
    /// ensures none { self.now ≡ [] → IsOk result }
    /// ```
    ///
    /// Words: [`IsRunsOf`](crate::definitions#IsRunsOf), [`HasValue`](crate::definitions#HasValue), [`HasAt`](crate::definitions#HasAt).
    pub fn keys(&self) -> Result<IntervalSet<B>, AllocError> {
        numbers_of(self.allocator(), &self.entries)
    }

    /// Returns how many numbers have a value. `O(n)`. Never overflows. Does not allocate.
    ///
    /// ```
    /// use intervallum::proved::examples::*;
    ///
    /// fn main() -> Result<(), std::boxed::Box<dyn std::error::Error>> {
    ///     let alloc = Global;
    ///     let mut a = IntervalMap::of(alloc, Interval::new(1i32, 5), 'a')?;
    ///     a.insert(Interval::new(8, 9), 'b')?;
    ///     assert_eq!(a.size(), 7u32);
    ///     Ok(())
    /// }
    /// ```
    ///
    /// # Proved
    ///
    /// How many numbers have a value.
    ///
    /// ```text
    /// ensures { IsCountOf (B.Output.size result) (HasValue (HasAt V.eq self.now)) }
    /// ```
    ///
    /// Words: [`IsCountOf`](crate::definitions#IsCountOf), [`HasValue`](crate::definitions#HasValue), [`HasAt`](crate::definitions#HasAt).
    pub fn size(&self) -> B::Output {
        size_of(&self.entries)
    }

    /// Returns the set of the numbers whose value passes a test. The test is called once for each
    /// entry, in ascending order. `O(n)`. Fails only if allocation fails.
    ///
    /// ```
    /// use intervallum::proved::examples::*;
    ///
    /// fn main() -> Result<(), std::boxed::Box<dyn std::error::Error>> {
    ///     let alloc = Global;
    ///     let mut a = IntervalMap::of(alloc, Interval::new(1i32, 5), 'a')?;
    ///     a.insert(Interval::new(8, 9), 'b')?;
    ///     assert!(a.numbers_with(|value| *value == 'b')? == IntervalSet::new(alloc, 8, 9)?);
    ///     Ok(())
    /// }
    /// ```
    ///
    /// # Proved
    ///
    /// The test was called once for each entry, in ascending order. The members are the numbers of those that passed.
    ///
    /// ```text
    /// requires { F.IsAlwaysCallable test }
    /// ensures { IfOk result (λ L. (passed : List ((ℤ × ℤ) × V)) × IsFiltered (λ f e is g. CalledAt F.FnMut f e.1 is g) test self.now passed
    ///     × IsRunsOf L (Covers (intervals_of passed))) }
    /// ```
    ///
    /// Words: [`IsRunsOf`](crate::definitions#IsRunsOf), [`Covers`](crate::definitions#Covers), [`intervals_of`](crate::definitions#intervals_of).
    pub fn numbers_with<F: FnMut(&V) -> bool>(
        &self,
        mut test: F,
    ) -> Result<IntervalSet<B>, AllocError> {
        let mut numbers = IntervalSet::empty(self.allocator());
        for entry in self.entries.as_slice() {
            if !test(&entry.1) {
                continue;
            }
            add_run(&mut numbers, entry.0)?;
        }
        Ok(numbers)
    }
}

/// The set of the numbers of entries.
pub(super) fn numbers_of<B: Width, V: MapValue>(
    alloc: Global,
    entries: &[(Interval<B>, V)],
) -> Result<IntervalSet<B>, AllocError> {
    let mut numbers = IntervalSet::empty(alloc);
    for entry in entries {
        add_run(&mut numbers, entry.0)?;
    }
    Ok(numbers)
}

/// Adds the numbers of an interval to a set. The search begins at the last run: it takes `O(1)` if
/// no number of the set is above the interval.
fn add_run<B: Width>(numbers: &mut IntervalSet<B>, run: Interval<B>) -> Result<(), AllocError> {
    let place = numbers.interval_count().saturating_sub(1);
    numbers.insert_interval_near(run, place)
}

/// How many numbers entries have.
fn size_of<B: Width, V: MapValue>(entries: &[(Interval<B>, V)]) -> B::Output {
    let mut size = <B::Output as SizeNumber>::zero();
    for entry in entries {
        let run = entry.0;
        run.in_whole();
        size = size.add_in_range(run.size());
    }
    size
}
