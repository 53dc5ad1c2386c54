// Written by bindings/rust/extract from crates/ivl_map/src/interval_map/changes.rt.
//! Changes that depend on what the map has.

#[allow(unused_imports)]
use crate::rattle::prelude::*;
use super::IntervalMap;
use crate::proved::ivl_map::merge::merged;
use crate::proved::ivl_map::updates::update_in;
use crate::proved::ivl_map::value::MapValue;
use crate::proved::ivl_map::writes::put_if_free;
use crate::proved::intervallum::interval::Interval;
use crate::proved::intervallum::ops::IsEmpty;
use crate::proved::intervallum::width::Width;
use crate::rattle::std::alloc::AllocError;

impl<B: Width, V: MapValue> IntervalMap<B, V> {
    /// Gives each number of the interval, which may be empty, the value, if none of them has one yet,
    /// and returns `None`. Otherwise returns the run of the first entry in the way, and the map is
    /// unchanged. An entry that touches the interval and has an equal value grows.
    ///
    /// Binary search: `O(log n)`, or `O(n)` if an entry is added, as the entries above the interval
    /// then move. Copies no value.
    ///
    /// # Errors
    ///
    /// Fails only if an allocation fails. The map is then unchanged. Where the interval is empty, an entry is
    /// in the way, or one that touches the interval has an equal value, it cannot fail.
    ///
    /// ```
    /// use intervallum::proved::examples::*;
    ///
    /// fn main() -> Result<(), std::boxed::Box<dyn std::error::Error>> {
    ///     let alloc = Global;
    ///     let mut a = IntervalMap::of(alloc, Interval::new(1i32, 5), 'a')?;
    ///     assert!(a.insert_if_free(Interval::new(4, 9), 'b')? == Some(Interval::new(1, 5)));
    ///     assert!(a.insert_if_free(Interval::new(6, 9), 'b')?.is_none());
    ///     assert!(a.get(&5) == Some(&'a') && a.get(&6) == Some(&'b'));
    ///     Ok(())
    /// }
    /// ```
    ///
    /// # Proved
    ///
    /// None: no number of the interval had a value. Now each has this one, and the others what they had. Some: the run of the first entry in the way, and the map is unchanged. If it fails, the map is unchanged. It cannot fail where the interval is empty, where an entry is in the way, or where a number next to it has an equal value.
    ///
    /// ```text
    /// ensures free { IfOk result (λ met. IfNone met (HasNone (Intersection (IsBetween interval) (HasValue (HasAt V.eq self.old))))) }
    /// ensures written { IfOk result (λ met. IfNone met (IsEntriesOf V.eq self.new (Written V.eq interval value (HasAt V.eq self.old)))) }
    /// ensures met { IfOk result (λ met. IfSome met (λ run. (held : V) × IsFirstRunOf V.eq (Intersection (IsBetween interval) (HasValue (HasAt V.eq self.old))) (HasAt V.eq self.old) (run, held))) }
    /// ensures unchanged { IfOk result (λ met. IfSome met (λ _. self.new ≡ self.old)) }
    /// ensures err { OnErr result (self.new ≡ self.old) }
    /// ensures empty { HasNone (IsBetween interval) → IsOk result }
    /// ensures taken { HasSome (Intersection (IsBetween interval) (HasValue (HasAt V.eq self.old))) → IsOk result }
    /// ensures grows { (z : ℤ) → IsBetween (widened interval) z → HasAt V.eq self.old z value → IsOk result }
    /// ```
    ///
    /// Words: [`HasNone`](crate::definitions#HasNone), [`Intersection`](crate::definitions#Intersection), [`IsBetween`](crate::definitions#IsBetween), [`HasValue`](crate::definitions#HasValue), [`HasAt`](crate::definitions#HasAt), [`IsEntriesOf`](crate::definitions#IsEntriesOf), [`Written`](crate::definitions#Written), [`IsFirstRunOf`](crate::definitions#IsFirstRunOf), [`HasSome`](crate::definitions#HasSome), [`widened`](crate::definitions#widened).
    pub fn insert_if_free(
        &mut self,
        interval: Interval<B>,
        value: V,
    ) -> Result<Option<Interval<B>>, AllocError> {
        self.in_order();
        if interval.is_empty() {
            return Ok(None);
        }
        interval.in_whole();
        put_if_free(&mut self.entries, interval, value)
    }

    /// Changes the values of the numbers of the interval, which may be empty: each that has a value gets
    /// what `change` returns for it. `change` is called once for each entry that has numbers of the
    /// interval, in ascending order.
    ///
    /// `O(log n + k)`, if `k` entries have numbers of the interval, or `O(n)` if the number of entries
    /// changes, as the entries above the interval then move. Copies the values of the entries next to
    /// the interval, and of those that it splits. Reserves `k + 2` entries, and as many until it returns.
    ///
    /// # Errors
    ///
    /// Fails only if `change`, an allocation or the copy of a value fails. The map is then unchanged. Where
    /// the interval is empty, it cannot fail.
    ///
    /// ```
    /// use intervallum::proved::examples::*;
    ///
    /// fn main() -> Result<(), std::boxed::Box<dyn std::error::Error>> {
    ///     let alloc = Global;
    ///     let mut a = IntervalMap::of(alloc, Interval::new(1i32, 9), 5u32)?;
    ///     a.update(Interval::new(4, 20), |value| Ok(*value / 2))?;
    ///     assert!(a.get(&3) == Some(&5) && a.get(&4) == Some(&2) && a.get(&10).is_none());
    ///     Ok(())
    /// }
    /// ```
    ///
    /// # Proved
    ///
    /// Each number of the interval that had a value has what the function returned for it, and the others what they had. If it fails, the map is unchanged. It cannot fail where the interval is empty.
    ///
    /// ```text
    /// requires { F.IsAlwaysCallable change }
    /// ensures ok { OnOk result (IsUpdated V.eq (λ v w. FnReturnsAt F.Fn change v (Ok w)) (IsBetween interval) self.old self.new) }
    /// ensures err { OnErr result (self.new ≡ self.old) }
    /// ensures empty { HasNone (IsBetween interval) → IsOk result }
    /// ```
    ///
    /// Words: [`IsUpdated`](crate::definitions#IsUpdated), [`IsBetween`](crate::definitions#IsBetween), [`HasNone`](crate::definitions#HasNone).
    pub fn update<F: Fn(&V) -> Result<V, AllocError>>(
        &mut self,
        interval: Interval<B>,
        change: F,
    ) -> Result<(), AllocError> {
        self.in_order();
        if interval.is_empty() {
            return Ok(());
        }
        update_in(&mut self.entries, interval, change)
    }

    /// Returns the map of what either of two maps has: a number that has a value in one of them alone
    /// keeps it, and one that has a value in both gets what `both` returns for the two, that of this map
    /// first. `both` is called once for each two entries that have a number in common, in ascending order.
    ///
    /// `O(n + m)`, if the other map has `m` entries: walks both once, and copies the value of an entry
    /// for each part of it that the other map has not. Reserves `n + m` entries.
    ///
    /// # Errors
    ///
    /// Fails only if `both`, an allocation or the copy of a value fails.
    ///
    /// ```
    /// use intervallum::proved::examples::*;
    ///
    /// fn main() -> Result<(), std::boxed::Box<dyn std::error::Error>> {
    ///     let alloc = Global;
    ///     let a = IntervalMap::of(alloc, Interval::new(1i32, 5), 10u32)?;
    ///     let b = IntervalMap::of(alloc, Interval::new(4, 9), 3)?;
    ///     let sums = a.merge(&b, |x, y| Ok(x.saturating_add(*y)))?;
    ///     assert!(sums.get(&3) == Some(&10) && sums.get(&4) == Some(&13) && sums.get(&6) == Some(&3));
    ///     Ok(())
    /// }
    /// ```
    ///
    /// # Proved
    ///
    /// Each number of both maps has what the function returned for its two values, and the others what one of the two has.
    ///
    /// ```text
    /// requires { F.IsAlwaysCallable both }
    /// ensures { IfOk result (λ M. IsMergeOf V.eq (λ v w x. FnReturnsAtPair F.Fn both v w (Ok x)) self.now other.now M) }
    /// ```
    ///
    /// Words: [`IsMergeOf`](crate::definitions#IsMergeOf).
    pub fn merge<F: Fn(&V, &V) -> Result<V, AllocError>>(
        &self,
        other: &Self,
        both: F,
    ) -> Result<Self, AllocError> {
        self.in_order();
        other.in_order();
        let entries = merged(self.allocator(), &self.entries, &other.entries, both)?;
        Ok(IntervalMap { entries })
    }
}
