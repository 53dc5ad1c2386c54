// Written by bindings/rust/extract from crates/ivl_json/src/sets.rt.
//! The JSON form of a set.

#[allow(unused_imports)]
use crate::rattle::prelude::*;
use crate::proved::ivl_json::faults::JsonFault;
use crate::proved::ivl_json::form::JsonForm;
use crate::proved::ivl_json::intervals::{interval_from, interval_value};
use crate::proved::intervallum::sweep::coalesce;
use crate::proved::intervallum::width::Width;
use crate::proved::intervallum::{Interval, IntervalSet};
use serde_json::Value;
use crate::rattle::std::alloc::{AllocError, Global};

/// Proved, with these words of the trait:
///
/// ```text
/// reads = { λ d L. IsRunListIn B.whole L × SetReads B.whole d (Covers L) }
/// faults = { λ d f. (f ≡ Memory) ⊎ (set_read B.whole d ≡ Err f) }
/// json = { set_json }
/// same = { λ L M. L ≡ M }
/// ```
///
/// Words: [`IsRunListIn`](crate::definitions#IsRunListIn), [`SetReads`](crate::definitions#SetReads), [`Covers`](crate::definitions#Covers), [`set_read`](crate::definitions#set_read), [`set_json`](crate::definitions#set_json).
impl<B: Width> JsonForm for IntervalSet<B> {
    /// Returns `null` if the set is empty, and else the array of the runs, ascending. `O(n)`, with
    /// one allocation for the array and one for each run. Fails only if allocation fails.
    ///
    /// ```
    /// use intervallum::proved::examples::*;
    ///
    /// fn main() -> Result<(), std::boxed::Box<dyn std::error::Error>> {
    ///     let alloc = Global;
    ///     let set: IntervalSet<i32> = [(8, 9), (4, 4)].to_interval_set(alloc)?;
    ///     let text = set.to_value(alloc)?.to_string();
    ///     assert_eq!(text.as_str(), "[[4,4],[8,9]]");
    ///     Ok(())
    /// }
    /// ```
    ///
    /// # Proved
    ///
    /// What [`JsonForm::to_value`] says, by the words of the type.
    fn to_value(&self, alloc: Global) -> Result<Value, AllocError> {
        runs_value(alloc, self.iter().as_slice())
    }

    /// Reads `null` or an array of intervals in any order. `O(k log k)` for `k` items. Reserves `k`
    /// intervals for the list, and as many for the set unless the sorted list is its runs.
    ///
    /// ```
    /// use intervallum::proved::examples::*;
    ///
    /// fn main() -> Result<(), std::boxed::Box<dyn std::error::Error>> {
    ///     let alloc = Global;
    ///     let value = Value::from_str("[[1, 2], [3]]")?;
    ///     let read = IntervalSet::<i32>::from_value(alloc, &value);
    ///     assert_eq!(read.err(), Some(JsonFault::At(1, ItemFault::Length(1))));
    ///     Ok(())
    /// }
    /// ```
    ///
    /// # Proved
    ///
    /// What [`JsonForm::from_value`] says, by the words of the type.
    fn from_value(alloc: Global, value: &Value) -> Result<IntervalSet<B>, JsonFault> {
        if value.is_null() {
            return Ok(IntervalSet::empty(alloc));
        }
        let items = value.as_array().ok_or(JsonFault::Shape)?;
        Ok(coalesce(alloc, intervals_from(alloc, items)?)?)
    }
}

/// Writes the runs of a set.
fn runs_value<B: Width>(alloc: Global, runs: &[Interval<B>]) -> Result<Value, AllocError> {
    if runs.is_empty() {
        return Ok(Value::from(()));
    }
    let mut items = Vec::with_capacity(alloc, runs.len())?;
    for run in runs {
        items.push(interval_value(alloc, *run)?)?;
    }
    Ok(Value::from(items))
}

/// Reads each item as an interval.
fn intervals_from<B: Width>(alloc: Global, items: &[Value]) -> Result<Vec<Interval<B>>, JsonFault> {
    let mut list = Vec::with_capacity(alloc, items.len())?;
    for (place, item) in items.iter().enumerate() {
        let run = interval_from(item).map_err(|fault| JsonFault::At(place, fault))?;
        list.push(run).map_err(|_| JsonFault::Memory)?;
    }
    Ok(list)
}
