// Written by bindings/rust/extract from crates/ivl_json/src/intervals.rt.
//! The JSON form of an interval.

#[allow(unused_imports)]
use crate::rattle::prelude::*;
use crate::proved::ivl_json::faults::{ItemFault, JsonFault};
use crate::proved::ivl_json::form::JsonForm;
use crate::proved::ivl_json::numbers::{bound_from, bound_value};
use crate::proved::intervallum::Interval;
use crate::proved::intervallum::ops::{Bounded, IsEmpty, Range};
use crate::proved::intervallum::width::Width;
use serde_json::Value;
use crate::rattle::std::alloc::{AllocError, Global};

/// Proved, with these words of the trait:
///
/// ```text
/// reads = { λ d p. Reads B.whole d (IsBetween p) }
/// faults = { λ d f. (k : ItemFault) × (f ≡ json_fault k) × (interval_read B.whole d ≡ Err k) }
/// json = { interval_json }
/// same = { λ p q. SameMembers (IsBetween p) (IsBetween q) }
/// ```
///
/// Words: [`Reads`](crate::definitions#Reads), [`IsBetween`](crate::definitions#IsBetween), [`json_fault`](crate::definitions#json_fault), [`interval_read`](crate::definitions#interval_read), [`interval_json`](crate::definitions#interval_json), [`SameMembers`](crate::definitions#SameMembers).
impl<B: Width> JsonForm for Interval<B> {
    /// Returns `null` if the interval is empty, and else the array of the two bounds. `O(1)`, with
    /// at most one allocation. Fails only if allocation fails.
    ///
    /// ```
    /// use intervallum::proved::examples::*;
    ///
    /// fn main() -> Result<(), std::boxed::Box<dyn std::error::Error>> {
    ///     let alloc = Global;
    ///     let none = Interval::<i32>::empty().to_value(alloc)?;
    ///     assert_eq!(none.to_string().as_str(), "null");
    ///     Ok(())
    /// }
    /// ```
    ///
    /// # Proved
    ///
    /// What [`JsonForm::to_value`] says, by the words of the type.
    fn to_value(&self, alloc: Global) -> Result<Value, AllocError> {
        self.in_whole();
        interval_value(alloc, *self)
    }

    /// Reads `null` or an array of two bounds. `O(1)`, does not allocate, so the fault is never
    /// [`JsonFault::Memory`].
    ///
    /// ```
    /// use intervallum::proved::examples::*;
    ///
    /// fn main() -> Result<(), std::boxed::Box<dyn std::error::Error>> {
    ///     let alloc = Global;
    ///     let value = Value::from_str("[10, 20, 30]")?;
    ///     let read = Interval::<i32>::from_value(alloc, &value);
    ///     assert_eq!(read, Err(JsonFault::Length(3)));
    ///     Ok(())
    /// }
    /// ```
    ///
    /// # Proved
    ///
    /// What [`JsonForm::from_value`] says, by the words of the type.
    fn from_value(_alloc: Global, value: &Value) -> Result<Interval<B>, JsonFault> {
        Ok(interval_from(value)?)
    }
}

/// Writes an interval.
pub(crate) fn interval_value<B: Width>(
    alloc: Global,
    interval: Interval<B>,
) -> Result<Value, AllocError> {
    if interval.is_empty() {
        return Ok(Value::from(()));
    }
    let lower = bound_value(interval.lower());
    let upper = bound_value(interval.upper());
    Ok(Value::from(Vec::from_array(alloc, [ lower, upper])?))
}

/// Reads an interval, with the bounds as they stand, even if they cross.
pub(crate) fn interval_from<B: Width>(value: &Value) -> Result<Interval<B>, ItemFault> {
    if value.is_null() {
        return Ok(Interval::new(B::one(), B::zero()));
    }
    let elements = value.as_array().ok_or(ItemFault::Shape)?;
    pair_from(elements)
}

/// Reads the two elements of an interval's array.
fn pair_from<B: Width>(elements: &[Value]) -> Result<Interval<B>, ItemFault> {
    let [first, second] = elements else {
        return Err(ItemFault::Length(elements.len()));
    };
    let lower = bound_from(first)?;
    let upper = bound_from(second)?;
    Ok(Interval::new(lower, upper))
}
