// Written by bindings/rust/extract from crates/ivl_json/src/form.rt.
//! The trait of types that have a JSON form.

#[allow(unused_imports)]
use crate::rattle::prelude::*;
use crate::proved::ivl_json::faults::JsonFault;
use serde_json::Value;
use crate::rattle::std::alloc::{AllocError, Global};

/// Conversion to and from a JSON value, for `Interval<B>` and `IntervalSet<B>` over every bound
/// type `B`.
///
/// A JSON value is a `serde_json::Value`. Its `from_str` and `to_string` convert from and to text:
///
/// ```
/// use intervallum::proved::examples::*;
///
/// fn main() -> Result<(), std::boxed::Box<dyn std::error::Error>> {
///     let alloc = Global;
///     let value = Value::from_str("[[1, 3], [2, 8], null, [9, 4]]")?;
///     let set = IntervalSet::<i32>::from_value(alloc, &value)?;
///     assert!(set == IntervalSet::new(alloc, 1, 8)?);
///     assert_eq!(set.to_value(alloc)?.to_string().as_str(), "[[1,8]]");
///     Ok(())
/// }
/// ```
///
/// # What is written
///
/// An empty interval and an empty set are `null`. Any other interval is the array of its two
/// bounds, as in `[3,8]`; any other set is the array of its runs, ascending, as in `[[1,2],[5,5]]`.
/// What is written reads back as an equal value.
///
/// # What is accepted
///
/// * An interval: `null`, which is empty, or an array of two whole numbers in the range of `B`. If
///   the first is above the second, the interval is empty.
/// * A set: `null` or `[]`, which are empty, or an array of intervals in any order. They may
///   overlap, touch, repeat and be empty; the set is their union.
///
/// # What is refused
///
/// The first of these that applies is the fault:
///
/// 1. [`Shape`](JsonFault::Shape): the value is neither `null` nor an array.
/// 2. [`Length`](JsonFault::Length): an interval's array does not have two elements, whatever its
///    elements are.
/// 3. [`Number`](JsonFault::Number) or [`Range`](JsonFault::Range), of the first element, and then
///    of the second. An element must be a whole number of 64 bits: `1.0`, `-0`, `1e2`,
///    `18446744073709551616` and `"1"` are not. It must also be in the range of `B`, even if the
///    two cross: as bounds of `u8`, `[255,0]` is refused.
///
/// The items of a set are read from the left. [`At`](JsonFault::At) has the index, counted from 0,
/// and the fault of the first that is refused. No value is both read and refused, and nothing is
/// read in part.
///
/// # Cost and memory
///
/// Reading an interval is `O(1)` and does not allocate; writing one allocates an array of two,
/// unless it is empty. Reading a set of `k` items is `O(k log k)`: one pass over the array into a
/// list that is reserved once, and then one [`coalesce`](crate::proved::intervallum::sweep::coalesce), which
/// reserves room for the runs at most once. Writing a set of `n` runs is `O(n)`, with one
/// allocation for the array and one for each run. The value that is read is borrowed, and never
/// copied.
///
/// # Contracts
///
/// A contract sees a value as serde_json's `Data`, by `view`. For generic code the clauses state
/// that what is written reads back, and the two laws that a value reads in at most one way.
///
/// Words and laws of the contracts:
///
/// ```text
/// reads: { Data → Self → Type 0 }
/// faults: { Data → JsonFault → Type 0 }
/// json: { Self → Data }
/// same: { Self → Self → Type 0 }
/// one_way: { (d : Data) (x y : Self) → reads d x → reads d y → same x y }
/// not_refused: { (d : Data) (x : Self) (fault : JsonFault) → reads d x → faults d fault → fault ≡ Memory }
/// ```
pub trait JsonForm: Sized {
    /// Returns the JSON value of this interval or set. `O(1)`, or `O(n)` for a set of `n` runs.
    ///
    /// # Errors
    ///
    /// Fails only if allocation fails.
    ///
    /// ```
    /// use intervallum::proved::examples::*;
    ///
    /// fn main() -> Result<(), std::boxed::Box<dyn std::error::Error>> {
    ///     let alloc = Global;
    ///     let value = Interval::new(3, 8).to_value(alloc)?;
    ///     assert_eq!(value.to_string().as_str(), "[3,8]");
    ///     Ok(())
    /// }
    /// ```
    ///
    /// # Proved
    ///
    /// On success, the result is the JSON value of `self`, which reads as `self`.
    ///
    /// ```text
    /// ensures written { IfOk result (λ v. view v ≡ json self.now) }
    /// ensures reads_back { reads (json self.now) self.now }
    /// ```
    fn to_value(&self, alloc: Global) -> Result<Value, AllocError>;

    /// Reads a JSON value, which is unchanged. `O(1)`, or `O(k log k)` for a set of `k` items.
    ///
    /// # Errors
    ///
    /// Returns the first fault of the value, in the order that [`JsonForm`] gives, or
    /// [`JsonFault::Memory`] if an allocation failed before a fault was met.
    ///
    /// ```
    /// use intervallum::proved::examples::*;
    ///
    /// fn main() -> Result<(), std::boxed::Box<dyn std::error::Error>> {
    ///     let alloc = Global;
    ///     let value = Value::from_str("[255, 0]")?;
    ///     let read = Interval::<u8>::from_value(alloc, &value);
    ///     assert_eq!(read, Err(JsonFault::Range));
    ///     Ok(())
    /// }
    /// ```
    ///
    /// # Proved
    ///
    /// On success, the JSON value reads as the result; on an error, the fault is one for which it may be refused.
    ///
    /// ```text
    /// ensures read { IfOk result (reads (view value.now)) }
    /// ensures fault { IfErr result (faults (view value.now)) }
    /// ```
    fn from_value(alloc: Global, value: &Value) -> Result<Self, JsonFault>;
}
