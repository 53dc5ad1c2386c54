// Written by bindings/rust/extract from crates/ivl_json/src/faults.rt.
//! The errors of reading a JSON value.

#[allow(unused_imports)]
use crate::rattle::prelude::*;
use crate::rattle::std::alloc::AllocError;

/// Why a JSON value is not an interval.
///
/// ```
/// use intervallum::proved::examples::*;
///
/// fn main() -> Result<(), std::boxed::Box<dyn std::error::Error>> {
///     let alloc = Global;
///     assert_eq!(format!("{}", ItemFault::Length(3)).as_str(), "length 3");
///     Ok(())
/// }
/// ```
#[derive(Clone, Copy, Debug, PartialEq, Eq)]
pub enum ItemFault {
    /// The value is neither null nor an array.

    Shape,
    /// The array does not have two elements, but this many.

    Length(usize),
    /// An element is not a whole number of 64 bits.

    Number,
    /// A bound is not in the range of its type.

    Range,
}

impl core::fmt::Display for ItemFault {
    fn fmt(&self, f: &mut core::fmt::Formatter<'_>) -> core::fmt::Result {
        match self {
            Self::Shape => write!(f, "shape"),
            Self::Length(x0) => write!(f, "length {0}", x0),
            Self::Number => write!(f, "number"),
            Self::Range => write!(f, "range"),
        }
    }
}

impl core::error::Error for ItemFault {}

/// Why `from_value` failed.
///
/// ```
/// use intervallum::proved::examples::*;
///
/// fn main() -> Result<(), std::boxed::Box<dyn std::error::Error>> {
///     let alloc = Global;
///     let fault = JsonFault::At(2, ItemFault::Range);
///     assert_eq!(format!("{fault}").as_str(), "item 2: range");
///     Ok(())
/// }
/// ```
#[derive(Clone, Copy, Debug, PartialEq, Eq)]
pub enum JsonFault {
    /// The value is neither null nor an array.

    Shape,
    /// The array of an interval does not have two elements, but this many.

    Length(usize),
    /// An element of an interval's array is not a whole number of 64 bits.

    Number,
    /// A bound of an interval is not in the range of its type.

    Range,
    /// An allocation failed. Only a set's `from_value` allocates.

    Memory,
    /// The item of a set at this index is the first that is not an interval.

    At(usize, ItemFault),
}

impl core::fmt::Display for JsonFault {
    fn fmt(&self, f: &mut core::fmt::Formatter<'_>) -> core::fmt::Result {
        match self {
            Self::Shape => write!(f, "shape"),
            Self::Length(x0) => write!(f, "length {0}", x0),
            Self::Number => write!(f, "number"),
            Self::Range => write!(f, "range"),
            Self::Memory => write!(f, "memory"),
            Self::At(x0, x1) => write!(f, "item {0}: {1}", x0, x1),
        }
    }
}

impl core::error::Error for JsonFault {}

/// Proved, with these words of the trait:
///
/// ```text
/// from_gives = { λ fault same. same ≡ json_fault fault }
/// ```
///
/// Words: [`json_fault`](crate::definitions#json_fault).
impl From<ItemFault> for JsonFault {
    /// Returns the same fault, for an interval that is not an item of a set. `O(1)`.
    ///
    /// ```
    /// use intervallum::proved::examples::*;
    ///
    /// fn main() -> Result<(), std::boxed::Box<dyn std::error::Error>> {
    ///     let alloc = Global;
    ///     assert_eq!(JsonFault::from(ItemFault::Length(3)), JsonFault::Length(3));
    ///     Ok(())
    /// }
    /// ```
    fn from(fault: ItemFault) -> JsonFault {
        match fault {
            ItemFault::Shape => JsonFault::Shape,
            ItemFault::Length(count) => JsonFault::Length(count),
            ItemFault::Number => JsonFault::Number,
            ItemFault::Range => JsonFault::Range,
        }
    }
}

/// Proved, with these words of the trait:
///
/// ```text
/// from_gives = { λ _ fault. fault ≡ Memory }
/// ```
impl From<AllocError> for JsonFault {
    /// Returns [`JsonFault::Memory`]. `O(1)`.
    ///
    /// ```
    /// use intervallum::proved::examples::*;
    ///
    /// fn main() -> Result<(), std::boxed::Box<dyn std::error::Error>> {
    ///     let alloc = Global;
    ///     assert_eq!(JsonFault::from(AllocError), JsonFault::Memory);
    ///     Ok(())
    /// }
    /// ```
    fn from(_error: AllocError) -> JsonFault {
        JsonFault::Memory
    }
}
