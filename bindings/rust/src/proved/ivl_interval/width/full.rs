// Written by bindings/rust/extract from crates/ivl_interval/src/width/full.rt.
//! Unsigned integers as bounds with every value of their type.

#[allow(unused_imports)]
use crate::rattle::prelude::*;
use crate::proved::ivl_interval::width::Width;

/// An unsigned integer as a bound with every value of its type, so that byte 255 and port 65535 are
/// members of sets.
///
/// `Full<u8>`, `Full<u16>` and `Full<u32>` are bounds. Their sizes are numbers of the next wider
/// type. The value is the field `0`.
///
/// No call allocates.
///
/// ```
/// use intervallum::proved::examples::*;
///
/// fn main() -> Result<(), std::boxed::Box<dyn std::error::Error>> {
///     let alloc = Global;
///     assert_eq!(<Full<u8> as Width>::max_value().0, 255);
///     assert_eq!(<Full<u8> as Width>::width(&Full(0), &Full(255)), 256u16);
///     Ok(())
/// }
/// ```
#[derive(Clone, Copy, Default, PartialEq, Eq, PartialOrd, Ord, Hash)]
pub struct Full<N>(pub N);

/// From 0 to 255: each value of the type, with sizes of `u16`.
///
/// ```
/// use intervallum::proved::examples::*;
///
/// fn main() -> Result<(), std::boxed::Box<dyn std::error::Error>> {
///     let alloc = Global;
///     assert_eq!(<Full<u8> as Width>::from_number(255).unwrap().0, 255);
///     assert!(<Full<u8> as Width>::from_number(256).is_none());
///     Ok(())
/// }
/// ```
///
/// Proved, with these words of the trait:
///
/// ```text
/// value = { λ x. pos x.0 }
/// at = { λ z. record { 0 = unsigned_abs z } }
/// whole = { (pos 0, pos (2 ^ 8 - 1)) }
/// ```
impl Width for Full<u8> {
    type Output = u16;

    /// See [`Width::min_value`].
    ///
    /// # Proved
    ///
    /// The result is 0.
    ///
    /// ```text
    /// ensures { result.0 ≡ 0 }
    /// ```
    fn min_value() -> Full<u8> {
        Full(u8::MIN)
    }

    /// See [`Width::max_value`].
    ///
    /// # Proved
    ///
    /// The result is 2^8 - 1.
    ///
    /// ```text
    /// ensures { result.0 ≡ 2 ^ 8 - 1 }
    /// ```
    fn max_value() -> Full<u8> {
        Full(u8::MAX)
    }

    fn number(self) -> i128 {
        self.0 as i128
    }

    fn from_number(number: i128) -> Option<Full<u8>> {
        match u8::try_from(number) {
            Ok(value) => Some(Full(value)),
            _ => None,
        }
    }

    #[cfg_attr(debug_assertions, track_caller)]
    fn width(lower: &Full<u8>, upper: &Full<u8>) -> u16 {
        debug_assert!({ #[allow(unused_imports)] use crate::proved::ivl_interval::ops::*; lower <= upper }, "{}", "the condition of `width` is broken: lower <= upper");
        upper.0 as u16 - lower.0 as u16 + 1
    }

    fn zero() -> Full<u8> {
        Full(0)
    }

    fn one() -> Full<u8> {
        Full(1)
    }

    fn checked_add(self, other: Full<u8>) -> Option<Full<u8>> {
        match u8::checked_add(self.0, other.0) {
            Some(sum) => Some(Full(sum)),
            _ => None,
        }
    }

    fn checked_sub(self, other: Full<u8>) -> Option<Full<u8>> {
        match u8::checked_sub(self.0, other.0) {
            Some(difference) => Some(Full(difference)),
            _ => None,
        }
    }

    fn checked_mul(self, other: Full<u8>) -> Option<Full<u8>> {
        match u8::try_from(self.0 as u16 * other.0 as u16) {
            Ok(product) => Some(Full(product)),
            _ => None,
        }
    }

    #[cfg_attr(debug_assertions, track_caller)]
    fn add_in_range(self, other: Full<u8>) -> Full<u8> {
        debug_assert!({ #[allow(unused_imports)] use crate::proved::ivl_interval::ops::*; Width::checked_add(self, other).is_some() }, "{}", "the condition of `add_in_range` is broken: Width::checked_add(self, other).is_some()");
        Full(self.0 + other.0)
    }

    #[cfg_attr(debug_assertions, track_caller)]
    fn sub_in_range(self, other: Full<u8>) -> Full<u8> {
        debug_assert!({ #[allow(unused_imports)] use crate::proved::ivl_interval::ops::*; Width::checked_sub(self, other).is_some() }, "{}", "the condition of `sub_in_range` is broken: Width::checked_sub(self, other).is_some()");
        Full(self.0 - other.0)
    }

    #[cfg_attr(debug_assertions, track_caller)]
    fn mul_in_range(self, other: Full<u8>) -> Full<u8> {
        debug_assert!({ #[allow(unused_imports)] use crate::proved::ivl_interval::ops::*; Width::checked_mul(self, other).is_some() }, "{}", "the condition of `mul_in_range` is broken: Width::checked_mul(self, other).is_some()");
        Full(self.0 * other.0)
    }
}

/// From 0 to 65535: each value of the type, with sizes of `u32`.
///
/// Proved, with these words of the trait:
///
/// ```text
/// value = { λ x. pos x.0 }
/// at = { λ z. record { 0 = unsigned_abs z } }
/// whole = { (pos 0, pos (2 ^ 16 - 1)) }
/// ```
impl Width for Full<u16> {
    type Output = u32;

    /// See [`Width::min_value`].
    ///
    /// # Proved
    ///
    /// The result is 0.
    ///
    /// ```text
    /// ensures { result.0 ≡ 0 }
    /// ```
    fn min_value() -> Full<u16> {
        Full(u16::MIN)
    }

    /// See [`Width::max_value`].
    ///
    /// # Proved
    ///
    /// The result is 2^16 - 1.
    ///
    /// ```text
    /// ensures { result.0 ≡ 2 ^ 16 - 1 }
    /// ```
    fn max_value() -> Full<u16> {
        Full(u16::MAX)
    }

    fn number(self) -> i128 {
        self.0 as i128
    }

    fn from_number(number: i128) -> Option<Full<u16>> {
        match u16::try_from(number) {
            Ok(value) => Some(Full(value)),
            _ => None,
        }
    }

    #[cfg_attr(debug_assertions, track_caller)]
    fn width(lower: &Full<u16>, upper: &Full<u16>) -> u32 {
        debug_assert!({ #[allow(unused_imports)] use crate::proved::ivl_interval::ops::*; lower <= upper }, "{}", "the condition of `width` is broken: lower <= upper");
        upper.0 as u32 - lower.0 as u32 + 1
    }

    fn zero() -> Full<u16> {
        Full(0)
    }

    fn one() -> Full<u16> {
        Full(1)
    }

    fn checked_add(self, other: Full<u16>) -> Option<Full<u16>> {
        match u16::checked_add(self.0, other.0) {
            Some(sum) => Some(Full(sum)),
            _ => None,
        }
    }

    fn checked_sub(self, other: Full<u16>) -> Option<Full<u16>> {
        match u16::checked_sub(self.0, other.0) {
            Some(difference) => Some(Full(difference)),
            _ => None,
        }
    }

    fn checked_mul(self, other: Full<u16>) -> Option<Full<u16>> {
        match u16::try_from(self.0 as u32 * other.0 as u32) {
            Ok(product) => Some(Full(product)),
            _ => None,
        }
    }

    #[cfg_attr(debug_assertions, track_caller)]
    fn add_in_range(self, other: Full<u16>) -> Full<u16> {
        debug_assert!({ #[allow(unused_imports)] use crate::proved::ivl_interval::ops::*; Width::checked_add(self, other).is_some() }, "{}", "the condition of `add_in_range` is broken: Width::checked_add(self, other).is_some()");
        Full(self.0 + other.0)
    }

    #[cfg_attr(debug_assertions, track_caller)]
    fn sub_in_range(self, other: Full<u16>) -> Full<u16> {
        debug_assert!({ #[allow(unused_imports)] use crate::proved::ivl_interval::ops::*; Width::checked_sub(self, other).is_some() }, "{}", "the condition of `sub_in_range` is broken: Width::checked_sub(self, other).is_some()");
        Full(self.0 - other.0)
    }

    #[cfg_attr(debug_assertions, track_caller)]
    fn mul_in_range(self, other: Full<u16>) -> Full<u16> {
        debug_assert!({ #[allow(unused_imports)] use crate::proved::ivl_interval::ops::*; Width::checked_mul(self, other).is_some() }, "{}", "the condition of `mul_in_range` is broken: Width::checked_mul(self, other).is_some()");
        Full(self.0 * other.0)
    }
}

/// From 0 to 4294967295: each value of the type, with sizes of `u64`.
///
/// Proved, with these words of the trait:
///
/// ```text
/// value = { λ x. pos x.0 }
/// at = { λ z. record { 0 = unsigned_abs z } }
/// whole = { (pos 0, pos (2 ^ 32 - 1)) }
/// ```
impl Width for Full<u32> {
    type Output = u64;

    /// See [`Width::min_value`].
    ///
    /// # Proved
    ///
    /// The result is 0.
    ///
    /// ```text
    /// ensures { result.0 ≡ 0 }
    /// ```
    fn min_value() -> Full<u32> {
        Full(u32::MIN)
    }

    /// See [`Width::max_value`].
    ///
    /// # Proved
    ///
    /// The result is 2^32 - 1.
    ///
    /// ```text
    /// ensures { result.0 ≡ 2 ^ 32 - 1 }
    /// ```
    fn max_value() -> Full<u32> {
        Full(u32::MAX)
    }

    fn number(self) -> i128 {
        self.0 as i128
    }

    fn from_number(number: i128) -> Option<Full<u32>> {
        match u32::try_from(number) {
            Ok(value) => Some(Full(value)),
            _ => None,
        }
    }

    #[cfg_attr(debug_assertions, track_caller)]
    fn width(lower: &Full<u32>, upper: &Full<u32>) -> u64 {
        debug_assert!({ #[allow(unused_imports)] use crate::proved::ivl_interval::ops::*; lower <= upper }, "{}", "the condition of `width` is broken: lower <= upper");
        upper.0 as u64 - lower.0 as u64 + 1
    }

    fn zero() -> Full<u32> {
        Full(0)
    }

    fn one() -> Full<u32> {
        Full(1)
    }

    fn checked_add(self, other: Full<u32>) -> Option<Full<u32>> {
        match u32::checked_add(self.0, other.0) {
            Some(sum) => Some(Full(sum)),
            _ => None,
        }
    }

    fn checked_sub(self, other: Full<u32>) -> Option<Full<u32>> {
        match u32::checked_sub(self.0, other.0) {
            Some(difference) => Some(Full(difference)),
            _ => None,
        }
    }

    fn checked_mul(self, other: Full<u32>) -> Option<Full<u32>> {
        match u32::try_from(self.0 as u64 * other.0 as u64) {
            Ok(product) => Some(Full(product)),
            _ => None,
        }
    }

    #[cfg_attr(debug_assertions, track_caller)]
    fn add_in_range(self, other: Full<u32>) -> Full<u32> {
        debug_assert!({ #[allow(unused_imports)] use crate::proved::ivl_interval::ops::*; Width::checked_add(self, other).is_some() }, "{}", "the condition of `add_in_range` is broken: Width::checked_add(self, other).is_some()");
        Full(self.0 + other.0)
    }

    #[cfg_attr(debug_assertions, track_caller)]
    fn sub_in_range(self, other: Full<u32>) -> Full<u32> {
        debug_assert!({ #[allow(unused_imports)] use crate::proved::ivl_interval::ops::*; Width::checked_sub(self, other).is_some() }, "{}", "the condition of `sub_in_range` is broken: Width::checked_sub(self, other).is_some()");
        Full(self.0 - other.0)
    }

    #[cfg_attr(debug_assertions, track_caller)]
    fn mul_in_range(self, other: Full<u32>) -> Full<u32> {
        debug_assert!({ #[allow(unused_imports)] use crate::proved::ivl_interval::ops::*; Width::checked_mul(self, other).is_some() }, "{}", "the condition of `mul_in_range` is broken: Width::checked_mul(self, other).is_some()");
        Full(self.0 * other.0)
    }
}
