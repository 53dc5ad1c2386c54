// Written by bindings/rust/extract from crates/ivl_interval/src/width/unsigned.rt.
//! The unsigned integers as bounds: from 0 to the greatest value less 1.

#[allow(unused_imports)]
use crate::rattle::prelude::*;
use crate::proved::ivl_interval::width::Width;

/// From 0 to 254, with sizes of `u8`. The greatest value of the type, 255, is outside the range.
///
/// ```
/// use intervallum::proved::examples::*;
///
/// fn main() -> Result<(), std::boxed::Box<dyn std::error::Error>> {
///     let alloc = Global;
///     assert_eq!(<u8 as Width>::min_value(), 0);
///     assert_eq!(<u8 as Width>::max_value(), 254);
///     Ok(())
/// }
/// ```
///
/// Proved, with these words of the trait:
///
/// ```text
/// value = { pos }
/// at = { unsigned_abs }
/// whole = { (pos 0, pos (2 ^ 8 - 2)) }
/// ```
impl Width for u8 {
    type Output = u8;

    /// See [`Width::min_value`].
    ///
    /// # Proved
    ///
    /// The result is 0.
    ///
    /// ```text
    /// ensures { result ≡ 0 }
    /// ```
    fn min_value() -> u8 {
        u8::MIN
    }

    /// See [`Width::max_value`].
    ///
    /// # Proved
    ///
    /// The result is 2^8 - 2.
    ///
    /// ```text
    /// ensures { result ≡ 2 ^ 8 - 2 }
    /// ```
    fn max_value() -> u8 {
        u8::MAX - 1
    }

    fn number(self) -> i128 {
        self as i128
    }

    fn from_number(number: i128) -> Option<u8> {
        match u8::try_from(number) {
            Ok(value) if value < u8::MAX => Some(value),
            _ => None,
        }
    }

    #[cfg_attr(debug_assertions, track_caller)]
    fn width(lower: &u8, upper: &u8) -> u8 {
        debug_assert!({ #[allow(unused_imports)] use crate::proved::ivl_interval::ops::*; <Self as Width>::min_value() <= *lower && lower <= upper && *upper <= <Self as Width>::max_value() }, "{}", "the condition of `width` is broken: <Self as Width>::min_value() <= *lower && lower <= upper && *upper <= <Self as Width>::max_value()");
        *upper - *lower + 1
    }

    fn zero() -> u8 {
        0
    }

    fn one() -> u8 {
        1
    }

    fn checked_add(self, other: u8) -> Option<u8> {
        match u8::checked_add(self, other) {
            Some(sum) if sum < u8::MAX => Some(sum),
            _ => None,
        }
    }

    fn checked_sub(self, other: u8) -> Option<u8> {
        match u8::checked_sub(self, other) {
            Some(difference) if difference < u8::MAX => Some(difference),
            _ => None,
        }
    }

    fn checked_mul(self, other: u8) -> Option<u8> {
        match u8::try_from(self as u16 * other as u16) {
            Ok(product) if product < u8::MAX => Some(product),
            _ => None,
        }
    }

    #[cfg_attr(debug_assertions, track_caller)]
    fn add_in_range(self, other: u8) -> u8 {
        debug_assert!({ #[allow(unused_imports)] use crate::proved::ivl_interval::ops::*; Width::checked_add(self, other).is_some() }, "{}", "the condition of `add_in_range` is broken: Width::checked_add(self, other).is_some()");
        self + other
    }

    #[cfg_attr(debug_assertions, track_caller)]
    fn sub_in_range(self, other: u8) -> u8 {
        debug_assert!({ #[allow(unused_imports)] use crate::proved::ivl_interval::ops::*; Width::checked_sub(self, other).is_some() }, "{}", "the condition of `sub_in_range` is broken: Width::checked_sub(self, other).is_some()");
        self - other
    }

    #[cfg_attr(debug_assertions, track_caller)]
    fn mul_in_range(self, other: u8) -> u8 {
        debug_assert!({ #[allow(unused_imports)] use crate::proved::ivl_interval::ops::*; Width::checked_mul(self, other).is_some() }, "{}", "the condition of `mul_in_range` is broken: Width::checked_mul(self, other).is_some()");
        self * other
    }
}

/// From 0 to 65534, with sizes of `u16`. The greatest value of the type, 65535, is outside the
/// range.
///
/// Proved, with these words of the trait:
///
/// ```text
/// value = { pos }
/// at = { unsigned_abs }
/// whole = { (pos 0, pos (2 ^ 16 - 2)) }
/// ```
impl Width for u16 {
    type Output = u16;

    /// See [`Width::min_value`].
    ///
    /// # Proved
    ///
    /// The result is 0.
    ///
    /// ```text
    /// ensures { result ≡ 0 }
    /// ```
    fn min_value() -> u16 {
        u16::MIN
    }

    /// See [`Width::max_value`].
    ///
    /// # Proved
    ///
    /// The result is 2^16 - 2.
    ///
    /// ```text
    /// ensures { result ≡ 2 ^ 16 - 2 }
    /// ```
    fn max_value() -> u16 {
        u16::MAX - 1
    }

    fn number(self) -> i128 {
        self as i128
    }

    fn from_number(number: i128) -> Option<u16> {
        match u16::try_from(number) {
            Ok(value) if value < u16::MAX => Some(value),
            _ => None,
        }
    }

    #[cfg_attr(debug_assertions, track_caller)]
    fn width(lower: &u16, upper: &u16) -> u16 {
        debug_assert!({ #[allow(unused_imports)] use crate::proved::ivl_interval::ops::*; <Self as Width>::min_value() <= *lower && lower <= upper && *upper <= <Self as Width>::max_value() }, "{}", "the condition of `width` is broken: <Self as Width>::min_value() <= *lower && lower <= upper && *upper <= <Self as Width>::max_value()");
        *upper - *lower + 1
    }

    fn zero() -> u16 {
        0
    }

    fn one() -> u16 {
        1
    }

    fn checked_add(self, other: u16) -> Option<u16> {
        match u16::checked_add(self, other) {
            Some(sum) if sum < u16::MAX => Some(sum),
            _ => None,
        }
    }

    fn checked_sub(self, other: u16) -> Option<u16> {
        match u16::checked_sub(self, other) {
            Some(difference) if difference < u16::MAX => Some(difference),
            _ => None,
        }
    }

    fn checked_mul(self, other: u16) -> Option<u16> {
        match u16::try_from(self as u32 * other as u32) {
            Ok(product) if product < u16::MAX => Some(product),
            _ => None,
        }
    }

    #[cfg_attr(debug_assertions, track_caller)]
    fn add_in_range(self, other: u16) -> u16 {
        debug_assert!({ #[allow(unused_imports)] use crate::proved::ivl_interval::ops::*; Width::checked_add(self, other).is_some() }, "{}", "the condition of `add_in_range` is broken: Width::checked_add(self, other).is_some()");
        self + other
    }

    #[cfg_attr(debug_assertions, track_caller)]
    fn sub_in_range(self, other: u16) -> u16 {
        debug_assert!({ #[allow(unused_imports)] use crate::proved::ivl_interval::ops::*; Width::checked_sub(self, other).is_some() }, "{}", "the condition of `sub_in_range` is broken: Width::checked_sub(self, other).is_some()");
        self - other
    }

    #[cfg_attr(debug_assertions, track_caller)]
    fn mul_in_range(self, other: u16) -> u16 {
        debug_assert!({ #[allow(unused_imports)] use crate::proved::ivl_interval::ops::*; Width::checked_mul(self, other).is_some() }, "{}", "the condition of `mul_in_range` is broken: Width::checked_mul(self, other).is_some()");
        self * other
    }
}

/// From 0 to 4294967294, with sizes of `u32`. The greatest value of the type, 4294967295, is
/// outside the range.
///
/// Proved, with these words of the trait:
///
/// ```text
/// value = { pos }
/// at = { unsigned_abs }
/// whole = { (pos 0, pos (2 ^ 32 - 2)) }
/// ```
impl Width for u32 {
    type Output = u32;

    /// See [`Width::min_value`].
    ///
    /// # Proved
    ///
    /// The result is 0.
    ///
    /// ```text
    /// ensures { result ≡ 0 }
    /// ```
    fn min_value() -> u32 {
        u32::MIN
    }

    /// See [`Width::max_value`].
    ///
    /// # Proved
    ///
    /// The result is 2^32 - 2.
    ///
    /// ```text
    /// ensures { result ≡ 2 ^ 32 - 2 }
    /// ```
    fn max_value() -> u32 {
        u32::MAX - 1
    }

    fn number(self) -> i128 {
        self as i128
    }

    fn from_number(number: i128) -> Option<u32> {
        match u32::try_from(number) {
            Ok(value) if value < u32::MAX => Some(value),
            _ => None,
        }
    }

    #[cfg_attr(debug_assertions, track_caller)]
    fn width(lower: &u32, upper: &u32) -> u32 {
        debug_assert!({ #[allow(unused_imports)] use crate::proved::ivl_interval::ops::*; <Self as Width>::min_value() <= *lower && lower <= upper && *upper <= <Self as Width>::max_value() }, "{}", "the condition of `width` is broken: <Self as Width>::min_value() <= *lower && lower <= upper && *upper <= <Self as Width>::max_value()");
        *upper - *lower + 1
    }

    fn zero() -> u32 {
        0
    }

    fn one() -> u32 {
        1
    }

    fn checked_add(self, other: u32) -> Option<u32> {
        match u32::checked_add(self, other) {
            Some(sum) if sum < u32::MAX => Some(sum),
            _ => None,
        }
    }

    fn checked_sub(self, other: u32) -> Option<u32> {
        match u32::checked_sub(self, other) {
            Some(difference) if difference < u32::MAX => Some(difference),
            _ => None,
        }
    }

    fn checked_mul(self, other: u32) -> Option<u32> {
        match u32::try_from(self as u64 * other as u64) {
            Ok(product) if product < u32::MAX => Some(product),
            _ => None,
        }
    }

    #[cfg_attr(debug_assertions, track_caller)]
    fn add_in_range(self, other: u32) -> u32 {
        debug_assert!({ #[allow(unused_imports)] use crate::proved::ivl_interval::ops::*; Width::checked_add(self, other).is_some() }, "{}", "the condition of `add_in_range` is broken: Width::checked_add(self, other).is_some()");
        self + other
    }

    #[cfg_attr(debug_assertions, track_caller)]
    fn sub_in_range(self, other: u32) -> u32 {
        debug_assert!({ #[allow(unused_imports)] use crate::proved::ivl_interval::ops::*; Width::checked_sub(self, other).is_some() }, "{}", "the condition of `sub_in_range` is broken: Width::checked_sub(self, other).is_some()");
        self - other
    }

    #[cfg_attr(debug_assertions, track_caller)]
    fn mul_in_range(self, other: u32) -> u32 {
        debug_assert!({ #[allow(unused_imports)] use crate::proved::ivl_interval::ops::*; Width::checked_mul(self, other).is_some() }, "{}", "the condition of `mul_in_range` is broken: Width::checked_mul(self, other).is_some()");
        self * other
    }
}

/// From 0 to 18446744073709551614, with sizes of `u64`. The greatest value of the type,
/// 18446744073709551615, is outside the range.
///
/// Proved, with these words of the trait:
///
/// ```text
/// value = { pos }
/// at = { unsigned_abs }
/// whole = { (pos 0, pos (2 ^ 64 - 2)) }
/// ```
impl Width for u64 {
    type Output = u64;

    /// See [`Width::min_value`].
    ///
    /// # Proved
    ///
    /// The result is 0.
    ///
    /// ```text
    /// ensures { result ≡ 0 }
    /// ```
    fn min_value() -> u64 {
        u64::MIN
    }

    /// See [`Width::max_value`].
    ///
    /// # Proved
    ///
    /// The result is 2^64 - 2.
    ///
    /// ```text
    /// ensures { result ≡ 2 ^ 64 - 2 }
    /// ```
    fn max_value() -> u64 {
        u64::MAX - 1
    }

    fn number(self) -> i128 {
        self as i128
    }

    fn from_number(number: i128) -> Option<u64> {
        match u64::try_from(number) {
            Ok(value) if value < u64::MAX => Some(value),
            _ => None,
        }
    }

    #[cfg_attr(debug_assertions, track_caller)]
    fn width(lower: &u64, upper: &u64) -> u64 {
        debug_assert!({ #[allow(unused_imports)] use crate::proved::ivl_interval::ops::*; <Self as Width>::min_value() <= *lower && lower <= upper && *upper <= <Self as Width>::max_value() }, "{}", "the condition of `width` is broken: <Self as Width>::min_value() <= *lower && lower <= upper && *upper <= <Self as Width>::max_value()");
        *upper - *lower + 1
    }

    fn zero() -> u64 {
        0
    }

    fn one() -> u64 {
        1
    }

    fn checked_add(self, other: u64) -> Option<u64> {
        match u64::checked_add(self, other) {
            Some(sum) if sum < u64::MAX => Some(sum),
            _ => None,
        }
    }

    fn checked_sub(self, other: u64) -> Option<u64> {
        match u64::checked_sub(self, other) {
            Some(difference) if difference < u64::MAX => Some(difference),
            _ => None,
        }
    }

    fn checked_mul(self, other: u64) -> Option<u64> {
        match u64::try_from(self as u128 * other as u128) {
            Ok(product) if product < u64::MAX => Some(product),
            _ => None,
        }
    }

    #[cfg_attr(debug_assertions, track_caller)]
    fn add_in_range(self, other: u64) -> u64 {
        debug_assert!({ #[allow(unused_imports)] use crate::proved::ivl_interval::ops::*; Width::checked_add(self, other).is_some() }, "{}", "the condition of `add_in_range` is broken: Width::checked_add(self, other).is_some()");
        self + other
    }

    #[cfg_attr(debug_assertions, track_caller)]
    fn sub_in_range(self, other: u64) -> u64 {
        debug_assert!({ #[allow(unused_imports)] use crate::proved::ivl_interval::ops::*; Width::checked_sub(self, other).is_some() }, "{}", "the condition of `sub_in_range` is broken: Width::checked_sub(self, other).is_some()");
        self - other
    }

    #[cfg_attr(debug_assertions, track_caller)]
    fn mul_in_range(self, other: u64) -> u64 {
        debug_assert!({ #[allow(unused_imports)] use crate::proved::ivl_interval::ops::*; Width::checked_mul(self, other).is_some() }, "{}", "the condition of `mul_in_range` is broken: Width::checked_mul(self, other).is_some()");
        self * other
    }
}

/// From 0 to 18446744073709551614, with sizes of `usize`. The greatest value of the type,
/// 18446744073709551615, is outside the range.
///
/// Proved, with these words of the trait:
///
/// ```text
/// value = { pos }
/// at = { unsigned_abs }
/// whole = { (pos 0, pos (2 ^ 64 - 2)) }
/// ```
impl Width for usize {
    type Output = usize;

    /// See [`Width::min_value`].
    ///
    /// # Proved
    ///
    /// The result is 0.
    ///
    /// ```text
    /// ensures { result ≡ 0 }
    /// ```
    fn min_value() -> usize {
        usize::MIN
    }

    /// See [`Width::max_value`].
    ///
    /// # Proved
    ///
    /// The result is 2^64 - 2.
    ///
    /// ```text
    /// ensures { result ≡ 2 ^ 64 - 2 }
    /// ```
    fn max_value() -> usize {
        usize::MAX - 1
    }

    fn number(self) -> i128 {
        self as i128
    }

    fn from_number(number: i128) -> Option<usize> {
        match usize::try_from(number) {
            Ok(value) if value < usize::MAX => Some(value),
            _ => None,
        }
    }

    #[cfg_attr(debug_assertions, track_caller)]
    fn width(lower: &usize, upper: &usize) -> usize {
        debug_assert!({ #[allow(unused_imports)] use crate::proved::ivl_interval::ops::*; <Self as Width>::min_value() <= *lower && lower <= upper && *upper <= <Self as Width>::max_value() }, "{}", "the condition of `width` is broken: <Self as Width>::min_value() <= *lower && lower <= upper && *upper <= <Self as Width>::max_value()");
        *upper - *lower + 1
    }

    fn zero() -> usize {
        0
    }

    fn one() -> usize {
        1
    }

    fn checked_add(self, other: usize) -> Option<usize> {
        match usize::checked_add(self, other) {
            Some(sum) if sum < usize::MAX => Some(sum),
            _ => None,
        }
    }

    fn checked_sub(self, other: usize) -> Option<usize> {
        match usize::checked_sub(self, other) {
            Some(difference) if difference < usize::MAX => Some(difference),
            _ => None,
        }
    }

    fn checked_mul(self, other: usize) -> Option<usize> {
        match usize::try_from(self as u128 * other as u128) {
            Ok(product) if product < usize::MAX => Some(product),
            _ => None,
        }
    }

    #[cfg_attr(debug_assertions, track_caller)]
    fn add_in_range(self, other: usize) -> usize {
        debug_assert!({ #[allow(unused_imports)] use crate::proved::ivl_interval::ops::*; Width::checked_add(self, other).is_some() }, "{}", "the condition of `add_in_range` is broken: Width::checked_add(self, other).is_some()");
        self + other
    }

    #[cfg_attr(debug_assertions, track_caller)]
    fn sub_in_range(self, other: usize) -> usize {
        debug_assert!({ #[allow(unused_imports)] use crate::proved::ivl_interval::ops::*; Width::checked_sub(self, other).is_some() }, "{}", "the condition of `sub_in_range` is broken: Width::checked_sub(self, other).is_some()");
        self - other
    }

    #[cfg_attr(debug_assertions, track_caller)]
    fn mul_in_range(self, other: usize) -> usize {
        debug_assert!({ #[allow(unused_imports)] use crate::proved::ivl_interval::ops::*; Width::checked_mul(self, other).is_some() }, "{}", "the condition of `mul_in_range` is broken: Width::checked_mul(self, other).is_some()");
        self * other
    }
}
