// Written by bindings/rust/extract from crates/ivl_interval/src/width/signed.rt.
//! The signed integers as bounds: from the least value plus 1 to the greatest.

#[allow(unused_imports)]
use crate::rattle::prelude::*;
use crate::proved::ivl_interval::width::Width;

/// From -127 to 127, with sizes of `u8`. The least value of the type, -128, is outside the range.
///
/// ```
/// use intervallum::proved::examples::*;
///
/// fn main() -> Result<(), std::boxed::Box<dyn std::error::Error>> {
///     let alloc = Global;
///     assert_eq!(<i8 as Width>::min_value(), -127);
///     assert_eq!(<i8 as Width>::max_value(), 127);
///     Ok(())
/// }
/// ```
///
/// Proved, with these words of the trait:
///
/// ```text
/// value = { λ x. x }
/// at = { λ z. z }
/// whole = { (negsuc (2 ^ 7 - 2), pos (2 ^ 7 - 1)) }
/// ```
impl Width for i8 {
    type Output = u8;

    /// See [`Width::min_value`].
    ///
    /// # Proved
    ///
    /// The result is -(2^7 - 1).
    ///
    /// ```text
    /// ensures { result ≡ negsuc (2 ^ 7 - 2) }
    /// ```
    fn min_value() -> i8 {
        i8::MIN + 1
    }

    /// See [`Width::max_value`].
    ///
    /// # Proved
    ///
    /// The result is 2^7 - 1.
    ///
    /// ```text
    /// ensures { result ≡ pos (2 ^ 7 - 1) }
    /// ```
    fn max_value() -> i8 {
        i8::MAX
    }

    fn number(self) -> i128 {
        self as i128
    }

    fn from_number(number: i128) -> Option<i8> {
        match i8::try_from(number) {
            Ok(value) if value != i8::MIN => Some(value),
            _ => None,
        }
    }

    #[cfg_attr(debug_assertions, track_caller)]
    fn width(lower: &i8, upper: &i8) -> u8 {
        debug_assert!({ #[allow(unused_imports)] use crate::proved::ivl_interval::ops::*; <Self as Width>::min_value() <= *lower && lower <= upper && *upper <= <Self as Width>::max_value() }, "{}", "the condition of `width` is broken: <Self as Width>::min_value() <= *lower && lower <= upper && *upper <= <Self as Width>::max_value()");
        upper.abs_diff(*lower) + 1
    }

    fn zero() -> i8 {
        0
    }

    fn one() -> i8 {
        1
    }

    fn checked_add(self, other: i8) -> Option<i8> {
        match i8::checked_add(self, other) {
            Some(sum) if sum != i8::MIN => Some(sum),
            _ => None,
        }
    }

    fn checked_sub(self, other: i8) -> Option<i8> {
        match i8::checked_sub(self, other) {
            Some(difference) if difference != i8::MIN => Some(difference),
            _ => None,
        }
    }

    fn checked_mul(self, other: i8) -> Option<i8> {
        let product = self as i16 * other as i16;
        if (i8::MIN as i16) < product && product <= i8::MAX as i16 {
            Some(product as i8)
        } else {
            None
        }
    }

    #[cfg_attr(debug_assertions, track_caller)]
    fn add_in_range(self, other: i8) -> i8 {
        debug_assert!({ #[allow(unused_imports)] use crate::proved::ivl_interval::ops::*; Width::checked_add(self, other).is_some() }, "{}", "the condition of `add_in_range` is broken: Width::checked_add(self, other).is_some()");
        self + other
    }

    #[cfg_attr(debug_assertions, track_caller)]
    fn sub_in_range(self, other: i8) -> i8 {
        debug_assert!({ #[allow(unused_imports)] use crate::proved::ivl_interval::ops::*; Width::checked_sub(self, other).is_some() }, "{}", "the condition of `sub_in_range` is broken: Width::checked_sub(self, other).is_some()");
        self - other
    }

    #[cfg_attr(debug_assertions, track_caller)]
    fn mul_in_range(self, other: i8) -> i8 {
        debug_assert!({ #[allow(unused_imports)] use crate::proved::ivl_interval::ops::*; Width::checked_mul(self, other).is_some() }, "{}", "the condition of `mul_in_range` is broken: Width::checked_mul(self, other).is_some()");
        self * other
    }
}

/// From -32767 to 32767, with sizes of `u16`. The least value of the type, -32768, is outside the
/// range.
///
/// Proved, with these words of the trait:
///
/// ```text
/// value = { λ x. x }
/// at = { λ z. z }
/// whole = { (negsuc (2 ^ 15 - 2), pos (2 ^ 15 - 1)) }
/// ```
impl Width for i16 {
    type Output = u16;

    /// See [`Width::min_value`].
    ///
    /// # Proved
    ///
    /// The result is -(2^15 - 1).
    ///
    /// ```text
    /// ensures { result ≡ negsuc (2 ^ 15 - 2) }
    /// ```
    fn min_value() -> i16 {
        i16::MIN + 1
    }

    /// See [`Width::max_value`].
    ///
    /// # Proved
    ///
    /// The result is 2^15 - 1.
    ///
    /// ```text
    /// ensures { result ≡ pos (2 ^ 15 - 1) }
    /// ```
    fn max_value() -> i16 {
        i16::MAX
    }

    fn number(self) -> i128 {
        self as i128
    }

    fn from_number(number: i128) -> Option<i16> {
        match i16::try_from(number) {
            Ok(value) if value != i16::MIN => Some(value),
            _ => None,
        }
    }

    #[cfg_attr(debug_assertions, track_caller)]
    fn width(lower: &i16, upper: &i16) -> u16 {
        debug_assert!({ #[allow(unused_imports)] use crate::proved::ivl_interval::ops::*; <Self as Width>::min_value() <= *lower && lower <= upper && *upper <= <Self as Width>::max_value() }, "{}", "the condition of `width` is broken: <Self as Width>::min_value() <= *lower && lower <= upper && *upper <= <Self as Width>::max_value()");
        upper.abs_diff(*lower) + 1
    }

    fn zero() -> i16 {
        0
    }

    fn one() -> i16 {
        1
    }

    fn checked_add(self, other: i16) -> Option<i16> {
        match i16::checked_add(self, other) {
            Some(sum) if sum != i16::MIN => Some(sum),
            _ => None,
        }
    }

    fn checked_sub(self, other: i16) -> Option<i16> {
        match i16::checked_sub(self, other) {
            Some(difference) if difference != i16::MIN => Some(difference),
            _ => None,
        }
    }

    fn checked_mul(self, other: i16) -> Option<i16> {
        let product = self as i32 * other as i32;
        if (i16::MIN as i32) < product && product <= i16::MAX as i32 {
            Some(product as i16)
        } else {
            None
        }
    }

    #[cfg_attr(debug_assertions, track_caller)]
    fn add_in_range(self, other: i16) -> i16 {
        debug_assert!({ #[allow(unused_imports)] use crate::proved::ivl_interval::ops::*; Width::checked_add(self, other).is_some() }, "{}", "the condition of `add_in_range` is broken: Width::checked_add(self, other).is_some()");
        self + other
    }

    #[cfg_attr(debug_assertions, track_caller)]
    fn sub_in_range(self, other: i16) -> i16 {
        debug_assert!({ #[allow(unused_imports)] use crate::proved::ivl_interval::ops::*; Width::checked_sub(self, other).is_some() }, "{}", "the condition of `sub_in_range` is broken: Width::checked_sub(self, other).is_some()");
        self - other
    }

    #[cfg_attr(debug_assertions, track_caller)]
    fn mul_in_range(self, other: i16) -> i16 {
        debug_assert!({ #[allow(unused_imports)] use crate::proved::ivl_interval::ops::*; Width::checked_mul(self, other).is_some() }, "{}", "the condition of `mul_in_range` is broken: Width::checked_mul(self, other).is_some()");
        self * other
    }
}

/// From -2147483647 to 2147483647, with sizes of `u32`. The least value of the type, -2147483648,
/// is outside the range.
///
/// Proved, with these words of the trait:
///
/// ```text
/// value = { λ x. x }
/// at = { λ z. z }
/// whole = { (negsuc (2 ^ 31 - 2), pos (2 ^ 31 - 1)) }
/// ```
impl Width for i32 {
    type Output = u32;

    /// See [`Width::min_value`].
    ///
    /// # Proved
    ///
    /// The result is -(2^31 - 1).
    ///
    /// ```text
    /// ensures { result ≡ negsuc (2 ^ 31 - 2) }
    /// ```
    fn min_value() -> i32 {
        i32::MIN + 1
    }

    /// See [`Width::max_value`].
    ///
    /// # Proved
    ///
    /// The result is 2^31 - 1.
    ///
    /// ```text
    /// ensures { result ≡ pos (2 ^ 31 - 1) }
    /// ```
    fn max_value() -> i32 {
        i32::MAX
    }

    fn number(self) -> i128 {
        self as i128
    }

    fn from_number(number: i128) -> Option<i32> {
        match i32::try_from(number) {
            Ok(value) if value != i32::MIN => Some(value),
            _ => None,
        }
    }

    #[cfg_attr(debug_assertions, track_caller)]
    fn width(lower: &i32, upper: &i32) -> u32 {
        debug_assert!({ #[allow(unused_imports)] use crate::proved::ivl_interval::ops::*; <Self as Width>::min_value() <= *lower && lower <= upper && *upper <= <Self as Width>::max_value() }, "{}", "the condition of `width` is broken: <Self as Width>::min_value() <= *lower && lower <= upper && *upper <= <Self as Width>::max_value()");
        upper.abs_diff(*lower) + 1
    }

    fn zero() -> i32 {
        0
    }

    fn one() -> i32 {
        1
    }

    fn checked_add(self, other: i32) -> Option<i32> {
        match i32::checked_add(self, other) {
            Some(sum) if sum != i32::MIN => Some(sum),
            _ => None,
        }
    }

    fn checked_sub(self, other: i32) -> Option<i32> {
        match i32::checked_sub(self, other) {
            Some(difference) if difference != i32::MIN => Some(difference),
            _ => None,
        }
    }

    fn checked_mul(self, other: i32) -> Option<i32> {
        let product = self as i64 * other as i64;
        if (i32::MIN as i64) < product && product <= i32::MAX as i64 {
            Some(product as i32)
        } else {
            None
        }
    }

    #[cfg_attr(debug_assertions, track_caller)]
    fn add_in_range(self, other: i32) -> i32 {
        debug_assert!({ #[allow(unused_imports)] use crate::proved::ivl_interval::ops::*; Width::checked_add(self, other).is_some() }, "{}", "the condition of `add_in_range` is broken: Width::checked_add(self, other).is_some()");
        self + other
    }

    #[cfg_attr(debug_assertions, track_caller)]
    fn sub_in_range(self, other: i32) -> i32 {
        debug_assert!({ #[allow(unused_imports)] use crate::proved::ivl_interval::ops::*; Width::checked_sub(self, other).is_some() }, "{}", "the condition of `sub_in_range` is broken: Width::checked_sub(self, other).is_some()");
        self - other
    }

    #[cfg_attr(debug_assertions, track_caller)]
    fn mul_in_range(self, other: i32) -> i32 {
        debug_assert!({ #[allow(unused_imports)] use crate::proved::ivl_interval::ops::*; Width::checked_mul(self, other).is_some() }, "{}", "the condition of `mul_in_range` is broken: Width::checked_mul(self, other).is_some()");
        self * other
    }
}

/// From -9223372036854775807 to 9223372036854775807, with sizes of `u64`. The least value of the
/// type, -9223372036854775808, is outside the range.
///
/// Proved, with these words of the trait:
///
/// ```text
/// value = { λ x. x }
/// at = { λ z. z }
/// whole = { (negsuc (2 ^ 63 - 2), pos (2 ^ 63 - 1)) }
/// ```
impl Width for i64 {
    type Output = u64;

    /// See [`Width::min_value`].
    ///
    /// # Proved
    ///
    /// The result is -(2^63 - 1).
    ///
    /// ```text
    /// ensures { result ≡ negsuc (2 ^ 63 - 2) }
    /// ```
    fn min_value() -> i64 {
        i64::MIN + 1
    }

    /// See [`Width::max_value`].
    ///
    /// # Proved
    ///
    /// The result is 2^63 - 1.
    ///
    /// ```text
    /// ensures { result ≡ pos (2 ^ 63 - 1) }
    /// ```
    fn max_value() -> i64 {
        i64::MAX
    }

    fn number(self) -> i128 {
        self as i128
    }

    fn from_number(number: i128) -> Option<i64> {
        match i64::try_from(number) {
            Ok(value) if value != i64::MIN => Some(value),
            _ => None,
        }
    }

    #[cfg_attr(debug_assertions, track_caller)]
    fn width(lower: &i64, upper: &i64) -> u64 {
        debug_assert!({ #[allow(unused_imports)] use crate::proved::ivl_interval::ops::*; <Self as Width>::min_value() <= *lower && lower <= upper && *upper <= <Self as Width>::max_value() }, "{}", "the condition of `width` is broken: <Self as Width>::min_value() <= *lower && lower <= upper && *upper <= <Self as Width>::max_value()");
        upper.abs_diff(*lower) + 1
    }

    fn zero() -> i64 {
        0
    }

    fn one() -> i64 {
        1
    }

    fn checked_add(self, other: i64) -> Option<i64> {
        match i64::checked_add(self, other) {
            Some(sum) if sum != i64::MIN => Some(sum),
            _ => None,
        }
    }

    fn checked_sub(self, other: i64) -> Option<i64> {
        match i64::checked_sub(self, other) {
            Some(difference) if difference != i64::MIN => Some(difference),
            _ => None,
        }
    }

    fn checked_mul(self, other: i64) -> Option<i64> {
        let product = self as i128 * other as i128;
        if (i64::MIN as i128) < product && product <= i64::MAX as i128 {
            Some(product as i64)
        } else {
            None
        }
    }

    #[cfg_attr(debug_assertions, track_caller)]
    fn add_in_range(self, other: i64) -> i64 {
        debug_assert!({ #[allow(unused_imports)] use crate::proved::ivl_interval::ops::*; Width::checked_add(self, other).is_some() }, "{}", "the condition of `add_in_range` is broken: Width::checked_add(self, other).is_some()");
        self + other
    }

    #[cfg_attr(debug_assertions, track_caller)]
    fn sub_in_range(self, other: i64) -> i64 {
        debug_assert!({ #[allow(unused_imports)] use crate::proved::ivl_interval::ops::*; Width::checked_sub(self, other).is_some() }, "{}", "the condition of `sub_in_range` is broken: Width::checked_sub(self, other).is_some()");
        self - other
    }

    #[cfg_attr(debug_assertions, track_caller)]
    fn mul_in_range(self, other: i64) -> i64 {
        debug_assert!({ #[allow(unused_imports)] use crate::proved::ivl_interval::ops::*; Width::checked_mul(self, other).is_some() }, "{}", "the condition of `mul_in_range` is broken: Width::checked_mul(self, other).is_some()");
        self * other
    }
}

/// From -9223372036854775807 to 9223372036854775807, with sizes of `usize`. The least value of the
/// type, -9223372036854775808, is outside the range.
///
/// Proved, with these words of the trait:
///
/// ```text
/// value = { λ x. x }
/// at = { λ z. z }
/// whole = { (negsuc (2 ^ 63 - 2), pos (2 ^ 63 - 1)) }
/// ```
impl Width for isize {
    type Output = usize;

    /// See [`Width::min_value`].
    ///
    /// # Proved
    ///
    /// The result is -(2^63 - 1).
    ///
    /// ```text
    /// ensures { result ≡ negsuc (2 ^ 63 - 2) }
    /// ```
    fn min_value() -> isize {
        isize::MIN + 1
    }

    /// See [`Width::max_value`].
    ///
    /// # Proved
    ///
    /// The result is 2^63 - 1.
    ///
    /// ```text
    /// ensures { result ≡ pos (2 ^ 63 - 1) }
    /// ```
    fn max_value() -> isize {
        isize::MAX
    }

    fn number(self) -> i128 {
        self as i128
    }

    fn from_number(number: i128) -> Option<isize> {
        match isize::try_from(number) {
            Ok(value) if value != isize::MIN => Some(value),
            _ => None,
        }
    }

    #[cfg_attr(debug_assertions, track_caller)]
    fn width(lower: &isize, upper: &isize) -> usize {
        debug_assert!({ #[allow(unused_imports)] use crate::proved::ivl_interval::ops::*; <Self as Width>::min_value() <= *lower && lower <= upper && *upper <= <Self as Width>::max_value() }, "{}", "the condition of `width` is broken: <Self as Width>::min_value() <= *lower && lower <= upper && *upper <= <Self as Width>::max_value()");
        upper.abs_diff(*lower) + 1
    }

    fn zero() -> isize {
        0
    }

    fn one() -> isize {
        1
    }

    fn checked_add(self, other: isize) -> Option<isize> {
        match isize::checked_add(self, other) {
            Some(sum) if sum != isize::MIN => Some(sum),
            _ => None,
        }
    }

    fn checked_sub(self, other: isize) -> Option<isize> {
        match isize::checked_sub(self, other) {
            Some(difference) if difference != isize::MIN => Some(difference),
            _ => None,
        }
    }

    fn checked_mul(self, other: isize) -> Option<isize> {
        let product = self as i128 * other as i128;
        if (isize::MIN as i128) < product && product <= isize::MAX as i128 {
            Some(product as isize)
        } else {
            None
        }
    }

    #[cfg_attr(debug_assertions, track_caller)]
    fn add_in_range(self, other: isize) -> isize {
        debug_assert!({ #[allow(unused_imports)] use crate::proved::ivl_interval::ops::*; Width::checked_add(self, other).is_some() }, "{}", "the condition of `add_in_range` is broken: Width::checked_add(self, other).is_some()");
        self + other
    }

    #[cfg_attr(debug_assertions, track_caller)]
    fn sub_in_range(self, other: isize) -> isize {
        debug_assert!({ #[allow(unused_imports)] use crate::proved::ivl_interval::ops::*; Width::checked_sub(self, other).is_some() }, "{}", "the condition of `sub_in_range` is broken: Width::checked_sub(self, other).is_some()");
        self - other
    }

    #[cfg_attr(debug_assertions, track_caller)]
    fn mul_in_range(self, other: isize) -> isize {
        debug_assert!({ #[allow(unused_imports)] use crate::proved::ivl_interval::ops::*; Width::checked_mul(self, other).is_some() }, "{}", "the condition of `mul_in_range` is broken: Width::checked_mul(self, other).is_some()");
        self * other
    }
}
