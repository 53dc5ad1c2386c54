// Written by bindings/rust/extract from crates/ivl_interval/src/width.rt.
//! The types of bounds and of sizes, and the numbers of their values.

#[allow(unused_imports)]
use crate::rattle::prelude::*;

pub mod addresses;
pub mod characters;
pub mod full;
mod signed;
mod sizes;
mod unsigned;

/// The type of the number of members of an interval or a set.
///
/// Its numbers are those from 0 to a greatest one. `u8`, `u16`, `u32`, `u64` and `usize` have it,
/// and there every value of the type is a number.
///
/// No call allocates.
///
/// ```
/// use intervallum::proved::examples::*;
///
/// fn main() -> Result<(), std::boxed::Box<dyn std::error::Error>> {
///     let alloc = Global;
///     assert_eq!(<u8 as SizeNumber>::from_number(255), Some(255));
///     assert_eq!(<u8 as SizeNumber>::from_number(256), None);
///     Ok(())
/// }
/// ```
///
/// Words and laws of the contracts:
///
/// ```text
/// size: { Self → ℕ }
/// greatest: { ℕ }
/// ordered: { OrdersByCount size Self.eq Self.partial_cmp Self.cmp }
/// bounded: { greatest < 2 ^ 128 }
/// ```
///
/// Words: [`OrdersByCount`](crate::definitions#OrdersByCount).
pub trait SizeNumber: Ord + Copy {
    /// Returns the number of a value.
    ///
    /// ```
    /// use intervallum::proved::examples::*;
    ///
    /// fn main() -> Result<(), std::boxed::Box<dyn std::error::Error>> {
    ///     let alloc = Global;
    ///     assert_eq!(<u8 as SizeNumber>::number(255), 255);
    ///     Ok(())
    /// }
    /// ```
    ///
    /// # Proved
    ///
    /// The result is the number of the size, which is at most the greatest of the type.
    ///
    /// ```text
    /// ensures number { result ≡ size self }
    /// ensures at_most { size self ≤ greatest }
    /// ```
    fn number(self) -> u128;

    /// Returns the value of a number, or `None` if the number is above the greatest one.
    ///
    /// ```
    /// use intervallum::proved::examples::*;
    ///
    /// fn main() -> Result<(), std::boxed::Box<dyn std::error::Error>> {
    ///     let alloc = Global;
    ///     assert_eq!(<u8 as SizeNumber>::from_number(256), None);
    ///     Ok(())
    /// }
    /// ```
    ///
    /// # Proved
    ///
    /// The result is the size with this number, or `None` exactly when the number is above the greatest of the type.
    ///
    /// ```text
    /// ensures known { IsSome result ↔ (number ≤ greatest) }
    /// ensures same_number { IfSome result (λ x. size x ≡ number) }
    /// ```
    fn from_number(number: u128) -> Option<Self>;

    /// Returns the value of 0.
    ///
    /// ```
    /// use intervallum::proved::examples::*;
    ///
    /// fn main() -> Result<(), std::boxed::Box<dyn std::error::Error>> {
    ///     let alloc = Global;
    ///     assert_eq!(<u8 as SizeNumber>::zero(), 0);
    ///     Ok(())
    /// }
    /// ```
    ///
    /// # Proved
    ///
    /// The result is the size with the number 0.
    ///
    /// ```text
    /// ensures { size result ≡ 0 }
    /// ```
    fn zero() -> Self {
        Self::from_number(0).unwrap()
    }

    /// Returns the sum, or `None` if it is not a number of the type.
    ///
    /// ```
    /// use intervallum::proved::examples::*;
    ///
    /// fn main() -> Result<(), std::boxed::Box<dyn std::error::Error>> {
    ///     let alloc = Global;
    ///     assert_eq!(<u8 as SizeNumber>::checked_add(200, 55), Some(255));
    ///     assert_eq!(<u8 as SizeNumber>::checked_add(200, 56), None);
    ///     Ok(())
    /// }
    /// ```
    ///
    /// # Proved
    ///
    /// The result is the sum, or `None` exactly when the sum is above the greatest number of the type.
    ///
    /// ```text
    /// ensures known { IsSome result ↔ (size self + size other ≤ greatest) }
    /// ensures same_number { IfSome result (λ x. size x ≡ size self + size other) }
    /// ```
    fn checked_add(self, other: Self) -> Option<Self> {
        Self::from_number(self.number().checked_add(other.number())?)
    }

    /// Returns the difference, or `None` if it is negative.
    ///
    /// ```
    /// use intervallum::proved::examples::*;
    ///
    /// fn main() -> Result<(), std::boxed::Box<dyn std::error::Error>> {
    ///     let alloc = Global;
    ///     assert_eq!(<u8 as SizeNumber>::checked_sub(3, 4), None);
    ///     Ok(())
    /// }
    /// ```
    ///
    /// # Proved
    ///
    /// The result is the difference, or `None` exactly when `other` is greater than `self`.
    ///
    /// ```text
    /// ensures known { IsSome result ↔ (size other ≤ size self) }
    /// ensures same_number { IfSome result (λ x. size x + size other ≡ size self) }
    /// ```
    fn checked_sub(self, other: Self) -> Option<Self> {
        Self::from_number(self.number().checked_sub(other.number())?)
    }

    /// Returns the sum. The caller must ensure that it is a number of the type. Check with
    /// `checked_add(other).is_some()`.
    ///
    /// ```
    /// use intervallum::proved::examples::*;
    ///
    /// fn main() -> Result<(), std::boxed::Box<dyn std::error::Error>> {
    ///     let alloc = Global;
    ///     assert!(<u8 as SizeNumber>::checked_add(200, 55).is_some());
    ///     assert_eq!(<u8 as SizeNumber>::add_in_range(200, 55), 255);
    ///     Ok(())
    /// }
    /// ```
    ///
    /// # Proved
    ///
    /// The result is the sum.
    ///
    /// ```text
    /// requires { size self + size other ≤ greatest }
    /// ensures { size result ≡ size self + size other }
    /// ```
    #[cfg_attr(debug_assertions, track_caller)]
    fn add_in_range(self, other: Self) -> Self {
        debug_assert!({ #[allow(unused_imports)] use crate::proved::ivl_interval::ops::*; self.checked_add(other).is_some() }, "{}", "the condition of `add_in_range` is broken: self.checked_add(other).is_some()");
        self.checked_add(other).unwrap()
    }
}

/// The type of the bounds of an interval.
///
/// Each value has a number, and no two values have the same number. The numbers of intervals are
/// those of the range, from `min_value()` to `max_value()`; a value outside the range, such as
/// `255u8` or `-128i8`, is a member of no interval but may be tested. The range holds 0 and 1 and
/// lies within the 64-bit numbers, and its size is a number of `Output`.
///
/// | Type | from | to | `Output` |
/// |---|---|---|---|
/// | `u8`, `u16`, `u32`, `u64`, `usize` | 0 | the greatest value less 1 | the type itself |
/// | `i8`, `i16`, `i32`, `i64`, `isize` | the least value plus 1 | the greatest value | the unsigned type of its width |
/// | [`Full<u8>`](crate::proved::ivl_interval::width::full::Full), `Full<u16>`, `Full<u32>` | 0 | the greatest value | `u16`, `u32`, `u64` |
///
/// ```
/// use intervallum::proved::examples::*;
///
/// fn main() -> Result<(), std::boxed::Box<dyn std::error::Error>> {
///     let alloc = Global;
///     assert_eq!(<u8 as Width>::max_value(), 254);
///     assert_eq!(<i8 as Width>::min_value(), -127);
///     Ok(())
/// }
/// ```
///
/// Words and laws of the contracts:
///
/// ```text
/// value: { Self → ℤ }
/// at: { ℤ → Self }
/// whole: { ℤ × ℤ }
/// ordered: { OrdersByNumber value Self.eq Self.partial_cmp Self.cmp }
/// at_value: { (x : Self) → at (value x) ≡ x }
/// range: { IsBoundRange whole }
/// countable: { width_of whole ≤ Self.Output.greatest }
/// ```
///
/// Words: [`OrdersByNumber`](crate::definitions#OrdersByNumber), [`IsBoundRange`](crate::definitions#IsBoundRange), [`width_of`](crate::definitions#width_of).
pub trait Width: Ord + Copy {
    /// The type of sizes.
    type Output: SizeNumber;

    /// Returns the least value of the range.
    ///
    /// ```
    /// use intervallum::proved::examples::*;
    ///
    /// fn main() -> Result<(), std::boxed::Box<dyn std::error::Error>> {
    ///     let alloc = Global;
    ///     assert_eq!(<i8 as Width>::min_value(), -127);
    ///     Ok(())
    /// }
    /// ```
    ///
    /// # Proved
    ///
    /// The result is the least value of the range.
    ///
    /// ```text
    /// ensures { value result ≡ whole.0 }
    /// ```
    fn min_value() -> Self;

    /// Returns the greatest value of the range.
    ///
    /// ```
    /// use intervallum::proved::examples::*;
    ///
    /// fn main() -> Result<(), std::boxed::Box<dyn std::error::Error>> {
    ///     let alloc = Global;
    ///     assert_eq!(<u8 as Width>::max_value(), 254);
    ///     Ok(())
    /// }
    /// ```
    ///
    /// # Proved
    ///
    /// The result is the greatest value of the range.
    ///
    /// ```text
    /// ensures { value result ≡ whole.1 }
    /// ```
    fn max_value() -> Self;

    /// Returns the number of a value.
    ///
    /// ```
    /// use intervallum::proved::examples::*;
    ///
    /// fn main() -> Result<(), std::boxed::Box<dyn std::error::Error>> {
    ///     let alloc = Global;
    ///     assert_eq!(<i8 as Width>::number(-128), -128);
    ///     Ok(())
    /// }
    /// ```
    ///
    /// # Proved
    ///
    /// The result is the number of the value.
    ///
    /// ```text
    /// ensures { result ≡ value self }
    /// ```
    fn number(self) -> i128;

    /// Returns the value of a number, or `None` if the number is not in the range.
    ///
    /// ```
    /// use intervallum::proved::examples::*;
    ///
    /// fn main() -> Result<(), std::boxed::Box<dyn std::error::Error>> {
    ///     let alloc = Global;
    ///     assert_eq!(<u8 as Width>::from_number(254), Some(254));
    ///     assert_eq!(<u8 as Width>::from_number(255), None);
    ///     Ok(())
    /// }
    /// ```
    ///
    /// # Proved
    ///
    /// The result is the value with this number, or `None` exactly when the number is not in the range.
    ///
    /// ```text
    /// ensures known { IsSome result ↔ IsBetween whole number }
    /// ensures same_number { IfSome result (λ x. value x ≡ number) }
    /// ```
    ///
    /// Words: [`IsBetween`](crate::definitions#IsBetween).
    fn from_number(number: i128) -> Option<Self>;

    /// Returns how many numbers there are from `lower` to `upper`, both included. The caller must
    /// ensure that both are in the range, and `lower` is at most `upper`. Check with
    /// `Interval::in_range(*lower, *upper)` and `lower <= upper`.
    ///
    /// ```
    /// use intervallum::proved::examples::*;
    ///
    /// fn main() -> Result<(), std::boxed::Box<dyn std::error::Error>> {
    ///     let alloc = Global;
    ///     assert_eq!(<i8 as Width>::width(&-127, &127), 255u8);
    ///     Ok(())
    /// }
    /// ```
    ///
    /// # Proved
    ///
    /// The result is the number of values from `lower` to `upper`, both included.
    ///
    /// ```text
    /// requires in_range { IsInRange whole (value lower.now, value upper.now) }
    /// requires in_order { value lower.now ≤ℤ value upper.now }
    /// ensures { Self.Output.size result ≡ width_of (value lower.now, value upper.now) }
    /// ```
    ///
    /// Words: [`IsInRange`](crate::definitions#IsInRange), [`width_of`](crate::definitions#width_of).
    #[cfg_attr(debug_assertions, track_caller)]
    fn width(lower: &Self, upper: &Self) -> Self::Output {
        debug_assert!({ #[allow(unused_imports)] use crate::proved::ivl_interval::ops::*; Self::min_value() <= *lower && lower <= upper && *upper <= Self::max_value() }, "{}", "the condition of `width` is broken: Self::min_value() <= *lower && lower <= upper && *upper <= Self::max_value()");
        let last = (upper.number() - lower.number()) as u128;
        Self::Output::from_number(last + 1).unwrap()
    }

    /// Returns the value of 0.
    ///
    /// ```
    /// use intervallum::proved::examples::*;
    ///
    /// fn main() -> Result<(), std::boxed::Box<dyn std::error::Error>> {
    ///     let alloc = Global;
    ///     assert_eq!(<i8 as Width>::zero(), 0);
    ///     Ok(())
    /// }
    /// ```
    ///
    /// # Proved
    ///
    /// The result is the value with the number 0.
    ///
    /// ```text
    /// ensures { value result ≡ pos 0 }
    /// ```
    fn zero() -> Self {
        Self::from_number(0).unwrap()
    }

    /// Returns the value of 1.
    ///
    /// ```
    /// use intervallum::proved::examples::*;
    ///
    /// fn main() -> Result<(), std::boxed::Box<dyn std::error::Error>> {
    ///     let alloc = Global;
    ///     assert_eq!(<i8 as Width>::one(), 1);
    ///     Ok(())
    /// }
    /// ```
    ///
    /// # Proved
    ///
    /// The result is the value with the number 1.
    ///
    /// ```text
    /// ensures { value result ≡ pos 1 }
    /// ```
    fn one() -> Self {
        Self::from_number(1).unwrap()
    }

    /// Returns the sum, or `None` if it is not in the range.
    ///
    /// ```
    /// use intervallum::proved::examples::*;
    ///
    /// fn main() -> Result<(), std::boxed::Box<dyn std::error::Error>> {
    ///     let alloc = Global;
    ///     assert_eq!(<u8 as Width>::checked_add(200, 54), Some(254));
    ///     assert_eq!(<u8 as Width>::checked_add(200, 55), None);
    ///     Ok(())
    /// }
    /// ```
    ///
    /// # Proved
    ///
    /// The result is the sum, or `None` exactly when the sum is not in the range.
    ///
    /// ```text
    /// ensures known { IsSome result ↔ IsBetween whole (value self +ℤ value other) }
    /// ensures same_number { IfSome result (λ x. value x ≡ value self +ℤ value other) }
    /// ```
    ///
    /// Words: [`IsBetween`](crate::definitions#IsBetween).
    fn checked_add(self, other: Self) -> Option<Self> {
        Self::from_number(self.number().checked_add(other.number())?)
    }

    /// Returns the difference, or `None` if it is not in the range.
    ///
    /// ```
    /// use intervallum::proved::examples::*;
    ///
    /// fn main() -> Result<(), std::boxed::Box<dyn std::error::Error>> {
    ///     let alloc = Global;
    ///     assert_eq!(<u8 as Width>::checked_sub(3, 4), None);
    ///     Ok(())
    /// }
    /// ```
    ///
    /// # Proved
    ///
    /// The result is the difference, or `None` exactly when the difference is not in the range.
    ///
    /// ```text
    /// ensures known { IsSome result ↔ IsBetween whole (value self -ℤ value other) }
    /// ensures same_number { IfSome result (λ x. value x ≡ value self -ℤ value other) }
    /// ```
    ///
    /// Words: [`IsBetween`](crate::definitions#IsBetween).
    fn checked_sub(self, other: Self) -> Option<Self> {
        Self::from_number(self.number().checked_sub(other.number())?)
    }

    /// Returns the product, or `None` if it is not in the range. Two numbers of 64 bits can have a
    /// product beyond 128 bits, which is outside every range.
    ///
    /// ```
    /// use intervallum::proved::examples::*;
    ///
    /// fn main() -> Result<(), std::boxed::Box<dyn std::error::Error>> {
    ///     let alloc = Global;
    ///     assert_eq!(<i8 as Width>::checked_mul(-64, 2), None);
    ///     Ok(())
    /// }
    /// ```
    ///
    /// # Proved
    ///
    /// The result is the product, or `None` exactly when the product is not in the range.
    ///
    /// ```text
    /// ensures known { IsSome result ↔ IsBetween whole (value self *ℤ value other) }
    /// ensures same_number { IfSome result (λ x. value x ≡ value self *ℤ value other) }
    /// ```
    ///
    /// Words: [`IsBetween`](crate::definitions#IsBetween).
    fn checked_mul(self, other: Self) -> Option<Self> {
        Self::from_number(self.number().checked_mul(other.number())?)
    }

    /// Returns the sum. The caller must ensure that it is in the range. Check with
    /// `checked_add(other).is_some()`.
    ///
    /// ```
    /// use intervallum::proved::examples::*;
    ///
    /// fn main() -> Result<(), std::boxed::Box<dyn std::error::Error>> {
    ///     let alloc = Global;
    ///     assert!(<u8 as Width>::checked_add(200, 54).is_some());
    ///     assert_eq!(<u8 as Width>::add_in_range(200, 54), 254);
    ///     Ok(())
    /// }
    /// ```
    ///
    /// # Proved
    ///
    /// The result is the sum.
    ///
    /// ```text
    /// requires { IsBetween whole (value self +ℤ value other) }
    /// ensures { value result ≡ value self +ℤ value other }
    /// ```
    ///
    /// Words: [`IsBetween`](crate::definitions#IsBetween).
    #[cfg_attr(debug_assertions, track_caller)]
    fn add_in_range(self, other: Self) -> Self {
        debug_assert!({ #[allow(unused_imports)] use crate::proved::ivl_interval::ops::*; self.checked_add(other).is_some() }, "{}", "the condition of `add_in_range` is broken: self.checked_add(other).is_some()");
        self.checked_add(other).unwrap()
    }

    /// Returns the difference. The caller must ensure that it is in the range. Check with
    /// `checked_sub(other).is_some()`.
    ///
    /// ```
    /// use intervallum::proved::examples::*;
    ///
    /// fn main() -> Result<(), std::boxed::Box<dyn std::error::Error>> {
    ///     let alloc = Global;
    ///     assert!(<i8 as Width>::checked_sub(3, 4).is_some());
    ///     assert_eq!(<i8 as Width>::sub_in_range(3, 4), -1);
    ///     Ok(())
    /// }
    /// ```
    ///
    /// # Proved
    ///
    /// The result is the difference.
    ///
    /// ```text
    /// requires { IsBetween whole (value self -ℤ value other) }
    /// ensures { value result ≡ value self -ℤ value other }
    /// ```
    ///
    /// Words: [`IsBetween`](crate::definitions#IsBetween).
    #[cfg_attr(debug_assertions, track_caller)]
    fn sub_in_range(self, other: Self) -> Self {
        debug_assert!({ #[allow(unused_imports)] use crate::proved::ivl_interval::ops::*; self.checked_sub(other).is_some() }, "{}", "the condition of `sub_in_range` is broken: self.checked_sub(other).is_some()");
        self.checked_sub(other).unwrap()
    }

    /// Returns the product. The caller must ensure that it is in the range. Check with
    /// `checked_mul(other).is_some()`.
    ///
    /// ```
    /// use intervallum::proved::examples::*;
    ///
    /// fn main() -> Result<(), std::boxed::Box<dyn std::error::Error>> {
    ///     let alloc = Global;
    ///     assert!(<i8 as Width>::checked_mul(-64, 1).is_some());
    ///     assert_eq!(<i8 as Width>::mul_in_range(-64, 1), -64);
    ///     Ok(())
    /// }
    /// ```
    ///
    /// # Proved
    ///
    /// The result is the product.
    ///
    /// ```text
    /// requires { IsBetween whole (value self *ℤ value other) }
    /// ensures { value result ≡ value self *ℤ value other }
    /// ```
    ///
    /// Words: [`IsBetween`](crate::definitions#IsBetween).
    #[cfg_attr(debug_assertions, track_caller)]
    fn mul_in_range(self, other: Self) -> Self {
        debug_assert!({ #[allow(unused_imports)] use crate::proved::ivl_interval::ops::*; self.checked_mul(other).is_some() }, "{}", "the condition of `mul_in_range` is broken: self.checked_mul(other).is_some()");
        self.checked_mul(other).unwrap()
    }
}
