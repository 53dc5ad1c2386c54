// Written by bindings/rust/extract from crates/ivl_interval/src/width/sizes.rt.
//! The unsigned integers as sizes.

#[allow(unused_imports)]
use crate::rattle::prelude::*;
use crate::proved::ivl_interval::width::SizeNumber;

/// The numbers from 0 to 255: each value of the type.
///
/// ```
/// use intervallum::proved::examples::*;
///
/// fn main() -> Result<(), std::boxed::Box<dyn std::error::Error>> {
///     let alloc = Global;
///     assert_eq!(<u8 as SizeNumber>::from_number(255), Some(255));
///     assert_eq!(<u8 as SizeNumber>::from_number(256), None);
///     Ok(())
/// }
/// ```
///
/// Proved, with these words of the trait:
///
/// ```text
/// size = { λ x. x }
/// greatest = { 2 ^ 8 - 1 }
/// ```
impl SizeNumber for u8 {
    fn number(self) -> u128 {
        self as u128
    }

    fn from_number(number: u128) -> Option<u8> {
        u8::try_from(number).ok()
    }

    fn zero() -> u8 {
        0
    }

    fn checked_add(self, other: u8) -> Option<u8> {
        u8::checked_add(self, other)
    }

    fn checked_sub(self, other: u8) -> Option<u8> {
        u8::checked_sub(self, other)
    }

    #[cfg_attr(debug_assertions, track_caller)]
    fn add_in_range(self, other: u8) -> u8 {
        debug_assert!({ #[allow(unused_imports)] use crate::proved::ivl_interval::ops::*; SizeNumber::checked_add(self, other).is_some() }, "{}", "the condition of `add_in_range` is broken: SizeNumber::checked_add(self, other).is_some()");
        self + other
    }
}

/// The numbers from 0 to 65535: each value of the type.
///
/// Proved, with these words of the trait:
///
/// ```text
/// size = { λ x. x }
/// greatest = { 2 ^ 16 - 1 }
/// ```
impl SizeNumber for u16 {
    fn number(self) -> u128 {
        self as u128
    }

    fn from_number(number: u128) -> Option<u16> {
        u16::try_from(number).ok()
    }

    fn zero() -> u16 {
        0
    }

    fn checked_add(self, other: u16) -> Option<u16> {
        u16::checked_add(self, other)
    }

    fn checked_sub(self, other: u16) -> Option<u16> {
        u16::checked_sub(self, other)
    }

    #[cfg_attr(debug_assertions, track_caller)]
    fn add_in_range(self, other: u16) -> u16 {
        debug_assert!({ #[allow(unused_imports)] use crate::proved::ivl_interval::ops::*; SizeNumber::checked_add(self, other).is_some() }, "{}", "the condition of `add_in_range` is broken: SizeNumber::checked_add(self, other).is_some()");
        self + other
    }
}

/// The numbers from 0 to 4294967295: each value of the type.
///
/// Proved, with these words of the trait:
///
/// ```text
/// size = { λ x. x }
/// greatest = { 2 ^ 32 - 1 }
/// ```
impl SizeNumber for u32 {
    fn number(self) -> u128 {
        self as u128
    }

    fn from_number(number: u128) -> Option<u32> {
        u32::try_from(number).ok()
    }

    fn zero() -> u32 {
        0
    }

    fn checked_add(self, other: u32) -> Option<u32> {
        u32::checked_add(self, other)
    }

    fn checked_sub(self, other: u32) -> Option<u32> {
        u32::checked_sub(self, other)
    }

    #[cfg_attr(debug_assertions, track_caller)]
    fn add_in_range(self, other: u32) -> u32 {
        debug_assert!({ #[allow(unused_imports)] use crate::proved::ivl_interval::ops::*; SizeNumber::checked_add(self, other).is_some() }, "{}", "the condition of `add_in_range` is broken: SizeNumber::checked_add(self, other).is_some()");
        self + other
    }
}

/// The numbers from 0 to 18446744073709551615: each value of the type.
///
/// Proved, with these words of the trait:
///
/// ```text
/// size = { λ x. x }
/// greatest = { 2 ^ 64 - 1 }
/// ```
impl SizeNumber for u64 {
    fn number(self) -> u128 {
        self as u128
    }

    fn from_number(number: u128) -> Option<u64> {
        u64::try_from(number).ok()
    }

    fn zero() -> u64 {
        0
    }

    fn checked_add(self, other: u64) -> Option<u64> {
        u64::checked_add(self, other)
    }

    fn checked_sub(self, other: u64) -> Option<u64> {
        u64::checked_sub(self, other)
    }

    #[cfg_attr(debug_assertions, track_caller)]
    fn add_in_range(self, other: u64) -> u64 {
        debug_assert!({ #[allow(unused_imports)] use crate::proved::ivl_interval::ops::*; SizeNumber::checked_add(self, other).is_some() }, "{}", "the condition of `add_in_range` is broken: SizeNumber::checked_add(self, other).is_some()");
        self + other
    }
}

/// The numbers from 0 to 18446744073709551615: each value of the type.
///
/// Proved, with these words of the trait:
///
/// ```text
/// size = { λ x. x }
/// greatest = { 2 ^ 64 - 1 }
/// ```
impl SizeNumber for usize {
    fn number(self) -> u128 {
        self as u128
    }

    fn from_number(number: u128) -> Option<usize> {
        usize::try_from(number).ok()
    }

    fn zero() -> usize {
        0
    }

    fn checked_add(self, other: usize) -> Option<usize> {
        usize::checked_add(self, other)
    }

    fn checked_sub(self, other: usize) -> Option<usize> {
        usize::checked_sub(self, other)
    }

    #[cfg_attr(debug_assertions, track_caller)]
    fn add_in_range(self, other: usize) -> usize {
        debug_assert!({ #[allow(unused_imports)] use crate::proved::ivl_interval::ops::*; SizeNumber::checked_add(self, other).is_some() }, "{}", "the condition of `add_in_range` is broken: SizeNumber::checked_add(self, other).is_some()");
        self + other
    }
}
