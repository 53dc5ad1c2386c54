// Written by bindings/rust/extract from crates/intervallum/src/interval_set/value_overlap.rt.
//! Overlap of a value, on the left, with a set.

#[allow(unused_imports)]
use crate::rattle::prelude::*;
use super::IntervalSet;
use crate::proved::intervallum::ops::{Contains, Overlap};

/// Proved, with these words of the trait:
///
/// ```text
/// members = { λ x. Only (pos x) }
/// other_members = { Covers }
/// ```
///
/// Words: [`Only`](crate::definitions#Only), [`Covers`](crate::definitions#Covers).
impl Overlap<IntervalSet<u8>> for u8 {
    /// Returns true exactly when the value is a member of `other`. `O(log n)`. Does not allocate.
    ///
    /// ```
    /// use intervallum::proved::examples::*;
    ///
    /// fn main() -> Result<(), std::boxed::Box<dyn std::error::Error>> {
    ///     let alloc = Global;
    ///     let a = IntervalSet::new(alloc, 1u8, 2)?;
    ///     assert!(2.overlap(&a) && !3.overlap(&a));
    ///     Ok(())
    /// }
    /// ```
    ///
    /// # Proved
    ///
    /// What [`Overlap::overlap`] says, by the words of the type.
    fn overlap(&self, other: &IntervalSet<u8>) -> bool {
        other.contains(self)
    }
}

/// Proved, with these words of the trait:
///
/// ```text
/// members = { λ x. Only (pos x) }
/// other_members = { Covers }
/// ```
///
/// Words: [`Only`](crate::definitions#Only), [`Covers`](crate::definitions#Covers).
impl Overlap<IntervalSet<u16>> for u16 {
    /// Returns true exactly when the value is a member of `other`. `O(log n)`. Does not allocate.
    ///
    /// # Proved
    ///
    /// What [`Overlap::overlap`] says, by the words of the type.
    fn overlap(&self, other: &IntervalSet<u16>) -> bool {
        other.contains(self)
    }
}

/// Proved, with these words of the trait:
///
/// ```text
/// members = { λ x. Only (pos x) }
/// other_members = { Covers }
/// ```
///
/// Words: [`Only`](crate::definitions#Only), [`Covers`](crate::definitions#Covers).
impl Overlap<IntervalSet<u32>> for u32 {
    /// Returns true exactly when the value is a member of `other`. `O(log n)`. Does not allocate.
    ///
    /// # Proved
    ///
    /// What [`Overlap::overlap`] says, by the words of the type.
    fn overlap(&self, other: &IntervalSet<u32>) -> bool {
        other.contains(self)
    }
}

/// Proved, with these words of the trait:
///
/// ```text
/// members = { λ x. Only (pos x) }
/// other_members = { Covers }
/// ```
///
/// Words: [`Only`](crate::definitions#Only), [`Covers`](crate::definitions#Covers).
impl Overlap<IntervalSet<u64>> for u64 {
    /// Returns true exactly when the value is a member of `other`. `O(log n)`. Does not allocate.
    ///
    /// # Proved
    ///
    /// What [`Overlap::overlap`] says, by the words of the type.
    fn overlap(&self, other: &IntervalSet<u64>) -> bool {
        other.contains(self)
    }
}

/// Proved, with these words of the trait:
///
/// ```text
/// members = { λ x. Only (pos x) }
/// other_members = { Covers }
/// ```
///
/// Words: [`Only`](crate::definitions#Only), [`Covers`](crate::definitions#Covers).
impl Overlap<IntervalSet<usize>> for usize {
    /// Returns true exactly when the value is a member of `other`. `O(log n)`. Does not allocate.
    ///
    /// # Proved
    ///
    /// What [`Overlap::overlap`] says, by the words of the type.
    fn overlap(&self, other: &IntervalSet<usize>) -> bool {
        other.contains(self)
    }
}

/// Proved, with these words of the trait:
///
/// ```text
/// members = { Only }
/// other_members = { Covers }
/// ```
///
/// Words: [`Only`](crate::definitions#Only), [`Covers`](crate::definitions#Covers).
impl Overlap<IntervalSet<i8>> for i8 {
    /// Returns true exactly when the value is a member of `other`. `O(log n)`. Does not allocate.
    ///
    /// # Proved
    ///
    /// What [`Overlap::overlap`] says, by the words of the type.
    fn overlap(&self, other: &IntervalSet<i8>) -> bool {
        other.contains(self)
    }
}

/// Proved, with these words of the trait:
///
/// ```text
/// members = { Only }
/// other_members = { Covers }
/// ```
///
/// Words: [`Only`](crate::definitions#Only), [`Covers`](crate::definitions#Covers).
impl Overlap<IntervalSet<i16>> for i16 {
    /// Returns true exactly when the value is a member of `other`. `O(log n)`. Does not allocate.
    ///
    /// # Proved
    ///
    /// What [`Overlap::overlap`] says, by the words of the type.
    fn overlap(&self, other: &IntervalSet<i16>) -> bool {
        other.contains(self)
    }
}

/// Proved, with these words of the trait:
///
/// ```text
/// members = { Only }
/// other_members = { Covers }
/// ```
///
/// Words: [`Only`](crate::definitions#Only), [`Covers`](crate::definitions#Covers).
impl Overlap<IntervalSet<i32>> for i32 {
    /// Returns true exactly when the value is a member of `other`. `O(log n)`. Does not allocate.
    ///
    /// # Proved
    ///
    /// What [`Overlap::overlap`] says, by the words of the type.
    fn overlap(&self, other: &IntervalSet<i32>) -> bool {
        other.contains(self)
    }
}

/// Proved, with these words of the trait:
///
/// ```text
/// members = { Only }
/// other_members = { Covers }
/// ```
///
/// Words: [`Only`](crate::definitions#Only), [`Covers`](crate::definitions#Covers).
impl Overlap<IntervalSet<i64>> for i64 {
    /// Returns true exactly when the value is a member of `other`. `O(log n)`. Does not allocate.
    ///
    /// # Proved
    ///
    /// What [`Overlap::overlap`] says, by the words of the type.
    fn overlap(&self, other: &IntervalSet<i64>) -> bool {
        other.contains(self)
    }
}

/// Proved, with these words of the trait:
///
/// ```text
/// members = { Only }
/// other_members = { Covers }
/// ```
///
/// Words: [`Only`](crate::definitions#Only), [`Covers`](crate::definitions#Covers).
impl Overlap<IntervalSet<isize>> for isize {
    /// Returns true exactly when the value is a member of `other`. `O(log n)`. Does not allocate.
    ///
    /// # Proved
    ///
    /// What [`Overlap::overlap`] says, by the words of the type.
    fn overlap(&self, other: &IntervalSet<isize>) -> bool {
        other.contains(self)
    }
}
