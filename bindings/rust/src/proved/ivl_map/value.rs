// Written by bindings/rust/extract from crates/ivl_map/src/value.rt.
//! The types of the values of a map.

#[allow(unused_imports)]
use crate::rattle::prelude::*;
use crate::proved::intervallum::interval_set::IntervalSet;
use crate::proved::intervallum::width::Width;
use crate::rattle::std::alloc::AllocError;

/// A type of values of a map: its values can be compared, copied and dropped.
///
/// A map copies a value where an edit splits an entry, by `update`, and where a call returns another
/// map. The integers of at most 64 bits, `bool`, `char`, `String` and `IntervalSet` have it, and
/// options and pairs of such types.
///
/// ```
/// use intervallum::proved::examples::*;
///
/// fn main() -> Result<(), std::boxed::Box<dyn std::error::Error>> {
///     let alloc = Global;
///     assert_eq!(7u32.try_copy()?, 7);
///     assert!((Some('a'), true).try_copy()? == (Some('a'), true));
///     Ok(())
/// }
/// ```
pub trait MapValue: Eq + Drop + Sized {
    /// Returns a copy, which is equal to the value. Fails only if allocation fails.
    ///
    /// ```
    /// use intervallum::proved::examples::*;
    ///
    /// fn main() -> Result<(), std::boxed::Box<dyn std::error::Error>> {
    ///     let alloc = Global;
    ///     assert_eq!('a'.try_copy()?, 'a');
    ///     Ok(())
    /// }
    /// ```
    ///
    /// # Proved
    ///
    /// A copy equals the value.
    ///
    /// ```text
    /// ensures { IfOk result (λ copy. Self.Eq.eq self.now copy ≡ true) }
    /// ```
    fn try_copy(&self) -> Result<Self, AllocError>;
}

impl MapValue for u8 {
    /// Returns the same value. `O(1)`. Never fails.
    ///
    /// # Proved
    ///
    /// It cannot fail, and the copy is the value.
    ///
    /// ```text
    /// ensures copy { IfOk result (λ copy. ⟦<u8 as PartialEq>⟧.eq self.now copy ≡ true) }
    /// ensures same { result ≡ Ok self.now }
    /// ```
    fn try_copy(&self) -> Result<u8, AllocError> {
        Ok(*self)
    }
}

impl MapValue for u16 {
    /// Returns the same value. `O(1)`. Never fails.
    ///
    /// # Proved
    ///
    /// It cannot fail, and the copy is the value.
    ///
    /// ```text
    /// ensures copy { IfOk result (λ copy. ⟦<u16 as PartialEq>⟧.eq self.now copy ≡ true) }
    /// ensures same { result ≡ Ok self.now }
    /// ```
    fn try_copy(&self) -> Result<u16, AllocError> {
        Ok(*self)
    }
}

impl MapValue for u32 {
    /// Returns the same value. `O(1)`. Never fails.
    ///
    /// # Proved
    ///
    /// It cannot fail, and the copy is the value.
    ///
    /// ```text
    /// ensures copy { IfOk result (λ copy. ⟦<u32 as PartialEq>⟧.eq self.now copy ≡ true) }
    /// ensures same { result ≡ Ok self.now }
    /// ```
    fn try_copy(&self) -> Result<u32, AllocError> {
        Ok(*self)
    }
}

impl MapValue for u64 {
    /// Returns the same value. `O(1)`. Never fails.
    ///
    /// # Proved
    ///
    /// It cannot fail, and the copy is the value.
    ///
    /// ```text
    /// ensures copy { IfOk result (λ copy. ⟦<u64 as PartialEq>⟧.eq self.now copy ≡ true) }
    /// ensures same { result ≡ Ok self.now }
    /// ```
    fn try_copy(&self) -> Result<u64, AllocError> {
        Ok(*self)
    }
}

impl MapValue for usize {
    /// Returns the same value. `O(1)`. Never fails.
    ///
    /// # Proved
    ///
    /// It cannot fail, and the copy is the value.
    ///
    /// ```text
    /// ensures copy { IfOk result (λ copy. ⟦<usize as PartialEq>⟧.eq self.now copy ≡ true) }
    /// ensures same { result ≡ Ok self.now }
    /// ```
    fn try_copy(&self) -> Result<usize, AllocError> {
        Ok(*self)
    }
}

impl MapValue for i8 {
    /// Returns the same value. `O(1)`. Never fails.
    ///
    /// # Proved
    ///
    /// It cannot fail, and the copy is the value.
    ///
    /// ```text
    /// ensures copy { IfOk result (λ copy. ⟦<i8 as PartialEq>⟧.eq self.now copy ≡ true) }
    /// ensures same { result ≡ Ok self.now }
    /// ```
    fn try_copy(&self) -> Result<i8, AllocError> {
        Ok(*self)
    }
}

impl MapValue for i16 {
    /// Returns the same value. `O(1)`. Never fails.
    ///
    /// # Proved
    ///
    /// It cannot fail, and the copy is the value.
    ///
    /// ```text
    /// ensures copy { IfOk result (λ copy. ⟦<i16 as PartialEq>⟧.eq self.now copy ≡ true) }
    /// ensures same { result ≡ Ok self.now }
    /// ```
    fn try_copy(&self) -> Result<i16, AllocError> {
        Ok(*self)
    }
}

impl MapValue for i32 {
    /// Returns the same value. `O(1)`. Never fails.
    ///
    /// # Proved
    ///
    /// It cannot fail, and the copy is the value.
    ///
    /// ```text
    /// ensures copy { IfOk result (λ copy. ⟦<i32 as PartialEq>⟧.eq self.now copy ≡ true) }
    /// ensures same { result ≡ Ok self.now }
    /// ```
    fn try_copy(&self) -> Result<i32, AllocError> {
        Ok(*self)
    }
}

impl MapValue for i64 {
    /// Returns the same value. `O(1)`. Never fails.
    ///
    /// # Proved
    ///
    /// It cannot fail, and the copy is the value.
    ///
    /// ```text
    /// ensures copy { IfOk result (λ copy. ⟦<i64 as PartialEq>⟧.eq self.now copy ≡ true) }
    /// ensures same { result ≡ Ok self.now }
    /// ```
    fn try_copy(&self) -> Result<i64, AllocError> {
        Ok(*self)
    }
}

impl MapValue for isize {
    /// Returns the same value. `O(1)`. Never fails.
    ///
    /// # Proved
    ///
    /// It cannot fail, and the copy is the value.
    ///
    /// ```text
    /// ensures copy { IfOk result (λ copy. ⟦<isize as PartialEq>⟧.eq self.now copy ≡ true) }
    /// ensures same { result ≡ Ok self.now }
    /// ```
    fn try_copy(&self) -> Result<isize, AllocError> {
        Ok(*self)
    }
}

impl MapValue for bool {
    /// Returns the same value. `O(1)`. Never fails.
    ///
    /// # Proved
    ///
    /// It cannot fail, and the copy is the value.
    ///
    /// ```text
    /// ensures copy { IfOk result (λ copy. ⟦<bool as PartialEq>⟧.eq self.now copy ≡ true) }
    /// ensures same { result ≡ Ok self.now }
    /// ```
    fn try_copy(&self) -> Result<bool, AllocError> {
        Ok(*self)
    }
}

impl MapValue for char {
    /// Returns the same value. `O(1)`. Never fails.
    ///
    /// # Proved
    ///
    /// It cannot fail, and the copy is the value.
    ///
    /// ```text
    /// ensures copy { IfOk result (λ copy. ⟦<char as PartialEq>⟧.eq self.now copy ≡ true) }
    /// ensures same { result ≡ Ok self.now }
    /// ```
    fn try_copy(&self) -> Result<char, AllocError> {
        Ok(*self)
    }
}

impl MapValue for String {
    /// Returns a text of the same bytes. `O(n)` for `n` bytes.
    ///
    /// # Proved
    ///
    /// What [`MapValue::try_copy`] says, by the words of the type.
    fn try_copy(&self) -> Result<String, AllocError> {
        Clone::clone(self)
    }
}

impl<B: Width> MapValue for IntervalSet<B> {
    /// Returns a set of the same members. `O(n)` for `n` runs.
    ///
    /// # Proved
    ///
    /// What [`MapValue::try_copy`] says, by the words of the type.
    fn try_copy(&self) -> Result<IntervalSet<B>, AllocError> {
        self.try_clone()
    }
}

impl<T: MapValue> MapValue for Option<T> {
    /// Returns `None`, or a copy of the value that there is. Costs that copy.
    ///
    /// # Proved
    ///
    /// A copy equals the value. It cannot fail where there is no value.
    ///
    /// ```text
    /// ensures copy { IfOk result (λ copy. ⟦<Option<T> as PartialEq>⟧.eq self.now copy ≡ true) }
    /// ensures none { self.now ≡ None → IsOk result }
    /// ```
    fn try_copy(&self) -> Result<Option<T>, AllocError> {
        match self {
            Some(value) => Ok(Some(value.try_copy()?)),
            None => Ok(None),
        }
    }
}

impl<S: MapValue, T: MapValue> MapValue for (S, T) {
    /// Returns a copy of each of the two. Costs these copies.
    ///
    /// # Proved
    ///
    /// What [`MapValue::try_copy`] says, by the words of the type.
    fn try_copy(&self) -> Result<(S, T), AllocError> {
        let first = self.0.try_copy()?;
        let second = self.1.try_copy()?;
        Ok((first, second))
    }
}
