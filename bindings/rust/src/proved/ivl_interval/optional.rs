// Written by bindings/rust/extract from crates/ivl_interval/src/optional.rt.
//! A value, or none, as a set of at most one member.

#[allow(unused_imports)]
use crate::rattle::prelude::*;

/// A value, or none. A contract sees an option.
///
/// It stands for a set of at most one member, and is `Copy` if its value is. No call allocates.
///
/// ```
/// use intervallum::proved::examples::*;
///
/// fn main() -> Result<(), std::boxed::Box<dyn std::error::Error>> {
///     let alloc = Global;
///     let (none, some) = (Optional::empty(), Optional::singleton(5i32));
///     assert!(none != some);
///     Ok(())
/// }
/// ```
#[derive(Clone, Copy, PartialEq, Eq, Debug)]
pub struct Optional<T> {
    value: Option<T>,
}

impl<T> Optional<T> {
    /// Returns an option with no value.
    ///
    /// ```
    /// use intervallum::proved::examples::*;
    ///
    /// fn main() -> Result<(), std::boxed::Box<dyn std::error::Error>> {
    ///     let alloc = Global;
    ///     assert!(Optional::<i32>::empty().is_empty());
    ///     Ok(())
    /// }
    /// ```
    ///
    /// # Proved
    ///
    /// The result holds no value.
    ///
    /// ```text
    /// ensures { result ≡ None }
    /// ```
    pub fn empty() -> Self {
        Optional { value: None }
    }

    /// Returns an option with the value `x`.
    ///
    /// ```
    /// use intervallum::proved::examples::*;
    ///
    /// fn main() -> Result<(), std::boxed::Box<dyn std::error::Error>> {
    ///     let alloc = Global;
    ///     assert_eq!(Optional::singleton(5i32).as_ref(), Some(&5));
    ///     Ok(())
    /// }
    /// ```
    ///
    /// # Proved
    ///
    /// The result holds `x`.
    ///
    /// ```text
    /// ensures { result ≡ Some x }
    /// ```
    pub fn singleton(x: T) -> Self {
        Optional { value: Some(x) }
    }

    /// Returns true exactly when there is no value.
    ///
    /// ```
    /// use intervallum::proved::examples::*;
    ///
    /// fn main() -> Result<(), std::boxed::Box<dyn std::error::Error>> {
    ///     let alloc = Global;
    ///     assert!(!Optional::singleton(5i32).is_empty());
    ///     Ok(())
    /// }
    /// ```
    ///
    /// # Proved
    ///
    /// True exactly when there is no value.
    ///
    /// ```text
    /// ensures { IsTrue result ↔ (self.now ≡ None) }
    /// ```
    pub fn is_empty(&self) -> bool {
        self.value.is_none()
    }

    /// Returns true exactly when there is a value.
    ///
    /// ```
    /// use intervallum::proved::examples::*;
    ///
    /// fn main() -> Result<(), std::boxed::Box<dyn std::error::Error>> {
    ///     let alloc = Global;
    ///     assert!(Optional::singleton(5i32).is_some());
    ///     Ok(())
    /// }
    /// ```
    ///
    /// # Proved
    ///
    /// True exactly when there is a value.
    ///
    /// ```text
    /// ensures { IsTrue result ↔ IsSome self.now }
    /// ```
    pub fn is_some(&self) -> bool {
        self.value.is_some()
    }

    /// Returns a reference to the value, or `None` if there is none.
    ///
    /// ```
    /// use intervallum::proved::examples::*;
    ///
    /// fn main() -> Result<(), std::boxed::Box<dyn std::error::Error>> {
    ///     let alloc = Global;
    ///     assert_eq!(Optional::<i32>::empty().as_ref(), None);
    ///     Ok(())
    /// }
    /// ```
    ///
    /// # Proved
    ///
    /// The result is the value, if there is one.
    ///
    /// ```text
    /// ensures { option_copied result ≡ self.now }
    /// ```
    pub fn as_ref(&self) -> Option<&T> {
        self.value.as_ref()
    }
}
