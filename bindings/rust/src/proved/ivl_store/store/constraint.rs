// Written by bindings/rust/extract from crates/ivl_store/src/store/constraint.rt.
//! Constraints between three variables, and the errors of a store.

#[allow(unused_imports)]
use crate::rattle::prelude::*;
use crate::rattle::std::alloc::AllocError;

/// The constraint that variables `x` and `y` add to variable `z`.
///
/// A variable may be named two or three times. Only [`Store::post_all`](super::Store::post_all)
/// requires three different variables; check with [`distinct`](Constraint::distinct).
#[derive(Clone, Copy, Debug, PartialEq, Eq)]
pub struct Constraint {
    pub x: usize,
    pub y: usize,
    pub z: usize,
}

impl Constraint {
    /// Returns true exactly when `x`, `y` and `z` are three different variables. `O(1)`, does not
    /// allocate.
    ///
    /// ```
    /// use intervallum::proved::examples::*;
    ///
    /// fn main() -> Result<(), std::boxed::Box<dyn std::error::Error>> {
    ///     let alloc = Global;
    ///     assert!(Constraint { x: 0, y: 1, z: 2 }.distinct());
    ///     assert!(!Constraint { x: 0, y: 1, z: 0 }.distinct());
    ///     Ok(())
    /// }
    /// ```
    ///
    /// # Proved
    ///
    /// True exactly when `x`, `y` and `z` are three different variables.
    ///
    /// ```text
    /// ensures { IsTrue result ↔ AreDistinct self.now }
    /// ```
    ///
    /// Words: [`AreDistinct`](crate::definitions#AreDistinct).
    pub fn distinct(&self) -> bool {
        self.x != self.y && self.x != self.z && self.y != self.z
    }

    /// Whether `x` stands in a later place too.
    pub(super) fn has_x_later(&self) -> bool {
        self.x == self.y || self.x == self.z
    }

    /// Whether it names the variable.
    pub(super) fn names(&self, variable: usize) -> bool {
        variable == self.x || variable == self.y || variable == self.z
    }

    /// Returns the first of `x`, `y` and `z` that is not below `count`, or `None` if all are. `O(1)`,
    /// does not allocate.
    ///
    /// ```
    /// use intervallum::proved::examples::*;
    ///
    /// fn main() -> Result<(), std::boxed::Box<dyn std::error::Error>> {
    ///     let alloc = Global;
    ///     assert!(Constraint { x: 0, y: 5, z: 7 }.first_unknown(5) == Some(5));
    ///     assert!(Constraint { x: 0, y: 1, z: 2 }.first_unknown(3) == None);
    ///     Ok(())
    /// }
    /// ```
    ///
    /// # Proved
    ///
    /// The result is the first of `x`, `y` and `z`, in this order, that is not below `count`, or `None` if all are.
    ///
    /// ```text
    /// ensures { result ≡ first_unknown count self.now }
    /// ```
    ///
    /// Words: [`first_unknown`](crate::definitions#first_unknown).
    pub fn first_unknown(&self, count: usize) -> Option<usize> {
        if self.x >= count {
            Some(self.x)
        } else if self.y >= count {
            Some(self.y)
        } else if self.z >= count {
            Some(self.z)
        } else {
            None
        }
    }
}

/// Returns the first index of the constraints that is not below `count`, or `None` if all are.
pub(super) fn first_unknown_of(constraints: &[Constraint], count: usize) -> Option<usize> {
    for constraint in constraints {
        if let Some(i) = constraint.first_unknown(count) {
            return Some(i);
        }
    }
    None
}

/// Why a call of a store failed.
#[derive(Clone, Copy, Debug, PartialEq, Eq)]
pub enum StoreFault {
    /// The store has no variable with this index. It is the first such index, constraint by
    /// constraint or post by post, and within a constraint in the order `x`, `y`, `z`. The store is
    /// unchanged.

    Variable(usize),
    /// An allocation failed. Each call says what the store is then.

    Memory,
}

impl core::fmt::Display for StoreFault {
    fn fmt(&self, f: &mut core::fmt::Formatter<'_>) -> core::fmt::Result {
        match self {
            Self::Variable(x0) => write!(f, "no variable {0}", x0),
            Self::Memory => write!(f, "memory"),
        }
    }
}

impl core::error::Error for StoreFault {}

/// Proved, with these words of the trait:
///
/// ```text
/// from_gives = { λ _ e. e ≡ Memory }
/// ```
impl From<AllocError> for StoreFault {
    fn from(_: AllocError) -> StoreFault {
        StoreFault::Memory
    }
}
