// Written by bindings/rust/extract from crates/intervallum/src/steps/looks.rt.
//! The number of looks that a search has taken, which only contracts see.

#[allow(unused_imports)]
use crate::rattle::prelude::*;

/// A number of looks. Only contracts see it: the type has no bytes, and nothing is counted at run
/// time.
pub struct Looks {
}

impl Looks {
    /// Returns the count of no looks. `O(1)`. Does not allocate.
    ///
    /// # Proved
    ///
    /// No look is counted.
    ///
    /// ```text
    /// ensures { result.count ≡ 0 }
    /// ```
    pub fn none() -> Looks {
        Looks {}
    }

    /// Returns the count of one look more. `O(1)`. Does not allocate.
    ///
    /// # Proved
    ///
    /// One look more is counted.
    ///
    /// ```text
    /// ensures { result.count ≡ self.now.count + 1 }
    /// ```
    pub fn one_more(&self) -> Looks {
        Looks {}
    }
}
