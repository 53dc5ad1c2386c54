// Written by bindings/rust/extract from crates/ivl_merges/src/pair.rt.
//! Pairs of bounds, in whatever form.

#[allow(unused_imports)]
use crate::rattle::prelude::*;
use crate::proved::ivl_interval::interval::Interval;
use crate::proved::ivl_interval::ops::Range;
use crate::proved::ivl_interval::width::Width;

/// A pair of bounds, which stands for the numbers from the lower to the upper one, bounds included; for none if the two cross.
///
/// Words and laws of the contracts:
///
/// ```text
/// pair: { Self → ℤ × ℤ }
/// ```
pub trait Pair: Copy {
    /// The type of the bounds.
    type Bound: Width;

    /// Returns the lower bound. `O(1)`.
    ///
    /// # Proved
    ///
    /// The result is the lower bound of the pair.
    ///
    /// ```text
    /// ensures { Self.Bound.value result ≡ (pair self).0 }
    /// ```
    fn lower(self) -> Self::Bound;

    /// Returns the upper bound. `O(1)`.
    ///
    /// # Proved
    ///
    /// The result is the upper bound of the pair.
    ///
    /// ```text
    /// ensures { Self.Bound.value result ≡ (pair self).1 }
    /// ```
    fn upper(self) -> Self::Bound;

    /// Returns the pair of two bounds, of which the lower is not below the range and the upper not
    /// above it. The two may cross. `O(1)`.
    ///
    /// # Proved
    ///
    /// The bounds of the pair are `lower` and `upper`.
    ///
    /// ```text
    /// requires { IsInRange Self.Bound.whole (Self.Bound.value lower, Self.Bound.value upper) }
    /// ensures { pair result ≡ (Self.Bound.value lower, Self.Bound.value upper) }
    /// ```
    ///
    /// Words: [`IsInRange`](crate::definitions#IsInRange).
    fn of(lower: Self::Bound, upper: Self::Bound) -> Self;
}

/// Proved, with these words of the trait:
///
/// ```text
/// pair = { λ p. p }
/// ```
impl<B: Width> Pair for Interval<B> {
    type Bound = B;

    fn lower(self) -> B {
        self.lower_bound()
    }

    fn upper(self) -> B {
        self.upper_bound()
    }

    fn of(lower: B, upper: B) -> Interval<B> {
        Interval::new(lower, upper)
    }
}
