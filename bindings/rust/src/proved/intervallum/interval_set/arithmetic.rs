// Written by bindings/rust/extract from crates/intervallum/src/interval_set/arithmetic.rt.
//! Sums, differences and products of sets, and of a set with a value.
//!
//! Each operand is owned or borrowed. The caller must ensure that the results of each call are in
//! the range: check with `fits_add`, `fits_sub` and `fits_mul`. With an empty operand this always
//! holds. Each call returns a new set; borrowed operands are unchanged, and owned ones are
//! consumed.
//!
//! The results of at most 256 pairs of runs are sorted together. Of more pairs, those of the first
//! runs are tried. Unless half of them join with others, all results are listed and sorted, and more
//! than `usize::MAX` count as a failed allocation. Else results are united by twos, and no list of
//! all is made: of operands of 64 runs or more those of the runs at the ends come first, and where
//! these leave no gap, as for dense sets, no others are made, in `O(n + m)`.
//!
//! Sums and differences are exact. A product has, for each pair of runs, all numbers from the least
//! to the greatest product of the two: `{[1..2]} * {[10..10]}` is `{[10..20]}`.

#[allow(unused_imports)]
use crate::rattle::prelude::*;
use super::IntervalSet;
use crate::proved::intervallum::sweep::{Op, combine, combine_with};
use crate::proved::intervallum::width::Width;
use crate::rattle::std::alloc::AllocError;
use crate::rattle::std::ops::{Add, Mul, Sub};

/// Proved, with these words of the trait:
///
/// On success, the members are exactly the sums of a member of each set.
///
/// ```text
/// can_add = { λ a b. IsSubset (Sums (Covers a) (Covers b)) (IsBetween B.whole) }
/// add_gives = { λ a b r. IfOk r (λ L. IsRunsOf L (Sums (Covers a) (Covers b))) }
/// ```
///
/// Words: [`IsSubset`](crate::definitions#IsSubset), [`Sums`](crate::definitions#Sums), [`Covers`](crate::definitions#Covers), [`IsBetween`](crate::definitions#IsBetween), [`IsRunsOf`](crate::definitions#IsRunsOf).
impl<B: Width> Add<IntervalSet<B>> for IntervalSet<B> {
    type Output = Result<IntervalSet<B>, AllocError>;

    /// Returns all sums of a member of `self` and a member of `rhs`. The caller must ensure that
    /// the sums are in the range. Check with `fits_add`.
    ///
    /// `O(n m log (n m))` for `n` and `m` runs. Needs memory for at most `2 n m` runs
    /// at a time. Fails only if allocation fails.
    ///
    /// ```
    /// use intervallum::proved::examples::*;
    ///
    /// fn main() -> Result<(), std::boxed::Box<dyn std::error::Error>> {
    ///     let alloc = Global;
    ///     let (a, b) = (IntervalSet::new(alloc, 1, 2)?, IntervalSet::new(alloc, 10, 20)?);
    ///     assert!(a.fits_add(&b), "the sums fit");
    ///     assert!((a + b)? == IntervalSet::new(alloc, 11, 22)?);
    ///     Ok(())
    /// }
    /// ```
    #[cfg_attr(debug_assertions, track_caller)]
    fn add(self, rhs: IntervalSet<B>) -> Result<IntervalSet<B>, AllocError> {
        debug_assert!({ #[allow(unused_imports)] use crate::proved::ivl_interval::ops::*; self.fits_add(&rhs) }, "{}", "the condition of `add` is broken: self.fits_add(&rhs)");
        combine(&self, &rhs, Op::Sum)
    }
}

/// Proved, with these words of the trait:
///
/// On success, the members are exactly the sums of a member of each set.
///
/// ```text
/// can_add = { λ a b. IsSubset (Sums (Covers a) (Covers b.now)) (IsBetween B.whole) }
/// add_gives = { λ a b r. IfOk r (λ L. IsRunsOf L (Sums (Covers a) (Covers b.now))) }
/// ```
///
/// Words: [`IsSubset`](crate::definitions#IsSubset), [`Sums`](crate::definitions#Sums), [`Covers`](crate::definitions#Covers), [`IsBetween`](crate::definitions#IsBetween), [`IsRunsOf`](crate::definitions#IsRunsOf).
impl<B: Width> Add<&IntervalSet<B>> for IntervalSet<B> {
    type Output = Result<IntervalSet<B>, AllocError>;

    /// Returns all sums of a member of `self` and a member of `rhs`. The caller must ensure that
    /// the sums are in the range. Check with `fits_add`.
    ///
    /// `O(n m log (n m))` for `n` and `m` runs. Needs memory for at most `2 n m` runs
    /// at a time. Fails only if allocation fails.
    #[cfg_attr(debug_assertions, track_caller)]
    fn add(self, rhs: &IntervalSet<B>) -> Result<IntervalSet<B>, AllocError> {
        debug_assert!({ #[allow(unused_imports)] use crate::proved::ivl_interval::ops::*; self.fits_add(rhs) }, "{}", "the condition of `add` is broken: self.fits_add(rhs)");
        combine(&self, rhs, Op::Sum)
    }
}

/// Proved, with these words of the trait:
///
/// On success, the members are exactly the sums of a member of each set.
///
/// ```text
/// can_add = { λ a b. IsSubset (Sums (Covers a.now) (Covers b)) (IsBetween B.whole) }
/// add_gives = { λ a b r. IfOk r (λ L. IsRunsOf L (Sums (Covers a.now) (Covers b))) }
/// ```
///
/// Words: [`IsSubset`](crate::definitions#IsSubset), [`Sums`](crate::definitions#Sums), [`Covers`](crate::definitions#Covers), [`IsBetween`](crate::definitions#IsBetween), [`IsRunsOf`](crate::definitions#IsRunsOf).
impl<B: Width> Add<IntervalSet<B>> for &IntervalSet<B> {
    type Output = Result<IntervalSet<B>, AllocError>;

    /// Returns all sums of a member of `self` and a member of `rhs`. The caller must ensure that
    /// the sums are in the range. Check with `fits_add`.
    ///
    /// `O(n m log (n m))` for `n` and `m` runs. Needs memory for at most `2 n m` runs
    /// at a time. Fails only if allocation fails.
    #[cfg_attr(debug_assertions, track_caller)]
    fn add(self, rhs: IntervalSet<B>) -> Result<IntervalSet<B>, AllocError> {
        debug_assert!({ #[allow(unused_imports)] use crate::proved::ivl_interval::ops::*; self.fits_add(&rhs) }, "{}", "the condition of `add` is broken: self.fits_add(&rhs)");
        combine(self, &rhs, Op::Sum)
    }
}

/// Proved, with these words of the trait:
///
/// On success, the members are exactly the sums of a member of each set.
///
/// ```text
/// can_add = { λ a b. IsSubset (Sums (Covers a.now) (Covers b.now)) (IsBetween B.whole) }
/// add_gives = { λ a b r. IfOk r (λ L. IsRunsOf L (Sums (Covers a.now) (Covers b.now))) }
/// ```
///
/// Words: [`IsSubset`](crate::definitions#IsSubset), [`Sums`](crate::definitions#Sums), [`Covers`](crate::definitions#Covers), [`IsBetween`](crate::definitions#IsBetween), [`IsRunsOf`](crate::definitions#IsRunsOf).
impl<B: Width> Add<&IntervalSet<B>> for &IntervalSet<B> {
    type Output = Result<IntervalSet<B>, AllocError>;

    /// Returns all sums of a member of `self` and a member of `rhs`. The caller must ensure that
    /// the sums are in the range. Check with `fits_add`.
    ///
    /// `O(n m log (n m))` for `n` and `m` runs. Needs memory for at most `2 n m` runs
    /// at a time. Fails only if allocation fails.
    #[cfg_attr(debug_assertions, track_caller)]
    fn add(self, rhs: &IntervalSet<B>) -> Result<IntervalSet<B>, AllocError> {
        debug_assert!({ #[allow(unused_imports)] use crate::proved::ivl_interval::ops::*; self.fits_add(rhs) }, "{}", "the condition of `add` is broken: self.fits_add(rhs)");
        combine(self, rhs, Op::Sum)
    }
}

/// Proved, with these words of the trait:
///
/// ```text
/// can_add = { λ a x. IsSubset (Sums (Covers a) (Only (B.value x))) (IsBetween B.whole) }
/// add_gives = { λ a x r. IfOk r (λ L. IsRunsOf L (Sums (Covers a) (Only (B.value x)))) }
/// ```
///
/// Words: [`IsSubset`](crate::definitions#IsSubset), [`Sums`](crate::definitions#Sums), [`Covers`](crate::definitions#Covers), [`Only`](crate::definitions#Only), [`IsBetween`](crate::definitions#IsBetween), [`IsRunsOf`](crate::definitions#IsRunsOf).
impl<B: Width> Add<B> for IntervalSet<B> {
    type Output = Result<IntervalSet<B>, AllocError>;

    /// Returns all sums of a member and the value. The caller must ensure that the sums are in the
    /// range. Check with `fits_add`. The value itself may be outside the range.
    ///
    /// `O(n)` for `n` runs. Reserves at most `n` runs once. Fails only if allocation fails.
    ///
    /// ```
    /// use intervallum::proved::examples::*;
    ///
    /// fn main() -> Result<(), std::boxed::Box<dyn std::error::Error>> {
    ///     let alloc = Global;
    ///     let a = IntervalSet::new(alloc, 1, 2)?;
    ///     assert!(a.fits_add(&10), "the sums fit");
    ///     assert!((a + 10)? == IntervalSet::new(alloc, 11, 12)?);
    ///     Ok(())
    /// }
    /// ```
    ///
    /// # Proved
    ///
    /// On success, the members are exactly the sums of a member and the value, in at most as many runs as the set has.
    ///
    /// ```text
    /// requires { IsSubset (Sums (Covers self) (Only (B.value rhs))) (IsBetween B.whole) }
    /// ensures members { IfOk result (λ L. IsRunsOf L (Sums (Covers self) (Only (B.value rhs)))) }
    /// ensures runs_at_most { IfOk result (λ L. length L ≤ length self) }
    /// ```
    ///
    /// Words: [`IsSubset`](crate::definitions#IsSubset), [`Sums`](crate::definitions#Sums), [`Covers`](crate::definitions#Covers), [`Only`](crate::definitions#Only), [`IsBetween`](crate::definitions#IsBetween), [`IsRunsOf`](crate::definitions#IsRunsOf).
    #[cfg_attr(debug_assertions, track_caller)]
    fn add(self, rhs: B) -> Result<IntervalSet<B>, AllocError> {
        debug_assert!({ #[allow(unused_imports)] use crate::proved::ivl_interval::ops::*; self.fits_add(&rhs) }, "{}", "the condition of `add` is broken: self.fits_add(&rhs)");
        combine_with(&self, rhs, Op::Sum)
    }
}

/// Proved, with these words of the trait:
///
/// ```text
/// can_add = { λ a x. IsSubset (Sums (Covers a) (Only (B.value x.now))) (IsBetween B.whole) }
/// add_gives = { λ a x r. IfOk r (λ L. IsRunsOf L (Sums (Covers a) (Only (B.value x.now)))) }
/// ```
///
/// Words: [`IsSubset`](crate::definitions#IsSubset), [`Sums`](crate::definitions#Sums), [`Covers`](crate::definitions#Covers), [`Only`](crate::definitions#Only), [`IsBetween`](crate::definitions#IsBetween), [`IsRunsOf`](crate::definitions#IsRunsOf).
impl<B: Width> Add<&B> for IntervalSet<B> {
    type Output = Result<IntervalSet<B>, AllocError>;

    /// Returns all sums of a member and the value. The caller must ensure that the sums are in the
    /// range. Check with `fits_add`. The value itself may be outside the range.
    ///
    /// `O(n)` for `n` runs. Reserves at most `n` runs once. Fails only if allocation fails.
    ///
    /// # Proved
    ///
    /// On success, the members are exactly the sums of a member and the value, in at most as many runs as the set has.
    ///
    /// ```text
    /// requires { IsSubset (Sums (Covers self) (Only (B.value rhs.now))) (IsBetween B.whole) }
    /// ensures members { IfOk result (λ L. IsRunsOf L (Sums (Covers self) (Only (B.value rhs.now)))) }
    /// ensures runs_at_most { IfOk result (λ L. length L ≤ length self) }
    /// ```
    ///
    /// Words: [`IsSubset`](crate::definitions#IsSubset), [`Sums`](crate::definitions#Sums), [`Covers`](crate::definitions#Covers), [`Only`](crate::definitions#Only), [`IsBetween`](crate::definitions#IsBetween), [`IsRunsOf`](crate::definitions#IsRunsOf).
    #[cfg_attr(debug_assertions, track_caller)]
    fn add(self, rhs: &B) -> Result<IntervalSet<B>, AllocError> {
        debug_assert!({ #[allow(unused_imports)] use crate::proved::ivl_interval::ops::*; self.fits_add(rhs) }, "{}", "the condition of `add` is broken: self.fits_add(rhs)");
        combine_with(&self, *rhs, Op::Sum)
    }
}

/// Proved, with these words of the trait:
///
/// ```text
/// can_add = { λ a x. IsSubset (Sums (Covers a.now) (Only (B.value x))) (IsBetween B.whole) }
/// add_gives = { λ a x r. IfOk r (λ L. IsRunsOf L (Sums (Covers a.now) (Only (B.value x)))) }
/// ```
///
/// Words: [`IsSubset`](crate::definitions#IsSubset), [`Sums`](crate::definitions#Sums), [`Covers`](crate::definitions#Covers), [`Only`](crate::definitions#Only), [`IsBetween`](crate::definitions#IsBetween), [`IsRunsOf`](crate::definitions#IsRunsOf).
impl<B: Width> Add<B> for &IntervalSet<B> {
    type Output = Result<IntervalSet<B>, AllocError>;

    /// Returns all sums of a member and the value. The caller must ensure that the sums are in the
    /// range. Check with `fits_add`. The value itself may be outside the range.
    ///
    /// `O(n)` for `n` runs. Reserves at most `n` runs once. Fails only if allocation fails.
    ///
    /// # Proved
    ///
    /// On success, the members are exactly the sums of a member and the value, in at most as many runs as the set has.
    ///
    /// ```text
    /// requires { IsSubset (Sums (Covers self.now) (Only (B.value rhs))) (IsBetween B.whole) }
    /// ensures members { IfOk result (λ L. IsRunsOf L (Sums (Covers self.now) (Only (B.value rhs)))) }
    /// ensures runs_at_most { IfOk result (λ L. length L ≤ length self.now) }
    /// ```
    ///
    /// Words: [`IsSubset`](crate::definitions#IsSubset), [`Sums`](crate::definitions#Sums), [`Covers`](crate::definitions#Covers), [`Only`](crate::definitions#Only), [`IsBetween`](crate::definitions#IsBetween), [`IsRunsOf`](crate::definitions#IsRunsOf).
    #[cfg_attr(debug_assertions, track_caller)]
    fn add(self, rhs: B) -> Result<IntervalSet<B>, AllocError> {
        debug_assert!({ #[allow(unused_imports)] use crate::proved::ivl_interval::ops::*; self.fits_add(&rhs) }, "{}", "the condition of `add` is broken: self.fits_add(&rhs)");
        combine_with(self, rhs, Op::Sum)
    }
}

/// Proved, with these words of the trait:
///
/// ```text
/// can_add = { λ a x. IsSubset (Sums (Covers a.now) (Only (B.value x.now))) (IsBetween B.whole) }
/// add_gives = { λ a x r. IfOk r (λ L. IsRunsOf L (Sums (Covers a.now) (Only (B.value x.now)))) }
/// ```
///
/// Words: [`IsSubset`](crate::definitions#IsSubset), [`Sums`](crate::definitions#Sums), [`Covers`](crate::definitions#Covers), [`Only`](crate::definitions#Only), [`IsBetween`](crate::definitions#IsBetween), [`IsRunsOf`](crate::definitions#IsRunsOf).
impl<B: Width> Add<&B> for &IntervalSet<B> {
    type Output = Result<IntervalSet<B>, AllocError>;

    /// Returns all sums of a member and the value. The caller must ensure that the sums are in the
    /// range. Check with `fits_add`. The value itself may be outside the range.
    ///
    /// `O(n)` for `n` runs. Reserves at most `n` runs once. Fails only if allocation fails.
    ///
    /// # Proved
    ///
    /// On success, the members are exactly the sums of a member and the value, in at most as many runs as the set has.
    ///
    /// ```text
    /// requires { IsSubset (Sums (Covers self.now) (Only (B.value rhs.now))) (IsBetween B.whole) }
    /// ensures members { IfOk result (λ L. IsRunsOf L (Sums (Covers self.now) (Only (B.value rhs.now)))) }
    /// ensures runs_at_most { IfOk result (λ L. length L ≤ length self.now) }
    /// ```
    ///
    /// Words: [`IsSubset`](crate::definitions#IsSubset), [`Sums`](crate::definitions#Sums), [`Covers`](crate::definitions#Covers), [`Only`](crate::definitions#Only), [`IsBetween`](crate::definitions#IsBetween), [`IsRunsOf`](crate::definitions#IsRunsOf).
    #[cfg_attr(debug_assertions, track_caller)]
    fn add(self, rhs: &B) -> Result<IntervalSet<B>, AllocError> {
        debug_assert!({ #[allow(unused_imports)] use crate::proved::ivl_interval::ops::*; self.fits_add(rhs) }, "{}", "the condition of `add` is broken: self.fits_add(rhs)");
        combine_with(self, *rhs, Op::Sum)
    }
}

/// Proved, with these words of the trait:
///
/// On success, the members are exactly the differences of a member of `self` and one of `rhs`.
///
/// ```text
/// can_sub = { λ a b. IsSubset (Differences (Covers a) (Covers b)) (IsBetween B.whole) }
/// sub_gives = { λ a b r. IfOk r (λ L. IsRunsOf L (Differences (Covers a) (Covers b))) }
/// ```
///
/// Words: [`IsSubset`](crate::definitions#IsSubset), [`Differences`](crate::definitions#Differences), [`Covers`](crate::definitions#Covers), [`IsBetween`](crate::definitions#IsBetween), [`IsRunsOf`](crate::definitions#IsRunsOf).
impl<B: Width> Sub<IntervalSet<B>> for IntervalSet<B> {
    type Output = Result<IntervalSet<B>, AllocError>;

    /// Returns all differences of a member of `self` and a member of `rhs`. The caller must ensure
    /// that the differences are in the range. Check with `fits_sub`.
    ///
    /// `O(n m log (n m))` for `n` and `m` runs. Needs memory for at most `2 n m` runs
    /// at a time. Fails only if allocation fails.
    ///
    /// ```
    /// use intervallum::proved::examples::*;
    ///
    /// fn main() -> Result<(), std::boxed::Box<dyn std::error::Error>> {
    ///     let alloc = Global;
    ///     let (a, b) = (IntervalSet::new(alloc, 1, 2)?, IntervalSet::new(alloc, 10, 20)?);
    ///     assert!(a.fits_sub(&b), "the differences fit");
    ///     assert!((a - b)? == IntervalSet::new(alloc, -19, -8)?);
    ///     Ok(())
    /// }
    /// ```
    #[cfg_attr(debug_assertions, track_caller)]
    fn sub(self, rhs: IntervalSet<B>) -> Result<IntervalSet<B>, AllocError> {
        debug_assert!({ #[allow(unused_imports)] use crate::proved::ivl_interval::ops::*; self.fits_sub(&rhs) }, "{}", "the condition of `sub` is broken: self.fits_sub(&rhs)");
        combine(&self, &rhs, Op::Difference)
    }
}

/// Proved, with these words of the trait:
///
/// On success, the members are exactly the differences of a member of `self` and one of `rhs`.
///
/// ```text
/// can_sub = { λ a b. IsSubset (Differences (Covers a) (Covers b.now)) (IsBetween B.whole) }
/// sub_gives = { λ a b r. IfOk r (λ L. IsRunsOf L (Differences (Covers a) (Covers b.now))) }
/// ```
///
/// Words: [`IsSubset`](crate::definitions#IsSubset), [`Differences`](crate::definitions#Differences), [`Covers`](crate::definitions#Covers), [`IsBetween`](crate::definitions#IsBetween), [`IsRunsOf`](crate::definitions#IsRunsOf).
impl<B: Width> Sub<&IntervalSet<B>> for IntervalSet<B> {
    type Output = Result<IntervalSet<B>, AllocError>;

    /// Returns all differences of a member of `self` and a member of `rhs`. The caller must ensure
    /// that the differences are in the range. Check with `fits_sub`.
    ///
    /// `O(n m log (n m))` for `n` and `m` runs. Needs memory for at most `2 n m` runs
    /// at a time. Fails only if allocation fails.
    #[cfg_attr(debug_assertions, track_caller)]
    fn sub(self, rhs: &IntervalSet<B>) -> Result<IntervalSet<B>, AllocError> {
        debug_assert!({ #[allow(unused_imports)] use crate::proved::ivl_interval::ops::*; self.fits_sub(rhs) }, "{}", "the condition of `sub` is broken: self.fits_sub(rhs)");
        combine(&self, rhs, Op::Difference)
    }
}

/// Proved, with these words of the trait:
///
/// On success, the members are exactly the differences of a member of `self` and one of `rhs`.
///
/// ```text
/// can_sub = { λ a b. IsSubset (Differences (Covers a.now) (Covers b)) (IsBetween B.whole) }
/// sub_gives = { λ a b r. IfOk r (λ L. IsRunsOf L (Differences (Covers a.now) (Covers b))) }
/// ```
///
/// Words: [`IsSubset`](crate::definitions#IsSubset), [`Differences`](crate::definitions#Differences), [`Covers`](crate::definitions#Covers), [`IsBetween`](crate::definitions#IsBetween), [`IsRunsOf`](crate::definitions#IsRunsOf).
impl<B: Width> Sub<IntervalSet<B>> for &IntervalSet<B> {
    type Output = Result<IntervalSet<B>, AllocError>;

    /// Returns all differences of a member of `self` and a member of `rhs`. The caller must ensure
    /// that the differences are in the range. Check with `fits_sub`.
    ///
    /// `O(n m log (n m))` for `n` and `m` runs. Needs memory for at most `2 n m` runs
    /// at a time. Fails only if allocation fails.
    #[cfg_attr(debug_assertions, track_caller)]
    fn sub(self, rhs: IntervalSet<B>) -> Result<IntervalSet<B>, AllocError> {
        debug_assert!({ #[allow(unused_imports)] use crate::proved::ivl_interval::ops::*; self.fits_sub(&rhs) }, "{}", "the condition of `sub` is broken: self.fits_sub(&rhs)");
        combine(self, &rhs, Op::Difference)
    }
}

/// Proved, with these words of the trait:
///
/// On success, the members are exactly the differences of a member of `self` and one of `rhs`.
///
/// ```text
/// can_sub = { λ a b. IsSubset (Differences (Covers a.now) (Covers b.now)) (IsBetween B.whole) }
/// sub_gives = { λ a b r. IfOk r (λ L. IsRunsOf L (Differences (Covers a.now) (Covers b.now))) }
/// ```
///
/// Words: [`IsSubset`](crate::definitions#IsSubset), [`Differences`](crate::definitions#Differences), [`Covers`](crate::definitions#Covers), [`IsBetween`](crate::definitions#IsBetween), [`IsRunsOf`](crate::definitions#IsRunsOf).
impl<B: Width> Sub<&IntervalSet<B>> for &IntervalSet<B> {
    type Output = Result<IntervalSet<B>, AllocError>;

    /// Returns all differences of a member of `self` and a member of `rhs`. The caller must ensure
    /// that the differences are in the range. Check with `fits_sub`.
    ///
    /// `O(n m log (n m))` for `n` and `m` runs. Needs memory for at most `2 n m` runs
    /// at a time. Fails only if allocation fails.
    #[cfg_attr(debug_assertions, track_caller)]
    fn sub(self, rhs: &IntervalSet<B>) -> Result<IntervalSet<B>, AllocError> {
        debug_assert!({ #[allow(unused_imports)] use crate::proved::ivl_interval::ops::*; self.fits_sub(rhs) }, "{}", "the condition of `sub` is broken: self.fits_sub(rhs)");
        combine(self, rhs, Op::Difference)
    }
}

/// Proved, with these words of the trait:
///
/// ```text
/// can_sub = { λ a x. IsSubset (Differences (Covers a) (Only (B.value x))) (IsBetween B.whole) }
/// sub_gives = { λ a x r. IfOk r (λ L. IsRunsOf L (Differences (Covers a) (Only (B.value x)))) }
/// ```
///
/// Words: [`IsSubset`](crate::definitions#IsSubset), [`Differences`](crate::definitions#Differences), [`Covers`](crate::definitions#Covers), [`Only`](crate::definitions#Only), [`IsBetween`](crate::definitions#IsBetween), [`IsRunsOf`](crate::definitions#IsRunsOf).
impl<B: Width> Sub<B> for IntervalSet<B> {
    type Output = Result<IntervalSet<B>, AllocError>;

    /// Returns all differences of a member and the value. The caller must ensure that the
    /// differences are in the range. Check with `fits_sub`. The value itself may be outside the
    /// range.
    ///
    /// `O(n)` for `n` runs. Reserves at most `n` runs once. Fails only if allocation fails.
    ///
    /// ```
    /// use intervallum::proved::examples::*;
    ///
    /// fn main() -> Result<(), std::boxed::Box<dyn std::error::Error>> {
    ///     let alloc = Global;
    ///     let a = IntervalSet::new(alloc, 1, 2)?;
    ///     assert!(a.fits_sub(&10), "the differences fit");
    ///     assert!((a - 10)? == IntervalSet::new(alloc, -9, -8)?);
    ///     Ok(())
    /// }
    /// ```
    ///
    /// # Proved
    ///
    /// On success, the members are exactly the differences of a member and the value, in at most as many runs as the set has.
    ///
    /// ```text
    /// requires { IsSubset (Differences (Covers self) (Only (B.value rhs))) (IsBetween B.whole) }
    /// ensures members { IfOk result (λ L. IsRunsOf L (Differences (Covers self) (Only (B.value rhs)))) }
    /// ensures runs_at_most { IfOk result (λ L. length L ≤ length self) }
    /// ```
    ///
    /// Words: [`IsSubset`](crate::definitions#IsSubset), [`Differences`](crate::definitions#Differences), [`Covers`](crate::definitions#Covers), [`Only`](crate::definitions#Only), [`IsBetween`](crate::definitions#IsBetween), [`IsRunsOf`](crate::definitions#IsRunsOf).
    #[cfg_attr(debug_assertions, track_caller)]
    fn sub(self, rhs: B) -> Result<IntervalSet<B>, AllocError> {
        debug_assert!({ #[allow(unused_imports)] use crate::proved::ivl_interval::ops::*; self.fits_sub(&rhs) }, "{}", "the condition of `sub` is broken: self.fits_sub(&rhs)");
        combine_with(&self, rhs, Op::Difference)
    }
}

/// Proved, with these words of the trait:
///
/// ```text
/// can_sub = { λ a x. IsSubset (Differences (Covers a) (Only (B.value x.now))) (IsBetween B.whole) }
/// sub_gives = { λ a x r. IfOk r (λ L. IsRunsOf L (Differences (Covers a) (Only (B.value x.now)))) }
/// ```
///
/// Words: [`IsSubset`](crate::definitions#IsSubset), [`Differences`](crate::definitions#Differences), [`Covers`](crate::definitions#Covers), [`Only`](crate::definitions#Only), [`IsBetween`](crate::definitions#IsBetween), [`IsRunsOf`](crate::definitions#IsRunsOf).
impl<B: Width> Sub<&B> for IntervalSet<B> {
    type Output = Result<IntervalSet<B>, AllocError>;

    /// Returns all differences of a member and the value. The caller must ensure that the
    /// differences are in the range. Check with `fits_sub`. The value itself may be outside the
    /// range.
    ///
    /// `O(n)` for `n` runs. Reserves at most `n` runs once. Fails only if allocation fails.
    ///
    /// # Proved
    ///
    /// On success, the members are exactly the differences of a member and the value, in at most as many runs as the set has.
    ///
    /// ```text
    /// requires { IsSubset (Differences (Covers self) (Only (B.value rhs.now))) (IsBetween B.whole) }
    /// ensures members { IfOk result (λ L. IsRunsOf L (Differences (Covers self) (Only (B.value rhs.now)))) }
    /// ensures runs_at_most { IfOk result (λ L. length L ≤ length self) }
    /// ```
    ///
    /// Words: [`IsSubset`](crate::definitions#IsSubset), [`Differences`](crate::definitions#Differences), [`Covers`](crate::definitions#Covers), [`Only`](crate::definitions#Only), [`IsBetween`](crate::definitions#IsBetween), [`IsRunsOf`](crate::definitions#IsRunsOf).
    #[cfg_attr(debug_assertions, track_caller)]
    fn sub(self, rhs: &B) -> Result<IntervalSet<B>, AllocError> {
        debug_assert!({ #[allow(unused_imports)] use crate::proved::ivl_interval::ops::*; self.fits_sub(rhs) }, "{}", "the condition of `sub` is broken: self.fits_sub(rhs)");
        combine_with(&self, *rhs, Op::Difference)
    }
}

/// Proved, with these words of the trait:
///
/// ```text
/// can_sub = { λ a x. IsSubset (Differences (Covers a.now) (Only (B.value x))) (IsBetween B.whole) }
/// sub_gives = { λ a x r. IfOk r (λ L. IsRunsOf L (Differences (Covers a.now) (Only (B.value x)))) }
/// ```
///
/// Words: [`IsSubset`](crate::definitions#IsSubset), [`Differences`](crate::definitions#Differences), [`Covers`](crate::definitions#Covers), [`Only`](crate::definitions#Only), [`IsBetween`](crate::definitions#IsBetween), [`IsRunsOf`](crate::definitions#IsRunsOf).
impl<B: Width> Sub<B> for &IntervalSet<B> {
    type Output = Result<IntervalSet<B>, AllocError>;

    /// Returns all differences of a member and the value. The caller must ensure that the
    /// differences are in the range. Check with `fits_sub`. The value itself may be outside the
    /// range.
    ///
    /// `O(n)` for `n` runs. Reserves at most `n` runs once. Fails only if allocation fails.
    ///
    /// # Proved
    ///
    /// On success, the members are exactly the differences of a member and the value, in at most as many runs as the set has.
    ///
    /// ```text
    /// requires { IsSubset (Differences (Covers self.now) (Only (B.value rhs))) (IsBetween B.whole) }
    /// ensures members { IfOk result (λ L. IsRunsOf L (Differences (Covers self.now) (Only (B.value rhs)))) }
    /// ensures runs_at_most { IfOk result (λ L. length L ≤ length self.now) }
    /// ```
    ///
    /// Words: [`IsSubset`](crate::definitions#IsSubset), [`Differences`](crate::definitions#Differences), [`Covers`](crate::definitions#Covers), [`Only`](crate::definitions#Only), [`IsBetween`](crate::definitions#IsBetween), [`IsRunsOf`](crate::definitions#IsRunsOf).
    #[cfg_attr(debug_assertions, track_caller)]
    fn sub(self, rhs: B) -> Result<IntervalSet<B>, AllocError> {
        debug_assert!({ #[allow(unused_imports)] use crate::proved::ivl_interval::ops::*; self.fits_sub(&rhs) }, "{}", "the condition of `sub` is broken: self.fits_sub(&rhs)");
        combine_with(self, rhs, Op::Difference)
    }
}

/// Proved, with these words of the trait:
///
/// ```text
/// can_sub = { λ a x. IsSubset (Differences (Covers a.now) (Only (B.value x.now))) (IsBetween B.whole) }
/// sub_gives = { λ a x r. IfOk r (λ L. IsRunsOf L (Differences (Covers a.now) (Only (B.value x.now)))) }
/// ```
///
/// Words: [`IsSubset`](crate::definitions#IsSubset), [`Differences`](crate::definitions#Differences), [`Covers`](crate::definitions#Covers), [`Only`](crate::definitions#Only), [`IsBetween`](crate::definitions#IsBetween), [`IsRunsOf`](crate::definitions#IsRunsOf).
impl<B: Width> Sub<&B> for &IntervalSet<B> {
    type Output = Result<IntervalSet<B>, AllocError>;

    /// Returns all differences of a member and the value. The caller must ensure that the
    /// differences are in the range. Check with `fits_sub`. The value itself may be outside the
    /// range.
    ///
    /// `O(n)` for `n` runs. Reserves at most `n` runs once. Fails only if allocation fails.
    ///
    /// # Proved
    ///
    /// On success, the members are exactly the differences of a member and the value, in at most as many runs as the set has.
    ///
    /// ```text
    /// requires { IsSubset (Differences (Covers self.now) (Only (B.value rhs.now))) (IsBetween B.whole) }
    /// ensures members { IfOk result (λ L. IsRunsOf L (Differences (Covers self.now) (Only (B.value rhs.now)))) }
    /// ensures runs_at_most { IfOk result (λ L. length L ≤ length self.now) }
    /// ```
    ///
    /// Words: [`IsSubset`](crate::definitions#IsSubset), [`Differences`](crate::definitions#Differences), [`Covers`](crate::definitions#Covers), [`Only`](crate::definitions#Only), [`IsBetween`](crate::definitions#IsBetween), [`IsRunsOf`](crate::definitions#IsRunsOf).
    #[cfg_attr(debug_assertions, track_caller)]
    fn sub(self, rhs: &B) -> Result<IntervalSet<B>, AllocError> {
        debug_assert!({ #[allow(unused_imports)] use crate::proved::ivl_interval::ops::*; self.fits_sub(rhs) }, "{}", "the condition of `sub` is broken: self.fits_sub(rhs)");
        combine_with(self, *rhs, Op::Difference)
    }
}

/// Proved, with these words of the trait:
///
/// On success, the members are, for each pair of runs, exactly the numbers from the least to the greatest product.
///
/// ```text
/// can_mul = { λ a b. IsSubset (ExactProducts (Covers a) (Covers b)) (IsBetween B.whole) }
/// mul_gives = { λ a b r. IfOk r (λ L. IsRunsOf L (Products (Covers a) (Covers b))) }
/// ```
///
/// Words: [`IsSubset`](crate::definitions#IsSubset), [`ExactProducts`](crate::definitions#ExactProducts), [`Covers`](crate::definitions#Covers), [`IsBetween`](crate::definitions#IsBetween), [`IsRunsOf`](crate::definitions#IsRunsOf), [`Products`](crate::definitions#Products).
impl<B: Width> Mul<IntervalSet<B>> for IntervalSet<B> {
    type Output = Result<IntervalSet<B>, AllocError>;

    /// Returns, for each pair of runs, the numbers from the least to the greatest product. The
    /// caller must ensure that the products are in the range. Check with `fits_mul`.
    ///
    /// `O(n m log (n m))` for `n` and `m` runs. Needs memory for at most `2 n m` runs
    /// at a time. Fails only if allocation fails.
    ///
    /// ```
    /// use intervallum::proved::examples::*;
    ///
    /// fn main() -> Result<(), std::boxed::Box<dyn std::error::Error>> {
    ///     let alloc = Global;
    ///     let (a, b) = (IntervalSet::new(alloc, 1, 2)?, IntervalSet::new(alloc, 10, 10)?);
    ///     assert!(a.fits_mul(&b), "the products fit");
    ///     assert!((a * b)? == IntervalSet::new(alloc, 10, 20)?);
    ///     Ok(())
    /// }
    /// ```
    #[cfg_attr(debug_assertions, track_caller)]
    fn mul(self, rhs: IntervalSet<B>) -> Result<IntervalSet<B>, AllocError> {
        debug_assert!({ #[allow(unused_imports)] use crate::proved::ivl_interval::ops::*; self.fits_mul(&rhs) }, "{}", "the condition of `mul` is broken: self.fits_mul(&rhs)");
        combine(&self, &rhs, Op::Product)
    }
}

/// Proved, with these words of the trait:
///
/// On success, the members are, for each pair of runs, exactly the numbers from the least to the greatest product.
///
/// ```text
/// can_mul = { λ a b. IsSubset (ExactProducts (Covers a) (Covers b.now)) (IsBetween B.whole) }
/// mul_gives = { λ a b r. IfOk r (λ L. IsRunsOf L (Products (Covers a) (Covers b.now))) }
/// ```
///
/// Words: [`IsSubset`](crate::definitions#IsSubset), [`ExactProducts`](crate::definitions#ExactProducts), [`Covers`](crate::definitions#Covers), [`IsBetween`](crate::definitions#IsBetween), [`IsRunsOf`](crate::definitions#IsRunsOf), [`Products`](crate::definitions#Products).
impl<B: Width> Mul<&IntervalSet<B>> for IntervalSet<B> {
    type Output = Result<IntervalSet<B>, AllocError>;

    /// Returns, for each pair of runs, the numbers from the least to the greatest product. The
    /// caller must ensure that the products are in the range. Check with `fits_mul`.
    ///
    /// `O(n m log (n m))` for `n` and `m` runs. Needs memory for at most `2 n m` runs
    /// at a time. Fails only if allocation fails.
    #[cfg_attr(debug_assertions, track_caller)]
    fn mul(self, rhs: &IntervalSet<B>) -> Result<IntervalSet<B>, AllocError> {
        debug_assert!({ #[allow(unused_imports)] use crate::proved::ivl_interval::ops::*; self.fits_mul(rhs) }, "{}", "the condition of `mul` is broken: self.fits_mul(rhs)");
        combine(&self, rhs, Op::Product)
    }
}

/// Proved, with these words of the trait:
///
/// On success, the members are, for each pair of runs, exactly the numbers from the least to the greatest product.
///
/// ```text
/// can_mul = { λ a b. IsSubset (ExactProducts (Covers a.now) (Covers b)) (IsBetween B.whole) }
/// mul_gives = { λ a b r. IfOk r (λ L. IsRunsOf L (Products (Covers a.now) (Covers b))) }
/// ```
///
/// Words: [`IsSubset`](crate::definitions#IsSubset), [`ExactProducts`](crate::definitions#ExactProducts), [`Covers`](crate::definitions#Covers), [`IsBetween`](crate::definitions#IsBetween), [`IsRunsOf`](crate::definitions#IsRunsOf), [`Products`](crate::definitions#Products).
impl<B: Width> Mul<IntervalSet<B>> for &IntervalSet<B> {
    type Output = Result<IntervalSet<B>, AllocError>;

    /// Returns, for each pair of runs, the numbers from the least to the greatest product. The
    /// caller must ensure that the products are in the range. Check with `fits_mul`.
    ///
    /// `O(n m log (n m))` for `n` and `m` runs. Needs memory for at most `2 n m` runs
    /// at a time. Fails only if allocation fails.
    #[cfg_attr(debug_assertions, track_caller)]
    fn mul(self, rhs: IntervalSet<B>) -> Result<IntervalSet<B>, AllocError> {
        debug_assert!({ #[allow(unused_imports)] use crate::proved::ivl_interval::ops::*; self.fits_mul(&rhs) }, "{}", "the condition of `mul` is broken: self.fits_mul(&rhs)");
        combine(self, &rhs, Op::Product)
    }
}

/// Proved, with these words of the trait:
///
/// On success, the members are, for each pair of runs, exactly the numbers from the least to the greatest product.
///
/// ```text
/// can_mul = { λ a b. IsSubset (ExactProducts (Covers a.now) (Covers b.now)) (IsBetween B.whole) }
/// mul_gives = { λ a b r. IfOk r (λ L. IsRunsOf L (Products (Covers a.now) (Covers b.now))) }
/// ```
///
/// Words: [`IsSubset`](crate::definitions#IsSubset), [`ExactProducts`](crate::definitions#ExactProducts), [`Covers`](crate::definitions#Covers), [`IsBetween`](crate::definitions#IsBetween), [`IsRunsOf`](crate::definitions#IsRunsOf), [`Products`](crate::definitions#Products).
impl<B: Width> Mul<&IntervalSet<B>> for &IntervalSet<B> {
    type Output = Result<IntervalSet<B>, AllocError>;

    /// Returns, for each pair of runs, the numbers from the least to the greatest product. The
    /// caller must ensure that the products are in the range. Check with `fits_mul`.
    ///
    /// `O(n m log (n m))` for `n` and `m` runs. Needs memory for at most `2 n m` runs
    /// at a time. Fails only if allocation fails.
    #[cfg_attr(debug_assertions, track_caller)]
    fn mul(self, rhs: &IntervalSet<B>) -> Result<IntervalSet<B>, AllocError> {
        debug_assert!({ #[allow(unused_imports)] use crate::proved::ivl_interval::ops::*; self.fits_mul(rhs) }, "{}", "the condition of `mul` is broken: self.fits_mul(rhs)");
        combine(self, rhs, Op::Product)
    }
}

/// Proved, with these words of the trait:
///
/// ```text
/// can_mul = { λ a x. IsSubset (ExactProducts (Covers a) (Only (B.value x))) (IsBetween B.whole) }
/// mul_gives = { λ a x r. IfOk r (λ L. IsRunsOf L (Products (Covers a) (Only (B.value x)))) }
/// ```
///
/// Words: [`IsSubset`](crate::definitions#IsSubset), [`ExactProducts`](crate::definitions#ExactProducts), [`Covers`](crate::definitions#Covers), [`Only`](crate::definitions#Only), [`IsBetween`](crate::definitions#IsBetween), [`IsRunsOf`](crate::definitions#IsRunsOf), [`Products`](crate::definitions#Products).
impl<B: Width> Mul<B> for IntervalSet<B> {
    type Output = Result<IntervalSet<B>, AllocError>;

    /// Returns, for each run, the numbers from the least to the greatest product with the value.
    /// The caller must ensure that the products are in the range. Check with `fits_mul`. The value
    /// itself may be outside the range.
    ///
    /// `O(n)` for `n` runs. Reserves at most `n` runs once. Fails only if allocation fails.
    ///
    /// ```
    /// use intervallum::proved::examples::*;
    ///
    /// fn main() -> Result<(), std::boxed::Box<dyn std::error::Error>> {
    ///     let alloc = Global;
    ///     let a = IntervalSet::new(alloc, 1, 2)?;
    ///     assert!(a.fits_mul(&-3), "the products fit");
    ///     assert!((a * -3)? == IntervalSet::new(alloc, -6, -3)?);
    ///     Ok(())
    /// }
    /// ```
    ///
    /// In the original, an interval times a negative value has crossed bounds; here the runs stay
    /// sorted.
    ///
    /// # Proved
    ///
    /// On success, the members are, for each run, exactly the numbers from its least to its greatest product with the value, in at most as many runs as the set has.
    ///
    /// ```text
    /// requires { IsSubset (ExactProducts (Covers self) (Only (B.value rhs))) (IsBetween B.whole) }
    /// ensures members { IfOk result (λ L. IsRunsOf L (Products (Covers self) (Only (B.value rhs)))) }
    /// ensures runs_at_most { IfOk result (λ L. length L ≤ length self) }
    /// ```
    ///
    /// Words: [`IsSubset`](crate::definitions#IsSubset), [`ExactProducts`](crate::definitions#ExactProducts), [`Covers`](crate::definitions#Covers), [`Only`](crate::definitions#Only), [`IsBetween`](crate::definitions#IsBetween), [`IsRunsOf`](crate::definitions#IsRunsOf), [`Products`](crate::definitions#Products).
    #[cfg_attr(debug_assertions, track_caller)]
    fn mul(self, rhs: B) -> Result<IntervalSet<B>, AllocError> {
        debug_assert!({ #[allow(unused_imports)] use crate::proved::ivl_interval::ops::*; self.fits_mul(&rhs) }, "{}", "the condition of `mul` is broken: self.fits_mul(&rhs)");
        combine_with(&self, rhs, Op::Product)
    }
}

/// Proved, with these words of the trait:
///
/// ```text
/// can_mul = { λ a x. IsSubset (ExactProducts (Covers a) (Only (B.value x.now))) (IsBetween B.whole) }
/// mul_gives = { λ a x r. IfOk r (λ L. IsRunsOf L (Products (Covers a) (Only (B.value x.now)))) }
/// ```
///
/// Words: [`IsSubset`](crate::definitions#IsSubset), [`ExactProducts`](crate::definitions#ExactProducts), [`Covers`](crate::definitions#Covers), [`Only`](crate::definitions#Only), [`IsBetween`](crate::definitions#IsBetween), [`IsRunsOf`](crate::definitions#IsRunsOf), [`Products`](crate::definitions#Products).
impl<B: Width> Mul<&B> for IntervalSet<B> {
    type Output = Result<IntervalSet<B>, AllocError>;

    /// Returns, for each run, the numbers from the least to the greatest product with the value.
    /// The caller must ensure that the products are in the range. Check with `fits_mul`. The value
    /// itself may be outside the range.
    ///
    /// `O(n)` for `n` runs. Reserves at most `n` runs once. Fails only if allocation fails.
    ///
    /// # Proved
    ///
    /// On success, the members are, for each run, exactly the numbers from its least to its greatest product with the value, in at most as many runs as the set has.
    ///
    /// ```text
    /// requires { IsSubset (ExactProducts (Covers self) (Only (B.value rhs.now))) (IsBetween B.whole) }
    /// ensures members { IfOk result (λ L. IsRunsOf L (Products (Covers self) (Only (B.value rhs.now)))) }
    /// ensures runs_at_most { IfOk result (λ L. length L ≤ length self) }
    /// ```
    ///
    /// Words: [`IsSubset`](crate::definitions#IsSubset), [`ExactProducts`](crate::definitions#ExactProducts), [`Covers`](crate::definitions#Covers), [`Only`](crate::definitions#Only), [`IsBetween`](crate::definitions#IsBetween), [`IsRunsOf`](crate::definitions#IsRunsOf), [`Products`](crate::definitions#Products).
    #[cfg_attr(debug_assertions, track_caller)]
    fn mul(self, rhs: &B) -> Result<IntervalSet<B>, AllocError> {
        debug_assert!({ #[allow(unused_imports)] use crate::proved::ivl_interval::ops::*; self.fits_mul(rhs) }, "{}", "the condition of `mul` is broken: self.fits_mul(rhs)");
        combine_with(&self, *rhs, Op::Product)
    }
}

/// Proved, with these words of the trait:
///
/// ```text
/// can_mul = { λ a x. IsSubset (ExactProducts (Covers a.now) (Only (B.value x))) (IsBetween B.whole) }
/// mul_gives = { λ a x r. IfOk r (λ L. IsRunsOf L (Products (Covers a.now) (Only (B.value x)))) }
/// ```
///
/// Words: [`IsSubset`](crate::definitions#IsSubset), [`ExactProducts`](crate::definitions#ExactProducts), [`Covers`](crate::definitions#Covers), [`Only`](crate::definitions#Only), [`IsBetween`](crate::definitions#IsBetween), [`IsRunsOf`](crate::definitions#IsRunsOf), [`Products`](crate::definitions#Products).
impl<B: Width> Mul<B> for &IntervalSet<B> {
    type Output = Result<IntervalSet<B>, AllocError>;

    /// Returns, for each run, the numbers from the least to the greatest product with the value.
    /// The caller must ensure that the products are in the range. Check with `fits_mul`. The value
    /// itself may be outside the range.
    ///
    /// `O(n)` for `n` runs. Reserves at most `n` runs once. Fails only if allocation fails.
    ///
    /// # Proved
    ///
    /// On success, the members are, for each run, exactly the numbers from its least to its greatest product with the value, in at most as many runs as the set has.
    ///
    /// ```text
    /// requires { IsSubset (ExactProducts (Covers self.now) (Only (B.value rhs))) (IsBetween B.whole) }
    /// ensures members { IfOk result (λ L. IsRunsOf L (Products (Covers self.now) (Only (B.value rhs)))) }
    /// ensures runs_at_most { IfOk result (λ L. length L ≤ length self.now) }
    /// ```
    ///
    /// Words: [`IsSubset`](crate::definitions#IsSubset), [`ExactProducts`](crate::definitions#ExactProducts), [`Covers`](crate::definitions#Covers), [`Only`](crate::definitions#Only), [`IsBetween`](crate::definitions#IsBetween), [`IsRunsOf`](crate::definitions#IsRunsOf), [`Products`](crate::definitions#Products).
    #[cfg_attr(debug_assertions, track_caller)]
    fn mul(self, rhs: B) -> Result<IntervalSet<B>, AllocError> {
        debug_assert!({ #[allow(unused_imports)] use crate::proved::ivl_interval::ops::*; self.fits_mul(&rhs) }, "{}", "the condition of `mul` is broken: self.fits_mul(&rhs)");
        combine_with(self, rhs, Op::Product)
    }
}

/// Proved, with these words of the trait:
///
/// ```text
/// can_mul = { λ a x. IsSubset (ExactProducts (Covers a.now) (Only (B.value x.now))) (IsBetween B.whole) }
/// mul_gives = { λ a x r. IfOk r (λ L. IsRunsOf L (Products (Covers a.now) (Only (B.value x.now)))) }
/// ```
///
/// Words: [`IsSubset`](crate::definitions#IsSubset), [`ExactProducts`](crate::definitions#ExactProducts), [`Covers`](crate::definitions#Covers), [`Only`](crate::definitions#Only), [`IsBetween`](crate::definitions#IsBetween), [`IsRunsOf`](crate::definitions#IsRunsOf), [`Products`](crate::definitions#Products).
impl<B: Width> Mul<&B> for &IntervalSet<B> {
    type Output = Result<IntervalSet<B>, AllocError>;

    /// Returns, for each run, the numbers from the least to the greatest product with the value.
    /// The caller must ensure that the products are in the range. Check with `fits_mul`. The value
    /// itself may be outside the range.
    ///
    /// `O(n)` for `n` runs. Reserves at most `n` runs once. Fails only if allocation fails.
    ///
    /// # Proved
    ///
    /// On success, the members are, for each run, exactly the numbers from its least to its greatest product with the value, in at most as many runs as the set has.
    ///
    /// ```text
    /// requires { IsSubset (ExactProducts (Covers self.now) (Only (B.value rhs.now))) (IsBetween B.whole) }
    /// ensures members { IfOk result (λ L. IsRunsOf L (Products (Covers self.now) (Only (B.value rhs.now)))) }
    /// ensures runs_at_most { IfOk result (λ L. length L ≤ length self.now) }
    /// ```
    ///
    /// Words: [`IsSubset`](crate::definitions#IsSubset), [`ExactProducts`](crate::definitions#ExactProducts), [`Covers`](crate::definitions#Covers), [`Only`](crate::definitions#Only), [`IsBetween`](crate::definitions#IsBetween), [`IsRunsOf`](crate::definitions#IsRunsOf), [`Products`](crate::definitions#Products).
    #[cfg_attr(debug_assertions, track_caller)]
    fn mul(self, rhs: &B) -> Result<IntervalSet<B>, AllocError> {
        debug_assert!({ #[allow(unused_imports)] use crate::proved::ivl_interval::ops::*; self.fits_mul(rhs) }, "{}", "the condition of `mul` is broken: self.fits_mul(rhs)");
        combine_with(self, *rhs, Op::Product)
    }
}
