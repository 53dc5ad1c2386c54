// Written by bindings/rust/extract from crates/ivl_network/src/network/allowed.rt.
//! What a domain is cut to: a set or an interval.

#[allow(unused_imports)]
use crate::rattle::prelude::*;
use crate::proved::intervallum::interval::Interval;
use crate::proved::intervallum::interval_set::IntervalSet;
use crate::proved::intervallum::width::Width;
use crate::proved::ivl_rules::rules::windows::narrowed_to_window_in;
use crate::proved::ivl_store::store::Spares;
use crate::proved::ivl_store::store::narrowed_sets::narrowed_to;
use crate::rattle::std::alloc::AllocError;

/// Numbers to which a domain is cut.
///
/// Words and laws of the contracts:
///
/// ```text
/// members: { Self → ℤ → Type 0 }
/// ```
pub(super) trait Allowed<B: Width> {
    /// Returns what is left of a domain, or `None` if all of it is.
    ///
    /// # Proved
    ///
    /// ```text
    /// ensures { IfOk result (IsLeftOf B.whole domain.now (members self.now)) }
    /// ```
    ///
    /// Words: [`IsLeftOf`](crate::definitions#IsLeftOf).
    fn left_of(
        &self,
        domain: &IntervalSet<B>,
        spares: &mut Spares<B>,
    ) -> Result<Option<IntervalSet<B>>, AllocError>;
}

/// Proved, with these words of the trait:
///
/// ```text
/// members = { Covers }
/// ```
///
/// Words: [`Covers`](crate::definitions#Covers).
impl<B: Width> Allowed<B> for IntervalSet<B> {
    fn left_of(
        &self,
        domain: &IntervalSet<B>,
        _spares: &mut Spares<B>,
    ) -> Result<Option<IntervalSet<B>>, AllocError> {
        narrowed_to(domain, self)
    }
}

/// Proved, with these words of the trait:
///
/// ```text
/// members = { IsBetween }
/// ```
///
/// Words: [`IsBetween`](crate::definitions#IsBetween).
impl<B: Width> Allowed<B> for Interval<B> {
    fn left_of(
        &self,
        domain: &IntervalSet<B>,
        spares: &mut Spares<B>,
    ) -> Result<Option<IntervalSet<B>>, AllocError> {
        narrowed_to_window_in(domain, *self, spares)
    }
}
