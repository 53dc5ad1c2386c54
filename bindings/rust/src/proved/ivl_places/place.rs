// Written by bindings/rust/extract from crates/ivl_places/src/place.rt.
//! The place of a value among runs.

#[allow(unused_imports)]
use crate::rattle::prelude::*;

/// The place of a value among runs numbered from 0, as `find` returns it.
///
/// ```
/// use intervallum::proved::examples::*;
///
/// fn main() -> Result<(), std::boxed::Box<dyn std::error::Error>> {
///     let alloc = Global;
///     let a: IntervalSet<i32> = [(1, 2), (5, 6)].to_interval_set(alloc)?;
///     let mut probes = Probes::new(&a);
///     assert_eq!(find(&mut probes, 3), Place::Gap(1));
///     Ok(())
/// }
/// ```
#[derive(Clone, Copy, PartialEq, Eq, Debug)]
pub enum Place {
    /// In the run of this number.
    In(usize),
    /// In no run, above this many of them and below the others.
    Gap(usize),
}
