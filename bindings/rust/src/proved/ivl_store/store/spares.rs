// Written by bindings/rust/extract from crates/ivl_store/src/store/spares.rt.
//! Sets that are not used any more, for their memory.

#[allow(unused_imports)]
use crate::rattle::prelude::*;
use crate::proved::intervallum::interval_set::IntervalSet;
use crate::proved::intervallum::width::Width;
use crate::rattle::std::alloc::{AllocError, Global};

/// How many sets there is room for.
const SETS: usize = 256;

/// How many runs such a set has at most, to be kept.
const RUNS: usize = 64;

/// Sets that are not used any more: what makes many sets, one after another, makes them in the memory of these.
///
/// ```
/// use intervallum::proved::examples::*;
///
/// fn main() -> Result<(), std::boxed::Box<dyn std::error::Error>> {
///     let alloc = Global;
///     let mut spares: Spares<i32> = Spares::new(alloc);
///     spares.make_room()?;
///     spares.keep(IntervalSet::new(alloc, 1, 2)?);
///     let mut set = spares.take(alloc);
///     assert!(set.is_empty());
///     set.push_run(Interval::new(5, 6))?;       // in the memory of the set that was kept
///     Ok(())
/// }
/// ```
pub struct Spares<B: Width> {
    sets: Vec<IntervalSet<B>>,
}

impl<B: Width> Spares<B> {
    /// Creates spares without a set, and without room for one: none is kept until [`Spares::make_room`]. `O(1)`. Does
    /// not allocate.
    pub fn new(alloc: Global) -> Spares<B> {
        Spares {
            sets: Vec::new(alloc),
        }
    }

    /// Makes room for 256 sets, if there is none. `O(1)`. Fails only if allocation fails; the spares are then unchanged.
    pub fn make_room(&mut self) -> Result<(), AllocError> {
        if self.sets.capacity() == 0 {
            self.sets.reserve(SETS)?;
        }
        Ok(())
    }

    /// Returns an empty set: the one that was kept last, cleared, so that it has the memory that it had, or a new one
    /// if there is none. `O(1)`. Does not allocate.
    ///
    /// # Proved
    ///
    /// The result is the empty set.
    ///
    /// ```text
    /// ensures { result ≡ [] }
    /// ```
    pub fn take(&mut self, alloc: Global) -> IntervalSet<B> {
        match self.sets.pop() {
            Some(mut set) => {
                set.clear();
                set
            }
            None => IntervalSet::empty(alloc),
        }
    }

    /// Keeps a set that is not used any more, unless it has more than 64 runs, or there is no room for it. `O(1)`. Does
    /// not allocate.
    pub fn keep(&mut self, set: IntervalSet<B>) {
        if set.interval_count() <= RUNS && self.sets.len() < self.sets.capacity() {
            self.sets.push_reserved(set);
        }
    }
}
