//! The proved map below each map.
use super::IntervalMap;
use crate::proved::ivl_map::{self, MapValue};
use crate::proved::width::Width;
use crate::proved::{AllocError, Global, Interval};

/// The proved map of values of any type that Rust can copy and compare.
pub type Proved<T, V> = ivl_map::IntervalMap<T, Held<V>>;

/// An entry of a proved map.
pub type Entry<T, V> = (Interval<T>, Held<V>);

/// A value as the proved map holds it.
#[derive(PartialEq, Eq)]
pub struct Held<V>(pub V);

/// That a copy equals its value is what Rust's std asks of `Clone` and `Eq`.
impl<V: Clone + Eq> MapValue for Held<V> {
    /// Returns a copy. If memory runs out, the `clone` of the value aborts.
    fn try_copy(&self) -> Result<Self, AllocError> {
        Ok(Self(self.0.clone()))
    }
}

impl<T: Width, V: Clone + Eq> IntervalMap<T, V> {
    /// The entries.
    #[inline]
    pub(super) fn entries(&self) -> &[Entry<T, V>] {
        self.0.as_ref().map_or(&[], |map| map.entries())
    }

    /// The proved map, to be changed. Its calls drop values last, so if code of a value panics in one, the entries lie apart.
    pub(super) fn edited(&mut self) -> &mut Proved<T, V> {
        self.0.get_or_insert_with(|| Proved::empty(Global))
    }

    /// What a call of the proved map answers. A map that was empty from the start has none, so that it can be made in a
    /// constant: then the empty one is made for the question, without an allocation.
    pub(super) fn asked<R>(&self, call: impl FnOnce(&Proved<T, V>) -> R) -> R {
        match &self.0 {
            Some(map) => call(map),
            None => call(&Proved::empty(Global)),
        }
    }
}
