//! `IndexSet` of Rattle's crate `indexmap`: as much of it as the solver uses.
use super::collections::hash_map::RandomState;
use ::intervallum::rattle::alloc::{AllocError, Global};
use ::intervallum::rattle::vec::Vec;
use ::std::hash::{BuildHasher, Hash};
use core::borrow::Borrow;

/// A set that keeps the order in which its values came, and finds each by its hash.
pub struct IndexSet<T, S> {
    items: Vec<T>,
    // of each item its index and 1, at the first slot from its hash on that was free when it came; 0 is a free slot
    slots: Vec<usize>,
    hashes: S,
}

impl<T: Hash + Eq> IndexSet<T, RandomState> {
    /// Returns an empty set, whose values are hashed with these keys. Does not allocate.
    pub fn with_hasher(alloc: Global, hashes: RandomState) -> Self {
        IndexSet { items: Vec::new(alloc), slots: Vec::new(alloc), hashes }
    }

    /// Returns the number of values.
    pub fn len(&self) -> usize {
        self.items.len()
    }

    /// Returns true if there is no value.
    pub fn is_empty(&self) -> bool {
        self.items.is_empty()
    }

    /// Returns the values in their order.
    pub fn as_slice(&self) -> &[T] {
        &self.items
    }

    /// Returns the index of a value, if it is there.
    pub fn get_index_of<Q: Hash + Eq + ?Sized>(&self, value: &Q) -> Option<usize>
    where
        T: Borrow<Q>,
    {
        let slot = self.slot(value)?;
        self.slots[slot].checked_sub(1)
    }

    /// Adds a value at the end, unless it is there, and returns whether it was not. Fails only if allocation fails, and then
    /// nothing changes.
    pub fn insert(&mut self, value: T) -> Result<bool, AllocError> {
        if self.get_index_of(&value).is_some() {
            return Ok(false);
        }
        self.items.reserve(1)?;
        if self.slots.len() < 2 * (self.items.len() + 1) {
            self.widen()?;
        }
        let slot = self.slot(&value).expect("there are twice as many slots as values");
        self.items.push_reserved(value);
        self.slots[slot] = self.items.len();
        Ok(true)
    }

    /// Keeps the first so many values.
    pub fn truncate(&mut self, len: usize) {
        // the last came when its slot was free, and so none before it is found by way of that slot
        while self.items.len() > len {
            let slot = self.slot(&self.items[self.items.len() - 1]).expect("there are slots");
            self.slots[slot] = 0;
            self.items.pop();
        }
    }

    /// The slot of a value, or the free one that it would have. `None` if there are no slots.
    fn slot<Q: Hash + Eq + ?Sized>(&self, value: &Q) -> Option<usize>
    where
        T: Borrow<Q>,
    {
        let last = self.slots.len().checked_sub(1)?;
        let mut slot = self.hashes.0.hash_one(value) as usize & last;
        loop {
            match self.slots[slot].checked_sub(1) {
                Some(index) if self.items[index].borrow() != value => slot = (slot + 1) & last,
                _ => return Some(slot),
            }
        }
    }

    /// Makes twice as many slots, a power of two, and puts each value into one, in their order.
    fn widen(&mut self) -> Result<(), AllocError> {
        let count = (2 * self.slots.len()).max(16);
        self.slots = Vec::from_elem(Global, 0, count)?;
        for index in 0..self.items.len() {
            let mut slot = self.hashes.0.hash_one(&self.items[index]) as usize & (count - 1);
            while self.slots[slot] != 0 {
                slot = (slot + 1) & (count - 1);
            }
            self.slots[slot] = index + 1;
        }
        Ok(())
    }
}
