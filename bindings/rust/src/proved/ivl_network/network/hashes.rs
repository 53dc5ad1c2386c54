// Written by bindings/rust/extract from crates/ivl_network/src/network/hashes.rt.
//! The hashes by which a rule is found.

#[allow(unused_imports)]
use crate::rattle::prelude::*;
use crate::rattle::std::alloc::{AllocError, Global};

/// The hashes of a list, and for each the one before it in its bucket. A place is one more than an index, and 0 is none.
pub(super) struct Hashes {
    hashes: Vec<u64>,
    // The place before each in its bucket.
    links: Vec<usize>,
    // The place of the last in each bucket.
    lasts: Vec<usize>,
}

impl Hashes {
    pub(super) fn new(alloc: Global) -> Hashes {
        Hashes {
            hashes: Vec::new(alloc),
            links: Vec::new(alloc),
            lasts: Vec::new(alloc),
        }
    }

    /// Reserves room for so many more.
    pub(super) fn reserve(&mut self, count: usize) -> Result<(), AllocError> {
        self.hashes.reserve(count)?;
        self.links.reserve(count)?;
        let wanted = self.hashes.len().saturating_add(count);
        if wanted <= self.lasts.len() {
            return Ok(());
        }
        self.lasts = Vec::from_elem(*self.lasts.allocator(), 0, wanted.saturating_mul(2))?;
        self.link_all();
        Ok(())
    }

    /// Links all, where no bucket has any.
    fn link_all(&mut self) {
        for k in 0..self.hashes.len() {
            self.link(k);
        }
    }

    /// Links one more.
    fn link(&mut self, k: usize) {
        let bucket = bucket(self.hashes[k], self.lasts.len());
        self.links[k] = self.lasts[bucket];
        self.lasts[bucket] = k + 1;
    }

    /// Adds a hash after the others.
    pub(super) fn push(&mut self, hash: u64) {
        let k = self.hashes.len();
        self.hashes.push_reserved(hash);
        self.links.push_reserved(0);
        self.link(k);
    }

    /// Drops the last, if there is one.
    pub(super) fn pop(&mut self) {
        let count = self.hashes.len();
        if count == 0 {
            return;
        }
        let bucket = bucket(self.hashes[count - 1], self.lasts.len());
        self.lasts[bucket] = self.links[count - 1];
        self.hashes.truncate(count - 1);
        self.links.truncate(count - 1);
    }

    /// The place of the last in the bucket of a hash.
    pub(super) fn last(&self, hash: u64) -> usize {
        if self.hashes.is_empty() {
            return 0;
        }
        self.lasts[bucket(hash, self.lasts.len())]
    }

    /// The place before this one in its bucket.
    #[inline]
    pub(super) fn before(&self, place: usize) -> usize {
        self.links[place - 1]
    }
}

/// The bucket of a hash, of so many.
fn bucket(hash: u64, buckets: usize) -> usize {
    (hash % buckets as u64) as usize
}
