//! `BTreeMap` of Rattle's std: as much of it as the calendar uses. That of Rust aborts if allocation fails. And the random keys of
//! a hash, which are those of Rust.
use ::intervallum::rattle::alloc::{AllocError, Global};
use ::intervallum::rattle::vec::Vec;
use core::borrow::Borrow;

const PAGE: usize = 256;

/// A map in the order of its keys, in pages of so many entries at most. No page is empty.
pub struct BTreeMap<K, V> {
    pages: Vec<Vec<(K, V)>>,
}

impl<K: Ord, V> BTreeMap<K, V> {
    /// Returns an empty map. Does not allocate.
    pub fn new(alloc: Global) -> Self {
        BTreeMap { pages: Vec::new(alloc) }
    }

    /// Returns the value of a key, if it is there.
    pub fn get<Q: Ord + ?Sized>(&self, key: &Q) -> Option<&V>
    where
        K: Borrow<Q>,
    {
        let (page, at) = self.place(key);
        Some(&self.pages.get(page)?[at.ok()?].1)
    }

    /// Returns the value of a key to change, if it is there.
    pub fn get_mut<Q: Ord + ?Sized>(&mut self, key: &Q) -> Option<&mut V>
    where
        K: Borrow<Q>,
    {
        let (page, at) = self.place(key);
        Some(&mut self.pages.get_mut(page)?[at.ok()?].1)
    }

    /// Gives a key a value, and returns the one that it had. Fails only if allocation fails, and then nothing changes.
    pub fn insert(&mut self, key: K, value: V) -> Result<Option<V>, AllocError> {
        let (mut page, at) = self.place(&key);
        let mut at = match at {
            Ok(at) => return Ok(Some(core::mem::replace(&mut self.pages[page][at].1, value))),
            Err(at) => at,
        };
        if self.pages.is_empty() {
            let first = Vec::with_capacity(Global, PAGE)?;
            self.pages.push(first)?;
        } else if self.pages[page].len() == PAGE {
            let mut upper = Vec::with_capacity(Global, PAGE)?;
            self.pages.reserve(1)?;
            for entry in self.pages[page].drain(PAGE / 2..) {
                upper.push_reserved(entry);
            }
            self.pages.insert(page + 1, upper)?;
            if at > PAGE / 2 {
                (page, at) = (page + 1, at - PAGE / 2);
            }
        }
        self.pages[page].insert(at, (key, value))?;
        Ok(None)
    }

    /// Returns the keys in order, each with its value.
    pub fn iter(&self) -> impl Iterator<Item = (&K, &V)> {
        self.pages.iter().flat_map(|page| page.iter()).map(|(key, value)| (key, value))
    }

    /// Returns the values in the order of their keys.
    pub fn values(&self) -> impl Iterator<Item = &V> {
        self.iter().map(|(_, value)| value)
    }

    /// The page of a key, and where it stands in it or would.
    fn place<Q: Ord + ?Sized>(&self, key: &Q) -> (usize, Result<usize, usize>)
    where
        K: Borrow<Q>,
    {
        let page = self.pages.partition_point(|page| page[0].0.borrow() <= key).saturating_sub(1);
        match self.pages.get(page) {
            Some(entries) => (page, entries.binary_search_by(|entry| entry.0.borrow().cmp(key))),
            None => (page, Err(0)),
        }
    }
}

/// The module of this name of Rattle's std.
pub mod hash_map {
    use ::std::io;

    /// Random keys of a hash.
    pub struct RandomState(pub(in super::super) ::std::hash::RandomState);

    impl RandomState {
        /// Returns keys from the system. Never fails.
        pub fn new<R>(_: &R) -> io::Result<RandomState> {
            Ok(RandomState(::std::hash::RandomState::new()))
        }
    }
}
