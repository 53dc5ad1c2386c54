// Written by bindings/rust/extract from crates/ivl_ranges/src/state.rt.
//! The values that `i` and `k` may have, the length of the array, and what lines do to them.

#[allow(unused_imports)]
use crate::rattle::prelude::*;
use crate::proved::ivl_ranges::access::{is_safe, safe_indexes};
use crate::proved::ivl_ranges::reading::{length_from, set_from};
use crate::proved::ivl_ranges::reply::{Fault, Reply};
use crate::proved::intervallum::interval_set::IntervalSet;
use crate::proved::intervallum::ops::IsEmpty;
use crate::proved::ivl_lines::next_word;
use crate::rattle::std::alloc::Global;

/// The values that `i` and `k` may have, and the length of the array. A contract sees the lists of
/// the runs of the two sets, and the length.
pub struct Access {
    alloc: Global,
    index: IntervalSet<i64>,
    offset: IntervalSet<i64>,
    length: u32,
}

impl Access {
    /// Creates an access to an empty array, with no values of `i` and `k`. Does not allocate.
    pub fn new(alloc: Global) -> Access {
        Access {
            alloc,
            index: IntervalSet::empty(alloc),
            offset: IntervalSet::empty(alloc),
            length: 0,
        }
    }

    /// Carries out a line, given its first word and the text after it. After a fault nothing has
    /// changed.
    ///
    /// # Errors
    ///
    /// See [`Fault`].
    pub fn carry_out(&mut self, name: &str, words: &str) -> Result<Reply, Fault> {
        match name {
            "i" => self.set_index(words),
            "k" => self.set_offset(words),
            "length" => self.set_length(words),
            "check" => self.check(words),
            _ => Err(Fault::Command),
        }
    }

    fn set_index(&mut self, words: &str) -> Result<Reply, Fault> {
        self.index = set_from(self.alloc, words)?;
        Ok(Reply::Done)
    }

    fn set_offset(&mut self, words: &str) -> Result<Reply, Fault> {
        self.offset = set_from(self.alloc, words)?;
        Ok(Reply::Done)
    }

    fn set_length(&mut self, words: &str) -> Result<Reply, Fault> {
        let Some(length) = length_from(words) else {
            return Err(Fault::Length);
        };
        self.length = length;
        Ok(Reply::Done)
    }

    fn check(&self, words: &str) -> Result<Reply, Fault> {
        if next_word(words).is_some() {
            return Err(Fault::Check);
        }
        if self.index.is_empty() {
            return Err(Fault::NoIndex);
        }
        if self.offset.is_empty() {
            return Err(Fault::NoOffset);
        }
        if is_safe(&self.index, &self.offset, self.length) {
            return Ok(Reply::Safe);
        }
        Ok(Reply::SafeFor(safe_indexes(&self.index, &self.offset, self.length)?))
    }
}
