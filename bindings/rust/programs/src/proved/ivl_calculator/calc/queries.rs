// Written by bindings/rust/extract from crates/ivl_calculator/src/calc/queries.rt.
//! The commands that query registers. None of them writes a register, and only `Show` allocates.

#[allow(unused_imports)]
use crate::rattle::prelude::*;
use super::Calc;
use crate::proved::ivl_calculator::reply::{Refusal, Reply};
use crate::proved::intervallum::ops::{Cardinality, Contains, Overlap, Subset};
use crate::proved::intervallum::width::Width;

impl<B: Width> Calc<B> {
    pub(super) fn has_at(&self, register: usize, item: B) -> Reply<B> {
        match self.get(register) {
            Some(set) => Reply::Flag(set.contains(&item)),
            None => Reply::Refused(Refusal::Register),
        }
    }

    pub(super) fn size_at(&self, register: usize) -> Reply<B> {
        match self.get(register) {
            Some(set) => Reply::Size(set.size()),
            None => Reply::Refused(Refusal::Register),
        }
    }

    pub(super) fn count_at(&self, register: usize) -> Reply<B> {
        match self.get(register) {
            Some(set) => Reply::Count(set.interval_count()),
            None => Reply::Refused(Refusal::Register),
        }
    }

    pub(super) fn low_at(&self, register: usize) -> Reply<B> {
        match self.get(register) {
            Some(set) => Reply::Value(set.first()),
            None => Reply::Refused(Refusal::Register),
        }
    }

    pub(super) fn high_at(&self, register: usize) -> Reply<B> {
        match self.get(register) {
            Some(set) => Reply::Value(set.last()),
            None => Reply::Refused(Refusal::Register),
        }
    }

    pub(super) fn same_at(&self, left: usize, right: usize) -> Reply<B> {
        match (self.get(left), self.get(right)) {
            (Some(first), Some(second)) => Reply::Flag(*first == *second),
            _ => Reply::Refused(Refusal::Register),
        }
    }

    pub(super) fn subset_at(&self, left: usize, right: usize) -> Reply<B> {
        match (self.get(left), self.get(right)) {
            (Some(first), Some(second)) => Reply::Flag(first.is_subset(second)),
            _ => Reply::Refused(Refusal::Register),
        }
    }

    pub(super) fn meets_at(&self, left: usize, right: usize) -> Reply<B> {
        match (self.get(left), self.get(right)) {
            (Some(first), Some(second)) => Reply::Flag(first.overlap(second)),
            _ => Reply::Refused(Refusal::Register),
        }
    }

    pub(super) fn show_at(&self, register: usize) -> Reply<B> {
        let Some(set) = self.get(register) else {
            return Reply::Refused(Refusal::Register);
        };
        match Vec::from_slice(self.alloc, set.iter().as_slice()) {
            Ok(runs) => Reply::Runs(runs),
            Err(_) => Reply::Refused(Refusal::Memory),
        }
    }
}
