// Written by bindings/rust/extract from crates/ivl_calculator/src/calc/writes.rt.
//! The commands that write a register. Each completes the new set before it replaces the old one,
//! so the register may be an operand too, and is unchanged if the command is refused.

#[allow(unused_imports)]
use crate::rattle::prelude::*;
use super::Calc;
use crate::proved::ivl_calculator::reply::{Refusal, Reply};
use crate::proved::intervallum::interval::Interval;
use crate::proved::intervallum::interval_set::{IntervalSet, ToIntervalSet};
use crate::proved::intervallum::ops::{
    Complement, Difference, Fits, Intersection, ShrinkLeft, ShrinkRight, StrictShrinkLeft,
    StrictShrinkRight, SymmetricDifference, Union,
};
use crate::proved::intervallum::sweep::Op;
use crate::proved::intervallum::width::Width;
use crate::proved::ivl_within::within::{add_within, sub_within};
use crate::rattle::std::alloc::AllocError;

/// What is made of two sets by one walk over both.
#[derive(Clone, Copy)]
pub(super) enum Merge {
    Union,
    Intersection,
    Difference,
    SymmetricDifference,
}

/// Which members of a set are kept, by a value.
#[derive(Clone, Copy)]
pub(super) enum Part {
    AtLeast,
    AtMost,
    Above,
    Below,
}

impl<B: Width> Calc<B> {
    pub(super) fn set_at(&mut self, target: usize, list: &[(B, B)]) -> Reply<B> {
        if !self.has_registers([target]) {
            return Reply::Refused(Refusal::Register);
        }
        if !are_in_range(list) {
            return Reply::Refused(Refusal::Range);
        }
        let made = list.to_interval_set(self.alloc);
        self.put(target, made)
    }

    pub(super) fn merge_at(
        &mut self,
        target: usize,
        left: usize,
        right: usize,
        merge: Merge,
    ) -> Reply<B> {
        if !self.has_registers([target, left, right]) {
            return Reply::Refused(Refusal::Register);
        }
        let made = merged(&self.registers[left], &self.registers[right], merge);
        self.put(target, made)
    }

    pub(super) fn complement_at(&mut self, target: usize, source: usize) -> Reply<B> {
        if !self.has_registers([target, source]) {
            return Reply::Refused(Refusal::Register);
        }
        let made = self.registers[source].complement();
        self.put(target, made)
    }

    pub(super) fn part_at(&mut self, target: usize, source: usize, value: B, part: Part) -> Reply<B> {
        if !self.has_registers([target, source]) {
            return Reply::Refused(Refusal::Register);
        }
        let made = part_of(&self.registers[source], value, part);
        self.put(target, made)
    }

    pub(super) fn plus_at(&mut self, target: usize, left: usize, right: usize) -> Reply<B> {
        if !self.has_registers([target, left, right]) {
            return Reply::Refused(Refusal::Register);
        }
        let made = add_within(&self.registers[left], &self.registers[right]);
        self.put_cut(target, made)
    }

    pub(super) fn minus_at(&mut self, target: usize, left: usize, right: usize) -> Reply<B> {
        if !self.has_registers([target, left, right]) {
            return Reply::Refused(Refusal::Register);
        }
        let made = sub_within(&self.registers[left], &self.registers[right]);
        self.put_cut(target, made)
    }

    pub(super) fn times_at(&mut self, target: usize, left: usize, right: usize) -> Reply<B> {
        if !self.has_registers([target, left, right]) {
            return Reply::Refused(Refusal::Register);
        }
        let (first, second) = (&self.registers[left], &self.registers[right]);
        if !first.fits_mul(second) {
            return Reply::Refused(Refusal::Fit);
        }
        let made = first * second;
        self.put(target, made)
    }

    pub(super) fn value_at(&mut self, target: usize, source: usize, value: B, op: Op) -> Reply<B> {
        if !self.has_registers([target, source]) {
            return Reply::Refused(Refusal::Register);
        }
        let set = &self.registers[source];
        if !fits(set, value, op) {
            return Reply::Refused(Refusal::Fit);
        }
        let made = combined(set, value, op);
        self.put(target, made)
    }

    /// Puts a set that was made into a register.
    fn put(&mut self, target: usize, made: Result<IntervalSet<B>, AllocError>) -> Reply<B> {
        match made {
            Ok(set) => {
                self.registers[target] = set;
                Reply::Done
            }
            Err(_) => Reply::Refused(Refusal::Memory),
        }
    }

    /// Puts a set that was made into a register, and replies whether it was cut.
    fn put_cut(
        &mut self,
        target: usize,
        made: Result<(IntervalSet<B>, bool), AllocError>,
    ) -> Reply<B> {
        match made {
            Ok((set, is_cut)) => {
                self.registers[target] = set;
                Reply::Cut(is_cut)
            }
            Err(_) => Reply::Refused(Refusal::Memory),
        }
    }
}

/// Whether each pair may be the bounds of an interval.
fn are_in_range<B: Width>(list: &[(B, B)]) -> bool {
    list.iter().all(|&(lb, ub)| Interval::in_range(lb, ub))
}

fn merged<B: Width>(
    a: &IntervalSet<B>,
    b: &IntervalSet<B>,
    merge: Merge,
) -> Result<IntervalSet<B>, AllocError> {
    match merge {
        Merge::Union => a.union(b),
        Merge::Intersection => a.intersection(b),
        Merge::Difference => a.difference(b),
        Merge::SymmetricDifference => a.symmetric_difference(b),
    }
}

fn part_of<B: Width>(
    set: &IntervalSet<B>,
    value: B,
    part: Part,
) -> Result<IntervalSet<B>, AllocError> {
    match part {
        Part::AtLeast => set.shrink_left(value),
        Part::AtMost => set.shrink_right(value),
        Part::Above => set.strict_shrink_left(value),
        Part::Below => set.strict_shrink_right(value),
    }
}

/// Whether the results of a set and a value are in the range.
fn fits<B: Width>(set: &IntervalSet<B>, value: B, op: Op) -> bool {
    match op {
        Op::Sum => set.fits_add(&value),
        Op::Difference => set.fits_sub(&value),
        Op::Product => set.fits_mul(&value),
    }
}

/// The results of a set and a value.
fn combined<B: Width>(set: &IntervalSet<B>, value: B, op: Op) -> Result<IntervalSet<B>, AllocError> {
    match op {
        Op::Sum => set + value,
        Op::Difference => set - value,
        Op::Product => set * value,
    }
}
