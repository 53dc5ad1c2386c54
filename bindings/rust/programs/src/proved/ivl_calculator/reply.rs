// Written by bindings/rust/extract from crates/ivl_calculator/src/reply.rt.
//! The replies.

#[allow(unused_imports)]
use crate::rattle::prelude::*;
use crate::proved::intervallum::interval::Interval;
use crate::proved::intervallum::width::Width;

/// Why a command was refused: the first reason in this order. The registers are unchanged.
#[derive(Clone, Copy, Debug, PartialEq, Eq)]
pub enum Refusal {
    /// There is no register with some index.

    Register,
    /// A pair is not in the range of the bounds.

    Range,
    /// A product, or a result with a value, is outside the range. `Plus` and `Minus` of two
    /// registers are cut to the range instead.

    Fit,
    /// An allocation failed. Only `Show` and the commands that write a register allocate.

    Memory,
}

impl core::fmt::Display for Refusal {
    fn fmt(&self, f: &mut core::fmt::Formatter<'_>) -> core::fmt::Result {
        match self {
            Self::Register => write!(f, "refused 1 register"),
            Self::Range => write!(f, "refused 2 range"),
            Self::Fit => write!(f, "refused 3 fit"),
            Self::Memory => write!(f, "refused 4 memory"),
        }
    }
}

impl core::error::Error for Refusal {}

/// What a command answers.
#[derive(Debug, PartialEq, Eq)]
pub enum Reply<B: Width> {
    /// A register was written.
    Done,
    /// A register was written with the sums or differences that are in the range; true if some are
    /// not.
    Cut(bool),
    /// The answer to a yes-or-no question.
    Flag(bool),
    /// The number of members.
    Size(B::Output),
    /// The number of runs.
    Count(usize),
    /// The least or the greatest member; `None` if the register is empty.
    Value(Option<B>),
    /// The runs, ascending.
    Runs(Vec<Interval<B>>),
    /// The command was refused, and all registers are unchanged.
    Refused(Refusal),
}
