// Written by bindings/rust/extract from crates/ivl_store_lines/src/fault.rt.
//! Why a line is not carried out.

#[allow(unused_imports)]
use crate::rattle::prelude::*;
use crate::rattle::std::alloc::AllocError;

/// Why a line is not carried out. The texts are words of the line, except that of `Form`.
pub enum Fault<'a> {
    /// The line is not UTF-8.
    Bytes,
    /// The first word is not a command.
    Command(&'a str),
    /// The words do not have the form of their command, or of a rule, which is this.
    Form(&'static str),
    /// The word is not a number of `i64`.
    Number(&'a str),
    /// A bound is outside the range, which is that of `i64` without its least number; or a rule adds that
    /// number after its sign.
    Range,
    /// No variable has this name.
    Unknown(&'a str),
    /// A variable has this name already.
    Defined(&'a str),
    /// The variable is named twice in a rule.
    Repeated(&'a str),
    /// The name of a new variable is a number.
    Numeral(&'a str),
    /// The first bound of a pair is above the second.
    Crossed(i64, i64),
    /// An allocation failed.
    Memory,
}

impl<'a> From<AllocError> for Fault<'a> {
    fn from(_: AllocError) -> Fault<'a> {
        Fault::Memory
    }
}
