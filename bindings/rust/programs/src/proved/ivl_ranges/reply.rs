// Written by bindings/rust/extract from crates/ivl_ranges/src/reply.rt.
//! The answer to a line.

#[allow(unused_imports)]
use crate::rattle::prelude::*;
use crate::proved::ivl_ranges::helps::write_unknown;
use crate::proved::intervallum::interval_set::IntervalSet;
use crate::proved::intervallum::ops::IsEmpty;
use crate::rattle::std::alloc::AllocError;
use crate::rattle::std::io;
use crate::rattle::std::io::Write;

/// The answer to a line that is carried out.
pub enum Reply {
    /// What the line gives is kept.
    Done,
    /// Every `i + k` is an index.
    Safe,
    /// Some `i + k` is not an index. These are the values of `i` that are safe for every `k`.
    SafeFor(IntervalSet<i64>),
}

/// Why a line is not carried out.
#[derive(Clone, Copy)]
pub enum Fault {
    /// The first word is not a command.
    Command,
    /// A word after `i` or `k` is not a range, or there is none.
    Ranges,
    /// The words after `length` are not one length.
    Length,
    /// Words stand after `check`.
    Check,
    /// `i` has no range.
    NoIndex,
    /// `k` has no range.
    NoOffset,
    /// An allocation failed.
    Memory,
}

impl From<AllocError> for Fault {
    fn from(_: AllocError) -> Fault {
        Fault::Memory
    }
}

/// Writes the answer to a line, given its first word.
pub fn write_told<W: Write>(
    writer: &mut W,
    name: &str,
    told: &Result<Reply, Fault>,
) -> io::Result<()> {
    match told {
        Err(Fault::Command) => write_unknown(writer, name),
        Ok(Reply::Done) => writer.write_all(b"ok\n"),
        Ok(Reply::Safe) => writer.write_all(b"safe\n"),
        Ok(Reply::SafeFor(safe)) => write_safe_for(writer, safe),
        Err(fault) => write_fault(writer, *fault),
    }
}

fn write_safe_for<W: Write>(writer: &mut W, safe: &IntervalSet<i64>) -> io::Result<()> {
    if safe.is_empty() {
        return writer.write_all(b"safe for no i\n");
    }
    safe.in_whole();
    writeln!(writer, "safe for i in {safe} alone")
}

fn write_fault<W: Write>(writer: &mut W, fault: Fault) -> io::Result<()> {
    writeln!(writer, "error: {}", fault_text(fault))
}

fn fault_text(fault: Fault) -> &'static str {
    match fault {
        Fault::Command => "unknown command",
        Fault::Ranges => "write ranges such as -1..1 5..5, with the lower end first",
        Fault::Length => "write length NUMBER, from 0 to 4294967295",
        Fault::Check => "write check",
        Fault::NoIndex => "i has no range",
        Fault::NoOffset => "k has no range",
        Fault::Memory => "out of memory",
    }
}
