// Written by bindings/rust/extract from crates/ivl_calculator_lines/src/replies.rt.
//! The text of a reply.

#[allow(unused_imports)]
use crate::rattle::prelude::*;
use crate::proved::intervallum::interval::Interval;
use crate::proved::ivl_calculator::{Refusal, Reply};
use crate::rattle::std::io;
use crate::rattle::std::io::Write;

/// Writes the reply and a newline. The caller must ensure that no run of the reply is empty. Check
/// with `is_empty`.
///
/// # Errors
///
/// Returns the error of a failed write. Part of the text may then be written.
pub fn write_reply<W: Write>(writer: &mut W, reply: &Reply<i64>) -> io::Result<()> {
    match reply {
        Reply::Done => writer.write_all(b"ok")?,
        Reply::Cut(true) => writer.write_all(b"cut")?,
        Reply::Cut(false) => writer.write_all(b"ok")?,
        Reply::Flag(true) => writer.write_all(b"yes")?,
        Reply::Flag(false) => writer.write_all(b"no")?,
        Reply::Size(n) => write!(writer, "{n}")?,
        Reply::Count(n) => write!(writer, "{n}")?,
        Reply::Value(Some(item)) => write!(writer, "{item}")?,
        Reply::Value(None) => writer.write_all(b"none")?,
        Reply::Runs(runs) => write_runs(writer, runs)?,
        Reply::Refused(why) => writer.write_all(refusal_bytes(*why))?,
    }
    writer.write_all(b"\n")
}

fn refusal_bytes(why: Refusal) -> &'static [u8] {
    match why {
        Refusal::Register => b"refused 1 register",
        Refusal::Range => b"refused 2 range",
        Refusal::Fit => b"refused 3 fit",
        Refusal::Memory => b"refused 4 memory",
    }
}

// Writes the runs, in braces unless there is exactly one.
fn write_runs<W: Write>(writer: &mut W, runs: &[Interval<i64>]) -> io::Result<()> {
    if let [run] = runs {
        return write!(writer, "{run}");
    }
    writer.write_all(b"{")?;
    for run in runs {
        write!(writer, "{run}")?;
    }
    writer.write_all(b"}")
}
