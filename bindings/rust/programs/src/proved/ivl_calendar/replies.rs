// Written by bindings/rust/extract from crates/ivl_calendar/src/replies.rt.
//! The text of an answer.

#[allow(unused_imports)]
use crate::rattle::prelude::*;
use crate::proved::ivl_calendar::dates::date_of;
use crate::proved::intervallum::interval::Interval;
use crate::proved::intervallum::ops::Bounded;
use crate::rattle::std::io;
use crate::rattle::std::io::Write;

/// Writes a text as a line.
pub fn write_line<W: Write>(writer: &mut W, text: &str) -> io::Result<()> {
    writeln!(writer, "{text}")
}

/// Writes runs of days as a line: their first and last days, with commas between, or `none`.
pub fn write_spans<W: Write>(writer: &mut W, runs: &[Interval<i32>]) -> io::Result<()> {
    let Some((first, others)) = runs.split_first() else {
        return write_line(writer, "none");
    };
    write_span(writer, first)?;
    write_more_spans(writer, others)?;
    writer.write_all(b"\n")
}

// Writes runs of days, each after a comma.
fn write_more_spans<W: Write>(writer: &mut W, runs: &[Interval<i32>]) -> io::Result<()> {
    let mut runs = runs;
    while let Some((first, others)) = runs.split_first() {
        writer.write_all(b", ")?;
        write_span(writer, first)?;
        runs = others;
    }
    Ok(())
}

/// Writes the first and the last day of an interval, which must be days of the calendar, in order.
pub fn write_span<W: Write>(writer: &mut W, days: &Interval<i32>) -> io::Result<()> {
    match (date_of(days.lower()), date_of(days.upper())) {
        (Some(first), Some(last)) => write!(writer, "{first} to {last}"),
        _ => unreachable!(),
    }
}
