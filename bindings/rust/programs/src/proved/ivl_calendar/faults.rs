// Written by bindings/rust/extract from crates/ivl_calendar/src/faults.rt.
//! Why a line is not carried out.

#[allow(unused_imports)]
use crate::rattle::prelude::*;
use crate::proved::ivl_lines::Escaped;
use crate::rattle::std::io;
use crate::rattle::std::io::Write;

/// Why a line is not carried out. The texts are words of the line, except that of `Form`.
pub enum Fault<'a> {
    /// The first word is not a command.
    Command(&'a str),
    /// The words do not have the form of their command, which is this.
    Form(&'static str),
    /// No room has this name.
    Room(&'a str),
    /// A room has this name already.
    Known(&'a str),
    /// The word is not the date of a day.
    Day(&'a str),
    /// The second of these dates is before the first.
    Order(&'a str, &'a str),
    /// The word is not a name of who books.
    Name(&'a str),
    /// The word is not a number.
    Number(&'a str),
    /// The number is below 1.
    Low(&'a str),
    /// The number is above 4294967295.
    High(&'a str),
    /// An allocation failed.
    Memory,
}

/// Writes why a line was not carried out. Words of the line are printed with their control characters
/// escaped.
pub fn write_fault<W: Write>(writer: &mut W, fault: &Fault<'_>) -> io::Result<()> {
    match fault {
        Fault::Command(word) => writeln!(
            writer,
            "error: unknown command {}; help lists the commands",
            Escaped(word)
        ),
        Fault::Form(form) => writeln!(writer, "error: write {form}"),
        Fault::Room(name) => writeln!(writer, "error: unknown room {}", Escaped(name)),
        Fault::Known(name) => writeln!(writer, "error: {} is a room already", Escaped(name)),
        Fault::Day(word) => writeln!(writer, "error: {} is no day", Escaped(word)),
        Fault::Order(first, last) => writeln!(
            writer,
            "error: {} is before {}",
            Escaped(last),
            Escaped(first)
        ),
        Fault::Name(word) => writeln!(writer, "error: {} is no name", Escaped(word)),
        Fault::Number(word) => writeln!(writer, "error: {} is no number", Escaped(word)),
        Fault::Low(word) => writeln!(writer, "error: {} is below 1", Escaped(word)),
        Fault::High(word) => writeln!(writer, "error: {} is above 4294967295", Escaped(word)),
        Fault::Memory => writer.write_all(b"error: out of memory\n"),
    }
}
