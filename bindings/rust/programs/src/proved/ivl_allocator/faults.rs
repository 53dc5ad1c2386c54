// Written by bindings/rust/extract from crates/ivl_allocator/src/faults.rt.
//! Why a line is not carried out.

#[allow(unused_imports)]
use crate::rattle::prelude::*;
use crate::proved::ivl_lines::Escaped;
use crate::rattle::std::io;
use crate::rattle::std::io::Write;

/// Why a line is not carried out. The texts are words of the line, except that of `Form`.
pub enum Fault<'a> {
    /// The first word is not a command.
    Command(&'a str),
    /// The words do not have the form of their command, which is this.
    Form(&'static str),
    /// The word is not a number.
    Number(&'a str),
    /// The number is below this one.
    Below(&'a str, u64),
    /// The number is above this one.
    Above(&'a str, u64),
}

/// Writes why a line was not carried out. Words of the line are printed with their control characters
/// escaped.
pub fn write_fault<W: Write>(writer: &mut W, fault: &Fault<'_>) -> io::Result<()> {
    match fault {
        Fault::Command(word) => writeln!(
            writer,
            "error: unknown command {}; help lists the commands",
            Escaped(word)
        ),
        Fault::Form(form) => writeln!(writer, "error: write {form}"),
        Fault::Number(word) => writeln!(writer, "error: {} is no number", Escaped(word)),
        Fault::Below(word, least) => {
            writeln!(writer, "error: {} is below {least}", Escaped(word))
        }
        Fault::Above(word, most) => { writeln!(writer, "error: {} is above {most}", Escaped(word)) }
    }
}

/// Writes what the command of this name does, or that there is no such command.
pub fn write_help_of<W: Write>(writer: &mut W, name: &str, text: Option<&str>) -> io::Result<()> {
    match text {
        Some(text) => writeln!(writer, "{text}"),
        None => write_fault(writer, &Fault::Command(name)),
    }
}
