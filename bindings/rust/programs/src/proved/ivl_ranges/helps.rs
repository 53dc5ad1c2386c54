// Written by bindings/rust/extract from crates/ivl_ranges/src/helps.rt.
//! What `help` answers, and an unknown command.

#[allow(unused_imports)]
use crate::rattle::prelude::*;
use crate::proved::ivl_lines::{Escaped, next_word};
use crate::rattle::std::io;
use crate::rattle::std::io::Write;

/// Returns whether the first word of a line begins a comment: with `#`, which is 35.
pub fn is_comment(name: &str) -> bool {
    name.starts_with('#')
}

/// Writes that there is no such command. Its control characters are printed escaped.
pub fn write_unknown<W: Write>(writer: &mut W, name: &str) -> io::Result<()> {
    writeln!(
        writer,
        "error: unknown command {}; help lists the commands",
        Escaped(name)
    )
}

/// Answers `help`, given the words after it: the commands, or what one of them does.
pub fn write_help<W: Write>(writer: &mut W, words: &str) -> io::Result<()> {
    let Some((name, rest)) = next_word(words) else {
        return writer.write_all(b"i, k, length, check; help COMMAND tells what one does\n");
    };
    match next_word(rest) {
        None => write_help_of(writer, name),
        Some(_) => writer.write_all(b"error: write help or help COMMAND\n"),
    }
}

fn write_help_of<W: Write>(writer: &mut W, name: &str) -> io::Result<()> {
    match help_text(name) {
        Some(text) => writeln!(writer, "{text}"),
        None => write_unknown(writer, name),
    }
}

// What a command does, or `None` if there is no such command.
fn help_text(name: &str) -> Option<&'static str> {
    match name {
        "i" => {
            Some("i RANGES: the values that i may have, such as i -1..1 5..5, the lower end first")
        }
        "k" => {
            Some("k RANGES: the values that k may have, such as k -1..1 5..5, the lower end first")
        }
        "length" => Some("length NUMBER: the length of the array"),
        "check" => Some("check: safe, or the values of i that are safe for every k"),
        "help" => Some("help: the commands; help COMMAND: what one does"),
        _ => None,
    }
}
