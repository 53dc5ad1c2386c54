// Written by bindings/rust/extract from crates/ivl_calculator_lines/src/lines.rt.
//! What a line says.

#[allow(unused_imports)]
use crate::rattle::prelude::*;
use crate::proved::ivl_calculator_lines::commands::{command_from, pairs_in_range, register_from};
use crate::proved::ivl_calculator::Command;
use crate::proved::ivl_lines::{line_text, next_word};
use crate::rattle::std::alloc::Global;

/// What a line says: nothing, a command, or something that is not a command.
pub enum Line {
    /// The line has no words.
    Blank,
    /// The line has words that are not a command.
    Bad,
    /// The line is this command.
    Command(Command<i64>),
}

/// A `set` for whose pairs there is no memory: its register, and whether each pair is in range.
#[derive(Clone, Copy)]
pub struct Unkept {
    /// The register.
    pub register: usize,
    /// Whether each pair is in range.
    pub in_range: bool,
}

/// Reads a line, given without its newline. Linear in its length.
///
/// # Errors
///
/// Fails only if an allocation for the pairs of a `set` fails. They are then read and not kept.
pub fn read_line(alloc: Global, line: &[u8]) -> Result<Line, Unkept> {
    let Some(text) = line_text(line) else {
        return Ok(Line::Bad);
    };
    let Some((name, words)) = next_word(text) else {
        return Ok(Line::Blank);
    };
    let Ok(command) = command_from(alloc, name, words) else {
        return read_unkept(words);
    };
    match command {
        Some(command) => Ok(Line::Command(command)),
        None => Ok(Line::Bad),
    }
}

// What the words after `set` say, of which no pair is kept.
fn read_unkept(words: &str) -> Result<Line, Unkept> {
    let Some((first, rest)) = next_word(words) else {
        return Ok(Line::Bad);
    };
    let Some(register) = register_from(first) else {
        return Ok(Line::Bad);
    };
    match pairs_in_range(rest) {
        Some(in_range) => Err(Unkept { register, in_range }),
        None => Ok(Line::Bad),
    }
}
